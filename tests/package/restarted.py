"""Campaigns of the model in tests/model whose ends are ended and restored after their calls.

Each call at an end is made at the model's and at another one, which is ended and restored after it. What that one gives, and
what it shows once it is restored, has to be the model's.
"""
import random

from common import CRATE
from drawn_cases import campaigns
from model import generator, world
from model.image import image_of
from model.parity import pieces_for
from model.words import Refused

DATA = ("update.txt", "group.txt")
SEEDS = 50


class Differs(Exception):
    """The other end did another thing than the model's."""


def agree(what, wanted, got):
    if wanted != got:
        raise Differs(f"{what}: {got!r:.200} in place of {wanted!r:.200}")


class Device:
    """A device of the model, and another one beside it, which `other` makes, restores and asks."""

    def __init__(self, model, other):
        self.model, self.other = model, other

    def __getattr__(self, name):
        return getattr(self.model, name)

    def receive(self, t, down, word, mark):
        self.model.receive(t, down, word, mark)
        self.other.receive(t, down, word, mark)
        self.other.restart(self.model)

    def radio(self, t, frame, word, mark):
        self.model.radio(t, frame, word, mark)
        self.other.radio(t, frame, word, mark)
        self.other.restart(self.model)

    def wake(self, t):
        self.model.wake(t)
        self.other.wake(t)
        self.other.restart(self.model)

    def migrate(self):
        self.model.migrate()
        self.other.migrate()
        self.other.restart(self.model)

    def take_uplinks(self):
        taken = self.model.take_uplinks()
        agree("uplinks", [(up.due, up.port, up.payload) for up in taken], self.other.take_uplinks())
        return taken


def hold(monkeypatch, kind, image, script):
    """Plays a campaign in a world of a kind. Of a script that is refused the lines before count."""
    monkeypatch.setattr(world, "World", kind)
    played = None
    try:
        played = world.play(image, script)
    except Refused:
        return False
    finally:
        kind.end(played)
    return True


def of_data(name):
    """A campaign of crates/fuota/data: image and script."""
    return (CRATE / "data" / "image.fuim").read_bytes(), (CRATE / "data" / name).read_bytes()


def of_seed(seed):
    """The campaign of a seed."""
    draws = generator.Draws(seed)
    image = generator.image_of_seed(seed, draws)
    lines = generator.script_of_seed(pieces_for(len(image), generator.SIZE), draws)
    return image, "".join(line + "\n" for line in lines).encode()


def drawn(number):
    """A drawn campaign; None where its image is none."""
    case = campaigns.campaign_case(random.Random(f"restarts {number}"))
    return (case.files["image"], case.files["script"]) if image_of(case.files["image"]) else None
