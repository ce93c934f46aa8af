"""The campaign of a seed: its image and script are drawn from one sequence of numbers, and played and summed up.

Eight devices of class C without a group lose at most 60 pieces each, so that all of them are updated in the end.
"""
from collections.abc import Iterator

from .image import make_image
from .parity import pieces_for
from .server import UPDATED
from .session import COMPLETE
from .world import World, play

DEVICES = 8
ROWS = 64
SIZE = 64
CODED = 128
MOST_SKIPPED = 60
SETUP_TURNS, LAST_TURNS = 2, 4


class Draws:
    """The numbers of a seed."""

    def __init__(self, seed: int) -> None:
        self.state = seed

    def draw(self) -> int:
        """The next number: the upper 16 bits of the next state."""
        self.state = (1664525 * self.state + 1013904223) % 2**32
        return self.state // 65536


def image_of_seed(seed: int, draws: Draws) -> bytes:
    """The image, whose body is drawn."""
    length = 4096 + draws.draw() % 4096
    body = bytes(draws.draw() % 256 for _ in range(length))
    return make_image(1, 1 + seed % 1000, body)


def turns(each: int, sent: int, made: int) -> Iterator[str]:
    """So many turns of each device: it is asked, hears the payload, and its uplink comes up."""
    for device in range(1, DEVICES + 1):
        for _ in range(each):
            sent, made = sent + 1, made + 1
            yield from (f"ask {device}", f"down {sent} {device}", f"up {made}")


def deliveries(device: int, pieces: int, draws: Draws) -> Iterator[str]:
    """A device hears all fragments in order, but for those that are lost; some come twice."""
    skipped = 0
    for n in range(1, pieces + CODED + 1):
        digit = draws.draw() % 10
        if digit == 0 and (n > pieces or skipped < MOST_SKIPPED):
            skipped += n <= pieces
            continue
        number = SETUP_TURNS * DEVICES + n
        yield from [f"down {number} {device}"] * (2 if digit == 1 else 1)


def script_of_seed(pieces: int, draws: Draws) -> Iterator[str]:
    """The lines of the script."""
    yield from ("fuota 1", f"image {SIZE} {CODED}")
    for device in range(1, DEVICES + 1):
        yield f"device {device} c 1 {ROWS} {draws.draw()} {'0' * 32}"
    yield from turns(SETUP_TURNS, 0, 0)
    yield from ["frag"] * (pieces + CODED)
    for device in range(1, DEVICES + 1):
        yield from deliveries(device, pieces, draws)
    setups = SETUP_TURNS * DEVICES
    yield from turns(LAST_TURNS, setups + pieces + CODED, setups)
    yield "end"


def summary_of(world: World) -> str:
    """What is counted over payloads and devices."""
    first = [device.sessions[0] for device in world.devices if device.sessions[0] is not None]
    heard = sum(session.received for session in first)
    complete = sum(session.verdict().state == COMPLETE for session in first)
    updated = sum(stage.name == UPDATED for stage in world.server.stages)
    return (
        f"image {len(world.server.image)} fragments {world.server.pieces}\n"
        f"sent {len(world.sent)} heard {heard}\ncomplete {complete} updated {updated}\nend\n"
    )


def generate(seed: int) -> str:
    """The summary of the campaign of a seed."""
    draws = Draws(seed)
    image = image_of_seed(seed, draws)
    lines = script_of_seed(pieces_for(len(image), SIZE), draws)
    script = "".join(line + "\n" for line in lines)
    return f"generate {seed}\n" + summary_of(play(image, script.encode()))
