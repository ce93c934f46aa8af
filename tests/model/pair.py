"""Two campaigns over one script: each is a campaign of its own, over the same lines, time and numbers of devices.

A line goes to the campaign whose it is; only what a server sent to all may reach a device of the other.
"""
from dataclasses import dataclass

from .report import device_part, image_words
from .script import LETTERS, Form, is_in_range, pair_form_of
from .words import Refused, is_beyond, lines_of
from .world import World, fits_flash, is_event_or_end, numbered

BOTH = ("fuota", "at", "end")


@dataclass(frozen=True)
class Owner:
    """Whose a device is, and its number there."""

    campaign: str
    number: int


class Pair:
    """Two campaigns at a moment, and whose each device of the script is."""

    def __init__(self, image_a: bytes, image_b: bytes) -> None:
        self.sides = {"a": World(image_a), "b": World(image_b)}
        self.owners: list[Owner] = []

    def other(self, campaign: str) -> World:
        """The other campaign."""
        return self.sides["b" if campaign == "a" else "a"]

    # ---- causes

    def is_in_order(self, form: Form) -> bool:
        """The plan of a comes before that of b, both before the devices, and events where both have devices."""
        a, b = self.sides["a"], self.sides["b"]
        if is_event_or_end(form):
            return a.takes_events() and b.takes_events()
        if form.name == "device" or form.campaign is None:
            return a.is_in_order(form) and b.is_in_order(form)
        if form.campaign == "a":
            return a.is_in_order(form) and b.section == "image"
        return b.is_in_order(form) and a.section in ("group", "device")

    def is_apart(self, form: Form) -> bool:
        """The index, group and address of b are others than those of a."""
        plan = self.sides["a"].server.plan
        if form.campaign == "b" and form.name == "image":
            return bool(form["index"] != plan.index)
        if form.campaign == "b" and form.name == "group" and plan.group is not None:
            return bool(form["id"] != plan.ident and form["addr"] != plan.group.addr)
        return True

    def is_next(self, form: Form) -> bool:
        """An ID is the next over both."""
        return form.name != "device" or form["id"] == len(self.owners) + 1

    def names_device(self, form: Form) -> bool:
        """The device is there."""
        return form.name == "device" or "device" not in form.fields or numbered(self.owners, form["device"]) is not None

    def cause_of(self, form: Form) -> str | None:
        """The first cause for which a form is refused: what concerns both, then what concerns the campaign."""
        if not self.is_in_order(form):
            return "order"
        if not (is_in_range(form) and self.is_next(form) and self.is_apart(form)):
            return "range"
        if not self.names_device(form):
            return "device"
        if not fits_flash(sum(len(side.flash) for side in self.sides.values()), form):
            return "limit"
        if form.name in BOTH:
            return self.sides["a"].cause_of(form) or self.sides["b"].cause_of(form)
        if self.crosses(form):
            return None if self.may_cross(form) else "unsent"
        campaign, own = self.own_form(form)
        return self.sides[campaign].cause_of(own)

    # ---- whose a form is

    def crosses(self, form: Form) -> bool:
        """A payload of one campaign comes to a device of the other."""
        return form.name in ("down", "air") and self.owners[form["device"] - 1].campaign != form.campaign

    def may_cross(self, form: Form) -> bool:
        """The payload was sent to all, and goes out as a frame where it goes by air."""
        sent = numbered(self.sides[form.named].sent, form["number"])
        return sent is not None and sent.receiver is None and (form.name == "down" or sent.down.is_to_group)

    def own_form(self, form: Form) -> tuple[str, Form]:
        """The campaign whose a form is, and what it says there: its devices have numbers of their own."""
        if form.name == "device":
            number = len(self.sides[form.named].devices) + 1
            return form.named, Form(form.name, {**form.fields, "id": number})
        if "device" not in form.fields:
            return form.named, form
        owner = self.owners[form["device"] - 1]
        return owner.campaign, Form(form.name, {**form.fields, "device": owner.number})

    def take(self, form: Form, line: int) -> None:
        """A form that is not refused, of the line with this number."""
        if form.name in BOTH:
            for side in self.sides.values():
                side.take(form, line)
        elif self.crosses(form):
            self.cross(form, line)
        else:
            campaign, own = self.own_form(form)
            self.sides[campaign].take(own, line)
            if form.name == "device":
                self.owners.append(Owner(campaign, own["id"]))

    def cross(self, form: Form, line: int) -> None:
        """A payload reaches a device of the other campaign, which hears a frame as little as the payload itself."""
        down = self.sides[form.named].sent[form["number"] - 1].down
        other = self.other(form.named)
        other.begin_events()
        other.reach(self.owners[form["device"] - 1].number, down, form["word"], line)


def play_pair(image_a: bytes, image_b: bytes, script: bytes) -> Pair:
    """The two campaigns of a script, or Refused with the first refused line."""
    pair, lines = Pair(image_a, image_b), lines_of(script)
    for number, line in enumerate(lines, 1):
        if is_beyond(number, line):
            raise Refused(number, "limit")
        form = pair_form_of(line)
        cause = "syntax" if form is None else pair.cause_of(form)
        if form is None or cause is not None:
            raise Refused(number, cause or "syntax")
        pair.take(form, number)
    if any(side.section != "ended" for side in pair.sides.values()):
        raise Refused(len(lines) + 1, "syntax")
    return pair


def pair_report_of(pair: Pair) -> str:
    """The report of two campaigns."""
    text = "fuota report 2\n"
    for letter in LETTERS:
        server = pair.sides[letter].server
        text += f"image {letter} {image_words(server)} index {server.plan.index}\n"
    for number, owner in enumerate(pair.owners, 1):
        side, k = pair.sides[owner.campaign], owner.number - 1
        text += device_part(f"{number} {owner.campaign}", side.server.stages[k], side.devices[k], side.server.image)
    return text + "end\n"
