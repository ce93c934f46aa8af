"""A campaign as its script tells it: the causes for which a line is refused, what a line makes, and the report.

Both ends are moved by the lines alone. Payloads and uplinks are numbered from 1, in the order of sending and making.
"""
from collections.abc import Callable
from dataclasses import dataclass
from typing import Any

from .device import Config, Device, Downlink, Uplink, new_device
from .groups import Group
from .parity import pieces_for
from .report import device_part, image_words
from .script import MAX_FLASH_DEVICES, Form, fits_payload, form_of, is_in_range
from .server import Plan, Server, Window
from .session import MAX_PIECES
from .words import Refused, is_beyond, lines_of

# which forms of the plan may come where; after the devices' lines come events and the end
PLAN_ORDER = {
    "header": ("fuota",),
    "image": ("image",),
    "group": ("group", "device"),
    "window": ("window",),
    "device": ("device",),
    "devices": ("device",),
    "events": (),
    "ended": (),
}
PLAN_FORMS = ("fuota", "image", "group", "window", "device")


@dataclass(frozen=True)
class Sent:
    """A payload that was sent: to one device, or to any where there is no receiver."""

    receiver: int | None
    down: Downlink


@dataclass(frozen=True)
class Made:
    """An uplink and the number of its device."""

    device: int
    uplink: Uplink


def numbered(items: list[Any], number: int) -> Any:
    """The item of a number, counted from 1; None where there is none."""
    return items[number - 1] if 1 <= number <= len(items) else None


def is_event_or_end(form: Form) -> bool:
    """The form comes after the plan."""
    return form.name not in PLAN_FORMS


class World:
    """A campaign at a moment."""

    def __init__(self, image: bytes) -> None:
        self.section = "header"
        self.time = 0
        self.server = Server(image, Plan())
        self.devices: list[Device] = []
        self.flash: set[int] = set()
        self.sent: list[Sent] = []
        self.uplinks: list[Made] = []

    # ---- causes

    def takes_events(self) -> bool:
        """Events and the end may come here."""
        return self.section in ("devices", "events")

    def is_in_order(self, form: Form) -> bool:
        """The form may come here."""
        if is_event_or_end(form):
            return self.takes_events()
        return form.name in PLAN_ORDER[self.section]

    def fits(self, form: Form) -> bool:
        """The image is cut into few enough pieces, and an ID is the next."""
        if form.name == "image":
            return pieces_for(len(self.server.image), form["fragsize"]) <= MAX_PIECES
        return form.name != "device" or form["id"] == len(self.devices) + 1

    def names_device(self, form: Form) -> bool:
        """The device is there, and one whose power goes has a flash."""
        if form.name == "device" or "device" not in form.fields:
            return True
        return self.is_device(form["device"]) and (form.name != "power" or form["device"] in self.flash)

    def is_device(self, number: int) -> bool:
        """There is a device of this number."""
        return 1 <= number <= len(self.devices)

    def is_available(self, form: Form) -> bool:
        """The payload was sent, to this device or to any, and as a frame where it goes by air; the uplink is due."""
        if form.name == "up":
            made = numbered(self.uplinks, form["number"])
            return made is not None and made.uplink.due <= self.time
        if form.name not in ("down", "air"):
            return True
        sent = numbered(self.sent, form["number"])
        if sent is None or sent.receiver not in (None, form["device"]):
            return False
        return form.name == "down" or sent.down.is_to_group

    def has_more(self, form: Form) -> bool:
        """There is something left to send."""
        if form.name == "frag":
            return self.server.has_fragment()
        return form.name != "status" or self.server.has_count()

    def cause_of(self, form: Form) -> str | None:
        """The first cause for which a form is refused; None where there is none."""
        if not self.is_in_order(form):
            return "order"
        if not (is_in_range(form) and self.fits(form)):
            return "range"
        if not self.names_device(form):
            return "device"
        if not self.is_available(form):
            return "unsent"
        if form.name == "at" and form["time"] < self.time:
            return "time"
        if not (fits_flash(len(self.flash), form) and fits_payload(form) and self.has_more(form)):
            return "limit"
        return None

    # ---- what a form makes

    def take(self, form: Form, line: int) -> None:
        """A form that is not refused, of the line with this number."""
        if is_event_or_end(form):
            self.begin_events()
        getattr(self, f"on_{form.name}")(form, line)

    def begin_events(self) -> None:
        """The plan is whole with the first event."""
        if self.section == "devices":
            self.server.begin()
        self.section = "events"

    def on_fuota(self, form: Form, line: int) -> None:
        """The first line."""
        self.section = "image"

    def on_image(self, form: Form, line: int) -> None:
        """How the image is cut."""
        plan = self.server.plan
        plan.fragsize, plan.parity, plan.index = form["fragsize"], form["parity"], form["index"]
        self.section = "group"

    def on_group(self, form: Form, line: int) -> None:
        """The plan's group."""
        self.server.plan.ident = form["id"]
        self.server.plan.group = Group(form["addr"], form["key"], form["min"], form["max"])
        self.section = "window"

    def on_window(self, form: Form, line: int) -> None:
        """The class session of the group."""
        self.server.plan.window = Window(**form.fields)
        self.section = "device"

    def on_device(self, form: Form, line: int) -> None:
        """One device more."""
        config = Config(
            is_class_a=form["class"] == "a",
            hardware=form["hw"],
            rows=form["rows"],
            offset=form["offset"],
            key=form["key"],
            is_appkey=form["k11"],
            descriptor=form["descriptor"],
            formats=1 if form["v1"] else 2,
            flash=form["flash"],
        )
        self.devices.append(new_device(config))
        self.server.plan.keys.append((config.key, config.is_appkey))
        if config.flash:
            self.flash.add(form["id"])
        self.section = "devices"

    def on_at(self, form: Form, line: int) -> None:
        """The time now."""
        self.time = form["time"]

    def on_wake(self, form: Form, line: int) -> None:
        """A device asks for the time."""
        self.happen(form["device"], lambda device: device.wake(self.time))

    def on_migrate(self, form: Form, line: int) -> None:
        """A device knows both image formats."""
        self.happen(form["device"], lambda device: device.migrate())

    def on_power(self, form: Form, line: int) -> None:
        """All that a device holds in flash is there again: nothing is another than before."""

    def on_ask(self, form: Form, line: int) -> None:
        """The request of a device's stage."""
        self.send(form["device"], self.server.request_for(form["device"]))

    def on_frag(self, form: Form, line: int) -> None:
        """The next fragment."""
        self.send(None, self.server.send_fragment())

    def on_status(self, form: Form, line: int) -> None:
        """A status request to all."""
        self.send(None, self.server.send_status())

    def on_down(self, form: Form, line: int) -> None:
        """A sent payload reaches a device."""
        self.reach(form["device"], numbered(self.sent, form["number"]).down, form["word"], line)

    def on_air(self, form: Form, line: int) -> None:
        """A sent payload reaches the radio of a device as its frame."""
        self.hear(form["device"], self.server.frame(numbered(self.sent, form["number"]).down), form["word"], line)

    def on_raw(self, form: Form, line: int) -> None:
        """Anybody's payload reaches a device."""
        self.reach(form["device"], Downlink(form["port"], form["payload"]), form["word"], line)

    def on_rawair(self, form: Form, line: int) -> None:
        """Anybody's bytes reach the radio of a device."""
        self.hear(form["device"], form["payload"], form["word"], line)

    def on_up(self, form: Form, line: int) -> None:
        """An uplink reaches the server, whose answer goes to its device."""
        made = numbered(self.uplinks, form["number"])
        answer = self.server.uplink(made.device, made.uplink.port, made.uplink.payload, self.time)
        self.send(made.device, answer)

    def on_end(self, form: Form, line: int) -> None:
        """The last line."""
        self.section = "ended"

    def send(self, receiver: int | None, down: Downlink | None) -> None:
        """A payload is sent, where there is one, and numbered."""
        if down is not None:
            self.sent.append(Sent(receiver, down))

    def reach(self, number: int, down: Downlink, word: int, line: int) -> None:
        """A payload reaches a device; the mark is the line."""
        self.happen(number, lambda device: device.receive(self.time, down, word, line))

    def hear(self, number: int, frame: bytes, word: int, line: int) -> None:
        """Bytes reach the radio of a device."""
        self.happen(number, lambda device: device.radio(self.time, frame, word, line))

    def happen(self, number: int, event: Callable[..., Any]) -> None:
        """After an event at a device its uplinks are taken and numbered."""
        device = self.devices[number - 1]
        event(device)
        self.uplinks.extend(Made(number, uplink) for uplink in device.take_uplinks())


def fits_flash(count: int, form: Form) -> bool:
    """After so many devices with a flash one more has its place."""
    return form.name != "device" or not form["flash"] or count < MAX_FLASH_DEVICES


def play(image: bytes, script: bytes) -> World:
    """The campaign of an image and a script, or Refused with the first refused line."""
    world, lines = World(image), lines_of(script)
    for number, line in enumerate(lines, 1):
        if is_beyond(number, line):
            raise Refused(number, "limit")
        form = form_of(line)
        cause = "syntax" if form is None else world.cause_of(form)
        if form is None or cause is not None:
            raise Refused(number, cause or "syntax")
        world.take(form, number)
    if world.section != "ended":
        raise Refused(len(lines) + 1, "syntax")
    return world


def report_of(world: World) -> str:
    """The report of a campaign."""
    server = world.server
    parts = (
        device_part(str(number), stage, device, server.image)
        for number, (stage, device) in enumerate(zip(server.stages, world.devices), 1)
    )
    return f"fuota report 1\nimage {image_words(server)}\n" + "".join(parts) + "end\n"
