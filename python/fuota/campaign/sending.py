"""What goes out of a campaign: kept and noted before, and paced."""
from typing import Any

from .. import library
from .begun import Begun
from .carrier import Carrier, Lost
from .contact import Contact
from .folder import Folder
from .plan import Plan

# The ms until a network server that did not take a payload is tried again: the first time, and at most.
FIRST_HOLD, LONGEST_HOLD = 1_000, 60_000


class Pace:
    """From when on a downlink may go out: the air of the group and that of devices are counted apart, as they lie on
    frequencies of their own."""

    def __init__(self, plan: Plan, sent: dict[bool, tuple[int, float]]) -> None:
        self.plan = plan
        self.at: dict[bool, float] = {True: 0, False: 0}
        for is_group, (t, air) in sorted(sent.items(), key=lambda one: one[1]):
            self.count(t, air, is_group)

    def count(self, t: int, air: float, is_group: bool) -> None:
        """A payload went out, and is so many ms on the air."""
        self.at[is_group] = t + self.plan.distance(air)
        self.pause(t + self.plan.pace.distance)

    def pause(self, t: int) -> None:
        """Nothing goes out before this moment."""
        self.at = {way: max(at, t) for way, at in self.at.items()}


class Sending(Begun):
    """A campaign that sends; with `is_forced` its window begins however many devices are ready."""

    def __init__(self, plan: Plan, folder: Folder, carrier: Carrier, calls: library.Library | None = None,
                 is_forced: bool = False) -> None:
        super().__init__(plan, folder, carrier, calls)
        self.is_forced, self.hold = is_forced, 0
        self.pace = Pace(plan, self.history.sent)

    def pause_unless_up(self) -> bool:
        """Whether a carrier that lost a payload takes payloads again; where it does not nothing goes out for a while."""
        if self.hold and not self.carrier.is_up():
            self.pause()
            return False
        return True

    def pause(self) -> None:
        self.hold = min(2 * self.hold or FIRST_HOLD, LONGEST_HOLD)
        self.pace.pause(self.carrier.now() + self.hold)

    def send(self, down: library.Down | None, contact: Contact | None = None, **told: Any) -> None:
        """Sends what the server gave, once that it gave it is kept and noted."""
        down = self.given(down)
        air = self.plan.air(down.length, down.is_group)
        self.pace.count(self.carrier.now(), air, down.is_group)
        self.keep()
        if contact:
            told["device"] = contact.eui
        if down.is_group:
            told["count"] = down.count
        self.note(**told, air=round(air))
        try:
            if down.is_group and self.plan.group:
                given = self.carrier.to_group(self.plan.group, down.count, down.port, down.data)
                if given not in (None, down.count):
                    self.note(given=given)
            elif contact:
                device = self.plan.devices[contact.number - 1]
                self.carrier.to_device(device, down.port, down.data)
                if not device.is_class_c:
                    contact.queue()
            self.hold = 0
        except Lost as why:
            self.note(lost=str(why))
            self.pause()

    def send_fragment(self) -> None:
        if not self.pause_unless_up():
            return
        number, down = self.sent + 1, self.given(self.server.next_fragment())
        if not down.is_group:
            self.keep()
            self.copies = [(contact, number, down) for contact in self.contacts if contact.stage == "status"]
            self.send_copy()
        else:
            self.send(down, sent="fragment", number=number)

    def send_copy(self) -> None:
        """A fragment by unicast to the next device."""
        if self.pause_unless_up():
            contact, number, down = self.copies.pop(0)
            self.send(down, contact, sent="fragment", number=number)

    def send_status(self) -> None:
        """Asks all devices at once what they miss."""
        if self.pause_unless_up():
            self.send(self.server.status_all(), sent="status")
