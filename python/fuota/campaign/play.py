"""A campaign, step by step: what goes out when. What is sent, and what an answer means, is the library's server's."""
import math
from collections.abc import Iterator
from functools import partial

from .. import library
from .carrier import Uplink
from .contact import SETUP, Contact
from .heard import clock_error, missing_in, texts_of
from .journal import Line
from .opening import Action
from .plan import gps
from .reserve import Rounds


class Campaign(Rounds):
    """A campaign over a carrier, kept in a folder."""

    # ---- What is to do

    def next_action(self) -> Action | None:
        """When something is to do, and what; None where nothing is any more."""
        now = self.carrier.now()
        if self.decided == "wait":
            later = self.later()
            return (now, partial(self.move_to, later)) if later else None
        to_all, to_each = (max(now, self.pace.at[is_group]) for is_group in (self.plan.group is not None, False))
        fragments = [*self.to_all(to_all)]
        requests = [*self.to_each(to_each, self.is_asking(to_all) and not self.copies)]
        if not fragments and not requests:
            return None
        answers, again = ([*self.to_who_asked(to_each, is_again)] for is_again in (False, True))
        answers += self.to_wrong_clocks(to_each)
        # (of what is due at one moment the first goes out: what goes to the group, then by turns, where a device that was answered
        # before comes after all requests, unless its answer was lost)
        first, others = (fragments, requests) if self.plan.group else ([], fragments + requests)
        if not any(moment <= to_each for moment, _ in requests):
            answers += again
        turns = others + answers if self.history.was_answer else answers + others
        return min(first + turns + again, key=lambda action: action[0])

    def to_all(self, free: float) -> Iterator[Action]:
        """What goes to all devices, which comes first."""
        is_awaited = any(contact.stage == "status" for contact in self.contacts)
        moment = self.within(free)
        if self.copies:
            yield free, self.send_copy
        elif not self.is_begun:
            yield self.opening()
        elif moment is not None and self.sent < self.target:
            is_settled = all(contact.stage not in SETUP or contact.is_silent for contact in self.contacts)
            if is_awaited and (is_settled or self.plan.group):
                yield moment, self.send_fragment
        elif moment is not None and is_awaited and not self.is_over(free):
            yield from self.rounds(free)
        elif moment is not None and is_awaited:
            yield from self.last_status(free)

    def to_each(self, free: float, is_asking: bool) -> Iterator[Action]:
        """The requests, and the ends of waiting: those before the fragments, and those after them. Devices that do not answer
        hold up no others: the least often asked comes first, and of these the one that is due longest."""
        for contact in sorted(self.contacts, key=lambda contact: (contact.tries, contact.due)):
            is_asked = contact.stage not in SETUP + ("status",) or is_asking == (contact.stage == "status")
            if contact.is_done or contact.is_silent or not is_asked or self.waits_for_round(contact, free):
                continue
            if contact.is_spent:
                yield contact.due, partial(self.give_up, contact)
            else:
                yield max(free, contact.due, self.asked_one_by_one(contact)), partial(self.ask, contact)

    def to_who_asked(self, free: float, is_again: bool) -> Iterator[Action]:
        """The answers that wait, to devices that were answered before or to the others; the first to whom the last one is longest
        ago. A device that asks again and again has no more of them than of requests, and none while something waits for an uplink
        of it."""
        for contact in sorted(self.contacts, key=lambda contact: contact.answered_at):
            if contact.waiting and not contact.queued and is_again == contact.is_patient:
                yield max(free, contact.answered_at + self.plan.retry.distance), partial(self.answer, contact)

    def to_wrong_clocks(self, free: float) -> Iterator[Action]:
        """While the window is not past: who is to ask for the time, as its clock is wrong."""
        for contact in self.contacts:
            if contact.is_to_resync and self.plan.window and free < self.plan.window.closes:
                yield max(free, contact.resynced_at + self.plan.retry.distance), partial(self.resync, contact)

    def step(self) -> bool:
        """Waits for uplinks or the next action, and does what is due then; whether there was an action."""
        action = self.next_action()
        if action is None:
            return False
        self.hear(self.carrier.wait(min(action[0], self.carrier.now() + self.carrier.tick)))
        moment, act = self.next_action() or (math.inf, lambda: None)
        if self.carrier.now() >= moment:
            act()
        return True

    # ---- What is done

    def ask(self, contact: Contact) -> None:
        if contact.queued:
            contact.wait_for_queue(self.carrier.now())
        elif self.pause_unless_up():
            self.send(self.server.ask(contact.number), contact, sent="request", stage=contact.stage)

    def answer(self, contact: Contact) -> None:
        """Answers a device that asked for the time. What it is told is by how much its clock was wrong as it asked, which
        stays right while it waits."""
        if self.pause_unless_up():
            down, contact.waiting = contact.waiting, None
            self.send(down, contact, sent="answer")

    def resync(self, contact: Contact) -> None:
        """Asks a device to ask for the time."""
        if self.pause_unless_up():
            self.send(self.calls.force_device_resync(1), contact, sent="resync")

    def give_up(self, contact: Contact) -> None:
        """A device that did not answer is left alone, until it is heard."""
        self.note(device=contact.eui, silent=contact.stage, tries=contact.tries)

    def hear(self, uplinks: list[Uplink]) -> None:
        """Takes uplinks that came together, and keeps them at once. An answer goes out at its turn."""
        lines = [line for line in map(self.taken, uplinks) if line]
        if lines:
            self.keep()
            self.folder.journal.write(*lines)

    def taken(self, uplink: Uplink) -> Line | None:
        """What the journal says of an uplink of a device of the plan, on a port of the packages."""
        contact = self.history.contacts.get(uplink.eui)
        if contact is None:
            return None
        now = self.carrier.now()
        contact.take_from_queue(now)
        if not 200 <= uplink.port <= 203:
            return None
        told: Line = {"t": now, "device": uplink.eui, "heard": uplink.payload.hex(), "port": uplink.port}
        try:
            answer = self.server.uplink(contact.number, uplink.port, uplink.payload, max(0, gps(uplink.t)))
        except (library.Refused, library.OutOfRange) as why:
            told["refused"] = why.name
        else:
            contact.waiting = answer or contact.waiting
            texts = texts_of(self.calls, uplink.port, uplink.payload)
            told |= self.moved(contact, now, texts)
            missing = missing_in(texts, self.plan.index)
            if missing is not None:
                told |= {"missing": missing, "over": self.is_beyond(missing, now)}
            told |= clock_error(texts, self.plan, uplink.t)
        self.history.take(told)
        return told

    def moved(self, contact: Contact, now: int, texts: list[str]) -> Line:
        """The stage that a device is at since an uplink, with the text of a refusal, and whether it is back."""
        told = self.stage_of(contact)
        if "bits" in told and contact.stage != told["stage"]:
            told["answer"] = ", ".join(texts)
        is_back = contact.is_silent and told["stage"] in SETUP and told["stage"] == contact.stage
        if is_back and self.plan.group and not self.is_asking(now):
            told["back"] = True
        return told

    # ---- How it stands

    def left(self) -> float:
        """About how many ms the fragments take still."""
        now = self.carrier.now()
        if self.is_asking(max(self.pace.at[self.plan.group is not None], now)):
            return 0
        begin = (self.within(now) or now) - now
        return begin + (self.target - self.sent) * self.plan.copies * self.plan.distance(self.plan.fragment_air)

    @property
    def is_updated(self) -> bool:
        return all(contact.stage == "updated" for contact in self.contacts)
