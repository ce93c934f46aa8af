"""A campaign that is begun, and begun again: its server, its folder, and what its journal tells."""
from typing import Any

from .. import library
from ..errors import Wrong
from .carrier import LOG, Carrier
from .contact import Contact
from .folder import Folder, first_server
from .journal import VERSION, History
from .plan import Plan
from .reckoning import lateness, unfit
from .silence import never_answered, told_of


class Begun:
    """A campaign over a carrier, kept in a folder. `plan` is that for the start of the window that the server is for."""

    def __init__(self, plan: Plan, folder: Folder, carrier: Carrier, calls: library.Library | None = None) -> None:
        self.folder, self.carrier, self.calls = folder, carrier, library.library_of(calls)
        self.copies: list[tuple[Contact, int, library.Down]] = []
        self.history = History(folder.journal.lines, plan.retry)
        self.server, self.plan = folder.server_of(plan, self.calls)
        self.begin()

    def begin(self) -> None:
        """Holds plan and carrier against the journal, and notes the begin."""
        now = self.carrier.now()
        euis = [device.eui for device in self.plan.devices]
        is_new = not self.history.contacts
        if not is_new and (list(self.history.contacts), self.history.carrier) != (euis, self.carrier.name):
            raise Wrong(f"{self.folder.path}: its campaign was begun with other devices, or by {self.history.carrier}")
        if not self.folder.has_server:
            self.refuse_unfit(now)
        self.carrier.hold(self.plan, is_new, self.calls)
        self.keep()
        if is_new:
            self.note(version=VERSION, devices=euis, by=self.carrier.name, index=self.plan.index, fragments=self.plan.fragments,
                      **self.begin_members())
        else:
            self.note(again=True, number=self.sent)
            self.complete_window()
        for contact in self.contacts:
            contact.resume()
            # (what was kept of the server may be a line ahead of the journal)
            told = self.stage_of(contact)
            if contact.stage != told["stage"]:
                self.note(device=contact.eui, **told)
        self.copies = self.copies_left()
        self.say_who_is_silent(is_new)

    def complete_window(self) -> None:
        """What was kept of the server may be for a window that the journal does not tell yet."""
        told, window = self.history.last_window, self.plan.window
        if told and window and told.opens != window.opens:
            self.note(opens=window.opens, closes=window.closes)

    def say_who_is_silent(self, is_new: bool) -> None:
        """Says which devices the network server never heard, where it tells that, or, begun again, which never answered."""
        euis = self.carrier.never_heard(self.plan) if is_new else never_answered(self.contacts)
        if euis:
            LOG.warning("%s", told_of(euis, "the network server never heard" if is_new else "no answer so far of"))

    def begin_members(self) -> dict[str, int]:
        """What the first line of the journal tells of a reserve, and of a group and its window."""
        group, window = self.plan.group, self.plan.window
        told = {"reserve": self.plan.reserve} if self.plan.reserve else {}
        return told | ({"first": group.first, "opens": window.opens, "closes": window.closes} if group and window else {})

    def copies_left(self) -> list[tuple[Contact, int, library.Down]]:
        """By unicast, the copies of the last fragment that had not gone out as the command ended."""
        number = self.sent
        has_it = self.history.copied_to if self.history.copied == number else set()
        left = [contact for contact in self.contacts if contact.stage == "status" and contact.eui not in has_it]
        if self.plan.group or not number or not left:
            return []
        down = self.fragment(number)
        return [(contact, number, down) for contact in left]

    def fragment(self, number: int) -> library.Down:
        """A fragment that was taken from the server before. It hangs on plan and image alone: a server at its start, which is
        never kept, gives it once more. By unicast no frame count is spent by that."""
        with first_server(self.plan, self.calls) as server:
            downs = [server.next_fragment() for _ in range(number)]
        return self.given(downs[-1])

    def given(self, down: library.Down | None) -> library.Down:
        """What the server gave, which has to be something."""
        if down is None:
            raise Wrong(f"{self.folder.path}: the server has nothing to send where it should")
        return down

    def refuse_unfit(self, now: int) -> None:
        """A campaign that can't end well is not begun."""
        fault = unfit(self.plan, now)
        if fault:
            raise Wrong(f"{self.plan.file}: {fault}")
        late = lateness(self.plan, now)
        if late:
            LOG.warning("%s", late)

    @property
    def contacts(self) -> list[Contact]:
        return list(self.history.contacts.values())

    def stage_of(self, contact: Contact) -> dict[str, Any]:
        """Where a device stands, as the journal has it: a refused one with the stage and the bits of its refusal."""
        stage = self.server.ledger(contact.number)
        if stage.stage != library.StageKind.STOPPED:
            return {"stage": stage.word}
        return {"stage": stage.word, "request": library.Request(stage.request).word, "bits": stage.bits}

    def keep(self) -> None:
        self.folder.keep(self.server.save())

    def note(self, **told: Any) -> None:
        """Writes a line of the journal, and takes over what it says."""
        line = {"t": self.carrier.now(), **told}
        self.folder.journal.write(line)
        self.history.take(line)

    # ---- How far it is

    @property
    def sent(self) -> int:
        """How many fragments were taken from the server."""
        return self.server.fragment_number() - 1

    @property
    def group_payloads(self) -> int:
        """How many payloads were taken for the group."""
        return self.server.frame_count() - (self.plan.group.first if self.plan.group else 0)

    def within(self, moment: float) -> float | None:
        """The moment, or the window's begin if that is later; None after the window's end."""
        window = self.plan.window
        if window is None:
            return moment
        moment = max(moment, window.opens + window.guard)
        return moment if moment < window.closes - window.guard else None
