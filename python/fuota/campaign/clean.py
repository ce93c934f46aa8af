"""After a campaign: each device is asked to delete what it left, and who has answered what is kept in the journal."""
import re
from collections.abc import Callable, Iterator
from dataclasses import dataclass
from functools import partial

from ..errors import Wrong
from ..library import Down, Library
from .carrier import Carrier, Lost, Uplink
from .contact import Contact, Standing
from .folder import Folder
from .heard import texts_of
from .journal import History, Line
from .plan import Plan, Retry
from .sending import Pace

# What the answers say, by their number: of FragSessionDeleteAns, McGroupDeleteAns (TS004, TS005) and DevDeleteImageAns (TS006).
ANSWERS = {
    "session": {0: "deleted", 1: "there was no session of this index"},
    "group": {0: "deleted", 1: "there was no group of this id"},
    "image": {0: "deleted", 1: "it had no valid image that waits", 2: "the image that waits has another version"},
}


@dataclass(frozen=True)
class Thing:
    """What is to be deleted: the request, and how its answer reads (docs/FORMATS.md)."""

    name: str
    request: Down
    answer: re.Pattern[str]

    def error_in(self, texts: list[str]) -> int | None:
        """The number that the answer among these commands tells; None without one."""
        found = [told for told in map(self.answer.fullmatch, texts) if told]
        return int(found[-1][1]) if found else None


def things_of(plan: Plan, calls: Library, is_image: bool) -> list[Thing]:
    """What a campaign of a plan leaves on a device: the session, the group, and where it is asked for an image that was not run."""
    index = plan.index
    things = [Thing("session", calls.frag_session_delete(index), re.compile(rf"FragSessionDeleteAns index={index} missing=(\d)"))]
    if plan.group:
        id = plan.group.id
        things.append(Thing("group", calls.mc_group_delete(id), re.compile(rf"McGroupDeleteAns id={id} undefined=(\d)")))
    if is_image:
        things.append(Thing("image", calls.dev_delete_image(plan.image.version), re.compile(r"DevDeleteImageAns bits=(\d+)")))
    return things


def told_of(thing: str, error: int) -> str:
    """What a device answered, in words."""
    return ANSWERS[thing].get(error, f"bits {error}")


class Cleaned(Contact):
    """A device that is asked to delete things, one after another."""

    def __init__(self, number: int, eui: str, retry: Retry, things: list[Thing]) -> None:
        super().__init__(number, eui, 0, retry)
        self.things, self.answers = things, dict[str, int]()

    @property
    def thing(self) -> Thing | None:
        """What it is asked to delete next; None where it has answered for all."""
        return next((thing for thing in self.things if thing.name not in self.answers), None)

    def take(self, line: Line) -> None:
        """A line of the journal that names it."""
        if line.get("sent") == "delete":
            self.tries += 1
            self.ask_later(line["t"])
        if "deleted" in line:
            self.answers[line["deleted"]] = line["error"]
            self.ask_anew(line["t"])
        if "undeleted" in line:
            self.standing = Standing.SILENT

    @property
    def told(self) -> str:
        """What it answered, and what it did not, in words."""
        answers = {thing.name: self.answers.get(thing.name) for thing in self.things}
        return "; ".join(f"{name}: {'no answer' if error is None else told_of(name, error)}" for name, error in answers.items())


class Cleaning:
    """What is asked of the devices of a campaign that has ended. A device that is silent is asked again by the next one."""

    def __init__(self, plan: Plan, folder: Folder, carrier: Carrier, calls: Library, is_image: bool, is_anyway: bool) -> None:
        self.plan, self.folder, self.carrier, self.calls = plan, folder, carrier, calls
        history = History(folder.journal.lines, plan.retry)
        euis = [device.eui for device in plan.devices]
        if list(history.contacts) != euis:
            raise Wrong(f"{folder.path}: no campaign with the devices of {plan.file} is kept there")
        if not is_anyway and not all(contact.is_done or contact.is_silent for contact in history.contacts.values()):
            raise Wrong(f"{folder.path}: its campaign has not ended: run it to its end, or give --anyway")
        self.things, self.pace = things_of(plan, calls, is_image), Pace(plan, history.sent)
        self.contacts = {eui: Cleaned(number, eui, plan.retry, self.things) for number, eui in enumerate(euis, 1)}
        for line in folder.journal.lines:
            if line.get("device") in self.contacts:
                self.contacts[line["device"]].take(line)
        for contact in self.contacts.values():
            if contact.is_silent:
                contact.ask_anew(0)

    def note(self, **told: object) -> None:
        """Writes a line of the journal, and takes over what it says."""
        line: Line = {"t": self.carrier.now(), **told}
        self.folder.journal.write(line)
        self.contacts[line["device"]].take(line)

    @property
    def is_done(self) -> bool:
        return all(contact.thing is None for contact in self.contacts.values())

    def actions(self) -> Iterator[tuple[float, Callable[[], None]]]:
        """What is to do, and when: the least often asked comes first, and of these the one that is due longest."""
        free = max(self.carrier.now(), self.pace.at[False])
        for contact in sorted(self.contacts.values(), key=lambda contact: (contact.tries, contact.due)):
            thing = contact.thing
            if thing is None or contact.is_silent:
                continue
            if contact.tries >= self.plan.retry.tries:
                yield contact.due, partial(self.give_up, contact, thing)
            else:
                yield max(free, contact.due), partial(self.ask, contact, thing)

    def step(self) -> bool:
        """Waits for uplinks or the next action, and does what is due then; whether there was something to do."""
        actions = [*self.actions()]
        if not actions:
            return False
        self.hear(self.carrier.wait(min(*(moment for moment, _ in actions), self.carrier.now() + self.carrier.tick)))
        for moment, act in sorted(self.actions(), key=lambda action: action[0])[:1]:
            if self.carrier.now() >= moment:
                act()
        return True

    def ask(self, contact: Cleaned, thing: Thing) -> None:
        """Asks a device to delete something, once that is noted."""
        now = self.carrier.now()
        if contact.queued:
            contact.wait_for_queue(now)
            return
        air = self.plan.air(thing.request.length, False)
        self.pace.count(now, air, False)
        self.note(sent="delete", device=contact.eui, thing=thing.name, air=round(air))
        device = self.plan.devices[contact.number - 1]
        try:
            self.carrier.to_device(device, thing.request.port, thing.request.data)
        except Lost as why:
            self.folder.journal.write({"t": self.carrier.now(), "lost": str(why)})
            return
        if not device.is_class_c:
            contact.queue()

    def give_up(self, contact: Cleaned, thing: Thing) -> None:
        self.note(device=contact.eui, undeleted=thing.name, tries=contact.tries)

    def hear(self, uplinks: list[Uplink]) -> None:
        """Takes uplinks; an answer is noted at once."""
        for uplink in uplinks:
            contact = self.contacts.get(uplink.eui)
            if contact is None:
                continue
            contact.take_from_queue(self.carrier.now())
            texts = texts_of(self.calls, uplink.port, uplink.payload) if 200 <= uplink.port <= 203 else []
            for thing in self.things:
                error = thing.error_in(texts)
                if error is not None and thing.name not in contact.answers:
                    self.note(device=contact.eui, heard=uplink.payload.hex(), port=uplink.port, deleted=thing.name, error=error)

    def line(self) -> str:
        """How it stands, in a line."""
        counts = (f"{thing.name} {sum(thing.name in contact.answers for contact in self.contacts.values())} of {len(self.contacts)}"
                  for thing in self.things)
        return "deleted " + ", ".join(counts)

    def table(self) -> Iterator[str]:
        """A line for each device that has not answered for all, or had nothing to delete."""
        for contact in self.contacts.values():
            if any(contact.answers.get(thing.name) != 0 for thing in self.things):
                yield f"{contact.eui}  {contact.told}"
