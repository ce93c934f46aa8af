"""The journal of a campaign (docs/FORMATS.md): written line by line, and read by the one reader that there is of it."""
import json
import logging
import os
import pathlib
from dataclasses import dataclass
from typing import Any

from ..errors import Wrong
from .contact import Contact
from .plan import Retry

VERSION = 1
Line = dict[str, Any]
LOG = logging.getLogger(__name__)


class Journal:
    """Lines of JSON, which are on the disk before `write` returns; `lines` are those that were there before."""

    def __init__(self, path: pathlib.Path) -> None:
        self.handle = os.open(path, os.O_RDWR | os.O_CREAT | os.O_APPEND, 0o600)
        with open(self.handle, "rb", closefd=False) as reader:
            reader.seek(0)
            text = reader.read()
        # (a last line that was not written whole is taken away)
        self.size = text.rfind(b"\n") + 1
        if self.size < len(text):
            os.ftruncate(self.handle, self.size)
        self.lines = lines_of(text[:self.size], path)

    def write(self, *lines: Line) -> None:
        """Writes lines at once; where there is no room it is as if they had not been begun."""
        texts = [json.dumps(line, separators=(",", ":")) for line in lines]
        for text in texts:
            LOG.info("%s", text)
        left = data = "".join(f"{text}\n" for text in texts).encode()
        try:
            while left:
                left = left[os.write(self.handle, left):]
            os.fsync(self.handle)
        except OSError:
            os.ftruncate(self.handle, self.size)
            raise
        self.size += len(data)


def lines_of(text: bytes, path: pathlib.Path) -> list[Line]:
    """The lines of a journal; what is none is passed over. One of a later version is refused, and one without a version, as
    they were at first, is of version 1."""
    found: list[Line] = []
    for line in text.splitlines():
        try:
            members = json.loads(line)
        except ValueError:
            continue
        if isinstance(members, dict) and isinstance(members.get("t"), int):
            found.append(members)
    version = found[0].get("version", VERSION) if found else VERSION
    if version != VERSION:
        raise Wrong(f"{path}: a journal of version {version!r:.20}, and this fuota reads version {VERSION}: take the fuota that wrote it")
    return found


@dataclass
class KeptWindow:
    """A window of a campaign, in ms of Unix time. As it opened so many devices were ready, of so many needed, and it was decided to
    `begin`, to `wait` for the next window, or to `ask`; None where nothing was decided."""

    opens: int
    closes: int
    decided: str | None = None
    ready: int | None = None
    needed: int | None = None


class History:
    """What a journal tells of a campaign: how it began, its devices, and what went out. A campaign that goes on hands each
    line that it writes to `take` too."""

    def __init__(self, lines: list[Line], retry: Retry) -> None:
        self.retry = retry
        self.contacts: dict[str, Contact] = {}
        self.carrier: str | None = None
        self.index, self.fragments, self.reserve = 0, 0, 0
        # The rounds of the reserve, and how many fragments go out up to the end of the last one.
        self.rounds, self.until = 0, 0
        # How many fragments were taken from the server.
        self.number = 0
        self.begin, self.last = 0, 0
        # The windows so far, and the group's next frame count; none where the journal tells none.
        self.windows: list[KeptWindow] = []
        self.next_count: int | None = None
        # When planned fragments went out, and those of the reserve; when the last one did; and by unicast and to the group the last
        # payload's moment and its ms on the air.
        self.fragments_at: list[int] = []
        self.reserve_at: list[int] = []
        self.fragment_at = 0
        # When all devices were asked at once what they miss, and how often since the last fragment.
        self.status_at, self.asked = 0, 0
        self.sent: dict[bool, tuple[int, float]] = {}
        # The fragment that went out last by unicast, and the devices that it went to.
        self.copied, self.copied_to = 0, set[str]()
        # Whether what went to a device last was an answer.
        self.was_answer = False
        for line in lines:
            self.take(line)

    def take(self, line: Line) -> None:
        """Takes the next line."""
        self.last = line["t"]
        if "devices" in line:
            self.begin, self.carrier = line["t"], line["by"]
            self.index, self.fragments, self.reserve = line["index"], line["fragments"], line.get("reserve", 0)
            self.contacts = {eui: Contact(number, eui, self.begin, self.retry) for number, eui in enumerate(line["devices"], 1)}
        if "opens" in line:
            self.take_window(line)
        last = self.last_window
        if "decided" in line and last:
            last.decided, last.ready, last.needed = line["decided"], line["ready"], line["needed"]
        for name in ("count", "given"):
            if name in line:
                self.next_count = max(self.next_count or 0, line[name] + 1)
        if "until" in line:
            self.rounds, self.until = self.rounds + 1, line["until"]
        if "number" in line:
            self.number = line["number"]
        if line.get("sent") == "status":
            self.status_at, self.asked = line["t"], self.asked + 1
        if line.get("sent") == "fragment":
            self.take_fragment(line)
        if "air" in line:
            self.sent["count" in line] = line["t"], line["air"]
        if "sent" in line and "device" in line:
            self.was_answer = line["sent"] in ("answer", "resync")
        contact = self.contacts.get(line.get("device", ""))
        if contact:
            contact.take(line)

    @property
    def last_window(self) -> KeptWindow | None:
        return self.windows[-1] if self.windows else None

    @property
    def window(self) -> tuple[int, int] | None:
        """Begin and end of the last window."""
        return (self.windows[-1].opens, self.windows[-1].closes) if self.windows else None

    def take_window(self, line: Line) -> None:
        """A window comes: the first one in the first line, or one in the place of another, for which all devices are asked anew."""
        self.windows.append(KeptWindow(line["opens"], line["closes"]))
        self.next_count = line.get("first", self.next_count)
        if len(self.windows) > 1:
            for contact in self.contacts.values():
                contact.start_over(line["t"])

    def take_fragment(self, line: Line) -> None:
        """A fragment went out, by unicast where it names a device."""
        (self.fragments_at if line["number"] <= self.fragments else self.reserve_at).append(line["t"])
        self.fragment_at, self.asked = line["t"], 0
        if line["number"] != self.copied:
            self.copied, self.copied_to = line["number"], set()
        if "device" in line:
            self.copied_to.add(line["device"])
