"""How a campaign stands: a line while it runs, a table and a picture of what its folder keeps."""
import csv
import datetime
import io
import json
import math
import pathlib
from collections.abc import Callable, Iterator
from typing import Any, TextIO

from .. import files, svg
from ..errors import Wrong
from ..library import STAGES
from ..svg import BLUE, GREEN, GREY, ORANGE, drawn_path, text
from ..theory import duration
from .contact import Contact
from .journal import History, lines_of
from .opening import decision_of
from .plan import Retry, moment_of
from .play import Campaign

RED, PURPLE = "#cf222e", "#8250df"
# What is drawn of a word: its colour and how opaque it is.
COLOURS = dict(zip((*STAGES, "incomplete", "silent"), (
    (GREY, 0.25), (GREY, 0.45), (GREY, 0.65), (GREY, 0.9), (BLUE, 1), (ORANGE, 0.4), (ORANGE, 0.7), (ORANGE, 1), (GREEN, 1),
    (RED, 1), (PURPLE, 1), (PURPLE, 0.5))))
A_MINUTE = 60_000
# A folder is read without its plan: nothing is asked.
NO_RETRY = Retry(distance=0, tries=1)


def counts_of(contacts: list[Contact]) -> str:
    """How many devices stand where, in order, and why some are left alone."""
    told = []
    for word in COLOURS:
        found = [contact for contact in contacts if contact.word == word]
        causes = dict.fromkeys(contact.cause for contact in found if contact.cause)
        if found:
            told.append(f"{word} {len(found)}" + (f" ({'; '.join(causes)})" if causes else ""))
    return ", ".join(told)


def sent_of(number: int, fragments: int, reserve: int) -> str:
    """How many fragments went out, and how many of the reserve."""
    return f"fragments {min(number, fragments)} of {fragments}" + (f", reserve {max(0, number - fragments)} of {reserve}" if reserve else "")


def line_of(campaign: Campaign, is_last: bool = False) -> str:
    """How it stands, in a line."""
    left = 0 if is_last else campaign.left()
    away = campaign.carrier.away_since()
    notice, plan = campaign.notice(is_last), campaign.plan
    return (f"{counts_of(campaign.contacts)}; {sent_of(campaign.sent, plan.fragments, plan.reserve)}"
            + (f", {duration(left)} left" if left else "") + (f"; {notice}" if notice else "")
            + (f"; broker away since {moment_of(away)[11:]}" if away is not None else ""))


class Progress:
    """A line that is rewritten on a terminal; elsewhere a plain line a minute."""

    def __init__(self, stream: TextIO) -> None:
        self.stream, self.is_terminal, self.last, self.shown = stream, stream.isatty(), -math.inf, ""

    def show(self, campaign: Campaign, is_last: bool = False) -> None:
        self.put(campaign.carrier.now(), lambda: line_of(campaign, is_last), is_last)

    def put(self, now: int, made: Callable[[], str], is_last: bool = False) -> None:
        """Shows the line that is made at `now` ms of Unix time."""
        if self.is_terminal:
            line = made()
            if line != self.shown:
                self.stream.write(f"\r{line}\x1b[K")
                self.stream.flush()
            self.shown = line
        elif is_last or now - self.last >= A_MINUTE:
            self.stream.write(f"{moment_of(now)}: {made()}\n")
            self.stream.flush()
            self.last = now

    def close(self) -> None:
        """Ends the line of a terminal."""
        if self.shown:
            self.stream.write("\n")
            self.stream.flush()


# ---- What was kept


class Kept:
    """What the journal of a campaign tells, without its plan."""

    def __init__(self, path: str | pathlib.Path) -> None:
        path = pathlib.Path(path)
        try:
            text = files.read(path / "journal")
        except OSError as why:
            raise Wrong(f"{why.filename}: {why.strerror}") from None
        self.history = History(lines_of(text, path / "journal"), NO_RETRY)
        if not self.history.contacts:
            raise Wrong(f"{path}: no campaign is kept there")

    def table(self) -> Iterator[str]:
        """A line for the campaign, and one for each device."""
        history = self.history
        count = "" if history.next_count is None else f", next frame count {history.next_count}"
        rounds = f" in {history.rounds} round{'s' * (history.rounds > 1)}" if history.rounds else ""
        yield f"{sent_of(history.number, history.fragments, history.reserve)}{rounds}{count}, last change {moment_of(history.last)}"
        for window in history.windows:
            if window.decided:
                yield decision_of(window, len(self.contacts))
        why = "  why" if any(contact.why for contact in self.contacts) else ""
        yield f"{'device':<16}  {'stage':<18}  missing  {'last heard':<23}{why}".rstrip()
        for contact in self.contacts:
            stage = f"{contact.stage}, {contact.word}" if contact.is_silent else contact.stage
            missing = "-" if contact.missing is None else contact.missing
            heard = "-" if contact.heard_at is None else moment_of(contact.heard_at)
            yield f"{contact.eui:<16}  {stage:<18}  {missing:>7}  {heard:<23}  {contact.why}".rstrip()

    def text(self) -> str:
        """The table as a text."""
        return "".join(line + "\n" for line in self.table())

    @property
    def contacts(self) -> list[Contact]:
        return list(self.history.contacts.values())

    # ---- For other programs

    def rows(self) -> list[dict[str, Any]]:
        """What is known of each device, by names; moments as texts of ISO 8601."""
        return [{"eui": contact.eui, "stage": contact.stage, "word": contact.word, "since": iso_of(contact.since), "tries": contact.tries,
                 "missing": contact.missing, "last_heard": iso_of(contact.heard_at), "clock_behind_ms": contact.behind,
                 "why": contact.why or None, "deleted": ", ".join(contact.deleted) or None} for contact in self.contacts]

    def json(self) -> str:
        """All that is known, as an object of JSON."""
        history = self.history
        opens, closes = history.window or (None, None)
        return json.dumps({
            "by": history.carrier, "begin": iso_of(history.begin), "last_change": iso_of(history.last),
            "window_opens": iso_of(opens), "window_closes": iso_of(closes), "fragments_sent": history.number,
            "fragments": history.fragments, "reserve": history.reserve, "rounds": history.rounds, "next_frame_count": history.next_count,
            "windows": [{**vars(window), "opens": iso_of(window.opens), "closes": iso_of(window.closes)} for window in history.windows],
            "devices": self.rows()}, indent=1) + "\n"

    def csv(self) -> str:
        """The devices, as lines of CSV under their names."""
        rows, text = self.rows(), io.StringIO()
        writer = csv.DictWriter(text, list(rows[0]), lineterminator="\n")
        writer.writeheader()
        writer.writerows(rows)
        return text.getvalue()


def iso_of(t: int | None) -> str | None:
    """ms of Unix time as a text of ISO 8601."""
    return None if t is None else moment_of(t).replace(" ", "T", 1).replace(" UTC", "Z")


# ---- The picture

LEFT, ACROSS, UPPER, ROW = 146, 600, 102, 18
# The width of a letter, about, and of a legend's entry.
LETTER, ENTRY = 6.2, 120
# Distances of moments on the axis, in s, each with how a moment is written.
STEPS = {60: (1, 2, 5, 10, 30), 86_400: (60, 120, 300, 600, 1_800, 3_600, 7_200, 14_400, 43_200),
         31_536_001: (86_400, 172_800, 604_800, 2_592_000, 31_536_000)}
FORMATS = dict(zip(STEPS, ("%H:%M:%S", "%H:%M", "%Y-%m-%d")))


def ticks(begin: int, end: int) -> list[tuple[int, str]]:
    """Moments on the axis, at round times of the day (UTC), and their words."""
    steps = [(step, FORMATS[below]) for below, steps in STEPS.items() for step in steps]
    step, form = next(((step, form) for step, form in steps if end - begin <= 8_000 * step), steps[-1])
    first = -(-begin // (1000 * step)) * 1000 * step
    return [(moment, datetime.datetime.fromtimestamp(moment // 1000, datetime.timezone.utc).strftime(form))
            for moment in range(first, end + 1, 1000 * step)]


def legend() -> Iterator[str]:
    """What the colours say."""
    for at, (word, (colour, opacity)) in enumerate(COLOURS.items()):
        x, y = LEFT + ENTRY * (at % 5), 38 + 18 * (at // 5)
        yield drawn_path(f"M{x} {y - 4}h16", colour, 10, f' stroke-opacity="{opacity}"')
        yield text(x + 22, y, word)


class Picture:
    """A row a device, its words over time and why it is not updated; the window, and when fragments went out."""

    def __init__(self, kept: Kept) -> None:
        self.history, self.contacts = kept.history, kept.contacts
        # (somewhat more, so that the last stages are seen)
        self.begin, self.end = kept.history.begin, kept.history.last + (kept.history.last - kept.history.begin) // 40 + 1
        self.bottom = UPPER + ROW * (len(self.contacts) + 1)

    def place(self, t: int) -> float:
        return LEFT + ACROSS * (t - self.begin) / (self.end - self.begin)

    def axis(self) -> Iterator[str]:
        """Times of the day, and the edges of the window."""
        for moment, words in ticks(self.begin, self.end):
            yield drawn_path(f"M{self.place(moment):.1f} {UPPER}V{self.bottom}", GREY, 1, ' stroke-opacity="0.4"')
            yield text(f"{self.place(moment):.1f}", self.bottom + 16, words, "middle")
        for window in self.history.windows:
            if window.decided == "wait":
                yield from self.edge(window.opens, "passed over", "end", GREY)
            else:
                yield from self.edge(window.opens, "window opens", "end", GREEN)
                yield from self.edge(window.closes, "closes", "start", GREEN)

    def edge(self, moment: int, words: str, anchor: str, colour: str) -> Iterator[str]:
        """An edge of a window, where it is in the picture."""
        if self.begin <= moment <= self.end:
            yield drawn_path(f"M{self.place(moment):.1f} {UPPER - 4}V{self.bottom}", colour, 1, ' stroke-dasharray="5 3"')
            yield text(f"{self.place(moment):.1f}", UPPER - 8, words, anchor)

    def row(self, number: int, contact: Contact) -> Iterator[str]:
        y = UPPER + ROW * number + ROW // 2
        yield text(LEFT - 8, y + 4, contact.eui, "end")
        untils = [since for _, since in contact.words[1:]] + [self.end]
        for (word, since), until in zip(contact.words, untils):
            colour, opacity = COLOURS[word]
            width = max(0.5, self.place(until) - self.place(since))
            yield drawn_path(f"M{self.place(since):.1f} {y}h{width:.1f}", colour, ROW - 6, f' stroke-opacity="{opacity}"')
        if contact.why:
            yield text(LEFT + ACROSS + 8, y + 4, contact.why)

    def drawn(self) -> str:
        title = f"A campaign of {len(self.contacts)} devices and {self.history.fragments} fragments, from {moment_of(self.begin)} on"
        planned, reserve = ("".join(f"M{self.place(t):.1f} {UPPER + 3}v{ROW - 6}" for t in moments)
                            for moments in (self.history.fragments_at, self.history.reserve_at))
        parts = [text(LEFT, 16, title), *legend(), *self.axis(),
                 text(LEFT - 8, UPPER + ROW - 5, "fragments", "end"), drawn_path(planned or "M0 0", BLUE, 1)]
        if reserve:
            parts.append(drawn_path(reserve, ORANGE, 1))
        for number, contact in enumerate(self.contacts, 1):
            parts += self.row(number, contact)
        beside = max(40, round(LETTER * max(len(contact.why) for contact in self.contacts)) + 16)
        return svg.picture(LEFT + ACROSS + beside, self.bottom + 26, title, parts)
