"""What is known of a device beside what the server knows, as the journal tells it and as the campaign goes on."""
import enum
from typing import Any

from ..library import STAGES, Down
from ..theory import duration
from .heard import refusal
from .plan import Retry, moment_of

# The stages before the fragments.
SETUP = STAGES[:STAGES.index("status")]
# After this many reports of missing pieces once sending has ended, give up.
BELIEVED = 3
# So many answers for the time go out in turn with the requests, to a device whose clock was wrong at its answer for the window.
IN_TURN = 4
# Such a device is asked at most so often to ask for the time.
RESYNCS = 3


class Standing(enum.Enum):
    """How it stands with a device beside its stage."""

    # It is asked from `due` on, for the `tries` + 1st time.
    ASKED = enum.auto()
    # It was due while `queued` payloads waited for an uplink of it, and is asked once they are taken, or from `due` on.
    QUEUED = enum.auto()
    # It did not answer `tries` times, or misses pieces that no fragment makes good, and is left alone until it is heard.
    SILENT = enum.auto()


class Contact:
    """A device. Lines of the journal, as they are written and as they are read again, change all but its queue and the answer
    that waits: after a restart there are none."""

    def __init__(self, number: int, eui: str, since: int, retry: Retry) -> None:
        self.number, self.eui, self.retry = number, eui, retry
        self.standing, self.stage = Standing.ASKED, "version"
        # Its words over time, each with its moment.
        self.words = [("version", since)]
        self.tries, self.due = 0, 0
        # How many pieces it missed at last, how often it did so once sending had ended, when it told so, and when it was heard.
        self.missing: int | None = None
        self.short, self.told_at = 0, 0
        self.heard_at: int | None = None
        # What it answered to delete, after the campaign, each with the number of the answer.
        self.deleted: dict[str, int] = {}
        # The stage at which it refused, with the bits and the text of its answer; and the ms that its clock was behind, or, where it
        # took the window for past, that it was ahead at least.
        self.refused_at, self.refusal = "", ""
        self.bits: int | None = None
        self.behind: int | None = None
        self.was_past = False
        # Payloads that wait for an uplink of it, and whether it was heard since it was due.
        self.queued, self.was_heard = 0, False
        # The newest answer that waits to be sent; how many it had, and when the last one was: with the distance of requests.
        self.waiting: Down | None = None
        self.given, self.answered_at = 0, 0
        # Whether its clock was wrong after it was answered, so that the answer was lost; how often it was asked to ask for the time
        # since, and when the last time was.
        self.is_astray = False
        self.resyncs, self.resynced_at = 0, 0

    @property
    def is_silent(self) -> bool:
        return self.standing is Standing.SILENT

    @property
    def is_ready(self) -> bool:
        """Whether it is set up for the window: it waits for fragments, or heard them all."""
        return self.stage not in (*SETUP, "refused")

    @property
    def is_patient(self) -> bool:
        """Whether an answer to it waits until no request is due: it had one that nothing says was lost, or it had many."""
        return self.given > 0 and not (self.is_astray and self.given < IN_TURN)

    @property
    def is_to_resync(self) -> bool:
        """Whether it is to ask for the time once more: its clock is wrong, and nothing waits for it that could set it."""
        return self.behind is not None and not self.waiting and not self.queued and self.resyncs < RESYNCS

    @property
    def is_done(self) -> bool:
        return self.stage in ("updated", "refused")

    @property
    def is_spent(self) -> bool:
        """Whether it is not asked again."""
        return self.tries >= self.retry.tries or self.stage == "status" and self.short >= BELIEVED

    @property
    def word(self) -> str:
        """Its stage, or why it is left alone."""
        if not self.is_silent:
            return self.stage
        return "incomplete" if self.stage == "status" and self.missing else "silent"

    @property
    def since(self) -> int:
        """Since when it has its word."""
        return self.words[-1][1]

    @property
    def cause(self) -> str | None:
        """Why it is not updated, in some words; None where nothing is known to be wrong."""
        if self.word == "refused":
            return f"at {self.refused_at}" + ("" if self.bits is None else f": {refusal(self.refused_at, self.bits)}")
        if self.word == "silent":
            return f"at {self.stage}"
        if self.word == "incomplete":
            return f"{self.missing} missing"
        return None

    @property
    def why(self) -> str:
        """The cause with all that is known of it; empty where nothing is wrong."""
        told = [self.cause or ""]
        if self.is_silent:
            told = [f"{told[0]}, after {self.tries} tries, since {moment_of(self.since)}"]
        elif self.refusal:
            told = [f"{told[0]} ({self.refusal})"]
        if self.behind is not None and self.stage != "updated":
            way = "behind" if self.behind > 0 else "ahead" + " or more" * self.was_past
            told.append(f"its clock was {duration(abs(self.behind))} {way}")
        return "; ".join(words for words in told if words)

    # ---- By the journal

    def take(self, line: dict[str, Any]) -> None:
        """A line that names it."""
        t = line["t"]
        if "heard" in line:
            self.heard_at = t
        if "deleted" in line:
            self.deleted[line["deleted"]] = line["error"]
        if "silent" in line:
            self.tries, self.standing = line["tries"], Standing.SILENT
        if "bits" in line:
            self.refused_at, self.bits, self.refusal = line["request"], line["bits"], line.get("answer", self.refusal)
        if "behind" in line:
            self.behind, self.was_past, self.is_astray = line["behind"], line["start"] == 0, True
        elif line.get("sent") == "answer":
            # (it was given the time since)
            self.behind = None
        if "stage" in line:
            self.move(t, line["stage"])
        if line.get("sent") == "request":
            self.tries += 1
            self.ask_later(t)
        if line.get("sent") == "answer":
            self.given, self.answered_at = self.given + 1, t
        if line.get("sent") == "resync":
            self.resyncs, self.resynced_at = self.resyncs + 1, t
        if "missing" in line:
            self.take_missing(line)
        if line.get("back"):
            self.ask_anew(t)
        if self.word != self.words[-1][0]:
            self.words.append((self.word, t))

    def take_missing(self, line: dict[str, Any]) -> None:
        """It told what it misses. What it waits for then is a fragment, where one may come."""
        self.missing, self.told_at = line["missing"], line["t"]
        self.short += bool(line["over"] and line["missing"] > 0)
        self.tries = self.tries if line["over"] else 0

    def move(self, t: int, stage: str) -> None:
        """Its stage is this. A device that reboots is not asked at once."""
        if stage != self.stage:
            if stage == "refused":
                self.refused_at = self.refused_at or self.stage
            self.stage = stage
            self.ask_anew(t + self.retry.distance if stage == "check" else t)

    def ask_later(self, t: int) -> None:
        self.due, self.standing = t + self.retry.distance, Standing.ASKED

    def ask_anew(self, t: int) -> None:
        self.tries, self.due, self.standing = 0, t, Standing.ASKED

    def start_over(self, t: int) -> None:
        """It is asked from the first stage on, for another window."""
        self.stage, self.missing, self.short = "version", None, 0
        self.refused_at, self.refusal, self.bits = "", "", None
        self.ask_anew(t)
        if self.word != self.words[-1][0]:
            self.words.append((self.word, t))

    def resume(self) -> None:
        """A plan may allow more tries than when it was given up."""
        if self.is_silent and not self.is_spent:
            self.standing = Standing.ASKED

    # ---- Its queue at the network server

    def queue(self) -> None:
        """A payload waits for an uplink of it."""
        self.queued += 1

    def take_from_queue(self, t: int) -> None:
        """An uplink came, which takes a payload along."""
        self.queued, self.was_heard = max(0, self.queued - 1), True
        if self.standing is Standing.QUEUED and not self.queued:
            self.due, self.standing = t, Standing.ASKED

    def wait_for_queue(self, t: int) -> None:
        """It is due, and what it was asked waits still. That is no try of a device that was heard."""
        self.tries += not self.was_heard
        self.due, self.standing, self.was_heard = t + self.retry.distance, Standing.QUEUED, False
