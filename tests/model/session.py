"""A session of fragments as its history: the setup, and all fragments that it heard (TS004-1.0.0).

The verdict is worked out of the whole history, each time that it is asked for: from how many lines are independent,
with and without the data that came with them. No equation is solved before one file alone fits.
"""
from dataclasses import dataclass, field
from typing import NamedTuple

from .parity import line_of

MAX_PIECES = 4_096
MAX_FRAG_SIZE = 239
MAX_PARITY_INDEX = 8_380
MAX_RECEIVED = 16_383
MAX_MISSING = 255
ROW_WORDS = 16_384
ROW_BYTES = 61_184
AREA = 262_382
SESSIONS = 4
FLASH_SPAN = 631_573
FLASH_FRONT = 24_640
UNICAST = None
RECEIVING, COMPLETE, NO_ROWS, CONFLICT = "receiving", "complete", "norows", "conflict"


class Setup(NamedTuple):
    """The fields of FragSessionSetupReq (TS004-1.0.0)."""

    index: int  # type: ignore[assignment]  # (a tuple has a method of that name)
    mask: int
    nbfrag: int
    fragsize: int
    algo: int
    delay: int
    padding: int
    descriptor: int


class Fragment(NamedTuple):
    """A fragment that was heard: its number, its data, and the mark at which it came."""

    number: int
    data: bytes
    mark: int


class Verdict(NamedTuple):
    """What is known of the file: how it stands, since which mark, how many pieces are missing, and the file."""

    state: str
    mark: int
    missing: int
    file: bytes


# ---- the rank of rows, which are numbers


def reduced(row: int, basis: dict[int, int]) -> int:
    """The row without the rows of a basis, each known by its highest bit."""
    while row:
        other = basis.get(row.bit_length())
        if other is None:
            return row
        row ^= other
    return 0


def ranks_of(rows: list[int]) -> list[int]:
    """How many rows are independent: of the first row alone, of the first two, and so on."""
    basis: dict[int, int] = {}
    ranks = []
    for row in rows:
        rest = reduced(row, basis)
        if rest:
            basis[rest.bit_length()] = rest
        ranks.append(len(basis))
    return ranks


def basis_of(rows: list[int]) -> dict[int, int]:
    """Independent rows that make the same sums, each with a highest bit of its own."""
    basis: dict[int, int] = {}
    for row in rows:
        rest = reduced(row, basis)
        if rest:
            basis[rest.bit_length()] = rest
    return basis


# ---- the verdict over a history


def equations_of(setup: Setup, heard: list[Fragment]) -> list[int]:
    """Each fragment as one number: its line, and below it the data."""
    width = 8 * setup.fragsize
    return [line_of(f.number, setup.nbfrag) << width | int.from_bytes(f.data, "big") for f in heard]


def direct_counts(setup: Setup, heard: list[Fragment]) -> list[int]:
    """How many different pieces came uncoded: by the first fragment, by the first two, and so on."""
    seen, counts = set(), []
    for f in heard:
        if f.number <= setup.nbfrag:
            seen.add(f.number)
        counts.append(len(seen))
    return counts


def block_of(setup: Setup, equations: list[int]) -> bytes:
    """All pieces, where the equations leave no choice: piece c is what is left of its column alone."""
    width = 8 * setup.fragsize
    basis = basis_of(equations)
    pieces = (reduced(1 << width + column, basis) for column in range(setup.nbfrag))
    return b"".join(piece.to_bytes(setup.fragsize, "big") for piece in pieces)


def verdict_of(setup: Setup, rows: int, heard: list[Fragment]) -> Verdict:
    """The verdict over all fragments that were heard, the oldest first.

    The first fragment decides after which no file fits, or more independent coded fragments came than there are rows,
    or one file alone fits; they are tried in this order.
    """
    equations = equations_of(setup, heard)
    gains = ranks_of([line_of(f.number, setup.nbfrag) for f in heard])
    facts = ranks_of(equations)
    direct = direct_counts(setup, heard)
    before = 0
    for k, gain in enumerate(gains):
        mark = heard[k].mark
        if facts[k] != gain:
            return Verdict(CONFLICT, mark, setup.nbfrag - before, b"")
        if gain - direct[k] > rows:
            return Verdict(NO_ROWS, mark, setup.nbfrag - before, b"")
        if gain == setup.nbfrag:
            block = block_of(setup, equations[:k + 1])
            return Verdict(COMPLETE, mark, 0, block[:len(block) - setup.padding])
        before = gain
    return Verdict(RECEIVING, 0, setup.nbfrag - before, b"")


# ---- setups


@dataclass(frozen=True)
class Limits:
    """What a device lets a session be: its rows, the one descriptor if any, and whether it is held in flash."""

    rows: int
    descriptor: int | None
    flash: bool


def rows_for(limits: Limits, setup: Setup) -> int:
    """The rows of a session: no more than there are pieces."""
    return min(limits.rows, setup.nbfrag)


def is_too_large(limits: Limits, setup: Setup) -> bool:
    """There is no memory for it, or no flash."""
    rows = rows_for(limits, setup)
    records = FLASH_FRONT + (2 * setup.nbfrag + 1) * (10 + setup.fragsize)
    return (
        setup.nbfrag > MAX_PIECES
        or setup.fragsize > MAX_FRAG_SIZE
        or rows * ((setup.nbfrag + 63) // 64) > ROW_WORDS
        or rows * setup.fragsize > ROW_BYTES
        or setup.nbfrag * setup.fragsize > AREA
        or limits.flash and records > FLASH_SPAN
    )


def refusal_bits(limits: Limits, setup: Setup) -> int:
    """All refusal bits of FragSessionSetupAns together (TS004-1.0.0)."""
    wrong_coding = setup.algo != 0 or setup.nbfrag == 0 or setup.fragsize == 0 or setup.padding >= setup.fragsize
    no_index = setup.index >= SESSIONS
    other = limits.descriptor is not None and setup.descriptor != limits.descriptor
    return 1 * wrong_coding + 2 * is_too_large(limits, setup) + 4 * no_index + 8 * other


# ---- a session


@dataclass
class Session:
    """A session: what it was set up with, its rows, and what it heard, the oldest first."""

    setup: Setup
    rows: int
    heard: list[Fragment] = field(default_factory=list)
    lines: set[int] = field(default_factory=set)
    judged: Verdict | None = None
    judged_at: int = -1

    def drops(self, group: int | None, number: int, data: bytes) -> bool:
        """A fragment is dropped: its group is none of the mask's, its number is none, or its length is another."""
        return (
            self.excludes(group)
            or not 1 <= number <= self.setup.nbfrag + MAX_PARITY_INDEX
            or len(data) != self.setup.fragsize
        )

    def excludes(self, group: int | None) -> bool:
        """The mask keeps out what came by this group."""
        return group is not UNICAST and not self.setup.mask >> group & 1

    def hear(self, number: int, data: bytes, mark: int) -> None:
        """One fragment more. A line of no piece says nothing of the file, so that it is no line."""
        self.heard.append(Fragment(number, data, mark))
        self.lines |= {line_of(number, self.setup.nbfrag)} - {0}

    @property
    def received(self) -> int:
        """NbFragReceived, which stays at the end of its 14 bits."""
        return min(len(self.heard), MAX_RECEIVED)

    def verdict(self) -> Verdict:
        """The verdict. One that was reached stays, and one over the same history is not worked out twice."""
        stays = self.judged is not None and self.judged.state != RECEIVING
        if self.judged is None or not stays and self.judged_at != len(self.heard):
            self.judged = verdict_of(self.setup, self.rows, self.heard)
            self.judged_at = len(self.heard)
        return self.judged

    def is_complete(self) -> bool:
        """One file alone fits. That takes as many different lines as there are pieces."""
        return len(self.lines) >= self.setup.nbfrag and self.verdict().state == COMPLETE


def after_setup(limits: Limits, session: Session | None, setup: Setup) -> Session:
    """The session of an index after a setup without refusal bits: an equal one keeps it."""
    if session is not None and session.setup == setup:
        return session
    return Session(setup, rows_for(limits, setup))


def status_of(session: Session | None, group: int | None, everyone: int) -> dict[str, int] | None:
    """The fields of FragSessionStatusAns, or None where the session does not answer (TS004-1.0.0)."""
    if session is None or session.excludes(group):
        return None
    verdict = session.verdict()
    if not everyone and verdict.missing == 0:
        return None
    return {
        "index": session.setup.index,
        "received": session.received,
        "missing": min(verdict.missing, MAX_MISSING),
        "norows": int(verdict.state == NO_ROWS),
    }
