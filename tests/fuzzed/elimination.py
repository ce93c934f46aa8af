"""What fragments say of a file: an elimination over GF(2), a fragment at a time (TS004-1.0.0, the forward error correction code).

A row is one number: above, a bit for each piece that is in the sum; below, the bytes of the sum.
"""
import functools
from dataclasses import dataclass, field

RECEIVING, COMPLETE, NO_ROWS, CONFLICT = range(4)
MAX_PIECES, MAX_SIZE, MAX_CODED, MAX_RECEIVED = 4096, 239, 8380, 16383


@functools.lru_cache(maxsize=4096)
def coded_line(number: int, pieces: int) -> int:
    """The pieces of the coded fragment of a number from 1 on, a bit each: half as many draws as there are pieces."""
    modulus = pieces + (pieces & pieces - 1 == 0)
    state, line = 1 + 1001 * number, 0
    for _ in range(pieces // 2):
        column = pieces
        while column >= pieces:
            state = state >> 1 | (state & 1 ^ state >> 5 & 1) << 22
            column = state % modulus
        line |= 1 << column
    return line


@dataclass(frozen=True)
class Setup:
    """The fields of FragSessionSetupReq."""

    index: int
    mask: int
    pieces: int
    size: int
    algo: int
    delay: int
    padding: int
    descriptor: int

    def body(self) -> bytes:
        """Its bytes without the identifier."""
        return bytes([16 * self.index + self.mask, *self.pieces.to_bytes(2, "little"), self.size, 8 * self.algo + self.delay,
                      self.padding, *self.descriptor.to_bytes(4, "little")])


def setup_of(body: bytes) -> Setup:
    """The fields of ten bytes; reserved bits say nothing."""
    return Setup(body[0] >> 4 & 3, body[0] & 15, body[1] + 256 * body[2], body[3], body[4] >> 3 & 7, body[4] & 7, body[5],
                 int.from_bytes(body[6:10], "little"))


@dataclass(frozen=True)
class Room:
    """What there is for a session: its rows, the words and bytes that they have, the pieces and the bytes of its file, the
    indices, the one descriptor if any, and the bytes of flash, if it is kept there."""

    rows: int
    words: int
    row_bytes: int
    pieces: int
    area: int
    sessions: int
    descriptor: int | None = None
    span: int | None = None

    def bits(self, setup: Setup) -> int:
        """The refusal bits of a setup."""
        rows = min(self.rows, setup.pieces)
        coding = setup.algo != 0 or setup.pieces == 0 or setup.size == 0 or setup.padding >= setup.size
        large = (setup.pieces > min(self.pieces, MAX_PIECES) or setup.size > MAX_SIZE or setup.pieces * setup.size > self.area
                 or rows * -(-setup.pieces // 64) > self.words or rows * setup.size > self.row_bytes
                 or self.span is not None and 24640 + (2 * setup.pieces + 1) * (10 + setup.size) > self.span)
        other = self.descriptor is not None and setup.descriptor != self.descriptor
        return coding + 2 * large + 4 * (setup.index >= self.sessions) + 8 * other


@dataclass
class Session:
    """What a session has heard, as rows each of which has a highest bit of its own."""

    setup: Setup
    most: int
    rows: dict[int, int] = field(default_factory=dict)
    direct: set[int] = field(default_factory=set)
    heard: int = 0
    verdict: int = RECEIVING
    mark: int = 0
    lacking: int = -1

    @property
    def missing(self) -> int:
        """Pieces that are still to be gained: at a verdict against the file those that were before it."""
        return self.lacking if self.lacking >= 0 else self.setup.pieces - len(self.rows)

    def takes(self, number: int, data: bytes) -> bool:
        """A fragment by unicast is one of the session's."""
        return 1 <= number <= self.setup.pieces + MAX_CODED and len(data) == self.setup.size

    def hear(self, number: int, data: bytes, mark: int) -> bool:
        """One fragment more; whether it told something new."""
        self.heard += 1
        if self.verdict != RECEIVING:
            return False
        before, known = len(self.rows), len(self.direct)
        width, pieces = 8 * self.setup.size, self.setup.pieces
        line = 1 << number - 1 if number <= pieces else coded_line(number - pieces, pieces)
        row = line << width | int.from_bytes(data, "big")
        while row >> width and row.bit_length() in self.rows:
            row ^= self.rows[row.bit_length()]
        if row >> width:
            self.rows[row.bit_length()] = row
        if number <= pieces:
            self.direct.add(number)
        if row and not row >> width:
            self.decide(CONFLICT, mark, pieces - before)
        elif len(self.rows) - len(self.direct) > self.most:
            self.decide(NO_ROWS, mark, pieces - before)
        elif len(self.rows) == pieces:
            self.decide(COMPLETE, mark, 0)
        return self.verdict != RECEIVING or (len(self.rows), len(self.direct)) != (before, known)

    def decide(self, verdict: int, mark: int, lacking: int) -> None:
        self.verdict, self.mark, self.lacking = verdict, mark, lacking

    def file(self) -> bytes | None:
        """The whole file, where it is whole: each row without the pieces below its highest bit."""
        if self.verdict != COMPLETE:
            return None
        width, known = 8 * self.setup.size, (1 << 8 * self.setup.size) - 1
        pieces: list[int] = []
        for column in range(self.setup.pieces):
            row = self.rows[width + column + 1]
            lower = row >> width & (1 << column) - 1
            while lower:
                at = lower.bit_length() - 1
                row ^= pieces[at]
                lower ^= 1 << at
            pieces.append(row & known)
        block = b"".join(piece.to_bytes(self.setup.size, "big") for piece in pieces)
        return block[:len(block) - self.setup.padding]

    def shown(self) -> tuple[int, int, int, int, int]:
        """Mark, length of the file, received, missing and verdict, as a view has them."""
        size = self.setup.pieces * self.setup.size - self.setup.padding if self.verdict == COMPLETE else 0
        return self.mark, size, min(self.heard, MAX_RECEIVED), self.missing, self.verdict

    def status(self) -> bytes:
        """FragSessionStatusAns."""
        count = self.setup.index << 14 | min(self.heard, MAX_RECEIVED)
        return bytes([1, *count.to_bytes(2, "little"), min(self.missing, 255), self.verdict == NO_ROWS])


def fragment_of(file: bytes, size: int, number: int) -> bytes:
    """The fragment of a number of a file in pieces of a size, the last one filled with zeros."""
    pieces = -(-len(file) // size)
    filled = file.ljust(pieces * size, b"\0")
    line = 1 << number - 1 if number <= pieces else coded_line(number - pieces, pieces)
    total = 0
    for column in range(pieces):
        if line >> column & 1:
            total ^= int.from_bytes(filled[column * size:column * size + size], "big")
    return total.to_bytes(size, "big")
