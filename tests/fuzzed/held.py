"""A session in flash: where its bytes are, and what they say (docs/FORMATS.md, Session in flash)."""
from dataclasses import dataclass

from .elimination import MAX_RECEIVED, Room, Session, setup_of

OPEN, GATES, TALLIES, RECORDS = 0xa5, 64, 8257, 24640
HEAD = 10


class Foreign(Exception):
    """The bytes are no session's, at this place."""


@dataclass(frozen=True)
class Ranges:
    """The flash of a device: four sessions side by side, each in so many bytes."""

    span: int
    room: Room

    def session(self, flash: bytes, index: int) -> Session | None:
        """What the range of an index has: a session, or none."""
        return session_in(flash[index * self.span:(index + 1) * self.span], self.room)

    def sessions(self, flash: bytes) -> list[Session | None]:
        """Those of all four."""
        return [self.session(flash, index) for index in range(4)]


def opened(gates: bytes, at: int) -> int:
    """How many gates are open before the first closed one; none may be open after it."""
    count = len(gates) - len(gates.lstrip(bytes([OPEN])))
    if OPEN in gates[count:]:
        raise Foreign(f"an open gate after a closed one, from {at} on")
    return count


def session_in(place: bytes, room: Room) -> Session | None:
    """What a range has."""
    if place[0] != OPEN:
        return None
    setup = setup_of(place[1:11])
    if room.bits(setup):
        raise Foreign("a setup that would be refused, at 1")
    most = 2 * setup.pieces + 1
    records = opened(place[GATES:GATES + most], GATES)
    tallies = opened(place[TALLIES:TALLIES + MAX_RECEIVED], TALLIES)
    session = Session(setup, min(room.rows, setup.pieces))
    for at in range(RECORDS, RECORDS + records * (HEAD + setup.size), HEAD + setup.size):
        number, mark = (int.from_bytes(place[at + a:at + b], "little") for a, b in ((0, 2), (2, 10)))
        data = place[at + HEAD:at + HEAD + setup.size]
        if not session.takes(number, data) or not session.hear(number, data, mark):
            raise Foreign(f"a record that tells nothing new, at {at}")
    session.heard += tallies
    return session
