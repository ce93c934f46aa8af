"""A receiver: what it shows after each call is what an elimination over the fragments says."""
import random

from .bending import bent, is_one_of
from .elimination import MAX_CODED, Room, Session, Setup, fragment_of
from .library import ANSWERS, agree, fuota

# The sizes (docs/SAMPLES.md, Memory and code): rows, words and bytes for them, pieces, bytes of the file, and one index.
ROOMS = (Room(16, 64, 768, 256, 256 * 48, 1), Room(64, 1024, 3072, 1024, 1024 * 48, 1),
         Room(256, 16384, 16384, 4096, 4096 * 64, 1))
LIMIT = 242


def setup_drawn(draws: random.Random, room: Room, is_coded: bool) -> Setup:
    """A setup that is mostly taken; small ones come most, and one at the end of a size now and then."""
    pieces = draws.choice((20, 24, 40) if is_coded else (1, 2, 3, 4, 5, 8, 16, 17, 24, 40))
    size = draws.choice((1, 2, 3, 4, 8, 13, 48))
    if is_one_of(draws, 12):
        size = draws.choice((room.row_bytes // room.rows, 64, 239, 240, 255))
        pieces = draws.choice((room.pieces, room.pieces + 1, room.area // size, room.area // size + 1, 65535, 0))
    padding = draws.choice((size, draws.randrange(256))) if is_one_of(draws, 12) else draws.choice((0, size - 1))
    others = (0, 0, 0) if draws.randrange(10) else (draws.choice((0, 0, 1, 255)), draws.choice((0, 0, 1)), draws.randrange(256))
    return Setup(others[0], draws.randrange(16), pieces & 65535, size & 255, others[1], others[2], padding & 255,
                 draws.choice((7, 7, draws.getrandbits(32))))


def set_up(receiver: object, setup: Setup) -> int:
    """Makes the call."""
    return int(fuota.Receiver.set_up(receiver, descriptor=setup.descriptor, nb_frag=setup.pieces, frag_size=setup.size,
                                     index=setup.index, mask=setup.mask, algo=setup.algo, delay=setup.delay,
                                     padding=setup.padding))


def number_drawn(draws: random.Random, pieces: int, is_coded: bool = False) -> int:
    """The number of a fragment, mostly one that a session has; of a coded one where it says so."""
    if is_one_of(draws, 40):
        return draws.choice((0, pieces + MAX_CODED, pieces + MAX_CODED + 1, 16383))
    return pieces + draws.randint(1, pieces + 1) if is_coded else draws.randint(1, pieces + draws.choice((1, 4, pieces + 4)))


def fragment_drawn(draws: random.Random, file: bytes, setup: Setup, is_coded: bool) -> bytes:
    """A DataFragment of a file, bent once in so many."""
    number = number_drawn(draws, setup.pieces, is_coded)
    data = fragment_of(file, setup.size, number) if file and setup.size and number else draws.randbytes(setup.size)
    payload = bytes([8, *(number & 16383).to_bytes(2, "little"), *data])
    if is_one_of(draws, 100):
        payload = payload[:3] + draws.randbytes(setup.size)
    return bent(draws, payload, LIMIT + 8) if is_one_of(draws, 15) else payload


class Tried:
    """A receiver of a size, and the session that it should have."""

    def __init__(self, draws: random.Random, library: object) -> None:
        size = draws.choice((0, 0, 0, 1, 2))
        self.draws, self.room, self.session = draws, ROOMS[size], None
        # (so that there are more coded fragments than rows in some cases)
        self.receiver, self.is_coded = fuota.Receiver(size, library), is_one_of(draws, 8)
        self.setup, self.file = setup_drawn(draws, self.room, self.is_coded), b""

    session: Session | None

    def begin(self) -> None:
        """A setup comes: the one before again, or another."""
        if self.session is None or not is_one_of(self.draws, 3):
            self.setup = setup_drawn(self.draws, self.room, self.is_coded)
        bits = self.room.bits(self.setup)
        agree(f"refusal bits of {self.setup}", bits, set_up(self.receiver, self.setup))
        if bits == 0 and (self.session is None or self.session.setup != self.setup):
            self.session = Session(self.setup, min(self.room.rows, self.setup.pieces))
            # (the file of a large session would take the test long)
            is_small = self.setup.pieces <= 300
            self.file = self.draws.randbytes(self.setup.pieces * self.setup.size) if is_small else b""

    def hear(self, mark: int) -> None:
        """A payload of port 201 comes."""
        setup = self.session.setup if self.session else self.setup
        payload = fragment_drawn(self.draws, self.file, setup, self.is_coded)
        if is_one_of(self.draws, 50):
            payload = self.draws.randbytes(self.draws.randint(0, LIMIT + 2))
        got = fuota.Answer.DONE
        try:
            self.receiver.hear(payload, mark)
        except fuota.OutOfRange:
            got = fuota.Answer.RANGE
        agree("answer", fuota.Answer.RANGE if len(payload) > LIMIT else fuota.Answer.DONE, got)
        if self.session and got == fuota.Answer.DONE and len(payload) > 3 and payload[0] == 8:
            head, data = int.from_bytes(payload[1:3], "little"), payload[3:]
            if head >> 14 == 0 and self.session.takes(head & 16383, data):
                self.session.hear(head & 16383, data, mark)

    def look(self) -> None:
        """What it shows is what the session says."""
        view, session, is_all = self.receiver.view(), self.session, is_one_of(self.draws, 2)
        shown = (view.mark, view.file_length, view.received, view.missing, view.verdict) if view else None
        ANSWERS[f"receiver's session {session and session.verdict}"] += 1
        agree("view", session and session.shown(), shown)
        agree("file", session and session.file(), self.receiver.file())
        is_due = session is not None and (is_all or session.missing > 0)
        agree("status", session.status() if session and is_due else None, self.receiver.status(is_all))


def check(draws: random.Random, library: object) -> None:
    """A receiver from its first setup to some fragments more than its file has."""
    tried = Tried(draws, library)
    with tried.receiver:
        tried.begin()
        for mark in range(1, draws.choice((4, 2 * min(tried.setup.pieces, 40) + 8))):
            if is_one_of(draws, 40):
                tried.begin()
            tried.hear(draws.getrandbits(64) if is_one_of(draws, 9) else mark)
            if is_one_of(draws, 4):
                tried.look()
        tried.look()
