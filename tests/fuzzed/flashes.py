"""Flashes that are bent or made up: none is opened that is foreign, and what is opened shows what an elimination over the records
that are open says."""
import random

from .bending import EDGES, is_one_of, overwritten
from .devices import SPANS, Tried, room_of
from .elimination import Setup, fragment_of
from .held import GATES, HEAD, OPEN, RECORDS, TALLIES, Foreign, Ranges
from .library import agree, answered, fuota
from .receivers import number_drawn
from .saved import image_file, image_state


def made_up(draws: random.Random, span: int, index: int, hw: int) -> bytes:
    """A range with a session, mostly one that can be opened."""
    place = bytearray(span)
    place[0] = OPEN if draws.randrange(6) else draws.choice(EDGES)
    pieces, size = draws.choice((1, 2, 3, 5, 8)), draws.choice((1, 2, 13))
    written = index if draws.randrange(8) else draws.randrange(4)
    setup = Setup(written, draws.randrange(16), pieces, size, int(is_one_of(draws, 40)), 0, draws.choice((0, 0, size - 1)), 7)
    file = draws.randbytes(pieces * size)
    if is_one_of(draws, 5):
        file = image_file(draws, hw, draws.choice((1, 7)), 8)
        size = 20
        pieces = -(-len(file) // size)
        setup = Setup(index, 0, pieces, size, 0, 0, pieces * size - len(file), 7)
    place[1:11] = setup.body()
    numbers = draws.sample(range(1, pieces + 1), draws.randint(0, pieces))
    for k in range(draws.randint(0, pieces)):
        number = numbers[k] if k < len(numbers) else number_drawn(draws, pieces)
        data = fragment_of(file, size, number) if number and draws.randrange(40) else draws.randbytes(size)
        at = RECORDS + k * (HEAD + size)
        mark = draws.choice((k, draws.getrandbits(64)))
        place[at:at + HEAD + size] = number.to_bytes(2, "little") + mark.to_bytes(8, "little") + data
        place[GATES + k] = OPEN
    for k in range(draws.choice((0, 0, 1, 5, 16_383))):
        place[TALLIES + k] = OPEN
    # (what is not in use says nothing)
    if is_one_of(draws, 4):
        place[11:GATES] = draws.randbytes(GATES - 11)
    return bytes(place[:span])


def flash_bent(draws: random.Random, flash: bytes, span: int) -> bytes:
    """A flash with a few bytes replaced, where they say something."""
    base = span * draws.randrange(4)
    begin, end = draws.choice(((0, 11), (0, 11), (GATES, GATES + 24), (TALLIES, TALLIES + 8), (RECORDS, min(span, RECORDS + 120)),
                               (0, span)))
    return overwritten(draws, flash, base + begin, base + max(end, begin + 1))[:len(flash)]


def check(draws: random.Random, library: object) -> None:
    """A device over a flash: of another device's, or made up; bent or not."""
    span = draws.choice(SPANS[1:])
    tried = Tried(draws, library, span)
    try:
        tried.call("power")
        if is_one_of(draws, 2):
            for _ in range(draws.choice((1, 3))):
                tried.fragments()
            flash = tried.twins.objects[0].flash()
        else:
            flash = b"".join(made_up(draws, span, index, tried.config.hw) if draws.randrange(3) else bytes(span)
                             for index in range(4))
        for _ in range(3):
            other = flash_bent(draws, flash, span) if draws.randrange(4) else flash
            opened_over(tried, other + draws.choice((b"", b"\xa5")))
    finally:
        tried.free()


def opened_over(tried: Tried, flash: bytes) -> None:
    """A new device gets power over a flash."""
    draws, config, span = tried.draws, tried.config, tried.span
    assert span is not None
    device = fuota.Device(config, tried.library, flash, span, tried.size)
    first, tried.twins.objects = tried.twins.objects[0], [device]
    tried.files.clear()
    try:
        try:
            sessions = Ranges(span, room_of(config, span, tried.size)).sessions(flash)
        except Foreign as why:
            agree(f"power, with {why}", "FLASH", answered(device.power))
            agree("a device that is down", "DOWN", answered(device.deliver, 203, b"\1", tried.t))
            agree("the flash of a device that is down", flash, device.flash())
            return
        agree("power", None, answered(device.power))
        whole = [file for file in (session.file() for session in sessions if session) if file is not None]
        wanted = image_state(whole[-1], config.hw, config.formats) if whole else (0, 0)
        agree("next", wanted, answered(device.next))
        agree("the file of next", whole[-1] if whole else b"", device.firmware(True))
        tried.held()
        for index, session in enumerate(sessions):
            if session:
                tried.files[index] = session.setup, draws.randbytes(session.setup.pieces * session.setup.size)
        for _ in range(2):
            draws.choice((tried.send, tried.fragments, tried.others))()
            tried.held()
        tried.restore()
        tried.held()
        tried.end()
    finally:
        tried.twins.free()
        tried.twins.objects = [first]
