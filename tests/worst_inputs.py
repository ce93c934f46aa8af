"""The inputs that cost the program most, as far as is known: of each form of its words, and of each line of a script.

An input is a front, which brings about what its turns cost most at, and as many turns as are asked for. The bytes of images and
pieces are zeros, since what is done does not depend on them. Nothing is drawn: the same turns are the same bytes.
"""
from collections.abc import Callable
from dataclasses import dataclass, field

from fuzzed.commands import payload_of
from model.generator import Draws
from model.image import MAX_IMAGE, make_image
from model.windows import FIRST_SLOT_MS, SLOT_MS, ping_offset

MAX_BYTES, MAX_LINES, MAX_DEVICES = 1_048_576, 20_000, 64
PIECES, SIZE, LONGEST, ROWS, PARITY = 4096, 64, 239, 256, 512
HEAD, KEY, ADDR = 49, "0" * 32, 0x11223344
LONG_PIECES = -(-MAX_IMAGE // LONGEST)
GROUP = f"group {ADDR:08x} {KEY} 0 4294967295"
WINDOW = "window b 0 7 15 8681000 0"
SLOT = FIRST_SLOT_MS + SLOT_MS * ping_offset(0, ADDR, 2 ** (5 + 7))
SMALL, LARGEST = make_image(1, 2, b"abc"), make_image(1, 2, bytes(MAX_IMAGE - HEAD))
CAMPAIGN = ("campaign", "image", "script")
Files = dict[str, bytes]


@dataclass(frozen=True)
class Lines:
    """Lines of a file: those before the turns, the line of each turn, and those after them."""

    front: list[str]
    turn: Callable[[int], str]
    back: list[str] = field(default_factory=lambda: ["end"])

    def text(self, turns: int) -> bytes:
        """The file of so many turns."""
        lines = [*self.front, *map(self.turn, range(turns)), *self.back]
        return ("\n".join(lines) + "\n").encode()

    def most(self, cap: int) -> int:
        """How many turns a file may have, and at most so many."""
        room = MAX_BYTES - len(self.text(0))
        cap = min(cap, MAX_LINES - len(self.front) - len(self.back))
        for turn in range(cap):
            room -= len(self.turn(turn)) + 1
            if room < 0:
                return turn
        return cap


@dataclass(frozen=True)
class Input:
    """An input of some form of the words.

    `about` says what is in it, `unit` what is counted, and `each` how many of these a turn is. `sizes` are the turns of the
    two that are measured, and `shows` stands in what the program writes for them.
    """

    name: str
    about: str
    unit: str
    sizes: tuple[int, int]
    shows: str
    lines: Lines
    form: tuple[str, ...] = CAMPAIGN
    images: tuple[bytes, ...] = (SMALL,)
    each: int = 1
    cap: int = MAX_LINES

    def words(self, _turns: int) -> list[str]:
        """The words of the program."""
        return list(self.form)

    def files(self, turns: int) -> Files:
        """The files that the words name."""
        names = [word for word in self.form if word.startswith("image")]
        file = "script" if "script" in self.form else "file"
        return {**dict(zip(names, self.images)), file: self.lines.text(turns)}

    def most(self) -> int:
        """The most turns that are accepted."""
        return self.lines.most(self.cap)


@dataclass(frozen=True)
class Seeds(Input):
    """Campaigns of seeds, by the pieces of their image."""

    def words(self, turns: int) -> list[str]:
        """The first seed whose image has so many pieces, and the longest body of these."""
        bodies = {seed: 4096 + Draws(seed).draw() % 4096 for seed in range(50_000)}
        fitting = [seed for seed, body in bodies.items() if -(-(HEAD + body) // SIZE) == turns]
        return ["generate", str(max(fitting, key=lambda seed: bodies[seed]))]

    def files(self, _turns: int) -> Files:
        """None."""
        return {}

    def most(self) -> int:
        """Those of the longest body."""
        return -(-(HEAD + 8191) // SIZE)


class Script:
    """The first lines of a script; counts the payloads that are sent."""

    def __init__(self, *lines: str) -> None:
        self.lines = list(lines)
        self.sent = 0

    def send(self, line: str, times: int = 1) -> int:
        """A line that sends a payload, so often; returns the number of the first."""
        self.lines += [line] * times
        self.sent += times
        return self.sent - times + 1

    def ask(self, times: int, letter: str = "") -> None:
        """Device 1 is asked, hears the request, and its uplink comes, so often."""
        for turn in range(1, times + 1):
            number = self.send("ask 1")
            self.lines += [f"down {letter}{number} 1", f"up {letter}{turn}"]


def device(number: int = 1, last: str = "") -> str:
    """The line of a device with all rows."""
    return f"device {number} c 1 {ROWS} 0 {KEY}{last}"


def plan(*group: str, size: int = SIZE, parity: int = 0, last: str = "") -> Script:
    """The plan of one device."""
    return Script("fuota 1", f"image {size} {parity}", *group, device(last=last))


def pair_device(number: int, letter: str) -> str:
    """The line of a device of one of two campaigns."""
    return f"device {number} {letter} c 1 {ROWS} 0 {KEY}"


def setup(index: int, pieces: int, size: int, descriptor: int, padding: int = 0) -> bytes:
    """FragSessionSetupReq."""
    return payload_of(201, False, f"FragSessionSetupReq index={index} mask=0 nbfrag={pieces} fragsize={size} algo=0 delay=0 "
                      f"padding={padding} descriptor={descriptor:08x}")


def fragment(number: int, part: bytes) -> bytes:
    """DataFragment of session 0."""
    return b"\x08" + number.to_bytes(2, "little") + part


# Two setups of each session, for files of the most pieces; none is equal to the one before it.
EIGHT_SETUPS = b"".join(setup(turn % 4, PIECES, SIZE, turn // 4) for turn in range(8)).hex()
# Two setups of each group.
EIGHT_GROUPS = b"".join(payload_of(200, False, f"McGroupSetupReq id={turn % 4} addr={ADDR:08x} key={KEY} min=0 max=9")
                        for turn in range(8)).hex()


# ---- lines of a script that bring no fragment ----

def asked() -> list[Input]:
    """Time, requests and answers."""
    wrapped, set_up, woken = plan(GROUP, WINDOW), plan(GROUP, WINDOW), plan()
    wrapped.ask(1)
    set_up.ask(1)
    request = set_up.send("ask 1")
    woken.lines += ["wake 1", "at 9000"]
    held = plan(last=" flash")
    held.lines.append(f"raw 1 201 {setup(0, PIECES, SIZE, 0).hex()}")
    few, none = (400, 1200), "device 1 version clock 0 token 0 "
    return [
        Input("`at`", "alone", "line", few, none, Lines(plan().lines, "at {}".format)),
        Input("`power`", "a session of 4,096 pieces in flash", "line", few, none, Lines(held.lines, lambda _: "power 1")),
        Input("`wake`", "alone", "line", few, none, Lines(plan().lines, lambda _: "wake 1")),
        Input("`status`", "to a group", "line", few, none, Lines(plan(GROUP, WINDOW).lines, lambda _: "status")),
        Input("`up`", "a request of the time, which is answered", "line", few, none, Lines(woken.lines, lambda _: "up 1")),
        Input("`ask`", "a group's key is wrapped", "line", (100, 300), "device 1 group ",
              Lines(wrapped.lines, lambda _: "ask 1")),
        Input("`down`", "a group is set up", "line", (100, 300), "device 1 group ",
              Lines(set_up.lines, lambda _: f"down {request} 1")),
    ]


def stranger() -> list[Input]:
    """Payloads and frames of strangers."""
    devices = ["fuota 1", "image 52 0", *map(device, range(1, MAX_DEVICES + 1))]
    heard = plan(GROUP, WINDOW)
    heard.ask(4)
    frame = (b"\x60" + ADDR.to_bytes(4, "little") + b"\0\0\0" + b"\xc9" + bytes(12)).hex()
    return [
        Input("`raw`", "eight sessions of 4,096 pieces are set up, each device in turn", "setup", (64, 192), "session 3 ",
              Lines(devices, lambda turn: f"raw {1 + turn % MAX_DEVICES} 201 {EIGHT_SETUPS}"), each=8),
        Input("`raw`, groups", "eight groups are set up", "setup", (20, 60), "deaf 0 refused 0 full 0",
              Lines(plan().lines, lambda _: f"raw 1 200 {EIGHT_GROUPS}"), each=8),
        Input("`rawair`", "a frame of 21 bytes with a wrong MIC", "line", (100, 300), "counts deaf ",
              Lines(heard.lines, lambda _: f"rawair 1 {frame}")),
    ]


# ---- fragments ----

def rows_held(word: str, *group: str) -> Lines:
    """All rows of a device are held and no piece is; the coded fragments of the rows come again and again."""
    script = plan(*group, parity=PARITY)
    script.ask(4 if group else 2)
    coded = script.send("frag", PIECES + ROWS) + PIECES
    script.lines += [f"at {SLOT}", *(f"{word} {coded + row} 1" for row in range(ROWS))]
    return Lines(script.lines, lambda turn: f"{word} {coded + turn % ROWS} 1")


def leading() -> Lines:
    """All rows of a device are held and no piece is; pieces come in order, so that each leads a row."""
    script = plan(parity=PARITY)
    script.ask(2)
    first = script.send("frag", PIECES + ROWS)
    script.lines += [f"down {first + PIECES + row} 1" for row in range(ROWS)]
    return Lines(script.lines, lambda turn: f"down {first + turn} 1")


def sent() -> list[Input]:
    """Fragments of the server's."""
    uncoded = plan(parity=PARITY)
    uncoded.send("frag", PIECES)
    held, whole = f"missing {PIECES - ROWS} receiving", (LARGEST,)
    return [
        Input("`frag`", "4,096 pieces of 64 bytes, a coded one", "line", (32, 96), "device 1 version ",
              Lines(uncoded.lines, lambda _: "frag"), images=whole, cap=PARITY),
        Input("`down`, a piece", "256 rows are held, and each piece leads one", "line", (64, 192), "receiving", leading(),
              images=whole, cap=PIECES - ROWS),
        Input("`down`, coded", "256 rows of 4,096 pieces are held, and their fragments come again", "line", (64, 192),
              held, rows_held("down"), images=whole),
        Input("`air`", "the same in frames, in a slot of class B", "line", (64, 192), held, rows_held("air", GROUP, WINDOW),
              images=whole),
    ]


# ---- the largest image ----

def raw_image() -> Lines:
    """A stranger brings the largest image, and it is read again and again."""
    padding = LONG_PIECES * LONGEST - MAX_IMAGE
    parts = [LARGEST[at:at + LONGEST].ljust(LONGEST, b"\0") for at in range(0, MAX_IMAGE, LONGEST)]
    payloads = [setup(0, LONG_PIECES, LONGEST, 2, padding), *(fragment(n, part) for n, part in enumerate(parts, 1))]
    lines = [*plan(size=LONGEST).lines, *(f"raw 1 201 {payload.hex()}" for payload in payloads)]
    return Lines(lines, lambda _: "migrate 1")


def sent_image() -> Lines:
    """The server of one of two campaigns brings it."""
    script = Script("fuota 2", f"image a {LONGEST} 0 0", f"image b {LONGEST} 0 1", pair_device(1, "a"), pair_device(2, "b"))
    script.ask(2, "a")
    first = script.send("frag a", LONG_PIECES)
    script.lines += [f"down a{number} 1" for number in range(first, first + LONG_PIECES)]
    return Lines(script.lines, lambda _: "migrate 1")


def read_again() -> list[Input]:
    """The image of next is read again, in each form over a script."""
    about, unit, sizes, shows = "next is an image of 262,144 bytes", "byte of the image", (1, 4), "next valid 2"
    return [
        Input("`migrate`", about, unit, sizes, shows, raw_image(), images=(LARGEST,), each=MAX_IMAGE),
        Input("`recover`, `migrate`", "the same", unit, sizes, "FUIM", raw_image(), ("recover", "image", "script", "1"),
              (LARGEST,), each=MAX_IMAGE),
        Input("`campaigns`, `migrate`", "the same, by fragments of its server", unit, sizes, shows, sent_image(),
              ("campaigns", "image_a", "image_b", "script"), (LARGEST, LARGEST), each=MAX_IMAGE),
    ]


# ---- files of payloads ----

def replayed(pieces: int, rows: int) -> Lines:
    """All rows are held, and their coded fragments come again and again."""
    part = bytes(22)
    coded = [fragment(pieces + row, part).hex() for row in range(1, rows + 1)]
    return Lines([f"replay 1 {rows}", setup(0, pieces, len(part), 0).hex(), *coded], lambda turn: coded[turn % rows], [])


def captured() -> Lines:
    """The same in a capture."""
    part = bytes(5)
    coded = [object_of(fragment(PIECES + row, part)) for row in range(1, ROWS + 1)]
    return Lines([f"capture 1 {ROWS}", object_of(setup(0, PIECES, len(part), 0)), *coded], lambda turn: coded[turn % ROWS], [])


def object_of(payload: bytes, more: str = "") -> str:
    """A line of a capture, with other members before the payload's."""
    return f'{{{more}"port":201,"dir":"down","hex":"{payload.hex()}"}}'


def halfway(turn: int) -> str:
    """A number so near the middle of two floats that its first 19 digits do not say which of them is nearest."""
    return f"{(2 * (turn + 2**52) + 1) * 10**327 // 2**1075}e-327"


def numbers(turn: int) -> str:
    """An object with as many such numbers as a line has room for."""
    many = ",".join(halfway(21 * turn + k) for k in range(21))
    return object_of(b"", f'"x":[{many}],')


def of_files() -> list[Input]:
    """Files of payloads."""
    answer = payload_of(200, True, "McClassCSessionAns id=3 bits=28 start=-")
    return [
        Input("`replay`", "256 rows of 4,096 pieces of 22 bytes are held, and their fragments come again", "line", (64, 192),
              f"missing {PIECES - ROWS} receiving", replayed(PIECES, ROWS), ("replay", "file"), ()),
        Input("`replay`, a small file", "the same, 64 rows of 1,024 pieces", "line", (64, 192), "missing 960 receiving",
              replayed(1024, 64), ("replay", "file"), ()),
        Input("`replay`, setups", "eight sessions of 4,096 pieces are set up", "setup", (64, 192), "session 3 ",
              Lines([f"replay 1 {ROWS}"], lambda _: EIGHT_SETUPS, []), ("replay", "file"), (), 8),
        Input("`decode`", "12 refusals a line", "line", (200, 600), "bits=28", Lines([], lambda _: (12 * answer).hex(), []),
              ("decode", "200", "up", "file"), ()),
        Input("`capture`", "as `replay`, of pieces of 5 bytes", "line", (64, 192), f"missing {PIECES - ROWS} receiving",
              captured(), ("capture", "file"), ()),
        Input("`capture`, numbers", "21 numbers between two floats", "line", (50, 150), "counts",
              Lines([f"capture 1 {ROWS}"], numbers, []), ("capture", "file"), ()),
    ]


def other() -> list[Input]:
    """Devices, and campaigns of seeds."""
    devices = ["fuota 1", "image 52 0", *map(device, range(1, MAX_DEVICES + 1))]
    return [
        Input("`device`", "and its lines of the report", "device", (16, 64), "device 16 ",
              Lines(["fuota 1", "image 52 0"], lambda turn: device(turn + 1)), cap=MAX_DEVICES),
        Input("the first event of a device", "`wake`", "device", (16, 64), "device 16 ",
              Lines(devices, lambda turn: f"wake {turn + 1}"), cap=MAX_DEVICES),
        Seeds("`generate`", "the seed of the longest body of so many pieces", "piece", (65, 129), "complete 8 updated 8",
              Lines([], str), ("generate",), ()),
    ]


def inputs() -> list[Input]:
    """All, in the order of the page."""
    return [*asked(), *sent(), *stranger(), *read_again(), *other(), *of_files()]
