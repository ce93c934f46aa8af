"""Files of payloads that are drawn: replayed, decoded and captured, and words that are no form.

A session's payloads are a setup and the fragments of a file, with losses, repeats and strange ones. Objects of a
capture have oddities of JSON.
"""
import json

from model.commands import DOWN, ROWS, UP, make
from .values import Case, beyond, border, chance, command_of, loose_spelling, misspelled, payload, some_bytes
from model.parity import fragment_of, padding_for, pieces_for


def joined(rng, lines):
    """The bytes of a file of these lines; the last one may lack its line feed."""
    text = "\n".join(lines)
    return (text if chance(rng, 20) else text + "\n").encode("latin-1")


def setup_of(rng, index, length, size):
    """The setup of a file of so many bytes in pieces of a size, maybe with a field on a border."""
    fields = dict(
        index=index,
        mask=rng.choice((0, 15, rng.randint(0, 15))),
        nbfrag=pieces_for(length, size),
        fragsize=size,
        algo=0,
        delay=rng.randint(0, 7),
        padding=padding_for(length, size),
        descriptor=rng.randint(0, 2**32 - 1),
    )
    if chance(rng, 10):
        name = rng.choice(("nbfrag", "fragsize", "algo", "padding"))
        last = {"nbfrag": 65535, "fragsize": 255, "algo": 7, "padding": 255}[name]
        ends = {"nbfrag": (0, 4096, 4097), "fragsize": (0, 239, 240), "padding": (size - 1, size)}.get(name, ())
        fields[name] = rng.choice((*ends, border(rng, 0, last)))
        fields[name] = max(0, min(last, fields[name]))
    return make("FragSessionSetupReq", **fields)


def fragment_numbers(rng, count):
    """The numbers of the fragments that are heard: in order with losses, repeats and strange ones, or mixed."""
    last = count + rng.choice((0, 3, 10, count))
    numbers = []
    for n in range(1, last + 1):
        numbers += [n] * rng.choice((0, 0, 1, 1, 1, 1, 1, 1, 1, 2))
    numbers += [rng.choice((0, count, count + 1, count + 8380, count + 8381, 16383)) for _ in range(rng.randint(0, 2))]
    if chance(rng, 30):
        rng.shuffle(numbers)
    return numbers


def fragment_payload(rng, index, file, size, number):
    """A fragment of a file; a strange number has any data, and some have a wrong byte or another length."""
    in_reach = 1 <= number <= pieces_for(len(file), size) + 8380
    data = fragment_of(file, size, number) if in_reach else some_bytes(rng, size)
    if chance(rng, 1):
        at = rng.randrange(len(data))
        data = data[:at] + bytes([data[at] ^ 1 << rng.randint(0, 7)]) + data[at + 1:]
    if chance(rng, 2):
        data = data[1:] or data + b"\0"
    command = make("DataFragment", index=index, n=min(number, 16383), bytes=data)
    return loose_spelling(rng, ROWS["DataFragment"], command)


def session_payloads(rng):
    """What a session may hear: its setup and its fragments, and then maybe another session of the index."""
    index, size = rng.randint(0, 3), border(rng, 1, rng.choice((8, 60, 239)))
    file = some_bytes(rng, rng.randint(1, size * rng.choice((1, 2, 3, 8, 20, 40))))
    row = ROWS["FragSessionSetupReq"]
    yield loose_spelling(rng, row, setup_of(rng, index, len(file), size))
    for number in fragment_numbers(rng, pieces_for(len(file), size)):
        yield fragment_payload(rng, index, file, size, number)
        if chance(rng, 3):
            yield payload(rng, 201, DOWN)
    if chance(rng, 15):
        yield loose_spelling(rng, row, setup_of(rng, index, len(file), size))


def mixed_payloads(rng):
    """The payloads of one to three sessions, one after another or between each other."""
    sessions = [list(session_payloads(rng)) for _ in range(rng.choice((1, 1, 2, 3)))]
    if chance(rng, 50):
        return [item for session in sessions for item in session]
    mixed = []
    while any(sessions):
        mixed.append(rng.choice([session for session in sessions if session]).pop(0))
    return mixed


def cased(rng, digits):
    """Hex digits in one case, or in both."""
    if chance(rng, 80):
        return digits
    return "".join(rng.choice((digit, digit.upper())) for digit in digits)


def wrong_digits(rng):
    """A line of no payload, or of one that is too long."""
    return rng.choice(("0", "0g", "00 ", " 00", "00\r", "x" * 601, "0" * 485, "0" * 486, "0" * 484, "-", "\xb2\xb2"))


def with_wrong_line(rng, lines, wrong, percent=12):
    """The lines with a wrong one among them, in so many of a hundred cases."""
    if chance(rng, percent):
        lines = list(lines)
        lines.insert(rng.randint(0, len(lines)), wrong)
    return lines


def header_line(rng, keyword):
    """The header of a file, in a few cases a wrong one."""
    header = f"{keyword} 1 {rng.choice((0, 1, 2, 4, 16, 256, rng.randint(0, 256)))}"
    if chance(rng, 3):
        return f"{keyword} 1 {rng.choice((beyond(rng, 0, 256), '9' * 591, '9' * 592, '9' * 600))}"
    return misspelled(rng, header) if chance(rng, 3) else header


def replay_case(rng):
    """A file that is replayed."""
    lines = [cased(rng, data.hex()) for data in mixed_payloads(rng)]
    lines = with_wrong_line(rng, lines, wrong_digits(rng))
    return Case("replay", ("replay", "file"), {"file": joined(rng, [header_line(rng, "replay"), *lines])})


def decode_case(rng):
    """A file of payloads of a port and a direction."""
    port, direction = rng.randint(200, 203), rng.choice((DOWN, UP))
    lines = [cased(rng, payload(rng, port, direction).hex()) for _ in range(rng.randint(0, 12))]
    lines = with_wrong_line(rng, lines, wrong_digits(rng))
    return Case("decode", ("decode", str(port), direction, "file"), {"file": joined(rng, lines)})


# ---- captures

ODD_VALUES = (
    "1", "-1", "0.5", "1e3", "1E-9", "true", "false", "null", "[]", "{}", '"x"', '""', "[1,[2,{}]]", '{"port":1}',
    "1e400", "-1e400", "NaN", "Infinity", "-Infinity", "01", "1.", ".5", "+1", "0x1", "'x'", "[1,]", "{,}", "-", "1e",
    r'"\ud800"', r'"\ud83d\ude00"', r'"\udc00\ud800"', r'"\u00e9"', r'"\/\b\f\n\r\t\\\""', r'"\x41"', r'"\u12"', '"\t"',
    '"\x7f"', '"\xc3\xa9"', '"\xff"', '"\xed\xa0\x80"', '"\xc0\x80"', '"\xf4\x90\x80\x80"', "0e400", "1e-400",
    "1e99999999999999999999", "0e99999999999999999999", "9" * 310, "9" * 300, "-0", "-0.0", "[-0]",
    '{"a":"\\ud800","a":1}', '["\\udfff"]', '{"\\ud800":1}', "[[" * 62 + "]]" * 62, "[" * 126 + "]" * 126,
    "[" * 127 + "]" * 127, '{"a":' * 126 + "1" + "}" * 126, '{"a":' * 127 + "1" + "}" * 127,
)
PORT_VALUES = (
    "0", "200", "201", "202", "203", "204", "255", "256", "-1", "-0", "201.0", "2e2", '"201"', "null", "true", "[201]",
    "18446744073709551615", "18446744073709551616", "-9223372036854775808", "-9223372036854775809", "0201", "+201",
)
DIR_VALUES = ('"down"', '"up"', r'"do\u0077n"', '"Down"', '"DOWN"', '"down "', "null", "1", '["up"]')
SPACES = ("", "", "", " ", "\t", "\r", "  ", "\x0c", "\xa0", "\xef\xbb\xbf")


def spelled_name(rng, name):
    """A name of a member, some of its letters escaped."""
    letters = (f"\\u{ord(c):04x}" if chance(rng, 5) else c for c in name)
    return '"' + "".join(letters) + '"'


def space(rng):
    """What may stand between two parts of an object, or may not."""
    return rng.choice(SPACES[:7]) if chance(rng, 99.8) else rng.choice(SPACES)


def object_line(rng, members):
    """An object of these members, with white space."""
    parts = [space(rng) + spelled_name(rng, name) + space(rng) + ":" + space(rng) + value for name, value in members]
    return space(rng) + "{" + ",".join(parts) + space(rng) + "}" + space(rng)


def odd_members(rng, members):
    """Members with one more, one less, one twice, or an odd value."""
    members, how = list(members), rng.choice((0, 0, 0, 0, 1, 1, 2, 3, 4, 5))
    if how == 0:
        members.insert(rng.randint(0, len(members)), ("x", rng.choice(ODD_VALUES)))
    elif how == 1:
        members.insert(rng.randint(0, len(members)), ("port", rng.choice(PORT_VALUES)))
    elif how == 2:
        members.insert(rng.randint(0, len(members)), ("dir", rng.choice(DIR_VALUES)))
    elif how == 3:
        members.pop(rng.randrange(len(members)))
    elif how == 4:
        digits = rng.choice(("0", "0g", "zz", "0" * 484, "0" * 485, "0" * 486, "\\u0030\\u0031", "\xc2\xb2", "00 "))
        members.insert(rng.randint(0, len(members)), ("hex", f'"{digits}"'))
    else:
        rng.shuffle(members)
    return members


def entry_line(rng, port, direction, data):
    """A line of a capture, in some cases an odd one."""
    members = [("port", str(port)), ("dir", json.dumps(direction)), ("hex", json.dumps(cased(rng, data.hex())))]
    if chance(rng, 1):
        members = odd_members(rng, members)
    line = object_line(rng, members) if chance(rng, 30) else "{" + ",".join(f'"{n}":{v}' for n, v in members) + "}"
    if chance(rng, 0.3):
        line += rng.choice(("x", "{}", ",", " " * (600 - len(line)), " " * (601 - len(line))))
    return line


def foreign_entry(rng):
    """A payload that the device of a capture does not hear."""
    ways = (200, DOWN), (202, DOWN), (203, DOWN), (201, UP), (200, UP), (203, UP), (7, UP), (0, DOWN)
    port, direction = rng.choice(ways)
    data = payload(rng, port, direction) if 200 <= port <= 203 else some_bytes(rng, rng.randint(0, 5))
    return entry_line(rng, port, direction, data)


def capture_case(rng):
    """A capture of sessions, or of odd objects alone."""
    if chance(rng, 45):
        row = ROWS["DataFragment"]
        data = loose_spelling(rng, row, command_of(rng, row))
        members = [("port", "201"), ("dir", '"down"'), ("hex", json.dumps(data.hex()))]
        lines = [object_line(rng, odd_members(rng, odd_members(rng, members))) for _ in range(4)]
    else:
        lines = [entry_line(rng, 201, DOWN, data) for data in mixed_payloads(rng)]
        for _ in range(rng.randint(0, 4)):
            lines.insert(rng.randint(0, len(lines)), foreign_entry(rng))
    return Case("capture", ("capture", "file"), {"file": joined(rng, [header_line(rng, "capture"), *lines])})


# ---- words

STRANGE_WORDS = (
    "", "-", "--", "-x", "--help", "-1", "0", "65", "01", "+1", "4294967296", "down", "up", "file", "200", "204",
    "\udcff",
)
FORM_WORDS = (
    ("campaign", "file", "file"), ("recover", "file", "file", "1"), ("replay", "file"), ("generate", "7x"),
    ("decode", "201", "down", "file"), ("capture", "file"), ("campaigns", "file", "file", "file"),
    ("help",), ("--help",), ("update",),
)


def words_case(rng):
    """Words of which most are no form."""
    words = list(rng.choice(FORM_WORDS))
    for _ in range(rng.randint(0, 2)):
        at, word = rng.randint(0, len(words)), rng.choice(STRANGE_WORDS)
        if chance(rng, 50) and at < len(words):
            words[at] = word
        else:
            words.insert(at, word)
    if words[:1] == ["generate"] and words[-1:] != ["7x"]:
        words = ["generate", "7x"]
    return Case("words", tuple(words), {"file": b"replay 1 0\n"})


def generate_case(rng):
    """The campaign of a seed."""
    return Case("generate", ("generate", str(border(rng, 0, 2**32 - 1))))
