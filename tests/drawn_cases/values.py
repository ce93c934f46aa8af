"""Numbers, commands, payloads and images that are drawn at random, most of them on the borders of what is allowed.

A line can be misspelled here too: the rest of what makes a script or a file stands in `campaigns.py` and `files.py`.
"""
import hashlib
from dataclasses import dataclass, field

from model.commands import TABLE, Block, Command, GroupList, Number, Packed, Rest, Where, part_bytes
from model.words import MAX_PAYLOAD


@dataclass(frozen=True)
class Case:
    """A run of the program: its words, and the files that they name."""

    name: str
    words: tuple
    files: dict = field(default_factory=dict)


def chance(rng, percent):
    """It is so in so many of a hundred cases."""
    return rng.random() * 100 < percent


def border(rng, first, last):
    """A number of a range, often one of its ends or beside it."""
    if chance(rng, 50):
        return rng.randint(first, last)
    return min(last, max(first, rng.choice((first, first + 1, last - 1, last, (first + last) // 2))))


def beyond(rng, first, last):
    """A number just outside a range, or far outside."""
    outside = [last + 1, last + rng.randint(1, 1000), 2**32, 2**64 - 1, 2**64, 10**30]
    return rng.choice([n for n in outside if n > last] + ([first - 1] if first > 0 else []))


def some_bytes(rng, size):
    """So many bytes."""
    return rng.randbytes(size)


def random_word(rng, percent=25):
    """WORD, or none."""
    return f" {border(rng, 0, 2**32 - 1)}" if chance(rng, percent) else ""


# ---- commands


def field_values(rng, part, fields):
    """Draws the fields of a part; what depends on a field before it fits that one."""
    if isinstance(part, Number):
        half = 2 ** (8 * part.width - 1)
        low, high = (-half, half - 1) if part.signed else (0, 2 * half - 1)
        fields[part.name] = border(rng, low, high)
    elif isinstance(part, Packed):
        fields.update((b.name, border(rng, 0, 2 ** (b.high + 1 - b.low) - 1)) for b in part.bits)
    elif isinstance(part, Block):
        fields[part.name] = some_bytes(rng, part.size)
    elif isinstance(part, Rest):
        fields[part.name] = some_bytes(rng, rng.randint(1, 20))
    elif isinstance(part, Where):
        there = fields[part.other] == part.value
        fields[part.name] = border(rng, 0, 2 ** (8 * part.width) - 1) if there else None
    elif isinstance(part, GroupList):
        count = bin(fields[part.mask]).count("1")
        fields[part.name] = [(rng.randint(0, 3), border(rng, 0, 2**32 - 1)) for _ in range(count)]


def command_of(rng, row, **chosen):
    """A command of a row; fields may be chosen."""
    fields = {}
    for part in row.parts:
        field_values(rng, part, fields)
    return Command(row.name, {**fields, **chosen})


def reserved_bits(part):
    """The bits of a part that no field names."""
    used = sum(2 ** (b.high + 1) - 2**b.low for b in part.bits)
    return 2 ** (8 * part.width) - 1 - used


def loose_spelling(rng, row, command):
    """The bytes of a command, some of the reserved bits set."""
    data = bytes([row.cid])
    for part in row.parts:
        piece = part_bytes(part, command.fields)
        if isinstance(part, Packed) and chance(rng, 20):
            number = int.from_bytes(piece, "little") | reserved_bits(part) & rng.getrandbits(8 * part.width)
            piece = number.to_bytes(part.width, "little")
        data += piece
    return data


def rows_for(port, direction):
    """The rows of a port and a direction."""
    return [row for row in TABLE if port in row.ports and row.direction == direction]


def payload(rng, port, direction):
    """A payload of several commands; some are cut off, have foreign bytes, or are too long."""
    rows, data = rows_for(port, direction), b""
    for _ in range(rng.choice((0, 1, 1, 1, 2, 3, 9))):
        row = rng.choice(rows)
        data += loose_spelling(rng, row, command_of(rng, row))
    if chance(rng, 8):
        data = data[:rng.randint(0, len(data))]
    if chance(rng, 8):
        at = rng.randint(0, len(data))
        data = data[:at] + some_bytes(rng, rng.randint(1, 3)) + data[at:]
    return data[:MAX_PAYLOAD]


# ---- images


def image_file(rng, lowest, highest, firmware, length, form):
    """An image file of a format, with a body of so many bytes."""
    body = some_bytes(rng, length)
    numbers = (lowest, firmware, length) if form == 1 else (lowest, highest, firmware, length)
    head = b"FUIM" + bytes([form]) + b"".join(n.to_bytes(4, "little") for n in numbers)
    return head + hashlib.sha256(body).digest() + body


def damaged(rng, image):
    """The same with one byte changed, one more, or one less."""
    at = rng.randrange(len(image))
    how = rng.randint(0, 2)
    if how == 0:
        return image[:at] + bytes([image[at] ^ 1 << rng.randint(0, 7)]) + image[at + 1:]
    return image + b"\0" if how == 1 else image[:-1]


# ---- lines that are refused for their spelling or their length


def misspelled(rng, line):
    """A line that spells no form, or another."""
    words = line.split(" ")
    at = rng.randrange(len(words))
    how = rng.randint(0, 8)
    if how == 0:
        words.insert(at, "")
    elif how == 1:
        words.append(rng.choice(("0", "x", "flash", "v1")))
    elif how == 2:
        words.pop()
    elif how == 3:
        words[at] = "0" + words[at]
    elif how == 4:
        words[at] = words[at].upper() + rng.choice(("", "\r"))
    elif how == 5:
        words[at] = "-" + words[at]
    elif how == 6:
        words[at] = rng.choice(("", "\xb2", "\0", "+1", "1.0", "0x1", "\xff"))
    elif how == 7:
        return line + "x" * (rng.choice((600, 601)) - len(line))
    else:
        words[0] = rng.choice(("fuota", "image", "device", "at", "end", "raw", "rawair", "air", "down", "up", "e"))
    return " ".join(words)
