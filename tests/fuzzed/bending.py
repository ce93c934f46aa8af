"""Bytes that are bent: bits turned, bytes cut, added, repeated or replaced."""
import random

EDGES = (0, 1, 2, 3, 4, 7, 8, 15, 16, 0x7f, 0x80, 0xa5, 0xfe, 0xff)


def is_one_of(draws: random.Random, count: int) -> bool:
    """True once in so many times."""
    return draws.randrange(count) == 0


def bent_once(draws: random.Random, data: bytes) -> bytes:
    """The bytes with one change."""
    if not data:
        return draws.randbytes(draws.randint(1, 4))
    at, end = sorted((draws.randint(0, len(data)), draws.randint(0, len(data))))
    kind = draws.randrange(7)
    if kind == 0:
        return data[:at] + data[end:]
    if kind == 1:
        return data[:at] + draws.randbytes(draws.randint(1, 8)) + data[at:]
    if kind == 2:
        return data[:end] + data[at:]
    if kind == 3:
        return data[:at]
    at = draws.randrange(len(data))
    if kind == 4:
        return data[:at] + bytes([draws.choice(EDGES)]) + data[at + 1:]
    if kind == 5:
        return data[:at] + draws.randbytes(1) + data[at + 1:]
    return data[:at] + bytes([data[at] ^ 1 << draws.randrange(8)]) + data[at + 1:]


def bent(draws: random.Random, data: bytes, most: int = 242) -> bytes:
    """The bytes with one change or some, and no more of them than `most`."""
    for _ in range(draws.choice((1, 1, 1, 2, 4))):
        data = bent_once(draws, data)
    return data[:most]


def overwritten(draws: random.Random, data: bytes, begin: int, end: int) -> bytes:
    """The bytes with a few of them, from `begin` to `end`, replaced."""
    into = bytearray(data)
    for _ in range(draws.choice((1, 1, 2, 5))):
        at = draws.randrange(begin, end)
        kind = draws.randrange(3)
        into[at] = (into[at] ^ 1 << draws.randrange(8), draws.choice(EDGES), draws.randrange(256))[kind]
    return bytes(into)
