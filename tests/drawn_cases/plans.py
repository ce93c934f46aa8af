"""Images, and the lines of a plan: how an image is cut, groups and windows, and devices of each kind.

Most of a plan's numbers are small, so that a script is played to its end; some are on the borders of their ranges.
"""
from .values import chance, image_file


NO_KEY = "0" * 32


def image_for(rng):
    """An image of either format, short in most cases."""
    form = rng.choice((1, 1, 2))
    lowest = rng.choice((0, 1, 5, 2**32 - 3))
    highest = lowest if form == 1 else lowest + rng.randint(0, 2)
    firmware = rng.choice((1, 2, 2**32 - 1))
    return image_file(rng, lowest, highest, firmware, rng.choice((0, 1, 3, 20, 100, 200, 700)), form)


def frag_size(rng, length):
    """A size that cuts an image into a few pieces, or one on the border."""
    pieces = rng.choice((1, 2, 3, 4, 5, 8, 13, 20, 40))
    return min(239, max(1, -(-length // pieces))) if chance(rng, 85) else rng.choice((1, 239, 16))


def group_line(rng, letter, ident):
    """A group, often with few counts, or counts about a multiple of 65,536."""
    low = rng.choice((0, 0, 1, 65_530, 65_535, 2**32 - 40))
    high = min(2**32 - 1, low + rng.choice((1, 3, 12, 60, 70_000, 70_000, 70_000)))
    words = ["group", *([letter, str(ident)] if letter else []), f"{rng.getrandbits(32):08x}", rng.randbytes(16).hex()]
    return " ".join([*words, str(low), str(high)])


def window_line(rng, letter):
    """A class session of the group."""
    start = rng.choice((0, 1, 100, 128, 255, 1000, 2000, 10_000, 2**32 - 5) if chance(rng, 90) else (2**31, 2**32 - 1))
    freq = rng.choice((8_630_000, 8_681_000, 8_700_000) if chance(rng, 92) else (8_629_999, 8_700_001, 0))
    rate = rng.choice((0, 5) if chance(rng, 95) else (6, 255))
    kind = "c" if chance(rng, 50) else "b"
    periodicity = [rng.randint(0, 7)] if kind == "b" else []
    words = ["window", *([letter] if letter else []), kind, start, *periodicity]
    return " ".join(str(word) for word in [*words, rng.choice((0, 1, 4, 8, 15)), freq, rate])


def device_line(draft, letter, number):
    """A device that the image is for, in most cases, with each of the words at the end or not."""
    rng, server = draft.rng, draft.sides[letter].server
    head = server.head
    hardware = rng.choice((head.lowest, head.highest)) if chance(rng, 90) else rng.choice((0, head.highest + 1, 77))
    rows = rng.choice((0, 1, 2, server.pieces, 40, 256))
    offset = 0 if chance(rng, 60) else rng.choice((1, 5, 2**32 - 1, 2**32 - 7, 2**31))
    key = rng.choice((NO_KEY, rng.randbytes(16).hex(), rng.randbytes(16).hex().upper()))
    words = ["device", number, *([letter] if letter else []), rng.choice("ac")]
    words += [hardware % 2**32, min(rows, 256), offset, key]
    if chance(rng, 12):
        words.append(f"{server.head.firmware if chance(rng, 60) else rng.getrandbits(32):08x}")
    words += [word for word, percent in (("v1", 15), ("k11", 25), ("flash", 25)) if chance(rng, percent)]
    return " ".join(str(word) for word in words)
