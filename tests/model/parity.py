"""Lines of fragments: which pieces a fragment is the XOR of (TS004-1.0.0, the forward error correction code).

A line is a number; piece c, counted from 0, is in it where bit c is set. The lines of coded fragments are drawn by the
standard's register of 23 bits.
"""
import functools

def prbs23(state: int) -> int:
    """One step of the register: all bits move down, and bits 0 and 5 make the new top bit."""
    return state >> 1 | ((state ^ state >> 5) & 1) << 22


def is_power_of_two(n: int) -> bool:
    """One bit of n is set."""
    return n > 0 and n & n - 1 == 0


def columns_of(n: int, pieces: int) -> list[int]:
    """The columns of coded fragment n, floor(pieces / 2) of them; one may be drawn twice."""
    modulus = pieces + 1 if is_power_of_two(pieces) else pieces
    columns: list[int] = []
    state = 1 + 1001 * n
    while len(columns) < pieces // 2:
        state = prbs23(state)
        if state % modulus < pieces:
            columns.append(state % modulus)
    return columns


@functools.lru_cache(maxsize=None)
def parity_line(n: int, pieces: int) -> int:
    """The line of coded fragment n."""
    line = 0
    for column in columns_of(n, pieces):
        line |= 1 << column
    return line


def line_of(number: int, pieces: int) -> int:
    """The line of a fragment, by its number from 1 on: a piece alone, or the line of a coded fragment."""
    return 1 << number - 1 if number <= pieces else parity_line(number - pieces, pieces)


def pieces_for(length: int, size: int) -> int:
    """How many pieces of a size hold so many bytes."""
    return -(-length // size)


def padding_for(length: int, size: int) -> int:
    """How many bytes the last piece lacks."""
    return pieces_for(length, size) * size - length


def xor(a: bytes, b: bytes) -> bytes:
    """The XOR of two byte strings of one length."""
    return (int.from_bytes(a, "big") ^ int.from_bytes(b, "big")).to_bytes(len(a), "big")


def fragment_of(file: bytes, size: int, number: int) -> bytes:
    """The data of a fragment of a file: the XOR of the pieces in its line."""
    count = pieces_for(len(file), size)
    filled = file + bytes(padding_for(len(file), size))
    line, data = line_of(number, count), bytes(size)
    for column in range(count):
        if line >> column & 1:
            data = xor(data, filled[column * size:(column + 1) * size])
    return data
