"""Lines of a file and the words in them: decimals, hex digits, and the words that end a run.

A file is held as text of which each character is one byte (Latin-1), so that any bytes have lines and words.
"""
import re

MAX_LINES = 20_000
MAX_LINE = 600
MAX_PAYLOAD = 242
LARGEST_DECIMAL = 2**64 - 1

DECIMAL = re.compile(r"0|[1-9][0-9]*")
HEX = re.compile(r"(?:[0-9a-fA-F]{2})*")


class Refused(Exception):
    """A line is refused, for a cause: limit, syntax, order, range, device, unsent or time."""

    def __init__(self, line: int, why: str) -> None:
        super().__init__(f"line {line} {why}")
        self.line = line
        self.why = why


def lines_of(data: bytes) -> list[str]:
    """The stretches between line feeds, without an empty last one."""
    lines = data.decode("latin-1").split("\n")
    return lines[:-1] if lines[-1] == "" else lines


def decimal_of(word: str) -> int | None:
    """The number that a decimal spells, held as 2^64 - 1 where it is larger; None where the word is none."""
    if not DECIMAL.fullmatch(word):
        return None
    return min(int(word), LARGEST_DECIMAL)


def bytes_of_hex(digits: str) -> bytes | None:
    """The bytes that an even number of hex digits of either case spells, else None."""
    return bytes.fromhex(digits) if HEX.fullmatch(digits) else None


def sized_hex(word: str, size: int) -> bytes | None:
    """So many bytes of hex digits, else None."""
    return bytes_of_hex(word) if len(word) == 2 * size else None


def hex_number(word: str) -> int | None:
    """The number of 32 bits that 8 hex digits spell, the most significant first, else None."""
    data = sized_hex(word, 4)
    return None if data is None else int.from_bytes(data, "big")


def payload_word(word: str) -> bytes | None:
    """The bytes of a word of a script: hex digits, or `-` for none; else None."""
    if word == "-":
        return b""
    return bytes_of_hex(word) if word else None


def is_beyond(number: int, line: str) -> bool:
    """A line has too many bytes, or too many lines before it."""
    return number > MAX_LINES or len(line) > MAX_LINE
