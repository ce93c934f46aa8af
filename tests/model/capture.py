"""A capture: JSON objects with the members port, dir and hex, each decoded, and those of port 201 replayed.

JSON is Python's own where it is RFC 8259. It takes more than that: NaN and infinities, numbers beyond a float, and lone
surrogates; and it has other limits. What stands instead is said at each function.
"""
import json
import math
from dataclasses import dataclass
from typing import Any

from .commands import DOWN, FRAGMENTS, UP
from .decode import payload_text
from .replay import closing_text, device_for, headed_lines, hear
from .words import MAX_PAYLOAD, Refused, bytes_of_hex, is_beyond

DEEPEST = 127
LARGEST, SMALLEST = 2**64 - 1, -(2**63)


@dataclass
class Members:
    """An object: for each name the last member of it, and how many arrays and objects stand in each other in it."""

    last: dict[str, Any]
    depth: int


def float_of(digits: str) -> float:
    """A number beyond a float is none."""
    value = float(digits)
    if math.isinf(value):
        raise ValueError(digits)
    return value


def int_of(digits: str) -> float:
    """A whole number; -0, and one outside -2^63 to 2^64 - 1, is a float."""
    value = int(digits)
    if digits == "-0" or not SMALLEST <= value <= LARGEST:
        return float_of(digits)
    return value


def constant_of(word: str) -> Any:
    """NaN and infinities are no numbers of JSON."""
    raise ValueError(word)


def depth_of(value: Any) -> int:
    """How deep a value nests; a lone surrogate in a text, which no UTF-8 has, is refused."""
    if isinstance(value, str):
        value.encode("utf-8")
        return 0
    if isinstance(value, Members):
        return value.depth
    if isinstance(value, list):
        return 1 + max((depth_of(item) for item in value), default=0)
    return 0


def members_of(pairs: Any) -> Members:
    """An object of its members, those included that a later one of the same name hides."""
    for name, _ in pairs:
        depth_of(name)
    return Members(dict(pairs), 1 + max((depth_of(value) for _, value in pairs), default=0))


def object_of(line: str) -> Any:
    """The members of the object that a line is; None where it is none, or nests deeper than 127."""
    try:
        value = json.loads(
            line.encode("latin-1").decode("utf-8"),
            object_pairs_hook=members_of,
            parse_float=float_of,
            parse_int=int_of,
            parse_constant=constant_of,
        )
    except (ValueError, RecursionError):
        return None
    if not isinstance(value, Members) or value.depth > DEEPEST:
        return None
    return value.last


@dataclass(frozen=True)
class Entry:
    """What a line says: a payload on a port, down or up."""

    port: int
    direction: str
    payload: bytes


def entry_of(number: int, line: str) -> Entry:
    """The entry of a line, or Refused: first for its syntax, then for its port, then for its length."""
    if is_beyond(number, line):
        raise Refused(number, "limit")
    members = object_of(line) or {}
    port, direction, digits = (members.get(name) for name in ("port", "dir", "hex"))
    payload = bytes_of_hex(digits) if isinstance(digits, str) else None
    if type(port) is not int or direction not in (DOWN, UP) or payload is None:
        raise Refused(number, "syntax")
    if not 0 <= port <= 255:
        raise Refused(number, "range")
    if len(payload) > MAX_PAYLOAD:
        raise Refused(number, "limit")
    return Entry(port, direction, payload)


def capture(file: bytes) -> str:
    """The text of a capture."""
    rows, lines = headed_lines("capture", file)
    device, text = device_for(rows), ""
    for number, line in lines:
        entry = entry_of(number, line)
        text += f"line {number} {entry.port} {entry.direction}\n"
        text += payload_text(entry.port, entry.direction, entry.payload)
        if entry.port == FRAGMENTS and entry.direction == DOWN:
            hear(device, entry.payload, number)
    return "fuota capture 1\n" + text + closing_text(device)
