"""A file of captured payloads, replayed: a device hears them on port 201, and its sessions are told.

The device is of class C, its clock is right, and the header gives its rows. The mark of a payload is its line.
"""

from .commands import FRAGMENTS
from .decode import payload_of
from .device import Config, Device, Downlink, new_device
from .report import counts_line, told_lines
from .script import MAX_ROWS
from .words import MAX_LINE, Refused, decimal_of, lines_of


def device_for(rows: int) -> Device:
    """The device of a replay."""
    return new_device(Config(is_class_a=False, hardware=0, rows=rows, offset=0, key=bytes(16)))


def hear(device: Device, payload: bytes, number: int) -> None:
    """A payload comes by unicast at moment 0, with random word 0; the uplinks are thrown away."""
    device.receive(0, Downlink(FRAGMENTS, payload), 0, number)
    device.take_uplinks()


def headed_lines(keyword: str, file: bytes) -> tuple[int, list[tuple[int, str]]]:
    """The rows that the header of a file gives, and the lines after it with their numbers; or Refused."""
    lines = lines_of(file)
    header = lines[0] if lines else ""
    if len(header) > MAX_LINE:
        raise Refused(1, "limit")
    words = header.split(" ")
    rows = decimal_of(words[2]) if len(words) == 3 and words[:2] == [keyword, "1"] else None
    if rows is None:
        raise Refused(1, "syntax")
    if rows > MAX_ROWS:
        raise Refused(1, "range")
    return rows, list(enumerate(lines[1:], 2))


def closing_text(device: Device) -> str:
    """The counts, the sessions with their files, and the last line."""
    return counts_line(device.counts) + told_lines(device.sessions) + "end\n"


def replay(file: bytes) -> str:
    """The text of a file of captured payloads."""
    rows, lines = headed_lines("replay", file)
    device = device_for(rows)
    for number, line in lines:
        hear(device, payload_of(number, line), number)
    return "fuota replay 1\n" + closing_text(device)
