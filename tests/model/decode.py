"""A file of payloads, decoded: the text of each command, or where and why reading a payload stops.

Each line is a payload as hex digits; the first line that is none, or too long, is refused in the place of all text.
"""
from .commands import Refusal, read_payload
from .texts import command_text
from .words import MAX_PAYLOAD, Refused, bytes_of_hex, is_beyond, lines_of


def payload_text(port: int, direction: str, data: bytes) -> str:
    """A line for each command of a payload, or the refusal alone."""
    commands = read_payload(port, direction, data)
    if isinstance(commands, Refusal):
        return f"refused {commands.at} {commands.why}\n"
    return "".join(command_text(command) + "\n" for command in commands)


def payload_of(number: int, line: str) -> bytes:
    """The payload of a line of hex digits, or Refused."""
    if is_beyond(number, line):
        raise Refused(number, "limit")
    data = bytes_of_hex(line)
    if data is None:
        raise Refused(number, "syntax")
    if len(data) > MAX_PAYLOAD:
        raise Refused(number, "limit")
    return data


def decode(port: int, direction: str, file: bytes) -> str:
    """The text of a file of payloads."""
    text = ""
    for number, line in enumerate(lines_of(file), 1):
        text += f"line {number}\n" + payload_text(port, direction, payload_of(number, line))
    return text + "end\n"
