"""Lines of JSON on standard input and output in the place of a network server: for any server, and for tests."""
import json
import math
import os
import select
import sys
import time
from collections.abc import Iterator
from typing import Any

from ..limits import MAX_MESSAGE, MAX_PAYLOAD
from ..lns.server import eui_of
from .carrier import STRANGE, Carrier, Ended, Uplink, pass_over
from .plan import Device, Group


# The latest moment that there is, in ms of Unix time: the end of the year 9999.
LAST_MOMENT = 253_402_300_799_999


class Lines:
    """The lines that come from a file descriptor. One that is too long is cut, and one byte longer than others may be."""

    def __init__(self, source: int) -> None:
        self.source, self.rest, self.is_over = source, b"", False
        self.lines: list[bytes] = []

    def wait(self, ms: float | None) -> None:
        """Waits until there is a line, but no longer than so many ms; None is for ever."""
        deadline = None if ms is None else time.monotonic() + max(0, ms) / 1000
        while not self.lines and not self.is_over:
            left = None if deadline is None else max(0, deadline - time.monotonic())
            if not select.select([self.source], [], [], left)[0]:
                return
            part = os.read(self.source, 65_536)
            self.is_over = not part
            *lines, rest = (self.rest + part).split(b"\n")
            self.lines += [line[:MAX_MESSAGE + 1] for line in lines]
            self.rest = rest[:MAX_MESSAGE + 1]

    def take(self) -> list[bytes]:
        taken, self.lines = self.lines, []
        return taken


def number_of(members: dict[str, Any], name: str, most: float) -> int:
    """A member that is a number from 0 to this."""
    value = members[name]
    if type(value) is not int or not 0 <= value <= most:
        raise ValueError(f"invalid {name}: {value!r:.40}")
    return value


class Pipe(Carrier):
    """Downlinks are written, a line each, and uplinks read:

        {"device": EUI, "port": PORT, "payload": HEX}                     written and read
        {"group": ADDRESS, "count": COUNT, "port": PORT, "payload": HEX}  written

    With `simulated` time stands still, but for lines {"time": MS} that are read, in ms of Unix time. Each line that is
    read is answered by one, {"wait": MS}: until when nothing is to do.
    """

    name = "pipe"

    def __init__(self, simulated: bool) -> None:
        self.lines, self.t = Lines(0), 0 if simulated else None
        if simulated:
            self.tick = math.inf
            self.wait(1)

    def now(self) -> int:
        return super().now() if self.t is None else self.t

    def wait(self, until: float) -> list[Uplink]:
        if self.t is None:
            self.lines.wait(until - self.now())
        elif not self.lines.lines and until > self.t:
            self.write({"wait": until})
            self.lines.wait(None)
        if self.lines.is_over and not self.lines.lines:
            raise Ended("the input ended")
        return [uplink for line in self.lines.take() for uplink in self.read(line)]

    def read(self, line: bytes) -> Iterator[Uplink]:
        try:
            if len(line) > MAX_MESSAGE:
                raise ValueError(f"a line of more than {MAX_MESSAGE} bytes")
            members = json.loads(line)
            if not isinstance(members, dict):
                raise ValueError("not an object")
            if "time" in members and self.t is not None:
                self.t = max(self.t, number_of(members, "time", LAST_MOMENT))
                if "device" not in members:
                    return
            t = number_of(members, "time", math.inf) if "time" in members else self.now()
            payload = bytes.fromhex(members["payload"])
            if len(payload) > MAX_PAYLOAD:
                raise ValueError(f"a payload of {len(payload)} bytes, and not of at most {MAX_PAYLOAD}")
            yield Uplink(eui_of(members["device"]), number_of(members, "port", 255), payload, t)
        except STRANGE as why:
            pass_over(line, why)

    def write(self, members: dict[str, Any]) -> None:
        try:
            sys.stdout.write(json.dumps(members, separators=(",", ":")) + "\n")
            sys.stdout.flush()
        except BrokenPipeError:
            raise Ended("nobody reads the output") from None

    def to_device(self, device: Device, port: int, payload: bytes) -> None:
        self.write({"device": device.eui, "port": port, "payload": payload.hex()})

    def to_group(self, group: Group, count: int, port: int, payload: bytes) -> int | None:
        self.write({"group": group.address.hex(), "count": count, "port": port, "payload": payload.hex()})
        return None
