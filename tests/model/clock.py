"""A device's clock and its corrections (TS003-1.0.0).

True time is in ms since the GPS epoch; a device's clock has 32 bits of seconds, and begins anew after them.
"""
from dataclasses import dataclass

ROUND = 2**32
TOKENS = 16


@dataclass
class Clock:
    """The seconds that it is ahead of true time, modulo 2^32, and the token of its next request."""

    offset: int
    token: int = 0

    def seconds(self, t: int) -> int:
        """DeviceTime at t ms of true time."""
        return (t // 1000 + self.offset) % ROUND

    def millis(self, t: int) -> int:
        """The same clock in ms."""
        return (t + 1000 * self.offset) % (1000 * ROUND)

    def take_answer(self, correction: int, token: int) -> None:
        """AppTimeAns: with its token the correction is added, and the token is raised."""
        if token == self.token:
            self.offset = (self.offset + correction) % ROUND
            self.token = (self.token + 1) % TOKENS


def correction_of(server: int, device: int) -> int:
    """TimeCorrection: from the device's seconds to the server's, as a signed number of 32 bits."""
    difference = (server - device) % ROUND
    return difference - ROUND if difference >= ROUND // 2 else difference
