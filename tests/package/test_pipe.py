"""What comes over a pipe: lines that are too long or say nonsense are passed over, and each other one is heard."""
import json
import os

import pytest

from fuota.campaign import pipe
from fuota.campaign.carrier import Uplink
from fuota.limits import MAX_MESSAGE, MAX_PAYLOAD
from lives import EUIS

NOW = 1_935_871_200_000


@pytest.fixture
def lines():
    """Lines that come from what is written."""
    reader, writer = os.pipe()
    made = pipe.Lines(reader)
    yield made, writer
    os.close(reader), os.close(writer)


class Still(pipe.Pipe):
    """A pipe at a moment that does not pass; simulated, but for lines that say another one."""

    def __init__(self, t=None):
        self.t = t

    def now(self):
        return NOW if self.t is None else self.t


def heard(line, t=None):
    carrier = Still(t)
    return list(carrier.read(line)), carrier.now()


def up(**more):
    return json.dumps({"device": EUIS[0], "port": 203, "payload": "01", **more}).encode()


# What Python's JSON reads as numbers, and no moment is.
NO_TIMES = ["NaN", "Infinity", "-Infinity", "1e400", "-1e400", "-1", "1.5", "true", "null", '"then"', "[]", "1" + "0" * 5_000]


@pytest.mark.parametrize("text", NO_TIMES)
@pytest.mark.parametrize("t", [None, NOW - 1])
def test_times_that_are_none(caplog, text, t):
    line = up().replace(b"}", f', "time": {text}}}'.encode())
    assert heard(line, t) == ([], NOW if t is None else t)
    assert "passed over" in caplog.text


@pytest.mark.parametrize("text", [*NO_TIMES, "1" + "0" * 400, "253402300800000"])
def test_moments_that_are_none(caplog, text):
    """Simulated time stands still at them."""
    assert heard(f'{{"time": {text}}}'.encode(), NOW) == ([], NOW)
    assert "passed over" in caplog.text


@pytest.mark.parametrize("t", [0, NOW, 2 ** 70, 10 ** 400])
def test_times(t):
    """What a device's network server says of the time is for the library to refuse."""
    assert heard(up(time=t))[0] == [Uplink(EUIS[0], 203, b"\1", t)]


@pytest.mark.parametrize("count, wanted", [(MAX_PAYLOAD, 1), (MAX_PAYLOAD + 1, 0)])
def test_long_payloads(caplog, count, wanted):
    assert len(heard(up(payload="01" * count))[0]) == wanted
    assert ("a payload of 243 bytes, and not of at most 242" in caplog.text) == (wanted == 0)


@pytest.mark.parametrize("length, wanted", [(MAX_MESSAGE - 1_000, 1), (MAX_MESSAGE + 1_000, 0), (3 * MAX_MESSAGE + 1_000, 0)])
def test_long_lines(caplog, lines, length, wanted):
    """A line that is too long is passed over, and the one after it heard; no more than it may have is held of it."""
    made, writer = lines
    taken, held = [], 0
    for part in [up() + b" " * (length % 4_096 - len(up()))] + [b" " * 4_096] * (length // 4_096) + [b"\n", up() + b"\n"]:
        os.write(writer, part)
        made.wait(0)
        taken += made.take()
        held = max(held, len(made.rest), *map(len, taken))
    assert [len(list(Still().read(line))) for line in taken] == [wanted, 1]
    assert held <= MAX_MESSAGE + 1
