"""The network server of a plan tried before a campaign: the broker, its access, uplinks, the group and the devices."""
import time
from collections.abc import Iterator
from dataclasses import dataclass

from ..library import Library
from ..lns import Lost
from .mqtt import Mqtt
from .plan import Plan

# Seconds until the broker is there.
REACHED = 10


@dataclass(frozen=True)
class Found:
    """What was found, as a line, and whether it is as it has to be."""

    line: str
    is_well: bool = True


def tried(plan: Plan, carrier: Mqtt, calls: Library, wait: float) -> Iterator[Found]:
    """What is found; for an uplink it is waited so many seconds. What refuses raises `Refusing`."""
    server = carrier.server
    end = time.monotonic() + REACHED
    while not carrier.is_heard and time.monotonic() < end:
        carrier.work(0.1)
    if not carrier.is_heard:
        yield Found(f"broker: {carrier.fault or f'{server.host}:{server.port} does not answer'}", False)
    else:
        yield Found(f"broker: {server.host}:{server.port} lets the command in, and gives {server.topic} with QoS {carrier.quality}")
        yield first_uplink(plan, carrier, wait)
    try:
        wrong = list(carrier.differences(plan, True, calls))
    except Lost as why:
        yield Found(f"differs: nobody knows, {why}", False)
        return
    for line in wrong:
        yield Found(f"differs: {line}", False)
    if not wrong:
        yield Found(f"differs: nothing{'' if server.is_asked else ', as nothing can be asked but the broker'}")


def first_uplink(plan: Plan, carrier: Mqtt, wait: float) -> Found:
    """Whether a device of the plan is heard, which is told, and no fault: it may send once a day."""
    euis, begin = {device.eui for device in plan.devices}, time.monotonic()
    while (left := begin + wait - time.monotonic()) > 0:
        for uplink in carrier.wait(carrier.now() + 1000 * left):
            if uplink.eui in euis:
                return Found(f"uplinks: {uplink.eui} was heard after {time.monotonic() - begin:.0f} s")
    return Found(f"uplinks: none of a device of the plan within {wait:g} s")
