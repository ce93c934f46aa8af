"""Simulated devices, of the library's own, behind a network server that loses some of what is sent: for rehearsals."""
import contextlib
import heapq
import math
import random
from collections.abc import Callable

from .. import library
from ..errors import Wrong
from ..limits import MAX_ROWS
from .carrier import Carrier, Uplink
from .plan import Device, Group, Plan, gps
from .reckoning import begin_of, refused_by_library

# After an uplink a device of class A hears for the first time, and fetches so many ms later what waits still (FPending).
FIRST_WINDOW, FETCH = 1_000, 3_000
# Every tenth uplink, and every uplink until the clock is set, asks for the time; a device of class C sends no others by itself.
RARELY = 10
# The port and the identifier of AppTimeAns, which sets the clock.
TIME = (202, b"\x01")
# Seconds that a clock is ahead at first.
AHEAD = 77_777
# What a meter sends beside: its port and its payload.
REPORT = (1, b"\0")


class Simulated:
    """A device, with what its network server holds for it. Its MAC opens the windows of class A by itself, so that the
    library's device is one of class C."""

    def __init__(self, device: Device, plan: Plan, calls: library.Library) -> None:
        self.eui, self.is_class_c, self.wakes, self.knows_time = device.eui, device.is_class_c, 0, False
        self.queue: list[tuple[int, bytes]] = []
        told = device.for_library
        self.device = library.Device(library.Config(
            hw=plan.image.lowest, area=plan.pieces * plan.size, rows=MAX_ROWS, formats=2, sessions=plan.index + 1, groups=4,
            offset=AHEAD, is_class_c=True, is_v11=told.is_v11, key=told.key), calls)


class Fleet:
    """Devices of class A send an uplink each so many ms. `loss` is the share of payloads that is lost, each way and for each
    device. The same seed and calls give the same losses."""

    def __init__(self, plan: Plan, calls: library.Library, begin: int, every: int, loss: float = 0.0, seed: int = 0) -> None:
        self.loss, self.draw, self.order = loss, random.Random(seed), 0
        self.events: list[tuple[int, int, Callable[[int], None]]] = []
        self.group = plan.group
        self.devices: dict[str, Simulated] = {}
        for at, device in enumerate(plan.devices):
            simulated = self.devices[device.eui] = Simulated(device, plan, calls)
            self.wake_at(begin + (at + 1) * every // (len(plan.devices) + 1), simulated, every)
        self.arrived: list[Uplink] = []

    def at(self, t: int, act: Callable[[int], None]) -> None:
        """Has something happen at a moment."""
        self.order += 1
        heapq.heappush(self.events, (t, self.order, act))

    @property
    def next_moment(self) -> int:
        return self.events[0][0]

    def advance(self, t: int) -> list[Uplink]:
        """Does what happens up to `t` ms of Unix time: the uplinks that the network server hears."""
        while self.events and self.events[0][0] <= t:
            moment, _, act = heapq.heappop(self.events)
            act(moment)
        arrived, self.arrived = self.arrived, []
        return arrived

    # ---- What happens

    def wake_at(self, t: int, device: Simulated, every: int) -> None:
        self.at(t, lambda moment: self.wake(moment, device, every))

    def wake(self, t: int, device: Simulated, every: int) -> None:
        if device.wakes % RARELY == 0 or not device.knows_time:
            with contextlib.suppress(library.Full):
                device.device.wake(gps(t))
            self.take(device)
        elif not device.is_class_c:
            self.send_up(t, device, *REPORT)
        device.wakes += 1
        self.wake_at(t + every, device, every)

    def take(self, device: Simulated) -> None:
        """The uplinks that a device made go out when they are due."""
        while (made := device.device.take_uplink()) is not None:
            self.send_up_at(made.due - gps(0), device, made.port, made.data)

    def send_up_at(self, t: int, device: Simulated, port: int, payload: bytes) -> None:
        self.at(t, lambda moment: self.send_up(moment, device, port, payload))

    def send_up(self, t: int, device: Simulated, port: int, payload: bytes) -> None:
        if self.draw.random() < self.loss:
            return
        self.arrived.append(Uplink(device.eui, port, payload, t))
        if not device.is_class_c:
            self.at(t + FIRST_WINDOW, lambda moment: self.open(moment, device))

    def open(self, t: int, device: Simulated) -> None:
        """The first window after an uplink: one payload of the queue."""
        if device.queue:
            self.bring(t, device, *device.queue.pop(0))
        if device.queue:
            self.send_up_at(t + FETCH, device, 0, b"")

    def bring(self, t: int, device: Simulated, port: int, payload: bytes, count: int | None = None) -> None:
        if self.draw.random() < self.loss:
            return
        group = (self.group.number, count) if self.group and count is not None else None
        device.knows_time |= (port, payload[:1]) == TIME
        with contextlib.suppress(library.Deaf, library.Refused, library.Full):
            device.device.deliver(port, payload, gps(t), word=self.draw.getrandbits(32), group=group)
        self.take(device)

    def bring_at(self, t: int, device: Simulated, port: int, payload: bytes, count: int | None = None) -> None:
        self.at(t, lambda moment: self.bring(moment, device, port, payload, count))

    # ---- What the network server is given

    def to_device(self, t: int, eui: str, port: int, payload: bytes) -> None:
        device = self.devices[eui]
        if device.is_class_c:
            self.bring_at(t, device, port, payload)
        else:
            device.queue.append((port, payload))

    def to_group(self, t: int, count: int, port: int, payload: bytes) -> None:
        for device in self.devices.values():
            self.bring_at(t, device, port, payload, count)

    def running(self) -> list[int]:
        """The firmware version that each device runs."""
        return [device.device.running() for device in self.devices.values()]

    def close(self) -> None:
        for device in self.devices.values():
            device.device.free()


class Rehearsal(Carrier):
    """A fleet in the place of a network server, in a time that is the events'. It begins when the plan has to."""

    name, tick = "rehearsal", math.inf

    def __init__(self, plan: Plan, calls: library.Library, loss: float, seed: int) -> None:
        if plan.window and plan.window.kind == "B":
            raise Wrong(f"{plan.file}: window.class: a rehearsal has only class C")
        refused = plan.window and refused_by_library(plan.window)
        if refused:
            raise Wrong(f"{plan.file}: window: a rehearsal has the library's own devices, which refuse {refused}")
        self.t = begin_of(plan) or super().now()
        self.fleet = Fleet(plan, calls, self.t, plan.uplink_period, loss, seed)

    def now(self) -> int:
        return self.t

    def wait(self, until: float) -> list[Uplink]:
        moment = self.fleet.next_moment
        self.t = max(self.t, moment if until > moment else int(until))
        return self.fleet.advance(self.t)

    def to_device(self, device: Device, port: int, payload: bytes) -> None:
        self.fleet.to_device(self.t, device.eui, port, payload)

    def to_group(self, group: Group, count: int, port: int, payload: bytes) -> int | None:
        self.fleet.to_group(self.t, count, port, payload)
        return None

    def close(self) -> None:
        self.fleet.close()
