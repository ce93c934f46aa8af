"""A campaign's plan, as a file in TOML has it: plan.toml beside this module explains each field."""
import math
import pathlib
import stat
from collections.abc import Iterator
from dataclasses import dataclass, replace
from typing import Any, Optional

from .. import fields, image, library, lns
from ..errors import Wrong
from ..fields import Place
from ..limits import MAX_CODED, MAX_PIECES, MAX_ROWS
from ..regions import REGIONS, Region
from ..theory import FRAGMENT_HEAD, FRAME, air_time, chain_of, complete_shares, duration, time_of
from .tables import (BEACON as BEACON, GPS_EPOCH as GPS_EPOCH, LAST_COUNT as LAST_COUNT, LAST_RATE as LAST_RATE, LEAP as LEAP,
                     Device as Device, File as File, Fragments as Fragments, Group as Group, Pace as Pace, Retry as Retry,
                     Window as Window, eui as eui, gps as gps, moment_of as moment_of)


# ---- What a plan is


@dataclass(frozen=True)
class Plan:
    """A plan, whose tables fit each other; a group and a window go together. `loss` is the share of fragments that a device
    loses, where the plan tells it."""

    file: pathlib.Path
    image: image.Image
    region: Region
    size: int
    coded: int
    loss: float | None
    index: int
    group: Group | None
    window: Window | None
    pace: Pace
    retry: Retry
    server: lns.Server | None
    devices: tuple[Device, ...]
    reserve: int = 0

    @property
    def pieces(self) -> int:
        return -(-len(self.image.data) // self.size)

    @property
    def fragments(self) -> int:
        """How many fragments are planned; those in reserve come on top."""
        return self.pieces + self.coded

    @property
    def in_all(self) -> int:
        """How many fragments there are with the reserve."""
        return self.fragments + self.reserve

    @property
    def last_count(self) -> int:
        """The last frame count that the group needs: for each fragment, a request for the status, and one more for each round of the
        reserve, of which each has a fragment at least."""
        return self.group.first + self.fragments + 2 * self.reserve if self.group else 0

    def air(self, length: int, is_group: bool) -> float:
        """The ms that a payload is on the air."""
        number = self.window.data_rate if self.window and is_group else self.unicast_rate
        return air_time(self.region.rates[number], FRAME + length)

    @property
    def fragment_air(self) -> float:
        """The ms that a fragment is on the air."""
        return self.air(FRAGMENT_HEAD + self.size, self.group is not None)

    def distance(self, air: float) -> int:
        """The ms from a downlink of so long to the next one."""
        return math.ceil(max(self.pace.distance, 100 * air / self.pace.duty_cycle))

    @property
    def unicast_rate(self) -> int:
        """The data rate by which what goes by unicast is reckoned."""
        return self.region.slowest if self.pace.unicast_data_rate is None else self.pace.unicast_data_rate

    @property
    def has_class_a(self) -> bool:
        return any(not device.is_class_c for device in self.devices)

    @property
    def uplink_period(self) -> int:
        """The ms in which a device of class A sends an uplink."""
        return self.pace.uplink_period or self.retry.distance

    @property
    def copies(self) -> int:
        """How often each fragment goes out."""
        return 1 if self.group else len(self.devices)

    @property
    def need(self) -> float:
        """The ms that all fragments need."""
        return time_of(self.fragments * self.copies, self.distance(self.fragment_air), self.fragment_air)

    def does_not_fit(self) -> str | None:
        """Why the fragments do not fit the window; None where they do."""
        has = self.window.length - 2 * self.window.guard if self.window else self.need
        if self.need <= has:
            return None
        return (f"the fragments need {duration(self.need)}, the window has {duration(has)}: take another data rate, longer "
                "pieces or a longer window")

    def for_library(self) -> library.Plan:
        """The plan as the library takes it."""
        told: dict[str, Any] = {"frag_size": self.size, "parity": self.coded + self.reserve, "index": self.index}
        if self.group and self.window:
            group, window = self.group, self.window
            told |= {"has_group": True, "addr": group.number, "min": group.first, "max": group.end, "id": group.id,
                     "key": group.key, "has_window": True, "start": gps(window.start) // 1000,
                     "freq": window.frequency // 100, "timeout": window.timeout, "dr": window.data_rate,
                     "is_class_b": window.kind == "B", "periodicity": window.periodicity or 0}
        return library.Plan(**told)

    @property
    def following(self) -> Optional["Plan"]:
        """The plan for the next start of its window; None where it has no further one."""
        window = self.window and self.window.following
        return replace(self, window=window) if window else None

    def at_each_start(self) -> Iterator["Plan"]:
        """The plan for each start of its window; itself alone without one."""
        plan: Plan | None = self
        while plan:
            yield plan
            plan = plan.following

    @property
    def windows(self) -> list[Window]:
        """Its window at each of its starts; none by unicast."""
        return [plan.window for plan in self.at_each_start() if plan.window]

    @property
    def needed(self) -> int:
        """How many devices have to be ready as the window opens."""
        return math.ceil(len(self.devices) * (self.window.ready if self.window else 0) / 100)

    @property
    def exposed(self) -> str | None:
        """What is said of a file, which has keys, that others may read; None where they may not."""
        mode = stat.S_IMODE(self.file.stat().st_mode)
        return f"others may read {self.file} (mode {mode:04o}), and it has keys: chmod 600 {self.file}" if mode & 0o077 else None

    @property
    def devices_for_library(self) -> list[library.PlanDevice]:
        return [device.for_library for device in self.devices]


# ---- How it is read


def read_plan(path: str | pathlib.Path, has_group: bool = True) -> Plan:
    """The plan of a file; `has_group` says that its network server has the plan's group already."""
    place = Place(pathlib.Path(path))
    told = fields.read(File, place, fields.read_file(place.file))
    try:
        made = image.load(told.image)
    except OSError as why:
        raise place.wrong(f"{told.image}: {why.strerror}", "image") from None
    except Wrong as why:
        raise place.wrong(why, "image") from None
    if (told.group is None) != (told.window is None):
        raise place.wrong(f'missing table "{"window" if told.group else "group"}": a group and its window go together')
    pieces = -(-len(made.data) // told.fragments.size)
    if pieces > MAX_PIECES:
        raise place.wrong(f"{pieces} pieces of {told.fragments.size} bytes, and not at most {MAX_PIECES}", "fragments.size")
    coded = coded_for(told.fragments, pieces, place.inner("fragments"))
    server = None if told.server is None else lns.read(place.inner("server"), told.server, has_group and told.group is not None)
    loss = None if told.fragments.loss is None else told.fragments.loss / 100
    plan = Plan(place.file, made, REGIONS[told.region], told.fragments.size, coded, loss, told.fragments.index, told.group, told.window,
                told.pace, told.retry, server, told.devices, told.fragments.reserve)
    for hold in (hold_reserve, hold_region, hold_devices, hold_retry, hold_window, hold_starts, hold_ready):
        hold(plan, place)
    return plan


def coded_for(fragments: Fragments, pieces: int, place: Place) -> int:
    """How many coded fragments: as many as the plan says, or as a loss and a share of devices need by theory."""
    for name in ("loss", "share", "burst", "rows"):
        if fragments.coded is not None and getattr(fragments, name) is not None:
            raise place.wrong("coded is given too, and says it already", name)
    if fragments.coded is not None:
        return fragments.coded
    if fragments.loss is None or fragments.share is None:
        name = "loss" if fragments.loss is None else "share"
        raise place.wrong(f'missing field "{name}" (loss and share, or coded in their place)')
    try:
        chain = chain_of(fragments.loss / 100, fragments.burst)
    except Wrong as why:
        raise place.wrong(why, "burst") from None
    shares = complete_shares(chain, pieces, MAX_CODED, MAX_ROWS if fragments.rows is None else fragments.rows)
    found = next((count for count, complete in enumerate(shares) if complete >= fragments.share / 100), None)
    if found is None:
        raise place.wrong(f"{fragments.share:g} % of the devices are not complete with {MAX_CODED} coded fragments: take more "
                          "rows, longer pieces, or a smaller share", "share")
    return found


def hold_reserve(plan: Plan, place: Place) -> None:
    """Refuses more coded fragments than there are, those in reserve with them."""
    if plan.coded + plan.reserve > MAX_CODED:
        raise place.wrong(f"{plan.coded} coded fragments and {plan.reserve} in reserve, and not at most {MAX_CODED} together",
                          "fragments.reserve")


def hold_region(plan: Plan, place: Place) -> None:
    """Refuses data rates and a frequency that no downlink of the region has."""
    rates, region = plan.region.rates, plan.region
    for name, number in (("window.data_rate", plan.window and plan.window.data_rate), ("pace.unicast_data_rate", plan.unicast_rate)):
        if number is not None and number not in rates:
            raise place.wrong(f"{number} is not from {min(rates)} to {max(rates)}, the data rates of downlinks in {region.name}", name)
    if plan.window and not region.lowest <= plan.window.frequency <= region.highest:
        raise place.wrong(f"{plan.window.frequency / 1e6:g} MHz is not from {region.lowest / 1e6:g} to {region.highest / 1e6:g} MHz, the "
                          f"frequencies of {region.name}", "window.frequency")


def hold_devices(plan: Plan, place: Place) -> None:
    """Refuses devices with two keys or none, two of one EUI, and one without the id that its network server needs."""
    euis: list[str] = []
    for at, device in enumerate(plan.devices, 1):
        here = place.inner(f"devices[{at}]")
        if device.app_key and device.gen_app_key:
            raise here.wrong("gen_app_key is given too: a device has one of them", "app_key")
        if not device.app_key and not device.gen_app_key:
            raise here.wrong('missing field "gen_app_key" (of LoRaWAN 1.0, or app_key of LoRaWAN 1.1)')
        if device.eui in euis:
            raise here.wrong(f"{device.eui} is given twice", "eui")
        if plan.server and plan.server.needs_ids and not device.id:
            raise here.wrong(f'missing field "id", the name of the device at {plan.server.name}')
        euis.append(device.eui)


def hold_retry(plan: Plan, place: Place) -> None:
    """Refuses tries that are over before a device of class A is heard once."""
    asked = plan.retry.tries * plan.retry.distance
    if plan.has_class_a and asked < plan.uplink_period:
        raise place.wrong(f"{plan.retry.tries} tries take {duration(asked)}, and an uplink of class A comes each "
                          f"{duration(plan.uplink_period)}: take more, or a longer distance", "retry.tries")


def hold_window(plan: Plan, place: Place) -> None:
    """Refuses a group and a window that do not fit each other or the fragments."""
    group, window = plan.group, plan.window
    number = window.data_rate if window else plan.unicast_rate
    longest = plan.region.rates[number].longest - FRAGMENT_HEAD
    if plan.size > longest:
        raise place.wrong(f"data rate {number} carries pieces of {longest} bytes at most", "fragments.size")
    if not group or not window:
        return
    if window.frequency % 100:
        raise place.wrong(f"{window.frequency} Hz is not a multiple of 100 Hz", "window.frequency")
    if window.kind == "B" and window.periodicity is None:
        raise place.wrong('missing field "periodicity", which class B needs', "window")
    if window.kind == "C" and window.periodicity is not None:
        raise place.wrong("only a window of class B has one", "window.periodicity")
    if not plan.last_count < group.end:
        needs = f"{plan.reserve} in reserve and requests for the status need" if plan.reserve else "and a request for the status need"
        raise place.wrong(f"{plan.fragments} fragments{',' * bool(plan.reserve)} {needs} the frame counts from {group.first} to "
                          f"{plan.last_count}, and {group.end} ends before", "group.end")


def hold_starts(plan: Plan, place: Place) -> None:
    """Refuses starts of the window that no device can be told, and those that do not rise."""
    before, name = -math.inf, "window.start"
    for window in plan.windows:
        if not 0 <= gps(window.start) // 1000 < 2**32:
            raise place.wrong(f"{moment_of(window.start)} is not within the 32 bits of GPS time", name)
        if window.opens < before:
            raise place.wrong(f"the window of {moment_of(window.start)} opens before the one before it closes", name)
        before, name = window.closes, "window.again"


def hold_ready(plan: Plan, place: Place) -> None:
    """Refuses what is said of devices that are not ready where it says nothing, or not all."""
    window = plan.window
    if window and window.ready and not window.otherwise:
        raise place.wrong('missing field "otherwise" (begin, wait or ask), which ready needs', "window")
    if window and not window.ready and (window.otherwise or window.again):
        raise place.wrong(f'missing field "ready", without which {"otherwise" if window.otherwise else "again"} says nothing', "window")
    if window and window.otherwise == "wait" and not window.again:
        raise place.wrong('missing field "again" (the further starts of the window), which otherwise = "wait" needs', "window")
    if window and window.otherwise == "begin" and window.again:
        raise place.wrong('there is no further window where otherwise = "begin"', "window.again")
