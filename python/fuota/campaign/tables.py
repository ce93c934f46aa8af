"""The tables of a plan's file, and how moments are told: plan.toml beside this module explains each field."""
import datetime
import pathlib
from dataclasses import dataclass, replace
from typing import Any, Optional

from .. import fields, library
from ..fields import choice, digits, file, member, moments, number, raw_table, seconds, table, tables, whole, word
from ..limits import MAX_CODED, MAX_DEVICES, MAX_PIECE, MAX_PIECES, MAX_ROWS
from ..lns.server import EUI, eui_of
from ..regions import DEFAULT, REGIONS

# Unix time of the GPS epoch, and the leap seconds since, in ms.
GPS_EPOCH, LEAP = 315_964_800_000, 18_000
# Seconds from a beacon of class B to the next one.
BEACON = 128
# The last data rate that a number of four bits can name.
LAST_RATE = 15
LAST_COUNT = 2**32 - 1
# What is done as a window opens and too few devices are ready: it begins all the same, it is passed over, or somebody is asked.
OTHERWISE = ("begin", "wait", "ask")


def gps(t: int) -> int:
    """ms of GPS time for ms of Unix time."""
    return t - GPS_EPOCH + LEAP


def moment_of(t: int) -> str:
    """ms of Unix time as a text."""
    return datetime.datetime.fromtimestamp(t // 1000, datetime.timezone.utc).strftime("%Y-%m-%d %H:%M:%S UTC")


# ---- Its tables


@dataclass(frozen=True, kw_only=True)
class Fragments:
    """The bytes of a piece, and how many coded fragments: a number, or what a loss and a share of devices need by theory. So many
    more are in `reserve`."""

    size: int = member(whole(1, MAX_PIECE))
    coded: int | None = member(whole(0, MAX_CODED), None)
    loss: float | None = member(number(0, 99), None)
    share: float | None = member(number(1, 99.99), None)
    burst: float | None = member(number(1, MAX_PIECES), None)
    rows: int | None = member(whole(0, MAX_ROWS), None)
    reserve: int = member(whole(0, MAX_CODED), 0)
    index: int = member(whole(0, 3), 0)


@dataclass(frozen=True, kw_only=True)
class Group:
    """A multicast group, with its first frame count and the first that is not used any more."""

    id: int = member(whole(0, 3), 0)
    address: bytes = member(digits(8))
    key: bytes = member(digits(32))
    first: int = member(whole(0, LAST_COUNT - 1), 0)
    end: int = member(whole(1, LAST_COUNT))

    @property
    def number(self) -> int:
        """The address as a number."""
        return int.from_bytes(self.address, "big")


@dataclass(frozen=True, kw_only=True)
class Window:
    """A class session. `start` is ms of Unix time; nothing is sent in its first and its last `guard` ms. Where less than `ready`
    percent of the devices are set up as it opens, `otherwise` says what is done, and `again` has its further starts."""

    kind: str = member(choice("B", "C"), name="class")
    start: int = member(fields.moment)
    timeout: int = member(whole(0, 15))
    periodicity: int | None = member(whole(0, 7), None)
    frequency: int = member(whole(100_000_000, 1_677_721_500))
    data_rate: int = member(whole(0, LAST_RATE))
    guard: int = member(seconds(0, 3_600), 2_000)
    ready: float = member(number(0, 100), 0)
    otherwise: str | None = member(choice(*OTHERWISE), None)
    again: tuple[int, ...] = member(moments, ())

    @property
    def opens(self) -> int:
        """ms of Unix time; class B begins with a beacon."""
        second = gps(self.start) // 1000
        return self.start - (second % BEACON * 1000 if self.kind == "B" else 0)

    @property
    def length(self) -> int:
        return (1 << self.timeout) * 1000 * (BEACON if self.kind == "B" else 1)

    @property
    def closes(self) -> int:
        return self.opens + self.length

    @property
    def following(self) -> Optional["Window"]:
        """The window at its next start; None where it has no further one."""
        return replace(self, start=self.again[0], again=self.again[1:]) if self.again else None


@dataclass(frozen=True, kw_only=True)
class Pace:
    """The least distance of downlinks in ms, the percent of time on the air, the data rate of what goes by unicast, or the region's
    slowest, and the ms in which a device of class A sends an uplink, or those of a retry."""

    distance: int = member(seconds(0, 86_400))
    duty_cycle: float = member(number(0.01, 100))
    unicast_data_rate: int | None = member(whole(0, LAST_RATE), None)
    uplink_period: int | None = member(seconds(0.001, 2_592_000), None)


@dataclass(frozen=True, kw_only=True)
class Retry:
    """The ms until a request is tried again, and how often it is tried."""

    distance: int = member(seconds(0.001, 604_800))
    tries: int = member(whole(1, 1_000))


def eui(value: Any) -> bytes:
    """Reads an EUI of 16 hex digits, maybe with separators."""
    octets: bytes = digits(16)(eui_of(value) if isinstance(value, str) and EUI.fullmatch(value) else value)
    return octets


@dataclass(frozen=True, kw_only=True)
class Device:
    """A device. What goes to one of class A waits in its network server's queue for an uplink. It has a GenAppKey of LoRaWAN
    1.0, or an AppKey of LoRaWAN 1.1."""

    eui_bytes: bytes = member(eui, name="eui")
    gen_app_key: bytes | None = member(digits(32), None)
    app_key: bytes | None = member(digits(32), None)
    kind: str = member(choice("A", "C"), name="class")
    id: str | None = member(word, None)

    @property
    def eui(self) -> str:
        return self.eui_bytes.hex()

    @property
    def is_class_c(self) -> bool:
        return self.kind == "C"

    @property
    def for_library(self) -> library.PlanDevice:
        """The device as the library takes it."""
        return library.PlanDevice(key=self.app_key or self.gen_app_key, is_v11=self.app_key is not None)


@dataclass(frozen=True, kw_only=True)
class File:
    """A whole file."""

    image: pathlib.Path = member(file)
    region: str = member(choice(*REGIONS), DEFAULT)
    fragments: Fragments = table(Fragments)
    group: Group | None = table(Group, None)
    window: Window | None = table(Window, None)
    pace: Pace = table(Pace)
    retry: Retry = table(Retry)
    server: dict[str, Any] | None = member(raw_table, None)
    devices: tuple[Device, ...] = tables(Device, MAX_DEVICES)
