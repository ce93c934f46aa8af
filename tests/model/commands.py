"""The commands of the four packages as one table, and payloads that are read and written by it.

A row has the ports, the direction, the identifier and the parts of the body, as the standards' tables have them. Bits
that no field names are reserved: free in reading, 0 in writing. All numbers are little-endian.
"""
from dataclasses import dataclass, field
from typing import Any

from .words import MAX_PAYLOAD

DOWN, UP = "down", "up"
FIRST_PORT, LAST_PORT = 200, 203
GROUPS, FRAGMENTS, CLOCK, FIRMWARE = 200, 201, 202, 203
KEY_SIZE = 16


@dataclass(frozen=True)
class Bits:
    """A field in bits high:low of a number that several fields share."""

    name: str
    high: int
    low: int


@dataclass(frozen=True)
class Number:
    """A field of so many bytes."""

    name: str
    width: int
    signed: bool = False


@dataclass(frozen=True)
class Packed:
    """Fields that share a number of so many bytes."""

    width: int
    bits: tuple[Bits, ...]


@dataclass(frozen=True)
class Block:
    """So many bytes as they are."""

    name: str
    size: int


@dataclass(frozen=True)
class Rest:
    """All bytes that are left, at least one."""

    name: str


@dataclass(frozen=True)
class Where:
    """A number that is there exactly where another field has this value."""

    name: str
    width: int
    other: str
    value: int


@dataclass(frozen=True)
class GroupList:
    """A group for each bit that is set in the mask: McGroupID in a byte, and McAddr."""

    name: str
    mask: str


Part = Number | Packed | Block | Rest | Where | GroupList


@dataclass(frozen=True)
class Row:
    """A command of the table."""

    name: str
    ports: tuple[int, ...]
    direction: str
    cid: int
    parts: tuple[Part, ...] = ()


@dataclass(frozen=True)
class Command:
    """A command with the values of its fields."""

    name: str
    fields: dict[str, Any] = field(default_factory=dict)

    def __getitem__(self, name: str) -> Any:
        return self.fields[name]


@dataclass(frozen=True)
class Refusal:
    """Where reading a payload stops, and why: port, long, unknown or short."""

    at: int
    why: str


def down(ports: tuple[int, ...], cid: int, name: str, *parts: Part) -> Row:
    """A row of a command that goes down."""
    return Row(name, ports, DOWN, cid, parts)


def up(ports: tuple[int, ...], cid: int, name: str, *parts: Part) -> Row:
    """A row of a command that comes up."""
    return Row(name, ports, UP, cid, parts)


def number(width: int, name: str) -> Number:
    """A field of so many bytes."""
    return Number(name, width)


def packed(width: int, *fields: tuple[str, int, int]) -> Packed:
    """Fields that share so many bytes, each as (name, high, low)."""
    return Packed(width, tuple(Bits(*bits) for bits in fields))


SESSION_ANSWER = (packed(1, ("errors", 4, 2), ("id", 1, 0)), Where("start", 3, "errors", 0))
ALL, G, F, C, M = (200, 201, 202, 203), (GROUPS,), (FRAGMENTS,), (CLOCK,), (FIRMWARE,)

TABLE = (
    # every package: TS003, TS004, TS005 and TS006, 1.0.0, PackageVersionReq
    down(ALL, 0x00, "PackageVersionReq"),
    up(ALL, 0x00, "PackageVersionAns", number(1, "id"), number(1, "version")),
    # remote multicast setup: TS005-1.0.0, the tables of its commands
    down(G, 0x01, "McGroupStatusReq", packed(1, ("mask", 3, 0))),
    up(G, 0x01, "McGroupStatusAns", packed(1, ("total", 6, 4), ("mask", 3, 0)), GroupList("groups", "mask")),
    down(G, 0x02, "McGroupSetupReq", packed(1, ("id", 1, 0)), number(4, "addr"), Block("key", KEY_SIZE),
         number(4, "min"), number(4, "max")),
    up(G, 0x02, "McGroupSetupAns", packed(1, ("error", 2, 2), ("id", 1, 0))),
    down(G, 0x03, "McGroupDeleteReq", packed(1, ("id", 1, 0))),
    up(G, 0x03, "McGroupDeleteAns", packed(1, ("undefined", 2, 2), ("id", 1, 0))),
    down(G, 0x04, "McClassCSessionReq", packed(1, ("id", 1, 0)), number(4, "time"), packed(1, ("timeout", 3, 0)),
         number(3, "freq"), number(1, "dr")),
    up(G, 0x04, "McClassCSessionAns", *SESSION_ANSWER),
    down(G, 0x05, "McClassBSessionReq", packed(1, ("id", 1, 0)), number(4, "time"),
         packed(1, ("periodicity", 6, 4), ("timeout", 3, 0)), number(3, "freq"), number(1, "dr")),
    up(G, 0x05, "McClassBSessionAns", *SESSION_ANSWER),
    # fragmented data blocks: TS004-1.0.0
    down(F, 0x01, "FragSessionStatusReq", packed(1, ("index", 2, 1), ("all", 0, 0))),
    up(F, 0x01, "FragSessionStatusAns", packed(2, ("index", 15, 14), ("received", 13, 0)), number(1, "missing"),
       packed(1, ("norows", 0, 0))),
    down(F, 0x02, "FragSessionSetupReq", packed(1, ("index", 5, 4), ("mask", 3, 0)), number(2, "nbfrag"),
         number(1, "fragsize"), packed(1, ("algo", 5, 3), ("delay", 2, 0)), number(1, "padding"),
         number(4, "descriptor")),
    up(F, 0x02, "FragSessionSetupAns", packed(1, ("index", 7, 6), ("bits", 3, 0))),
    down(F, 0x03, "FragSessionDeleteReq", packed(1, ("index", 1, 0))),
    up(F, 0x03, "FragSessionDeleteAns", packed(1, ("missing", 2, 2), ("index", 1, 0))),
    down(F, 0x08, "DataFragment", packed(2, ("index", 15, 14), ("n", 13, 0)), Rest("bytes")),
    # clock synchronization: TS003-1.0.0
    up(C, 0x01, "AppTimeReq", number(4, "time"), packed(1, ("required", 4, 4), ("token", 3, 0))),
    down(C, 0x01, "AppTimeAns", Number("correction", 4, signed=True), packed(1, ("token", 3, 0))),
    down(C, 0x02, "DeviceAppTimePeriodicityReq", packed(1, ("period", 3, 0))),
    up(C, 0x02, "DeviceAppTimePeriodicityAns", packed(1, ("unsupported", 0, 0)), number(4, "time")),
    down(C, 0x03, "ForceDeviceResyncReq", packed(1, ("count", 2, 0))),
    # firmware management: TS006-1.0.0
    down(M, 0x01, "DevVersionReq"),
    up(M, 0x01, "DevVersionAns", number(4, "fw"), number(4, "hw")),
    down(M, 0x02, "DevRebootTimeReq", number(4, "time")),
    up(M, 0x02, "DevRebootTimeAns", number(4, "time")),
    down(M, 0x03, "DevRebootCountdownReq", number(3, "count")),
    up(M, 0x03, "DevRebootCountdownAns", number(3, "count")),
    down(M, 0x04, "DevUpgradeImageReq"),
    up(M, 0x04, "DevUpgradeImageAns", packed(1, ("status", 1, 0)), Where("next", 4, "status", 3)),
    down(M, 0x05, "DevDeleteImageReq", number(4, "version")),
    up(M, 0x05, "DevDeleteImageAns", packed(1, ("bits", 1, 0))),
)

ROWS = {row.name: row for row in TABLE}


def row_at(port: int, direction: str, cid: int) -> Row | None:
    """The row of an identifier, if the table has it for that port and direction."""
    for row in TABLE:
        if port in row.ports and row.direction == direction and row.cid == cid:
            return row
    return None


class Short(Exception):
    """The payload ends within a command."""


class Reader:
    """The bytes of a payload, from a place on."""

    def __init__(self, data: bytes, at: int) -> None:
        self.data = data
        self.at = at

    def take(self, size: int) -> bytes:
        """The next so many bytes."""
        if self.at + size > len(self.data):
            raise Short
        piece = self.data[self.at:self.at + size]
        self.at += size
        return piece

    def number(self, width: int, signed: bool = False) -> int:
        """The next number."""
        return int.from_bytes(self.take(width), "little", signed=signed)


def bits_of(value: int, bits: Bits) -> int:
    """What stands in the bits of a number."""
    return value >> bits.low & (1 << bits.high + 1 - bits.low) - 1


def read_part(part: Part, reader: Reader, fields: dict[str, Any]) -> None:
    """Puts the fields of a part among those that were read before it."""
    if isinstance(part, Number):
        fields[part.name] = reader.number(part.width, part.signed)
    elif isinstance(part, Packed):
        value = reader.number(part.width)
        fields.update((bits.name, bits_of(value, bits)) for bits in part.bits)
    elif isinstance(part, Block):
        fields[part.name] = reader.take(part.size)
    elif isinstance(part, Rest):
        fields[part.name] = reader.take(max(1, len(reader.data) - reader.at))
    elif isinstance(part, Where):
        fields[part.name] = reader.number(part.width) if fields[part.other] == part.value else None
    else:
        count = bin(fields[part.mask]).count("1")
        fields[part.name] = tuple((reader.number(1) & 3, reader.number(4)) for _ in range(count))


def read_payload(port: int, direction: str, data: bytes) -> Refusal | list[Command]:
    """The commands of a payload, or the Refusal where reading it stops."""
    if not FIRST_PORT <= port <= LAST_PORT:
        return Refusal(0, "port")
    if len(data) > MAX_PAYLOAD:
        return Refusal(MAX_PAYLOAD, "long")
    commands: list[Command] = []
    at = 0
    while at < len(data):
        row = row_at(port, direction, data[at])
        if row is None:
            return Refusal(at, "unknown")
        fields: dict[str, Any] = {}
        reader = Reader(data, at + 1)
        try:
            for part in row.parts:
                read_part(part, reader, fields)
        except Short:
            return Refusal(len(data), "short")
        commands.append(Command(row.name, fields))
        at = reader.at
    return commands


def part_bytes(part: Part, fields: dict[str, Any]) -> bytes:
    """The bytes of a part, with reserved bits 0."""
    if isinstance(part, Number):
        return int(fields[part.name]).to_bytes(part.width, "little", signed=part.signed)
    if isinstance(part, Packed):
        value = sum(int(fields[bits.name]) << bits.low for bits in part.bits)
        return value.to_bytes(part.width, "little")
    if isinstance(part, (Block, Rest)):
        return bytes(fields[part.name])
    if isinstance(part, Where):
        return b"" if fields[part.name] is None else int(fields[part.name]).to_bytes(part.width, "little")
    return b"".join(bytes([ident]) + addr.to_bytes(4, "little") for ident, addr in fields[part.name])


def spelling(command: Command) -> bytes:
    """The bytes of a command."""
    row = ROWS[command.name]
    return bytes([row.cid]) + b"".join(part_bytes(part, command.fields) for part in row.parts)


def make(name: str, **fields: Any) -> Command:
    """A command by its name."""
    return Command(name, fields)
