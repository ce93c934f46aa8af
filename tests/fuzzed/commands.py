"""The commands of the four packages as one table: payloads read and written, and their texts (docs/FORMATS.md).

A part of a command is `name.BITS` with others in one number, the highest first, `-` where they are reserved; `name:BYTES`; with s
signed, with h as bytes in their order; `name:*` all bytes that are left, at least one; `name:BYTES?other=VALUE` where another
field has a value; and `groups:mask` an id and an address for each bit of a mask.
"""
import random
import re
from collections.abc import Callable, Iterator
from dataclasses import dataclass

PORT, UNKNOWN, SHORT = range(3)
FIRST, LAST, MAX_PAYLOAD = 200, 203, 242
Groups = tuple[tuple[int, int], ...]
Value = int | bytes | None | Groups
Fields = dict[str, Value]


class NoCommands(Exception):
    """A payload spells no commands: where reading it stops, and why."""

    def __init__(self, at: int, why: int) -> None:
        super().__init__(f"{why} at {at}")
        self.at, self.why = at, why


@dataclass(frozen=True)
class Row:
    """A command: its port, which way it goes, identifier, name, parts, and its fields in the order of its text."""

    port: int
    is_up: bool
    cid: int
    name: str
    parts: tuple[str, ...]
    order: tuple[str, ...]


# (where fields stand in another order in the text, it is after a bar)
TABLE = """
200 down 01 McGroupStatusReq -.4,mask.4
200 up 01 McGroupStatusAns -.1,total.3,mask.4 groups:mask
200 down 02 McGroupSetupReq -.6,id.2 addr:4 key:16h min:4 max:4
200 up 02 McGroupSetupAns -.5,error.1,id.2 | id error
200 down 03 McGroupDeleteReq -.6,id.2
200 up 03 McGroupDeleteAns -.5,undefined.1,id.2 | id undefined
200 down 04 McClassCSessionReq -.6,id.2 time:4 -.4,timeout.4 freq:3 dr:1
200 up 04 McClassCSessionAns -.3,bits.3,id.2 start:3?bits=0 | id bits start
200 down 05 McClassBSessionReq -.6,id.2 time:4 -.1,periodicity.3,timeout.4 freq:3 dr:1
200 up 05 McClassBSessionAns -.3,bits.3,id.2 start:3?bits=0 | id bits start
201 down 01 FragSessionStatusReq -.5,index.2,all.1
201 up 01 FragSessionStatusAns index.2,received.14 missing:1 -.7,norows.1
201 down 02 FragSessionSetupReq -.2,index.2,mask.4 nbfrag:2 fragsize:1 -.2,algo.3,delay.3 padding:1 descriptor:4
201 up 02 FragSessionSetupAns index.2,-.2,bits.4
201 down 03 FragSessionDeleteReq -.6,index.2
201 up 03 FragSessionDeleteAns -.5,missing.1,index.2 | index missing
201 down 08 DataFragment index.2,n.14 bytes:*
202 up 01 AppTimeReq time:4 -.3,required.1,token.4
202 down 01 AppTimeAns correction:4s -.4,token.4
202 down 02 DeviceAppTimePeriodicityReq -.4,period.4
202 up 02 DeviceAppTimePeriodicityAns -.7,unsupported.1 time:4
202 down 03 ForceDeviceResyncReq -.5,count.3
203 down 01 DevVersionReq
203 up 01 DevVersionAns fw:4 hw:4
203 down 02 DevRebootTimeReq time:4
203 up 02 DevRebootTimeAns time:4
203 down 03 DevRebootCountdownReq count:3
203 up 03 DevRebootCountdownAns count:3
203 down 04 DevUpgradeImageReq
203 up 04 DevUpgradeImageAns -.6,status.2 next:4?status=3
203 down 05 DevDeleteImageReq version:4
203 up 05 DevDeleteImageAns -.6,bits.2
"""
# Refusal bits that are shown by their places in their byte.
PLACED = {("McClassCSessionAns", "bits"): 2, ("McClassBSessionAns", "bits"): 2}
HEX = {"addr", "descriptor"}


def names_of(parts: tuple[str, ...]) -> Iterator[str]:
    """The fields of the parts."""
    for part in parts:
        yield from (name for name in re.findall(r"([\w-]+)[.:]", part) if name != "-")


def rows_of(table: str) -> list[Row]:
    """The rows of the table, and those that each port has."""
    rows = []
    for port in range(FIRST, LAST + 1):
        rows += [Row(port, False, 0, "PackageVersionReq", (), ()),
                 Row(port, True, 0, "PackageVersionAns", ("id:1", "version:1"), ("id", "version"))]
    for line in table.strip().splitlines():
        wire, _, order = line.partition(" | ")
        port_word, way, cid, name, *parts = wire.split()
        rows.append(Row(int(port_word), way == "up", int(cid, 16), name, tuple(parts),
                        tuple(order.split() or names_of(tuple(parts)))))
    return rows


ROWS = {(row.port, row.is_up, row.cid): row for row in rows_of(TABLE)}
BY_NAME = {(row.port, row.is_up, row.name): row for row in ROWS.values()}


def rows_at(port: int, is_up: bool) -> list[Row]:
    """The commands of a port and a way."""
    return [row for row in ROWS.values() if (row.port, row.is_up) == (port, is_up)]


# ---- Reading


class Reader:
    """The bytes of a payload, from a place on."""

    def __init__(self, data: bytes) -> None:
        self.data, self.at = data, 0

    def take(self, count: int) -> bytes:
        if self.at + count > len(self.data):
            raise NoCommands(len(self.data), SHORT)
        self.at += count
        return self.data[self.at - count:self.at]

    def number(self, count: int, is_signed: bool = False) -> int:
        return int.from_bytes(self.take(count), "little", signed=is_signed)


def bits_of(part: str) -> list[tuple[str, int]]:
    """The fields of a number that several share, each with its bits, the highest first."""
    return [(name, int(count)) for name, count in (word.split(".") for word in part.split(","))]


def is_there(part: str, fields: Fields) -> bool:
    """Whether a part that depends on another field is there."""
    found = re.search(r"\?(\w+)=(\d+)$", part)
    return not found or fields[found[1]] == int(found[2])


def read_part(part: str, reader: Reader, fields: Fields) -> None:
    """Reads a part behind those that were read before it."""
    if "." in part:
        shared = bits_of(part)
        left = sum(count for _, count in shared)
        number = reader.number(left // 8)
        for name, count in shared:
            left -= count
            fields[name] = number >> left & (1 << count) - 1
        return
    name, kind = part.split(":")
    if kind == "*":
        fields[name] = reader.take(max(1, len(reader.data) - reader.at))
    elif kind == "mask":
        mask = fields["mask"]
        assert isinstance(mask, int)
        fields[name] = tuple((reader.number(1) & 3, reader.number(4)) for _ in range(mask.bit_count()))
    elif kind.endswith("h"):
        fields[name] = reader.take(int(kind[:-1]))
    else:
        fields[name] = reader.number(int(kind[0]), kind.endswith("s")) if is_there(part, fields) else None


def read(port: int, is_up: bool, payload: bytes) -> list[tuple[Row, Fields]]:
    """The commands of a payload."""
    if not FIRST <= port <= LAST:
        raise NoCommands(0, PORT)
    reader, found = Reader(payload), []
    while reader.at < len(payload):
        row = ROWS.get((port, is_up, payload[reader.at]))
        if row is None:
            raise NoCommands(reader.at, UNKNOWN)
        reader.at += 1
        fields: Fields = {}
        for part in row.parts:
            read_part(part, reader, fields)
        fields.pop("-", None)
        found.append((row, fields))
    return found


# ---- Writing


def part_bytes(part: str, fields: Fields) -> bytes:
    """The bytes of a part, with reserved bits 0."""
    if "." in part:
        number = width = 0
        for name, count in bits_of(part):
            value = 0 if name == "-" else fields[name]
            assert isinstance(value, int)
            number, width = number << count | value, width + count
        return number.to_bytes(width // 8, "little")
    name, kind = part.split(":")
    value = fields[name]
    if isinstance(value, int):
        return value.to_bytes(int(kind[0]), "little", signed=kind.endswith("s"))
    if isinstance(value, tuple):
        return b"".join(bytes([ident, *addr.to_bytes(4, "little")]) for ident, addr in value)
    return value or b""


def spelled(row: Row, fields: Fields) -> bytes:
    """The bytes of a command."""
    return bytes([row.cid]) + b"".join(part_bytes(part, fields) for part in row.parts)


# ---- Texts


def shown(row: Row, name: str, value: Value) -> str:
    """A field as its text has it."""
    if isinstance(value, int):
        return f"{value:08x}" if name in HEX else str(value << PLACED.get((row.name, name), 0))
    if isinstance(value, tuple):
        return ",".join(f"{ident}:{addr:08x}" for ident, addr in value) or "-"
    return "-" if value is None else value.hex()


def text_of(commands: list[tuple[Row, Fields]]) -> str:
    """Each command on a line."""
    return "".join(" ".join([row.name, *(f"{name}={shown(row, name, fields[name])}" for name in row.order)]) + "\n"
                   for row, fields in commands)


def value_of(row: Row, name: str, word: str) -> Value:
    """A field from its text."""
    if name == "groups":
        pairs = [pair.split(":") for pair in word.split(",")] if word != "-" else []
        return tuple((int(ident), int(addr, 16)) for ident, addr in pairs)
    if word == "-":
        return None
    if name in ("key", "bytes"):
        return bytes.fromhex(word)
    return int(word, 16) if name in HEX else int(word) >> PLACED.get((row.name, name), 0)


def payload_of(port: int, is_up: bool, text: str) -> bytes:
    """The payload that a text shows."""
    payload = b""
    for line in text.splitlines():
        name, *words = line.split(" ")
        row = BY_NAME[port, is_up, name]
        pairs = [word.split("=") for word in words]
        payload += spelled(row, {field: value_of(row, field, word) for field, word in pairs})
    return payload


# ---- Drawn


def some_of(row: Row, draws: random.Random, told: Callable[[str], Value]) -> bytes:
    """A command whose fields are drawn: what `told` gives of a name, and at None any number that has room."""
    fields: Fields = {}
    for part in row.parts:
        read_part(part, Reader(draws.randbytes(60)), fields)
        for name in names_of((part,)):
            value = told(name)
            if value is not None and fields[name] is not None:
                fields[name] = value
    return spelled(row, fields)
