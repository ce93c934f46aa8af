"""Tables of TOML as dataclasses: each field says how it is read, and what is wrong is told with its place.

    @dataclass(frozen=True, kw_only=True)
    class Retry:
        distance: int = member(seconds(0.001, 604_800))
        tries: int = member(whole(1, 1_000))

    retry = read(Retry, Place("plan.toml", "retry"), members)
"""
import dataclasses
import datetime
import difflib
import pathlib
import re
import tomllib
from collections.abc import Callable
from dataclasses import dataclass
from typing import Any, TypeVar
from urllib.parse import urlsplit

from . import files
from .errors import Wrong

T = TypeVar("T")
Reader = Callable[[Any], Any]
KEY_DIGITS = 32


@dataclass(frozen=True)
class Place:
    """A table of a file, by the names that lead to it; none for the whole file."""

    file: pathlib.Path
    names: str = ""

    def inner(self, name: str) -> "Place":
        return Place(self.file, f"{self.names}.{name}" if self.names else name)

    def wrong(self, why: object, field: str = "") -> Wrong:
        """What is wrong here, or with a field here."""
        at = (self.inner(field) if field else self).names
        return Wrong(f"{self.file}: {at}: {why}" if at else f"{self.file}: {why}")


# ---- Fields


def member(reader: Reader, default: Any = dataclasses.MISSING, name: str | None = None, for_group: bool = False) -> Any:
    """A field that a reader reads; needed where it has no default, and where a group needs it. `name` is its name in the file."""
    return dataclasses.field(default=default, metadata={"reader": reader, "name": name, "for_group": for_group})


def table(kind: type[Any], default: Any = dataclasses.MISSING) -> Any:
    """A field that is a table of its own."""
    return dataclasses.field(default=default, metadata={"table": kind})


def tables(kind: type[Any], most: int) -> Any:
    """A field that is a list of one table or more."""
    return dataclasses.field(metadata={"tables": kind, "most": most})


def read(kind: type[T], place: Place, members: Any) -> T:
    """A table as a dataclass."""
    if not isinstance(members, dict):
        raise place.wrong(f"not a table: {members!r:.40}")
    fields = {it.metadata.get("name") or it.name: it for it in dataclasses.fields(kind)}
    for name in members:
        if name not in fields:
            near = difflib.get_close_matches(name, fields, 1)
            raise place.wrong(f'unknown field "{name}"' + (f' (did you mean "{near[0]}"?)' if near else ""))
    values = {}
    for name, field in fields.items():
        if name in members:
            values[field.name] = value_of(field, place, name, members[name])
        elif field.default is dataclasses.MISSING:
            raise place.wrong(f'missing field "{name}"')
    return kind(**values)


def value_of(field: Any, place: Place, name: str, value: Any) -> Any:
    """The value of a field that is there. A path starts from the folder of the file."""
    told = field.metadata
    if "table" in told:
        return read(told["table"], place.inner(name), value)
    if "tables" in told:
        if not isinstance(value, list) or not 1 <= len(value) <= told["most"]:
            raise place.wrong(f"not a list of 1 to {told['most']} tables", name)
        return tuple(read(told["tables"], place.inner(f"{name}[{at}]"), one) for at, one in enumerate(value, 1))
    try:
        made = told["reader"](value)
    except ValueError as why:
        raise place.wrong(why, name) from None
    return place.file.parent / made if isinstance(made, pathlib.Path) else made


def read_file(path: pathlib.Path, is_private: bool = False) -> dict[str, Any]:
    """What a file in TOML has, which is private where it has a secret."""
    try:
        return tomllib.loads(files.read(path, is_private=is_private).decode())
    except OSError as why:
        raise Wrong(f"{path}: {why.strerror}") from None
    except (tomllib.TOMLDecodeError, UnicodeDecodeError) as why:
        raise Wrong(f"{path}: {why}") from None


# ---- Readers: each raises ValueError with what is wrong with a value


def a(kind: Any, what: str) -> Reader:
    """Reads a value of a type."""
    def read(value: Any) -> Any:
        if not isinstance(value, kind) or isinstance(value, bool) and kind is not bool:
            raise ValueError(f"not a {what}: {value!r:.40}")
        return value
    return read


text, truth, raw_table = a(str, "text"), a(bool, "truth value"), a(dict, "table")


def secret(value: Any) -> Any:
    """Reads a text that no message has."""
    if not isinstance(value, str):
        raise ValueError("not a text")
    return value


def number(lowest: float, highest: float) -> Reader:
    """Reads a number within these."""
    def read(value: Any) -> Any:
        if not lowest <= a((int, float), "number")(value) <= highest:
            raise ValueError(f"{value} is not from {lowest:g} to {highest:g}")
        return value
    return read


def whole(lowest: int, highest: int) -> Reader:
    """Reads a whole number within these."""
    def read(value: Any) -> Any:
        if not lowest <= a(int, "whole number")(value) <= highest:
            raise ValueError(f"{value} is not from {lowest} to {highest}")
        return value
    return read


def seconds(lowest: float, highest: float) -> Reader:
    """Reads a number of seconds, as ms."""
    return lambda value: round(1000 * number(lowest, highest)(value))


def digits(count: int) -> Reader:
    """Reads hex digits, of a number that is fixed, as bytes."""
    # (so many are a key)
    reader = secret if count == KEY_DIGITS else a(str, "text of hex digits")

    def read(value: Any) -> bytes:
        other = re.search("[^0-9A-Fa-f]", reader(value))
        if other:
            raise ValueError(f"not a hex digit: {other.group()!r}")
        if len(value) != count:
            raise ValueError(f"{len(value)} hex digits, and not {count}")
        return bytes.fromhex(value)
    return read


def word(value: Any) -> Any:
    """Reads a word that can stand in a topic or a path."""
    if not re.fullmatch(r"[\w.:@-]+", text(value)):
        raise ValueError(f"not a name of letters, digits and . : @ - _: {value!r:.40}")
    return value


def several(reader: Reader, what: str) -> Reader:
    """Reads a list of one value or more."""
    def read(value: Any) -> tuple[Any, ...]:
        if not isinstance(value, list) or not value:
            raise ValueError(f"not a list of {what}: {value!r:.40}")
        return tuple(reader(one) for one in value)
    return read


words = several(word, "names")


def choice(*names: str) -> Reader:
    """Reads one of some words."""
    def read(value: Any) -> Any:
        if value not in names:
            raise ValueError(f"{value!r:.40} is not one of {', '.join(names)}")
        return value
    return read


def url(value: Any) -> Any:
    """Reads the address of a server, without a slash at its end."""
    if not re.fullmatch(r"https?://[^\s/@?#]+(/[^\s?#]*)?", text(value)):
        raise ValueError(f"not an address, as http://localhost:8090: {value!r:.40}")
    parts = urlsplit(value)
    if not parts.hostname or parts.port == 0:
        raise ValueError(f"no host, or port 0: {value!r:.40}")
    return value.rstrip("/")


def file(value: Any) -> pathlib.Path:
    """Reads the name of a file."""
    return pathlib.Path(text(value))


def moment(value: Any) -> int:
    """Reads a moment with its offset, as ms of Unix time."""
    if not isinstance(value, datetime.datetime) or value.tzinfo is None:
        raise ValueError(f"not a moment with its offset, as 2031-05-06T22:00:00Z: {value!s:.40}")
    try:
        value.astimezone(datetime.timezone.utc)
    except OverflowError:
        raise ValueError(f"not within the years 1 to 9999: {value!s:.40}") from None
    return round(value.timestamp()) * 1000


moments = several(moment, "moments")
