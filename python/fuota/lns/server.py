"""What a network server is to campaigns and captures, and how members of its messages are read."""
import abc
import base64
import dataclasses
import datetime
import pathlib
import re
import socket
from collections.abc import Callable, Iterable, Iterator
from dataclasses import dataclass
from typing import Any, ClassVar

from ..errors import Wrong
from ..fields import file, member, whole, word
from ..limits import MAX_PAYLOAD

Members = dict[str, Any]
Publish = Callable[[str, Members], None]
EUI = re.compile("[0-9A-Fa-f]{2}(?:[-:. ]?[0-9A-Fa-f]{2}){7}")
EUI_LENGTH = 8
BASE64 = re.compile("(?:[A-Za-z0-9+/]{4})*(?:[A-Za-z0-9+/]{2}==|[A-Za-z0-9+/]{3}=)?")
A_DAY = 86_400_000
# What a type of JSON is called.
TYPES = {dict: "an object", list: "a list", str: "a text", bool: "a truth value"}


class Lost(Exception):
    """A payload was not taken, as far as is known: it counts as lost, and the next one may be taken."""


class Refusing(Exception):
    """The network server refuses, and will refuse again."""


@dataclass(frozen=True)
class Uplink:
    """What a device sent, at `t` ms of Unix time; port 0 where it had no payload."""

    eui: str
    port: int
    payload: bytes
    t: int


@dataclass(frozen=True)
class Group:
    """What a plan has of its group, which the network server has to have too. Its next frame count is one of `counts`."""

    address: bytes
    counts: range
    is_class_b: bool
    periodicity: int
    frequency: int
    data_rate: int
    app_key: bytes
    net_key: bytes

    @property
    def kind(self) -> str:
        """The class of its session."""
        return "B" if self.is_class_b else "C"


@dataclass(frozen=True)
class Payload:
    """What a message carries: which way, port and payload as they stand in it, and why it is no payload for a capture, if so."""

    way: str
    port: Any
    text: Any
    left_out: str | None = None

    def checked_port(self) -> int | None:
        """The port, where there is one."""
        if self.port is not None and (isinstance(self.port, bool) or not isinstance(self.port, int) or not 0 <= self.port < 256):
            raise Wrong(f"invalid port: {self.port!r:.40}")
        return self.port

    def octets(self) -> bytes:
        """The payload, which is empty where there is none."""
        payload = octets_of("" if self.text is None else self.text)
        if payload is None:
            raise Wrong(f"the payload is not base64: {self.text!r:.40}")
        if len(payload) > MAX_PAYLOAD:
            raise Wrong(f"a payload of {len(payload)} bytes, and not of at most {MAX_PAYLOAD}")
        return payload


# What has to be entered: a name of the server's and its value, or a heading without one.
Entries = Iterator[tuple[str, object]]


@dataclass(frozen=True, kw_only=True)
class Server(abc.ABC):
    """A network server. Its fields are those of its table in a plan."""

    # What `kind` calls it in a plan, and whether each device of a plan needs an id.
    name: ClassVar[str]
    needs_ids: ClassVar[bool] = False
    # The members that hold other messages, each with its types; those that have an EUI, with what they are in; and those that
    # name a multicast group. The page of tools/web_page reads logs by the same tables.
    holders: ClassVar[dict[str, tuple[type, ...]]]
    euis_at: ClassVar[tuple[str, ...]]
    groups: ClassVar[tuple[str, ...]] = ()
    # The kinds of messages that carry nothing, by the members that they have; the first counts.
    kinds: ClassVar[dict[str, str]]

    host: str = member(word)
    port: int = member(whole(1, 65_535), 1883)
    access_file: pathlib.Path | None = member(file, None)

    @classmethod
    def group_fields(cls) -> list[str]:
        """The fields that a group needs."""
        return [it.name for it in dataclasses.fields(cls) if it.metadata["for_group"]]

    # ---- Its messages, as its integrations and its API have them

    @classmethod
    @abc.abstractmethod
    def payload(cls, members: Members, holder: str | None = None) -> Payload | None:
        """What a message carries, which the member `holder` of another may hold; None where it is no payload of this server."""

    @classmethod
    def euis(cls, members: Members) -> list[str | None]:
        """The EUIs by which a message names its device."""
        return [text_at(members, place) for place in cls.euis_at]

    @classmethod
    def kind_of(cls, members: Members) -> str | None:
        """The kind of a message that carries nothing, where it is one of this server's."""
        return next((kind for names, kind in cls.kinds.items() if has_all(members, names)), None)

    @classmethod
    def names_group(cls, members: Members) -> bool:
        """Whether a message names a multicast group."""
        return any([member_of(members, name, str) for name in cls.groups])

    # ---- A group, before a campaign

    @abc.abstractmethod
    def settings(self, group: Group, region: str, euis: tuple[str, ...]) -> Entries:
        """What has to be entered there for a group in a region with these devices."""

    def make_group(self, group: Group, region: str, euis: tuple[str, ...]) -> str:
        """Makes the group over its API: the id that it has there."""
        raise Wrong(f"{self.name} has no API here that makes a group: enter what settings prints")

    # ---- A campaign over MQTT

    @property
    @abc.abstractmethod
    def topic(self) -> str:
        """Under which the uplinks of all devices are published."""

    @abc.abstractmethod
    def uplink(self, members: Members, now: int) -> Uplink:
        """What a message under the topic says, which comes at `now` ms of Unix time."""

    @abc.abstractmethod
    def to_device(self, publish: Publish, eui: str, name: str | None, port: int, payload: bytes) -> None:
        """Puts a payload into the queue of a device."""

    @abc.abstractmethod
    def to_group(self, publish: Publish, counts: range, count: int, port: int, payload: bytes) -> int | None:
        """Puts a payload into the queue of the group, which has these frame counts: the count that the server gives it, where
        it tells one."""

    def prepare(self) -> None:
        """Reads what it needs beside the plan."""

    def differences(self, group: Group | None, region: str, euis: tuple[str, ...]) -> Iterator[str]:
        """What is otherwise there than in a plan, with both values, as far as it can be asked."""
        return iter(())

    def never_heard(self, euis: tuple[str, ...]) -> list[str]:
        """Those of the devices that it never heard, as far as it can be asked."""
        return []

    @property
    def is_asked(self) -> bool:
        """Whether `differences` asks for something."""
        return False

    def is_up(self) -> bool:
        """Whether what it has beside the broker answers."""
        return True


# ---- Members


def member_of(members: Members, name: str, *kinds: type) -> Any:
    """A member, which has to be of one of these types; None where it is absent or null."""
    value = members.get(name)
    if value is not None and not isinstance(value, kinds):
        raise Wrong(f"{name} is not {' or '.join(TYPES[kind] for kind in kinds)}: {value!r:.40}")
    return value


def text_at(members: Members, place: str) -> str | None:
    """A text at a place, as `deviceInfo.devEui`."""
    *outer, name = place.split(".")
    for step in outer:
        members = member_of(members, step, dict) or {}
    text: str | None = member_of(members, name, str)
    return text


def has_all(members: Members, names: str) -> bool:
    """Whether members of all these names are there."""
    return all(name in members for name in names.split())


def eui_of(text: Any) -> str:
    """An EUI as 16 small hex digits. It is written as hex, in either case and with separators or none, or in base64."""
    if isinstance(text, str) and EUI.fullmatch(text):
        return re.sub("[-:. ]", "", text).lower()
    octets = octets_of(text)
    if octets is None or len(octets) != EUI_LENGTH:
        raise Wrong(f"invalid EUI: {text!r:.40}")
    return octets.hex()


def uplink_of(euis: Iterable[str | None], found: Payload, t: int) -> Uplink:
    """An uplink of what a message carries."""
    return Uplink(eui_of(next((eui for eui in euis if eui), None)), found.checked_port() or 0, found.octets(), t)


def time_of(text: Any, now: int) -> int:
    """ms of Unix time of a text, where it is one of the last day; else now."""
    try:
        t = round(datetime.datetime.fromisoformat(text).timestamp() * 1000)
    except (TypeError, ValueError, ArithmeticError, OSError):
        return now
    return t if now - A_DAY <= t <= now else now


def octets_of(text: Any) -> bytes | None:
    """The octets of a text in base64; None where it is none."""
    return base64.b64decode(text) if isinstance(text, str) and BASE64.fullmatch(text) else None


def base64_of(payload: bytes) -> str:
    return base64.b64encode(payload).decode()


def reaches(host: str, port: int) -> bool:
    """Whether somebody listens there."""
    try:
        socket.create_connection((host, port), 5).close()
    except OSError:
        return False
    return True
