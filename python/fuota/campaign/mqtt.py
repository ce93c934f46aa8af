"""A network server over MQTT, by paho-mqtt: one connection, each message at least once (QoS 1) both ways, and a session that
the broker keeps while nobody is connected."""
import dataclasses
import json
import pathlib
import struct
import time
from collections.abc import Iterator
from dataclasses import dataclass
from typing import Any

from .. import fields, lns
from ..errors import Wrong, plain
from ..fields import Place, file, member, secret, text, truth
from ..library import Library, library_of
from ..limits import MAX_MESSAGE
from .carrier import LOG, STRANGE, Carrier, Lost, Refusing, Uplink, pass_over
from .plan import Device, Group, Plan
from .settings import euis_of, group_of

# Seconds: until a payload counts as lost, between two tries to connect, of silence until the broker is asked whether it is there.
TIMEOUT, AGAIN, KEEPALIVE = 30, 1, 30
# The ms for which a broker is away before it is said.
BLINK = 5_000
# Uplinks that are taken at once, at most.
TOGETHER = 64
# What a broker answers a wrong user or password, and one who may not connect: by MQTT 3, and as paho-mqtt 2 has it.
NO_ACCESS = (4, 5, 134, 135)
# From this on a broker answers to a subscription that there is none.
NO_UPLINKS = 128


@dataclass(frozen=True, kw_only=True)
class Access:
    """User, password and TLS for a broker, as the file `access_file` of a plan has them."""

    user: str | None = member(text, None)
    password: str | None = member(secret, None)
    tls: bool = member(truth, False)
    # PEM: who the broker's certificate is signed by, where that is not the system's; and a client's own.
    ca: pathlib.Path | None = member(file, None)
    certificate: pathlib.Path | None = member(file, None)
    key: pathlib.Path | None = member(file, None)


def access_of(path: pathlib.Path | None) -> Access:
    """What a file says, which nobody but its owner may read."""
    if path is None:
        return Access()
    told = fields.read(Access, Place(path), fields.read_file(path, is_private=True))
    for name in ("ca", "certificate", "key"):
        named = getattr(told, name)
        if named and not told.tls:
            raise Place(path).wrong("only with tls = true", name)
        if named and not named.is_file():
            raise Place(path).wrong(f"{named}: no such file", name)
    return told


def paho() -> Any:
    """The client of paho-mqtt, where it is installed."""
    try:
        from paho.mqtt import client
    except ModuleNotFoundError:
        raise Wrong("paho-mqtt is not installed: pip install 'fuota[mqtt]', or Debian's python3-paho-mqtt") from None
    return client


def client_of(name: str, access: Access) -> Any:
    """A client of paho's that is called so, and is not connected yet; of one without a name the broker keeps nothing."""
    # (from version 2 on it asks which form its callbacks have)
    form = [paho().CallbackAPIVersion.VERSION2] if hasattr(paho(), "CallbackAPIVersion") else []
    client = paho().Client(*form, client_id=name, clean_session=not name)
    if access.user is not None:
        client.username_pw_set(access.user, access.password)
    if access.tls:
        client.tls_set(*(named and str(named) for named in (access.ca, access.certificate, access.key)))
    return client


class Mqtt(Carrier):
    """A network server over its broker."""

    def __init__(self, server: lns.Server, client: str) -> None:
        server.prepare()
        self.server, self.client_name, self.access = server, client, access_of(server.access_file)
        self.name = server.name
        self.heard: list[Uplink] = []
        # The numbers of messages that the broker took.
        self.taken: set[int] = set()
        self.is_connected, self.answer, self.begin_at, self.fault, self.since = False, 0, 0.0, "", self.now()
        # Whether uplinks are heard, the QoS that the broker granted for them, and whether it was said that one of 0 is too little.
        self.is_heard, self.quality, self.is_warned = False, 1, False
        self.client = self.made()

    def made(self) -> Any:
        client = client_of(self.client_name, self.access)
        client.on_connect = lambda _client, _data, _flags, answer, *_: self.connected(getattr(answer, "value", answer))
        client.on_message = lambda _client, _data, message: self.arrived(message)
        client.on_subscribe = lambda _client, _data, _number, granted, *_: self.granted([getattr(one, "value", one) for one in granted])
        client.on_publish = lambda _client, _data, number, *_: self.taken.add(number)
        return client

    # ---- The connection, which works while somebody waits

    def connected(self, answer: Any) -> None:
        self.answer, self.is_connected = answer, answer == 0
        if self.is_connected:
            self.fault = ""
            self.client.subscribe(self.server.topic, 1)

    def granted(self, levels: list[int]) -> None:
        """What the broker says to the subscription: the QoS that it has, or that there is none."""
        self.is_heard, self.quality = True, levels[0] if levels else NO_UPLINKS
        if self.quality == 0:
            self.warn_of_quality("the broker grants QoS 0")

    def warn_of_quality(self, why: str) -> None:
        """Says once that uplinks do not outlast a time in which the command is away."""
        if not self.is_warned:
            LOG.warning("%s: what devices send while the command is away is lost (docs/OPERATING.md, Network servers)", why)
        self.is_warned = True

    def arrived(self, message: Any) -> None:
        """A message came. What the broker had kept is passed over, as nobody knows when it came, and what was not asked for."""
        try:
            if not paho().topic_matches_sub(self.server.topic, message.topic):
                raise ValueError(f"its topic is {message.topic!r:.60}")
            if message.retain:
                raise ValueError("it is an old one that the broker kept (retained)")
            if message.qos == 0:
                self.warn_of_quality("uplinks come with QoS 0")
            if len(message.payload) > MAX_MESSAGE:
                raise ValueError(f"a message of more than {MAX_MESSAGE} bytes")
        except STRANGE as why:
            pass_over(message.payload[:MAX_MESSAGE], why)
        else:
            self.take(message.payload)

    def take(self, message: bytes) -> None:
        """An uplink came. What is none is passed over."""
        try:
            self.heard.append(self.server.uplink(json.loads(message), self.now()))
        except STRANGE as why:
            pass_over(message, why)

    def work(self, seconds: float) -> None:
        """Lets the connection work until something came, but no longer than so; makes it where there is none."""
        if self.client.socket() is None:
            self.connect(seconds)
        elif self.is_broken(seconds):
            self.lose()
        if self.answer in NO_ACCESS:
            raise Refusing(f"the broker at {self.server.host} refuses access: access_file of the plan names user and password")
        if self.quality >= NO_UPLINKS:
            raise Refusing(f"the broker at {self.server.host} lets nobody of this access have {self.server.topic}")

    def is_broken(self, seconds: float) -> bool:
        """Lets the connection work, and says whether it is none any more."""
        try:
            return bool(self.client.loop(max(0.0, seconds)))
        except (*STRANGE, struct.error) as why:
            # (what came is no MQTT, and the rest of it would be read as such)
            self.warn(f"{self.server.host}:{self.server.port} does not speak MQTT: {why or type(why).__name__}")
            self.renew()
            return True

    def warn(self, said: str) -> None:
        """Says what is wrong with the connection, once until it is there again."""
        if said != self.fault:
            LOG.warning("%s", said)
        self.fault = said

    def renew(self) -> None:
        """Takes a new client, so that nothing of the one before goes out later."""
        self.close()
        self.client = self.made()

    def lose(self) -> None:
        """There is no connection any more."""
        if self.is_connected:
            self.since = self.now()
        self.is_connected = False

    def connect(self, seconds: float) -> None:
        self.lose()
        left = self.begin_at - time.monotonic()
        if left > 0:
            time.sleep(max(0.0, min(left, seconds)))
            return
        self.begin_at = time.monotonic() + AGAIN
        try:
            self.client.connect(self.server.host, self.server.port, KEEPALIVE)
        except (OSError, ValueError) as why:
            # (it is tried again)
            self.warn(f"no connection to {self.server.host}:{self.server.port}: {plain(why)}")

    def wait(self, until: float) -> list[Uplink]:
        deadline = time.monotonic() + max(0, until - self.now()) / 1000
        self.work(0)
        while not self.heard and (left := deadline - time.monotonic()) > 0:
            self.work(left)
        # (what came together is taken together)
        before = 0
        while before < len(self.heard) < TOGETHER:
            before = len(self.heard)
            self.work(0)
        taken, self.heard = self.heard, []
        return taken

    def is_up(self) -> bool:
        self.work(0)
        return self.is_connected and self.server.is_up()

    def publish(self, topic: str, members: dict[str, Any]) -> None:
        """Publishes a message, and waits until the broker has it."""
        number = self.client.publish(topic, json.dumps(members), 1).mid
        deadline = time.monotonic() + TIMEOUT
        while number not in self.taken:
            if time.monotonic() > deadline:
                self.renew()
                raise Lost(f"the broker did not take it in {TIMEOUT} s")
            self.work(0.1)
        self.taken.clear()

    def close(self) -> None:
        self.client.disconnect()
        self.lose()

    # ---- Before a campaign

    def differences(self, plan: Plan, is_new: bool, calls: Library | None) -> Iterator[str]:
        """What is otherwise at the network server than in a plan."""
        group = group_of(plan, library_of(calls), is_new) if plan.group else None
        return self.server.differences(group, plan.region.name, euis_of(plan))

    def hold(self, plan: Plan, is_new: bool, calls: Library | None) -> None:
        try:
            wrong = list(self.differences(plan, is_new, calls))
        except Lost as why:
            LOG.warning("the network server can't be held against the plan: %s", why)
            return
        if wrong:
            raise Refusing("the network server is set up otherwise than the plan: " + "; ".join(wrong))

    def never_heard(self, plan: Plan) -> list[str]:
        try:
            return self.server.never_heard(euis_of(plan))
        except (Lost, Refusing) as why:
            LOG.warning("the network server does not tell which devices it heard: %s", why)
            return []

    def away_since(self) -> int | None:
        return None if self.is_connected or self.now() - self.since < BLINK else self.since

    # ---- Downlinks

    def to_device(self, device: Device, port: int, payload: bytes) -> None:
        self.server.to_device(self.publish, device.eui, device.id, port, payload)

    def to_group(self, group: Group, count: int, port: int, payload: bytes) -> int | None:
        return self.server.to_group(self.publish, range(group.first, group.end), count, port, payload)
