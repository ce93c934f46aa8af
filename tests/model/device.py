"""A device: what a payload, bytes on the air, a wake and the other events make of it (TS003 to TS006, 1.0.0).

The order of the checks, and what the standards leave open, is this project's profile. A device answers into its outbox,
from which all uplinks are taken after each event.
"""
from dataclasses import dataclass, field
from typing import Any

from .clock import ROUND, Clock
from .commands import CLOCK, DOWN, Command, Refusal, make, read_payload, spelling
from .groups import GROUPS, Group, opened, unwrapped
from .image import CORRUPT, INCOMPATIBLE, NONE, VALID, Slots
from .session import COMPLETE, SESSIONS, UNICAST, Limits, Session, Setup, after_setup, refusal_bits, status_of
from .windows import beacon_at, is_after_uplink, is_open_b, is_open_c, session_errors, time_to_start

OUTBOX = 8
MULTICAST_COMMANDS = ("DataFragment", "FragSessionStatusReq")
IDENTIFIERS = {200: 2, 201: 3, 202: 1, 203: 4}
UPGRADE_STATUS = {NONE: 0, CORRUPT: 1, INCOMPATIBLE: 2, VALID: 3}


@dataclass(frozen=True)
class Config:
    """What a device was made with. Its key is an AppKey of LoRaWAN 1.1, or a GenAppKey of 1.0."""

    is_class_a: bool
    hardware: int
    rows: int
    offset: int
    key: bytes
    is_appkey: bool = False
    descriptor: int | None = None
    formats: int = 2
    flash: bool = False


@dataclass(frozen=True)
class Downlink:
    """A payload on its way down: to a group with an address and a count, or to one device where they are None."""

    port: int
    payload: bytes
    addr: int | None = None
    count: int | None = None

    @property
    def is_to_group(self) -> bool:
        """It goes to a group."""
        return self.addr is not None


@dataclass(frozen=True)
class Uplink:
    """A payload on its way up, and when it is due, in ms of true time."""

    due: int
    port: int
    payload: bytes


@dataclass(frozen=True)
class ClassSession:
    """A class session of a group: of class C where there is no periodicity."""

    ident: int
    time: int
    timeout: int
    periodicity: int | None


@dataclass(frozen=True)
class Arrival:
    """How a payload comes: when, with which random word and mark, by which group if any, and on which port."""

    t: int
    word: int
    mark: int
    group: int | None
    port: int


@dataclass
class Counts:
    """What a device counts."""

    deaf: int = 0
    refused: int = 0
    full: int = 0
    dropped: int = 0


@dataclass
class Device:
    """A device at a moment."""

    config: Config
    clock: Clock
    slots: Slots
    groups: list[Group | None] = field(default_factory=lambda: [None] * GROUPS)
    sessions: list[Session | None] = field(default_factory=lambda: [None] * SESSIONS)
    class_session: ClassSession | None = None
    reboot: int | None = None
    last_due: int | None = None
    outbox: list[Uplink] = field(default_factory=list)
    counts: Counts = field(default_factory=Counts)

    # ---- events

    def receive(self, t: int, down: Downlink, word: int, mark: int) -> None:
        """A payload comes, between the reboots that are due."""
        self.reboot_where_due(t)
        self.hear(t, down, word, mark)
        self.reboot_where_due(t)

    def hear(self, t: int, down: Downlink, word: int, mark: int) -> None:
        """The checks, one after another: each that fails changes its counter alone."""
        if not self.hears(t, down):
            self.counts.deaf += 1
            return
        commands = read_payload(down.port, DOWN, down.payload)
        if isinstance(commands, Refusal):
            self.counts.refused += 1
        elif len(self.outbox) + sum(weight(command) for command in commands) > OUTBOX:
            self.counts.full += 1
        else:
            group = self.class_session.ident if self.class_session and down.is_to_group else UNICAST
            here = Arrival(t, word, mark, group, down.port)
            for command in commands:
                self.act(here, command)

    def radio(self, t: int, frame: bytes, word: int, mark: int) -> None:
        """Bytes come on the air: a frame of the class session's group is a payload to it, other bytes are counted."""
        group = self.heard_group()
        held = None if group is None else opened(group, frame)
        if group is None or held is None:
            self.reboot_where_due(t)
            self.counts.deaf += 1
        else:
            self.receive(t, Downlink(held.port, held.payload, group.addr, held.count), word, mark)

    def wake(self, t: int) -> None:
        """The device asks for the time by itself, where the outbox has room (TS003-1.0.0, AppTimeReq)."""
        self.reboot_where_due(t)
        if len(self.outbox) < OUTBOX:
            self.send(t, CLOCK, self.time_request(t, 1))
        self.reboot_where_due(t)

    def migrate(self) -> None:
        """Both image formats are known from now on."""
        self.slots.migrate()

    def take_uplinks(self) -> list[Uplink]:
        """All uplinks, the oldest first."""
        taken, self.outbox = self.outbox, []
        return taken

    # ---- what it hears

    def heard_group(self) -> Group | None:
        """The group of the class session, where it is there."""
        return None if self.class_session is None else self.groups[self.class_session.ident]

    def hears(self, t: int, down: Downlink) -> bool:
        """Whether it hears a payload at t ms of true time."""
        if not down.is_to_group:
            return not self.config.is_class_a or is_after_uplink(self.last_due, t)
        if down.addr is None or down.count is None:
            return False
        group = self.heard_group()
        return group is not None and group.takes(down.addr, down.count) and self.is_window_open(t, down.addr)

    def is_window_open(self, t: int, addr: int) -> bool:
        """The window of the class session is open."""
        session, now = self.class_session, self.clock.millis(t)
        if session is None:
            return False
        if session.periodicity is None:
            return is_open_c(session.time, session.timeout, now)
        return is_open_b(session.time, session.periodicity, session.timeout, now, addr)

    # ---- answers

    def send(self, due: int, port: int, command: Command) -> None:
        """An uplink into the outbox."""
        self.outbox.append(Uplink(due, port, spelling(command)))
        self.last_due = due

    def answer(self, here: Arrival, name: str, **fields: Any) -> None:
        """An answer at once, on the port that the request came on."""
        self.send(here.t, here.port, make(name, **fields))

    def time_request(self, t: int, required: int) -> Command:
        """AppTimeReq."""
        return make("AppTimeReq", time=self.clock.seconds(t), required=required, token=self.clock.token)

    # ---- commands

    def act(self, here: Arrival, command: Command) -> None:
        """A command acts; by multicast only two do, and any other is skipped."""
        if here.group is UNICAST or command.name in MULTICAST_COMMANDS:
            getattr(self, f"on_{command.name}")(here, **command.fields)

    def on_PackageVersionReq(self, here: Arrival) -> None:
        """The package's identifier, and version 1."""
        self.answer(here, "PackageVersionAns", id=IDENTIFIERS[here.port], version=1)

    # TS003-1.0.0

    def on_AppTimeAns(self, here: Arrival, correction: int, token: int) -> None:
        """The correction is taken with the clock's token alone."""
        self.clock.take_answer(correction, token)

    def on_DeviceAppTimePeriodicityReq(self, here: Arrival, period: int) -> None:
        """NotSupported, and the device's time (that it is not supported is this project's profile)."""
        self.answer(here, "DeviceAppTimePeriodicityAns", unsupported=1, time=self.clock.seconds(here.t))

    def on_ForceDeviceResyncReq(self, here: Arrival, count: int) -> None:
        """So many AppTimeReq at once, all alike."""
        for _ in range(count):
            self.send(here.t, here.port, self.time_request(here.t, 0))

    # TS004-1.0.0

    def on_FragSessionSetupReq(self, here: Arrival, **fields: Any) -> None:
        """Without a refusal bit the session of the index is kept or replaced, with one nothing changes."""
        setup = Setup(**fields)
        limits = Limits(self.config.rows, self.config.descriptor, self.config.flash)
        bits = refusal_bits(limits, setup)
        if bits == 0:
            self.sessions[setup.index] = after_setup(limits, self.sessions[setup.index], setup)
        self.answer(here, "FragSessionSetupAns", index=setup.index, bits=bits)

    def on_FragSessionDeleteReq(self, here: Arrival, index: int) -> None:
        """The session of the index is none."""
        missing = self.sessions[index] is None
        self.sessions[index] = None
        self.answer(here, "FragSessionDeleteAns", missing=missing, index=index)

    def on_FragSessionStatusReq(self, here: Arrival, index: int, all: int) -> None:
        """At once by unicast, and by a group so many seconds later as the random word says."""
        session = self.sessions[index]
        status = status_of(session, here.group, all)
        if session is not None and status is not None:
            delay = session.setup.delay
            seconds = 0 if here.group is UNICAST else here.word % 2 ** (delay + 4)
            self.send(here.t + 1000 * seconds, here.port, make("FragSessionStatusAns", **status))

    def on_DataFragment(self, here: Arrival, index: int, n: int, bytes: bytes) -> None:
        """A session hears a fragment; the one that makes its file whole brings it to the next slot."""
        session = self.sessions[index]
        if session is None or session.drops(here.group, n, bytes):
            self.counts.dropped += 1
            return
        was_complete = session.is_complete()
        session.hear(n, bytes, here.mark)
        if not was_complete and session.is_complete():
            self.slots.offer(session.verdict().file)

    # TS005-1.0.0

    def on_McGroupStatusReq(self, here: Arrival, mask: int) -> None:
        """How many groups there are, and those that the mask asks for."""
        total = sum(group is not None for group in self.groups)
        there = [(i, g.addr) for i, g in enumerate(self.groups) if g is not None and mask >> i & 1]
        answered = sum(1 << i for i, _ in there)
        self.answer(here, "McGroupStatusAns", total=total, mask=answered, groups=there)

    def on_McGroupSetupReq(self, here: Arrival, id: int, addr: int, key: bytes, min: int, max: int) -> None:
        """The group takes the place of what the id had."""
        self.groups[id] = Group(addr, unwrapped(self.config.key, self.config.is_appkey, key), min, max)
        self.answer(here, "McGroupSetupAns", error=0, id=id)

    def on_McGroupDeleteReq(self, here: Arrival, id: int) -> None:
        """The group is none, and a class session of it ends."""
        undefined = self.groups[id] is None
        self.groups[id] = None
        if self.class_session is not None and self.class_session.ident == id:
            self.class_session = None
        self.answer(here, "McGroupDeleteAns", undefined=undefined, id=id)

    def on_McClassCSessionReq(self, here: Arrival, id: int, time: int, timeout: int, freq: int, dr: int) -> None:
        """A session from its time on."""
        session = ClassSession(id, time, timeout, None)
        self.begin_session(here, "McClassCSessionAns", session, time, freq, dr)

    def on_McClassBSessionReq(self, here: Arrival, id: int, time: int, periodicity: int, timeout: int, freq: int,
                              dr: int) -> None:
        """A session from the beacon before its time on."""
        session = ClassSession(id, time, timeout, periodicity)
        self.begin_session(here, "McClassBSessionAns", session, beacon_at(time), freq, dr)

    def begin_session(self, here: Arrival, answer: str, session: ClassSession, start: int, freq: int, dr: int) -> None:
        """Without an error bit the session replaces the one that there was."""
        errors = session_errors(self.groups[session.ident] is not None, freq, dr)
        if errors == 0:
            self.class_session = session
        to_start = time_to_start(self.clock.seconds(here.t), start) if errors == 0 else None
        self.answer(here, answer, errors=errors, id=session.ident, start=to_start)

    # TS006-1.0.0

    def on_DevVersionReq(self, here: Arrival) -> None:
        """What runs, and on which hardware."""
        self.answer(here, "DevVersionAns", fw=self.slots.running, hw=self.config.hardware)

    def on_DevRebootTimeReq(self, here: Arrival, time: int) -> None:
        """A reboot at a time."""
        self.set_reboot(here.t, time, 2**32 - 1, time)
        self.answer(here, "DevRebootTimeAns", time=time)

    def on_DevRebootCountdownReq(self, here: Arrival, count: int) -> None:
        """A reboot in so many seconds."""
        self.set_reboot(here.t, count, 2**24 - 1, (self.clock.seconds(here.t) + count) % ROUND)
        self.answer(here, "DevRebootCountdownAns", count=count)

    def on_DevUpgradeImageReq(self, here: Arrival) -> None:
        """What is in the next slot, and the version of a valid image."""
        state, version = self.slots.next
        self.answer(here, "DevUpgradeImageAns", status=UPGRADE_STATUS[state], next=version)

    def on_DevDeleteImageReq(self, here: Arrival, version: int) -> None:
        """The next slot is none, where it is valid and has this version (the bits are this project's profile)."""
        self.answer(here, "DevDeleteImageAns", bits=self.slots.delete(version))

    # ---- reboots, in seconds of its clock

    def set_reboot(self, t: int, number: int, ones: int, moment: int) -> None:
        """0 is now, all ones call it off, and any other number is a moment."""
        if number == 0:
            self.reboot = self.clock.seconds(t)
        else:
            self.reboot = None if number == ones else moment

    def reboot_where_due(self, t: int) -> None:
        """A moment is reached from it on for 2^31 s. It is cleared, and a valid next runs."""
        if self.reboot is not None and (self.clock.seconds(t) - self.reboot) % ROUND < 2**31:
            self.reboot = None
            self.slots.swap()


def weight(command: Command) -> int:
    """How many uplinks a command makes at most; one that is skipped has its weight too."""
    if command.name in ("DataFragment", "AppTimeAns"):
        return 0
    return int(command["count"]) if command.name == "ForceDeviceResyncReq" else 1


def new_device(config: Config) -> Device:
    """A device at its start."""
    return Device(config, Clock(config.offset), Slots(config.hardware, config.formats))


def file_of(session: Session | None) -> bytes | str:
    """The file of a session, or how it stands instead."""
    if session is None:
        return "none"
    verdict = session.verdict()
    return verdict.file if verdict.state == COMPLETE else verdict.state
