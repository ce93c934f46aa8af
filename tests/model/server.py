"""The server of a campaign: what it asks at each stage, where an answer leads, and what it sends to all.

The commands are those of TS003 to TS006; the stages and their order are this project's profile.
"""
from dataclasses import dataclass, field
from typing import TypeVar

from .clock import correction_of
from .commands import ROWS, UP, Command, Refusal, make, read_payload, spelling
from .device import Downlink
from .groups import Group, frame_of, wrapped
from .image import image_of
from .parity import fragment_of, padding_for, pieces_for

UPDATED, REFUSED = "updated", "refused"


T = TypeVar("T")


def needed(value: T | None) -> T:
    """What is there whenever it is asked for."""
    assert value is not None
    return value


@dataclass(frozen=True)
class Window:
    """The class session of the plan's group: of class C where there is no periodicity."""

    start: int
    periodicity: int | None
    timeout: int
    freq: int
    dr: int


@dataclass
class Plan:
    """How the image is cut, the group with its window or neither, and the devices' keys."""

    fragsize: int = 0
    parity: int = 0
    index: int = 0
    ident: int = 0
    group: Group | None = None
    window: Window | None = None
    keys: list[tuple[bytes, bool]] = field(default_factory=list)


@dataclass(frozen=True)
class Stage:
    """Where a device stands: at a request, updated, or refused at a request with bits."""

    name: str
    request: str = ""
    bits: int = 0

    def __str__(self) -> str:
        return f"refused {self.request} {self.bits}" if self.name == REFUSED else self.name


def at(request: str) -> Stage:
    """The stage of a request."""
    return Stage(request)


def unless_refused(request: str, bits: int, moved: Stage) -> Stage:
    """Refused with bits, unless there is none."""
    return Stage(REFUSED, request, bits) if bits else moved


@dataclass
class Server:
    """A server at a moment: the next fragment, the group's next count, and the ledger of its devices' stages."""

    image: bytes
    plan: Plan
    next: int = 1
    count: int = 0
    stages: list[Stage] = field(default_factory=list)

    def __post_init__(self) -> None:
        self.head = image_of(self.image)

    def begin(self) -> None:
        """The plan is whole: counts begin with the group's MIN, and each device is at version."""
        self.count = self.plan.group.min if self.plan.group else 0
        self.stages = [at("version") for _ in self.plan.keys]

    @property
    def pieces(self) -> int:
        """How many pieces the image is cut into."""
        return pieces_for(len(self.image), self.plan.fragsize)

    @property
    def padding(self) -> int:
        """How many bytes the last piece lacks."""
        return padding_for(len(self.image), self.plan.fragsize)

    # ---- requests of the stages

    def request_for(self, number: int) -> Downlink | None:
        """What is asked of a device, by unicast; None at updated and refused."""
        request = getattr(self, f"ask_{self.stages[number - 1].name}", None)
        return None if request is None else downlink_of(request(number))

    def ask_version(self, number: int) -> Command:
        """What runs, and on which hardware?"""
        return make("DevVersionReq")

    def ask_group(self, number: int) -> Command:
        """The group, its key wrapped for the device."""
        key, is_appkey = self.plan.keys[number - 1]
        group = needed(self.plan.group)
        block = wrapped(key, is_appkey, group.key)
        return make("McGroupSetupReq", id=self.plan.ident, addr=group.addr, key=block, min=group.min, max=group.max)

    def ask_fragments(self, number: int) -> Command:
        """The session, with the image's firmware version as what the file is."""
        return make(
            "FragSessionSetupReq",
            index=self.plan.index,
            mask=1 << self.plan.ident if self.plan.group else 0,
            nbfrag=self.pieces,
            fragsize=self.plan.fragsize,
            algo=0,
            delay=0,
            padding=self.padding,
            descriptor=needed(self.head).firmware,
        )

    def ask_window(self, number: int) -> Command:
        """The class session of the group."""
        window = needed(self.plan.window)
        fields = dict(
            id=self.plan.ident, time=window.start, timeout=window.timeout, freq=window.freq, dr=window.dr
        )
        if window.periodicity is None:
            return make("McClassCSessionReq", **fields)
        return make("McClassBSessionReq", periodicity=window.periodicity, **fields)

    def ask_status(self, number: int) -> Command:
        """How many fragments are missing?"""
        return make("FragSessionStatusReq", index=self.plan.index, all=1)

    def ask_image(self, number: int) -> Command:
        """What is in the next slot?"""
        return make("DevUpgradeImageReq")

    def ask_reboot(self, number: int) -> Command:
        """A reboot now."""
        return make("DevRebootCountdownReq", count=0)

    def ask_check(self, number: int) -> Command:
        """What runs now?"""
        return make("DevVersionReq")

    # ---- to all

    def has_count(self) -> bool:
        """A frame count of the group is left; without a group none is needed."""
        return self.plan.group is None or self.count < self.plan.group.max

    def to_all(self, command: Command) -> Downlink:
        """A command to the group, with its next count; without a group to any device."""
        group = self.plan.group
        if group is None:
            return downlink_of(command)
        self.count += 1
        return downlink_of(command, group.addr, self.count - 1)

    def has_fragment(self) -> bool:
        """A fragment is left to send."""
        return self.next <= self.pieces + self.plan.parity and self.has_count()

    def send_fragment(self) -> Downlink:
        """The next fragment: the pieces in order, then the coded ones."""
        data = fragment_of(self.image, self.plan.fragsize, self.next)
        command = make("DataFragment", index=self.plan.index, n=self.next, bytes=data)
        self.next += 1
        return self.to_all(command)

    def send_status(self) -> Downlink:
        """A status request, which those answer that miss a fragment."""
        return self.to_all(make("FragSessionStatusReq", index=self.plan.index, all=0))

    def frame(self, down: Downlink) -> bytes:
        """The frame of a payload to the group."""
        return frame_of(needed(self.plan.group), needed(down.count), down.port, down.payload)

    # ---- answers

    def uplink(self, number: int, port: int, payload: bytes, t: int) -> Downlink | None:
        """An uplink of a device: its commands move the stage, and the first that needs the time is answered."""
        commands = read_payload(port, UP, payload)
        if isinstance(commands, Refusal):
            return None
        for command in commands:
            self.stages[number - 1] = self.stage_after(self.stages[number - 1], command)
        answers = (time_answer(t, command) for command in commands)
        return next((downlink_of(answer) for answer in answers if answer is not None), None)

    def stage_after(self, stage: Stage, command: Command) -> Stage:
        """An answer moves its own stage alone."""
        rule = self.RULES.get((stage.name, command.name))
        return stage if rule is None else rule(self, stage, command)

    def after_version(self, stage: Stage, answer: Command) -> Stage:
        """1 is hardware that the image is not for; without a group its stages are left out."""
        moved = at("group" if self.plan.group else "fragments")
        return unless_refused("version", 0 if needed(self.head).is_for(answer["hw"]) else 1, moved)

    def after_group(self, stage: Stage, answer: Command) -> Stage:
        """4 is IDerror."""
        if answer["id"] != self.plan.ident:
            return stage
        return unless_refused("group", 4 * answer["error"], at("fragments"))

    def after_fragments(self, stage: Stage, answer: Command) -> Stage:
        """The refusal bits of the session."""
        if answer["index"] != self.plan.index:
            return stage
        return unless_refused("fragments", answer["bits"], at("window" if self.plan.group else "status"))

    def after_window_c(self, stage: Stage, answer: Command) -> Stage:
        """The answer of the plan's own class alone."""
        return self.after_window(stage, answer) if needed(self.plan.window).periodicity is None else stage

    def after_window_b(self, stage: Stage, answer: Command) -> Stage:
        """The answer of the plan's own class alone."""
        return stage if needed(self.plan.window).periodicity is None else self.after_window(stage, answer)

    def after_window(self, stage: Stage, answer: Command) -> Stage:
        """The bits are told as they stand in their byte: 16 group, 8 frequency, 4 data rate."""
        if answer["id"] != self.plan.ident:
            return stage
        return unless_refused("window", answer["errors"] << 2, at("status"))

    def after_status(self, stage: Stage, answer: Command) -> Stage:
        """1 is too little memory; with fragments missing the stage stays."""
        if answer["index"] != self.plan.index:
            return stage
        return unless_refused("status", answer["norows"], at("status" if answer["missing"] else "image"))

    def after_image(self, stage: Stage, answer: Command) -> Stage:
        """1 corrupt, 2 incompatible, 3 another version; with none in the slot the stage stays."""
        if answer["status"] == 3:
            right = answer["next"] == needed(self.head).firmware
            return at("reboot") if right else Stage(REFUSED, "image", 3)
        return unless_refused("image", answer["status"], stage)

    def after_reboot(self, stage: Stage, answer: Command) -> Stage:
        """Whatever the count, it is checked what runs."""
        return at("check")

    def after_check(self, stage: Stage, answer: Command) -> Stage:
        """The image's firmware version is the end."""
        return Stage(UPDATED) if answer["fw"] == needed(self.head).firmware else stage

    RULES = {
        ("version", "DevVersionAns"): after_version,
        ("group", "McGroupSetupAns"): after_group,
        ("fragments", "FragSessionSetupAns"): after_fragments,
        ("window", "McClassCSessionAns"): after_window_c,
        ("window", "McClassBSessionAns"): after_window_b,
        ("status", "FragSessionStatusAns"): after_status,
        ("image", "DevUpgradeImageAns"): after_image,
        ("reboot", "DevRebootCountdownAns"): after_reboot,
        ("check", "DevVersionAns"): after_check,
    }


def downlink_of(command: Command, addr: int | None = None, count: int | None = None) -> Downlink:
    """A command as it is sent, on its one port; PackageVersionReq, which has several, no server sends."""
    return Downlink(ROWS[command.name].ports[0], spelling(command), addr, count)


def time_answer(t: int, command: Command) -> Command | None:
    """AppTimeAns to an AppTimeReq that asks for one, or whose time is wrong (TS003-1.0.0)."""
    if command.name != "AppTimeReq":
        return None
    correction = correction_of(t // 1000, command["time"])
    if correction == 0 and not command["required"]:
        return None
    return make("AppTimeAns", correction=correction, token=command["token"])
