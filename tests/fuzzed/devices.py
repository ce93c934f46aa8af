"""A device: honest, bent and random payloads, and all calls in any order; what is restored of what it saved does as it does."""
import functools
import random
from typing import Any

from . import commands
from .bending import bent, is_one_of
from .elimination import Room, Setup, fragment_of
from .held import Foreign, Ranges
from .library import ANSWERS, MAX_MOMENT, Twins, Wrong, agree, answered, fuota
from .receivers import number_drawn
from .saved import DEVICE, DIGEST, FLAGS, device_sealed, image_file

SPANS = (24_640, 24_900, 26_000, 26_000, 30_000)
ADDRESSES = (0, 0x11223344, 0xffffffff)
# The address of the server's group, which no other request sets up.
CAMPAIGN = 0x55667788
FRAGMENTS = 201
# Of each size of sessions: words and bytes for rows, and pieces.
SIZES = ((64, 768, 256), (1024, 3072, 1024), (16384, 61184, 4096))


def config_drawn(draws: random.Random) -> Any:
    """A configuration that is taken."""
    area = 262_382 if is_one_of(draws, 40) else draws.choice((60, 400, 400, 2000))
    return fuota.Config(
        hw=draws.choice((1, 2, draws.getrandbits(32))), offset=draws.choice((0, 5, draws.getrandbits(32))), area=area,
        descriptor=7, rows=draws.choice((0, 1, 4, 16, 256)), formats=draws.choice((1, 2)), sessions=draws.choice((1, 2, 4, 4)),
        groups=draws.choice((1, 2, 4, 4)), has_descriptor=is_one_of(draws, 4), is_class_c=draws.randrange(6) > 0,
        is_v11=is_one_of(draws, 2), key=draws.randbytes(16))


def room_of(config: Any, span: int | None, size: int) -> Room:
    """What a device has for a session."""
    descriptor = config.descriptor if config.has_descriptor else None
    words, row_bytes, pieces = SIZES[size]
    return Room(config.rows, words, row_bytes, pieces, config.area, config.sessions, descriptor, span)


def campaign_of(draws: random.Random, config: Any, t: int, library: object) -> Any:
    """The server of a campaign for a device, with a window that is open now."""
    plan = fuota.Plan(
        addr=CAMPAIGN, min=0, max=draws.choice((1, 200, 2**32 - 1)), start=(t // 1000 + config.offset) % 2**32,
        timeout=15, freq=8_681_000, parity=40, frag_size=draws.choice((13, 20, 48)), dr=3, index=draws.randrange(config.sessions),
        id=draws.randrange(config.groups), has_group=True, has_window=True, key=draws.randbytes(16))
    device = fuota.PlanDevice(key=bytes(config.key), is_v11=config.is_v11)
    return fuota.Server(plan, [device], image_file(draws, config.hw, draws.choice((1, 7))), library)


class Tried:
    """A device, what is restored of it, and what is sent to it."""

    def __init__(self, draws: random.Random, library: object, span: int | None) -> None:
        self.draws, self.library, self.span = draws, library, span
        self.config, self.size = config_drawn(draws), draws.choice(list(fuota.Size))
        self.ranges = Ranges(span, room_of(self.config, span, self.size)) if span else None
        self.t, self.mark, self.is_partial = draws.choice((0, 1000, draws.randrange(MAX_MOMENT - 10**9))), 0, False
        self.files: dict[int, tuple[Setup, bytes]] = {}
        # (the server's group has the server's key as long as no setup of it was bent)
        self.is_honest = True
        self.server = campaign_of(draws, self.config, self.t, library)
        self.twins = Twins(self.made())

    def made(self) -> Any:
        """A new device; with a flash its sessions are down."""
        if self.span is None:
            return fuota.Device(self.config, self.library, size=self.size)
        return fuota.Device(self.config, self.library, bytes(4 * self.span), self.span, self.size)

    def call(self, name: str, *words: Any) -> object:
        return self.twins.call(name, *words)

    def free(self) -> None:
        self.twins.free()
        self.server.free()

    # ---- what comes

    def deliver(self, port: int, payload: bytes, group: tuple[int, int] | None = None) -> None:
        """A payload comes; without its sessions no payload for them comes to what was restored."""
        if self.is_partial and port == FRAGMENTS:
            return
        self.mark += 1
        moment = moment_drawn(self.draws, self.t)
        self.call("deliver", port, payload, moment, self.mark, self.draws.getrandbits(32), group)

    def told(self, name: str) -> commands.Value:
        """A field of a command, so that it does something; None for any."""
        draws, now = self.draws, (self.t // 1000 + self.config.offset) % 2**32
        if is_one_of(draws, 25):
            return None
        likely: dict[str, commands.Value] = {
            "id": draws.randrange(4), "addr": draws.choice(ADDRESSES), "min": draws.choice((0, 0, 5)),
            "max": draws.choice((1, 200, 2**32 - 1)), "time": max(0, min(2**32 - 1, now + draws.choice((-3000, -5, 0, 0, 3)))),
            "timeout": 15, "freq": draws.choice((8_681_000, 8_681_000, 8_630_000, 8_700_001)), "dr": draws.choice((3, 5, 6)),
            "count": draws.choice((0, 1, 3)), "version": draws.choice((1, 7)), "index": draws.choice((0, 0, draws.randrange(4))),
            "periodicity": 0, "correction": draws.choice((-5, 0, 5)), "token": draws.choice((0, 1, 2)), "delay": 0}
        return likely.get(name)

    def setup(self) -> bytes:
        """FragSessionSetupReq, mostly one that is taken."""
        draws = self.draws
        index = draws.choice((0, 0, draws.randrange(4)))
        pieces, size = draws.choice((1, 2, 3, 5, 8, 12, 20)), draws.choice((1, 2, 4, 13))
        setup = Setup(index, draws.randrange(16), pieces, size, int(is_one_of(draws, 30)), draws.randrange(8),
                      draws.choice((0, 0, draws.randrange(size), size)), 7 if draws.randrange(9) else draws.getrandbits(32))
        file = image_file(draws, self.config.hw, draws.choice((1, 7)), 8) if is_one_of(draws, 3) else b""
        if file:
            size = draws.choice((13, 20))
            pieces = -(-len(file) // size)
            setup = Setup(index, 15, pieces, size, 0, 0, pieces * size - len(file), 7)
        if index in self.files and is_one_of(draws, 4):
            return b"\2" + self.files[index][0].body()
        self.files[index] = setup, (file or draws.randbytes(pieces * size))
        return b"\2" + setup.body()

    def fragment(self) -> bytes:
        """A DataFragment of a file that was set up."""
        index = self.draws.choice(list(self.files) or [0])
        setup, file = self.files.get(index, (Setup(0, 0, 1, 4, 0, 0, 0, 7), bytes(4)))
        number = number_drawn(self.draws, setup.pieces)
        data = fragment_of(file, setup.size, number) if number else bytes(setup.size)
        if is_one_of(self.draws, 50):
            data = self.draws.randbytes(setup.size)
        return bytes([8, *(index << 14 | number & 16383).to_bytes(2, "little"), *data])

    def command(self) -> tuple[int, bytes]:
        """Some commands of a port."""
        draws = self.draws
        kind = draws.randrange(6)
        if kind < 2:
            return FRAGMENTS, self.setup() if kind and is_one_of(draws, 3) or not self.files else self.fragment()
        port = draws.choice((200, 200, 201, 202, 203))
        rows = [row for row in commands.rows_at(port, False) if row.name != "DataFragment"]
        return port, b"".join(commands.some_of(draws.choice(rows), draws, self.told) for _ in range(draws.choice((1, 1, 2, 3))))

    # ---- steps

    def begin(self) -> None:
        """In most cases the campaign has begun, so that there are a group, a session and a window."""
        for _ in range(self.draws.choice((0, 2, 5, 6))):
            self.campaign()
        if is_one_of(self.draws, 2):
            self.fragments()

    def send(self) -> None:
        """A payload comes by unicast or by a group, bent or not."""
        draws = self.draws
        port, payload = self.command()
        if is_one_of(draws, 6):
            payload = bent(draws, payload, 250)
        elif is_one_of(draws, 12):
            port, payload = draws.choice((port, draws.randrange(256))), draws.randbytes(draws.randint(0, 60))
        is_group = is_one_of(draws, 4)
        group = draws.choice((*ADDRESSES, CAMPAIGN, CAMPAIGN)), draws.choice((0, 3, 150, 300))
        self.deliver(port, payload, group if is_group else None)

    def fragments(self) -> None:
        """Some fragments of a file come, so that it is whole now and then."""
        if not self.files or is_one_of(self.draws, 3):
            self.deliver(FRAGMENTS, self.setup())
        for _ in range(self.draws.choice((3, 12, 25))):
            self.deliver(FRAGMENTS, self.fragment())

    def campaign(self) -> None:
        """The server asks, and the device's uplinks come to it, bent or not."""
        draws = self.draws
        down = self.server.ask(1)
        if down is not None:
            data = bent(draws, down.data) if is_one_of(draws, 12) else down.data
            self.is_honest = self.is_honest and data == down.data
            self.deliver(down.port, data)
        while (up := self.call("take_uplink")) is not None:
            assert isinstance(up, tuple)
            self.is_readable(up)
            data = bent(draws, up[2]) if is_one_of(draws, 12) else up[2]
            told = answered(self.server.uplink, 1, up[1], data, self.t)
            if isinstance(told, tuple):
                self.deliver(told[0], told[1])

    def is_readable(self, up: tuple[Any, ...]) -> None:
        """An uplink is one command that a device may send on its port."""
        try:
            found = commands.read(up[1], True, up[2])
        except commands.NoCommands as stop:
            raise Wrong(f"the device sends {up}, which is refused at {stop.at}") from None
        agree(f"commands of the uplink {up}", 1, len(found))
        agree("bytes of an uplink", commands.spelled(*found[0]), up[2])

    def air(self) -> None:
        """A fragment of the server, or its request of the status, comes to the group, as a frame or as its payload."""
        draws = self.draws
        for _ in range(draws.choice((1, 4, 12))):
            try:
                down = self.server.status_all() if is_one_of(draws, 8) else self.server.next_fragment()
            except fuota.Spent:
                return
            if down is None or self.is_partial:
                return
            self.mark += 1
            if is_one_of(draws, 2):
                self.deliver(down.port, down.data, (down.addr, down.count))
            elif self.is_honest and is_one_of(draws, 2):
                self.hear_frame(down)
            else:
                frame = self.server.frame(down) or b""
                frame = bent(draws, frame, 300) if is_one_of(draws, 8) else frame
                self.call("radio", frame, moment_drawn(draws, self.t), self.mark, draws.getrandbits(32))

    def hear_frame(self, down: Any) -> None:
        """The frame of a payload does at one device what the payload does at the other."""
        first, *others = self.twins.objects
        word, group = self.draws.getrandbits(32), (down.addr, down.count)
        told = answered(first.radio, self.server.frame(down) or b"", self.t, self.mark, word)
        for it in others:
            by_payload = answered(it.deliver, down.port, down.data, self.t, self.mark, word, group)
            agree("a frame, beside its payload", "DEAF" if told == "FOREIGN" else told, by_payload)

    def whole(self) -> None:
        """The campaign goes on, maybe until the device runs the image."""
        for _ in range(self.draws.choice((3, 9))):
            self.campaign()
            self.air()

    def look(self) -> None:
        """What it tells is what the restored one tells; what it saves is sealed as the formats say."""
        for name in ("counts", "next"):
            self.call(name)
        ANSWERS[f"device {'runs an image' if self.call('running') else 'runs none'}"] += 1
        if not self.is_partial:
            for index in range(4):
                self.call("view", index)
                self.call("file", index)
        for is_next in (False, True):
            self.call("firmware", is_next)

    def others(self) -> None:
        """A call of another kind."""
        draws = self.draws
        name, words = draws.choice((("wake", (moment_drawn(draws, self.t),)), ("take_uplink", ()), ("raise_formats", ()),
                                    ("view", (4,)), ("radio", (draws.randbytes(30), self.t))))
        # (so often that its uplinks have no room)
        for _ in range(9 if name == "wake" and is_one_of(draws, 3) else 1):
            self.call(name, *words)
        if name == "raise_formats" and is_one_of(draws, 2):
            self.restore()

    def power(self) -> None:
        """Power at a device that is up changes nothing: no file is offered again."""
        before = [it.save() for it in self.twins.objects]
        self.call("power")
        agree("what a device that was up saves after power", before, [it.save() for it in self.twins.objects])

    def step(self) -> None:
        """One step, at a moment after the last one."""
        draws = self.draws
        self.t = min(MAX_MOMENT, self.t + draws.choice((0, 0, 10, 1000, 2000, 20_000, 3_000_000)))
        draws.choice((self.send, self.send, self.send, self.fragments, self.campaign, self.campaign, self.campaign, self.air,
                      self.whole, self.look, self.others, self.power))()

    # ---- restarts, and what the flash says

    def saved(self) -> tuple[bytes, bytes, bytes]:
        """What it saves, and its files; the digest is the formats'."""
        first = self.twins.objects[0]
        saved, running, following = first.save(), first.firmware(False), first.firmware(True)
        if first.next().state == fuota.Image.IMAGE_NONE:
            following = b""
        agree("a saved device", device_sealed(saved[:DEVICE], self.config, self.span, running, following), saved)
        return saved, running, following

    def restore(self) -> None:
        """A device is restored of what it saved, and takes the place of an earlier one."""
        saved, running, following = self.saved()
        first = self.twins.objects[0]
        if self.span is None:
            self.is_partial = any(first.view(index) for index in range(4))
            other = self.restored(saved, running, following, self.library)
            # (its sessions are gone, and with them that their files were whole)
            state = saved[:FLAGS.start] + bytes(4) + saved[FLAGS.stop:DEVICE]
            wanted = device_sealed(state, self.config, None, running, following)
            agree("what a device in memory saves again", wanted, other.save())
        else:
            other = self.restored(saved, running, following, self.library, first.flash(), self.span)
            agree("before power", "DOWN", answered(other.deliver, 203, b"\1", self.t))
            agree("what is saved before power", saved, other.save())
            other.power()
            agree("what is saved again", saved, other.save())
        self.twins.restored(other)

    def restored(self, *words: Any) -> Any:
        """The device that is restored of what this one saved."""
        told = answered(functools.partial(fuota.Device.restore, size=self.size), self.config, *words)
        if not isinstance(told, fuota.Device):
            raise Wrong(f"what a device saved is answered with {told}")
        return told

    def held(self) -> None:
        """What the sessions show is what their flash says."""
        if self.ranges is None:
            return
        first = self.twins.objects[0]
        try:
            sessions = self.ranges.sessions(first.flash())
        except Foreign as why:
            raise Wrong(f"the device's own flash: {why}") from None
        for index, session in enumerate(sessions):
            ANSWERS[f"device's session {session and session.verdict}"] += 1
            agree(f"session {index}", session and session.shown(), answered(first.view, index))
            agree(f"file {index}", session and session.file(), answered(first.file, index))

    def end(self) -> None:
        """At the end both save the same, and have the same flash."""
        if self.is_partial:
            states = [it.save() for it in self.twins.objects]
            agree("saved at the end", *(state[:FLAGS.start] + state[FLAGS.stop:-DIGEST] for state in states))
        else:
            self.call("save")
        if self.span is not None:
            self.call("flash")


def moment_drawn(draws: random.Random, t: int) -> int:
    """A moment, now and then an earlier one or one out of range."""
    return draws.choice((0, t // 2, MAX_MOMENT, MAX_MOMENT + 1)) if is_one_of(draws, 60) else t


def check(draws: random.Random, library: object) -> None:
    """A device in memory."""
    run(Tried(draws, library, None))


def check_held(draws: random.Random, library: object) -> None:
    """A device whose sessions are in flash."""
    tried = Tried(draws, library, draws.choice(SPANS))
    tried.call("power")
    run(tried)


def run(tried: Tried) -> None:
    """Steps, with a restart after some of them."""
    draws = tried.draws
    try:
        tried.begin()
        for _ in range(draws.choice((3, 8, 16))):
            if is_one_of(draws, 6):
                tried.restore()
            tried.step()
            if is_one_of(draws, 3):
                tried.held()
        tried.look()
        tried.held()
        tried.end()
    finally:
        tried.free()
