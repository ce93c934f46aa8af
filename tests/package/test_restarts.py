"""The server of a campaign, and its devices, ended and restored after each of their calls, over the library for C.

The payloads, the frames, the uplinks, the stages, the counters and what runs have to be the model's. After each call the server
is saved and a new one is restored of the bytes; so is a device. Each second one has its sessions in a flash, whose bytes go
with it; another is restored as long as it has no session, since they are in memory.
"""
import pytest

import fuota
import restarted
from fuota.library import LONGEST_SPAN, held
from model import world
from model.commands import UP, Refusal, read_payload
from model.device import Downlink
from model.image import CORRUPT, INCOMPATIBLE, NONE, VALID
from model.session import COMPLETE, CONFLICT, NO_ROWS, RECEIVING
from restarted import agree

DRAWN = 400
STATES = (NONE, CORRUPT, INCOMPATIBLE, VALID)
VERDICTS = (RECEIVING, COMPLETE, NO_ROWS, CONFLICT)
REQUESTS = ("version", "group", "fragments", "window", "status", "image", "reboot", "check")
AREA = 262_382


def quiet(call, *words, **more):
    """What a call gives; None where it is answered otherwise."""
    try:
        return call(*words, **more)
    except fuota.Error:
        return None


class Server(world.Server):
    """The model's server, and one of the library that is ended and restored after each call."""

    library = None

    def begin(self):
        super().begin()
        plan, group, window = self.plan, self.plan.group, self.plan.window
        told = fuota.Plan(frag_size=plan.fragsize, parity=plan.parity, index=plan.index, id=plan.ident)
        if group:
            told.has_group, told.addr, told.min, told.max = True, group.addr, group.min, group.max
            told.key = type(told.key)(*group.key)
        if window:
            told.has_window, told.start, told.timeout, told.freq, told.dr = (
                True, window.start, window.timeout, window.freq, window.dr)
            told.is_class_b, told.periodicity = window.periodicity is not None, window.periodicity or 0
        self.told = told, [fuota.PlanDevice(key=key, is_v11=is_appkey) for key, is_appkey in plan.keys], self.image
        self.other, self.told_last = fuota.Server(*self.told, self.library), {}
        self.again()

    def again(self):
        """Ends the server, restores it, and holds its stages, and what it sends next, against the model's."""
        self.other.made("restore", *self.told, *held(self.other.save()))
        agree("what is sent next", (self.next, self.count), (self.other.fragment_number(), self.other.frame_count()))
        for number, stage in enumerate(self.stages, 1):
            told = self.other.ledger(number)
            agree(f"stage of device {number}", numbers_of(stage), (told.stage, told.request, told.bits))
            status = self.other.last_status(number)
            got = status and (status.received, status.missing, status.norows)
            agree(f"status of device {number}", self.told_last.get(number), got)

    def sends(self, what, wanted, call, *words):
        """What a call sends is what the model does."""
        down = quiet(call, *words)
        to = (down.addr, down.count) if down and down.is_group else (None, None)
        agree(what, wanted, down and Downlink(down.port, down.data, *to))
        self.again()
        return wanted

    def request_for(self, number):
        return self.sends("ask", super().request_for(number), self.other.ask, number)

    def send_fragment(self):
        return self.sends("fragment", super().send_fragment(), self.other.next_fragment)

    def send_status(self):
        return self.sends("status", super().send_status(), self.other.status_all)

    def frame(self, down):
        wanted = super().frame(down)
        told = fuota.Down(length=len(down.payload), addr=down.addr, count=down.count, port=down.port, is_group=True)
        told.payload = type(told.payload)(*down.payload)
        agree("frame", wanted, self.other.frame(told))
        return wanted

    def uplink(self, number, port, payload, t):
        wanted = super().uplink(number, port, payload, t)
        commands = read_payload(port, UP, payload)
        for command in () if isinstance(commands, Refusal) else commands:
            if command.name == "FragSessionStatusAns" and command["index"] == self.plan.index:
                self.told_last[number] = command["received"], command["missing"], bool(command["norows"])
        return self.sends("answer", wanted, self.other.uplink, number, port, payload, t)


def numbers_of(stage):
    """A stage as the library tells it."""
    kind = {"updated": 1, "refused": 2}.get(stage.name, 0)
    request = stage.request if kind == 2 else stage.name
    return kind, 0 if kind == 1 else REQUESTS.index(request) + 1, stage.bits


class ByLibrary:
    """A device of the library, with a flash or without."""

    def __init__(self, model, library, has_flash):
        config = model.config
        self.config = fuota.Config(hw=config.hardware, offset=config.offset, area=AREA, rows=config.rows, formats=config.formats,
                                   sessions=4, groups=4, is_class_c=not config.is_class_a, is_v11=config.is_appkey, key=config.key,
                                   has_descriptor=config.descriptor is not None, descriptor=config.descriptor or 0)
        self.flash = bytes(4 * LONGEST_SPAN) if has_flash else None
        self.device = fuota.Device(self.config, library, self.flash)
        self.power()

    def power(self):
        """(in memory there is nothing to open)"""
        agree("power", self.flash is not None, self.device.done("power"))

    def receive(self, t, down, word, mark):
        group = (down.addr, down.count) if down.is_to_group else None
        quiet(self.device.deliver, down.port, down.payload, t, mark, word, group)

    def radio(self, t, frame, word, mark):
        quiet(self.device.radio, frame, t, mark, word)

    def wake(self, t):
        quiet(self.device.wake, t)

    def migrate(self):
        self.device.raise_formats()

    def take_uplinks(self):
        got = []
        while (up := self.device.take_uplink()) is not None:
            got.append((up.due, up.port, up.data))
        return got

    def restart(self, model):
        """Ends the device, restores it where its sessions are not lost, and holds what it has against the model's."""
        if self.flash is not None or all(session is None for session in model.sessions):
            files = self.device.firmware(False), self.device.firmware(True)
            agree("next", model.slots.next_file, files[1])
            if self.flash is not None:
                self.flash = self.device.flash()
            words = held(self.device.save()), held(files[0]), held(files[1])
            self.device.begin("restore", fuota.Size.SIZE_LARGE, self.config, self.flash, LONGEST_SPAN, *(it for pair in words for it in pair))
            self.power()
        agree("running", model.slots.running, self.device.running())
        counts, following, (state, told) = self.device.counts(), self.device.next(), model.slots.next
        agree("counters", vars(model.counts), {name: getattr(counts, name) for name, _ in counts._fields_})
        agree("state of next", (state, told or 0), (STATES[following.state], following.version))
        for index, session in enumerate(model.sessions):
            view = self.device.view(index)
            got = view and (view.received, VERDICTS[view.verdict])
            agree(f"session {index}", session and (session.received, session.verdict().state), got)


@pytest.fixture(scope="module")
def kind(library):
    """A campaign of the model whose ends are the library's too."""
    calls = fuota.Library(library)

    class World(world.World):
        ends = []

        def __init__(self, image):
            super().__init__(image)
            Server.library = calls
            self.server = Server(image, self.server.plan)

        def on_device(self, form, line):
            super().on_device(form, line)
            other = ByLibrary(self.devices[-1], calls, len(self.ends) % 2 == 0)
            self.ends.append(other)
            self.devices[-1] = restarted.Device(self.devices[-1], other)

        @classmethod
        def end(cls, played):
            for other in cls.ends:
                other.device.free()
            cls.ends.clear()
            if played and hasattr(played.server, "other"):
                played.server.other.free()

    return World


@pytest.mark.parametrize("name", restarted.DATA)
def test_data(monkeypatch, kind, name):
    assert restarted.hold(monkeypatch, kind, *restarted.of_data(name))


@pytest.mark.parametrize("seed", range(restarted.SEEDS))
def test_seeds(monkeypatch, kind, seed):
    assert restarted.hold(monkeypatch, kind, *restarted.of_seed(seed))


@pytest.mark.parametrize("number", range(DRAWN))
def test_drawn(monkeypatch, kind, number):
    drawn = restarted.drawn(number)
    if drawn is None:
        pytest.skip("its image is none")
    restarted.hold(monkeypatch, kind, *drawn)
