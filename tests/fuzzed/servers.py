"""A server: honest, bent and random uplinks, and all calls in any order; what is restored of what it saved does as it does.
Of bent bytes, with their digest made anew, none is restored, or one that lives on."""
import random
from typing import Any

from . import commands
from .bending import EDGES, bent, is_one_of, overwritten
from .library import Twins, Wrong, agree, answered, fuota
from .saved import DIGEST, image_file, is_server, number, server_sealed

HEAD = 12


def plan_drawn(draws: random.Random) -> Any:
    """A plan, mostly one that is taken."""
    plan = fuota.Plan(
        addr=draws.getrandbits(32), min=draws.choice((0, 0, 5, 2**32 - 2)), max=draws.choice((9, 2**32 - 1)),
        start=draws.getrandbits(32), freq=8_681_000, parity=draws.choice((0, 3, 40)), frag_size=draws.choice((13, 48, 239)),
        timeout=draws.randrange(16), dr=draws.randrange(256), periodicity=draws.randrange(8), index=draws.randrange(4),
        id=draws.randrange(4), has_group=True, has_window=True, is_class_b=is_one_of(draws, 3), key=draws.randbytes(16))
    if is_one_of(draws, 3):
        plan.has_group = plan.has_window = False
    if is_one_of(draws, 6):
        name, value = draws.choice((
            ("parity", 512), ("parity", 513), ("frag_size", 0), ("frag_size", 240), ("index", 4), ("id", 4), ("max", 0),
            ("timeout", 16), ("periodicity", 8), ("freq", 1 << 24), ("has_group", False), ("has_window", False)))
        setattr(plan, name, value)
    return plan


def wrong_field(plan: Any, devices: int, image: int) -> str | None:
    """The first field of a plan that is wrong, in the order of the header."""
    is_long = not 1 <= plan.frag_size <= 239 or -(-image // plan.frag_size) > 4096
    is_bad_window = plan.has_window and (plan.timeout > 15 or plan.freq >= 1 << 24 or plan.is_class_b and plan.periodicity > 7)
    found = (("FIELD_FRAG_SIZE", is_long), ("FIELD_PARITY", plan.parity > 512), ("FIELD_INDEX", plan.index > 3),
             ("FIELD_GROUP", plan.has_group and (plan.id > 3 or plan.min >= plan.max)),
             ("FIELD_WINDOW", is_bad_window or plan.has_window != plan.has_group), ("FIELD_DEVICES", not 1 <= devices <= 64))
    return next((name for name, is_wrong in found if is_wrong), None)


def began(*words: Any) -> Any:
    """A server, the name of the field of the plan that is wrong, or that of another error."""
    try:
        return fuota.Server(*words)
    except fuota.WrongField as error:
        return error.field.name
    except fuota.Error as error:
        return error.name


class Tried:
    """A server of a plan, and what is restored of it."""

    def __init__(self, draws: random.Random, library: object) -> None:
        self.draws, self.library, self.plan, self.t = draws, library, plan_drawn(draws), draws.getrandbits(40)
        count = draws.choice((1, 1, 2, 3, 64)) if draws.randrange(30) else draws.choice((0, 65))
        self.devices = [fuota.PlanDevice(key=draws.randbytes(16), is_v11=is_one_of(draws, 2)) for _ in range(count)]
        self.version = draws.choice((1, 7))
        self.image = image_file(draws, 1, self.version)
        if is_one_of(draws, 25):
            self.image = bent(draws, self.image, 1000)
        self.twins: Twins | None = None

    def begin(self) -> bool:
        """Whether there is a server; else it is said what is wrong, and rightly."""
        made = began(self.plan, self.devices, self.image, self.library)
        if made == "REFUSED":
            return False
        wrong = wrong_field(self.plan, len(self.devices), len(self.image))
        agree("the wrong field", wrong, made if isinstance(made, str) else None)
        if wrong:
            return False
        self.twins = Twins(made)
        return True

    def call(self, name: str, *words: Any) -> object:
        assert self.twins
        return self.twins.call(name, *words)

    def device(self) -> int:
        """The number of a device, mostly one of the plan."""
        count = len(self.devices)
        return self.draws.choice((0, count + 1, 255)) if is_one_of(self.draws, 30) else self.draws.randint(1, count)

    def told(self, name: str) -> commands.Value:
        """A field of an answer, so that the campaign goes on; None for any."""
        if is_one_of(self.draws, 8):
            return None
        likely = {"hw": 1, "fw": self.version, "next": self.version, "status": 3, "index": self.plan.index, "id": self.plan.id,
                  "bits": 0, "error": 0, "undefined": 0, "start": 5, "norows": int(is_one_of(self.draws, 9)),
                  "missing": self.draws.choice((0, 0, 3)), "count": 0, "required": 1}
        return likely.get(name)

    def answer(self) -> None:
        """An uplink comes, bent or not."""
        draws = self.draws
        port = draws.choice((200, 200, 201, 201, 202, 203, 203))
        rows = [row for row in commands.rows_at(port, True)]
        payload = b"".join(commands.some_of(draws.choice(rows), draws, self.told) for _ in range(draws.choice((1, 1, 2))))
        if is_one_of(draws, 8):
            payload = bent(draws, payload, 250)
        elif is_one_of(draws, 20):
            port, payload = draws.randrange(256), draws.randbytes(draws.randint(0, 40))
        self.call("uplink", self.device(), port, payload, self.t)

    def honest(self) -> None:
        """A device is asked, and answers as one on its way does."""
        dev = self.device()
        self.readable(self.call("ask", dev))
        told = self.call("ledger", dev)
        if not isinstance(told, tuple) or told[0] != fuota.StageKind.AT:
            return
        name = {1: "DevVersionAns", 2: "McGroupSetupAns", 3: "FragSessionSetupAns",
                4: "McClassBSessionAns" if self.plan.is_class_b else "McClassCSessionAns", 5: "FragSessionStatusAns",
                6: "DevUpgradeImageAns", 7: "DevRebootCountdownAns", 8: "DevVersionAns"}[told[1]]
        row = next(row for row in commands.ROWS.values() if row.name == name and row.is_up)
        self.call("uplink", dev, row.port, commands.some_of(row, self.draws, self.told), self.t)

    def send(self) -> None:
        """A payload to all, which has a frame where it goes to the group."""
        down = self.call("status_all" if is_one_of(self.draws, 6) else "next_fragment")
        self.readable(down)
        if isinstance(down, tuple) and down[2]:
            told = fuota.Down(length=len(down[1]), addr=down[2][0], count=down[2][1], port=down[0], is_group=True)
            told.payload = (fuota.U8 * 242)(*down[1])
            frame = self.call("frame", told)
            assert isinstance(frame, bytes)
            # (LoRaWAN 1.0.x: unconfirmed down, address, no options, the lower half of the count, port; 4 bytes of MIC)
            head = b"\x60" + number(down[2][0], 4) + b"\0" + number(down[2][1] % 65536, 2) + bytes([down[0]])
            agree("head and length of a frame", (head, 13 + len(down[1])), (frame[:9], len(frame)))

    def readable(self, down: object) -> None:
        """What a server sends is one command, as it is spelled."""
        if isinstance(down, tuple):
            found = commands.read(down[0], False, down[1])
            agree("bytes of a downlink", b"".join(commands.spelled(*it) for it in found), down[1])
            agree("commands of a downlink", 1, len(found))

    def step(self) -> None:
        """One step."""
        self.t += self.draws.choice((0, 1000, 60_000))
        self.draws.choice((self.answer, self.answer, self.honest, self.honest, self.honest, self.send))()
        if is_one_of(self.draws, 4):
            dev = self.device()
            self.call("ledger", dev)
            self.call("last_status", dev)
            self.call("fragment_number")
            self.call("frame_count")

    def saved(self) -> bytes:
        """What it saves; the digest is the formats'."""
        assert self.twins
        server = self.twins.objects[0]
        saved = bytes(server.save())
        agree("bytes of a saved server", 44 + 6 * len(self.devices), len(saved))
        agree("a saved server", server_sealed(saved[:-DIGEST], self.plan, self.devices, self.image), saved)
        agree("the numbers of a saved server", number(server.fragment_number(), 2) + number(server.frame_count(), 4), saved[5:HEAD - 1])
        return saved

    def restored(self, saved: bytes) -> Any:
        """The server, or the name of the error."""
        return answered(fuota.Server.restore, self.plan, self.devices, self.image, saved, self.library)

    def restore(self) -> None:
        """One is restored of what it saved."""
        assert self.twins
        saved = self.saved()
        other = self.restored(saved)
        if not isinstance(other, fuota.Server):
            raise Wrong(f"what a server saved is answered with {other}")
        self.twins.restored(other)
        agree("what is saved again", saved, other.save())

    def refuses(self) -> None:
        """Its bytes with another digest, or for another plan, device or image, are no server's."""
        saved, plan, devices, image = self.saved(), self.plan, self.devices, self.image
        at = len(saved) - 1 - self.draws.randrange(DIGEST)
        agree("another digest", "CORRUPT", self.restored(saved[:at] + bytes([saved[at] ^ 1]) + saved[at + 1:]))
        self.plan = fuota.Plan.from_buffer_copy(plan)
        self.plan.parity = (plan.parity + 1) % 512
        agree("another plan", "CORRUPT", self.restored(saved))
        self.plan, self.devices = plan, [fuota.PlanDevice(key=bytes(16)), *devices[1:]]
        agree("another device", "CORRUPT", self.restored(saved))
        self.devices, self.image = devices, image_file(self.draws, 2, self.version)
        agree("another image", "CORRUPT", self.restored(saved))
        self.image = image

    def restore_bent(self) -> None:
        """One is restored of bent bytes; what lives on saves the same again."""
        assert self.twins
        draws, state = self.draws, self.saved()[:-DIGEST]
        other = overwritten(draws, state, draws.choice((0, 5, HEAD)), len(state))
        if is_one_of(draws, 4):
            at = HEAD + 2 * draws.randrange(len(self.devices))
            other = other[:at] + bytes([draws.randrange(24), draws.choice(EDGES)]) + other[at + 2:]
        other = bent(draws, other, 500) if is_one_of(draws, 12) else other
        sealed = server_sealed(other, self.plan, self.devices, self.image)
        if is_one_of(draws, 8):
            self.refuses()
        server = self.restored(sealed)
        wanted = is_server(other, self.plan, len(self.devices), len(self.image))
        agree(f"whether a server knows {other.hex()}", wanted, isinstance(server, fuota.Server))
        if not wanted:
            return
        first, self.twins.objects = self.twins.objects[0], [server]
        agree("what is saved again", sealed, server.save())
        for _ in range(3):
            self.step()
        self.restore()
        self.twins.free()
        self.twins.objects = [first]


def check(draws: random.Random, library: object) -> None:
    """A server, and some steps of its campaign."""
    tried = Tried(draws, library)
    if not tried.begin() or tried.twins is None:
        return
    try:
        for _ in range(draws.choice((4, 12, 40))):
            if is_one_of(draws, 6):
                tried.restore()
            tried.step()
        tried.call("save")
        tried.twins.forget()
        for _ in range(3):
            tried.restore_bent()
    finally:
        tried.twins.free()
