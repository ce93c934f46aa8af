"""A device that is a process, with its sessions in a file, ended after its calls and begun anew.

Each call of a device of the model is made at the program file_device too: uplinks, what runs and what was received, the counters
and all four sessions have to be the model's each time. A payload to the group comes as its frame. In the first campaigns each
call has a process of its own, over the files that the last one left; in the others a process lives for a drawn number of calls.
"""
import os
import random
import subprocess
import tempfile

import pytest

import common
import restarted
from model import world
from model.groups import frame_of
from model.session import COMPLETE, RECEIVING
from restarted import Differs, agree

# Campaigns of seeds in which each call has a process of its own, and the most calls of a process in the others.
WHOLE, MOST = 1, 100
# Where the files lie. The program syncs them at each step, which takes a disk minutes; an end of the process needs none.
PLACE = "/dev/shm" if os.path.isdir("/dev/shm") else None


def shown(device):
    """What the program has to show of a device of the model."""
    counts = device.counts
    yield f"runs {device.slots.running} next {device.slots.next[0]}"
    yield f"counts {counts.deaf} {counts.refused} {counts.full} {counts.dropped}"
    for index, session in enumerate(device.sessions):
        if session is None:
            yield f"session {index} none"
            continue
        verdict = session.verdict()
        words = {RECEIVING: f"missing {verdict.missing}", COMPLETE: f"whole {verdict.file.hex() if verdict.file else ''}"}
        yield f"session {index} {words.get(verdict.state, verdict.state)}"


class ByProcess:
    """A process for each of a device's calls, or for some of them, as `lives` draws."""

    def __init__(self, program, line, folder, group, lives):
        self.words = [program, os.path.join(folder, "flash"), os.path.join(folder, "state"), line]
        self.group, self.lives = group, lives
        self.running, self.left, self.made = None, 0, []

    def answer(self):
        """The lines that a line is answered with, up to the word that ends them."""
        lines = []
        while True:
            line = self.running.stdout.readline()
            if not line:
                raise Differs(f"the process ended after {lines}")
            if not line[0].isdigit() and line.split()[0] not in ("runs", "counts", "session"):
                return lines, line[:-1]
            lines.append(line[:-1])

    def put(self, line):
        self.running.stdin.write(line + "\n")
        self.running.stdin.flush()
        return self.answer()

    def process(self, t, call):
        """Makes a call, in a new process where the last one has made its calls."""
        if not self.left:
            self.end()
            self.left = self.lives.randint(1, MOST) if self.lives else 1
            self.running = subprocess.Popen(self.words, stdin=subprocess.PIPE, stdout=subprocess.PIPE, text=True)
            agree("at the start", ([], "power"), self.answer())
        self.left -= 1
        agree("at", ([], "done"), self.put(f"at {t}"))
        self.made += self.put(call)[0]

    def restart(self, model):
        """Holds what is there against the model's; what is there after the end shows once the next call is made."""
        agree("shown", (list(shown(model)), "done"), self.put("show"))

    def end(self):
        if self.running:
            self.running.stdin.close()
            self.running.stdout.close()
            agree("status", 0, self.running.wait(60))
            self.running = None

    def receive(self, t, down, word, mark):
        call = f"raw 1 {down.port} {down.payload.hex() or '-'} {word}"
        if down.is_to_group:
            call = f"rawair 1 {frame_of(self.group, down.count, down.port, down.payload).hex()} {word}"
        self.process(t, call)

    def radio(self, t, frame, word, mark):
        self.process(t, f"rawair 1 {frame.hex() or '-'} {word}")

    def wake(self, t):
        self.process(t, "wake 1")

    def migrate(self):
        self.process(0, "migrate 1")

    def take_uplinks(self):
        made, self.made = self.made, []
        return [(int(due), int(port), bytes.fromhex(payload)) for due, port, payload in (line.split(" ") for line in made)]


@pytest.fixture
def kind_of(file_device):
    """A campaign of the model whose devices are processes too, by the seed of their lives, if any."""
    with tempfile.TemporaryDirectory(dir=PLACE) as place:
        def kind_of(seed):
            lives = None if seed is None else random.Random(seed)

            class World(world.World):
                def on_device(self, form, line):
                    form.fields["flash"] = True
                    super().on_device(form, line)
                    config, number = self.devices[-1].config, len(self.devices)
                    words = [f"device 1 {'a' if config.is_class_a else 'c'} {config.hardware} {config.rows} {config.offset}"]
                    words += [config.key.hex()] + ([f"{config.descriptor:08x}"] if config.descriptor is not None else [])
                    words += ["v1"] * (config.formats == 1) + ["k11"] * config.is_appkey
                    folder = os.path.join(place, str(number))
                    os.mkdir(folder)
                    other = ByProcess(file_device, " ".join(words), folder, self.server.plan.group, lives)
                    self.devices[-1] = restarted.Device(self.devices[-1], other)

                @classmethod
                def end(cls, played):
                    for device in played.devices if played else ():
                        device.other.end()

            return World
        yield kind_of


@pytest.mark.parametrize("name", restarted.DATA)
def test_data(monkeypatch, kind_of, name):
    assert restarted.hold(monkeypatch, kind_of(None), *restarted.of_data(name))


@pytest.mark.parametrize("seed", range(restarted.SEEDS))
def test_seeds(monkeypatch, kind_of, seed):
    assert restarted.hold(monkeypatch, kind_of(None if seed < WHOLE else seed), *restarted.of_seed(seed))
