"""The command over --pipe in simulated time, in lives that end when they are killed, and what it may not do over all of them."""
import contextlib
import json
import mmap
import os
import re
import resource
import signal
import subprocess
import sys

import fuota
from fuota import image
from fuota.campaign import command, journal, pipe, progress
from fuota.campaign.folder import restored
from fuota.campaign.plan import read_plan
from fuota.campaign.rehearsal import Fleet
from fuota.errors import Wrong

TOOL = [sys.executable, "-m", "fuota.campaign"]
EUIS = [f"010203040506070{last}" for last in (8, 9, "a")]
VERSION = 7
PLAN = """
image = "image"
[fragments]
size = 25
coded = 20
index = 1
[group]
id = 2
address = "01020304"
key = "000102030405060708090a0b0c0d0e0f"
first = 100
end = 200
[window]
class = "C"
start = 2031-05-06T22:00:00Z
timeout = 10
frequency = 869525000
data_rate = 3
[pace]
distance = 1
duty_cycle = 10
unicast_data_rate = 3
[retry]
distance = 60
tries = 30
"""
BY_UNICAST = re.sub(r"\[group\].*(?=\[pace\])", "", PLAN, flags=re.S)


def devices_of(classes):
    """The devices of a plan, one for each of these classes; the second one is of LoRaWAN 1.1."""
    return "".join(f'[[devices]]\neui = "{eui}"\n{"app_key" if eui == EUIS[1] else "gen_app_key"} = "{eui}{eui}"\n'
                   f'class = "{kind}"\nid = "meter-{eui[-1]}"\n' for eui, kind in zip(EUIS, classes))


DEVICES = devices_of("ACA")
# When a simulated campaign begins, in ms of Unix time: so many s before its window.
BEGIN = 1_935_871_200_000 - 1_000_000


def image_file(body, version=VERSION):
    """The bytes of an image file for hardware 1."""
    return image.make(body, 1, 1, version).data


IMAGE = image_file(bytes(k * k % 251 for k in range(100)))


def laid_out(folder, text=PLAN, devices=DEVICES):
    """A folder with a plan and its image."""
    folder.mkdir(exist_ok=True)
    (folder / "image").write_bytes(IMAGE)
    (folder / "plan.toml").write_text(text + devices)
    (folder / "plan.toml").chmod(0o600)
    return folder


class Ended(Exception):
    """The command ended, or was killed, while a line was written to it."""


def settled(saved):
    """A saved server without what devices told last of their sessions, which hangs on what was lost."""
    return saved[:12 + 2 * saved[11]]


class Played:
    """A campaign in simulated time: devices, and what the tool sent them over all its lives."""

    def __init__(self, folder, library, seed, loss=0.1):
        self.folder, self.t, self.pending, self.library = folder, BEGIN, [], library
        self.fleet = Fleet(read_plan(folder / "plan.toml"), library, BEGIN, 60_000, loss, seed)
        self.counts, self.numbers, self.faults, self.sent, self.updated, self.kills = [], [], [], 0, set(), 0

    def life(self, process):
        """Plays with a process until it ends."""
        with contextlib.suppress(FileNotFoundError, fuota.Error, Wrong):
            self.updated = {eui for eui, stage in zip(EUIS, self.kept()[1]) if stage == "updated"}
        try:
            for line in process.output:
                self.take(json.loads(line), process)
        except Ended:
            pass
        self.pending = []
        status = process.end()
        self.kills += status == -signal.SIGKILL
        return status

    def kept(self):
        """How many fragments were taken from the server that is kept, and the stage of each device."""
        plan, saved = read_plan(self.folder / "plan.toml"), (self.folder / "state" / "state").read_bytes()
        with restored(plan, saved, self.library)[0] as server:
            return server.fragment_number() - 1, [server.ledger(dev).word for dev in range(1, len(plan.devices) + 1)]

    def take(self, told, process):
        if "wait" in told:
            process.write(self.next_line(told["wait"]))
            return
        self.sent += 1
        payload = bytes.fromhex(told["payload"])
        if told["port"] == 201 and payload[0] == 8:
            self.numbers.append((int.from_bytes(payload[1:3], "little"), told.get("device", "")))
        if "group" in told:
            self.counts.append(told["count"])
            self.fleet.to_group(self.t, told["count"], told["port"], payload)
            return
        if told["device"] in self.updated and told["port"] != 202:
            self.faults.append(f"{told['device']} is updated, and is sent {told}")
        self.fleet.to_device(self.t, told["device"], told["port"], payload)

    def next_line(self, until):
        """What the tool reads next: an uplink, or the time."""
        if not self.pending:
            self.t = max(self.t, min(until, self.fleet.next_moment))
            self.pending = self.fleet.advance(self.t)
        if not self.pending:
            return {"time": self.t}
        uplink = self.pending.pop(0)
        return {"device": uplink.eui, "port": uplink.port, "payload": uplink.payload.hex(), "time": self.t}

    def hold_pace(self, line, before):
        """Whether a payload went out too early, or beside the window; `before` has when and how long those before it did."""
        way = "count" in line
        if "air" not in line:
            return
        last = before.get(way, (0, 0))
        if line["t"] < max(last[0] + 10 * last[1] - 10, max([0, *(t + 1000 for t, _ in before.values())])):
            self.faults.append(f"too early: {line}")
        if way and not 1_935_871_202_000 <= line["t"] < 1_935_871_200_000 + 1_024_000 - 2_000:
            self.faults.append(f"beside the window: {line}")
        before[way] = line["t"], line["air"]

    def fault(self, status, final=None):
        """What is wrong once the last life ended with this status; `final` is the state that it has to end with."""
        kept = (self.folder / "state" / "state").read_bytes()
        lines = [json.loads(line) for line in (self.folder / "state" / "journal").read_text().splitlines()]
        updated, asked, before = set(), {}, {}
        for line in lines:
            self.hold_pace(line, before)
            if line.get("stage") == "updated":
                updated.add(line["device"])
            if line.get("sent") == "request":
                if line["device"] in updated:
                    self.faults.append(f"{line['device']} is asked again")
                request = line["device"], line["stage"]
                if line["t"] < asked.get(request, 0) + 60_000:
                    self.faults.append(f"{request} is asked too early")
                asked[request] = line["t"]
        history = progress.Kept(self.folder / "state").history
        told = history.number, [contact.stage for contact in history.contacts.values()]
        if told != self.kept():
            self.faults.append(f"the journal tells {told} in place of {self.kept()}")
        if status != 0:
            self.faults.append(f"status {status}")
        if set(self.fleet.running()) != {VERSION}:
            self.faults.append(f"{self.fleet.running()} run")
        elif any(device.device.firmware(False) != IMAGE for device in self.fleet.devices.values()):
            self.faults.append("another image runs")
        if self.counts != sorted(set(self.counts)) or self.counts and not 100 <= self.counts[0] <= self.counts[-1] < 200:
            self.faults.append(f"counts {self.counts}")
        if self.numbers != sorted(set(self.numbers)):
            self.faults.append(f"fragments {self.numbers}")
        # (a kill between what is noted and what goes out loses that)
        if not self.counts and len(self.numbers) < history.fragments * len(history.contacts) - self.kills:
            self.faults.append(f"{len(self.numbers)} copies after {self.kills} kills")
        if final is not None and settled(kept) != settled(final):
            self.faults.append(f"state {kept.hex()} in place of {final.hex()}")
        return "; ".join(self.faults[:3]) or None


class Child:
    """The tool in a forked child, which is much quicker to begin than a process of its own. It kills itself after so
    many steps; `steps` are those that it made."""

    def __init__(self, words_of, last_step=None):
        (self.read_in, write_in), (read_out, self.write_out) = os.pipe(), os.pipe()
        self.shared = mmap.mmap(-1, 8)
        self.pid = os.fork()
        if self.pid == 0:
            os.close(write_in), os.close(read_out)
            self.be_the_tool(words_of, last_step)
        os.close(self.read_in), os.close(self.write_out)
        self.input, self.output = os.fdopen(write_in, "w"), os.fdopen(read_out)

    @property
    def steps(self):
        return int.from_bytes(self.shared[:8], "little")

    def be_the_tool(self, words_of, last_step):
        status = 70
        try:
            os.dup2(self.read_in, 0), os.dup2(self.write_out, 1)
            os.close(self.read_in), os.close(self.write_out)
            sys.stdout, sys.stderr = os.fdopen(1, "w"), open(os.devnull, "w")
            self.count_steps(last_step)
            status = command.main(words_of)
            sys.stdout.flush()
        finally:
            os._exit(status)

    def count_steps(self, last_step):
        def step():
            self.shared[:8] = (self.steps + 1).to_bytes(8, "little")
            if self.steps == last_step:
                os.kill(os.getpid(), signal.SIGKILL)

        def before(call):
            return lambda *words, **more: (step(), call(*words, **more))[1]

        def behind(call):
            return lambda *words, **more: (call(*words, **more), step())[0]

        # (a kill loses nothing that was written, so that the disk need not be waited for)
        os.fsync = lambda handle: None
        os.replace = before(behind(os.replace))
        journal.Journal.write = behind(journal.Journal.write)
        for name in ("to_device", "to_group"):
            setattr(pipe.Pipe, name, behind(getattr(pipe.Pipe, name)))

    def write(self, members):
        try:
            self.input.write(json.dumps(members) + "\n")
            self.input.flush()
        except BrokenPipeError:
            raise Ended() from None

    def end(self):
        with contextlib.suppress(BrokenPipeError):
            self.input.close()
        self.output.close()
        return os.waitstatus_to_exitcode(os.waitpid(self.pid, 0)[1])


class Process:
    """The command as it is called."""

    def __init__(self, folder, library, *more, limit=None):
        def limited():
            if limit is not None:
                resource.setrlimit(resource.RLIMIT_FSIZE, (limit, limit))

        words = [*TOOL, "run", "plan.toml", "state", "--library", library, *more]
        self.process = subprocess.Popen(words, cwd=folder, stdin=subprocess.PIPE, stdout=subprocess.PIPE,
                                        stderr=subprocess.PIPE, text=True, preexec_fn=limited)
        self.output, self.said = self.process.stdout, None

    def write(self, members):
        try:
            self.process.stdin.write((members if isinstance(members, str) else json.dumps(members)) + "\n")
            self.process.stdin.flush()
        except BrokenPipeError:
            raise Ended() from None

    def end(self):
        with contextlib.suppress(BrokenPipeError):
            self.process.stdin.close()
        self.said = self.process.stderr.read()
        status = self.process.wait(30)
        self.output.close(), self.process.stderr.close()
        return status


def tool_words(folder, library):
    return ["run", str(folder / "plan.toml"), str(folder / "state"), "--pipe", "--simulated", "--library", str(library)]


def child_life(played, library, last_step=None):
    """A life of the tool in a child: its status and its steps."""
    child = Child(tool_words(played.folder, library), last_step)
    return played.life(child), child.steps


def process_life(played, library, *more, limit=None):
    """A life of the tool as a process: its status and what it said on standard error."""
    process = Process(played.folder, library, "--pipe", "--simulated", *more, limit=limit)
    return played.life(process), process.said
