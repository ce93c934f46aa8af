"""Campaigns that the program fuota plays: what is lost is drawn, a script is written, and its report is read."""
import pathlib
import random
import re
import subprocess
from collections.abc import Iterator
from dataclasses import dataclass

from ..errors import Failed
from ..image import Image
from ..limits import MAX_DEVICES, MAX_LINES
from ..theory import Chain


@dataclass(frozen=True)
class Plan:
    """What is sent to whom: an image for a hardware version, in pieces, with coded fragments after them."""

    image: Image
    size: int
    coded: int
    rows: int

    @property
    def pieces(self) -> int:
        return -(-len(self.image.data) // self.size)

    @property
    def fragments(self) -> int:
        return self.pieces + self.coded


@dataclass(frozen=True)
class Session:
    """How the session of a device went: which fragments were lost, the state at the end, and the line and the fragment that
    completed it, or None."""

    lost: list[bool]
    state: str
    line: int | None
    fragment: int | None

    def lost_pieces(self, plan: Plan) -> int:
        return sum(self.lost[:plan.pieces])

    def coded_sent(self, plan: Plan) -> int | None:
        """How many coded fragments were sent when it was complete; None where it never is."""
        return None if self.fragment is None else max(0, self.fragment - plan.pieces)

    def beyond(self, plan: Plan) -> int:
        """How many coded fragments it heard until it was complete, beyond the pieces that it lost."""
        return self.lost[plan.pieces:self.fragment].count(False) - self.lost_pieces(plan)


# Losses


def draw_losses(chain: Chain, count: int, source: random.Random) -> list[bool]:
    """For each of so many fragments whether it is lost."""
    lost: list[bool] = []
    chance = chain.first
    for _ in range(count):
        lost.append(source.random() < chance)
        chance = chain.after_lost if lost[-1] else chain.after_heard
    return lost


# Scripts


def lines_for(lost: list[bool]) -> int:
    """The lines that a script has for a device with these losses: its own, three for each of three requests, the fragments."""
    return 10 + lost.count(False)


def parted(plan: Plan, losses: list[list[bool]]) -> list[list[list[bool]]]:
    """The losses of all devices in the parts that one script has room for."""
    most = MAX_LINES - 3 - plan.fragments
    parts: list[list[list[bool]]] = []
    room = 0
    for lost in losses:
        if not parts or len(parts[-1]) == MAX_DEVICES or lines_for(lost) > room:
            parts.append([])
            room = most
        parts[-1].append(lost)
        room -= lines_for(lost)
    return parts


def asked(devices: int, payloads: int, uplinks: int) -> Iterator[str]:
    """The lines that ask each device and bring up its answer, with so many payloads and uplinks before."""
    for device in range(1, devices + 1):
        yield from (f"ask {device}", f"down {payloads + device} {device}", f"up {uplinks + device}")


def sent(plan: Plan, part: list[list[bool]]) -> Iterator[tuple[str, int | None]]:
    """The lines that send all fragments, with each the fragment that it brings to a device, or None."""
    setups = 2 * len(part)
    for fragment in range(plan.fragments):
        yield "frag", None
        for device, lost in enumerate(part, 1):
            if not lost[fragment]:
                yield f"down {setups + fragment + 1} {device}", fragment + 1


def script_of(plan: Plan, part: list[list[bool]]) -> tuple[list[str], list[int | None]]:
    """The lines of a script for devices with these losses, and for each line the fragment that it brings, or None."""
    devices = len(part)
    lines = ["fuota 1", f"image {plan.size} {plan.coded}"]
    lines += [f"device {device} c {plan.image.lowest} {plan.rows} 0 {'0' * 32}" for device in range(1, devices + 1)]
    lines += [*asked(devices, 0, 0), *asked(devices, devices, devices)]
    brought: list[int | None] = [None] * len(lines)
    for line, fragment in sent(plan, part):
        lines.append(line)
        brought.append(fragment)
    lines += [*asked(devices, 2 * devices + plan.fragments, 2 * devices), "end"]
    return lines, brought


# Runs of the program


SESSION = re.compile(r"session 0 received (\d+) missing (\d+) (?:(receiving)|(norows) at \d+|(complete) at (\d+) same)")


def session_of(line: str, lost: list[bool], brought: list[int | None]) -> Session:
    """The session that a line of the report tells of, with these losses."""
    told = SESSION.fullmatch(line)
    if told is None or int(told[1]) != lost.count(False):
        raise Failed(f"a session that heard {lost.count(False)} fragments is reported as {line!r}")
    state = told[3] or told[4] or told[5]
    if state != "complete":
        return Session(lost, state, None, None)
    at = int(told[6])
    return Session(lost, state, at, brought[at - 1])


def played(program: pathlib.Path, folder: pathlib.Path, name: str, plan: Plan, part: list[list[bool]]) -> list[Session]:
    """The sessions of a script, which is written under this name and played."""
    lines, brought = script_of(plan, part)
    (folder / name).write_text("".join(line + "\n" for line in lines))
    command = [str(program), "campaign", str(folder / "image"), str(folder / name)]
    done = subprocess.run(command, capture_output=True, timeout=600, check=False)
    report = done.stdout.decode(errors="replace").splitlines()
    if done.returncode != 0 or report[-1:] != ["end"]:
        raise Failed(f"{name} has status {done.returncode}: {' '.join(report[:1])}")
    told = [line for line in report if line.startswith("session ")]
    if len(told) != len(part):
        raise Failed(f"{name} reports {len(told)} sessions of {len(part)} devices")
    return [session_of(line, lost, brought) for line, lost in zip(told, part)]


def play(program: pathlib.Path, folder: pathlib.Path, plan: Plan, parts: list[list[list[bool]]]) -> list[list[Session]]:
    """The sessions of all devices, by scripts, from the image and the scripts that it writes to a folder."""
    (folder / "image").write_bytes(plan.image.data)
    return [played(program, folder, f"script{number}", plan, part) for number, part in enumerate(parts, 1)]
