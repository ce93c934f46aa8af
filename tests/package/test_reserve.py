"""Coded fragments in reserve: they go out in rounds, as many as the devices' answers ask for, and no more."""
import itertools
import json
import math
import random
import re
import signal
from fractions import Fraction

import pytest

import fuota
from fuota import theory
from fuota.campaign import command, progress, reckoning
from fuota.campaign.plan import read_plan
from lives import BY_UNICAST, EUIS, PLAN, VERSION, Played, child_life, image_file, laid_out, process_life

OPENS = 1_935_871_200_000
# 6 pieces without a coded one that is planned, and so many in reserve.
RESERVE = PLAN.replace("coded = 20", "coded = 0\nreserve = 30")
ALONE = BY_UNICAST.replace("coded = 20", "coded = 0\nreserve = 30")


# ---- Plans


@pytest.mark.parametrize("old, new, message", [
    ("coded = 20", "coded = 20\nreserve = 513", "fragments.reserve: 513 is not from 0 to 512"),
    ("coded = 20", "coded = 500\nreserve = 13", "fragments.reserve: 500 coded fragments and 13 in reserve, and not at most 512 together"),
    ("coded = 20", "coded = 20\nreserve = 37", "group.end: 26 fragments, 37 in reserve and requests for the status need the frame counts "
                                               "from 100 to 200, and 200 ends before"),
    ("coded = 20", "coded = 20\nreserve = 36", None)])
def test_plans(call, tmp_path, old, new, message):
    laid_out(tmp_path, PLAN.replace(old, new))
    done = call("fuota-campaign", "check", "plan.toml")
    assert (done.status, done.message) == ((2, f"fuota-campaign: plan.toml: {message}\n") if message else (0, ""))


def test_check(call, tmp_path):
    """What of it the window has room for: 1,020 s without the guards, less those of the fragments and 18 s of the answers."""
    laid_out(tmp_path, PLAN.replace("coded = 20", "coded = 20\nreserve = 36"))
    line, = [line for line in call("fuota-campaign", "check", "plan.toml").said.splitlines() if line.startswith("reserve")]
    assert line == "reserve: 36 coded fragments more, as far as devices ask for them; the window has room for 36 of them"
    laid_out(tmp_path, PLAN.replace("coded = 20", "coded = 20\nreserve = 36").replace("timeout = 10", "timeout = 7"))
    plan = read_plan(tmp_path / "plan.toml")
    room = math.floor((128_000 - 4_000 - plan.need - 18_000 - plan.fragment_air) / plan.distance(plan.fragment_air)) + 1
    line, = [line for line in reckoning.lines_of(plan, 0) if line.startswith("reserve")]
    assert line.endswith(f"; the window has room for {room} of them") and 0 < room < 36
    laid_out(tmp_path, ALONE)
    assert "\nreserve: 30 coded fragments more, as far as devices ask for them\n" in call("fuota-campaign", "check", "plan.toml").said


@pytest.mark.parametrize("missing, loss", [(1, 0), (1, 0.25), (2, 0.5), (3, 0.125)])
def test_enough(missing, loss):
    """By the share of all matrices and all losses: the first count at which it is enough."""
    def independent(rows):
        basis = {}
        for row in rows:
            while row and row.bit_length() in basis:
                row ^= basis[row.bit_length()]
            if row:
                basis[row.bit_length()] = row
        return len(basis) == missing

    full = [Fraction(sum(map(independent, itertools.product(range(2 ** missing), repeat=heard))), 2 ** (missing * heard)) for heard in range(6)]
    lost = Fraction(loss)
    shares = [sum(math.comb(count, heard) * (1 - lost) ** heard * lost ** (count - heard) * full[heard] for heard in range(count + 1))
              for count in range(6)]
    for share in (0.2, 0.3, 0.4, 0.5):
        first = next((count for count, chance in enumerate(shares) if chance >= share), None)
        assert first is None or theory.enough_coded(missing, loss, share) == first
    assert shares[-1] > 0.2


# ---- Campaigns


class Losing(Played):
    """A campaign of which a device loses the fragments of some frame counts, or by unicast of some numbers."""

    def __init__(self, folder, library, lost, seed=3, loss=0.0, who=EUIS[:1]):
        super().__init__(folder, library, seed, loss)
        bring = self.fleet.bring

        def unless_lost(t, device, port, payload, count=None):
            number = int.from_bytes(payload[1:3], "little") & 0x3FFF if port == 201 and payload[0] == 8 else 0
            if device.eui not in who or number not in lost:
                bring(t, device, port, payload, count)

        self.fleet.bring = unless_lost

    def lines(self):
        return [json.loads(line) for line in (self.folder / "state" / "journal").read_text().splitlines()]

    def rounds(self):
        return [(line["worst"], line["until"]) for line in self.lines() if "until" in line]

    @property
    def fragments(self):
        return [number & 0x3FFF for number, _ in self.numbers]


@pytest.fixture
def begun(place, library):
    return lambda text, lost, **more: Losing(laid_out(place / "campaign", text), fuota.Library(library), lost, **more)


def is_well(played, status):
    fault = played.fault(status)
    assert fault is None, fault


def test_nothing_is_missing(begun, library):
    """No fragment of the reserve goes out, and all devices are asked at once no more often than before without one."""
    played = begun(RESERVE, [])
    is_well(played, child_life(played, library)[0])
    assert played.rounds() == [] and played.fragments == [1, 2, 3, 4, 5, 6]


@pytest.mark.parametrize("text", [RESERVE, ALONE], ids=["group", "by unicast"])
def test_one_misses_some(begun, library, call, text):
    """A round of as many as it needs at the plan's loss, and by unicast to it alone."""
    played = begun(text, [2, 5])
    is_well(played, child_life(played, library)[0])
    enough = theory.enough_coded(2, 0.1, 0.9)
    assert played.rounds()[0] == (2, 6 + enough) and played.fragments[-1] == played.rounds()[-1][1] < 36
    if text is ALONE:
        assert {device for number, device in played.numbers if number & 0x3FFF > 6} == {EUIS[0]}
    done = call("fuota-campaign", "status", "state", folder=played.folder)
    count = len(played.rounds())
    used = played.fragments[-1] - 6
    assert f"fragments 6 of 6, reserve {used} of 30 in {count} round{'s' * (count > 1)}" in done.said
    told = json.loads(call("fuota-campaign", "status", "state", "--json", folder=played.folder).said)
    assert (told["fragments"], told["reserve"], told["rounds"], told["fragments_sent"]) == (6, 30, count, 6 + used)


def test_in_rounds(begun, library):
    """What of a round is lost is asked for in the next one."""
    played = begun(RESERVE, [2, 5, 7, 8, 9, 10, 11, 12, 13, 14])
    is_well(played, child_life(played, library)[0])
    worsts = [worst for worst, _ in played.rounds()]
    assert len(worsts) > 1 and worsts[:2] == [2, 2]
    statuses = [line["t"] for line in played.lines() if line.get("sent") == "status"]
    assert all(OPENS < t < OPENS + 1_022_000 for t in statuses)


def test_beyond_help(begun, library, call):
    """For a device that misses more than the reserve can bring nothing goes out, and it is given up."""
    played = begun(PLAN.replace("coded = 20", "coded = 0\nreserve = 2"), [1, 2, 3, 4, 5, 6])
    status, _ = child_life(played, library)
    assert status == 3 and played.rounds() == [] and played.fragments == [1, 2, 3, 4, 5, 6]
    words = [contact.word for contact in progress.Kept(played.folder / "state").contacts]
    assert words == ["incomplete", "updated", "updated"]


def test_beside_one_beyond_help(begun, library):
    """A round is for the worst of those that can be helped."""
    played = begun(PLAN.replace("coded = 20", "coded = 0\nreserve = 5"), [1, 2, 3, 4, 5, 6])
    bring = played.fleet.bring
    played.fleet.bring = lambda t, device, port, payload, count=None: (
        None if device.eui == EUIS[1] and port == 201 and payload[:1] == b"\x08" and payload[1] == 3 else bring(t, device, port, payload, count))
    status, _ = child_life(played, library)
    assert status == 3 and {worst for worst, _ in played.rounds()} == {1}
    assert [contact.word for contact in progress.Kept(played.folder / "state").contacts] == ["incomplete", "updated", "updated"]


def test_all_of_it_is_used(begun, library):
    """Once it is used up, all devices are asked once more, and one that still misses something is given up."""
    played = begun(PLAN.replace("coded = 20", "coded = 0\nreserve = 12"), range(2, 19))
    status, _ = child_life(played, library)
    assert status == 3 and played.fragments == [*range(1, 7)] + [*range(7, 7 + len(played.fragments) - 6)]
    assert played.counts == sorted(set(played.counts)) and played.counts[-1] <= 100 + 6 + 2 * 12


def test_a_window_that_ends(begun, library):
    """A round that the rest of the window has no room for is as long as there is room, and nothing goes out beside the window."""
    text = RESERVE.replace("timeout = 10", "timeout = 6").replace("distance = 1\n", "distance = 4\n")
    played = begun(text, [2, 5])
    status, _ = child_life(played, library)
    at = [line["t"] for line in played.lines() if "count" in line]
    assert status in (0, 3) and at[-1] < OPENS + 62_000
    plan = read_plan(played.folder / "plan.toml")
    assert all(until <= 6 + theory.fragments_within(64_000 - 4_000 - plan.need, plan.distance(plan.fragment_air), plan.fragment_air)
               for _, until in played.rounds())


def test_answers_are_lost(begun, library):
    """With losses each way rounds go on until all are complete."""
    for seed in range(6):
        played = begun(RESERVE.replace("end = 200", "end = 400"), [], seed=seed, loss=0.25)
        status, _ = child_life(played, library)
        assert played.counts == sorted(set(played.counts)) and played.numbers == sorted(set(played.numbers))
        assert status == 0, progress.Kept(played.folder / "state").text()
        for one in (played.folder / "state").iterdir():
            one.unlink()
        (played.folder / "state").rmdir()


def test_the_line(begun, library):
    played = begun(RESERVE, [2, 5])
    status, said = process_life(played, library)
    assert status == 0 and re.search(r": updated 3; fragments 6 of 6, reserve \d+ of 30\n$", said)


# ---- Kills


@pytest.mark.parametrize("text", [RESERVE, ALONE], ids=["group", "by unicast"])
def test_killed_at_each_step_of_the_rounds(place, library, text):
    """Killed once after each step from the first status on: no frame count and no fragment goes out twice, and all are updated."""
    loaded, lost = fuota.Library(library), [2, 5, 7, 8, 9]
    plain = Losing(laid_out(place / "plain", text), loaded, lost)
    is_well(plain, child_life(plain, library)[0])
    first = next(number for number, line in enumerate(plain.lines()) if "until" in line)
    assert len(plain.rounds()) > 0
    kills = 0
    for step in range(2 * first, 6 * len(plain.lines()), 2):
        played = Losing(laid_out(place / f"killed{step}", text), loaded, lost)
        status, steps = child_life(played, library, step)
        if status != -signal.SIGKILL:
            break
        kills += 1
        is_well(played, child_life(played, library)[0])
        assert played.fragments == sorted(played.fragments) and played.rounds()
    assert kills >= 25


@pytest.mark.parametrize("seed", range(3))
def test_killed_often(place, library, seed):
    """Killed again and again, with losses: the rounds go on, and what was lost by kills is made good by the reserve."""
    draw, loaded = random.Random(f"reserve {seed}"), fuota.Library(library)
    for number in range(4):
        text = RESERVE.replace("end = 200", "end = 400").replace("reserve = 30", "reserve = 90")
        played = Losing(laid_out(place / f"often{number}", text), loaded, [2, 5], 10 * seed + number, 0.1)
        status, lives = -signal.SIGKILL, 0
        while status == -signal.SIGKILL:
            status, _ = child_life(played, library, draw.randint(8, 40))
            lives += 1
        assert lives > 3 and played.counts == sorted(set(played.counts)) and played.numbers == sorted(set(played.numbers))
        assert status == 0, progress.Kept(played.folder / "state").text()


# ---- As a user


@pytest.mark.parametrize("reserve, least", [(0, 0.4), (60, 0.95)])
def test_rehearsals_of_many(call, place, library, reserve, least):
    """64 devices of the shipped plan, of which a fifth of all payloads is lost each way, without a reserve and with one."""
    folder = place / "shipped"
    folder.mkdir()
    (folder / "image").write_bytes(image_file(bytes(k * k % 251 for k in range(4_893)), VERSION))
    text = command.plan_text().split("\n[[devices]]")[0].replace("reserve = 0 ", f"reserve = {reserve} ")
    devices = "".join(f'\n[[devices]]\neui = "{0x0102030405060700 + number:016x}"\ngen_app_key = "{number + 1:032x}"\n'
                      f'class = "{"AAAC"[number % 4]}"\n' for number in range(64))
    (folder / "plan.toml").write_text(text + devices)
    call("fuota-campaign", "rehearse", "plan.toml", "state", "--loss", 20, "--library", library, folder=folder)
    words = [contact.word for contact in progress.Kept(folder / "state").contacts]
    share = words.count("updated") / 64
    assert share >= least if reserve else least <= share < 0.8, words
