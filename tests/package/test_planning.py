"""Campaigns of fuota-plan, held against the program fuota, and its theory against other counts.

The scripts of each campaign are played again: they must be accepted and within their limits, and the sums and shares that are
worked out here from reports and scripts alone must be those that the command printed. Its theory is held against values worked
out by hand, against all matrices of a few sizes, and against all ways in which a few fragments are lost. The same words must
give the same bytes, wrong words must be refused, and the pictures of docs/ must be what the commands of docs/PLANNING.md write.
"""
import itertools
import math
import random
import re
import subprocess
from xml.etree import ElementTree

import pytest

from common import TOP
from fuota import image, regions, theory
from fuota.planning import played

MAX_LINES = 20_000
MAX_DEVICES = 64
MAX_SCRIPT = 1_048_576
STAGES = {"complete": "image", "receiving": "status", "norows": "refused"}


def near(wanted, within=1e-12):
    return pytest.approx(wanted, abs=within, rel=0)


@pytest.fixture
def plan(call, program):
    """Runs the command with the program that is tried."""
    return lambda *words: call("fuota-plan", "--program", program, *words)


# Theory


@pytest.mark.parametrize("columns, rows, wanted", [
    (0, 0, 1), (0, 5, 1), (1, 0, 0), (1, 1, 1 / 2), (1, 2, 3 / 4), (2, 1, 0), (2, 2, 3 / 8), (2, 3, 21 / 32), (2, 4, 105 / 128),
    (3, 3, 21 / 64), (1, 10, 1023 / 1024), (200, 200, 0.2887880950866), (200, 201, 0.5775761901732)])
def test_ranks_by_hand(columns, rows, wanted):
    assert theory.rank_share(columns, rows) == near(wanted)


@pytest.mark.parametrize("columns, wanted", [(0, 0), (1, 1), (2, 4 / 3), (3, 31 / 21), (200, 1.606695152415)])
def test_rows_beyond_by_hand(columns, wanted):
    assert theory.mean_beyond(columns) == near(wanted)


def test_shares_by_hand():
    assert theory.chain_of(0.5, 4.0) == theory.Chain(0.5, 0.75, 0.25)
    assert theory.chain_of(0.25, None) == theory.Chain(0.25, 0.25, 0.25)
    chain = theory.chain_of(0.25, None)
    assert theory.complete_shares(chain, 1, 2, 1) == near([3 / 4, 27 / 32, 231 / 256])
    assert theory.complete_shares(chain, 2, 1, 1)[1] == near(45 / 64)
    assert theory.complete_shares(chain, 2, 3, 0) == [9 / 16] * 4


# 12.25 symbols of preamble, 8 of the header, and 5 for each block; a symbol takes 1.024 ms at SF7 and 32.768 at SF12
@pytest.mark.parametrize("rate, length, symbols, one", [(5, 20, 50.25, 1.024), (0, 51, 70.25, 32.768), (0, 64, 85.25, 32.768),
                                                        (1, 13, 35.25, 16.384), (6, 20, 50.25, 0.512)])
def test_air_time(rate, length, symbols, one):
    assert theory.air_time(regions.REGIONS["EU868"].rates[rate], length) == near(symbols * one, 1e-9)


@pytest.mark.parametrize("fits, ms", [(0, 9), (1, 10), (1, 109), (2, 110), (2, 209), (3, 210)])
def test_fragments_within(fits, ms):
    assert theory.fragments_within(ms, 100, 10) == fits


@pytest.mark.parametrize("ms, words", [(59, "0.059 s"), (9_994, "9.99 s"), (10_000, "10 s"), (61_000, "1 min 1 s"), (3_600_000, "1 h"),
                                       (25_810_000, "7 h 10 min"), (1_024_000, "17 min 4 s"), (180_000_000, "2 d 2 h")])
def test_durations(ms, words):
    assert theory.duration(ms) == words


def test_air_table(plan):
    # 36 fragments of 64 bytes on the air, 2.793472 s each; 128 bytes take 165.25 symbols of 4.096 ms
    wanted = ["        0              48     2.79 s       129   16 min 21 s        10"]
    assert plan("--air", "10", "--pieces", "20", "--coded", "16").said.splitlines()[2:3] == wanted
    rows = plan("--air", "1", "--pieces", "3", "--size", "112", "--coded", "0").said.splitlines()
    assert rows[4:6] == ["        2              48          -", "        3             112    0.677 s        54    2 min 16 s         8"]


@pytest.mark.parametrize("loss, burst, rows, share", [(0.3, None, 2, 0.9), (0.3, 3.0, 2, 0.8), (0.1, None, 0, 0.5), (0.5, 4.0, 3, 0.99)])
def test_pieces_that_rows_bear(loss, burst, rows, share):
    """By all ways in which few pieces are lost."""
    chain, most = theory.chain_of(loss, burst), 0
    for pieces in range(1, 12):
        kept = math.fsum(chance_of(chain, lost) for lost in itertools.product((False, True), repeat=pieces) if sum(lost) <= rows)
        if kept < share:
            break
        most = pieces
    assert theory.most_pieces(chain, rows, share, 11) == most


def test_table_of_planning():
    row = r"^\| (\d+) % \| ([\d,]+) \| ([\d,]+) \| ([\d,]+) \| ([\d,]+) \|$"
    table = re.findall(row, (TOP / "docs" / "PLANNING.md").read_text(), re.M)
    assert [row[0] for row in table] == ["5", "10", "20", "30", "50"]
    for loss, *told in table:
        pieces = theory.most_pieces(theory.chain_of(int(loss) / 100, None), 256, 0.999)
        assert told == [f"{number:,}" for number in (pieces, *(min(pieces * size, 262_144) for size in (48, 112, 239)))]


def independent(rows):
    """How many of these rows are independent; a row is a number, and its bits the columns."""
    kept = []
    for row in rows:
        for other in kept:
            row = min(row, row ^ other)
        if row:
            kept.append(row)
    return len(kept)


@pytest.mark.parametrize("columns, rows", [(1, 3), (2, 2), (2, 5), (3, 3), (3, 4), (4, 4)])
def test_all_matrices(columns, rows):
    """The share of full ranks, by all matrices of a size."""
    full = sum(independent(matrix) == columns for matrix in itertools.product(range(2 ** columns), repeat=rows))
    assert theory.rank_share(columns, rows) == near(full / 2 ** (columns * rows))


def chance_of(chain, lost):
    """The probability that these fragments are lost, and no other."""
    chance, next_lost = 1.0, chain.first
    for is_lost in lost:
        chance *= next_lost if is_lost else 1 - next_lost
        next_lost = chain.after_lost if is_lost else chain.after_heard
    return chance


@pytest.mark.parametrize("loss, burst, rows", [(0.3, None, 256), (0.2, 3.0, 256), (0.4, 2.0, 2), (0.5, 1.0, 3), (0.0, None, 0)])
def test_all_losses(loss, burst, rows):
    """The curve, by all ways in which five pieces and four coded fragments are lost."""
    chain, shares = theory.chain_of(loss, burst), [0.0] * 5
    for lost in itertools.product((False, True), repeat=9):
        pieces = sum(lost[:5])
        for sent in range(5):
            solved = theory.rank_share(pieces, lost[5:5 + sent].count(False)) if pieces <= rows else 0
            shares[sent] += chance_of(chain, lost) * solved
    assert theory.complete_shares(chain, 5, 4, rows) == near(shares)


@pytest.mark.parametrize("loss, burst", [(0.2, None), (0.2, 8.0), (0.5, 1.5)])
def test_draws(loss, burst):
    """What is drawn is lost as often, and in bursts as long, as was asked for."""
    lost = played.draw_losses(theory.chain_of(loss, burst), 200_000, random.Random(7))
    bursts = [len(list(group)) for is_lost, group in itertools.groupby(lost) if is_lost]
    assert sum(lost) / len(lost) == near(loss, 0.01)
    wanted = burst or 1 / (1 - loss)
    assert sum(bursts) / len(bursts) == near(wanted, 0.03 * wanted)


# Campaigns


def read_script(lines):
    """How many fragments a script sends, and for each device those that it hears, by the lines that bring them."""
    devices = sum(line.startswith("device ") for line in lines)
    fragments = lines.count("frag")
    heard = [{} for _ in range(devices)]
    for number, line in enumerate(lines, 1):
        word, *numbers = line.split(" ")
        if word == "down" and 2 * devices < int(numbers[0]) <= 2 * devices + fragments:
            heard[int(numbers[1]) - 1][number] = int(numbers[0]) - 2 * devices
    return fragments, heard


def read_report(report):
    """The report's pieces, and of each device its stage, what it received, its state, and the line of completion or None."""
    pieces = int(re.search("^image [0-9]+ fragments ([0-9]+) ", report, re.M)[1])
    devices = re.findall(r"^device \d+ (\w+) .*\ncounts deaf 0 refused 0 full 0 dropped 0\n"
                         r"session 0 received (\d+) missing \d+ (\w+)(?: at (\d+))?(?: same)?$", report, re.M)
    return pieces, [(stage, int(received), state, int(line or 0)) for stage, received, state, line in devices]


class Device:
    """How a device of a script went: the fragments that it lost and heard, its state, and what it took to complete it."""

    def __init__(self, fragments, pieces, heard, told):
        _stage, self.received, self.state, line = told
        self.fragments = fragments
        self.lost = pieces - sum(fragment <= pieces for fragment in heard.values())
        self.sent = max(0, heard[line] - pieces) if self.state == "complete" else None
        self.coded = sum(pieces < fragment <= pieces + (self.sent or 0) for fragment in heard.values())


def devices_of(program, kept, script):
    """Plays a script again, and gives its devices."""
    text = (kept / script).read_text()
    lines = text.splitlines()
    fragments, heard = read_script(lines)
    assert len(lines) <= MAX_LINES and 1 <= len(heard) <= MAX_DEVICES and len(text) <= MAX_SCRIPT
    assert not any(line.startswith("raw") for line in lines)
    done = subprocess.run([program, "campaign", "image", script], cwd=kept, capture_output=True, timeout=120)
    assert done.returncode == 0
    pieces, told = read_report(done.stdout.decode())
    assert [received for _, received, _, _ in told] == [len(each) for each in heard]
    assert [stage for stage, *_ in told] == [STAGES[state] for _, _, state, _ in told]
    assert all(line in each for each, (_, _, state, line) in zip(heard, told) if state == "complete")
    return [Device(fragments, pieces, each, entry) for each, entry in zip(heard, told)]


def mean(numbers):
    """The mean as the command says it."""
    return f"{sum(numbers) / len(numbers):.2f}" if numbers else "-"


def sums(devices):
    """The lines of sums that the command has to say of these devices."""
    complete, receiving, norows = (
        sum(device.state == state for device in devices) for state in ("complete", "receiving", "norows"))
    mended = [device for device in devices if device.state == "complete" and device.lost > 0]
    beyond = mean([device.coded - device.lost for device in mended])
    by_theory = mean([sum(1 / (2 ** i - 1) for i in range(1, device.lost + 1)) for device in mended])
    lost = [device.lost for device in devices]
    yield f"heard {sum(device.received for device in devices)} of {sum(device.fragments for device in devices)}"
    yield f"pieces lost by a device: mean {mean(lost)}, most {max(lost)}"
    yield f"sessions complete {complete}, receiving {receiving}, norows {norows}"
    yield f"coded fragments heard beyond the pieces lost: mean {beyond}, theory {by_theory}"


def hold_sums(said, devices):
    """What the command said, against the sums over its scripts as they were played again."""
    lines = said.splitlines()
    assert int(re.match("devices ([0-9]+) ", said)[1]) == len(devices)
    start = 2 if lines[1].startswith("scripts") else 1
    assert lines[start:start + 4] == list(sums(devices))
    hold_remedy(said, devices)
    sent = [device.sent for device in devices if device.sent is not None]
    rows = re.findall("^ +([0-9]+) +([0-9.]+) % +[0-9.]+ %$", said, re.M)
    assert rows == [(row, f"{100 * sum(number <= int(row) for number in sent) / len(devices):.1f}") for row, _ in rows]
    for share, number in re.findall("^ +([0-9.]+) % +([0-9]+|-) +(?:[0-9]+|-)$", said, re.M):
        reached = [end for n, end in enumerate(sorted(sent), 1) if n >= float(share) / 100 * len(devices)]
        assert number == (str(reached[0]) if reached else "-")


def hold_remedy(said, devices):
    """What is said where rows are wanting: the pieces that were lost, and lengths of pieces that are the first to do."""
    found = re.findall(r"^norows: (\d+) rows are not enough for (\d+) lost pieces: take (.*)$", said, re.M)
    assert bool(found) == any(device.state == "norows" for device in devices)
    for rows, most, words in found:
        assert int(most) == max(device.lost for device in devices)
        ways = [f"{most} rows"] if int(most) <= 256 else []
        pieces, size = (int(number) for number in re.search(r"pieces (\d+) size (\d+) ", said).groups())
        # (the image has pieces * size bytes)
        longer = [one for one in range(1, 240) if -(-pieces * size // one) * int(most) <= pieces * int(rows)]
        ways += [f"pieces of {longer[0]} bytes"] if longer else []
        assert words == (", or ".join(ways) or "a shorter image")


@pytest.mark.parametrize("words, count", [
    ("--loss 20", 2),
    ("--loss 0 --coded 0 --devices 64 --pieces 4 --size 13", 1),
    ("--loss 0 --coded 0 --devices 65 --pieces 4 --size 13", 2),
    ("--loss 25 --burst 6 --devices 40 --pieces 100 --coded 60 --every 7 --seed 3", 1),
    ("--loss 20 --rows 12 --devices 50 --pieces 64 --coded 40 --size 239 --seed 9", 1),
    ("--loss 30 --rows 4 --devices 20 --pieces 60 --coded 40 --size 20", 1),
    ("--loss 50 --rows 0 --devices 9 --pieces 2 --size 25 --coded 5 --every 1", 1),
    ("--loss 99 --devices 5 --pieces 3 --rows 16 --coded 512 --every 512 --seed 18446744073709551615", 1),
    ("--loss 2.5 --devices 7 --pieces 4096 --size 64 --coded 140 --rows 110 --every 10", 3),
    ("--loss 10 --devices 30 --image ranged --size 10 --coded 20 --rows 20", 1)])
def test_campaigns(plan, program, tmp_path, words, count):
    """Campaigns, how many scripts they take, and their sums."""
    (tmp_path / "ranged").write_bytes(image.make(b"abc" * 100, 7, 9, 2).data)
    done = plan(*words.split(" "), "--scripts", "kept")
    assert (done.status, done.message) == (0, "")
    names = sorted(path.name for path in (tmp_path / "kept").iterdir())
    assert names == sorted(["image", *(f"script{n}" for n in range(1, count + 1))])
    several = f"scripts {count}: one has at most 64 devices and 20000 lines"
    assert (several in done.said.splitlines()) == (count > 1)
    hold_sums(done.said, [device for name in names if name != "image" for device in devices_of(program, tmp_path / "kept", name)])


@pytest.mark.parametrize("heard, lines, count", [(1525, 20_000, 1), (1526, 18_465, 2)])
def test_room(heard, lines, count):
    """Devices that fill a script to its last line, and those that would take one line more."""
    plan = played.Plan(image.Image(b"x" * 4096, 1, 1, 1), 1, 512, 256)
    full = [[False] * plan.fragments] * 3
    parts = played.parted(plan, [*full, [False] * heard + [True] * (plan.fragments - heard)])
    assert (len(parts), len(played.script_of(plan, parts[0])[0])) == (count, lines)


def test_seeds(plan, tmp_path):
    """The same words once more, and another seed."""
    def written(seed):
        words = ["--loss", "20", "--burst", "3", "--devices", "20", "--pieces", "40", "--coded", "30", "--seed", seed]
        said = plan(*words, "--curve", "curve", "--time", "time", "--scripts", "kept").said
        files = [tmp_path / "curve", tmp_path / "time", *sorted((tmp_path / "kept").iterdir())]
        return [said, *(path.read_bytes() for path in files)]

    first, second, other = (written(seed) for seed in ("5", "5", "6"))
    assert first == second
    assert [part == same for part, same in zip(first, other)] == [False, False, False, True, False]


# Words and faults


def refusals():
    """Words that ask for no campaign, with what the message says."""
    yield "--devices 3", "--loss"
    yield "--loss", "--loss"
    for word in ("100", "99.1", "-1", "x", "1e1", "20%", ".5", "1.", "nan", ""):
        yield f"--loss {word}", "--loss"
    yield "--loss 20 --burst 0.5", "a number from 1 to 4096"
    yield "--loss 90 --burst 2", "needs bursts of 9 or more"
    for name, lowest, highest in (("devices", 1, 10_000), ("size", 1, 239), ("pieces", 1, 4_096), ("coded", 0, 512),
                                  ("rows", 0, 256), ("seed", 0, 2**64 - 1), ("every", 1, 512)):
        for word in (lowest - 1, highest + 1, f"0{highest}", f"+{highest}", "1.0", "1_0", "\u0661", "9" * 5000):
            yield f"--loss 20 --{name} {word}", f"a decimal from {lowest} to {highest}"
    yield "--loss 20 --pieces 1", "an image has 49 to 262144 bytes, and not 48"
    yield "--loss 20 --pieces 4096 --size 65", "and not 266240"
    yield "--loss 20 --image body", "body: not an image file"
    yield "--loss 20 --image longer", "longer: not an image file"
    yield "--loss 20 --image longest --size 63", "4162 pieces of 63 bytes, of at most 4096"
    yield "--loss 20 --pieces 9 --image ranged", "not allowed with"
    yield "--los 20", "--loss"
    yield "--loss 20 more", "more"
    yield "--loss 20 --loops 3", "--loops"
    yield "", "--loss"


@pytest.mark.parametrize("words, wanted", list(refusals()))
def test_refusals(call, tmp_path, words, wanted):
    (tmp_path / "body").write_bytes(b"\0" * 262_096)
    (tmp_path / "longer").write_bytes(image.make(bytes(262_095), 1, 1, 1).data + b"\0")
    (tmp_path / "longest").write_bytes(image.make(bytes(262_095), 1, 1, 1).data)
    done = call("fuota-plan", *(words.split(" ") if words else []))
    assert (done.status, done.said) == (2, "")
    assert "fuota-plan: " in done.message and wanted in done.message


@pytest.mark.parametrize("words, wanted", [
    ("--curve absent/curve", "absent/curve: No such file or directory"), ("--time absent/time", "absent/time: No such file or directory"),
    ("--scripts absent/kept", "absent/kept: No such file or directory"), ("--program absent", "absent: No such file or directory"),
    ("--program liar", "is reported as 'session 0 received 9"), ("--program /bin/true", "script1 has status 0"),
    ("--image none", "none: No such file or directory"), ("--program refusing", "script1 has status 3: image refused")])
def test_faults(plan, tmp_path, words, wanted):
    """Files that cannot be read or written, and programs that are not fuota."""
    session = "session 0 received 9 missing 0 receiving"
    for name, script in (("liar", f"printf 'fuota report 1\\n{session}\\n{session}\\nend\\n'"), ("refusing", "echo image refused; exit 3")):
        (tmp_path / name).write_text(f"#!/bin/sh\n{script}\n")
        (tmp_path / name).chmod(0o755)
    pieces = [] if "--image" in words else ["--pieces", "4"]
    done = plan("--loss", "20", "--devices", "2", *pieces, "--size", "13", "--coded", "2", *words.split(" "))
    assert done.status == 1
    assert done.message.startswith("fuota-plan: ") and wanted in done.message


# Pictures


def test_pictures(plan, tmp_path):
    """The pictures in docs/, against those that the commands of docs/PLANNING.md write."""
    (tmp_path / "docs").mkdir()
    for line in (TOP / "docs" / "PLANNING.md").read_text().splitlines():
        if line.startswith("$ fuota-plan ") and ".svg" in line:
            assert plan(*line.split("|")[0].split()[2:]).status == 0
    kept = {path.name: path.read_bytes() for path in sorted((TOP / "docs").glob("planning_*.svg"))}
    made = {path.name: path.read_bytes() for path in sorted((tmp_path / "docs").iterdir())}
    assert list(made) == ["planning_curve.svg", "planning_time.svg"] and made == kept
    for data in made.values():
        texts = [element for element in ElementTree.fromstring(data).iter() if element.tag.endswith("}text")]
        assert len(data) < 16_384 and len(texts) > 10
