"""Campaigns of fuota-campaign against simulated devices, and its end at each of its steps.

The devices are the library's own, of class A and C, by multicast and by unicast; payloads are lost both ways. Over --pipe the
command is killed after each step of three campaigns: once a state is written, once it stands in its place, once a line of the
journal is written, once a payload went out. Begun again it has to end with every device updated, with frame counts and
fragments that rise, without a request to a device that is updated, and with the state of the campaign that was never killed.
Others are ended again and again. Broken states, foreign images, strange uplinks and full disks have to be refused, or to harm
nothing.
"""
import io
import json
import os
import pathlib
import random
import re
import shutil
import signal
import subprocess
import sys
import tempfile
import time
import types
from xml.etree import ElementTree

import pytest

import fuota
from fuota.campaign import carrier, heard, play, progress
from fuota.campaign.folder import Folder
from fuota.campaign.plan import read_plan
from lives import (BEGIN, BY_UNICAST, EUIS, IMAGE, PLAN, TOOL, Played, Process, child_life, devices_of, image_file, laid_out,
                   process_life)


@pytest.fixture
def begun(place, library):
    """Begins a campaign in a folder, of a seed."""
    return lambda seed, text=PLAN, loss=0.1: Played(laid_out(place / "campaign", text), fuota.Library(library), seed, loss)


def is_well(played, status, final=None):
    fault = played.fault(status, final)
    assert fault is None, fault


# ---- Kills


def kill_at_each_step(place, library, seed, text, classes):
    """Yields (name, fault) of the campaigns of a seed: the one that is never killed, and one for each of its steps."""
    loaded = fuota.Library(library)

    def played_in(name):
        return Played(laid_out(place / name, text, devices_of(classes)), loaded, seed)

    plain = played_in("plain")
    status, steps = child_life(plain, library)
    final = (plain.folder / "state" / "state").read_bytes()
    yield f"seed {seed}, never killed", plain.fault(status)
    for last_step in range(1, steps + 1):
        played = played_in("killed")
        killed, _ = child_life(played, library, last_step)
        status, _ = child_life(played, library)
        fault = played.fault(status, final) if killed == -signal.SIGKILL else f"it was not killed: {killed}"
        yield f"seed {seed}, killed after step {last_step}", fault
        played.fleet.close()
        shutil.rmtree(played.folder)
    draw = random.Random(f"run_campaign {seed}")
    for number in range(6):
        played, status, lives = played_in(f"often{number}"), -signal.SIGKILL, 0
        while status == -signal.SIGKILL:
            status, _ = child_life(played, library, draw.randint(8, 40))
            lives += 1
        yield f"seed {seed}, killed often", played.fault(status, final) if lives > 2 else f"{lives} lives"
        played.fleet.close()


KINDS = [(1, PLAN.replace("distance = 1\n", "distance = 12\n"), "AC"), (2, PLAN.replace("distance = 1\n", "distance = 12\n"), "AA"),
         (3, BY_UNICAST, "CA")]


@pytest.fixture(scope="module")
def kills(library):
    """What came of the kills of each seed. They take long, so each seed has a process of its own, and all run at once."""
    running = {}
    with tempfile.TemporaryDirectory(dir="/dev/shm" if os.access("/dev/shm", os.W_OK) else None) as folder:
        for seed, text, classes in KINDS:
            here = pathlib.Path(folder) / str(seed)
            here.mkdir()
            reader, writer = os.pipe()
            child = os.fork()
            if child == 0:
                try:
                    os.close(reader)
                    with os.fdopen(writer, "w") as output:
                        json.dump(list(kill_at_each_step(here, library, seed, text, classes)), output)
                finally:
                    os._exit(0)
            os.close(writer)
            running[seed] = child, os.fdopen(reader)
        found = {}
        for seed, (child, reader) in running.items():
            with reader:
                found[seed] = json.loads(reader.read() or "[]")
            os.waitpid(child, 0)
        yield found


@pytest.mark.xdist_group("kills")
@pytest.mark.parametrize("seed", [1, 2, 3])
def test_kills(kills, seed):
    """The campaign that is never killed, one that is killed after each step, and six that are killed again and again."""
    assert len(kills[seed]) > 100
    assert [(name, fault) for name, fault in kills[seed] if fault] == []


# ---- The command as a process


@pytest.fixture(scope="module")
def ended(library):
    """A campaign that was killed from outside, asked to stop, and begun beside another: how, and its devices."""
    with tempfile.TemporaryDirectory() as folder:
        played = Played(laid_out(pathlib.Path(folder) / "ended"), fuota.Library(library), 4)
        told = types.SimpleNamespace(played=played)
        process = Process(played.folder, library, "--pipe", "--simulated")
        for count, line in enumerate(process.output):
            played.take(json.loads(line), process)
            if count == 100:
                process.process.kill()
                break
        told.killed = process.end()
        process = Process(played.folder, library, "--pipe", "--simulated")
        for count, line in enumerate(process.output):
            if count == 40:
                process.process.terminate()
                break
            played.take(json.loads(line), process)
        told.stopped = process.end(), process.said
        process = Process(played.folder, library, "--pipe", "--simulated")
        process.output.readline()
        told.beside = process_life(played, library)
        process.process.kill()
        process.end()
        told.status, told.said = process_life(played, library)
        yield told


@pytest.mark.xdist_group("ended")
def test_killed_from_outside(ended):
    assert ended.killed == -signal.SIGKILL


@pytest.mark.xdist_group("ended")
def test_asked_to_stop(ended):
    status, said = ended.stopped
    assert status == 1 and said.endswith("fuota-campaign: stopped; it goes on when it is begun again\n")


@pytest.mark.xdist_group("ended")
def test_two_at_once(ended):
    assert ended.beside == (2, "fuota-campaign: state: another fuota-campaign works on it\n")


@pytest.mark.xdist_group("ended")
def test_after_both(ended):
    is_well(ended.played, ended.status)
    assert [device.device.file(1) for device in ended.played.fleet.devices.values()] == [IMAGE] * 3
    assert [device.device.view(0) for device in ended.played.fleet.devices.values()] == [None] * 3


@pytest.mark.xdist_group("ended")
def test_lines(ended):
    assert re.search(r"^2031-05-06 22:\d\d:\d\d UTC: .*fragments \d+ of 26", ended.said, re.M)
    assert ended.said.endswith(": updated 3; fragments 26 of 26\n")


@pytest.mark.xdist_group("ended")
def test_once_all_are_updated(ended, library):
    before, sent = (ended.played.folder / "state" / "state").read_bytes(), ended.played.sent
    assert process_life(ended.played, library)[0] == 0
    assert (ended.played.sent, (ended.played.folder / "state" / "state").read_bytes()) == (sent, before)


@pytest.mark.xdist_group("ended")
def test_status(ended, call):
    """The table and the picture of an ended campaign."""
    done = call("fuota-campaign", "status", "state", "--picture", "picture.svg", folder=ended.played.folder)
    rows = done.said.splitlines()
    assert [done.status, done.message, len(rows)] == [0, "", 5]
    for eui, row in zip(EUIS, rows[2:]):
        assert re.fullmatch(rf"{eui}  updated +0  2031-05-06 2\d:\d\d:\d\d UTC", row)
    root = ElementTree.parse(ended.played.folder / "picture.svg").getroot()
    texts = [one.text for one in root.iter() if one.tag.endswith("text")]
    assert [text for text in texts if text in EUIS] == EUIS
    assert set(progress.COLOURS) <= set(texts)


def test_status_of_nothing(call):
    done = call("fuota-campaign", "status", "nowhere")
    assert (done.status, done.said, done.message) == (2, "", "fuota-campaign: nowhere/journal: No such file or directory\n")


@pytest.mark.parametrize("wanted, port, payload, index", [
    (2, 201, "0108000200", 0), (None, 201, "0108400200", 0), (3, 201, "000301020001ff3f0301", 0), (None, 200, "0108000200", 0),
    (None, 201, "010800", 0), (None, 201, "ff", 0), (None, 201, "", 0), (2, 201, "0108400200", 1)],
    ids=["docs", "another index", "after others", "another port", "cut", "strange", "none", "index 1"])
def test_missing(library, wanted, port, payload, index):
    """What is read of a status answer: of its own index, after other answers, and of nothing else."""
    assert heard.missing_in(heard.texts_of(fuota.Library(library), port, bytes.fromhex(payload)), index) == wanted


STRANGE = [{"device": "ffffffffffffffff", "port": 203, "payload": "010700000001000000"},
           {"device": EUIS[0], "port": 10, "payload": "00"}, {"device": EUIS[0], "port": 203, "payload": "ff"},
           {"device": EUIS[0], "port": 203, "payload": "01" * 243}, {"device": EUIS[0], "port": 203, "payload": ""},
           "no JSON", "[]", "{}", '{"device": 1, "port": 1, "payload": ""}', '{"time": "then"}', "\0" * 10, "[" * 9_999,
           {"device": EUIS[0], "port": 300, "payload": "00"}, {"device": EUIS[0], "port": 203, "payload": "0"}]


def test_strange_uplinks(begun, library):
    """Uplinks of nobody's, of other ports and malformed ones change nothing."""
    played = begun(5)
    process = Process(played.folder, library, "--pipe", "--simulated")
    process.output.readline()
    process.write({"time": BEGIN})
    for line in STRANGE:
        while "wait" not in json.loads(process.output.readline()):
            pass
        process.write(line)
    while "wait" not in json.loads(process.output.readline()):
        pass
    _, stages = played.kept()
    process.write({"time": BEGIN})
    status = played.life(process)
    assert stages == ["version"] * 3
    assert process.said.count("fuota-campaign: passed over: ") == 10
    is_well(played, status)


def test_a_time_that_is_none(place, library):
    process = Process(laid_out(place / "late"), library, "--pipe")
    process.write({"device": EUIS[0], "port": 203, "payload": "01", "time": 2 ** 70})
    for line in process.output:
        if json.loads(line)["device"] == EUIS[1]:
            break
    assert process.end() == 1 and '"refused":"RANGE"' in (place / "late/state/journal").read_text()


def test_a_busy_server(place, library):
    """Requests go out also where uplinks of others never cease."""
    class Busy(carrier.Carrier):
        name, sent = "busy", []

        def wait(self, until):
            return [carrier.Uplink("ffffffffffffffff", 1, b"", 0)]

        def to_device(self, device, port, payload):
            self.sent.append(device.eui)

        def to_group(self, group, count, port, payload):
            pass

    text = PLAN.replace("distance = 1\n", "distance = 0\n").replace("duty_cycle = 10", "duty_cycle = 100")
    folder, busy = laid_out(place / "busy", text.replace("unicast_data_rate = 3", "unicast_data_rate = 6")), Busy()
    kept = Folder(folder / "state")
    campaign = play.Campaign(read_plan(folder / "plan.toml"), kept, busy, fuota.Library(library))
    end = time.monotonic() + 5
    while len(busy.sent) < 3 and time.monotonic() < end:
        campaign.step()
    assert busy.sent == EUIS
    kept.close()


FEW_TRIES = PLAN.replace("tries = 30", "tries = 3")


def test_silence(begun, library):
    """Devices that never answer are given up, and the campaign ends."""
    played = begun(6, FEW_TRIES, loss=1.0)
    status, said = process_life(played, library)
    # (what was put into the queue of a device of class A waits there, and is not put there again)
    assert (status, played.sent) == (3, 1 + 3 + 1)
    assert said.endswith(": silent 3 (at version); fragments 0 of 26\n")
    assert (process_life(played, library)[0], played.sent) == (3, 5)


def test_silence_killed(begun, library, call):
    """Tries are not forgotten, and a plan may allow more."""
    played = begun(6, FEW_TRIES, loss=1.0)
    for last_step in (6, 5, 4):
        child_life(played, library, last_step)
    status, _ = process_life(played, library)
    requests = (played.folder / "state" / "journal").read_text().count(f'"stage":"version","device":"{EUIS[1]}"')
    assert (status, requests) == (3, 3)
    sent = played.sent
    assert (process_life(played, library)[0], played.sent) == (3, sent)
    text = (played.folder / "plan.toml").read_text()
    (played.folder / "plan.toml").write_text(text.replace("tries = 3", "tries = 4"))
    assert (process_life(played, library)[0], played.sent) == (3, sent + 3)
    done = call("fuota-campaign", "status", "state", folder=played.folder)
    assert len(re.findall("version, silent           -  -  +at version, after 4 tries, since 2031", done.said)) == 3


def test_incomplete(begun, library, call):
    """Devices that lost more than the coded fragments make good are believed, and left alone."""
    played = begun(11, PLAN.replace("coded = 20", "coded = 0"))
    lose = played.fleet.to_group
    played.fleet.to_group = lambda t, count, port, payload: None if count == 103 else lose(t, count, port, payload)
    status, said = process_life(played, library)
    journal = (played.folder / "state" / "journal").read_text()
    assert status == 3 and re.search(r": incomplete 3 \([1-6] missing(; [1-6] missing)*\); fragments 6 of 6\n$", said)
    assert all(2 <= journal.count(f'"stage":"status","device":"{eui}"') <= 12 for eui in EUIS)
    done = call("fuota-campaign", "status", "state", folder=played.folder)
    assert len(re.findall("status, incomplete +[1-6]  ", done.said)) == 3
    sent = played.sent
    assert (process_life(played, library)[0], played.sent) == (3, sent)


def test_full_disks(begun, library):
    """A disk without room ends the command before a payload goes out; with room it goes on."""
    played = begun(7)
    # (no room for the state, and none for the journal)
    for limit in (20, 60):
        status, said = process_life(played, library, limit=limit)
        assert (status, played.sent) == (1, 0)
        assert re.fullmatch(r"fuota-campaign: state\S*: File too large; nothing more was sent\n", said)
    for limit in (2_000, 4_000, 6_000):
        status, said = process_life(played, library, limit=limit)
        journal = (played.folder / "state" / "journal").read_bytes()
        assert status == 1 and "File too large" in said and journal.endswith(b"\n")
        assert journal.count(b'"sent"') == played.sent
    is_well(played, process_life(played, library)[0])


BROKEN = "state/state: broken, or of another plan or image; nothing was sent"


def in_plan(old, new):
    """Changes the plan of a folder."""
    def change(folder):
        text = (folder / "plan.toml").read_text()
        assert old in text
        (folder / "plan.toml").write_text(text.replace(old, new))
    return change


def in_state(change):
    """Changes the bytes that are kept."""
    return lambda folder: (folder / "state" / "state").write_bytes(change((folder / "state" / "state").read_bytes()))


@pytest.fixture(scope="module")
def broken(library):
    """A campaign that was killed on its way."""
    with tempfile.TemporaryDirectory() as folder:
        played = Played(laid_out(pathlib.Path(folder) / "broken"), fuota.Library(library), 8)
        child_life(played, library, 150)
        yield played
        is_well(played, process_life(played, library)[0])


@pytest.mark.xdist_group("broken")
@pytest.mark.parametrize("change, message", [
    (in_state(lambda saved: saved[:7] + bytes([saved[7] ^ 1]) + saved[8:]), BROKEN),
    (in_state(lambda saved: saved[:-1]), BROKEN),
    (in_state(lambda saved: b""), BROKEN),
    (in_state(lambda saved: saved + b"\0"), BROKEN),
    (in_state(lambda saved: bytes(len(saved))), BROKEN),
    (lambda folder: (folder / "image").write_bytes(image_file(b"another", 8)), BROKEN),
    (in_plan("size = 25", "size = 26"), BROKEN),
    (in_plan("coded = 20", "coded = 21"), BROKEN),
    (in_plan("first = 100", "first = 99"), BROKEN),
    (in_plan("22:00:00Z", "22:00:01Z"), BROKEN),
    (lambda folder: (folder / "image").write_bytes(IMAGE[:-1]), "plan.toml: image: image: not an image file; fuota-image makes one"),
    (lambda folder: (folder / "state" / "state").unlink(), "state: there is a journal and no state: frame counts could be sent twice"),
    (in_plan(f'eui = "{EUIS[1]}"', 'eui = "ffffffffffffffff"'), "state: its campaign was begun with other devices, or by pipe"),
    (lambda folder: later_journal(folder), 'state/journal: a journal of version 2, and this fuota reads version 1: take the fuota that wrote it'),
], ids=["a bit is another", "short", "empty", "long", "a rest of nothing", "another image", "size", "coded", "first", "start", "no image",
        "no state beside a journal", "another device", "a later journal"])
def test_broken_states(broken, library, change, message):
    """A state that is not the campaign's is refused, and nothing is sent."""
    files = {name: (broken.folder / name).read_bytes() for name in ("state/state", "state/journal", "plan.toml", "image")}
    sent = broken.sent
    try:
        change(broken.folder)
        status, said = process_life(broken, library)
    finally:
        for name, data in files.items():
            (broken.folder / name).write_bytes(data)
    assert (status, said, broken.sent) == (2, f"fuota-campaign: {message}\n", sent)


def later_journal(folder):
    text = (folder / "state" / "journal").read_text()
    assert '"version":1' in text.splitlines()[0]
    (folder / "state" / "journal").write_text(text.replace('"version":1', '"version":2', 1))


def test_torn_journals(begun, library):
    """A torn last line is taken away, and a malformed line passed over."""
    played = begun(9)
    child_life(played, library, 60)
    journal = played.folder / "state" / "journal"
    text = journal.read_text()
    journal.write_text(text + "no JSON\n[]\n" + '{"t":1935870300000,"sent":"req')
    child_life(played, library, 10)
    assert journal.read_text().startswith(text + "no JSON\n[]\n" + '{"t":')
    lines = [line for line in journal.read_text().splitlines() if line.startswith("{")]
    journal.write_text("".join(line + "\n" for line in lines))
    is_well(played, child_life(played, library)[0])


def test_journals_without_a_version(begun, library, call):
    """A journal of the first ones, which had no version, is read on."""
    played = begun(9)
    child_life(played, library, 60)
    journal = played.folder / "state" / "journal"
    text = journal.read_text()
    journal.write_text(text.replace('"version":1,', "", 1))
    assert journal.read_text() != text
    assert call("fuota-campaign", "status", "state", folder=played.folder).status == 0
    is_well(played, child_life(played, library)[0])


def test_order(place, monkeypatch):
    """A state is synced before it stands in the place of the one before, and its name after that."""
    folder, order, replace = Folder(place / "order"), [], os.replace
    monkeypatch.setattr(os, "fsync", lambda handle: order.append("folder" if handle == folder.directory else "file"))
    monkeypatch.setattr(os, "replace", lambda *names: (order.append("replace"), replace(*names)))
    folder.keep(b"one")
    folder.keep(b"one")
    assert order == ["file", "replace", "folder"]
    assert (place / "order" / "state").read_bytes() == b"one"
    folder.close()


class Terminal(io.StringIO):
    def isatty(self):
        return True


class Stub:
    """A campaign of which two devices are updated, some ms after the year 1970 began."""

    def __init__(self, now, left=0, away=None):
        self.carrier, self.left, self.sent = self, lambda: left, 3
        self.now, self.contacts = lambda: now, [types.SimpleNamespace(word=word, cause=None) for word in ("updated", "status", "updated")]
        self.away_since, self.notice = lambda: away, lambda is_last: ""
        self.plan = types.SimpleNamespace(fragments=9, reserve=0)


def shown_on(stream):
    line = progress.Progress(stream)
    for now, left in ((0, 70_000), (1_000, 70_000), (59_000, 12_000), (60_000, 11_000), (61_000, 10_000)):
        line.show(Stub(now, left))
    line.show(Stub(62_000, 9_000), is_last=True)
    line.close()
    return stream.getvalue()


WORDS = "status 1, updated 2; fragments 3 of 9"


def test_progress_on_a_terminal():
    """The line is rewritten where it changed."""
    lefts = (", 1 min 10 s left", ", 12 s left", ", 11 s left", ", 10 s left", "")
    assert shown_on(Terminal()) == "".join(f"\r{WORDS}{left}\x1b[K" for left in lefts) + "\n"


def test_progress_elsewhere():
    """It is written once a minute."""
    assert shown_on(io.StringIO()).splitlines() == [
        f"1970-01-01 00:00:00 UTC: {WORDS}, 1 min 10 s left", f"1970-01-01 00:01:00 UTC: {WORDS}, 11 s left",
        f"1970-01-01 00:01:02 UTC: {WORDS}"]


def test_progress_without_a_broker():
    stream = io.StringIO()
    progress.Progress(stream).show(Stub(120_000, away=65_000), is_last=True)
    assert stream.getvalue() == f"1970-01-01 00:02:00 UTC: {WORDS}; broker away since 00:01:05 UTC\n"


def test_rehearsals(call, place, library):
    """A rehearsal updates its devices, the same twice, says what it does where it is asked to, and its folder serves no other
    campaign."""
    folder = laid_out(place / "rehearsed")
    runs = []
    for name, words in (("once", ["rehearse", "--verbose"]), ("twice", ["--verbose", "rehearse"])):
        done = call("fuota-campaign", *words, "plan.toml", name, "--loss", "20", "--library", library, folder=folder)
        assert done.status == 0
        journal = (folder / name / "journal").read_text()
        assert done.message == "".join(f"fuota-campaign: {line}\n" for line in journal.splitlines())
        runs.append(journal)
    assert runs[0] == runs[1]
    shutil.copytree(folder / "once", folder / "state")
    process = Process(folder, library, "--pipe")
    assert process.end() == 2 and process.said.endswith("or by rehearsal\n")
