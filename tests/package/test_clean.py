"""After a campaign devices delete what it left, and what they answered is kept."""
import json
import signal

import pytest

import fuota
from fuota.campaign import clean, heard
from fuota.campaign.journal import Journal
from fuota.campaign.plan import read_plan
from lives import BY_UNICAST, EUIS, PLAN, Child, Played, child_life, laid_out

FEW = PLAN.replace("tries = 30", "tries = 3")


@pytest.mark.parametrize("call, port, number, payload", [
    ("frag_session_delete", 201, 0, "0300"), ("frag_session_delete", 201, 3, "0303"), ("frag_session_delete", 201, 4, None),
    ("mc_group_delete", 200, 0, "0300"), ("mc_group_delete", 200, 3, "0303"), ("mc_group_delete", 200, 4, None),
    ("mc_group_delete", 200, 256, None), ("dev_delete_image", 203, 2, "0502000000"), ("dev_delete_image", 203, 2 ** 32 - 1, "05ffffffff"),
    ("dev_delete_image", 203, 2 ** 32, None)])
def test_requests(library, call, port, number, payload):
    """Bytes of TS004, TS005 and TS006, 1.0.0, and the ranges of their fields."""
    make = getattr(fuota.Library(library), call)
    if payload:
        down = make(number)
        assert (down.port, down.data.hex(), down.is_group) == (port, payload, False)
    else:
        with pytest.raises(fuota.OutOfRange):
            make(number)


@pytest.mark.parametrize("name, port, payload, error", [
    ("session", 201, "0301", 0), ("session", 201, "0305", 1), ("session", 201, "0300", None), ("session", 200, "0301", None),
    ("group", 200, "0302", 0), ("group", 200, "0306", 1), ("group", 200, "0303", None), ("image", 203, "0500", 0),
    ("image", 203, "0501", 1), ("image", 203, "0502", 2), ("image", 203, "01", None), ("image", 203, "", None)])
def test_answers(tmp_path, library, name, port, payload, error):
    """Each answer is read by its own index, id and port."""
    calls, plan = fuota.Library(library), read_plan(laid_out(tmp_path) / "plan.toml")
    thing, = [thing for thing in clean.things_of(plan, calls, True) if thing.name == name]
    assert thing.error_in(heard.texts_of(calls, port, bytes.fromhex(payload))) == error


def test_things(tmp_path, library):
    calls = fuota.Library(library)
    plans = [read_plan(laid_out(tmp_path, text) / "plan.toml") for text in (PLAN, BY_UNICAST)]
    assert [[thing.name for thing in clean.things_of(plan, calls, is_image)] for plan in plans for is_image in (False, True)] == [
        ["session", "group"], ["session", "group", "image"], ["session"], ["session", "image"]]


# ---- Over simulated devices


def words_of(folder, library, *more):
    return ["clean", str(folder / "plan.toml"), str(folder / "state"), "--pipe", "--simulated", "--library", str(library), *more]


def cleaned(played, library, *more, last_step=None):
    """A life of `clean` in a child: its status."""
    return played.life(Child(words_of(played.folder, library, *more), last_step))


def lines_of(played):
    return [json.loads(line) for line in (played.folder / "state" / "journal").read_text().splitlines()]


def answers_of(played):
    return sorted((line["device"], line["deleted"], line["error"]) for line in lines_of(played) if "deleted" in line)


@pytest.fixture
def ended(place, library):
    """A campaign that has ended."""
    def ended(text=PLAN, name="campaign", **more):
        played = Played(laid_out(place / name, text), fuota.Library(library), 3, **more)
        assert child_life(played, library)[0] in (0, 3)
        # (of updated devices too something is asked now)
        played.kept = lambda: (0, [])
        return played
    return ended


@pytest.mark.parametrize("text, things", [(PLAN, ["group", "session"]), (BY_UNICAST, ["session"])], ids=["group", "by unicast"])
def test_all_is_deleted(ended, library, call, text, things):
    played = ended(text, loss=0)
    assert cleaned(played, library) == 0
    assert answers_of(played) == [(eui, thing, 0) for eui in EUIS for thing in things]
    assert [device.device.view(1) for device in played.fleet.devices.values()] == [None] * 3
    told = json.loads(call("fuota-campaign", "status", "state", "--json", folder=played.folder).said)
    assert {device["deleted"] for device in told["devices"]} == {", ".join(sorted(things, reverse=True))}
    sent = played.sent
    assert cleaned(played, library) == 0 and played.sent == sent


def test_what_is_not_there(ended, library):
    """A device without it says so, and is not asked again. An image that runs is none that waits."""
    played = ended(loss=0)
    for device in played.fleet.devices.values():
        device.device.deliver(201, bytes([3, 1]), 10 ** 12)
        while device.device.take_uplink():
            pass
    assert cleaned(played, library, "--image") == 0
    assert answers_of(played) == sorted([(eui, name, error) for eui in EUIS for name, error in (("group", 0), ("image", 1), ("session", 1))])


@pytest.mark.parametrize("error, words", [
    ({"session": 1, "group": 0}, "session: there was no session of this index; group: deleted"),
    ({"session": 0}, "session: deleted; group: no answer"), ({"image": 2}, "image: the image that waits has another version"),
    ({"image": 4}, "image: bits 4")])
def test_words(tmp_path, library, error, words):
    plan = read_plan(laid_out(tmp_path) / "plan.toml")
    things = [thing for thing in clean.things_of(plan, fuota.Library(library), True) if (thing.name == "image") == ("image" in error)]
    device = clean.Cleaned(1, EUIS[0], plan.retry, things)
    for name, number in error.items():
        device.take({"t": 1, "device": EUIS[0], "deleted": name, "error": number})
    assert device.told == words


def test_losses(ended, library):
    """Requests are repeated until they are answered."""
    played = ended(loss=0.3, text=PLAN.replace("tries = 30", "tries = 60"))
    assert cleaned(played, library) == 0 and len(answers_of(played)) == 6
    requests = [line for line in lines_of(played) if line.get("sent") == "delete"]
    assert len(requests) > 6
    for one in requests:
        later = [line["t"] for line in requests if (line["device"], line["thing"]) == (one["device"], one["thing"]) and line["t"] > one["t"]]
        assert all(t >= one["t"] + 60_000 for t in later)


def test_answers_that_come_twice(ended, library):
    """The first one counts, and is noted once."""
    played = ended(loss=0)
    advance = played.fleet.advance
    played.fleet.advance = lambda t: [uplink for uplink in advance(t) for _ in range(2)]
    assert cleaned(played, library) == 0 and len(answers_of(played)) == 6


def test_silent_devices(ended, library):
    """A device that does not answer is given up after the plan's tries, told, and asked anew by the next one."""
    played = ended(FEW, loss=0)
    send = played.fleet.to_device
    played.fleet.to_device = lambda t, eui, port, payload: None if eui == EUIS[1] else send(t, eui, port, payload)
    assert cleaned(played, library) == 3
    requests = [line["device"] for line in lines_of(played) if line.get("sent") == "delete"]
    assert requests.count(EUIS[1]) == 3 and {line["device"] for line in lines_of(played) if "undeleted" in line} == {EUIS[1]}
    played.fleet.to_device = send
    assert cleaned(played, library) == 0 and len(answers_of(played)) == 6


def test_killed(ended, library, place):
    """Killed after each of its steps: nothing that was answered is asked again, and all is deleted."""
    kills = 0
    for step in range(1, 200):
        played = ended(name=f"campaign{step}", loss=0.1)
        if cleaned(played, library, last_step=step) != -signal.SIGKILL:
            break
        kills += 1
        assert cleaned(played, library) == 0
        done = set()
        for line in lines_of(played):
            if line.get("sent") == "delete":
                assert (line["device"], line["thing"]) not in done
            if "deleted" in line:
                done.add((line["device"], line["deleted"]))
        assert len(done) == 6 and len(answers_of(played)) == 6
    assert kills > 10


def test_not_ended(place, library):
    """It waits for the campaign's end, but with --anyway."""
    played = Played(laid_out(place / "begun"), fuota.Library(library), 3, 0)
    assert child_life(played, library, 60)[0] == -signal.SIGKILL
    played.kept = lambda: (0, [])
    sent = played.sent
    assert cleaned(played, library) == 2 and played.sent == sent
    assert cleaned(played, library, "--anyway") == 0


# ---- What is refused


def test_words_that_are_wrong(call, tmp_path, library):
    laid_out(tmp_path)
    done = call("fuota-campaign", "clean", "plan.toml", "state", "--pipe", "--library", library)
    assert (done.status, done.message) == (2, "fuota-campaign: state: no campaign is kept there\n")
    journal = Journal(made(tmp_path / "state") / "journal")
    journal.write({"t": 1, "version": 1, "devices": ["ff" * 8], "by": "pipe", "index": 0, "fragments": 1})
    (tmp_path / "state" / "state").write_bytes(b"")
    done = call("fuota-campaign", "clean", "plan.toml", "state", "--pipe", "--library", library)
    assert (done.status, done.message) == (2, "fuota-campaign: state: no campaign with the devices of plan.toml is kept there\n")


def made(path):
    path.mkdir(mode=0o700)
    return path


def test_not_ended_is_told(place, library, call):
    played = Played(laid_out(place / "begun"), fuota.Library(library), 3, 0)
    child_life(played, library, 30)
    done = call("fuota-campaign", "clean", "plan.toml", "state", "--pipe", "--library", library, folder=played.folder)
    assert (done.status, done.message) == (2, "fuota-campaign: state: its campaign has not ended: run it to its end, or give --anyway\n")
