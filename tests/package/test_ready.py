"""A window that waits until devices are ready: the plan decides as it opens, and nothing goes out in one that is passed over."""
import json
import random
import re
import signal

import pytest

import fuota
import lives
from fuota.campaign import carrier, play, progress, silence
from fuota.campaign.folder import Folder
from fuota.campaign.plan import read_plan
from lives import BY_UNICAST, EUIS, PLAN, Played, child_life, laid_out, process_life

OPENS, MINUTE, HOUR = 1_935_871_200_000, 60_000, 3_600_000
AGAIN = "again = [2031-05-06T23:00:00Z, 2031-05-07T01:00:00Z]"


def ready(percent, *more):
    """The plan with so many percent of the devices ready, and more fields of the window."""
    return PLAN.replace("timeout = 10", "\n".join(["timeout = 10", f"ready = {percent}", *more]))


WAIT, ASK, ALL_THE_SAME = (ready(100, f'otherwise = "{word}"', *again)
                           for word, again in (("wait", [AGAIN]), ("ask", [AGAIN]), ("begin", [])))


# ---- Plans


@pytest.mark.parametrize("fields, message", [
    (["ready = 101"], "window.ready: 101 is not from 0 to 100"),
    (["ready = 90"], 'window: missing field "otherwise" (begin, wait or ask), which ready needs'),
    (['otherwise = "ask"'], 'window: missing field "ready", without which otherwise says nothing'),
    ([AGAIN], 'window: missing field "ready", without which again says nothing'),
    (["ready = 90", 'otherwise = "stop"', AGAIN], "window.otherwise: 'stop' is not one of begin, wait, ask"),
    (["ready = 90", 'otherwise = "wait"'],
     'window: missing field "again" (the further starts of the window), which otherwise = "wait" needs'),
    (["ready = 90", 'otherwise = "begin"', AGAIN], 'window.again: there is no further window where otherwise = "begin"'),
    (["ready = 90", 'otherwise = "wait"', "again = []"], "window.again: not a list of moments: []"),
    (["ready = 90", 'otherwise = "wait"', "again = [1]"], "window.again: not a moment with its offset, as 2031-05-06T22:00:00Z: 1"),
    (["ready = 90", 'otherwise = "wait"', "again = [2031-05-06T22:10:00Z]"],
     "window.again: the window of 2031-05-06 22:10:00 UTC opens before the one before it closes"),
    (["ready = 90", 'otherwise = "wait"', "again = [2131-05-06T22:10:00Z]"],
     "window.again: 2131-05-06 22:10:00 UTC is not within the 32 bits of GPS time"),
    (["ready = 90", 'otherwise = "wait"', "again = [2031-05-06T22:17:04Z, 2031-05-06T22:34:09Z]"], None),
])
def test_plans(call, tmp_path, fields, message):
    laid_out(tmp_path, PLAN.replace("timeout = 10", "\n".join(["timeout = 10", *fields])))
    done = call("fuota-campaign", "check", "plan.toml")
    assert (done.status, done.message) == ((2, f"fuota-campaign: plan.toml: {message}\n") if message else (0, ""))


def test_a_further_window_that_comes_too_soon(call, tmp_path):
    """Each has to leave time to ask all devices again after the one before it."""
    text = ready(90, 'otherwise = "wait"', "again = [2031-05-06T22:17:04Z]").replace("unicast_data_rate = 3", "unicast_data_rate = 0")
    laid_out(tmp_path, text.replace("duty_cycle = 10", "duty_cycle = 1"))
    done = call("fuota-campaign", "check", "plan.toml")
    assert done.status == 2 and re.fullmatch(
        r"fuota-campaign: plan.toml: window.again: the window of 2031-05-06 22:17:04 UTC opens 17 min 2 s after the one before it may be "
        r"passed over, and the set-up takes \d+ min( \d+ s)? or more\n", done.message), done.message


@pytest.mark.parametrize("text, lines", [
    (WAIT, ["ready: 3 of 3 devices, else it is passed over", "again: 2031-05-06 23:00:00 UTC", "again: 2031-05-07 01:00:00 UTC"]),
    (ready(90, 'otherwise = "ask"', "again = [2031-05-06T22:17:04Z]").replace("duty_cycle = 10", "duty_cycle = 2"),
     ["ready: 3 of 3 devices, else it waits for run --begin", "again: 2031-05-06 22:17:04 UTC, before which some devices may not be ready"]),
    (ready(50, 'otherwise = "ask"'), ["ready: 2 of 3 devices, else it waits for run --begin"]),
    (ready(33, 'otherwise = "begin"'), ["ready: 1 of 3 devices, else the window begins all the same"]), (PLAN, [])],
    ids=["wait", "ask, soon again", "ask", "begin", "nothing"])
def test_check(call, tmp_path, text, lines):
    laid_out(tmp_path, text)
    done = call("fuota-campaign", "check", "plan.toml")
    assert done.status == 0 and [told for told in done.said.splitlines() if told.startswith(("ready", "again"))] == lines


def test_needed(tmp_path):
    """So many devices as make the percent, and no fewer."""
    plan = read_plan(laid_out(tmp_path, ready(67, 'otherwise = "ask"')) / "plan.toml")
    assert plan.needed == 3 and [window.opens for window in plan.windows] == [OPENS]
    starts = [each.window.start for each in read_plan(laid_out(tmp_path, WAIT) / "plan.toml").at_each_start()]
    assert starts == [OPENS, OPENS + HOUR, OPENS + 3 * HOUR]
    assert read_plan(laid_out(tmp_path, BY_UNICAST) / "plan.toml").windows == []


# ---- Campaigns over simulated devices


class Sleeping(Played):
    """A campaign of which a device hears nothing, and sends nothing, before a moment."""

    def __init__(self, folder, library, until, seed=3, loss=0.0, who=EUIS[0]):
        super().__init__(folder, library, seed, loss)
        self.until, self.who = until, who
        self.windows = [(each.opens + each.guard, each.closes - each.guard) for each in read_plan(folder / "plan.toml").windows]

    def next_line(self, until):
        line = super().next_line(until)
        return {"time": line["time"]} if line.get("device") == self.who and self.t < self.until else line

    def hold_pace(self, line, before):
        """Only within a window; which one, the tests say."""
        if "count" in line and not any(begin <= line["t"] < end for begin, end in self.windows):
            self.faults.append(f"beside the windows: {line}")

    def lines(self):
        return [json.loads(line) for line in (self.folder / "state" / "journal").read_text().splitlines()]

    def decided(self):
        return [(line["decided"], line["ready"], line["needed"]) for line in self.lines() if "decided" in line]

    def group_at(self):
        return [line["t"] for line in self.lines() if "count" in line]


@pytest.fixture
def begun(place, library):
    """Begins a campaign of which a device sleeps until a moment."""
    return lambda text, until, **more: Sleeping(laid_out(place / "campaign", text), fuota.Library(library), until, **more)


def is_well(played, status):
    fault = played.fault(status)
    assert fault is None, fault


def test_all_are_ready(begun, library, call):
    played = begun(WAIT, 0)
    is_well(played, child_life(played, library)[0])
    assert played.decided() == [("begin", 3, 3)] and OPENS < played.group_at()[0] < played.group_at()[-1] < OPENS + 17 * MINUTE
    done = call("fuota-campaign", "status", "state", folder=played.folder)
    assert "window of 2031-05-06 22:00:00 UTC: begun, with 3 of 3 devices ready and 3 needed\n" in done.said


def test_passed_over(begun, library, call):
    """Two windows are passed over; in the third all devices are ready, and the frame counts begin with the first."""
    played = begun(WAIT, OPENS + HOUR + 30 * MINUTE)
    is_well(played, child_life(played, library)[0])
    assert played.decided() == [("wait", 2, 3), ("wait", 2, 3), ("begin", 3, 3)]
    assert played.group_at()[0] > OPENS + 3 * HOUR and played.counts[0] == 100
    assert played.counts == list(range(100, 127))
    done = call("fuota-campaign", "status", "state", "--picture", "picture.svg", folder=played.folder)
    assert done.said.splitlines()[1:4] == [
        "window of 2031-05-06 22:00:00 UTC: passed over, with 2 of 3 devices ready and 3 needed",
        "window of 2031-05-06 23:00:00 UTC: passed over, with 2 of 3 devices ready and 3 needed",
        "window of 2031-05-07 01:00:00 UTC: begun, with 3 of 3 devices ready and 3 needed"]
    assert (played.folder / "picture.svg").read_text().count("passed over") == 2
    told = json.loads(call("fuota-campaign", "status", "state", "--json", folder=played.folder).said)
    assert [window["decided"] for window in told["windows"]] == ["wait", "wait", "begin"]
    assert told["window_opens"] == "2031-05-07T01:00:00Z"


def test_no_further_window(begun, library, call):
    """It ends, and nothing was sent to the group; a plan with a further start goes on."""
    played = begun(WAIT, OPENS + 5 * HOUR)
    status, _ = child_life(played, library)
    assert status == 3 and played.decided() == 3 * [("wait", 2, 3)] and played.counts == []
    sent = played.sent
    assert child_life(played, library)[0] == 3 and played.sent == sent
    text = (played.folder / "plan.toml").read_text()
    (played.folder / "plan.toml").write_text(text.replace("01:00:00Z]", "01:00:00Z, 2031-05-07T05:00:00Z]"))
    played.windows.append((OPENS + 7 * HOUR, OPENS + 8 * HOUR))
    is_well(played, child_life(played, library)[0])
    assert played.decided()[3:] == [("begin", 3, 3)] and played.group_at()[0] > OPENS + 7 * HOUR


def test_begun_all_the_same(begun, library):
    played = begun(ALL_THE_SAME, OPENS + 5 * HOUR)
    status, _ = child_life(played, library)
    assert status == 3 and played.decided() == [("begin", 2, 3)] and len(played.counts) == 27
    assert [contact.word for contact in progress.Kept(played.folder / "state").contacts] == ["version", "updated", "updated"]


@pytest.mark.parametrize("word", ["begin", "wait", "ask"])
def test_nobody_is_heard(begun, library, word):
    """Devices of which none ever answers."""
    played = begun(ready(1, f'otherwise = "{word}"', *[AGAIN] * (word != "begin")), 0, loss=1.0)
    status, _ = child_life(played, library)
    assert (status, played.counts) == (3, [])
    assert played.decided()[-1] == ({"begin": "begin"}.get(word, "wait"), 0, 1)


def test_asked(begun, library):
    """It waits in the window, and begins by itself once enough are ready."""
    played = begun(ASK, OPENS + 3 * MINUTE)
    is_well(played, child_life(played, library)[0])
    assert played.decided() == [("ask", 2, 3), ("begin", 3, 3)]
    assert OPENS + 3 * MINUTE < played.group_at()[0] < OPENS + 10 * MINUTE


def test_asked_in_vain(begun, library):
    """Once the rest of a window is too short it waits for the next one."""
    played = begun(ASK, OPENS + HOUR + 30 * MINUTE)
    is_well(played, child_life(played, library)[0])
    assert played.decided() == [("ask", 2, 3), ("wait", 2, 3), ("ask", 2, 3), ("wait", 2, 3), ("begin", 3, 3)]
    need = read_plan(played.folder / "plan.toml").need
    waits = [line["t"] for line in played.lines() if line.get("decided") == "wait"]
    assert 0 <= waits[0] - (OPENS + 1_024_000 - 2_000 - need) < 2_000


def test_somebody_begins_it(begun, library, monkeypatch):
    """Stopped while it waits, and run with --begin."""
    played = begun(ASK, OPENS + 5 * HOUR)
    words = lives.tool_words
    stop = played.take

    def take(told, process):
        if told.get("wait", 0) > OPENS + 5_000 and played.t > OPENS + 2_000:
            raise lives.Ended
        stop(told, process)

    played.take = take
    assert child_life(played, library)[0] == 1 and played.decided() == [("ask", 2, 3)]
    played.take = stop
    monkeypatch.setattr(lives, "tool_words", lambda *told: [*words(*told), "--begin"])
    assert child_life(played, library)[0] == 3
    assert played.decided() == [("ask", 2, 3), ("begin", 2, 3)] and played.group_at()[0] < OPENS + 2 * MINUTE and len(played.counts) == 27


def test_away_as_it_opened(begun, library):
    """A command that is begun again once the rest of the window is too short waits for the next one, though all are ready."""
    played = begun(WAIT, 0)
    take = played.take

    def until_ready(told, process):
        if played.t > OPENS - 2 * MINUTE:
            raise lives.Ended
        take(told, process)

    played.take = until_ready
    child_life(played, library)
    played.take, played.t = take, OPENS + 16 * MINUTE
    is_well(played, child_life(played, library)[0])
    assert played.decided() == [("wait", 3, 3), ("begin", 3, 3)] and OPENS + HOUR < played.group_at()[0] < OPENS + 2 * HOUR


# ---- Kills


@pytest.mark.parametrize("seed", range(4))
def test_killed_between_windows(place, library, seed):
    """Killed at steps drawn around the two windows that are passed over, again and again: no count goes out twice, none is lost, and
    the third window updates all."""
    draw, loaded = random.Random(f"ready {seed}"), fuota.Library(library)
    for number in range(5):
        played = Sleeping(laid_out(place / f"campaign{number}", WAIT), loaded, OPENS + HOUR + 30 * MINUTE, seed)
        status, lives = -signal.SIGKILL, 0
        while status == -signal.SIGKILL:
            status, _ = child_life(played, library, draw.randint(2, 25))
            lives += 1
        assert lives > 3
        is_well(played, status)
        assert [word for word, _, _ in played.decided()] == ["wait", "wait", "begin"] and played.counts == sorted(set(played.counts))


# ---- What is said


def test_lines(begun, library):
    """How many are not ready before the window, who never answered, and what is decided."""
    played = begun(WAIT, OPENS + 5 * HOUR)
    status, said = process_life(played, library)
    assert status == 3
    assert re.search(r"^2031-05-06 21:5\d:\d\d UTC: .*; window in \d min( \d+ s)?, 1 of 3 not ready$", said, re.M)
    assert said.count(": passed over, with 2 of 3 devices ready and 3 needed\n") == 3
    assert f"fuota-campaign: no answer so far of 1 device: {EUIS[0]}\n" in said
    assert said.endswith("; no further window can be reached\n")


def test_who_is_silent(begun, library):
    """Begun again it says which devices never answered."""
    played = begun(WAIT, OPENS + 5 * HOUR)
    child_life(played, library, 60)
    _, said = process_life(played, library)
    assert said.startswith(f"fuota-campaign: no answer so far of 1 device: {EUIS[0]}\n")


@pytest.mark.parametrize("count, words", [
    (1, "never heard 1 device: 00"), (2, "never heard 2 devices: 00, 01"),
    (9, "never heard 9 devices: 00, 01, 02, 03, 04, 05, 06, 07 and 1 more")])
def test_who_is_named(count, words):
    assert silence.told_of([f"{number:02}" for number in range(count)], "never heard") == words


def test_who_the_network_server_never_heard(place, library, caplog):
    """A new campaign says what the network server tells of that."""
    class Deaf(carrier.Carrier):
        name = "deaf"

        def wait(self, until):
            return []

        def never_heard(self, plan):
            return [EUIS[2]]

        def to_device(self, device, port, payload):
            pass

        def to_group(self, group, count, port, payload):
            pass

    folder = laid_out(place / "deaf")
    kept = Folder(folder / "state")
    play.Campaign(read_plan(folder / "plan.toml"), kept, Deaf(), fuota.Library(library))
    assert f"the network server never heard 1 device: {EUIS[2]}" in caplog.text
    kept.close()
