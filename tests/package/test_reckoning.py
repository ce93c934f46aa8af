"""What a plan comes to: when it has to begin, whether it can be ready, and that a rehearsal of so many devices is."""
import re
from fractions import Fraction

import pytest

import fuota
from fuota.campaign import command, progress, reckoning
from fuota.campaign.plan import gps, moment_of, read_plan
from fuota.campaign.rehearsal import Fleet
from fuota.theory import duration
from lives import BY_UNICAST, DEVICES, PLAN, VERSION, Process, devices_of, image_file, laid_out

OPENS = 1_935_871_200_000
MINUTE = 60_000


@pytest.mark.parametrize("exchanges, lost, most", [(1, 0, 0), (5, 0, 0), (1, 0.5, 6), (1, 0.25, 3), (2, 0.125, 2), (5, 0.1875, 5)])
def test_failures(exchanges, lost, most):
    """By the share of all runs of so many tries in which enough succeed."""
    def chance(tries):
        """That so many tries have enough that succeed."""
        shares = [Fraction(1)] + [Fraction(0)] * exchanges
        for _ in range(tries):
            shares = [(shares[k] * (Fraction(lost) if k < exchanges else 1)) + (shares[k - 1] * (1 - Fraction(lost)) if k else 0)
                      for k in range(exchanges + 1)]
        return shares[exchanges]

    assert reckoning.failures(exchanges, lost) == most
    assert chance(exchanges + most) >= Fraction(99, 100) and (most == 0 or chance(exchanges + most - 1) < Fraction(99, 100))


def plan_of(folder, text=PLAN, devices=DEVICES):
    return read_plan(laid_out(folder, text, devices) / "plan.toml")


# At SF9 a symbol takes 4.096 ms. Frames of 14, 43, 24 and 19 bytes have 12.25 + 8 and 5 for each of 3, 10, 6 and 4 blocks. Three
# devices are sent one of 14, one of 43, two of 24 and one of 19 each, with ten times its air from one to the next.
PACE = 3 * 10 * 4.096 * (5 * 20.25 + 5 * (3 + 10 + 2 * 6 + 4))


def test_set_up(tmp_path):
    phase = reckoning.set_up_of(plan_of(tmp_path))
    assert phase.payloads == 15 and phase.least == pytest.approx(PACE, rel=0.001)
    # each of five exchanges waits for an uplink and an answer, and five fail, each of which takes a retry and an uplink more
    assert phase.likely == pytest.approx(phase.least / 0.81 + 5 * 63_000 + 5 * 120_000)


@pytest.mark.parametrize("text, devices, shorter", [
    (PLAN, devices_of("CCC"), 10 * MINUTE), (PLAN.replace("_rate = 3\n[retry]", "_rate = 3\nuplink_period = 30\n[retry]"), DEVICES, 5 * MINUTE),
    (PLAN.replace("coded = 20", "loss = 0\nshare = 99"), DEVICES, 10 * MINUTE)], ids=["class C", "uplinks", "no loss"])
def test_what_counts(tmp_path, text, devices, shorter):
    """Devices of class C, more uplinks and less loss make the set-up shorter by their part."""
    before, after = (reckoning.set_up_of(plan_of(tmp_path, *words)).likely for words in ((PLAN, DEVICES), (text, devices)))
    assert shorter - MINUTE < before - after < shorter + MINUTE


def test_by_unicast(tmp_path):
    """Without a window nothing has to begin, and the end counts from the begin."""
    plan = plan_of(tmp_path, BY_UNICAST)
    assert reckoning.begin_of(plan) is None and reckoning.unfit(plan, OPENS) is None and reckoning.lateness(plan, OPENS) is None
    lines = list(reckoning.lines_of(plan, OPENS))
    assert re.fullmatch(r"end: about \d+ min \d+ s after the begin", lines[-1]) and not any(line.startswith("begin") for line in lines)


NOT_READY = ("window.start: the window opens in 10 s, and the set-up takes {} or more: take a later window, a higher "
             "pace.unicast_data_rate, or fewer devices")


def test_when(tmp_path):
    """Early enough, late, too late, and past."""
    plan = plan_of(tmp_path)
    begin = reckoning.begin_of(plan)
    assert begin % 1000 == 0 and 0 <= OPENS - begin - reckoning.set_up_of(plan).likely < 1000
    assert (reckoning.unfit(plan, begin), reckoning.lateness(plan, begin)) == (None, None)
    late = reckoning.lateness(plan, begin + 1)
    assert late == (f"the set-up should begin before {moment_of(begin)}: some devices may not be ready when the window opens")
    assert [line for line in reckoning.lines_of(plan, begin + 1) if line.startswith("begin")] == [
        f"begin: before {moment_of(begin)}, which is past: some devices may not be ready"]
    assert reckoning.unfit(plan, OPENS - 10_000) == NOT_READY.format(duration(reckoning.set_up_of(plan).least))
    assert reckoning.unfit(plan, OPENS) == "window.start: the moment is past"


@pytest.mark.parametrize("before, status, said", [(10 * 86_400_000, 0, ""), (10_000, 2, "window.start: the window opens in 10 s, "),
                                                  (0, 2, "window.start: the moment is past\n")], ids=["early", "too late", "past"])
def test_check(call, tmp_path, monkeypatch, before, status, said):
    """`check` says it of the moment at which it is called."""
    monkeypatch.setattr(command.time, "time_ns", lambda: (OPENS - before) * 1_000_000)
    laid_out(tmp_path)
    done = call("fuota-campaign", "check", "plan.toml")
    assert (done.status, done.message.startswith(f"fuota-campaign: plan.toml: {said}" if said else "")) == (status, True)
    assert done.said.count("\nend: about 2031-05-06 22:") == 1


def test_tries_that_end_before_an_uplink(call, tmp_path):
    laid_out(tmp_path, PLAN.replace("unicast_data_rate = 3", "unicast_data_rate = 3\nuplink_period = 3600"))
    done = call("fuota-campaign", "check", "plan.toml")
    assert (done.status, done.message) == (2, "fuota-campaign: plan.toml: retry.tries: 30 tries take 30 min, and an uplink of class A "
                                              "comes each 1 h: take more, or a longer distance\n")


# ---- Over the library


def test_a_campaign_that_cant_be_ready(tmp_path, library):
    """It is not begun, and nothing is kept of it."""
    process = Process(laid_out(tmp_path), library, "--pipe", "--simulated")
    process.write({"time": OPENS - 10_000})
    assert process.end() == 2 and process.said.startswith("fuota-campaign: plan.toml: window.start: the window opens in 10 s, ")
    assert not (tmp_path / "state" / "state").exists()


def test_lengths(tmp_path, library):
    """What is reckoned of requests and answers is what the library sends."""
    plan, calls, sent = plan_of(tmp_path), fuota.Library(library), {}
    begin = OPENS - 60 * MINUTE
    fleet = Fleet(plan, calls, begin, MINUTE)
    with fuota.Server(plan.for_library(), plan.devices_for_library, plan.image.data, calls) as server:
        t = begin
        while len(sent) < 9:
            t += 1_000
            for dev, device in enumerate(plan.devices, 1):
                stage, down = server.ledger(dev).word, server.ask(dev)
                if down and (stage != "status" or server.fragment_number() > plan.fragments):
                    sent.setdefault(stage, set()).add(down.length)
                    fleet.devices[device.eui].queue[:] = []
                    fleet.to_device(t, device.eui, down.port, down.data)
            if t > OPENS and server.fragment_number() <= plan.fragments:
                down = server.next_fragment()
                fleet.to_group(t, down.count, down.port, down.data)
            for uplink in fleet.advance(t):
                dev = list(fleet.devices).index(uplink.eui) + 1
                answer = server.uplink(dev, uplink.port, uplink.payload, gps(t)) if uplink.port >= 200 else None
                if answer:
                    sent.setdefault("time", set()).add(answer.length)
                    fleet.to_device(t, uplink.eui, answer.port, answer.data)
    fleet.close()
    assert sent == {**{stage: {length} for stage, length in reckoning.REQUESTS.items()}, "time": {reckoning.TIME_ANSWER}}




def shipped(folder, first, count):
    """The plan as it is shipped, with so many devices in the place of its own, from a number on, of which each fourth is of class C."""
    folder.mkdir()
    (folder / "image").write_bytes(image_file(bytes(k * k % 251 for k in range(4_893)), VERSION))
    text = command.plan_text().split("\n[[devices]]")[0]
    devices = "".join(f'\n[[devices]]\neui = "{0x0102030405060700 + number:016x}"\ngen_app_key = "{number + 1:032x}"\n'
                      f'class = "{"AAAC"[number % 4]}"\n' for number in range(first, first + count))
    (folder / "plan.toml").write_text(text + devices)
    return folder


@pytest.mark.parametrize("first, count, loss", [(0, 4, 0), (0, 4, 10), (0, 64, 0), (0, 64, 10)])
def test_rehearsals_of_the_shipped_plan(call, place, library, first, count, loss):
    """Each device is ready when the window opens, and each that hears enough is updated; a rehearsal says when it begins, and why."""
    folder = shipped(place / "shipped", first, count)
    done = call("fuota-campaign", "rehearse", "plan.toml", "state", "--loss", loss, "--library", library, folder=folder)
    plan = read_plan(folder / "plan.toml")
    kept = progress.Kept(folder / "state")
    assert done.said.startswith(f"begins {moment_of(reckoning.begin_of(plan))}, since the set-up takes about "
                                f"{duration(reckoning.set_up_of(plan).likely)}\n")
    ready = [t for contact in kept.contacts for word, t in contact.words if word == "status"]
    assert len(ready) == count and max(ready) < plan.window.opens
    words = [contact.word for contact in kept.contacts]
    assert set(words) <= {"updated", "incomplete"} and words.count("updated") >= (count if loss == 0 else 0.9 * count), done.said
    assert done.status == (0 if set(words) == {"updated"} else 3)
