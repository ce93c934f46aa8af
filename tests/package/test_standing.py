"""How each device of a campaign stands, and why: in the line, the table, the picture, and for other programs."""
import csv
import io
import json
import re
from xml.etree import ElementTree

import pytest

import fuota
from fuota.campaign import heard, progress
from fuota.campaign.plan import read_plan
from lives import EUIS, Played, child_life, laid_out, process_life

OPENS = 1_935_871_200_000


@pytest.mark.parametrize("stage, bits, words", [
    ("version", 1, "the image is not for its hardware"), ("group", 4, "it has no group of this id"),
    ("fragments", 1, "it does not know the coding"), ("fragments", 2, "it has too little memory for the session"),
    ("fragments", 4, "it has no session of this index"), ("fragments", 8, "it takes another descriptor"),
    ("fragments", 6, "it has too little memory for the session, it has no session of this index"),
    ("window", 4, "it does not take the data rate"), ("window", 8, "it does not take the frequency"),
    ("window", 16, "it has no group of this id"), ("status", 1, "it has too few rows for what it lost"),
    ("image", 0, "it has no image"), ("image", 1, "its image is corrupt"), ("image", 2, "its image is not for its hardware"),
    ("image", 3, "its image has another version"), ("image", 4, "bits 4"), ("group", 1, "bits 1"), ("reboot", 1, "bits 1")])
def test_refusals(stage, bits, words):
    assert heard.refusal(stage, bits) == words


@pytest.mark.parametrize("behind, start, text", [
    (None, None, "McClassCSessionAns id=2 bits=0 start=600"), (60_000, 660, "McClassCSessionAns id=2 bits=0 start=660"),
    (-3_001, 597, "McClassCSessionAns id=2 bits=0 start=597"), (-600_000, 0, "McClassCSessionAns id=2 bits=0 start=0"),
    (None, None, "McClassCSessionAns id=1 bits=0 start=0"), (None, None, "McClassBSessionAns id=2 bits=0 start=0"),
    (None, None, "McClassCSessionAns id=2 bits=8 start=-"), (None, None, "McGroupSetupAns id=2 error=0")])
def test_clocks(tmp_path, behind, start, text):
    """TimeToStart beside the plan's, ten minutes and 1 ms before the window; a guard of 2 s and a second more are no fault."""
    told = heard.clock_error([text], read_plan(laid_out(tmp_path) / "plan.toml"), OPENS - 600_000 - (text.endswith("=597")))
    assert told == ({} if behind is None else {"behind": behind, "start": start})


# ---- By a journal

BEGIN = {"t": OPENS - 3_600_000, "version": 1, "devices": EUIS, "by": "pipe", "index": 1, "fragments": 26}
WINDOW = {"first": 100, "opens": OPENS, "closes": OPENS + 1_024_000}


def kept(folder, *lines, begin=BEGIN | WINDOW):
    """A folder with these lines after the first, a minute from one to the next."""
    folder.mkdir()
    told = [begin, *({"t": begin["t"] + 60_000 * number} | line for number, line in enumerate(lines, 1))]
    (folder / "journal").write_text("".join(json.dumps(line) + "\n" for line in told))
    return folder


ASKED = {"sent": "request", "stage": "version", "device": EUIS[1], "air": 60}
FATES = ({"device": EUIS[0], "heard": "0108", "port": 200, "stage": "refused", "request": "window", "bits": 12,
          "answer": "McClassCSessionAns id=2 bits=12 start=-"},
         ASKED, ASKED, {"device": EUIS[1], "silent": "version", "tries": 2},
         {"device": EUIS[2], "heard": "", "port": 200, "stage": "status", "behind": 61_000, "start": 99},
         {"device": EUIS[2], "heard": "", "port": 201, "stage": "status", "missing": 3, "over": True},
         {"sent": "fragment", "number": 1, "count": 104, "air": 200}, {"given": 107},
         {"device": EUIS[2], "silent": "status", "tries": 2})
WHY = ["at window: it does not take the data rate, it does not take the frequency (McClassCSessionAns id=2 bits=12 start=-)",
       "at version, after 2 tries, since 2031-05-06 21:04:00 UTC",
       "3 missing, after 2 tries, since 2031-05-06 21:09:00 UTC; its clock was 1 min 1 s behind"]


def test_table(call, tmp_path):
    kept(tmp_path / "state", *FATES)
    done = call("fuota-campaign", "status", "state")
    assert (done.status, done.said.splitlines()) == (0, [
        "fragments 1 of 26, next frame count 108, last change 2031-05-06 21:09:00 UTC",
        "device            stage               missing  last heard               why",
        f"{EUIS[0]}  refused                   -  2031-05-06 21:01:00 UTC  {WHY[0]}",
        f"{EUIS[1]}  version, silent           -  -                        {WHY[1]}",
        f"{EUIS[2]}  status, incomplete        3  2031-05-06 21:06:00 UTC  {WHY[2]}"])


def test_line(tmp_path):
    contacts = progress.Kept(kept(tmp_path / "state", *FATES)).contacts
    assert progress.counts_of(contacts) == ("refused 1 (at window: it does not take the data rate, it does not take the frequency), "
                                            "incomplete 1 (3 missing), silent 1 (at version)")


def test_exports(call, tmp_path):
    """JSON has all, and CSV the same of the devices."""
    kept(tmp_path / "state", *FATES)
    told = json.loads(call("fuota-campaign", "status", "state", "--json").said)
    devices = told.pop("devices")
    assert told == {"by": "pipe", "begin": "2031-05-06T21:00:00Z", "last_change": "2031-05-06T21:09:00Z", "fragments_sent": 1,
                    "fragments": 26, "reserve": 0, "rounds": 0, "next_frame_count": 108, "window_opens": "2031-05-06T22:00:00Z", "window_closes": "2031-05-06T22:17:04Z",
                    "windows": [{"opens": "2031-05-06T22:00:00Z", "closes": "2031-05-06T22:17:04Z", "decided": None, "ready": None,
                                 "needed": None}]}
    assert devices[0] == {"eui": EUIS[0], "stage": "refused", "word": "refused", "since": "2031-05-06T21:01:00Z", "tries": 0,
                          "missing": None, "last_heard": "2031-05-06T21:01:00Z", "clock_behind_ms": None, "why": WHY[0], "deleted": None}
    assert [(device["word"], device["tries"], device["why"]) for device in devices[1:]] == [("silent", 2, WHY[1]), ("incomplete", 2, WHY[2])]
    rows = list(csv.DictReader(io.StringIO(call("fuota-campaign", "status", "state", "--csv").said)))
    assert rows == [{name: "" if value is None else str(value) for name, value in device.items()} for device in devices]


def test_one_form(call, tmp_path):
    kept(tmp_path / "state")
    assert call("fuota-campaign", "status", "state", "--csv", "--json").status == 2


def drawn(kept):
    root = ElementTree.fromstring(progress.Picture(kept).drawn())
    return [one.text for one in root.iter() if one.tag.endswith("text")], [one for one in root.iter() if one.tag.endswith("path")]


def test_picture(tmp_path):
    """Causes, the edges of the window, hours of the day, and a colour for each word."""
    texts, paths = drawn(progress.Kept(kept(tmp_path / "state", *FATES[:1], *[{"lost": ""}] * 60)))
    assert WHY[0] in texts and texts.count("window opens") == 1 and "closes" not in texts
    assert [text for text in texts if re.fullmatch(r"\d\d:\d\d", text)] == [f"{21 + minute // 60}:{minute % 60:02}" for minute in range(0, 70, 10)]
    assert {"silent", "incomplete", "refused"} <= set(texts)
    assert sum("stroke-dasharray" in one.attrib for one in paths) == 1


def test_colours_in_time(tmp_path):
    """A device that is given up, heard and asked again changes its colour with it."""
    back = {"device": EUIS[1], "heard": "", "port": 203, "stage": "version", "back": True}
    contact = progress.Kept(kept(tmp_path / "state", *FATES[1:4], back, {"device": EUIS[1], "heard": "", "port": 203, "stage": "group"})).contacts[1]
    assert [(word, (t - BEGIN["t"]) // 60_000) for word, t in contact.words] == [("version", 0), ("silent", 3), ("version", 4), ("group", 5)]


@pytest.mark.parametrize("span, wanted", [(8_000, "21:00:01"), (4 * 3_600_000, "21:30"), (8 * 86_400_000, "2031-05-07")])
def test_ticks(span, wanted):
    """At round times of the day, whatever the begin is."""
    begin = BEGIN["t"] - 500
    assert wanted in [words for _, words in progress.ticks(begin, begin + span)]


def test_journals_of_before(tmp_path):
    """A journal without the members that came later: what is not known is not said."""
    older = [{name: value for name, value in line.items() if name not in ("request", "bits", "answer", "behind", "start")} for line in FATES]
    told = progress.Kept(kept(tmp_path / "state", *older, begin=BEGIN))
    assert [contact.why for contact in told.contacts] == ["at version", WHY[1], WHY[2].split(";")[0]]
    assert told.history.window is None and told.history.next_count == 108
    drawn(told)


# ---- Over the library

OTHERS = [("hw", 9, r"at version: the image is not for its hardware \(DevVersionAns fw=\d+ hw=9\)"),
          ("groups", 1, r"at group: it has no group of this id \(McGroupSetupAns id=2 error=1\)"),
          ("sessions", 1, r"at fragments: it has no session of this index \(FragSessionSetupAns index=1 bits=4\)"),
          ("area", 10, r"at fragments: it has too little memory for the session \(FragSessionSetupAns index=1 bits=2\)"),
          ("rows", 0, r"at status: it has too few rows for what it lost \(FragSessionStatusAns index=1 received=\d+ missing=\d+ norows=1\)")]


@pytest.mark.parametrize("field, value, wanted", OTHERS, ids=[name for name, _, _ in OTHERS])
def test_devices_that_refuse(tmp_path, library, call, monkeypatch, field, value, wanted):
    """A device that differs from what the plan supposes says why it refuses."""
    make = fuota.library.Config
    monkeypatch.setattr(fuota.library, "Config", lambda **told: make(**told | {field: value}))
    played = Played(laid_out(tmp_path / "campaign"), fuota.Library(library), 3, 0)
    monkeypatch.undo()
    bring = played.fleet.to_group
    # (the first piece is lost)
    played.fleet.to_group = lambda t, count, port, payload: None if count == 100 else bring(t, count, port, payload)
    status, said = process_life(played, library)
    done = call("fuota-campaign", "status", "state", "--csv", folder=played.folder)
    found = [row["why"] for row in csv.DictReader(io.StringIO(done.said)) if row["word"] == "refused"]
    assert status == 3 and found and all(re.fullmatch(wanted, why) for why in found), done.said
    assert f"refused {len(found)} ({wanted.split(' ' + chr(92))[0]})" in said


def test_what_the_first_line_tells(tmp_path, library):
    """The window, and the group's next frame count before and after the fragments."""
    played = Played(laid_out(tmp_path / "campaign"), fuota.Library(library), 3, 0)
    child_life(played, library, 8)
    history = progress.Kept(played.folder / "state").history
    assert (history.window, history.next_count, played.counts) == ((OPENS, OPENS + 1_024_000), 100, [])
    child_life(played, library)
    assert progress.Kept(played.folder / "state").history.next_count == played.counts[-1] + 1 > 100


@pytest.mark.parametrize("obeys", [True, False])
def test_wrong_clock(tmp_path, library, obeys):
    """A device whose first answer for the time was wrong by 300 s tells so as it answers for the window, and is asked to ask again:
    up to three times, where it does not."""
    played = Played(laid_out(tmp_path / "campaign"), fuota.Library(library), 3, 0)
    bring, wrong = played.fleet.bring, iter([300])

    def bring_wrong(t, device, port, payload, count=None):
        if device.eui == EUIS[0] and port == 202:
            if payload[0] == 1:
                correction = int.from_bytes(payload[1:5], "little", signed=True) + next(wrong, 0)
                payload = payload[:1] + correction.to_bytes(4, "little", signed=True) + payload[5:]
            elif not obeys:
                return
        bring(t, device, port, payload, count)

    played.fleet.bring = bring_wrong
    child_life(played, library)
    lines = [json.loads(line) for line in (played.folder / "state" / "journal").read_text().splitlines()]
    own = [line for line in lines if line.get("device") == EUIS[0]]
    told, = (line for line in own if "behind" in line)
    assert -300_000 - 1_000 < told["behind"] < -300_000 + 1_000 and told["start"] > 0
    asked = [line["t"] for line in own if line.get("sent") == "resync"]
    assert len(asked) == (1 if obeys else 3) and all(told["t"] <= t < OPENS + 1_024_000 for t in asked)
    contact = progress.Kept(played.folder / "state").contacts[0]
    assert not obeys or (contact.behind, contact.stage) == (None, "updated"), contact.why


def test_a_clock_that_is_set(tmp_path):
    """What was wrong with a clock is not said of a device that was given the time since."""
    contact = progress.Kept(kept(tmp_path / "state", *FATES, {"sent": "answer", "device": EUIS[2], "air": 60})).contacts[2]
    assert contact.behind is None and contact.why == WHY[2].split(";")[0]
