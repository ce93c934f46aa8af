"""Plans that are wrong, plans that do not fit, and what a plan comes to."""
import re
import sys

import pytest

import fuota.campaign
from fuota.campaign import command
from fuota.campaign.plan import read_plan
from fuota.errors import Wrong
from lives import BY_UNICAST, DEVICES, EUIS, PLAN, Process, laid_out

# The table of the group.
BY_GROUP = re.search(r"\[group\].*(?=\[window\])", PLAN, re.S)[0]
# What is written in the place of what, and what is said of it; None where that is the reader's of TOML.
FIELDS = [
    ('image = "image"', "image = 1", "image: not a text: 1"),
    ('image = "image"', 'image = "nowhere"', "image: nowhere: No such file or directory"),
    ('image = "image"', 'image = "plan.toml"', "image: plan.toml: not an image file; fuota-image makes one"),
    ('image = "image"', "", 'missing field "image"'),
    ('image = "image"', 'image = "image"\nimages = 1', 'unknown field "images" (did you mean "image"?)'),
    ("size = 25", "size = 0", "fragments.size: 0 is not from 1 to 239"),
    ("size = 25", "size = 240", "fragments.size: 240 is not from 1 to 239"),
    ("size = 25", "size = true", "fragments.size: not a whole number: True"),
    ("size = 25", "size = 2.5", "fragments.size: not a whole number: 2.5"),
    ("size = 25", "size = 113", "fragments.size: data rate 3 carries pieces of 112 bytes at most"),
    ("coded = 20", "coded = 513", "fragments.coded: 513 is not from 0 to 512"),
    ("coded = 20", "coded = -1", "fragments.coded: -1 is not from 0 to 512"),
    ("coded = 20", "coded = 20\nloss = 20", "fragments.loss: coded is given too, and says it already"),
    ("coded = 20", "loss = 20", 'fragments: missing field "share" (loss and share, or coded in their place)'),
    ("coded = 20", "", 'fragments: missing field "loss" (loss and share, or coded in their place)'),
    ("coded = 20", "loss = 99.5\nshare = 99", "fragments.loss: 99.5 is not from 0 to 99"),
    ("coded = 20", "loss = 20\nshare = 100", "fragments.share: 100 is not from 1 to 99.99"),
    ("coded = 20", "loss = 98\nshare = 99", "fragments.share: 99 % of the devices are not complete with 512 coded "
                   "fragments: take more rows, longer pieces, or a smaller share"),
    ("coded = 20", "loss = 60\nshare = 50\nburst = 1.1",
     "fragments.burst: a loss of 60 % needs bursts of 1.5 or more, and not of 1.1"),
    ("index = 1", "index = 4", "fragments.index: 4 is not from 0 to 3"),
    ("[fragments]", "[fragment]", 'unknown field "fragment" (did you mean "fragments"?)'),
    ("id = 2", "id = 4", "group.id: 4 is not from 0 to 3"),
    ("id = 2", "ide = 2", 'group: unknown field "ide" (did you mean "id"?)'),
    ('"01020304"', '"010203"', "group.address: 6 hex digits, and not 8"),
    ('"01020304"', "1020304", "group.address: not a text of hex digits: 1020304"),
    ("0d0e0f", "0d0e0", "group.key: 31 hex digits, and not 32"),
    ("0d0e0f", "0d0e0g", "group.key: not a hex digit: 'g'"),
    ("first = 100", "first = 4294967295", "group.first: 4294967295 is not from 0 to 4294967294"),
    ("end = 200", "end = 120", "group.end: 26 fragments and a request for the status need the frame counts from 100 to 126, "
                  "and 120 ends before"),
    ("end = 200", "", 'group: missing field "end"'),
    ('class = "C"', 'class = "A"', "window.class: 'A' is not one of B, C"),
    ('class = "C"', 'class = "B"', 'window: missing field "periodicity", which class B needs'),
    ('class = "C"', 'class = "C"\nperiodicity = 1', "window.periodicity: only a window of class B has one"),
    ("22:00:00Z", "22:00:00", "window.start: not a moment with its offset, as 2031-05-06T22:00:00Z: 2031-05-06 22:00:00"),
    ("2031-05", "1979-05", "window.start: 1979-05-06 22:00:00 UTC is not within the 32 bits of GPS time"),
    ("2031-05-06T22:00:00Z", "0001-01-01T00:00:00+14:00", "window.start: not within the years 1 to 9999: 0001-01-01 00:00:00+14:00"),
    ("2031-05-06T22:00:00Z", "9999-12-31T23:59:59-14:00", "window.start: not within the years 1 to 9999: 9999-12-31 23:59:59-14:00"),
    ("timeout = 10", "timeout = 16", "window.timeout: 16 is not from 0 to 15"),
    ("869525000", "869.525", "window.frequency: not a whole number: 869.525"),
    ("869525000", "923300000", "window.frequency: 923.3 MHz is not from 863 to 870 MHz, the frequencies of EU868"),
    ('image = "image"', 'image = "image"\nregion = "EU433"', "region: 'EU433' is not one of EU868, US915, AU915, AS923, KR920, IN865, RU864"),
    ('image = "image"', 'image = "image"\nregion = "US915"', "window.data_rate: 3 is not from 8 to 13, the data rates of downlinks in US915"),
    ("869525000", "869525001", "window.frequency: 869525001 Hz is not a multiple of 100 Hz"),
    ("data_rate = 3", "data_rate = 7", "window.data_rate: 7 is not from 0 to 6, the data rates of downlinks in EU868"),
    ("data_rate = 3\n[pace]", "data_rate = 3\nguard = -1\n[pace]", "window.guard: -1 is not from 0 to 3600"),
    ("distance = 1\n", "distance = -1\n", "pace.distance: -1 is not from 0 to 86400"),
    ("duty_cycle = 10", "duty_cycle = 0", "pace.duty_cycle: 0 is not from 0.01 to 100"),
    ("unicast_data_rate = 3", "unicast_data_rate = 9", "pace.unicast_data_rate: 9 is not from 0 to 6, the data rates of downlinks in EU868"),
    ("distance = 60", "distance = 0", "retry.distance: 0 is not from 0.001 to 604800"),
    ("tries = 30", "tries = 0", "retry.tries: 0 is not from 1 to 1000"),
    ("tries = 30", "tries = \"x\"", "retry.tries: not a whole number: 'x'"),
    ("[retry]", "[retries]", 'unknown field "retries" (did you mean "retry"?)'),
    (f'eui = "{EUIS[1]}"', f'eui = "{EUIS[0]}"', f"devices[2].eui: {EUIS[0]} is given twice"),
    (f'eui = "{EUIS[1]}"', 'eui = "01"', "devices[2].eui: 2 hex digits, and not 16"),
    (f'gen_app_key = "{EUIS[2]}', 'gen_app_key = "', "devices[3].gen_app_key: 16 hex digits, and not 32"),
    ("gen_app_key", f"app_key = \"{'0' * 32}\"\ngen_app_key", "devices[1].app_key: gen_app_key is given too: a device has one of them"),
    ("gen_app_key", "app_key = \"00\"\ngen_app_key", "devices[1].app_key: 2 hex digits, and not 32"),
    ('gen_app_key = "' + EUIS[0] * 2 + '"', "", 'devices[1]: missing field "gen_app_key" (of LoRaWAN 1.0, or app_key of LoRaWAN 1.1)'),
    ('class = "A"', 'class = "B"', "devices[1].class: 'B' is not one of A, C"),
    ('class = "A"', "", 'devices[1]: missing field "class"'),
    ('id = "meter-8"', 'id = "meter/8"', "devices[1].id: not a name of letters, digits and . : @ - _: 'meter/8'"),
    (DEVICES, "", 'missing field "devices"'),
    (DEVICES, "devices = []\n", None),
    ("[pace]", "[pace", None),
    ("[retry]", '[server]\nkind = "x"\n[retry]', "server.kind: 'x' is not one of chirpstack, things-stack"),
    ("[retry]", '[server]\nkind = "chirpstack"\nhost = "h"\n[retry]', 'server: missing field "application"'),
    ("[retry]", '[server]\nkind = "chirpstack"\nhost = "h"\napplication = "a"\n[retry]', 'server: missing field "http", which the group needs'),
    ("[retry]", '[server]\nkind = "chirpstack"\nhost = "h"\napplication = "a"\nhttp = "x"\n[retry]',
     "server.http: not an address, as http://localhost:8090: 'x'"),
    ("[retry]", '[server]\nkind = "things-stack"\nhost = "h"\napplication = "a"\ntenant = "t/x"\n[retry]',
     "server.tenant: not a name of letters, digits and . : @ - _: 't/x'"),
    ("[retry]", '[server]\nkind = "things-stack"\nhost = "h"\nport = 0\n[retry]', "server.port: 0 is not from 1 to 65535"),
    ("data_rate = 3", "data_rat = 3", 'window: unknown field "data_rat" (did you mean "data_rate"?)'),
    ("data_rate = 3\n", "", 'window: missing field "data_rate"'),
    ("[window]", "[window]\n[window.more]", 'window: unknown field "more"'),
    ("[group]", "[[group]]", "group: not a table: [{'id': 2"),
    (BY_GROUP, "", 'missing table "group": a group and its window go together'),
    ("[retry]", '[server]\nhost = "h"\n[retry]', 'server: missing field "kind"'),
    ("[retry]", '[server]\nkind = "chirpstack"\nhost = "h"\napplication = "a"\nhttps = "x"\n[retry]',
     'server: unknown field "https" (did you mean "http"?)'),
]


@pytest.mark.parametrize("old, new, message", FIELDS)
def test_fields(tmp_path, monkeypatch, old, new, message):
    """A plan with a field wrong is refused with its place."""
    monkeypatch.chdir(laid_out(tmp_path))
    text = (PLAN + DEVICES).replace(old, new, 1)
    assert text != PLAN + DEVICES
    (tmp_path / "plan.toml").write_text(text)
    with pytest.raises(Wrong) as why:
        read_plan("plan.toml")
    said = str(why.value)
    assert said.startswith(f"plan.toml: {message or ''}") if message is None or message.endswith("'id': 2") else said == f"plan.toml: {message}"
    assert "Errno" not in said


@pytest.fixture
def check(call, tmp_path):
    """What `check` says of a plan."""
    def check(text):
        laid_out(tmp_path, text)
        return call("fuota-campaign", "check", "plan.toml")
    return check


def test_a_wrong_plan(check):
    done = check(PLAN.replace("0d0e0f", "0d0e0"))
    assert (done.status, done.said, done.message) == (2, "", "fuota-campaign: plan.toml: group.key: 31 hex digits, and not 32\n")


def test_no_plan(call):
    done = call("fuota-campaign", "check", "nowhere.toml")
    assert (done.status, done.message) == (2, "fuota-campaign: nowhere.toml: No such file or directory\n")


def test_a_plan_that_fits(check):
    done = check(PLAN)
    # 41 bytes at SF9: 12.25 + 8 + 5 * 9 symbols of 4.096 ms, ten times that from one to the next
    assert done.status == 0
    assert [line for line in done.said.splitlines() if line.split(":")[0] in ("fragments", "group", "air", "time")] == [
        "fragments: 6 of 25 bytes and 20 coded, 26 in all", "group: 01020304, frame counts 100 to 126",
        "air: 0.267 s a fragment, the next one 2.67 s after it", "time: the fragments take 1 min 7 s, the window has 17 min"]


def test_a_plan_that_does_not_fit(check):
    done = check(PLAN.replace("timeout = 10", "timeout = 5"))
    assert (done.status, done.said.splitlines()[-1]) == (
        2, "time: the fragments need 1 min 7 s, the window has 28 s: take another data rate, longer pieces or a longer window")


def plan_of(folder, text, devices=DEVICES):
    return read_plan(laid_out(folder, text, devices) / "plan.toml")


def test_coded_fragments_of_a_loss(tmp_path):
    some, more, none = (plan_of(tmp_path, PLAN.replace("coded = 20", words)).coded
                        for words in ("loss = 20\nshare = 50", "loss = 20\nshare = 99", "loss = 0\nshare = 99"))
    assert some < more and none == 0


@pytest.mark.parametrize("text, wanted", [(BY_UNICAST, None), (PLAN.replace('class = "C"', 'class = "B"\nperiodicity = 3'), 128)],
                         ids=["by unicast", "class B"])
def test_windows(tmp_path, text, wanted):
    plan = plan_of(tmp_path, text)
    assert (plan.window and plan.window.length // 1_024_000) == wanted


def sample_parts():
    """The plan that explains the fields: what comes before the network servers, their tables, and the devices."""
    before, servers, after = re.split(r"(?<=\n)(?=# \[server\])|(?<=\n)(?=\n\[\[devices\]\])", command.plan_text(), maxsplit=2)
    first, *others = servers.split("#\n")
    return before, [re.sub("^# ", "", part, flags=re.M) for part in (first, *("# [server]\n" + other for other in others))], after


@pytest.mark.parametrize("server", [None, *range(len(sample_parts()[1]))])
def test_sample(call, tmp_path, server):
    """The plan that explains the fields, as it stands and for each network server."""
    before, servers, after = sample_parts()
    assert call("fuota-campaign", "sample").said == command.plan_text()
    plan_text = before + after if server is None else before + servers[server] + after.replace('class = "', 'id = "meter"\nclass = "')
    laid_out(tmp_path)
    (tmp_path / "plan.toml").write_text(plan_text)
    plan = read_plan(tmp_path / "plan.toml")
    assert (len(plan.devices), len(plan.group.key), plan.server is not None) == (4, 16, server is not None)


def test_sample_has_each_server():
    named = [re.search('^kind = "(.*?)"', part, re.M)[1] for part in sample_parts()[1]]
    assert named == list(fuota.lns.SERVERS)


@pytest.mark.parametrize("text, words, message", [
    (PLAN.replace("timeout = 10", "timeout = 5"), ["--pipe"], "plan.toml: window: the fragments need 1 min 7 s, the window has 28 s: take "
     "another data rate, longer pieces or a longer window"),
    (PLAN.replace("2031", "2025"), ["--pipe"], "plan.toml: window.start: the moment is past"),
    (PLAN, [], 'plan.toml: missing table "server", and no --pipe'),
    (PLAN, ["--simulated"], "--simulated goes with --pipe")], ids=["a short window", "a window that is past", "no server", "no pipe"])
def test_begins(tmp_path, library, text, words, message):
    """A campaign that can't end well is not begun."""
    process = Process(laid_out(tmp_path, text), library, *words)
    assert (process.end(), process.said) == (2, f"fuota-campaign: {message}\n")


def test_no_rehearsal_of_class_b(call, tmp_path, library):
    laid_out(tmp_path, PLAN.replace('class = "C"', 'class = "B"\nperiodicity = 3'))
    done = call("fuota-campaign", "rehearse", "plan.toml", "state", "--library", library)
    assert (done.status, done.message) == (2, "fuota-campaign: plan.toml: window.class: a rehearsal has only class C\n")


def test_no_library(call, tmp_path):
    laid_out(tmp_path)
    done = call("fuota-campaign", "run", "plan.toml", "other", "--library", "nowhere.so", "--pipe")
    assert done.status == 2 and done.message.endswith("tools/c_library makes it\n")


@pytest.mark.parametrize("text", ["01-02-03-04-05-06-07-08", "01:02:03:04:05:06:07:08", "0102030405060708"])
def test_euis(tmp_path, text):
    """As devices' labels and network servers write them."""
    assert plan_of(tmp_path, PLAN, DEVICES.replace(EUIS[0], text, 1)).devices[0].eui == EUIS[0]


@pytest.mark.parametrize("text", ["AQIDBAUGBwg=", "0102-0304-0506-070", "01-02-03-04-05-06-07"])
def test_no_euis(tmp_path, text):
    with pytest.raises(Wrong):
        plan_of(tmp_path, PLAN, DEVICES.replace(EUIS[0], text, 1))


@pytest.mark.parametrize("mode, said", [(0o600, []), (0o400, []), (0o640, ["0640"]), (0o604, ["0604"])])
def test_plans_that_others_may_read(call, tmp_path, mode, said):
    laid_out(tmp_path)
    (tmp_path / "plan.toml").chmod(mode)
    done = call("fuota-campaign", "check", "plan.toml")
    assert [line for line in done.said.splitlines() if line.startswith("keys")] == [
        f"keys: others may read plan.toml (mode {one}), and it has keys: chmod 600 plan.toml" for one in said]
    assert (done.status, done.message) == (0, "")


def test_a_plan_that_others_may_read_is_run(tmp_path, library):
    laid_out(tmp_path)
    (tmp_path / "plan.toml").chmod(0o644)
    process = Process(tmp_path, library)
    assert (process.end(), process.said.splitlines()[0]) == (
        2, "fuota-campaign: others may read plan.toml (mode 0644), and it has keys: chmod 600 plan.toml")


CHIRPSTACK = ('[server]\nkind = "chirpstack"\nhost = "h"\napplication = "a"\nhttp = "http://h"\nmulticast_group = "g"\n'
              'token_file = "token"\n')


@pytest.mark.parametrize("more, message", [("", "server.token_file: token: No such file or directory"),
                                           ('access_file = "access.toml"\n', "access.toml: No such file or directory")])
def test_files_of_a_server(check, tmp_path, more, message):
    """`check` reads what the network server needs beside the plan."""
    if more:
        (tmp_path / "token").write_text("a-key")
        (tmp_path / "token").chmod(0o600)
    done = check(PLAN + CHIRPSTACK + more)
    assert (done.status, message in done.message, "a-key" in done.message + done.said) == (2, True, False)


@pytest.mark.parametrize("name", ["journal", "state"])
def test_no_rehearsal_in_a_used_folder(call, tmp_path, library, name):
    laid_out(tmp_path)
    (tmp_path / "used").mkdir()
    (tmp_path / "used" / name).write_text("")
    done = call("fuota-campaign", "rehearse", "plan.toml", "used", "--library", library)
    assert (done.status, done.said, done.message) == (
        2, "", "fuota-campaign: used: a campaign is kept there already, and a rehearsal takes a new folder\n")
