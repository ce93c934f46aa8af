"""What goes out when, in simulated time: devices that ask again and again, or do not answer, hold up no others."""
import heapq
import itertools
import json
import math

import pytest

import fuota
from fuota.campaign import carrier, play
from fuota.campaign.folder import Folder
from fuota.campaign.plan import gps, read_plan
from lives import BY_UNICAST, PLAN, laid_out

BEGIN = 1_935_871_200_000 - 4 * 3_600_000
HOUR, MINUTE = 3_600_000, 60_000
# What the field of each device has: its clock is so many seconds ahead.
AHEAD = 77


def eui_of(number):
    return f"01020304050607{number:02x}"


def devices(count, kind="A"):
    return "".join(f'[[devices]]\neui = "{eui_of(number)}"\ngen_app_key = "{number:032x}"\nclass = "{kind}"\n' for number in range(1, count + 1))


class Desk(carrier.Carrier):
    """A network server that notes what it is given, in a time that is its events'."""

    name, tick = "desk", math.inf

    def __init__(self):
        self.t, self.order, self.events, self.sent = BEGIN, itertools.count(), [], []
        # What a payload to a device brings up again, by its EUI.
        self.answers = {}

    def now(self):
        return self.t

    def comes(self, t, eui, port, payload):
        heapq.heappush(self.events, (t, next(self.order), eui, port, payload))

    def wait(self, until):
        moment = self.events[0][0] if self.events else math.inf
        self.t = max(self.t, int(min(moment, until)))
        heard = []
        while self.events and self.events[0][0] <= self.t:
            t, _, eui, port, payload = heapq.heappop(self.events)
            heard.append(carrier.Uplink(eui, port, payload, t))
        return heard

    def to_device(self, device, port, payload):
        self.sent.append((self.t, device.eui, port, payload))
        if device.eui in self.answers:
            self.answers[device.eui](port, payload)

    def to_group(self, group, count, port, payload):
        self.sent.append((self.t, None, port, payload))

    def requests(self):
        return [eui for _, eui, port, _ in self.sent if eui and port != 202]

    def given(self, eui=None):
        """The answers that went out, to one device or to all: when, to whom, and what."""
        return [(t, to, payload) for t, to, port, payload in self.sent if port == 202 and to and eui in (None, to)]


def time_request(t, token=0):
    """AppTimeReq (TS003-1.0.0, with AnsRequired) of a device whose clock is ahead."""
    return bytes([1]) + (gps(t) // 1000 + AHEAD).to_bytes(4, "little") + bytes([16 | token])


def asks(desk, eui, every, until, first=0):
    """Has a device ask for the time again and again."""
    for t in range(BEGIN + first, BEGIN + until, every):
        desk.comes(t, eui, 202, time_request(t))


@pytest.fixture
def begun(tmp_path, library, monkeypatch):
    """A campaign of so many devices over a desk; nobody waits for the disk."""
    folders = []
    monkeypatch.setattr("os.fsync", lambda handle: None)

    def begun(text, count, kind="A"):
        folder = laid_out(tmp_path / "campaign", text, devices(count, kind))
        desk, kept = Desk(), Folder(folder / "state")
        folders.append(kept)
        return desk, play.Campaign(read_plan(folder / "plan.toml"), kept, desk, fuota.Library(library))

    yield begun
    for folder in folders:
        folder.close()


def played(desk, campaign, until):
    while desk.t < BEGIN + until and campaign.step():
        pass


# As the plan that `sample` prints: data rate 0 for what goes by unicast.
SLOW = PLAN.replace("unicast_data_rate = 3", "unicast_data_rate = 0").replace("distance = 60", "distance = 120")
QUICK = PLAN.replace("duty_cycle = 10", "duty_cycle = 100").replace("unicast_data_rate = 3", "unicast_data_rate = 5")


def test_all_ask_for_the_time(begun):
    """64 devices that ask every 10 minutes are all requested, and all answered, within an hour."""
    desk, campaign = begun(SLOW, 64)
    for number in range(1, 65):
        asks(desk, eui_of(number), 10 * MINUTE, HOUR, number * 5_000)
    played(desk, campaign, HOUR)
    assert set(desk.requests()) == {eui for _, eui, _ in desk.given()} == {eui_of(number) for number in range(1, 65)}


@pytest.mark.parametrize("kind", ["A", "C"])
def test_one_asks_without_an_end(begun, kind):
    """It is answered as often as it would be asked, and the others are asked as if it were not there."""
    desk, campaign = begun(QUICK, 4, kind)
    asks(desk, eui_of(1), 1_000, 10 * MINUTE)
    played(desk, campaign, 10 * MINUTE)
    moments = [t for t, _, _ in desk.given(eui_of(1))]
    assert 8 <= len(moments) <= 11 and all(later - before >= MINUTE for before, later in itertools.pairwise(moments))
    assert all(desk.requests().count(eui_of(number)) >= (1 if kind == "A" else 9) for number in (2, 3, 4))


def test_the_newest_answer(begun):
    """Of those that wait only the newest goes out, and is right although it waited: it says by how much the clock was wrong."""
    desk, campaign = begun(SLOW, 1, "C")
    for at in range(1, 6):
        t = BEGIN + 500 * at
        desk.comes(t, eui_of(1), 202, time_request(t, at))
    played(desk, campaign, 10 * MINUTE)
    (t, _, payload), = desk.given()
    assert t > BEGIN + 10_000 and payload == bytes([1]) + (-AHEAD).to_bytes(4, "little", signed=True) + bytes([5])


def test_an_answer_that_was_lost(begun, monkeypatch):
    """A device whose answer for the window tells a wrong clock after it was answered is answered in turn with the requests, up to four
    times; one of which nothing tells that waits until no request is due."""
    desk, campaign = begun(SLOW, 40, "C")
    for eui in (eui_of(1), eui_of(2)):
        contact = campaign.history.contacts[eui]
        contact.take({"t": BEGIN, "sent": "answer", "device": eui})
    campaign.history.contacts[eui_of(1)].take({"t": BEGIN, "device": eui_of(1), "heard": "", "behind": -5_000, "start": 0})
    for eui in (eui_of(1), eui_of(2)):
        asks(desk, eui, 30_000, HOUR)
    played(desk, campaign, HOUR)
    first, second = ([t for t, _, _ in desk.given(eui_of(number))] for number in (1, 2))
    assert first[0] < BEGIN + 4 * MINUTE and len([t for t in first if t < BEGIN + 12 * MINUTE]) == 3
    assert not any(t < BEGIN + 12 * MINUTE for t in second)


def test_answers_keep_the_pace(begun):
    """First answers and requests by turns, none earlier than the air time of the one before allows."""
    desk, campaign = begun(SLOW, 6, "C")
    for number in range(1, 7):
        asks(desk, eui_of(number), 30_000, 20 * MINUTE)
    played(desk, campaign, 20 * MINUTE)
    kinds = [port == 202 for _, _, port, _ in desk.sent]
    assert kinds.count(True) > 20 and kinds.count(False) > 20
    assert all(later - before >= campaign.plan.distance(campaign.plan.air(len(payload), False)) - 1
               for (before, _, _, payload), (later, _, _, _) in itertools.pairwise(desk.sent))
    assert kinds[:12] in ([True, False] * 6, [False, True] * 6), kinds[:20]


def test_nobody_answers_but_the_last(begun):
    """Devices that do not answer hold up none: the one that does is asked on at once."""
    desk, campaign = begun(SLOW, 20, "C")
    last = eui_of(20)
    desk.answers[last] = lambda port, payload: desk.comes(desk.t + 2_000, last, *up_of(port, payload))
    played(desk, campaign, HOUR)
    first = desk.requests().index(last)
    assert first == 19 and desk.requests()[first + 1] == last
    assert [contact.stage for contact in campaign.contacts] == 19 * ["version"] + ["group"]


def up_of(port, payload):
    """DevVersionAns (TS006-1.0.0) of firmware 1 and hardware 1 to a request for it, else nothing."""
    return (203, bytes([1, 1, 0, 0, 0, 1, 0, 0, 0])) if (port, payload) == (203, b"\1") else (1, b"")


def test_the_longest_due_comes_first(begun):
    """Of devices that were asked equally often each comes once before one comes again."""
    desk, campaign = begun(SLOW, 12, "C")
    played(desk, campaign, HOUR)
    turns = desk.requests()[:48]
    assert all(len(set(turns[at:at + 12])) == 12 for at in range(0, 48, 12))


def test_nothing_piles_up(begun):
    """While a payload waits for an uplink of a device, no answer is put behind it."""
    desk, campaign = begun(QUICK, 1)
    asks(desk, eui_of(1), 90_000, 30 * MINUTE)
    waiting = 0
    events = list(desk.events)
    played(desk, campaign, 30 * MINUTE)
    for t, is_up in sorted([(t, 0) for t, *_ in events] + [(t, 1) for t, *_ in desk.sent]):
        waiting = waiting + 1 if is_up else max(0, waiting - 1)
        assert waiting <= 1
    assert desk.requests() and desk.given()


def test_asking_keeps_nothing_alive(begun):
    """A campaign whose devices were given up ends, although one asks on."""
    desk, campaign = begun(QUICK.replace("tries = 30", "tries = 2"), 2, "C")
    asks(desk, eui_of(1), 1_000, 2 * HOUR)
    played(desk, campaign, 2 * HOUR)
    assert desk.t < BEGIN + HOUR and campaign.next_action() is None


@pytest.fixture
def at_status(monkeypatch):
    """Has all devices wait for fragments."""
    stage = fuota.library.Stage(stage=fuota.library.StageKind.AT, request=fuota.library.Request.REQUEST_STATUS)
    monkeypatch.setattr(fuota.Server, "ledger", lambda *_: stage)


@pytest.mark.parametrize("text, kind", [(BY_UNICAST, "A"), (BY_UNICAST, "C"), (PLAN, "C")], ids=["by unicast, A", "by unicast, C", "group"])
def test_fragments_and_answers(begun, at_status, text, kind):
    """Fragments and answers go out by turns; in a window fragments lose no time by them."""
    desk, campaign = begun(text, 2, kind)
    begin = max(BEGIN, campaign.plan.window.opens if campaign.plan.window else 0) - BEGIN
    for number in (1, 2):
        asks(desk, eui_of(number), 5_000, begin + 20 * MINUTE, begin)
    played(desk, campaign, begin + 20 * MINUTE)
    fragments = [t for t, _, port, payload in desk.sent if port == 201 and payload[0] == 8]
    if campaign.plan.group:
        assert len(fragments) == 26 and fragments[-1] - fragments[0] < 26 * (campaign.plan.distance(campaign.plan.fragment_air) + 1_000)
    else:
        assert len(fragments) == 52
    between = [t for t, _, _ in desk.given() if fragments[0] < t < fragments[-1]]
    assert len(between) >= 2


def test_what_came_together_is_kept_at_once(begun, monkeypatch):
    """One state and one sync for uplinks that came together, and nothing goes out before."""
    desk, campaign = begun(SLOW, 30, "C")
    order = []
    keep, write = campaign.folder.keep, campaign.folder.journal.write
    monkeypatch.setattr(campaign.folder, "keep", lambda saved: (order.append("keep"), keep(saved)))
    monkeypatch.setattr(campaign.folder.journal, "write", lambda *lines: (order.append(len(lines)), write(*lines)))
    for number in range(1, 31):
        desk.comes(BEGIN, eui_of(number), 202, time_request(BEGIN))
        desk.comes(BEGIN, eui_of(number), 203, bytes([0, 4, 1]))
    campaign.step()
    assert order[:2] == ["keep", 60] and not desk.sent[1:]
    lines = [json.loads(line) for line in (campaign.folder.path / "journal").read_text().splitlines()]
    assert sum("heard" in line for line in lines) == 60


# ---- Kills by unicast


class Killed(Exception):
    """The command was killed."""


class Killing(Desk):
    """Is killed at a payload, before it went out or after it, once."""

    def __init__(self, at, is_before):
        super().__init__()
        self.at, self.is_before, self.lost = at, is_before, None

    def to_device(self, device, port, payload):
        is_last = len(self.sent) + 1 == self.at and self.lost is None
        if is_last:
            self.lost = [(payload, device.eui)] if self.is_before else []
        if not is_last or not self.is_before:
            super().to_device(device, port, payload)
        if is_last:
            raise Killed


def copies_of(sent):
    return [(int.from_bytes(payload[1:3], "little") & 0x3FFF, eui) for _, eui, port, payload in sent if port == 201 and payload[0] == 8]


@pytest.mark.parametrize("is_before", [True, False], ids=["before", "after"])
def test_copies_outlast_kills(tmp_path, library, monkeypatch, at_status, is_before):
    """By unicast, killed at each payload of eight devices, each copy of each fragment goes out once, but for the one at which it
    was killed before it went out; with the bytes that the server gave."""
    monkeypatch.setattr("os.fsync", lambda handle: None)
    folder = laid_out(tmp_path / "campaign", BY_UNICAST.replace("size = 25", "size = 100").replace("coded = 20", "coded = 2"), devices(8, "C"))
    plan, calls = read_plan(folder / "plan.toml"), fuota.Library(library)
    with fuota.Server(plan.for_library(), plan.devices_for_library, plan.image.data, calls) as server:
        payloads = [server.next_fragment().data for _ in range(plan.fragments)]
    wanted = [(number, device.eui) for number in range(1, plan.fragments + 1) for device in plan.devices]
    for at in range(1, len(wanted) + 1):
        desk = Killing(at, is_before)
        for life in range(2):
            kept = Folder(tmp_path / f"state{at}")
            campaign = play.Campaign(plan, kept, desk, calls)
            try:
                while len(desk.sent) + len(desk.lost or []) < len(wanted):
                    campaign.step()
            except Killed:
                pass
            kept.close()
        lost = copies_of([(0, eui, 201, payload) for payload, eui in desk.lost])
        assert sorted(copies_of(desk.sent) + lost) == wanted
        assert all(payload == payloads[number - 1] for (number, _), (_, _, _, payload) in zip(copies_of(desk.sent), desk.sent))
