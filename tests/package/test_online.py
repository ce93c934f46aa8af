"""What check --online and the begin of a campaign find at a network server that is set up otherwise than the plan."""
import json
import re
import shutil
import subprocess
import threading
import time

import pytest

import fuota
from fuota.campaign import mqtt
from fuota.campaign.carrier import Refusing
from fuota.campaign.plan import read_plan
from lives import EUIS, PLAN, Process, laid_out
from networks import ACCESS, APPLICATION, GROUP, MOSQUITTO, PASSWORD, PROFILE, USER, Broker, chirpstack_table, free_port, private, rest_stub, things_table

pytest.importorskip("paho.mqtt.client")
over_mqtt = pytest.mark.skipif(not (MOSQUITTO and shutil.which("mosquitto_pub")), reason="mosquitto or its clients are not installed")


def change(**fields):
    """Changes fields of the group; one that is None is left out."""
    def act(api):
        api.group.update(fields)
        for name in [name for name, value in fields.items() if value is None]:
            del api.group[name]
    return act


def of_device(eui, application):
    return lambda api: api.devices.update({eui: application}) if application else api.devices.pop(eui)


A_KEY = "another one than key and address of the plan give"
# What is otherwise, and what is said of it.
DIFFERENCES = {
    "nothing": (lambda api: None, []),
    "letters": (change(mcAddr="01020304", mcAppSKey="433E2AD275693EE89936DEA29718ABC8"), []),
    "address": (change(mcAddr="01020305"), ["the multicast group's address: 01020305, in the plan 01020304"]),
    "class": (change(groupType="CLASS_B"), ["the multicast group's class: CLASS_B, in the plan CLASS_C"]),
    "data rate": (change(dr=5), ["the multicast group's data rate: 5, in the plan 3"]),
    "data rate 0": (change(dr=0), ["the multicast group's data rate: 0, in the plan 3"]),
    "frequency": (change(frequency=868_100_000), ["the multicast group's frequency: 868100000, in the plan 869525000"]),
    "application": (change(applicationId="x"), [f"the multicast group's application: x, in the plan {APPLICATION}"]),
    "keys": (change(mcAppSKey="00" * 16, mcNwkSKey=None), [f"the multicast group's mcAppSKey: {A_KEY}", f"the multicast group's mcNwkSKey: {A_KEY}"]),
    "keys by turns": (lambda api: api.group.update(mcAppSKey=api.group["mcNwkSKey"], mcNwkSKey=api.group["mcAppSKey"]),
                      [f"the multicast group's mcAppSKey: {A_KEY}", f"the multicast group's mcNwkSKey: {A_KEY}"]),
    "signs of a terminal": (change(mcAddr="\x1b[2J01"), ["the multicast group's address: [2j01, in the plan 01020304"]),
    "the key of the API": (change(applicationId="secret"), [f"the multicast group's application: (the key), in the plan {APPLICATION}"]),
    "counter": (lambda api: setattr(api, "first", 7), ["the multicast group's frame counter: 7, in the plan 100"]),
    "counter 0": (lambda api: setattr(api, "first", 0), ["the multicast group's frame counter: 0, in the plan 100"]),
    "a device": (of_device(EUIS[1], None), [f"device {EUIS[1]}: unknown to ChirpStack"]),
    "another's device": (of_device(EUIS[2], "x"), [f"device {EUIS[2]}: of the application x, in the plan of {APPLICATION}"]),
    "region": (lambda api: api.profiles[PROFILE].update(region="US915"),
               [f"the device profile {PROFILE}'s region: US915, in the plan EU868"]),
    "no profile that is seen": (lambda api: api.profiles.clear(), []),
    "no member": (lambda api: api.members.remove(EUIS[0]), [f"device {EUIS[0]}: not in the multicast group"]),
    "many members": (lambda api: setattr(api, "members", [f"{number:016x}" for number in range(250)] + api.members), []),
}


@pytest.fixture
def placed(tmp_path):
    """A plan whose network server is ChirpStack, and its API."""
    with rest_stub() as api:
        laid_out(tmp_path, PLAN + chirpstack_table(free_port(), api.address))
        private(tmp_path / "token", api.key)
        private(tmp_path / "access.toml", ACCESS)
        yield api, read_plan(tmp_path / "plan.toml")


@pytest.mark.parametrize("name", DIFFERENCES)
def test_differences(placed, library, name):
    """Each field that differs is told with both values, and of a key that it does; a campaign is not begun."""
    (api, plan), (act, wanted) = placed, DIFFERENCES[name]
    act(api)
    calls, carrier = fuota.Library(library), mqtt.Mqtt(plan.server, "")
    assert list(carrier.differences(plan, True, calls)) == wanted
    if not wanted:
        carrier.hold(plan, True, calls)
        return
    with pytest.raises(Refusing) as why:
        carrier.hold(plan, True, calls)
    assert str(why.value) == "the network server is set up otherwise than the plan: " + "; ".join(wanted)
    assert plan.group.key.hex() not in str(why.value)


def test_never_heard(placed):
    """Which devices it never heard, where its API tells that; where it does not nothing is said of them."""
    api, plan = placed
    carrier = mqtt.Mqtt(plan.server, "")
    assert carrier.never_heard(plan) == []
    del api.heard[EUIS[1]]
    assert carrier.never_heard(plan) == [EUIS[1]]
    api.status = 503
    assert carrier.never_heard(plan) == []


@pytest.mark.parametrize("first, is_well", [(99, False), (100, True), (150, True), (200, True), (201, False)])
def test_a_counter_in_the_midst(placed, library, first, is_well):
    """Begun again, its counter is somewhere in the group's range."""
    api, plan = placed
    api.first = first
    assert (not list(mqtt.Mqtt(plan.server, "").differences(plan, False, fuota.Library(library)))) == is_well


def test_no_such_group(placed, library):
    api, plan = placed
    api.group, answer = {}, api.answer
    api.answer = lambda way, address, *more: answer(way, address.replace(GROUP, "other") if address.endswith(GROUP) and "?" not in address else address, *more)
    assert list(mqtt.Mqtt(plan.server, "").differences(plan, True, fuota.Library(library)))[:1] == [f"the multicast group {GROUP}: unknown to ChirpStack"]


def test_an_api_that_is_away(placed, library, caplog):
    """It is told, and the campaign waits."""
    api, plan = placed
    api.status = 503
    mqtt.Mqtt(plan.server, "").hold(plan, True, fuota.Library(library))
    assert re.search("the network server can't be held against the plan: http.*: 503 ", caplog.text)


def test_another_key(placed, library):
    api, plan = placed
    api.key = "another"
    with pytest.raises(Refusing, match="401 .*invalid token") as why:
        mqtt.Mqtt(plan.server, "").hold(plan, True, fuota.Library(library))
    assert "secret" not in str(why.value)


def test_a_campaign_is_not_begun(placed, tmp_path, library):
    """`run` ends before anything is kept, and says why."""
    api, _ = placed
    api.group["dr"] = 0
    process = Process(tmp_path, library)
    assert process.end() == 1
    assert process.said == ("fuota-campaign: the network server is set up otherwise than the plan: the multicast group's data rate: 0, in the "
                            "plan 3\n")
    assert sorted(one.name for one in (tmp_path / "state").iterdir()) == ["journal", "lock"]
    assert (tmp_path / "state" / "journal").read_text() == ""


# ---- check --online


@pytest.fixture
def broker(tmp_path):
    made = Broker(tmp_path, users=[(USER, PASSWORD)])
    yield made
    made.end()


def checked(call, folder, text, library, wait="0.5"):
    laid_out(folder, text)
    private(folder / "token", "secret")
    private(folder / "access.toml", ACCESS)
    done = call("fuota-campaign", "check", "--online", "plan.toml", "--wait", wait, "--library", library, folder=folder)
    return done, done.said.splitlines()[6:]


@over_mqtt
def test_online(call, tmp_path, broker, library):
    """All is as it should be."""
    with rest_stub() as api:
        done, lines = checked(call, tmp_path / "c", PLAN + chirpstack_table(broker.port, api.address), library)
    assert (done.status, done.message) == (0, "")
    assert lines[-3:] == [f"broker: 127.0.0.1:{broker.port} lets the command in, and gives application/{APPLICATION}/device/+/event/up with QoS 1",
                          "uplinks: none of a device of the plan within 0.5 s", "differs: nothing"]


@over_mqtt
def test_online_at_the_things_stack(call, tmp_path, broker, library):
    """An uplink is told; with QoS 0 it is warned that it would not be kept."""
    message = {"end_device_ids": {"dev_eui": EUIS[0]}, "uplink_message": {"f_port": 203, "frm_payload": "AQ=="}}
    words = ["mosquitto_pub", "-h", "127.0.0.1", "-p", str(broker.port), "-u", USER, "-P", PASSWORD, "-q", "0", "-t",
             "v3/fleet@town/devices/meter-8/up", "-m", json.dumps(message)]
    is_done = threading.Event()

    def send():
        while not is_done.wait(0.2):
            subprocess.run(words, check=False)

    sender = threading.Thread(target=send)
    sender.start()
    begin = time.monotonic()
    done, lines = checked(call, tmp_path / "t", PLAN + things_table(broker.port), library, "20")
    is_done.set()
    sender.join()
    assert done.status == 0 and time.monotonic() - begin < 10
    assert re.fullmatch(f"uplinks: {EUIS[0]} was heard after [01] s", lines[-2])
    assert lines[-1] == "differs: nothing, as nothing can be asked but the broker"
    assert done.message == ("fuota-campaign: uplinks come with QoS 0: what devices send while the command is away is lost "
                            "(docs/OPERATING.md, Network servers)\n")


def test_online_without_a_broker(call, tmp_path, library, monkeypatch):
    monkeypatch.setattr("fuota.campaign.online.REACHED", 0.3)
    port = free_port()
    with rest_stub() as api:
        api.devices.pop(EUIS[0])
        done, lines = checked(call, tmp_path / "n", PLAN + chirpstack_table(port, api.address), library)
    assert done.status == 2
    assert lines[-2:] == [f"broker: no connection to 127.0.0.1:{port}: Connection refused", f"differs: device {EUIS[0]}: unknown to ChirpStack"]


@over_mqtt
def test_online_without_access(call, tmp_path, library):
    broker = Broker(tmp_path, users=[("other", "x")])
    try:
        done, _ = checked(call, tmp_path / "n", PLAN + things_table(broker.port), library)
    finally:
        broker.end()
    assert done.status == 1 and "the broker at 127.0.0.1 refuses access" in done.message


def test_online_without_a_server(call, tmp_path, library):
    done, _ = checked(call, tmp_path / "n", PLAN, library)
    assert (done.status, done.message) == (2, 'fuota-campaign: plan.toml: missing table "server"\n')
