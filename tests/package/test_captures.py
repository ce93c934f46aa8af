"""Captures, made by fuota-capture of messages in the shape in which network servers publish them, and read by the program.

The captures, and the counts of what was taken and left out, are compared with lines that stand here, and what `fuota capture`
says of them with texts that stand here. Messages and words that make no capture must be refused. Of each log that is tried here
the page of tools/web_page makes the same, where node is installed: its module web/page/logs.mjs is asked beside the command.
"""
import base64
import copy
import gzip
import json
import math
import random
import re
import shutil
import subprocess

import pytest

import common
from fuota import captures

SETUP = "0200010001000000000000"
PIECE = "0801005a"
EUI = "0102030405060708"
EUI_IN_BASE64 = "AQIDBAUGBwg="
OTHER = "0102030405060709"
NOTHING = "taken: 0 uplinks, 0 downlinks; left out: "
LISTS = ("items", "result", "downlinks", "deviceQueueItems", "multicastQueueItems")


def base64_of(digits):
    return base64.b64encode(bytes.fromhex(digits)).decode()


def chirpstack_up(port, digits):
    """An event of ChirpStack v4 for an uplink."""
    return {
        "deduplicationId": "5b9c9a3e-1f7f-4f0e-9d39-0c3d3f0d7f11",
        "time": "2026-03-04T05:06:07.890123+00:00",
        "deviceInfo": {"tenantName": "Water", "deviceName": "cellar", "devEui": EUI},
        "devAddr": "01a2b3c4",
        "adr": True,
        "dr": 5,
        "fCnt": 17,
        "fPort": port,
        "confirmed": False,
        "data": base64_of(digits),
        "rxInfo": [{"gatewayId": "1112131415161718", "rssi": -87, "snr": 9.25, "crcStatus": "CRC_OK"}],
        "txInfo": {"frequency": 868100000, "modulation": {"lora": {"bandwidth": 125000, "spreadingFactor": 7}}},
    }


def chirpstack_down(port, digits):
    """A command of ChirpStack v4 for a downlink."""
    return {"devEui": EUI, "confirmed": False, "fPort": port, "data": base64_of(digits)}


def other_device(port, digits):
    """A command of ChirpStack v4 for a downlink to another device."""
    return dict(chirpstack_down(port, digits), devEui=OTHER)


def stack(kind, inner):
    """A message of The Things Stack."""
    return {
        "end_device_ids": {
            "device_id": "cellar",
            "application_ids": {"application_id": "meters"},
            "dev_eui": EUI,
            "dev_addr": "01A2B3C4",
        },
        "correlation_ids": ["gs:uplink:01HZ0000000000000000000000"],
        "received_at": "2026-03-04T05:06:07.890123456Z",
        kind: inner,
    }


def stack_up(port, digits):
    """An uplink message of The Things Stack."""
    return stack("uplink_message", {
        "session_key_id": "AYr6qPn3Zq1h",
        "f_port": port,
        "f_cnt": 17,
        "frm_payload": base64_of(digits),
        "rx_metadata": [{"gateway_ids": {"gateway_id": "roof"}, "rssi": -87, "snr": 9.25}],
        "settings": {"data_rate": {"lora": {"bandwidth": 125000, "spreading_factor": 7}}, "frequency": "868100000"},
    })


def stack_down(port, digits):
    """A downlink of The Things Stack that was sent."""
    inner = {"session_key_id": "AYr6qPn3Zq1h", "f_port": port, "f_cnt": 3, "frm_payload": base64_of(digits)}
    return stack("downlink_sent", inner)


def legacy_up(port, digits):
    """An event of ChirpStack v3 for an uplink, with the EUI in base64."""
    return {
        "applicationID": "7",
        "applicationName": "meters",
        "deviceName": "cellar",
        "devEUI": EUI_IN_BASE64,
        "rxInfo": [{"gatewayID": "ERITFBUWFxg=", "rssi": -87, "loRaSNR": 9.25}],
        "txInfo": {"frequency": 868100000, "modulation": "LORA"},
        "adr": True,
        "fCnt": 17,
        "fPort": port,
        "data": base64_of(digits),
        "devAddr": "AaKzxA==",
    }


def legacy_down(port, digits):
    """A command of ChirpStack v3 for a downlink, with all that it may have."""
    return {"applicationID": "7", "devEUI": EUI, "confirmed": False, "fPort": port, "data": base64_of(digits)}


def item(port, digits, device=EUI):
    """An item of the queue of a device of ChirpStack v4."""
    return {"id": "", "devEui": device, "fPort": port, "data": base64_of(digits), "fCntDown": 3, "isEncrypted": False}


def enqueued(port, digits):
    """What ChirpStack v4 takes to enqueue a downlink."""
    return {"queueItem": item(port, digits)}


def multicast(port, digits, name="multicastGroupId"):
    """An item of the queue of a multicast group of ChirpStack."""
    return {name: "6f1c1a52-3a0e-4c53-9d0b-5b2f0b7a8f60", "fCnt": 3, "fPort": port, "data": base64_of(digits)}


def push(port, digits, **members):
    """A push or a replace of The Things Stack of one downlink, with members beside its payload."""
    return {"downlinks": [{"f_port": port, "frm_payload": base64_of(digits), "priority": "NORMAL", **members}]}


def push_to(device, port, digits):
    """A push that names its device."""
    return {"end_device_ids": {"device_id": "cellar", "dev_eui": device}, **push(port, digits)}


def stored_up(port, digits):
    """An uplink message as the storage integration of The Things Stack gives it."""
    return {"result": stack_up(port, digits)}


def without(message, *names):
    return {name: value for name, value in message.items() if name not in names}


def lines_of(messages):
    return [json.dumps(message).encode() for message in messages]


def entry(direction, digits, port=201):
    """A line of a capture."""
    return f'{{"port":{port},"dir":"{direction}","hex":"{digits}"}}'


def shapes():
    """Messages that are taken: (name, message, what the capture has of it, counts of what is taken)."""
    up, down, both, multi = "1 uplink, 0 downlinks", "0 uplinks, 1 downlink", "0 uplinks, 2 downlinks", "by multicast"
    event, setup, two = legacy_up(201, "0200"), [entry("down", SETUP)], [entry("down", SETUP), entry("down", PIECE)]
    yield "v3 up", event, [entry("up", "0200")], up
    yield "v3 up, EUI in hex", {**event, "devEUI": EUI}, [entry("up", "0200")], up
    for mark in (["rxInfo"], ["txInfo"], ["adr"], ["deviceName"], ["applicationName"], ["applicationID", "fCnt"]):
        told = {name: event[name] for name in ("devEUI", "fPort", "data", *mark)}
        yield f"v3 up, told by {mark}", told, [entry("up", "0200")], up
    yield "v3 up, without data", without(event, "data"), [entry("up", "")], up
    yield "v3 down", legacy_down(201, SETUP), setup, down
    yield "v3 down, bare", without(legacy_down(201, SETUP), "applicationID", "devEUI"), setup, down
    legacy = {"devEUI": EUI, "fCnt": 3, "fPort": 201, "data": base64_of(SETUP), "jsonObject": ""}
    yield "v3 queue item", {"deviceQueueItem": legacy}, setup, down
    yield "v3 queue", {"deviceQueueItems": [legacy], "totalCount": "1"}, setup, down
    group = multicast(201, SETUP, "multicastGroupID")
    yield "v3 multicast item", {"multicastQueueItem": group}, setup, f"{down} (1 {multi})"
    yield "v3 multicast queue", {"multicastQueueItems": [group]}, setup, f"{down} (1 {multi})"
    yield "v4 queue item", item(201, SETUP), setup, down
    yield "v4 enqueue", enqueued(201, SETUP), setup, down
    yield "v4 enqueue, EUI beside", {"devEui": EUI, "queueItem": without(item(201, SETUP), "devEui")}, setup, down
    yield "v4 queue", {"totalCount": 2, "result": [item(201, SETUP), item(201, PIECE)]}, two, both
    yield "v4 items", {"items": [item(201, SETUP), item(201, PIECE)]}, two, both
    yield "v4 multicast item", multicast(201, SETUP), setup, f"{down} (1 {multi})"
    yield "multicast item like an uplink", {**group, "applicationID": "7"}, setup, f"{down} (1 {multi})"
    yield "v4 multicast enqueue", {"queueItem": multicast(201, SETUP)}, setup, f"{down} (1 {multi})"
    yield "v4 multicast queue", {"items": [multicast(201, SETUP), multicast(201, PIECE)]}, two, f"{both} (2 {multi})"
    yield "storage", {"result": stack_up(201, "0200")}, [entry("up", "0200")], up
    yield "push", push(201, SETUP), setup, down
    yield "replace", {"downlinks": [*push(201, SETUP)["downlinks"], *push(201, PIECE)["downlinks"]]}, two, both
    yield "push with its device", push_to(EUI, 201, SETUP), setup, down
    yield "push, decoded too", push(201, SETUP, decoded_payload={"open": 1}), setup, down
    yield "v4 queue item, decoded too", {**item(201, SETUP), "object": {"open": 1}}, setup, down
    yield "push without a payload", {"downlinks": [{"f_port": 201}]}, [entry("down", "")], down
    yield "payload beside a list", {**item(201, SETUP), "items": [item(201, PIECE)]}, setup, down
    yield "members that are null", {"items": None, "devEUI": None, **enqueued(201, SETUP)}, setup, down
    yield "up, null payload", {**chirpstack_up(200, ""), "data": None}, [entry("up", "", 200)], up
    yield "up, no payload", stack("uplink_message", {"f_port": 201}), [entry("up", "")], up
    yield "up, 242 bytes", chirpstack_up(255, "00" * 242), [entry("up", "00" * 242, 255)], up


def kinds():
    """Messages that are left out: (message, what is said of it)."""
    event, legacy, opens = {"deviceInfo": {"devEui": EUI}}, {"applicationID": "7", "devEUI": EUI_IN_BASE64}, {"open": 1}
    yield stack("join_accept", {}), "1 join"
    yield {**event, "devAddr": "01a2b3c4"}, "1 join"
    yield {**legacy, "devAddr": "AaKzxA==", "rxInfo": [], "txInfo": {}, "dr": 5}, "1 join"
    yield stack("downlink_ack", {"f_port": 201, "frm_payload": "AA=="}), "1 ack"
    yield stack("downlink_nack", {"f_port": 201, "frm_payload": "AA=="}), "1 ack"
    yield {**event, "queueItemId": "1", "acknowledged": False, "fCntDown": 3}, "1 ack"
    yield {**legacy, "rxInfo": [], "txInfo": {}, "acknowledged": True, "fCnt": 3}, "1 ack"
    yield {**event, "margin": 7, "batteryLevel": 90.5}, "1 status"
    yield {**legacy, "margin": 7, "externalPowerSource": True}, "1 status"
    yield stack("downlink_queued", {"f_port": 201, "frm_payload": "AA=="}), "1 other"
    yield {"f_port": 201, "frm_payload": "AA=="}, "1 other"
    yield {"id": "8c1b0a5e-4a0f-4b54-8f3a-0a9a4a2f5a11"}, "1 other"
    yield {"items": [{}, {}]}, "2 others"
    yield from ((make(0, "02"), "1 of port 0") for make in (stack_up, chirpstack_up, legacy_up, enqueued, push))
    yield stack("uplink_message", {"frm_payload": "AA=="}), "1 without port"
    yield without(chirpstack_up(201, "00"), "fPort"), "1 without port"
    yield without(chirpstack_up(201, "00"), "fPort", "data"), "1 without port"
    yield {**item(201, "00"), "fPort": None}, "1 without port"
    yield {"downlinks": [{"frm_payload": "AA=="}, {}]}, "2 without port"
    yield {**item(201, ""), "object": opens}, "1 without payload"
    yield {**without(item(201, ""), "data"), "object": opens}, "1 without payload"
    yield without(item(201, ""), "data"), "1 without payload"
    yield {"deviceQueueItem": {**legacy_down(201, ""), "jsonObject": json.dumps(opens)}}, "1 without payload"
    yield push(201, "", decoded_payload=opens), "1 without payload"
    yield {**item(201, "00"), "isEncrypted": True}, "1 encrypted"
    yield from (({name: []}, "1 empty list") for name in LISTS)


def wrong_members():
    """Messages with a member that has a wrong type, or names no device or two: (message, what is said)."""
    for name in LISTS:
        yield {name: 7}, f"{name} is not "
        yield {name: [item(201, ""), 7]}, f"an item of {name} is not an object: 7"
        yield {name: [None]}, f"an item of {name} is not an object: None"
    yield from (({name: {}}, f"{name} is not a list: {{}}") for name in LISTS if name != "result")
    for name in ("queueItem", "deviceQueueItem", "multicastQueueItem", "uplink_message", "downlink_sent"):
        yield {name: []}, f"{name} is not an object: []"
    yield from (({**item(201, ""), name: EUI}, f"{name} is not an object") for name in ("deviceInfo", "end_device_ids"))
    for name in ("devEui", "devEUI"):
        yield {**item(201, ""), name: 7}, f"{name} is not a text: 7"
        yield {"items": [{**item(201, ""), name: "010203"}]}, "invalid EUI: '010203'"
    yield {**chirpstack_up(201, ""), "deviceInfo": {"devEui": []}}, "devEui is not a text: []"
    yield push_to("cellar", 201, ""), "invalid EUI: 'cellar'"
    yield {**legacy_up(201, ""), "devEUI": "AQIDBAUGBw=="}, "invalid EUI: 'AQIDBAUGBw=='"
    yield {**item(201, ""), "devEUI": OTHER}, f"a message of {EUI} and of {OTHER}"
    yield {"devEui": OTHER, **enqueued(201, "")}, f"a message of {EUI} and of {OTHER}"
    yield {"items": [item(201, ""), item(201, "", OTHER)]}, f"a message of {OTHER}, and not of {EUI}"
    yield {**item(201, ""), "isEncrypted": 1}, "isEncrypted is not a truth value: 1"
    yield {**item(201, ""), "object": []}, "object is not an object: []"
    yield {"deviceQueueItem": {**legacy_down(201, ""), "jsonObject": {}}}, "jsonObject is not a text: {}"
    yield {**multicast(201, ""), "multicastGroupId": 7}, "multicastGroupId is not a text: 7"
    yield push(201, "", decoded_payload=7), "decoded_payload is not an object: 7"
    for make, port in zip((legacy_up, legacy_down, enqueued, multicast, push), (256, -1, "201", 201.0, True)):
        yield make(port, ""), f"invalid port: {port!r}"
        yield make(201, "00" * 243), "a payload of 243 bytes"
    yield {"result": stack_up(True, "")}, "invalid port: True"
    yield push(201, "", frm_payload="AA\n=="), r"the payload is not base64: 'AA\n=='"
    yield {"result": {**legacy_up(201, ""), "data": []}}, "the payload is not base64: []"
    yield {"items": [item(201, ""), {**item(0, ""), "data": 7}]}, "the payload is not base64: 7"


@pytest.fixture(scope="session")
def page(tmp_path_factory):
    """Asks the page's module: its answer. None where node is not installed."""
    if not shutil.which("node"):
        yield None
        return
    tables = tmp_path_factory.mktemp("page") / "tables"
    tables.write_text(common.script_of(common.TOP / "tools" / "web_page").tables())
    words = ["node", common.TOP / "tests" / "web" / "logs.mjs", tables]
    with subprocess.Popen(words, stdin=subprocess.PIPE, stdout=subprocess.PIPE, text=True) as node:
        def page(log, device, rows):
            print(json.dumps({"log": base64.b64encode(log).decode(), "device": device, "rows": rows}), file=node.stdin, flush=True)
            return json.loads(node.stdout.readline())
        yield page
        node.stdin.close()


@pytest.fixture
def make(call, page, tmp_path, monkeypatch):
    """Runs the command on a log: status, lines of the capture or None, message. The page makes the same of it."""
    asked, run = [], captures.run
    monkeypatch.setattr(captures, "run", lambda words: asked.append(words) or run(words))

    def make(lines, *words):
        asked.clear()
        log = b"".join(line + b"\n" for line in lines)
        (tmp_path / "log").write_bytes(log)
        (tmp_path / "capture").unlink(missing_ok=True)
        done = call("fuota-capture", *(words or ("0", "log", "capture")))
        made = tmp_path / "capture"
        text = made.read_text() if made.is_file() else None
        if page and asked and done.status != 1:
            told = page(log, asked[0].device, asked[0].rows)
            assert told.get("text") == text
            assert without_reason(told["fault"] or told["counts"]) == without_reason(done.message)
        return done.status, text and text.split("\n"), done.message
    return make


def without_reason(message):
    """What is said, without the command and the file, and without the words of one reader of JSON or the other."""
    return re.sub("(?<=not JSON: ).*|(?<=not a JSON object), but .*", "", re.sub("^fuota-capture: (log: )?", "", message)).strip()


@pytest.fixture
def read(program, tmp_path):
    """What the program says of the capture that was made: status, lines."""
    def read():
        done = subprocess.run([program, "capture", "capture"], cwd=tmp_path, capture_output=True, timeout=120)
        return done.returncode, done.stdout.decode().split("\n")
    return read


def refused(made, wanted):
    status, lines, message = made
    assert (status, lines) == (2, None)
    assert "fuota-capture: " in message and wanted in message


@pytest.mark.parametrize("up, down", [(chirpstack_up, chirpstack_down), (stack_up, stack_down), (legacy_up, legacy_down),
                                      (chirpstack_up, enqueued), (stored_up, push)],
                         ids=["ChirpStack", "The Things Stack", "ChirpStack v3", "queue of ChirpStack", "storage and push"])
def test_servers(make, read, up, down):
    """A setup, an answer and a fragment, between messages without a payload."""
    joined = stack("join_accept", {"session_key_id": "AYr6qPn3Zq1h"})
    sent = {"deviceInfo": {"devEui": EUI}, "queueItemId": "1"}
    messages = [joined, down(201, SETUP), up(201, "0200"), up(0, "02"), sent, down(201, PIECE), up(7, "")]
    wanted = ["capture 1 0", entry("down", SETUP), entry("up", "0200"), entry("down", PIECE), entry("up", "", 7), ""]
    counts = "taken: 2 uplinks, 2 downlinks; left out: 1 join, 1 other, 1 of port 0\n"
    assert make(lines_of(messages)) == (0, wanted, counts)
    said = [
        "fuota capture 1",
        "line 2 201 down",
        "FragSessionSetupReq index=0 mask=0 nbfrag=1 fragsize=1 algo=0 delay=0 padding=0 descriptor=00000000",
        "line 3 201 up",
        "FragSessionSetupAns index=0 bits=0",
        "line 4 201 down",
        "DataFragment index=0 n=1 bytes=5a",
        "line 5 7 up",
        "refused 0 port",
        "counts deaf 0 refused 0 full 0 dropped 0",
        "session 0 received 1 missing 0 complete at 4",
        "file 5a",
        "end",
        "",
    ]
    assert read() == (0, said)


@pytest.mark.parametrize("message, wanted, taken", [case[1:] for case in shapes()], ids=[case[0] for case in shapes()])
def test_shapes(make, read, message, wanted, taken):
    """Each shape of a message alone."""
    assert make(lines_of([message])) == (0, ["capture 1 0", *wanted, ""], f"taken: {taken}; left out: nothing\n")
    assert read()[0] == 0


@pytest.mark.parametrize("message, wanted", list(kinds()), ids=[f"{said}-{at}" for at, (_, said) in enumerate(kinds())])
def test_left_out(make, message, wanted):
    assert make(lines_of([message])) == (0, ["capture 1 0", ""], f"{NOTHING}{wanted}\n")


def test_all_left_out(make):
    counts = f"{NOTHING}3 joins, 4 acks, 2 statuses, 5 others, 5 of port 0, 6 without port, 5 without payload, "
    counts += "1 encrypted, 5 empty lists, 2 empty lines\n"
    lines = lines_of(message for message, _said in kinds())
    assert make([b"", *lines, b"\r"]) == (0, ["capture 1 0", ""], counts)
    assert make([], "256", "log", "capture") == (0, ["capture 1 256", ""], f"{NOTHING}nothing\n")


PAIRS = [EUI[k:k + 2] for k in range(0, 16, 2)]


@pytest.mark.parametrize("asked", [EUI, "-".join(PAIRS), ":".join(PAIRS), " ".join(PAIRS), "0102.0304.0506.0708", EUI_IN_BASE64])
def test_device(make, asked):
    """One device of a log of several, asked for in each form of its EUI."""
    nameless = stack_up(201, "01")
    del nameless["end_device_ids"]["dev_eui"]
    messages = [other_device(201, PIECE), {"deviceInfo": {"devEui": OTHER}, "devAddr": "01a2b3c5"}, nameless]
    messages += [push(201, PIECE), without(chirpstack_down(201, PIECE), "devEui"), enqueued(201, SETUP)]
    messages += [legacy_up(201, "0200"), stack_up(201, "02"), multicast(201, PIECE), push_to(EUI, 201, "03")]
    messages += [{"result": [item(201, "04", OTHER), item(201, "05")]}, push_to(OTHER, 201, "06")]
    messages += [stack("join_accept", {})]
    wanted = [("down", SETUP), ("up", "0200"), ("up", "02"), ("down", PIECE), ("down", "03"), ("down", "05")]
    wanted = ["capture 1 0", *(entry(*words) for words in wanted), ""]
    counts = "taken: 2 uplinks, 4 downlinks (1 by multicast); left out: 1 join, 4 of another device, 3 without an EUI\n"
    assert make(lines_of(messages), "--device", asked, "0", "log", "capture") == (0, wanted, counts)


LETTERS = "a1b2c3d4e5f60718"


def letters():
    """A log of a device whose EUI has letters."""
    return lines_of([item(201, "00", LETTERS.upper()), {**legacy_down(201, "01"), "devEUI": base64_of(LETTERS)}])


@pytest.mark.parametrize("asked", [None, LETTERS, LETTERS.upper(), "A1-b2-C3-d4-E5-f6-07-18", base64_of(LETTERS)])
def test_device_in_letters(make, asked):
    made = make(letters(), "0", "log", "capture", *(["--device", asked] if asked else []))
    assert made[:2] == (0, ["capture 1 0", entry("down", "00"), entry("down", "01"), ""])


def test_device_that_the_log_has_not(make):
    made = make(letters(), f"--device={EUI}", "0", "log", "capture")
    assert made == (0, ["capture 1 0", ""], f"{NOTHING}2 of another device\n")


@pytest.mark.parametrize("asked", ["", EUI[2:], EUI + "09", "0x" + EUI, EUI[1:] + "g", "AQIDBAUGBw==", EUI_IN_BASE64[:-1],
                                   "0-1" + EUI[2:]])
def test_wrong_euis(make, asked):
    refused(make(letters(), f"--device={asked}", "0", "log", "capture"), "argument --device: invalid EUI: ")


def test_a_bad_line_of_another_device(make):
    refused(make(lines_of([other_device(256, "")]), "--device", EUI, "0", "log", "capture"), "log: line 1: invalid port")


FINE = lines_of([chirpstack_up(201, "00")])


@pytest.mark.parametrize("lines, wanted", [
    (FINE + [b"{"], "line 2: not JSON"),
    (FINE + [b"[]"], "line 2: not a JSON object"),
    (FINE + [b"\xff"], "line 2: not JSON"),
    (lines_of([chirpstack_up(256, "00")]), "line 1: invalid port: 256"),
    (lines_of([stack_up(-1, "00")]), "invalid port: -1"),
    (lines_of([stack_up(True, "00")]), "invalid port: True"),
    (lines_of([stack_down("201", "00")]), "invalid port: '201'"),
    (lines_of([dict(chirpstack_down(201, ""), data="0!")]), "not base64"),
    (lines_of([dict(chirpstack_down(201, ""), data="AAA")]), "not base64"),
    (lines_of([dict(chirpstack_down(201, ""), data=7)]), "not base64"),
    (lines_of([chirpstack_up(201, "00" * 243)]), "a payload of 243 bytes"),
    (FINE * 20000, "20000 payloads"),
    (lines_of([chirpstack_up(201, "00" * 51)]) * 12000, "a capture of "),
    (lines_of([dict(chirpstack_down(201, ""), data={})]), "not base64"),
    (lines_of([stack_up(False, "00")]), "invalid port: False"),
    (FINE + lines_of([other_device(201, "00")]), "line 2: a message of 0102030405060709"),
    ([b"[" * 100000], "line 1: not JSON"),
    (FINE + [b" "], "line 2: not JSON"),
    (FINE + [b"", b"{"], "line 3: not JSON"),
    *((lines_of([{}, message]), f"line 2: {said}") for message, said in wrong_members()),
])
def test_refusals(make, lines, wanted):
    refused(make(lines), wanted)


def test_most_payloads(make):
    counts = "taken: 19999 uplinks, 0 downlinks; left out: nothing\n"
    status, made, message = make(FINE * 19999)
    assert (status, len(made), message) == (0, 20001, counts)


@pytest.mark.parametrize("words", ["257 log capture", "00 log capture", "-1 log capture", "0 log", "0", "0 log capture more", "--device",
                                   f"--dev {EUI} 0 log capture", "0 log capture --device"])
def test_words(make, words):
    refused(make(FINE, *words.split(" ")), "usage: fuota-capture")


@pytest.mark.parametrize("words, place", [(("0", "absent", "capture"), "absent"), (("0", "log", "absent/capture"), "absent/capture")])
def test_files(make, words, place):
    assert make(FINE, *words) == (1, None, f"fuota-capture: {place}: No such file or directory\n")


@pytest.mark.parametrize("word", ["--device EUI", "multicast queue item", "None was tried against a live server"])
def test_help(call, word):
    assert word in call("fuota-capture", "--help").said


LINE = b'{"deviceInfo":{"devEui":"0102030405060708"},"fPort":201,"data":"AgA="}'


@pytest.mark.parametrize("log, words", [
    (gzip.compress(LINE), "line 1: not JSON: it is compressed by gzip; zcat writes what is in it"),
    (LINE.replace(b'{"dev', b'{\n  "dev', 1), "line 1: not JSON: a part of an object over several lines; jq -c . writes each on a line"),
    (LINE + b"\n  }", "line 2: not JSON: a part of an object over several lines; jq -c . writes each on a line"),
    (b"[\n" + LINE + b"\n]", "line 1: not JSON: a part of an object over several lines; jq -c . writes each on a line"),
    (b"application/1/device/0102030405060708/event/up " + LINE,
     "line 1: not JSON: a topic is before the object; mosquitto_sub without -v leaves it out"),
    (b"v3/a@t/devices/meter-1/up " + LINE, "line 1: not JSON: a topic is before the object; mosquitto_sub without -v leaves it out"),
    (b"Dec 02 10:00:00 host app[123]: " + LINE,
     "line 1: not JSON: words are before the object; journalctl -o cat leaves a journal's out"),
    (b"Dec 02 10:00:00 host app: " + LINE, "line 1: not JSON: words are before the object; journalctl -o cat leaves a journal's out"),
    (b"[" + LINE + b"]", "line 1: not a JSON object, but an array; jq -c '.[]' writes each of its objects on a line"),
    (b"7", "line 1: not a JSON object")], ids=range(10))
def test_lines_that_are_none(call, tmp_path, log, words):
    """A line that is no object of JSON is named as what it is."""
    (tmp_path / "log").write_bytes(log)
    done = call("fuota-capture", "0", "log", "capture")
    assert (done.status, done.message) == (2, f"fuota-capture: log: {words}\n")


def test_page_was_asked(page):
    if not page:
        pytest.skip("the page's module (node is not installed)")
    assert page(FINE[0], None, 3)["text"] == f"capture 1 3\n{entry('up', '00')}\n"


ODD = [None, True, False, 0, 7, 255, 256, -1, 201.0, 1.5, 1e-3, 12345678901234567890, math.nan, -math.inf, "", "AA==", "AA=", "AAAA=", "A",
       "\u00e9'", "'\"\\", "\0\x7f\n\t\u2028\ud800", 20 * "\U0001f600'", EUI, OTHER, EUI_IN_BASE64, [], {}, [None], [{}],
       {"a": [1, "b", None, False]}]
GROUPED = [multicast(201, "00"), multicast(201, "00", "multicastGroupID")]


def objects_in(value):
    """The objects of a message, itself first."""
    if isinstance(value, dict):
        yield value
    for inner in value.values() if isinstance(value, dict) else value if isinstance(value, list) else ():
        yield from objects_in(inner)


def drawn_message(rng, messages):
    """A message of these, with members changed, taken out, or brought from another one."""
    message = copy.deepcopy(rng.choice(messages))
    for _turn in range(rng.randrange(4)):
        place = rng.choice([*objects_in(message)])
        name = rng.choice([*place, "data"])
        place.update(copy.deepcopy(rng.choice([{name: rng.choice(ODD)}, rng.choice(messages)])))
        if rng.random() < 0.3:
            place.pop(name, None)
    return message


@pytest.mark.parametrize("seed", range(20))
def test_drawn(make, seed):
    """The command and the page, on logs with members at odd places and of odd kinds."""
    rng = random.Random(seed)
    messages = [*(case[1] for case in shapes()), *(message for message, _said in kinds()), *GROUPED]
    answers = set()
    for _turn in range(60):
        lines = lines_of(drawn_message(rng, messages) for _line in range(rng.randrange(1, 4)))
        words = rng.choice([[], ["--device", EUI], ["--device", OTHER]])
        answers.add(make(lines, *words, str(rng.randrange(257)), "log", "capture")[0])
    assert answers == {0, 2}
