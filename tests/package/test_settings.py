"""What a network server has to know of a plan's group: printed, and made over ChirpStack's API."""
import contextlib
import http.server
import json
import threading

import pytest

from lives import BY_UNICAST, EUIS, PLAN, laid_out

KEY = "000102030405060708090a0b0c0d0e0f"
# Of this McKey and the address 01020304, by another AES.
APP, NET = "433e2ad275693ee89936dea29718abc8", "12c70ea55446bf379c31d89f8af7d8ad"
TOKEN = "a-key-of-the-API"
CHIRPSTACK = '[server]\nkind = "chirpstack"\nhost = "localhost"\napplication = "fleet"\n'
THINGS = '[server]\nkind = "things-stack"\nhost = "localhost"\napplication = "fleet"\ntenant = "town"\n'
CLASS_B = (("class = \"C\"", "class = \"B\"\nperiodicity = 3"), ("timeout = 10", "timeout = 3"))


class Api(http.server.BaseHTTPRequestHandler):
    """ChirpStack's API for groups: it keeps what is posted, and answers in turn with what it is given to answer."""

    def do_POST(self):
        body = json.loads(self.rfile.read(int(self.headers["Content-Length"])))
        self.server.posted.append((self.path, self.headers["Grpc-Metadata-Authorization"], body))
        status, answer = self.server.answers[min(len(self.server.posted), len(self.server.answers)) - 1]
        said = json.dumps(answer).encode()
        self.send_response(status)
        self.send_header("Content-Length", str(len(said)))
        self.end_headers()
        self.wfile.write(said)

    def log_message(self, *_):
        pass


@contextlib.contextmanager
def api_of(*answers):
    server = http.server.ThreadingHTTPServer(("127.0.0.1", 0), Api)
    server.posted, server.answers = [], answers
    threading.Thread(target=server.serve_forever, daemon=True).start()
    try:
        yield server
    finally:
        server.shutdown()
        server.server_close()


@pytest.fixture
def settings(call, library, tmp_path):
    """Calls the command over a plan."""
    def settings(plan, *words):
        laid_out(tmp_path, plan)
        return call("fuota-campaign", "settings", "plan.toml", "--library", library, *words)
    return settings


def entries(said):
    """What was printed, by name."""
    lines = [line.strip().split("  ", 1) for line in said.splitlines() if line.startswith("  ")]
    return [(name, value.strip()) for name, value in lines]


def test_chirpstack(settings):
    done = settings(PLAN + CHIRPSTACK)
    assert (done.status, done.message) == (0, "")
    told = dict(entries(done.said))
    assert {told.pop(name) for name in ("Multicast network session key", "Multicast application session key")} == {NET, APP}
    assert told == {"Multicast-group name": "fuota-01020304", "Group type": "Class-C", "Multicast address": "01020304",
                    "Region": "EU868", "Data-rate": "3", "Frame-counter": "100", "Frequency (Hz)": "869525000", "Device": EUIS[-1],
                    "[integration.mqtt] qos": "1"}
    assert [value for name, value in entries(done.said) if name == "Device"] == EUIS


def test_the_things_stack(settings):
    told = dict(entries(settings(PLAN + THINGS).said))
    assert (told["Device address"], told["AppSKey"], told["NwkSKey"]) == ("01020304", APP, NET)
    assert (told["Rx2 data rate"], told["Rx2 frequency"], told["Downlink frame counter"]) == ("3", "869525000", "100")


def test_any_server(settings):
    told = entries(settings(PLAN).said)
    assert told == [("McAddr", "01020304"), ("McAppSKey", APP), ("McNwkSKey", NET), ("next frame count", "100"), ("class", "C"),
                    ("region", "EU868"), ("frequency (Hz)", "869525000"), ("data rate", "3")]


@pytest.mark.parametrize("server, name", [(CHIRPSTACK, "Class-B ping-slot periodicity"), (THINGS, "Ping slot periodicity"), ("", "PingSlotPeriodicity")])
def test_class_b(settings, server, name):
    plan = PLAN
    for old, new in CLASS_B:
        plan = plan.replace(old, new)
    assert dict(entries(settings(plan + server).said))[name] == ("8 s" if server == THINGS else "3")


def with_api(server, more=""):
    return PLAN + CHIRPSTACK + f'http = "http://127.0.0.1:{server.server_port}"\ntoken_file = "token"\n{more}'


@pytest.fixture
def token(tmp_path):
    (tmp_path / "token").write_text(TOKEN + "\n")
    (tmp_path / "token").chmod(0o600)


def test_a_group_is_made(settings, token):
    with api_of((200, {"id": "f00d"}), (200, {})) as server:
        done = settings(with_api(server), "--apply")
    assert (done.status, done.said, done.message) == (0, 'multicast_group = "f00d"\n', "")
    (path, key, body), *devices = server.posted
    assert (path, key) == ("/api/multicast-groups", f"Bearer {TOKEN}")
    assert body == {"multicastGroup": {
        "applicationId": "fleet", "name": "fuota-01020304", "region": "EU868", "groupType": "CLASS_C", "mcAddr": "01020304",
        "mcNwkSKey": NET, "mcAppSKey": APP, "fCnt": 100, "dr": 3, "frequency": 869_525_000, "classBPingSlotPeriodicity": 0}}
    assert [(path, body) for path, _, body in devices] == [("/api/multicast-groups/f00d/devices", {"devEui": eui}) for eui in EUIS]


WRONG = [
    ([(401, {"message": "unauthenticated"})], "401"),
    ([(200, {})], "no id of the group in the answer"),
    ([(200, {"id": "f00d"}), (200, {}), (404, {"message": "no such device"})], "the group f00d is made, with the first 1 of 3 devices"),
    ([(200, {"id": "f00d"}), (503, {})], "the group f00d is made, with the first 0 of 3 devices"),
]


@pytest.mark.parametrize("answers, said", WRONG)
def test_what_the_api_refuses_is_told(settings, token, answers, said):
    with api_of(*answers) as server:
        done = settings(with_api(server), "--apply")
    assert (done.status, done.said) == (1, "") and said in done.message
    assert not any(secret in done.message for secret in (TOKEN, KEY, APP, NET))


REFUSED = [
    (BY_UNICAST + CHIRPSTACK, "", 'plan.toml: no table "group": by unicast a network server needs no group'),
    (PLAN, "--apply", 'plan.toml: missing table "server"'),
    (PLAN + THINGS, "--apply", "things-stack has no API here that makes a group: enter what settings prints"),
    (PLAN + CHIRPSTACK + 'multicast_group = "f00d"\n', "--apply", "server.multicast_group names a group already"),
    (PLAN + CHIRPSTACK, "--apply", "server.http: its API makes the group, and no address is given"),
]


@pytest.mark.parametrize("plan, word, said", REFUSED)
def test_what_is_not_made_is_told(settings, plan, word, said):
    done = settings(plan, *([word] if word else []))
    assert (done.status, done.said, done.message) == (2, "", f"fuota-campaign: {said}\n")
