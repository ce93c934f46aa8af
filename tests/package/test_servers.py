"""ChirpStack and The Things Stack, over a broker of mosquitto's and a stub of a REST API, in true time.

The command is killed and begun again, and the broker goes away and comes back. What is skipped without mosquitto or paho-mqtt
is named.
"""
import json
import re
import shutil
import subprocess
import time

import pytest

from fuota.campaign import mqtt
from fuota.errors import Wrong
from fuota.fields import Place
from fuota.lns import SERVERS, ChirpStack, Lost, Refusing, ThingsStack, Uplink, read
from fuota.lns.server import time_of
from lives import EUIS, PLAN, TOOL, laid_out
from networks import GROUP, MOSQUITTO, PASSWORD, USER, Broker, LiveChirpStack, LiveThingsStack, free_port, private, rest_stub

try:
    import paho.mqtt.client
    HAS_PAHO = True
except ModuleNotFoundError:
    HAS_PAHO = False
over_mqtt = pytest.mark.skipif(not (MOSQUITTO and HAS_PAHO and shutil.which("mosquitto_sub") and shutil.which("mosquitto_pub")),
                               reason="mosquitto, its clients or paho-mqtt are not installed")


def pumped(*servers, until):
    """Lets servers work until something holds, but no longer than a minute; whether it came to hold."""
    begin = time.monotonic()
    while not until():
        if time.monotonic() - begin > 60:
            return False
        for server in servers:
            server.pump()
    return True


def pumped_to_the_end(*servers):
    pumped(*servers, until=lambda: all(one.tool.poll() is not None for one in servers))


@pytest.fixture
def broker(tmp_path):
    broker = Broker(tmp_path, users=[(USER, PASSWORD)])
    yield broker
    broker.end()


@over_mqtt
def test_both_servers(tmp_path, broker, library):
    """Campaigns over both servers; the command is killed and begun again, and the broker goes away and comes back."""
    with rest_stub() as rest:
        chirpstack = LiveChirpStack(tmp_path / "chirpstack", broker, library, rest)
        things = LiveThingsStack(tmp_path / "things", broker, library)
        both = (chirpstack, things)
        pumped(*both, until=lambda: len(chirpstack.counts) >= 3)
        chirpstack.tool.kill()
        chirpstack.tool.wait()
        chirpstack.tool.stderr.close()
        chirpstack.tool = chirpstack.run_tool()
        pumped(*both, until=lambda: len(chirpstack.counts) >= 6)
        broker.end()
        pumped(*both, until=lambda begin=time.monotonic(): time.monotonic() > begin + 2.2)
        broker.begin()
        pumped_to_the_end(*both)
        assert [one.fault() for one in both] == [None, None]
    # (what the broker did not take while it was away it takes afterwards)
    for folder in ("chirpstack", "things"):
        assert '"lost"' not in (tmp_path / folder / "state" / "journal").read_text()


THINGS = '[server]\nkind = "things-stack"\nhost = "127.0.0.1"\nport = {}\napplication = "fleet"\ntenant = "town"\nmulticast_device = "all"\n' \
         'gateways = ["roof"]\n{}'


def run_words(library):
    return [*TOOL, "run", "plan.toml", "state", "--library", library]


@over_mqtt
def test_no_access(tmp_path, library):
    """A broker that refuses access ends the command."""
    broker = Broker(tmp_path, "allow_anonymous false\n")
    folder = laid_out(tmp_path / "refused", PLAN + THINGS.format(broker.port, ""))
    try:
        done = subprocess.run(run_words(library), cwd=folder, capture_output=True, text=True, timeout=30)
    finally:
        broker.end()
    assert done.returncode == 1 and "the broker at 127.0.0.1 refuses access" in done.stderr


@over_mqtt
def test_no_broker(tmp_path, library):
    """A broker that is not there does not end it."""
    port = free_port()
    folder = laid_out(tmp_path / "alone", PLAN + THINGS.format(port, ""))
    tool = subprocess.Popen(run_words(library), cwd=folder, stdout=subprocess.DEVNULL, stderr=subprocess.PIPE, text=True)
    time.sleep(2.5)
    assert tool.poll() is None
    tool.terminate()
    said = tool.communicate(timeout=30)[1]
    assert (tool.returncode, said) == (1, f"fuota-campaign: no connection to 127.0.0.1:{port}: Connection refused\n"
                                          "fuota-campaign: stopped; it goes on when it is begun again\n")


# ---- User, password and TLS


def server_at(port, access=None):
    return ThingsStack(host="localhost", port=port, application="fleet", tenant="town", access_file=access)


def access_at(folder, text, mode=0o600):
    file = folder / "access.toml"
    file.write_text(text)
    file.chmod(mode)
    return file


@pytest.fixture
def locked(tmp_path):
    """A broker with TLS, for a user with a password."""
    certificate = ["openssl", "req", "-x509", "-newkey", "rsa:2048", "-nodes", "-days", "2", "-subj", "/CN=localhost", "-addext",
                   "subjectAltName=DNS:localhost", "-keyout", "key.pem", "-out", "ca.pem"]
    for words in (certificate, ["mosquitto_passwd", "-b", "-c", "users", "fleet", "secret"]):
        if not shutil.which(words[0]):
            pytest.skip(f"{words[0]} is not installed")
        subprocess.run(words, cwd=tmp_path, check=True, capture_output=True)
    # (mosquitto gives root up where it is begun as root, and reads its key before that)
    broker = Broker(tmp_path, f"user root\npassword_file {tmp_path}/users\ncertfile {tmp_path}/ca.pem\nkeyfile {tmp_path}/key.pem\n")
    yield broker
    broker.end()


@over_mqtt
def test_tls(tmp_path, locked):
    """What is published comes to somebody else, and what somebody else publishes is heard."""
    access = access_at(tmp_path, 'user = "fleet"\npassword = "secret"\ntls = true\nca = "ca.pem"\n')
    carrier = mqtt.Mqtt(server_at(locked.port, access), "fuota-test")
    client = ["-h", "localhost", "-p", str(locked.port), "--cafile", str(tmp_path / "ca.pem"), "-u", "fleet", "-P", "secret"]
    other = subprocess.Popen(["mosquitto_sub", *client, "-t", "#", "-C", "2"], stdout=subprocess.PIPE, text=True)
    heard, end = [], time.monotonic() + 30
    message = {"end_device_ids": {"dev_eui": EUIS[0]}, "uplink_message": {"f_port": 203, "frm_payload": "AQ=="}}
    while not carrier.is_up() and time.monotonic() < end:
        carrier.work(0.1)
    time.sleep(1)
    carrier.publish("v3/x", {"downlinks": []})
    subprocess.run(["mosquitto_pub", *client, "-q", "1", "-t", "v3/fleet@town/devices/meter/up", "-m", json.dumps(message)], check=True)
    while not heard and time.monotonic() < end:
        heard = carrier.wait(carrier.now() + 100)
    carrier.close()
    assert [(one.eui, one.port, one.payload) for one in heard] == [(EUIS[0], 203, b"\1")]
    assert [json.loads(line) for line in other.communicate(timeout=30)[0].splitlines()] == [{"downlinks": []}, message]


@over_mqtt
@pytest.mark.parametrize("text", ['user = "fleet"\npassword = "other"\ntls = true\nca = "ca.pem"\n', 'tls = true\nca = "ca.pem"\n'])
def test_wrong_password(tmp_path, locked, text):
    carrier = mqtt.Mqtt(server_at(locked.port, access_at(tmp_path, text)), "fuota-test")
    with pytest.raises(Refusing, match="refuses access"):
        carrier.publish("v3/x", {})
    carrier.close()


@over_mqtt
def test_lost(tmp_path, monkeypatch):
    """What no broker takes in time counts as lost, and does not go out later."""
    monkeypatch.setattr(mqtt, "TIMEOUT", 0.3)
    port = free_port()
    carrier = mqtt.Mqtt(server_at(port), "fuota-test")
    with pytest.raises(Lost):
        carrier.publish("v3/lost", {})
    assert not carrier.is_up()
    broker = Broker(tmp_path)
    object.__setattr__(carrier.server, "port", broker.port)
    try:
        other = subprocess.Popen(["mosquitto_sub", "-h", "127.0.0.1", "-p", str(broker.port), "-t", "#", "-F", "%t", "-C", "1"],
                                 stdout=subprocess.PIPE, text=True)
        time.sleep(1)
        monkeypatch.setattr(mqtt, "TIMEOUT", 30)
        carrier.publish("v3/next", {})
        assert other.communicate(timeout=30)[0] == "v3/next\n"
    finally:
        carrier.close()
        broker.end()


@pytest.mark.parametrize("mode", [0o644, 0o640, 0o604, 0o660])
def test_modes(tmp_path, mode):
    """A file with a password that others may read is refused."""
    with pytest.raises(Wrong, match=f"others may read it .mode {mode:04o}.*chmod 600"):
        mqtt.access_of(access_at(tmp_path, 'password = "secret"', mode))


@pytest.mark.parametrize("text, said", [
    ('pasword = "x"', 'unknown field "pasword" (did you mean "password"?)'), ('ca = "ca.pem"', "ca: only with tls = true"),
    ('tls = true\nca = "nowhere.pem"', "nowhere.pem: no such file"), ('tls = 1', "tls: not a truth value: 1")])
def test_wrong_access(tmp_path, text, said):
    with pytest.raises(Wrong) as why:
        mqtt.access_of(access_at(tmp_path, text))
    assert said in str(why.value)


def test_no_access_file(tmp_path):
    with pytest.raises(Wrong, match="nowhere.toml: No such file or directory"):
        mqtt.access_of(tmp_path / "nowhere.toml")


# ---- The REST API of ChirpStack


def chirpstack_at(address="http://127.0.0.1:1", token=None):
    return ChirpStack(host="127.0.0.1", port=1, application="a", multicast_group=GROUP, http=address, token_file=token)


def post(chirpstack):
    """What comes of a payload for the group, which has the counts from 100 to 199."""
    try:
        return chirpstack.to_group(None, range(100, 200), 100, 201, b"\1\2")
    except (Lost, Refusing) as why:
        return type(why).__name__, re.sub("127[^/]*", "HOST", str(why))


@pytest.fixture
def stub(tmp_path):
    """A stub of the REST API, and a server that talks to it."""
    private(tmp_path / "token", "secret")
    with rest_stub() as rest:
        yield rest, chirpstack_at(rest.address, tmp_path / "token")


def test_a_payload_for_the_group(stub):
    rest, chirpstack = stub
    assert post(chirpstack) == 100
    assert rest.posted == [(100, 201, "AQI=")]


@pytest.mark.parametrize("status, kind", [(500, "Lost"), (503, "Lost"), (429, "Lost"), (401, "Refusing"), (404, "Refusing")])
def test_answers(stub, status, kind):
    rest, chirpstack = stub
    rest.status = status
    assert post(chirpstack)[0] == kind


def test_a_count_beyond_the_groups(stub):
    rest, chirpstack = stub
    rest.first = 206
    assert post(chirpstack) == ("Refusing", "ChirpStack gave the frame count 206, and the group has 100 to 199: "
                                            "set its frame counter to group.first")


def test_nobody_listens():
    assert post(chirpstack_at()) == ("Lost", "http://HOST/api/multicast-groups/6f1c1a52-group/queue: Connection refused")


def test_no_token(tmp_path):
    with pytest.raises(Wrong, match="server.token_file: .*nowhere: No such file or directory"):
        chirpstack_at(token=tmp_path / "nowhere").prepare()


# ---- Messages


EUI, NOON = EUIS[0], 1_935_835_200_000
INFO, IDS = {"deviceInfo": {"devEui": EUI}}, {"end_device_ids": {"dev_eui": EUI.upper()}}
UP, EMPTY = Uplink(EUI, 203, b"\1", NOON), Uplink(EUI, 0, b"", NOON + 500)
CHIRPSTACK, THINGS_STACK = chirpstack_at(), server_at(1)


@pytest.mark.parametrize("server, members, wanted", [
    (CHIRPSTACK, {**INFO, "fPort": 203, "data": "AQ==", "time": "2031-05-06T12:00:00.000+00:00"}, UP),
    (CHIRPSTACK, {**INFO, "time": "then"}, EMPTY),
    (CHIRPSTACK, {**INFO, "fPort": 203, "data": "A"}, None),
    (CHIRPSTACK, {**INFO, "fPort": 256, "data": "AQ=="}, None),
    (CHIRPSTACK, {"deviceInfo": {"devEui": "x"}, "fPort": 1}, None),
    (CHIRPSTACK, {"fPort": 203, "data": "AQ=="}, None),
    (CHIRPSTACK, [], None),
    (CHIRPSTACK, "{", None),
    (THINGS_STACK, {**IDS, "uplink_message": {"f_port": 203, "frm_payload": "AQ=="}, "received_at": "2031-05-06T12:00:00.000000000Z"}, UP),
    (THINGS_STACK, {**IDS, "uplink_message": {}}, EMPTY),
    (THINGS_STACK, IDS, None),
    (THINGS_STACK, {**IDS, "uplink_message": "x"}, None),
], ids=["ChirpStack", "ChirpStack without payload", "ChirpStack, a bad payload", "ChirpStack, a bad port", "ChirpStack, a bad EUI",
        "ChirpStack, no EUI", "ChirpStack, a list", "no JSON", "The Things Stack", "The Things Stack without payload",
        "The Things Stack, no uplink", "The Things Stack, text"])
def test_messages(caplog, server, members, wanted):
    """What is read of a server's message; a malformed one is passed over."""
    class Still(mqtt.Mqtt):
        def __init__(self):
            self.server, self.heard = server, []

        def now(self):
            return NOON + 500

    carrier = Still()
    carrier.take(members.encode() if isinstance(members, str) else json.dumps(members).encode())
    assert carrier.heard == ([] if wanted is None else [wanted])
    assert ("passed over" in caplog.text) == (wanted is None)


@pytest.mark.parametrize("text, wanted", [("2031-05-06T11:59:59Z", NOON - 1_000), ("2031-05-06T12:00:01Z", NOON + 500),
                                          ("2031-05-01T12:00:00Z", NOON + 500), ("2031-05-06T14:00:00+02:00", NOON), (None, NOON + 500),
                                          ("0001-01-01T00:00:00", NOON + 500)])
def test_times(text, wanted):
    assert time_of(text, NOON + 500) == wanted


@pytest.mark.parametrize("kind", list(SERVERS))
def test_each_server(tmp_path, kind):
    """Each server publishes what its own reader takes for a downlink of this device, and refuses fields that it does not have."""
    server = SERVERS[kind]
    fields = {"kind": kind, "host": "h", "application": "a", **({"tenant": "t"} if kind == "things-stack" else {})}
    made = read(Place(tmp_path / "plan.toml", "server"), fields, False)
    sent = []
    made.to_device(lambda topic, members: sent.append((topic, members)), EUI, "meter", 201, b"\1\2")
    (topic, members), = sent
    assert EUI in topic or "meter" in topic
    held = [(name, part) for name in server.holders for part in members.get(name, [])] or [(None, members)]
    found = [server.payload(part, name) for name, part in held]
    assert [(one.way, one.checked_port(), one.octets()) for one in found] == [("down", 201, b"\1\2")]
    with pytest.raises(Wrong, match='server: unknown field "more"'):
        read(Place(tmp_path / "plan.toml", "server"), {**fields, "more": 1}, False)
    with pytest.raises(Wrong, match="which the group needs"):
        read(Place(tmp_path / "plan.toml", "server"), fields, True)
