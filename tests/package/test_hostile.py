"""Network servers that answer as none should: none of them ends a campaign with anything but a sentence, none gets the key that
is not to have it, and none holds a payload longer than its deadline."""
import contextlib
import itertools
import json
import socket
import threading
import time

import pytest

from fuota.campaign import mqtt
from fuota.errors import Wrong
from fuota.lns import ChirpStack, Lost, Refusing, ThingsStack, rest

try:
    import paho.mqtt.client
    HAS_PAHO = True
except ModuleNotFoundError:
    HAS_PAHO = False

KEY = "eyJhbGciOi.secret-key_0"


# ---- The REST API of ChirpStack


@contextlib.contextmanager
def answering(act):
    """A server on loopback that does this with each connection, once the request came; what came."""
    heard = []
    with socket.create_server(("127.0.0.1", 0)) as listener:
        def serve():
            while True:
                try:
                    connection, _ = listener.accept()
                except OSError:
                    return
                with connection, contextlib.suppress(OSError):
                    heard.append(connection.recv(65_536))
                    act(connection)

        threading.Thread(target=serve, daemon=True).start()
        yield listener.getsockname()[1], heard
        listener.shutdown(socket.SHUT_RDWR)


def saying(head, body=b"", length=None):
    """Answers with this head, and a body of which it says that it has this length."""
    head = head.encode() + b"\r\n" + (f"Content-Length: {len(body) if length is None else length}\r\n\r\n").encode()
    return lambda connection: connection.sendall(head + body)


def holding(data):
    """Says this, and then nothing any more."""
    def act(connection):
        connection.sendall(data)
        time.sleep(2)
    return act


def dripping(first, data):
    """Says this, and then that again and again, a little at a time."""
    def act(connection):
        connection.sendall(first)
        for byte in itertools.islice(itertools.cycle(data), 400):
            connection.sendall(bytes([byte]))
            time.sleep(0.005)
    return act


def flooding(connection):
    connection.sendall(b"HTTP/1.1 200 OK\r\nContent-Length: 1000000000\r\n\r\n")
    for _ in range(100):
        connection.sendall(b" " * 100_000)


CHUNKED = b"HTTP/1.1 200 OK\r\nTransfer-Encoding: chunked\r\n\r\n"
# What is answered, and what the campaign takes it for.
ODD = {
    "a redirect 301": (saying("HTTP/1.1 301 Moved\r\nLocation: {}"), "Refusing"),
    "a redirect 302": (saying("HTTP/1.1 302 Found\r\nLocation: {}"), "Refusing"),
    "a redirect 303": (saying("HTTP/1.1 303 See Other\r\nLocation: {}"), "Refusing"),
    "a redirect 307": (saying("HTTP/1.1 307 Temporary Redirect\r\nLocation: {}"), "Refusing"),
    "no status line": (lambda connection: connection.sendall(b"fCnt\r\n\r\n"), "Lost"),
    "the key in place of a status": (lambda connection: connection.sendall(f"{KEY}\r\n\r\n".encode()), "Lost"),
    "nothing": (lambda connection: None, "Lost"),
    "a strange status": (saying("HTTP/1.1 x OK"), "Lost"),
    "a chunked body cut off": (lambda connection: connection.sendall(CHUNKED + b"40\r\n{"), "Lost"),
    "a chunk of no length": (lambda connection: connection.sendall(CHUNKED + b"zz\r\n{}\r\n"), "Lost"),
    "a short body": (saying("HTTP/1.1 200 OK", b"{", 40), "Lost"),
    "a header of 64 KB": (saying("HTTP/1.1 200 OK\r\nX: " + "x" * 70_000, b"{}"), "Lost"),
    "a thousand headers": (saying("HTTP/1.1 200 OK" + "\r\nX: x" * 1_000, b"{}"), "Lost"),
    "JSON nested deep": (saying("HTTP/1.1 200 OK", b'{"fCnt":' + b"[" * 60_000), "Lost"),
    "a list": (saying("HTTP/1.1 200 OK", b"[]"), "Lost"),
    "no JSON": (saying("HTTP/1.1 200 OK", b"<html>"), "Lost"),
    "no UTF-8": (saying("HTTP/1.1 200 OK", b'{"fCnt": "\xff"}'), "Lost"),
    "an empty body": (saying("HTTP/1.1 200 OK"), "Lost"),
    "a count that is none": (saying("HTTP/1.1 200 OK", b'{"fCnt": true}'), "Lost"),
    "a count of another group": (saying("HTTP/1.1 200 OK", b'{"fCnt": 7}'), "Refusing"),
    "an error whose body never comes": (holding(b"HTTP/1.1 401 Unauthorized\r\nContent-Length: 40\r\n\r\n"), "Lost"),
    "silence": (holding(b""), "Lost"),
    "headers that drip": (dripping(b"HTTP/1.1 200 OK\r\n", b"X: x\r\n"), "Lost"),
    "a body that drips": (dripping(b"HTTP/1.1 200 OK\r\nContent-Length: 100000\r\n\r\n", b" "), "Lost"),
    "continue without an end": (dripping(b"", b"HTTP/1.1 100 Continue\r\n\r\n"), "Lost"),
    "an endless body": (flooding, "Lost"),
}


def chirpstack_at(port, folder, key=KEY):
    token = folder / "token"
    token.write_text(key + "\n")
    token.chmod(0o600)
    return ChirpStack(host="127.0.0.1", port=1, application="a", multicast_group="g", http=f"http://127.0.0.1:{port}", token_file=token)


def post(chirpstack):
    return chirpstack.to_group(None, range(100, 200), 100, 201, b"\1\2")


@pytest.mark.parametrize("name", ODD)
def test_odd_answers(tmp_path, monkeypatch, name):
    """Each is a payload that is lost, or a refusal; within the deadline, and with nothing of the key."""
    act, kind = ODD[name]
    monkeypatch.setattr(rest, "TIMEOUT", 0.5)
    with answering(act) as (port, _):
        begin = time.monotonic()
        with pytest.raises((Lost, Refusing)) as why:
            post(chirpstack_at(port, tmp_path))
    assert (type(why.value).__name__, time.monotonic() - begin < 1) == (kind, True)
    assert str(why.value) and str(why.value).isprintable() and KEY not in str(why.value)


def test_a_handshake_that_never_comes(tmp_path, monkeypatch):
    """TLS with one that says nothing."""
    monkeypatch.setattr(rest, "TIMEOUT", 0.3)
    with answering(holding(b"")) as (port, _):
        chirpstack = chirpstack_at(port, tmp_path)
        object.__setattr__(chirpstack, "http", f"https://127.0.0.1:{port}")
        with pytest.raises(Lost, match="no whole answer in 0.3 s"):
            post(chirpstack)


def test_a_connection_that_never_comes(tmp_path, monkeypatch):
    """One that does not take it, as where packets are dropped."""
    monkeypatch.setattr(rest, "TIMEOUT", 0.3)
    with contextlib.ExitStack() as open_things:
        listener = open_things.enter_context(socket.create_server(("127.0.0.1", 0), backlog=0))
        for _ in range(4):
            one = open_things.enter_context(socket.socket())
            one.setblocking(False)
            one.connect_ex(listener.getsockname())
        time.sleep(0.05)
        with pytest.raises(Lost, match="no whole answer in 0.3 s"):
            post(chirpstack_at(listener.getsockname()[1], tmp_path))


@pytest.mark.parametrize("status", [301, 302, 303, 307, 308])
def test_the_key_follows_no_redirect(tmp_path, status):
    """Nobody is asked but the host that the plan names."""
    with answering(saying("HTTP/1.1 200 OK", b'{"fCnt": 100}')) as (other, heard):
        with answering(saying(f"HTTP/1.1 {status} Away\r\nLocation: http://127.0.0.1:{other}/api")) as (port, _):
            with pytest.raises(Refusing, match=f"{status}, a redirect"):
                post(chirpstack_at(port, tmp_path))
    assert heard == []


def test_no_proxy(tmp_path, monkeypatch):
    """What the environment names as a proxy is not asked."""
    with answering(saying("HTTP/1.1 200 OK", b'{"fCnt": 100}')) as (proxy, heard):
        for name in ("http_proxy", "HTTP_PROXY", "all_proxy", "ALL_PROXY"):
            monkeypatch.setenv(name, f"http://127.0.0.1:{proxy}")
        monkeypatch.delenv("no_proxy", raising=False)
        with answering(saying("HTTP/1.1 200 OK", b'{"fCnt": 101}')) as (port, asked):
            assert post(chirpstack_at(port, tmp_path)) == 101
    assert (heard, len(asked)) == ([], 1)


def test_a_count_of_0_is_left_out(tmp_path):
    with answering(saying("HTTP/1.1 200 OK", b"{}")) as (port, _):
        assert chirpstack_at(port, tmp_path).to_group(None, range(0, 9), 0, 201, b"\1") == 0


@pytest.mark.parametrize("said, wanted", [
    (f"invalid key {KEY}, {KEY}", "401 invalid key (the key), (the key)"), ("a" * 195 + KEY, "401 " + "a" * 195 + "(the"),
    ("\x1b[2J\r\nno\0", "401 [2J  no")], ids=["the key", "the key at the end", "signs of a terminal"])
def test_what_is_said_of_an_answer(tmp_path, said, wanted):
    """An answer that says the key is shown without it, and moves no cursor."""
    with answering(saying("HTTP/1.1 401 Unauthorized", said.encode())) as (port, _):
        with pytest.raises(Refusing) as why:
            post(chirpstack_at(port, tmp_path))
    assert str(why.value) == f"http://127.0.0.1:{port}/api/multicast-groups/g/queue: {wanted}"


def test_the_timer_is_taken_back():
    """Nothing ends later what came in time."""
    with rest.within(0.1):
        pass
    time.sleep(0.2)
    with pytest.raises(TimeoutError, match="no whole answer in 0.1 s"):
        with rest.within(0.1):
            time.sleep(1)


# ---- Files with a secret


@pytest.mark.parametrize("text", ["", "\n", "one\ntwo\n", "one two\n", " one\n", "one \n", "one\n\n", "\tone", "on\0e", "\x7f", "ключ"],
                         ids=["empty", "an empty line", "two lines", "two words", "a space before", "a space after", "an empty line after",
                              "a tab", "a zero", "delete", "other letters"])
def test_wrong_tokens(tmp_path, text):
    """A key is one line of printable characters; what else stands there is refused, and not shown."""
    with pytest.raises(Wrong) as why:
        chirpstack_with(tmp_path, text)
    assert str(why.value) == f"server.token_file: {tmp_path / 'token'}: not one line of printable characters without spaces"


def chirpstack_with(folder, text):
    """Reads a file with this text as a key."""
    chirpstack = chirpstack_at(1, folder)
    (folder / "token").write_text(text)
    chirpstack.prepare()
    return chirpstack.token


@pytest.mark.parametrize("text", [KEY, KEY + "\n", KEY + "\r\n"])
def test_tokens(tmp_path, text):
    assert chirpstack_with(tmp_path, text) == KEY


@pytest.mark.parametrize("mode", [0o644, 0o640, 0o604, 0o660])
def test_a_token_that_others_may_read(tmp_path, mode):
    chirpstack = chirpstack_at(1, tmp_path)
    (tmp_path / "token").chmod(mode)
    with pytest.raises(Wrong, match=f"^server.token_file: .*token: others may read it .mode {mode:04o}.*chmod 600"):
        chirpstack.prepare()


# ---- The broker

CONNACK = b"\x20\2\0\0"
EUI = "0102030405060708"
TOPIC = "v3/fleet@town/devices/meter/up"
MESSAGE = json.dumps({"end_device_ids": {"dev_eui": EUI}, "uplink_message": {"f_port": 203, "frm_payload": "AQ=="}}).encode()


def packet(first, body):
    """A packet of MQTT."""
    length, left = b"", len(body)
    while True:
        left, part = left >> 7, left & 127
        length += bytes([part | 128 * (left > 0)])
        if not left:
            return bytes([first]) + length + body


def message(payload=MESSAGE, topic=TOPIC.encode(), first=0x30):
    return packet(first, len(topic).to_bytes(2, "big") + topic + payload)


def subscribed(*packets, granted=b"\1", last=1.0):
    """A broker that lets a client connect and subscribe, sends this, and takes nothing."""
    def act(connection):
        connection.sendall(CONNACK)
        number = connection.recv(65_536)[2:4]
        connection.sendall(packet(0x90, number + granted))
        for one in packets:
            connection.sendall(one)
        time.sleep(last)
    return act


def pouring(*packets):
    """A broker that sends this again and again."""
    def act(connection):
        subscribed(last=0)(connection)
        end = time.monotonic() + 5
        while time.monotonic() < end:
            connection.sendall(b"".join(packets) * 100)
    return act


# What a broker does; how many uplinks are heard of it, from and to; and what comes of a payload.
BROKERS = {
    "it refuses": (holding(b"\x20\2\0\5"), 0, 0, "Refusing"),
    "it is not there for now": (holding(b"\x20\2\0\3"), 0, 0, "Lost"),
    "it says nothing": (holding(b""), 0, 0, "Lost"),
    "it drops who connects": (lambda connection: None, 0, 0, "Lost"),
    "it drops who is connected": (lambda connection: connection.sendall(CONNACK), 0, 0, "Lost"),
    "it takes nothing": (subscribed(message()), 1, 1, "Lost"),
    "it floods": (pouring(message()), 1, 64, "Lost"),
    "it floods with nonsense": (pouring(message(b"[" * 9_000)), 0, 0, "Lost"),
    "it says rubbish": (holding(bytes(range(256)) * 9), 0, 0, "Lost"),
    "it says rubbish to who is connected": (subscribed(bytes(range(200, 256)) * 9), 0, 0, "Lost"),
    "packets that are cut": (subscribed(packet(0x30, b"\xff\xffx"), packet(0x30, b""), packet(0x90, b""), packet(0x40, b"")), 0, 0, "Lost"),
    "packets of no end": (subscribed(b"\x30\xff\xff\xff\xff\xff\xff"), 0, 0, "Lost"),
    "a topic that is no text": (subscribed(message(topic=b"\xff\xfe")), 0, 0, "Lost"),
    "another topic": (subscribed(message(topic=b"v3/fleet@town/devices/meter/down/sent"), message(topic=b"v3/other/devices/meter/up")), 0, 0, "Lost"),
    "messages that it kept": (subscribed(message(first=0x31), message(first=0x31)), 0, 0, "Lost"),
    "messages that are too long": (subscribed(message(MESSAGE + b" " * 65_536)), 0, 0, "Lost"),
    "payloads that are too long": (subscribed(message(MESSAGE.replace(b"AQ==", b"AQEB" * 81)), message()), 1, 1, "Lost"),
    "no subscription": (subscribed(message(), granted=b"\x80"), 0, 0, "Refusing"),
}


needs_paho = pytest.mark.skipif(not HAS_PAHO, reason="paho-mqtt is not installed")


def carrier_at(port):
    return mqtt.Mqtt(ThingsStack(host="127.0.0.1", port=port, application="fleet", tenant="town"), "fuota-test")


@needs_paho
@pytest.mark.parametrize("name", BROKERS)
def test_odd_brokers(monkeypatch, name):
    """Each is waited for no longer than was asked, and a payload that it does not take is lost."""
    act, least, most, kind = BROKERS[name]
    monkeypatch.setattr(mqtt, "TIMEOUT", 0.4)
    monkeypatch.setattr(mqtt, "AGAIN", 0.1)
    heard, begin = [], time.monotonic()
    with answering(act) as (port, _):
        carrier = carrier_at(port)
        with contextlib.suppress(Refusing):
            heard = carrier.wait(carrier.now() + 300)
        waited = time.monotonic() - begin
        with pytest.raises((Lost, Refusing)) as why:
            carrier.publish("v3/x", {})
        carrier.close()
    assert type(why.value).__name__ == kind
    assert least <= len(heard) <= most and {uplink.eui for uplink in heard} <= {EUI}
    assert (waited < 0.8, time.monotonic() - begin < 2) == (True, True)


@needs_paho
@pytest.mark.parametrize("why", [OverflowError("too large"), ZeroDivisionError("none")])
def test_numbers_that_are_none(monkeypatch, caplog, why):
    """A message by which a number is reckoned that is none is passed over."""
    def raising(*_):
        raise why

    carrier = carrier_at(1)
    monkeypatch.setattr(ThingsStack, "uplink", raising)
    carrier.take(MESSAGE)
    assert carrier.heard == [] and f"passed over: {MESSAGE!r}: {why}" in caplog.text


@needs_paho
def test_since_when_it_is_away(monkeypatch):
    """Since the connection ended, and not while there is one."""
    monkeypatch.setattr(mqtt, "BLINK", 0)
    monkeypatch.setattr(mqtt, "AGAIN", 60)
    with answering(subscribed(last=0.3)) as (port, _):
        carrier = carrier_at(port)
        carrier.wait(carrier.now() + 150)
        is_there, moment = carrier.away_since() is None, carrier.now()
        carrier.wait(carrier.now() + 400)
    assert is_there and moment < carrier.away_since() <= carrier.now()


@needs_paho
def test_since_when_it_takes_nothing(monkeypatch):
    monkeypatch.setattr(mqtt, "BLINK", 0)
    monkeypatch.setattr(mqtt, "TIMEOUT", 0.2)
    with answering(subscribed()) as (port, _):
        carrier = carrier_at(port)
        carrier.wait(carrier.now() + 150)
        is_there, moment = carrier.away_since() is None, carrier.now()
        with pytest.raises(Lost):
            carrier.publish("v3/x", {})
        assert is_there and moment < carrier.away_since() <= carrier.now()
