"""ChirpStack v4 and The Things Stack v3 as they are seen from outside, in front of simulated devices and over mosquitto's broker.

They are strict: what they would refuse they refuse, they count by themselves, and their JSON has no member that is 0, false or
empty (as proto3 writes it) and times of nanoseconds. Written from their published shapes:

- ChirpStack: api/proto of chirpstack-api 4 (device, multicast_group, integration) and its MQTT integration's topics;
- The Things Stack: api/ttn/lorawan/v3 (messages, applicationserver) and its MQTT server's topics.

From memory, and not tried against a server that runs:

- ChirpStack's REST proxy leaves out members that are 0 (another setting of it writes them all); its error has `code`, `message` and
  `details`; a key that is none gives 401 with code 16, an id that is none 404 with code 5;
- CLASS_C is the first word of MulticastGroupType; the order of words in Region; `classBPingSlotPeriodicity` is the name of that field;
- GET /api/devices takes `multicastGroupId`, `limit` and `offset`, and answers `totalCount` and `result`;
- GET /api/device-profiles/{id} answers `deviceProfile` with `region`, of which EU868 is the first word; GET /api/devices/{eui} has
  `lastSeenAt` beside `device`, null where the device was never heard;
- a group's queue takes ports 1 to 223 and counts each payload that it takes, whatever `fCnt` says;
- ChirpStack publishes events with QoS 0 where its configuration says nothing;
- a device's queue has room for as many payloads as QUEUE says; a true one has room for more;
- The Things Stack's broker takes `APPLICATION@TENANT` as user, and a key as password.
"""
import base64
import contextlib
import http.server
import json
import shutil
import socket
import subprocess
import threading
import time
from urllib.parse import parse_qs, urlsplit

import fuota
from fuota.campaign import pipe
from fuota.campaign.plan import moment_of, read_plan
from fuota.campaign.rehearsal import Fleet
from fuota.lns.server import reaches
from lives import EUIS, PLAN, TOOL, VERSION, laid_out

MOSQUITTO = shutil.which("mosquitto") or shutil.which("mosquitto", path="/usr/sbin:/usr/local/sbin")
# The session keys of the group of PLAN (TS005-1.0.0), as openssl enc -aes-128-ecb gives them of its McKey
NET_KEY, APP_KEY = "12c70ea55446bf379c31d89f8af7d8ad", "433e2ad275693ee89936dea29718abc8"
APPLICATION, GROUP, PROFILE, QUEUE = "5b3c6d0e-fleet", "6f1c1a52-group", "0d9a7c44-profile", 16


def left_out(value):
    """What JSON of proto3 has: no member that is 0, false or empty."""
    if isinstance(value, dict):
        return {name: left_out(part) for name, part in value.items() if part not in (0, False, "", [], None)}
    return [left_out(part) for part in value] if isinstance(value, list) else value


# ---- ChirpStack's REST API


class Refused(Exception):
    """Status and words of an error."""


class Api:
    """What ChirpStack has of a group and its devices, and its queue."""

    def __init__(self, first=100, key="secret"):
        self.key, self.first, self.posted, self.status = key, first, [], 200
        self.group = {"id": GROUP, "name": "meters", "applicationId": APPLICATION, "region": 0, "mcAddr": "01020304", "groupType": 0,
                      "mcNwkSKey": NET_KEY, "mcAppSKey": APP_KEY, "dr": 3, "frequency": 869_525_000}
        self.devices = {eui: APPLICATION for eui in EUIS}
        self.profiles, self.heard = {PROFILE: {"id": PROFILE, "name": "meter"}}, {eui: "2031-05-06T20:00:00.123456Z" for eui in EUIS}
        self.members = list(EUIS)

    @property
    def count(self):
        return self.first + len(self.posted)

    def answer(self, way, address, authorization, body):
        """What is answered: the object. It raises `Refused`."""
        if self.status != 200:
            raise Refused(self.status, "as the test says")
        if authorization != f"Bearer {self.key}":
            raise Refused(401, "authentication failed: invalid token")
        place = urlsplit(address)
        query = {name: words[0] for name, words in parse_qs(place.query).items()}
        if way == "POST" and place.path == f"/api/multicast-groups/{GROUP}/queue":
            return self.enqueue(body)
        if way == "GET" and place.path == f"/api/multicast-groups/{GROUP}":
            return {"multicastGroup": {**self.group, "fCnt": self.count}, "createdAt": "2031-05-01T10:00:00.123456789Z"}
        if way == "GET" and place.path == "/api/devices" and query.get("multicastGroupId") == GROUP:
            begin, most = int(query.get("offset", 0)), int(query["limit"])
            listed = [{"devEui": eui, "name": f"meter-{eui[-1]}"} for eui in self.members[begin:begin + most]]
            return {"totalCount": len(self.members), "result": listed}
        eui = place.path.removeprefix("/api/devices/")
        if way == "GET" and eui in self.devices:
            return {"device": {"devEui": eui, "name": f"meter-{eui[-1]}", "applicationId": self.devices[eui], "isDisabled": False,
                               "deviceProfileId": PROFILE}, "lastSeenAt": self.heard.get(eui)}
        if way == "GET" and place.path.removeprefix("/api/device-profiles/") in self.profiles:
            return {"deviceProfile": self.profiles[place.path.removeprefix("/api/device-profiles/")]}
        raise Refused(404, "object does not exist")

    def enqueue(self, body):
        item = body["queueItem"]
        if set(body) != {"queueItem"} or not set(item) <= {"fCnt", "fPort", "data"} or not 1 <= item.get("fPort", 0) <= 223:
            raise Refused(400, "fPort must be between 1 - 223")
        base64.b64decode(item.get("data", ""), validate=True)
        self.posted.append((self.count, item["fPort"], item.get("data", "")))
        return {"fCnt": self.posted[-1][0]}


class Rest(http.server.BaseHTTPRequestHandler):
    def do_GET(self):
        self.reply("GET", None)

    def do_POST(self):
        self.reply("POST", json.loads(self.rfile.read(int(self.headers["Content-Length"]))))

    def reply(self, way, body):
        try:
            status, told = 200, left_out(self.server.api.answer(way, self.path, self.headers["Grpc-Metadata-Authorization"], body))
        except Refused as why:
            status, message = why.args
            told = {"code": {401: 16, 404: 5, 400: 3}.get(status, 2), "message": message, "details": []}
        answer = json.dumps(told).encode()
        self.send_response(status)
        self.send_header("Content-Type", "application/json")
        self.send_header("Content-Length", str(len(answer)))
        self.end_headers()
        self.wfile.write(answer)

    def log_message(self, *_):
        pass


@contextlib.contextmanager
def rest_stub(first=100):
    """ChirpStack's REST API, on a port of its own: what it has, which knows its address."""
    server = http.server.ThreadingHTTPServer(("127.0.0.1", 0), Rest)
    api = server.api = Api(first)
    api.address = f"http://127.0.0.1:{server.server_address[1]}"
    threading.Thread(target=server.serve_forever, args=(0.01,), daemon=True).start()
    try:
        yield api
    finally:
        server.shutdown()
        server.server_close()


def free_port():
    """A port on loopback that nobody listens on."""
    with socket.socket() as probe:
        probe.bind(("127.0.0.1", 0))
        return probe.getsockname()[1]


class Broker:
    """mosquitto on loopback."""

    def __init__(self, folder, more="allow_anonymous true\n", users=()):
        for user, password in users:
            subprocess.run(["mosquitto_passwd", "-b", "-c", folder / "passwords", user, password], check=True, capture_output=True)
            more = f"allow_anonymous false\nuser root\npassword_file {folder}/passwords\n"
        self.port, self.file = free_port(), folder / "mosquitto.conf"
        self.file.write_text(f"listener {self.port} 127.0.0.1\n{more}")
        self.begin()

    def begin(self):
        self.process = subprocess.Popen([MOSQUITTO, "-c", self.file], stdout=subprocess.DEVNULL, stderr=subprocess.DEVNULL)
        for _ in range(100):
            if reaches("127.0.0.1", self.port):
                return
            time.sleep(0.05)
        raise RuntimeError("mosquitto does not listen")

    def end(self):
        self.process.kill()
        self.process.wait()


def epoch_text(t):
    """A moment as TOML has it."""
    return moment_of(t).replace(" ", "T", 1).replace(" UTC", "Z")


def nanoseconds(t):
    """A moment as Go and Rust write it."""
    return epoch_text(t).replace("Z", f".{t % 1000:03}456789Z")


LIVE = (PLAN.replace("distance = 60", "distance = 1").replace("distance = 1\nduty_cycle = 10", "distance = 0.1\nduty_cycle = 100")
        .replace("timeout = 10", "timeout = 4\nguard = 0.2").replace("data_rate = 3", "data_rate = 5"))


# Who the broker lets in: as The Things Stack has it, an application and a key.
USER, PASSWORD = "fleet@town", "NNSXS.secret"
ACCESS = f'user = "{USER}"\npassword = "{PASSWORD}"\n'


class Live:
    """A network server in front of simulated devices, in true time: what the tool publishes comes to them, and what they
    send is published in the shape of the server, with a QoS of its own."""

    qos = 1

    def __init__(self, folder, broker, library, server, lead):
        begin = time.time_ns() // 1_000_000
        start = (begin // 1000 + lead) * 1000
        self.broker, self.counts, self.wrong, self.ups = broker, [], [], dict.fromkeys(EUIS, 0)
        text = LIVE.replace("2031-05-06T22:00:00Z", epoch_text(start)) + server
        self.folder = laid_out(folder, text)
        private(folder / "access.toml", ACCESS)
        self.fleet = Fleet(read_plan(folder / "plan.toml"), fuota.Library(library), begin + 2_000, 700)
        self.library = library
        self.tool = self.run_tool()
        self.source = subprocess.Popen(["mosquitto_sub", *self.address, "-q", "1", "-t", self.down, "-F", "%j"], stdout=subprocess.PIPE)
        self.lines = pipe.Lines(self.source.stdout.fileno())

    def run_tool(self):
        return subprocess.Popen([*TOOL, "run", "plan.toml", "state", "--library", self.library], cwd=self.folder,
                                stdout=subprocess.DEVNULL, stderr=subprocess.PIPE, text=True)

    @property
    def address(self):
        return ["-h", "127.0.0.1", "-p", str(self.broker.port), "-u", USER, "-P", PASSWORD]

    def publish(self, topic, members):
        subprocess.run(["mosquitto_pub", *self.address, "-q", str(self.qos), "-t", topic, "-m", json.dumps(left_out(members))],
                       stderr=subprocess.DEVNULL)

    def count_up(self, eui):
        """The uplink's own frame count, which is 0 at first."""
        self.ups[eui] += 1
        return self.ups[eui] - 1

    def pump(self):
        """Brings what was published to the devices, and publishes what they send."""
        self.lines.wait(5)
        now = time.time_ns() // 1_000_000
        for line in self.lines.take():
            told = json.loads(line)
            if told["qos"] != 1:
                self.wrong.append(told)
            self.goes_down(now, told["topic"], json.loads(told["payload"]))
        for uplink in self.fleet.advance(now):
            self.goes_up(uplink)

    def to_device(self, now, eui, port, payload):
        """Puts a payload into a device's queue, which has little room."""
        if not 1 <= port <= 223 or len(payload) > 242 or len(self.fleet.devices[eui].queue) >= QUEUE:
            self.wrong.append((eui, port, payload))
            return
        self.fleet.to_device(now, eui, port, payload)

    def end(self):
        self.source.terminate()
        self.source.wait()
        self.source.stdout.close()
        said = self.tool.stderr.read()
        self.tool.stderr.close()
        return self.tool.wait(30), said

    def fault(self):
        status, said = self.end()
        if status != 0 or set(self.fleet.running()) != {VERSION}:
            return f"status {status}, {self.fleet.running()} run: {said[-300:]}"
        if self.wrong or not self.counts or self.counts != sorted(set(self.counts)):
            return f"counts {self.counts}, wrong {self.wrong}"
        return None


def private(path, text):
    """A file that nobody but its owner may read."""
    path.write_text(text)
    path.chmod(0o600)


def chirpstack_table(port, address):
    """Its table in a plan."""
    return (f'[server]\nkind = "chirpstack"\nhost = "127.0.0.1"\nport = {port}\napplication = "{APPLICATION}"\nhttp = "{address}"\n'
            f'multicast_group = "{GROUP}"\ntoken_file = "token"\naccess_file = "access.toml"\n')


def things_table(port):
    return (f'[server]\nkind = "things-stack"\nhost = "127.0.0.1"\nport = {port}\napplication = "fleet"\ntenant = "town"\n'
            'multicast_device = "all-meters"\ngateways = ["roof", "tower"]\naccess_file = "access.toml"\n')


class LiveChirpStack(Live):
    """ChirpStack v4, with the queue of a group behind its REST API."""

    down = f"application/{APPLICATION}/device/+/command/down"

    def __init__(self, folder, broker, library, rest, lead=12):
        self.rest, self.taken = rest, 0
        rest.group["dr"] = 5
        super().__init__(folder, broker, library, chirpstack_table(broker.port, rest.address), lead)

    def run_tool(self):
        private(self.folder / "token", self.rest.key + "\n")
        return super().run_tool()

    def pump(self):
        super().pump()
        now = time.time_ns() // 1_000_000
        while self.taken < len(self.rest.posted):
            count, port, data = self.rest.posted[self.taken]
            self.taken += 1
            self.counts.append(count)
            self.fleet.to_group(now, count, port, base64.b64decode(data))

    def goes_down(self, now, topic, members):
        eui = topic.split("/")[3]
        if set(members) != {"devEui", "confirmed", "fPort", "data"} or members["devEui"] != eui or members["confirmed"] is not False:
            self.wrong.append(members)
        self.to_device(now, eui, members["fPort"], base64.b64decode(members["data"], validate=True))

    def goes_up(self, uplink):
        self.publish(f"application/{APPLICATION}/device/{uplink.eui}/event/up", {
            "deduplicationId": "5b9c9a3e-4c9c-4a3f-9e7e-0f3f3b1d2c11", "time": nanoseconds(uplink.t).replace("Z", "+00:00"),
            "deviceInfo": {"tenantId": "52f14cd4-c6f1-4fbd-8f87-4025e1d49242", "tenantName": "town", "applicationId": APPLICATION,
                           "applicationName": "meters", "deviceProfileId": "9f1c", "deviceProfileName": "meter", "deviceName": "meter",
                           "devEui": uplink.eui, "deviceClassEnabled": "CLASS_A", "tags": {"place": "roof"}},
            "devAddr": "01a2b3c4", "adr": True, "dr": 0, "fCnt": self.count_up(uplink.eui), "fPort": uplink.port, "confirmed": False,
            "data": base64.b64encode(uplink.payload).decode(),
            "rxInfo": [{"gatewayId": "0016c001f153a14c", "uplinkId": 4217106255, "rssi": -57, "snr": 0, "channel": 0, "crcStatus": "CRC_OK"}],
            "txInfo": {"frequency": 868_100_000, "modulation": {"lora": {"bandwidth": 125_000, "spreadingFactor": 12, "codeRate": "CR_4_5"}}},
            "regionConfigId": "eu868"})


class LiveThingsStack(Live):
    """The Things Stack, with a group that is a device of its own."""

    down = "v3/fleet@town/devices/+/down/push"

    def __init__(self, folder, broker, library, lead=12):
        super().__init__(folder, broker, library, things_table(broker.port), lead)

    def goes_down(self, now, topic, members):
        name, (down,) = topic.split("/")[3], members["downlinks"]
        more = {"class_b_c"} if name == "all-meters" else set()
        if set(members) != {"downlinks"} or set(down) != {"f_port", "frm_payload", "priority"} | more or down["priority"] not in PRIORITIES:
            self.wrong.append(members)
        payload = base64.b64decode(down["frm_payload"], validate=True)
        if name == "all-meters":
            if down["class_b_c"] != {"gateways": [{"gateway_ids": {"gateway_id": name}} for name in ("roof", "tower")]}:
                self.wrong.append(down)
            self.counts.append(100 + len(self.counts))
            self.fleet.to_group(now, self.counts[-1], down["f_port"], payload)
        else:
            self.to_device(now, next(eui for eui in EUIS if name == f"meter-{eui[-1]}"), down["f_port"], payload)

    def goes_up(self, uplink):
        name = f"meter-{uplink.eui[-1]}"
        self.publish(f"v3/fleet@town/devices/{name}/up", {
            "end_device_ids": {"device_id": name, "application_ids": {"application_id": "fleet"}, "dev_eui": uplink.eui.upper(),
                               "join_eui": "0" * 16, "dev_addr": "01A2B3C4"},
            "correlation_ids": ["as:up:01H"], "received_at": nanoseconds(uplink.t),
            "uplink_message": {
                "session_key_id": "AYx0", "f_port": uplink.port, "f_cnt": self.count_up(uplink.eui),
                "frm_payload": base64.b64encode(uplink.payload).decode(), "received_at": nanoseconds(uplink.t),
                "rx_metadata": [{"gateway_ids": {"gateway_id": "roof"}, "rssi": -57, "snr": 0}],
                "settings": {"data_rate": {"lora": {"bandwidth": 125_000, "spreading_factor": 12}}, "frequency": "868100000"}}})


PRIORITIES = ("LOWEST", "LOW", "BELOW_NORMAL", "NORMAL", "ABOVE_NORMAL", "HIGH", "HIGHEST")
