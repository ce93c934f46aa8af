"""Captures, which `fuota capture` reads, made of what a network server logs; and the command fuota-capture."""
import argparse
import json
import pathlib
import re
import sys
from collections import Counter
from collections.abc import Iterator
from dataclasses import dataclass

from . import words
from .errors import Wrong
from .limits import MAX_CAPTURE, MAX_LINES, MAX_ROWS
from .lns import SERVERS, Members, Payload
from .lns.server import eui_of, member_of

# The members that hold messages, each with its types.
HOLDERS: dict[str, tuple[type, ...]] = {}
for _server in SERVERS.values():
    for _name, _kinds in _server.holders.items():
        HOLDERS[_name] = HOLDERS.get(_name, ()) + _kinds
# The kinds of what is left out, in the order in which they are said, each with its word for several.
LEFT_OUT = {
    "join": "joins",
    "ack": "acks",
    "status": "statuses",
    "other": "others",
    "of another device": "of another device",
    "without an EUI": "without an EUI",
    "of port 0": "of port 0",
    "without port": "without port",
    "without payload": "without payload",
    "encrypted": "encrypted",
    "empty list": "empty lists",
    "empty line": "empty lines",
}


# What a line that is no JSON often is, by how it begins, and what makes lines of JSON of it.
STRANGE = (
    (re.compile(rb"\x1f\x8b"), "it is compressed by gzip; zcat writes what is in it"),
    (re.compile(rb"\s*[\[{]\s*$|\s+\S"), "a part of an object over several lines; jq -c . writes each on a line"),
    (re.compile(rb"[^\s{]*/[^\s{]* [\[{]"), "a topic is before the object; mosquitto_sub without -v leaves it out"),
    (re.compile(rb"[^{\[]+(\[\d+\])?: [\[{]"), "words are before the object; journalctl -o cat leaves a journal's out"),
)
AN_ARRAY = "not a JSON object, but an array; jq -c '.[]' writes each of its objects on a line"


@dataclass(frozen=True)
class Message:
    """A message, with the EUI of its device, or None, and what it carries, or None."""

    members: Members
    device: str | None
    found: Payload | None

    @property
    def is_multicast(self) -> bool:
        """Whether it names a group."""
        return any([server.names_group(self.members) for server in SERVERS.values()])


def device_of(members: Members, outer: str | None = None) -> str | None:
    """The EUI of the device that a message is of; where it names none that of the message that holds it, or None."""
    texts = [text for server in SERVERS.values() for text in server.euis(members)]
    named = sorted({eui_of(text) for text in texts if text} | ({outer} if outer else set()))
    if len(named) > 1:
        raise Wrong(f"a message of {named[0]} and of {named[1]}")
    return named[0] if named else None


def payload_of(members: Members, holder: str | None = None) -> Payload | None:
    """What a message carries, which a member of another may hold; None of one that carries nothing."""
    found = (server.payload(members, holder) for server in SERVERS.values())
    return next((payload for payload in found if payload is not None), None)


def parts_of(members: Members) -> Iterator[tuple[str, Members]]:
    """The messages that a message holds, each with the name of the member that holds it."""
    for name, kinds in HOLDERS.items():
        held = member_of(members, name, *kinds)
        for part in [held] if isinstance(held, dict) else held or []:
            if not isinstance(part, dict):
                raise Wrong(f"an item of {name} is not an object: {part!r:.40}")
            yield name, part


def messages_of(members: Members) -> Iterator[Message]:
    """The messages of a line: those that it holds, or itself where it carries something or holds none."""
    device, found = device_of(members), payload_of(members)
    parts = list(parts_of(members)) if found is None else []
    for name, part in parts:
        inner = payload_of(part, name)
        yield Message(part, device_of(part, device), inner)
    if not parts:
        yield Message(members, device, found)


def kind_of(members: Members) -> str:
    """The kind of a message that carries nothing."""
    kinds = (server.kind_of(members) for server in SERVERS.values())
    named = next((kind for kind in kinds if kind), None)
    return named or ("empty list" if any(members.get(name) == [] for name in HOLDERS) else "other")


def object_of(found: Payload) -> str:
    """What a message carries as a line of a capture."""
    line = {"port": found.checked_port(), "dir": found.way, "hex": found.octets().hex()}
    return json.dumps(line, separators=(",", ":"))


class Log:
    """What is taken of a log: its objects, whose they are, and how many messages were taken and left out, by kind."""

    def __init__(self, asked_for: str | None) -> None:
        self.asked_for = asked_for
        self.device: str | None = None
        self.objects: list[str] = []
        self.taken: Counter[str] = Counter()
        self.left_out: Counter[str] = Counter()

    def reason(self, message: Message) -> str | None:
        """Why a message is left out; None where it is taken."""
        if self.asked_for and message.device and message.device != self.asked_for:
            return "of another device"
        if message.found is None:
            return kind_of(message.members)
        if message.found.port is None:
            return "without port"
        if message.found.port == 0:
            return "of port 0"
        if self.asked_for and not message.device and not message.is_multicast:
            return "without an EUI"
        return message.found.left_out

    def take(self, message: Message) -> None:
        """Takes a message, or leaves it out."""
        is_multicast = message.is_multicast
        line = None if message.found is None else object_of(message.found)
        reason = self.reason(message)
        if reason or line is None or message.found is None:
            self.left_out[reason or "other"] += 1
            return
        if message.device and self.device and message.device != self.device:
            raise Wrong(f"a message of {message.device}, and not of {self.device}")
        self.device = self.device or message.device
        self.objects.append(line)
        self.taken[message.found.way] += 1
        self.taken["multicast"] += is_multicast

    def take_line(self, line: bytes) -> None:
        """Takes the messages of a line."""
        if not line:
            self.left_out["empty line"] += 1
            return
        try:
            members = json.loads(line.decode("utf-8-sig"))
        except (ValueError, RecursionError) as why:
            known = next((words for form, words in STRANGE if form.match(line)), why)
            raise Wrong(f"not JSON: {known}") from None
        if not isinstance(members, dict):
            raise Wrong(AN_ARRAY if isinstance(members, list) else "not a JSON object")
        for message in messages_of(members):
            self.take(message)

    def counts(self) -> str:
        """What was taken and what was left out, in words."""
        up, down, multicast = (self.taken[name] for name in ("up", "down", "multicast"))
        taken = f"taken: {up} uplink{'s' * (up != 1)}, {down} downlink{'s' * (down != 1)}"
        by_multicast = f" ({multicast} by multicast)" if multicast else ""
        counted = [(self.left_out[one], one, several) for one, several in LEFT_OUT.items()]
        left_out = [f"{count} {one if count == 1 else several}" for count, one, several in counted if count]
        return f"{taken}{by_multicast}; left out: {', '.join(left_out) or 'nothing'}"


def read_log(path: pathlib.Path, device: str | None) -> Log:
    """What is taken of a log's file: the messages of one device, of `device` where that is told."""
    log = Log(device)
    for number, line in enumerate(path.read_bytes().splitlines(), 1):
        try:
            log.take_line(line)
        except (Wrong, RecursionError) as why:
            raise Wrong(f"{path}: line {number}: {why}") from None
    return log


def capture_of(log: Log, rows: int) -> str:
    """The capture of a device with so many rows."""
    # (the header is a line too)
    if len(log.objects) >= MAX_LINES:
        raise Wrong(f"{len(log.objects)} payloads, and not at most {MAX_LINES - 1}")
    text = "".join(line + "\n" for line in [f"capture 1 {rows}", *log.objects])
    if len(text) > MAX_CAPTURE:
        raise Wrong(f"a capture of {len(text)} bytes, and not of at most {MAX_CAPTURE}")
    return text


# ---- The command

TEXT = """\
Makes a capture, which `fuota capture` reads, of what a LoRaWAN network server logs.

LOG has a JSON object a line, each a message of ChirpStack v3 or v4 or of The Things Stack v3: what their integrations
publish in JSON, or a queued downlink as their API has it. CAPTURE is written, whatever it held before: the header
`capture 1 ROWS`, and for each message that has a payload an object with port, dir and hex, in the order of the log.
Whichever server a message is of, and which way its payload went, is told by its members:

    The Things Stack, uplink message   uplink_message.f_port, uplink_message.frm_payload       up
    The Things Stack, downlink sent    downlink_sent.f_port, downlink_sent.frm_payload         down
    The Things Stack, push or replace  f_port, frm_payload of each item of the list downlinks  down
    ChirpStack v4, event up            fPort, data, beside deviceInfo                          up
    ChirpStack v3, event up            fPort, data, beside rxInfo, txInfo, adr, deviceName or
                                       applicationName, or applicationID with fCnt             up
    ChirpStack, command down           fPort, data, without any of these                       down
    ChirpStack, queue item             the same, alone, in queueItem (v3: deviceQueueItem), or
                                       in a list items or result (v3: deviceQueueItems)        down
    ChirpStack, multicast queue item   the same, with multicastGroupId (v3: multicastGroupID,
                                       in multicastQueueItem or multicastQueueItems)           down

The storage integration of The Things Stack gives each message in an object result. The shapes are those that the
servers publish. None was tried against a live server here.

A queued downlink is taken, sent or not. One that stands in the log as queued and as sent is taken twice, so a log of
The Things Stack should have its pushes and replaces or its downlinks sent, and not both.

These are left out: messages without a payload, as joins and acknowledgements; those without a port, and those of port
0, which has commands of the MAC; queued downlinks whose payload is encrypted already, or is still an object that the
server is to encode; lists without an item; and empty lines, which storage puts between its messages. At the end the
counts of what was taken, and of what was left out by kind, go to standard error.

The messages are those of one device, whose sessions the capture shows. Without --device a payload of a second device
is refused, and one whose message names no EUI is taken. With --device those of other devices are left out, and those
whose message names no EUI: a command of ChirpStack v3 may name none, and a push or a replace of The Things Stack does
so only by end_device_ids beside its list. A multicast queue item names its group and no device. It is taken with
--device too, whatever its group is.
"""
STATUSES = """\
The status is 0 where the capture was written. It is 2, and nothing is written, where words are wrong, a line is not a JSON
object, a member that is read has a wrong type, a port or an EUI is invalid, a payload is not base64 or has more than 242
bytes, a message names two devices, or without --device another than one before it, or the capture would have more than
19,999 payloads or 1,048,576 bytes. What is left out is looked at too. It is 1 where a file could not be read or written.
"""


def asked_eui(word: str) -> str:
    """Reads the EUI that is asked for."""
    try:
        return eui_of(word)
    except Wrong as why:
        raise argparse.ArgumentTypeError(str(why)) from None


def run(asked: argparse.Namespace) -> int:
    """Writes the capture that the words ask for, and says what it took."""
    log = read_log(asked.log, asked.device)
    asked.capture.write_text(capture_of(log, asked.rows), encoding="ascii", newline="\n")
    print(log.counts(), file=sys.stderr)
    return words.DONE


def main(arguments: list[str] | None = None) -> int:
    parser = words.parser_of("fuota-capture", TEXT, STATUSES)
    parser.add_argument("--device", metavar="EUI", type=asked_eui,
                        help="takes the messages of this device alone, beside multicast queue items; 16 hex digits in "
                             "either case, with separators or none, or base64 as in ChirpStack v3")
    parser.add_argument("rows", metavar="ROWS", type=words.whole(0, MAX_ROWS), help="rows of the device, a decimal from 0 to 256")
    parser.add_argument("log", metavar="LOG", type=pathlib.Path, help="what the server logged, a JSON object a line")
    parser.add_argument("capture", metavar="CAPTURE", type=pathlib.Path, help="the file that is written")
    return words.ended("fuota-capture", run, parser.parse_args(arguments))


if __name__ == "__main__":
    sys.exit(main())
