"""ChirpStack: v3 and v4 as captures know them; of v4 the JSON integration over MQTT, and the REST API for a multicast group."""
import pathlib
import re
from collections.abc import Iterator
from dataclasses import dataclass
from functools import cached_property
from urllib.parse import urlsplit

from .. import files
from ..errors import Wrong
from ..fields import file, member, url, word
from . import rest
from .server import (Entries, Group, Lost, Members, Payload, Publish, Refusing, Server, Uplink, base64_of, has_all, member_of,
                     reaches, time_of, uplink_of)

# The devices of a group that are asked for at once, and in all.
PAGE, MOST = 100, 100_000
WORD = re.compile(r"[\w-]+")
TOKEN = re.compile(rb"([!-~]+)\r?\n?")


@dataclass(frozen=True, kw_only=True)
class ChirpStack(Server):
    """ChirpStack. It counts the group's frames by itself, and tells the count that it gave."""

    name = "chirpstack"
    holders = {"result": (list,), "items": (list,), "queueItem": (dict,), "deviceQueueItem": (dict,), "deviceQueueItems": (list,),
               "multicastQueueItem": (dict,), "multicastQueueItems": (list,)}
    euis_at = ("devEui", "devEUI", "deviceInfo.devEui")
    groups = ("multicastGroupId", "multicastGroupID")
    kinds = {"acknowledged": "ack", "margin": "status", "batteryLevel": "status", "devAddr fCnt": "without port", "devAddr": "join"}
    # What an event of an uplink has beside the payload, and no downlink has.
    uplink_marks = ("deviceInfo", "rxInfo", "txInfo", "adr", "deviceName", "applicationName", "applicationID fCnt")

    application: str = member(word)
    http: str | None = member(url, None, for_group=True)
    multicast_group: str | None = member(word, None, for_group=True)
    token_file: pathlib.Path | None = member(file, None, for_group=True)

    @classmethod
    def payload(cls, members: Members, holder: str | None = None) -> Payload | None:
        if "fPort" not in members and "data" not in members:
            return None
        port, text = members.get("fPort"), members.get("data")
        if any(has_all(members, mark) for mark in cls.uplink_marks) and not any(members.get(name) for name in cls.groups):
            return Payload("up", port, text)
        if member_of(members, "isEncrypted", bool):
            return Payload("down", port, text, "encrypted")
        # (the server is to make a payload of such an object)
        is_object = member_of(members, "object", dict) or member_of(members, "jsonObject", str) or "data" not in members
        return Payload("down", port, text, "without payload" if is_object and not text else None)

    # ---- A group

    def settings(self, group: Group, region: str, euis: tuple[str, ...]) -> Entries:
        yield "Applications, Multicast-groups, Add multicast-group", None
        yield "Multicast-group name", name_of(group)
        yield "Group type", f"Class-{group.kind}"
        yield "Multicast address", group.address.hex()
        yield "Multicast network session key", group.net_key.hex()
        yield "Multicast application session key", group.app_key.hex()
        yield "Region", region
        yield "Data-rate", group.data_rate
        yield "Frame-counter", group.counts.start
        yield "Frequency (Hz)", group.frequency
        if group.is_class_b:
            yield "Class-B ping-slot periodicity", group.periodicity
        yield "Applications, Devices, Selected devices, Add to multicast-group", None
        for eui in euis:
            yield "Device", eui
        yield "chirpstack.toml", None
        yield "[integration.mqtt] qos", 1

    def make_group(self, group: Group, region: str, euis: tuple[str, ...]) -> str:
        if self.multicast_group:
            raise Wrong("server.multicast_group names a group already")
        if not self.http:
            raise Wrong("server.http: its API makes the group, and no address is given")
        made = rest.ask(f"{self.api}/multicast-groups", self.token, {"multicastGroup": {
            "applicationId": self.application, "name": name_of(group), "region": region, "groupType": f"CLASS_{group.kind}",
            "mcAddr": group.address.hex(), "mcNwkSKey": group.net_key.hex(), "mcAppSKey": group.app_key.hex(), "fCnt": group.counts.start,
            "dr": group.data_rate, "frequency": group.frequency, "classBPingSlotPeriodicity": group.periodicity}})
        its_id = made.get("id")
        if not isinstance(its_id, str) or not its_id:
            raise Lost(f"{self.http}: no id of the group in the answer")
        for number, eui in enumerate(euis):
            try:
                rest.ask(f"{self.api}/multicast-groups/{its_id}/devices", self.token, {"devEui": eui})
            except (Lost, Refusing) as why:
                raise type(why)(f"{why}; the group {its_id} is made, with the first {number} of {len(euis)} devices") from None
        return its_id

    # ---- A campaign

    @property
    def api(self) -> str:
        return f"{self.http}/api"

    @property
    def topic(self) -> str:
        return f"application/{self.application}/device/+/event/up"

    def uplink(self, members: Members, now: int) -> Uplink:
        found = self.payload(members) or Payload("up", None, None)
        return uplink_of(self.euis(members), found, time_of(members.get("time"), now))

    def to_device(self, publish: Publish, eui: str, name: str | None, port: int, payload: bytes) -> None:
        publish(f"application/{self.application}/device/{eui}/command/down",
                {"devEui": eui, "confirmed": False, "fPort": port, "data": base64_of(payload)})

    def to_group(self, publish: Publish, counts: range, count: int, port: int, payload: bytes) -> int | None:
        item = {"queueItem": {"fCnt": count, "fPort": port, "data": base64_of(payload)}}
        address = f"{self.api}/multicast-groups/{self.multicast_group}/queue"
        # (a number that is 0 may be left out)
        given = rest.ask(address, self.token, item).get("fCnt", 0)
        if type(given) is not int:
            raise Lost(f"{address}: no frame count in the answer")
        if given not in counts:
            raise Refusing(f"ChirpStack gave the frame count {given}, and the group has {counts.start} to {counts.stop - 1}: "
                           "set its frame counter to group.first")
        return given

    # ---- What it has of a plan

    @property
    def is_asked(self) -> bool:
        return bool(self.http and self.token_file)

    def differences(self, group: Group | None, region: str, euis: tuple[str, ...]) -> Iterator[str]:
        if not self.is_asked:
            return
        if group:
            yield from self.group_differences(group)
        members = self.members() if group else set(euis)
        profiles: set[str] = set()
        for eui in euis:
            there = self.answered(f"devices/{eui}", "device")
            if there and there.get("deviceProfileId"):
                profiles.add(str(there["deviceProfileId"]))
            if there is None:
                yield f"device {eui}: unknown to ChirpStack"
            elif there.get("applicationId") != self.application:
                yield f"device {eui}: of the application {self.shown(there.get('applicationId'))}, in the plan of {self.application}"
            elif eui not in members:
                yield f"device {eui}: not in the multicast group"
        for profile in sorted(profiles):
            yield from self.profile_differences(profile, region)

    def profile_differences(self, profile: str, region: str) -> Iterator[str]:
        """The region of a device profile, where that is another. A key of its API may have no right to see it."""
        if not WORD.fullmatch(profile):
            return
        try:
            there = self.answered(f"device-profiles/{profile}", "deviceProfile")
        except Refusing:
            return
        # (the first word of a choice is left out; AS923 has parts, as AS923_2)
        found = None if there is None else str(there.get("region", "EU868"))
        if found and found.split("_")[0] != region:
            yield f"the device profile {self.shown(profile)}'s region: {self.shown(found)}, in the plan {region}"

    def never_heard(self, euis: tuple[str, ...]) -> list[str]:
        if not self.is_asked:
            return []
        # (a moment that is none is left out)
        return [eui for eui in euis if not rest.ask(f"{self.api}/devices/{eui}", self.token).get("lastSeenAt")]

    def group_differences(self, group: Group) -> Iterator[str]:
        """The fields in which its multicast group is another. A number that is 0 and the first word of a choice are left out."""
        there = self.answered(f"multicast-groups/{self.multicast_group}", "multicastGroup")
        if there is None:
            yield f"the multicast group {self.multicast_group}: unknown to ChirpStack"
            return
        count = there.get("fCnt", 0)
        fields = {
            "address": (str(there.get("mcAddr", "")).lower(), group.address.hex()),
            "class": (there.get("groupType", "CLASS_C"), "CLASS_B" if group.is_class_b else "CLASS_C"),
            "data rate": (there.get("dr", 0), group.data_rate),
            "frequency": (there.get("frequency", 0), group.frequency),
            "application": (there.get("applicationId"), self.application),
        }
        if group.is_class_b:
            fields["periodicity"] = there.get("classBPingSlotPeriodicity", 0), group.periodicity
        for name, (found, wanted) in fields.items():
            if found != wanted:
                yield f"the multicast group's {name}: {self.shown(found)}, in the plan {wanted}"
        for name, key in (("mcAppSKey", group.app_key), ("mcNwkSKey", group.net_key)):
            if str(there.get(name)).lower() != key.hex():
                yield f"the multicast group's {name}: another one than key and address of the plan give"
        if type(count) is not int or count not in group.counts:
            counts = group.counts.start if len(group.counts) == 1 else f"from {group.counts.start} to {group.counts.stop - 1}"
            yield f"the multicast group's frame counter: {self.shown(count)}, in the plan {counts}"

    def shown(self, value: object) -> str:
        """What can be shown of a value that it told."""
        return rest.shown(str(value), self.token)[:40]

    def answered(self, path: str, name: str) -> Members | None:
        """What its REST API has there under a name; None where there is nothing."""
        try:
            found = rest.ask(f"{self.http}/api/{path}", self.token).get(name)
        except rest.NotThere:
            return None
        if not isinstance(found, dict):
            raise Lost(f"{self.http}/api/{path}: no {name} in the answer")
        return found

    def members(self) -> set[str]:
        """The devices in its multicast group."""
        found: set[str] = set()
        for offset in range(0, MOST, PAGE):
            path = f"devices?limit={PAGE}&offset={offset}&multicastGroupId={self.multicast_group}"
            try:
                listed = rest.ask(f"{self.http}/api/{path}", self.token).get("result")
            except rest.NotThere:
                break
            euis = [str(one.get("devEui")).lower() for one in listed if isinstance(one, dict)] if isinstance(listed, list) else []
            if found.issuperset(euis):
                break
            found.update(euis)
        return found

    # ---- Its key

    @cached_property
    def token(self) -> str:
        """The key of its API; empty where no file is named."""
        if not self.token_file:
            return ""
        try:
            line = TOKEN.fullmatch(files.read(self.token_file, is_private=True))
        except OSError as why:
            raise Wrong(f"server.token_file: {self.token_file}: {why.strerror}") from None
        except Wrong as why:
            raise Wrong(f"server.token_file: {why}") from None
        if not line:
            raise Wrong(f"server.token_file: {self.token_file}: not one line of printable characters without spaces")
        return line[1].decode()

    def prepare(self) -> None:
        self.token

    def is_up(self) -> bool:
        parts = urlsplit(self.http or "")
        return parts.hostname is None or reaches(parts.hostname, parts.port or (443 if parts.scheme == "https" else 80))


def name_of(group: Group) -> str:
    """A name for a group, which anybody may change."""
    return f"fuota-{group.address.hex()}"
