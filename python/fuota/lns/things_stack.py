"""The Things Stack v3, over MQTT. A group is a device of its own there, whose downlinks name their gateways."""
from dataclasses import dataclass
from typing import Any

from ..errors import Wrong
from ..fields import member, word, words
from .server import Entries, Group, Members, Payload, Publish, Server, Uplink, base64_of, member_of, time_of, uplink_of


@dataclass(frozen=True, kw_only=True)
class ThingsStack(Server):
    """The Things Stack."""

    name = "things-stack"
    needs_ids = True
    holders = {"result": (dict,), "downlinks": (list,)}
    euis_at = ("end_device_ids.dev_eui",)
    kinds = {"join_accept": "join", "downlink_ack": "ack", "downlink_nack": "ack"}

    application: str = member(word)
    tenant: str = member(word)
    multicast_device: str | None = member(word, None, for_group=True)
    gateways: tuple[str, ...] = member(words, (), for_group=True)

    @classmethod
    def payload(cls, members: Members, holder: str | None = None) -> Payload | None:
        if holder == "downlinks":
            text = members.get("frm_payload")
            # (the server is to make a payload of such an object)
            is_object = member_of(members, "decoded_payload", dict)
            return Payload("down", members.get("f_port"), text, "without payload" if is_object and not text else None)
        for name, way in (("uplink_message", "up"), ("downlink_sent", "down")):
            inner = member_of(members, name, dict)
            if inner is not None:
                return Payload(way, inner.get("f_port"), inner.get("frm_payload"))
        return None

    # ---- A group

    def settings(self, group: Group, region: str, euis: tuple[str, ...]) -> Entries:
        yield "End devices, Register end device, Enter end device specifics manually", None
        yield "Frequency plan", f"one of {region}"
        yield "LoRaWAN version", "LoRaWAN Specification 1.0.3"
        yield "Activation mode", "Define multicast group (ABP & Multicast)"
        yield "Class capabilities", f"Class {group.kind}"
        if group.is_class_b:
            yield "Ping slot periodicity", f"{2 ** group.periodicity} s"
            yield "Ping slot data rate", group.data_rate
            yield "Ping slot frequency", group.frequency
        else:
            yield "Rx2 data rate", group.data_rate
            yield "Rx2 frequency", group.frequency
        yield "Device address", group.address.hex()
        yield "AppSKey", group.app_key.hex()
        yield "NwkSKey", group.net_key.hex()
        yield "Downlink frame counter", group.counts.start
        yield "End device ID", self.multicast_device or "as server.multicast_device of the plan"

    # ---- A campaign

    @property
    def base(self) -> str:
        return f"v3/{self.application}@{self.tenant}/devices"

    @property
    def topic(self) -> str:
        return f"{self.base}/+/up"

    def uplink(self, members: Members, now: int) -> Uplink:
        found = self.payload(members)
        if found is None:
            raise Wrong("not an uplink message")
        return uplink_of(self.euis(members), found, time_of(members.get("received_at"), now))

    def push(self, publish: Publish, name: str | None, port: int, payload: bytes, **more: Any) -> None:
        down = {"f_port": port, "frm_payload": base64_of(payload), "priority": "NORMAL", **more}
        publish(f"{self.base}/{name}/down/push", {"downlinks": [down]})

    def to_device(self, publish: Publish, eui: str, name: str | None, port: int, payload: bytes) -> None:
        self.push(publish, name, port, payload)

    def to_group(self, publish: Publish, counts: range, count: int, port: int, payload: bytes) -> int | None:
        gateways = [{"gateway_ids": {"gateway_id": name}} for name in self.gateways]
        self.push(publish, self.multicast_device, port, payload, class_b_c={"gateways": gateways})
        return None
