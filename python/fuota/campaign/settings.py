"""What a network server has to know of a plan's group, and how it is told."""
from collections.abc import Iterator

from .. import lns
from ..errors import Wrong
from ..library import Library
from ..lns.server import Entries
from .plan import Plan

SECRET = "Two of these are keys: whoever has them can send to the group."


def group_of(plan: Plan, calls: Library, is_new: bool = True) -> lns.Group:
    """What a network server has to have of the group of a plan; of a new campaign's its first frame count."""
    group, window = plan.group, plan.window
    if not group or not window:
        raise Wrong(f'{plan.file}: no table "group": by unicast a network server needs no group')
    counts = range(group.first, group.first + 1 if is_new else group.end + 1)
    keys = (derive(group.key, group.number) for derive in (calls.mc_app_s_key, calls.mc_net_s_key))
    return lns.Group(group.address, counts, window.kind == "B", window.periodicity or 0, window.frequency, window.data_rate, *keys)


def euis_of(plan: Plan) -> tuple[str, ...]:
    """The devices of a plan."""
    return tuple(device.eui for device in plan.devices)


def entries_of(group: lns.Group, region: str) -> Entries:
    """What any server has to be told, in the words of the standards."""
    yield "a multicast group of LoRaWAN 1.0.x", None
    yield "McAddr", group.address.hex()
    yield "McAppSKey", group.app_key.hex()
    yield "McNwkSKey", group.net_key.hex()
    yield "next frame count", group.counts.start
    yield "class", group.kind
    if group.is_class_b:
        yield "PingSlotPeriodicity", group.periodicity
    yield "region", region
    yield "frequency (Hz)", group.frequency
    yield "data rate", group.data_rate


def lines_of(plan: Plan, calls: Library) -> Iterator[str]:
    """The entries, a line each, under their headings."""
    group, region = group_of(plan, calls), plan.region.name
    entries = list(plan.server.settings(group, region, euis_of(plan)) if plan.server else entries_of(group, region))
    width = max(len(name) for name, value in entries if value is not None)
    for name, value in entries:
        yield f"{name}:" if value is None else f"  {name:<{width}}  {value}"
    yield SECRET
