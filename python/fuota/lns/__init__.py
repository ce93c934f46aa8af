"""The network servers: one module each has a server's messages, both ways, and its fields of a plan.

Campaigns send and hear through them, captures read what a server logs by them.
"""
from typing import Any

from .. import fields
from .chirpstack import ChirpStack as ChirpStack
from .server import (Group as Group, Lost as Lost, Members as Members, Payload as Payload, Refusing as Refusing, Server as Server,
                     Uplink as Uplink)
from .things_stack import ThingsStack as ThingsStack

KINDS: tuple[type[Server], ...] = (ChirpStack, ThingsStack)
SERVERS = {kind.name: kind for kind in KINDS}


def read(place: fields.Place, members: dict[str, Any], has_group: bool) -> Server:
    """The network server that a table of a plan names, with what the group needs of it where there is one."""
    if "kind" not in members:
        raise place.wrong('missing field "kind"')
    try:
        kind = SERVERS[fields.choice(*SERVERS)(members["kind"])]
    except ValueError as why:
        raise place.wrong(why, "kind") from None
    server = fields.read(kind, place, {name: value for name, value in members.items() if name != "kind"})
    for name in kind.group_fields() if has_group else ():
        if not getattr(server, name):
            raise place.wrong(f'missing field "{name}", which the group needs')
    return server
