"""What a device and a server save, with the digest made anew where it was bent; and image files (docs/FORMATS.md)."""
import hashlib
import random
from typing import Any

from . import commands
from .bending import EDGES, bent, is_one_of, overwritten

DIGEST = 32
DEVICE, FLAGS = 460, slice(199, 203)
# The fields of a saved device: where each begins, and its bytes.
DEVICE_FIELDS = (
    (5, 4), (9, 1), (10, 1), (11, 8),
    *((19 + 29 * k + at, size) for k in range(4) for at, size in ((0, 1), (1, 4), (5, 16), (21, 4), (25, 4))),
    (135, 1), (136, 1), (137, 1), (138, 1), (139, 4), (143, 1), (144, 1), (145, 4), (149, 8), (157, 8), (165, 8), (173, 8),
    (181, 1), (182, 4), (186, 1), (187, 4), (191, 4), (195, 4), (199, 1), (200, 1), (201, 1), (202, 1), (203, 1),
    *((204 + 32 * k + at, size) for k in range(8) for at, size in ((0, 8), (8, 1), (9, 1), (10, 22))))
# Options: where each begins, and the bytes behind its first one.
OPTIONS = ((10, 8), *((19 + 29 * k, 28) for k in range(4)), (144, 4))


def number(value: int, size: int) -> bytes:
    """A number, the lowest byte first."""
    return value.to_bytes(size, "little")


def config_bytes(config: Any, span: int | None) -> bytes:
    """A configuration, for the digest; with a span the sessions are held in flash."""
    descriptor = b"\1" + number(config.descriptor, 4) if config.has_descriptor else bytes(5)
    return (bytes([config.is_class_c]) + number(config.hw, 4) + bytes([config.formats]) + number(config.rows, 2)
            + number(config.offset, 4) + bytes(config.key) + bytes([11 if config.is_v11 else 10]) + descriptor
            + bytes([config.sessions, config.groups]) + number(config.area, 4) + bytes([span is not None]) + number(span or 0, 4))


def device_sealed(state: bytes, config: Any, span: int | None, running: bytes, following: bytes) -> bytes:
    """A saved device: what it knows, and the digest."""
    return state + hashlib.sha256(state + config_bytes(config, span) + running + following).digest()


def plan_bytes(plan: Any, devices: list[Any]) -> bytes:
    """A plan, for the digest."""
    group = b"\1" + bytes([plan.id]) + number(plan.addr, 4) + bytes(plan.key) + number(plan.min, 4) + number(plan.max, 4)
    kind = bytes([2, plan.periodicity]) if plan.is_class_b else bytes([1, 0])
    window = kind + number(plan.start, 4) + bytes([plan.timeout]) + number(plan.freq, 4) + bytes([plan.dr])
    told = b"".join(bytes(device.key) + bytes([11 if device.is_v11 else 10]) for device in devices)
    return (bytes([plan.frag_size]) + number(plan.parity, 2) + bytes([plan.index]) + (group if plan.has_group else b"\0")
            + (window if plan.has_window else b"\0") + bytes([len(devices)]) + told)


def server_sealed(state: bytes, plan: Any, devices: list[Any], image: bytes) -> bytes:
    """A saved server: what it knows, and the digest."""
    return state + hashlib.sha256(state + plan_bytes(plan, devices) + image).digest()


def is_server(state: bytes, plan: Any, devices: int, image: int) -> bool:
    """A server of a plan is restored that knows this: each number is within its range, and what is not there is zeros. (Taken
    are also a count of fragments above 16,383, and a stage of a group that the plan has not, though no server comes there.)"""
    if len(state) != 12 + 6 * devices or state[:5] != b"FUSS\1" or state[11] != devices:
        return False
    following, count = (int.from_bytes(state[at:end], "little") for at, end in ((5, 7), (7, 11)))
    last = -(-image // plan.frag_size) + plan.parity + 1
    is_counted = plan.min <= count <= plan.max if plan.has_group else count == 0
    stages = zip(state[12:12 + 2 * devices:2], state[13:12 + 2 * devices:2])
    statuses = (state[at:at + 4] for at in range(12 + 2 * devices, len(state), 4))
    return (1 <= following <= last and is_counted
            and all(stage <= 8 and bits == 0 or 16 <= stage <= 23 for stage, bits in stages)
            and all(told == bytes(4) or told[0] in (1, 3) for told in statuses))


def is_option(state: bytes, at: int, size: int) -> bool:
    """A value of so many bytes, or none, which is zeros."""
    return state[at] == 1 or state[at:at + 1 + size] == bytes(1 + size)


def is_uplink(told: bytes) -> bool:
    """An uplink of a device: a command as it is spelled, and zeros."""
    payload, rest = told[10:10 + told[9]], told[10 + told[9]:]
    try:
        found = commands.read(told[8], True, payload)
    except commands.NoCommands:
        return False
    return len(found) == 1 and commands.spelled(*found[0]) == payload and not any(rest) and told[9] <= 22


def is_device(state: bytes, config: Any, running: bytes, following: bytes) -> bool:
    """A device of a configuration is restored that knows this, with these files. (Taken is also a class session of a group, 0 to
    3, that it has not, though no device comes there.)"""
    if len(state) != DEVICE or state[:5] != b"FUSD\1":
        return False
    is_b, periodicity, timeout = state[137], state[138], state[143]
    groups = (19 + 29 * k for k in range(4))
    uplinks, count = [state[at:at + 32] for at in range(204, DEVICE, 32)], state[203]
    version, found = int.from_bytes(state[187:191], "little"), state[186]
    is_running = not running or image_state(running, config.hw, state[181]) == (int.from_bytes(state[182:186], "little"), 3)
    is_next = (version, found) == (image_state(following, config.hw, state[181]) if found else (0, 0))
    return (state[9] < 16 and all(is_option(state, at, size) for at, size in (*OPTIONS, (135, 8)))
            and not any(state[at] for at in list(groups)[config.groups:])
            and state[136] < 4 and is_b < 2 and periodicity < (8 if is_b else 1) and timeout < 16
            and state[181] in (config.formats, 2) and is_running and is_next and (found > 0 or not following)
            and state[191:199] == number(len(running), 4) + number(len(following), 4)
            and max(len(running), len(following)) <= config.area and max(state[FLAGS]) < 2 and count <= 8
            and all(is_uplink(told) for told in uplinks[:count]) and not any(any(told) for told in uplinks[count:]))


def device_bent(draws: random.Random, state: bytes) -> bytes:
    """What a device knows, bent: fields replaced or exchanged, or bytes here and there."""
    for _ in range(draws.choice((1, 1, 1, 2, 4))):
        (at, size), (other, _) = draws.choice(DEVICE_FIELDS), draws.choice(DEVICE_FIELDS)
        kind = draws.randrange(7)
        if kind == 6:
            at, size = draws.choice(OPTIONS)
            state = state[:at] + b"\1" + draws.randbytes(size) + state[at + 1 + size:]
        elif kind == 0:
            state = state[:at] + draws.randbytes(size) + state[at + size:]
        elif kind == 1:
            state = state[:at] + bytes([draws.choice(EDGES)] * size) + state[at + size:]
        elif kind == 2:
            state = state[:at] + number(draws.choice(EDGES), size) + state[at + size:]
        elif kind == 3:
            state = state[:at] + state[other:other + size].ljust(size, b"\0") + state[at + size:]
        else:
            state = overwritten(draws, state, 0, len(state))
    return bent(draws, state, 600) if is_one_of(draws, 40) else state


def image_file(draws: random.Random, hw: int, version: int, most: int = 300) -> bytes:
    """An image file, mostly for a hardware version."""
    body, low = draws.randbytes(draws.randint(0, most)), hw if draws.randrange(8) else draws.getrandbits(32)
    rest = number(version, 4) + number(len(body), 4) + hashlib.sha256(body).digest() + body
    if is_one_of(draws, 3):
        return b"FUIM\2" + number(low, 4) + number(max(low, min(hw + 1, 2**32 - 1)), 4) + rest
    return b"FUIM\1" + number(low, 4) + rest


def image_state(file: bytes, hw: int, formats: int) -> tuple[int, int]:
    """What a file is to a device: version and state, as `fuota_next` has them."""
    more = 4 if file[4:5] == b"\2" else 0
    low, high, version, length = (int.from_bytes(file[at:at + 4], "little") for at in (5, 5 + more, 9 + more, 13 + more))
    is_image = (49 + more <= len(file) <= 262144 and file[:4] == b"FUIM" and file[4] in (1, 2) and low <= high and version != 0
                and length == len(file) - 49 - more and file[17 + more:49 + more] == hashlib.sha256(file[49 + more:]).digest())
    if not is_image or more and formats == 1:
        return 0, 1
    return (version, 3) if low <= hw <= high else (0, 2)
