"""Payloads and frames of anybody's: fragments, setups, groups, images and frames that no server of the script sent.

Many act on the device as it is now, with numbers on the borders of their rules.
"""
from model.commands import ROWS, make, spelling
from model.groups import frame_of, wrapped
from model.parity import fragment_of, padding_for, pieces_for

from .values import (
    border, chance, command_of, damaged, image_file, loose_spelling, payload, random_word, rows_for, some_bytes
)


def strange_fragment(rng, device, server):
    """A fragment of a session with a number on a border or data that is another's."""
    living = [session for session in device.sessions if session is not None]
    session = rng.choice(living) if living and chance(rng, 85) else None
    index = rng.randint(0, 3) if session is None else session.setup.index
    size = server.plan.fragsize if session is None else session.setup.fragsize
    count = server.pieces if session is None else session.setup.nbfrag
    numbers = (0, 1, count, count + 1, count + 2, count + 8380, count + 8381, 16383, rng.randint(1, count + 20))
    number = min(rng.choice(numbers), 16383)
    fits = size == server.plan.fragsize and count == server.pieces and 1 <= number <= count + 8380
    data = fragment_of(server.image, size, number) if fits and chance(rng, 60) else some_bytes(rng, size)
    if chance(rng, 10):
        data = data[1:] or b"\0\0"
    return make("DataFragment", index=index, n=number, bytes=data)


def strange_setup(rng, device, server):
    """A setup with fields on their borders; some take a format that the area or the rows do not."""
    count, size = server.pieces, server.plan.fragsize
    return command_of(
        rng,
        ROWS["FragSessionSetupReq"],
        nbfrag=rng.choice((count, count, 0, 1, 1097, 1098, 4096, 4097, 16383, 65535)),
        fragsize=rng.choice((size, size, 0, 1, 239, 240, 64, 65)),
        algo=rng.choice((0, 0, 0, 1, 7)),
        padding=rng.choice((0, 0, size - 1, size)),
        descriptor=rng.choice((server.head.firmware, rng.getrandbits(32))),
    )


def known_group(rng, device, server):
    """A group's setup under the device's own key, with counts on borders."""
    key, low = rng.randbytes(16), rng.choice((0, 65_535, 2**32 - 2))
    block = wrapped(device.config.key, device.config.is_appkey, key)
    addr = rng.choice((rng.getrandbits(32), server.plan.group.addr if server.plan.group else 7))
    high = min(2**32 - 1, low + 70_000)
    return make("McGroupSetupReq", id=rng.randint(0, 3), addr=addr, key=block, min=low, max=high)


def session_request(rng, device, draft):
    """A class session about now, of a group that there may be."""
    ahead = rng.choice((-129, -1, 0, 1, 60, 2**24 - 1, 2**24, 2**31 - 1, 2**31))
    start = (device.clock.seconds(draft.time) + ahead) % 2**32
    fields = dict(id=rng.randint(0, 3), time=start, timeout=rng.choice((0, 4, 8, 15)))
    name = rng.choice(("McClassCSessionReq", "McClassBSessionReq"))
    freq = rng.choice((8_630_000, 8_700_000, 8_629_999, 8_700_001, 8_681_000, 8_681_000))
    return command_of(rng, ROWS[name], freq=freq, dr=rng.choice((0, 5, 6)), **fields)


def chosen_command(draft, device, server):
    """A command that does something to this device now."""
    rng, now = draft.rng, device.clock.seconds(draft.time)
    how = rng.randint(0, 9)
    if how == 9:
        return make("DevDeleteImageReq", version=rng.choice((server.head.firmware, server.head.firmware, 0)))
    if how <= 2:
        return strange_fragment(rng, device, server)
    if how == 3:
        return strange_setup(rng, device, server)
    if how == 4:
        return known_group(rng, device, server)
    if how == 5:
        return session_request(rng, device, draft)
    if how == 6:
        moment = rng.choice((0, 2**32 - 1, now, (now + 1) % 2**32, (now - 1) % 2**32, (now + 2**31) % 2**32))
        return make("DevRebootTimeReq", time=moment)
    if how == 7:
        return make("DevRebootCountdownReq", count=rng.choice((0, 1, 60, 2**24 - 1, 2**24 - 2)))
    token = rng.choice((device.clock.token, device.clock.token, rng.randint(0, 15)))
    return make("AppTimeAns", correction=rng.choice((0, 1, -1, 2**31 - 1, -(2**31), rng.randint(-99, 99))), token=token)


def crowded_payload(rng):
    """A port and a payload that is answered with as many uplinks as the outbox holds, or one less or more."""
    count = rng.choice((7, 8, 8, 9))
    port = rng.randint(200, 203)
    resync = rng.randint(0, 7)
    if port == 202 and resync:
        return port, spelling(make("ForceDeviceResyncReq", count=resync)) + b"\0" * (count - resync)
    return port, b"\0" * count


def write_raw(draft):
    """Anybody's payload: commands that act on this device now, many of them, or any payload of a port."""
    rng, number = draft.rng, draft.rng.randint(1, len(draft.ids))
    device, letter = draft.device_of(number)
    if chance(rng, 8):
        port, data = crowded_payload(rng)
    elif chance(rng, 60):
        command = chosen_command(draft, device, draft.sides[letter].server)
        row = ROWS[command.name]
        port, data = row.ports[0], loose_spelling(rng, row, command)
        if chance(rng, 20):
            more = rng.choice(rows_for(port, "down"))
            data += loose_spelling(rng, more, command_of(rng, more))
    else:
        port = rng.choice((200, 201, 202, 203))
        data = payload(rng, port, "down")
        port = rng.choice((0, 199, 204, 255)) if chance(rng, 4) else port
    draft.write(f"raw {number} {port} {data[:242].hex() or '-'}{random_word(rng)}")


def other_image(rng, device, server):
    """An image file of somebody's: maybe of another version, for other hardware, of another format, or damaged."""
    hardware = device.config.hardware if chance(rng, 70) else rng.getrandbits(32)
    firmware = rng.choice((server.head.firmware, 3, 4))
    image = image_file(rng, hardware, hardware, firmware, rng.randint(0, 60), rng.choice((1, 2)))
    return damaged(rng, image) if chance(rng, 30) else image


def write_image(draft):
    """Somebody sends a device another file that may be an image, in one or two pieces."""
    rng, number = draft.rng, draft.rng.randint(1, len(draft.ids))
    device, letter = draft.device_of(number)
    server = draft.sides[letter].server
    image = other_image(rng, device, server)
    size = rng.choice((120, 60, 64))
    count = pieces_for(len(image), size)
    fields = dict(mask=0, nbfrag=count, fragsize=size, algo=0, delay=0, padding=padding_for(len(image), size))
    index = rng.randint(0, 3)
    setup = make("FragSessionSetupReq", index=index, descriptor=server.head.firmware, **fields)
    draft.write(f"raw {number} 201 {spelling(setup).hex()}")
    for n in range(1, count + 1):
        fragment = make("DataFragment", index=index, n=n, bytes=fragment_of(image, size, n))
        draft.write(f"raw {number} 201 {spelling(fragment).hex()}")
    if chance(rng, 30):
        draft.write(f"raw {number} 203 {spelling(make('DevRebootCountdownReq', count=rng.choice((0, 1, 60)))).hex()}")


def changed_frame(rng, frame):
    """A frame with a bit turned, cut off, with more bytes, or with another FCtrl."""
    how, at = rng.randint(0, 3), rng.randrange(len(frame))
    if how == 0:
        return frame[:at] + bytes([frame[at] ^ 1 << rng.randint(0, 7)]) + frame[at + 1:]
    if how == 1:
        return frame[:rng.choice((12, 13, 14, at))]
    if how == 2:
        return frame + some_bytes(rng, rng.choice((1, 255 - min(255, len(frame)), 256 - min(255, len(frame)))))
    return frame[:5] + bytes([rng.choice((0x10, 0x20, 0x80, 0x01))]) + frame[6:]


def strange_frame(rng, device, server):
    """A frame of a group that the device hears, or knows, with a count on a border."""
    group = device.heard_group() or server.plan.group
    if group is None:
        return some_bytes(rng, rng.choice((0, 12, 13, 40, 255, 256, 300)))
    counts = (group.min - 1, group.min, group.max - 1, group.max, group.min + 65_535, group.min + 65_536)
    count = rng.choice((*counts, group.min + 1, group.min)) % 2**32
    port = rng.choice((201, 201, 201, 200, 203, 0, 204))
    data = spelling(strange_fragment(rng, device, server)) if chance(rng, 70) else payload(rng, 201, "down")
    frame = frame_of(group, count, port, data, control=rng.choice((0x00, 0x00, 0x10, 0x20)))
    return changed_frame(rng, frame) if chance(rng, 25) else frame


def write_raw_air(draft):
    """Bytes that anybody made on the air."""
    rng, number = draft.rng, draft.rng.randint(1, len(draft.ids))
    device, letter = draft.device_of(number)
    frame = strange_frame(rng, device, draft.sides[letter].server)
    draft.write(f"rawair {number} {frame[:290].hex() or '-'}{random_word(rng)}")


def write_stranger(draft):
    """Somebody sets up a group whose key they chose, and a class session of it, and sends frames to it."""
    rng, number = draft.rng, draft.rng.randint(1, len(draft.ids))
    device, letter = draft.device_of(number)
    server, now = draft.sides[letter].server, device.clock.seconds(draft.time)
    group = known_group(rng, device, server)
    session = command_of(
        rng, ROWS["McClassCSessionReq"], id=group["id"], time=now, timeout=4, freq=8_630_000, dr=rng.choice((0, 5))
    )
    if device.config.is_class_a and draft.write(f"wake {number}"):
        draft.write(f"at {draft.time + 1000}")
    draft.write(f"raw {number} 200 {(spelling(group) + spelling(session)).hex()}")
    for _ in range(4):
        frame = strange_frame(rng, device, server)
        draft.write(f"rawair {number} {frame[:290].hex() or '-'}{random_word(rng)}")
