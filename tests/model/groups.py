"""Multicast groups, their keys, and the frames that serve them (TS005-1.0.0; LoRaWAN 1.0.x, 4).

A frame is an unconfirmed downlink without MAC commands: MHDR 60, DevAddr, FCtrl, FCnt, FPort, payload and MIC.
"""
from dataclasses import dataclass

from .aes import cmac, decrypt, encrypt
from .words import MAX_PAYLOAD

GROUPS = 4
MIN_FRAME = 13
MAX_FRAME = 255


# ---- keys (TS005-1.0.0, multicast security)


def root_key(key: bytes, is_appkey: bool) -> bytes:
    """McRootKey: of the GenAppKey of LoRaWAN 1.0, or of the AppKey of 1.1."""
    return encrypt(key, (b"\x20" if is_appkey else b"\x00") + bytes(15))


def wrapping_key(key: bytes, is_appkey: bool) -> bytes:
    """McKEKey."""
    return encrypt(root_key(key, is_appkey), bytes(16))


def unwrapped(key: bytes, is_appkey: bool, wrapped: bytes) -> bytes:
    """McKey, of McKey_encrypted."""
    return encrypt(wrapping_key(key, is_appkey), wrapped)


def wrapped(key: bytes, is_appkey: bool, group_key: bytes) -> bytes:
    """McKey_encrypted: the block that unwraps to McKey."""
    return decrypt(wrapping_key(key, is_appkey), group_key)


@dataclass(frozen=True)
class Group:
    """A group: its address, McKey, and the frame counts from MIN to below MAX."""

    addr: int
    key: bytes
    min: int
    max: int

    def takes(self, addr: int, count: int) -> bool:
        """A frame with this address and count is for the group."""
        return addr == self.addr and self.min <= count < self.max

    def session_key(self, first: int) -> bytes:
        """McAppSKey (01) and McNetSKey (02)."""
        return encrypt(self.key, bytes([first]) + self.addr.to_bytes(4, "little") + bytes(11))

    @property
    def app_s_key(self) -> bytes:
        """The key of payloads."""
        return self.session_key(0x01)

    @property
    def net_s_key(self) -> bytes:
        """The key of MICs."""
        return self.session_key(0x02)


# ---- frames


def frame_block(first: int, addr: int, count: int, last: int) -> bytes:
    """The blocks A_i (4.3.3) and B_0 (4.4) of a downlink."""
    return (
        bytes([first, 0, 0, 0, 0, 0x01]) + addr.to_bytes(4, "little") + count.to_bytes(4, "little") + bytes([0, last])
    )


def ciphered(group: Group, count: int, payload: bytes) -> bytes:
    """A payload encrypted; encrypted twice it is as before (4.3.3)."""
    blocks = range(1, (len(payload) + 15) // 16 + 1)
    stream = b"".join(encrypt(group.app_s_key, frame_block(0x01, group.addr, count, i)) for i in blocks)
    return bytes(a ^ b for a, b in zip(payload, stream))


def mic_of(group: Group, count: int, message: bytes) -> bytes:
    """The MIC of a frame without it (4.4)."""
    return cmac(group.net_s_key, frame_block(0x49, group.addr, count, len(message)) + message)[:4]


def frame_of(group: Group, count: int, port: int, payload: bytes, control: int = 0) -> bytes:
    """The frame of a payload to a group."""
    head = b"\x60" + group.addr.to_bytes(4, "little") + bytes([control])
    message = head + (count % 65536).to_bytes(2, "little") + bytes([port]) + ciphered(group, count, payload)
    return message + mic_of(group, count, message)


@dataclass(frozen=True)
class Opened:
    """What a frame holds."""

    count: int
    port: int
    payload: bytes


def count_of(group: Group, low: int) -> int:
    """The one of the 65,536 counts from MIN on whose low two bytes these are."""
    return group.min + (low - group.min) % 65536


def opened(group: Group, frame: bytes) -> Opened | None:
    """What the bytes hold as a frame of the group; None where they are no such frame."""
    if not MIN_FRAME <= len(frame) <= MAX_FRAME or len(frame) - MIN_FRAME > MAX_PAYLOAD:
        return None
    if frame[0] != 0x60 or frame[5] not in (0x00, 0x10):
        return None
    if int.from_bytes(frame[1:5], "little") != group.addr:
        return None
    port, count = frame[8], count_of(group, int.from_bytes(frame[6:8], "little"))
    if port == 0 or count >= group.max:
        return None
    if frame[-4:] != mic_of(group, count, frame[:-4]):
        return None
    return Opened(count, port, ciphered(group, count, frame[9:-4]))
