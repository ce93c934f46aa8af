"""When a device hears (LoRaWAN 1.0, receive windows and class B; TS005-1.0.0, class sessions).

Class A windows are in ms of true time, those of class sessions in ms of the device's clock.
"""
from .aes import encrypt
from .clock import ROUND

BEACON = 128
SLOTS = 4096
SLOT_MS = 30
FIRST_SLOT_MS = 2120
LOWEST_FREQ, HIGHEST_FREQ = 8_630_000, 8_700_000
HIGHEST_DR = 5
LONGEST_START = 2**24 - 1


def is_after_uplink(due: int | None, t: int) -> bool:
    """Class A: 100 ms from 1 s on, and 100 ms from 2 s on, after the uplink that was made last was due."""
    return due is not None and (1000 <= t - due <= 1099 or 2000 <= t - due <= 2099)


def is_running(start: int, seconds: int, device_ms: int) -> bool:
    """A session that starts at so many seconds runs, modulo the clock's round."""
    return (device_ms - 1000 * start) % (1000 * ROUND) < 1000 * seconds


def beacon_at(seconds: int) -> int:
    """Seconds, rounded down to a beacon."""
    return seconds // BEACON * BEACON


def ping_offset(beacon: int, addr: int, period: int) -> int:
    """The first slot after a beacon."""
    rand = encrypt(bytes(16), beacon.to_bytes(4, "little") + addr.to_bytes(4, "little") + bytes(8))
    return (rand[0] + 256 * rand[1]) % period


def is_in_ping_slot(device_ms: int, addr: int, periodicity: int) -> bool:
    """A slot of the address is open: one in every period, each of 30 ms, from 2,120 ms after the beacon on."""
    beacon = beacon_at(device_ms // 1000)
    period = 2 ** (5 + periodicity)
    ms = device_ms - 1000 * beacon
    for slot in range(ping_offset(beacon, addr, period), SLOTS, period):
        begin = FIRST_SLOT_MS + SLOT_MS * slot
        if begin <= ms < begin + SLOT_MS:
            return True
    return False


def is_open_c(start: int, timeout: int, device_ms: int) -> bool:
    """A class C session hears for 2^timeout s."""
    return is_running(start, 2**timeout, device_ms)


def is_open_b(start: int, periodicity: int, timeout: int, device_ms: int, addr: int) -> bool:
    """A class B session hears in its slots for 2^timeout beacons, from a beacon on."""
    runs = is_running(beacon_at(start), BEACON * 2**timeout, device_ms)
    return runs and is_in_ping_slot(device_ms, addr, periodicity)


def session_errors(has_group: bool, freq: int, dr: int) -> int:
    """The error bits of a class session's answer: 1 data rate, 2 frequency, 4 no such group (TS005-1.0.0)."""
    return 1 * (dr > HIGHEST_DR) + 2 * (not LOWEST_FREQ <= freq <= HIGHEST_FREQ) + 4 * (not has_group)


def time_to_start(now: int, start: int) -> int:
    """The seconds to the start, 0 where it is past, and at most what 24 bits hold."""
    seconds = (start - now) % ROUND
    return min(seconds, LONGEST_START) if seconds < 2**31 else 0
