"""Moments at which a device begins or ceases to hear, a reboot is due, or an uplink may come.

The time of a script goes on to one of them, often to the first or the last ms of a window, or to one beside it.
"""
from model.windows import BEACON, FIRST_SLOT_MS, SLOT_MS, beacon_at, ping_offset

from .values import chance

ROUND_MS = 1000 * 2**32
UPLINK_DELAYS = (0, 999, 1000, 1099, 1100, 1999, 2000, 2099, 2100)


def device_moment(device, device_ms):
    """The true time, not before the epoch, at which a device's clock shows so many ms."""
    return (device_ms - 1000 * device.clock.offset) % ROUND_MS


def slot_of(rng, session, addr):
    """The first ms of a ping slot of a class B session, on the device's clock."""
    beacon = (beacon_at(session.time) + BEACON * rng.randrange(2**session.timeout)) % 2**32
    period = 2 ** (5 + session.periodicity)
    slot = ping_offset(beacon, addr, period) + period * rng.randrange(4096 // period)
    return 1000 * beacon + FIRST_SLOT_MS + SLOT_MS * slot


def receive_delay(rng):
    """The first or last ms after an uplink at which a device of class A hears, or in some cases one beside it."""
    return rng.choice((1000, 1099, 2000, 2099) if chance(rng, 88) else (999, 1100, 1999, 2100))


def open_moments(rng, device):
    """The first and last ms of a device's class session, or of ping slots of it."""
    session, group = device.class_session, device.heard_group()
    if session is None or group is None:
        return []
    if session.periodicity is None:
        begin, length = 1000 * session.time, 1000 * 2**session.timeout
        moments = [begin, begin + length - 1, begin + rng.randrange(length)]
    else:
        slots = [slot_of(rng, session, group.addr) for _ in range(4)]
        moments = [first + ms for first in slots for ms in (0, SLOT_MS - 1)]
    return [device_moment(device, ms) for ms in moments]


def border_moments(rng, device):
    """The same, and those just before and after them."""
    session = device.class_session
    if session is None:
        return []
    begin = 1000 * (session.time if session.periodicity is None else beacon_at(session.time))
    length = 1000 * 2**session.timeout * (1 if session.periodicity is None else BEACON)
    ends = [device_moment(device, ms) for ms in (begin - 1, begin, begin + length - 1, begin + length)]
    return ends + [t + step for t in open_moments(rng, device) for step in (-1, 0, 0, 1)]


def write_time(draft):
    """A moment to which the time goes on: soon, or at a border of a device's windows."""
    rng, now = draft.rng, draft.time
    device, _ = draft.device_of(rng.randint(1, len(draft.ids)))
    moments = [now, now + 1, now + rng.randint(1, 5000), now + 128_000]
    if device.last_due is not None:
        moments += [device.last_due + delay for delay in UPLINK_DELAYS]
    if device.reboot is not None:
        moments += [device_moment(device, 1000 * device.reboot + ms) for ms in (-1, 0, 0)]
    moments += border_moments(rng, device)
    due = [made.uplink.due + rng.choice((-1, 0)) for side in draft.sides.values() for made in side.uplinks[-4:]]
    soon = [t for t in moments + due if now <= t <= now + 2**37]
    draft.write(f"at {rng.choice(soon or [now])}")


def write_open(draft, letter):
    """The time at which a device of a campaign hears what goes to all, where there is one."""
    rng = draft.rng
    numbers = [k for k, (other, _) in enumerate(draft.ids, 1) if other == letter]
    if not numbers:
        return
    number = rng.choice(numbers)
    device, _ = draft.device_of(number)
    if draft.sides[letter].server.plan.group is not None:
        beside = rng.choice((-1, 1)) if chance(rng, 25) else 0
        later = [t + beside for t in open_moments(rng, device) if t + beside >= draft.time]
        if later:
            draft.write(f"at {rng.choice(later)}")
    elif device.config.is_class_a and draft.write(f"wake {number}"):
        draft.write(f"at {draft.time + receive_delay(rng)}")
