"""What a plan comes to: how long it takes, by when it has to begin, and what `check` says of it."""
import itertools
import math
from collections.abc import Iterator
from dataclasses import dataclass

from ..library import STAGES
from ..limits import HIGHEST_DATA_RATE, HIGHEST_FREQUENCY, LOWEST_FREQUENCY
from ..theory import duration, fragments_within
from .plan import Plan, Window, moment_of

# Bytes of what the server asks at each stage, and of its answer to a device that asks for the time.
REQUESTS = dict(zip(STAGES, (1, 30, 11, 11, 2, 1, 4, 1)))
TIME_ANSWER = 6
# What is asked before the fragments, without a group and with one, and after them.
ALONE, GROUPED, AFTER = ("version", "fragments"), ("version", "group", "fragments", "window"), ("status", "image", "reboot", "check")
# The ms from a payload that a device hears to its answer.
ANSWER = 3_000
# The ms in which devices answer a request for the status that went to the group: each up to 15 s later (BlockAckDelay 0).
GROUP_ANSWERS = 15_000 + ANSWER
# What is lost each way, where the plan does not tell a loss; and the share of the devices that are done in the time that is reckoned.
LOSS, SURE = 0.1, 0.99


@dataclass(frozen=True)
class Phase:
    """What each device is asked before the fragments, or after them: how many payloads that is for all devices, and the ms that
    it takes. `least` is the pace alone; `likely` also has what is waited for, and what is asked again."""

    payloads: int
    least: float
    likely: float


def failures(exchanges: int, lost: float) -> int:
    """How many exchanges fail, with this probability each, until so many succeeded: no more than that with the probability SURE."""
    chance = total = (1 - lost) ** exchanges
    count = 0
    while total < SURE:
        count += 1
        chance *= lost * (exchanges + count - 1) / count
        total += chance
    return count


def phase_of(plan: Plan, lengths: list[int]) -> Phase:
    """The exchanges of payloads of these lengths with each device, one after another."""
    loss = LOSS if plan.loss is None else plan.loss
    lost = 1 - (1 - loss) ** 2
    period = plan.uplink_period if plan.has_class_a else 0
    least = len(plan.devices) * math.fsum(plan.distance(plan.air(length, False)) for length in lengths)
    waits = len(lengths) * (period + ANSWER) + failures(len(lengths), lost) * (plan.retry.distance + period)
    return Phase(len(lengths) * len(plan.devices), least, least / (1 - lost) + waits)


def set_up_of(plan: Plan) -> Phase:
    """What comes before the fragments. A group's devices need the time too, and each asks for it."""
    stages = GROUPED if plan.group else ALONE
    return phase_of(plan, [REQUESTS[stage] for stage in stages] + ([TIME_ANSWER] if plan.group else []))


def after_of(plan: Plan) -> Phase:
    """What comes after the fragments; a device that reboots is asked a retry's distance later."""
    phase = phase_of(plan, [REQUESTS[stage] for stage in AFTER])
    return Phase(phase.payloads, phase.least, phase.likely + plan.retry.distance)


def begin_of(plan: Plan) -> int | None:
    """Before which moment it has to begin, in ms of Unix time; None without a window."""
    return None if plan.window is None else plan.window.opens - math.ceil(set_up_of(plan).likely / 1000) * 1000


# ---- Whether it can be begun


def unfit(plan: Plan, now: int) -> str | None:
    """Why a campaign that is begun now can't end well, with the field first; None where it can."""
    fault = plan.does_not_fit()
    if fault:
        return f"window: {fault}"
    return unreached(plan, now) or unreached_again(plan)


def unreached(plan: Plan, now: int) -> str | None:
    """Why no device can be ready from now on as the window opens, with the field first; None where one can."""
    if plan.window is None:
        return None
    if plan.window.opens <= now:
        return "window.start: the moment is past"
    least, left = set_up_of(plan).least, plan.window.opens - now
    if least > left:
        return (f"window.start: the window opens in {duration(left)}, and the set-up takes {duration(least)} or more: take a later "
                "window, a higher pace.unicast_data_rate, or fewer devices")
    return None


def unreached_again(plan: Plan) -> str | None:
    """Why a further start of the window comes too soon after the one before it, with the field first; None where none does."""
    least = set_up_of(plan).least
    for before, window in itertools.pairwise(plan.windows):
        left = window.opens - before.opens - before.guard
        if least > left:
            return (f"window.again: the window of {moment_of(window.opens)} opens {duration(left)} after the one before it may be passed "
                    f"over, and the set-up takes {duration(least)} or more")
    return None


def lateness(plan: Plan, now: int) -> str | None:
    """What is said of a campaign that is begun now, and late; None where it is not."""
    begin = begin_of(plan)
    if begin is None or now <= begin:
        return None
    return f"the set-up should begin before {moment_of(begin)}: some devices may not be ready when the window opens"


# ---- What is said


def lines_of(plan: Plan, now: int) -> Iterator[str]:
    """What would be sent, and when, a line each."""
    made = plan.image
    hardware = made.lowest if made.lowest == made.highest else f"{made.lowest} to {made.highest}"
    yield f"image: {len(made.data)} bytes, firmware {made.version} for hardware {hardware}"
    yield f"fragments: {plan.pieces} of {plan.size} bytes and {plan.coded} coded, {plan.fragments} in all"
    yield from reserve_lines(plan)
    requests = 8 if plan.group else 6
    yield f"devices: {len(plan.devices)}, each asked {requests} times or more, by unicast"
    has = ""
    if plan.group and plan.window:
        group, window = plan.group, plan.window
        yield f"group: {group.address.hex()}, frame counts {group.first} to {plan.last_count}"
        yield (f"window: class {window.kind}, from {moment_of(window.opens)} on for {duration(window.length)}, on "
               f"{window.frequency / 1e6:g} MHz at data rate {window.data_rate}")
        has = f", the window has {duration(window.length - 2 * window.guard)}"
        yield from ready_lines(plan, window)
        yield from region_lines(plan, window)
    air = plan.fragment_air
    yield f"air: {duration(air)} a fragment, the next one {duration(plan.distance(air))} after it"
    yield from set_up_lines(plan, now)
    if plan.exposed:
        yield f"keys: {plan.exposed}"
    yield f"time: {plan.does_not_fit() or f'the fragments take {duration(plan.need)}{has}'}"
    if not plan.does_not_fit():
        yield end_line(plan)


def reserve_lines(plan: Plan) -> Iterator[str]:
    """What is in reserve, and how much of it the window has room for."""
    if not plan.reserve:
        return
    air, told = plan.fragment_air, ""
    if plan.window:
        left = plan.window.length - 2 * plan.window.guard - plan.need - GROUP_ANSWERS
        told = f"; the window has room for {min(plan.reserve, fragments_within(left, plan.distance(air), air))} of them"
    yield f"reserve: {plan.reserve} coded fragments more, as far as devices ask for them{told}"


OTHERWISE = {"begin": "the window begins all the same", "wait": "it is passed over", "ask": "it waits for run --begin"}


def ready_lines(plan: Plan, window: Window) -> Iterator[str]:
    """How many devices have to be ready as the window opens, and what is done otherwise."""
    if not window.otherwise:
        return
    yield f"ready: {plan.needed} of {len(plan.devices)} devices, else {OTHERWISE[window.otherwise]}"
    likely = set_up_of(plan).likely
    for before, later in itertools.pairwise(plan.windows):
        is_short = later.opens - before.opens - before.guard < likely
        yield f"again: {moment_of(later.opens)}{', before which some devices may not be ready' if is_short else ''}"


def region_lines(plan: Plan, window: Window) -> Iterator[str]:
    """What the region bounds, and what the library's own devices refuse of a window."""
    region, share = plan.region, plan.region.duty_cycle(window.frequency)
    told = f"region: {region.name}, "
    told += f"{share:g} % of the time on the air" if share else "without a duty cycle that is known here"
    yield told + (f", and pace.duty_cycle is {plan.pace.duty_cycle:g}" if share and plan.pace.duty_cycle > share else "")
    if region.dwell_time and plan.fragment_air > region.dwell_time:
        yield (f"region: where a downlink may take {duration(region.dwell_time)}, as by DownlinkDwellTime, a fragment of "
               f"{duration(plan.fragment_air)} is too long")
    refused = refused_by_library(window)
    if refused:
        yield f"devices: the library's own refuse {refused}; others may take it"


def refused_by_library(window: Window) -> str | None:
    """What the library's own devices refuse of a window; None where they take it."""
    if not LOWEST_FREQUENCY <= window.frequency // 100 <= HIGHEST_FREQUENCY:
        return (f"{window.frequency / 1e6:g} MHz, as it is not from {LOWEST_FREQUENCY // 10_000} to {HIGHEST_FREQUENCY // 10_000} MHz")
    if window.data_rate > HIGHEST_DATA_RATE:
        return f"data rate {window.data_rate}, as it is above {HIGHEST_DATA_RATE}"
    return None


def set_up_lines(plan: Plan, now: int) -> Iterator[str]:
    """How long the set-up takes, what that supposes, and by when it has to begin."""
    phase, begin = set_up_of(plan), begin_of(plan)
    loss = 100 * (LOSS if plan.loss is None else plan.loss)
    supposed = f"{loss:g} % lost each way"
    if plan.has_class_a:
        supposed = f"an uplink of class A each {duration(plan.uplink_period)}, and {supposed}"
    yield (f"set-up: {phase.payloads} payloads by unicast, {duration(phase.least)} at data rate {plan.unicast_rate}; about "
           f"{duration(phase.likely)} with {supposed}")
    if begin is not None:
        yield f"begin: before {moment_of(begin)}{'' if now <= begin else ', which is past: some devices may not be ready'}"


def end_line(plan: Plan) -> str:
    """When all is done, about."""
    after = after_of(plan).likely
    if plan.window:
        end = plan.window.opens + plan.window.guard + plan.need + after
        return f"end: about {moment_of(math.ceil(end))}, {duration(after)} after the last fragment"
    return f"end: about {duration(set_up_of(plan).likely + plan.need + after)} after the begin"
