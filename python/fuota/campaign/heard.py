"""What an uplink tells beside the stage that it leads to, by the texts of its commands (docs/FORMATS.md), and refusals in words."""
import contextlib
import re

from .. import library
from .plan import Plan

STATUS = re.compile(r"FragSessionStatusAns index=(\d+) received=\d+ missing=(\d+) norows=\d")
SESSION = re.compile(r"McClass([BC])SessionAns id=(\d+) bits=0 start=(\d+)")
# What the bits of a refusal say, by the stage at which a device refused (TS004, TS005), and the numbers of DevUpgradeImageAns (TS006).
REFUSALS = {
    "version": {1: "the image is not for its hardware"},
    "group": {4: "it has no group of this id"},
    "fragments": {1: "it does not know the coding", 2: "it has too little memory for the session",
                  4: "it has no session of this index", 8: "it takes another descriptor"},
    "window": {4: "it does not take the data rate", 8: "it does not take the frequency", 16: "it has no group of this id"},
    "status": {1: "it has too few rows for what it lost"},
}
IMAGES = ("it has no image", "its image is corrupt", "its image is not for its hardware", "its image has another version")


def refusal(stage: str, bits: int) -> str:
    """Why a device refused at a stage."""
    if stage == "image" and bits < len(IMAGES):
        return IMAGES[bits]
    return ", ".join(words for bit, words in REFUSALS.get(stage, {}).items() if bits & bit) or f"bits {bits}"


def texts_of(calls: library.Library, port: int, payload: bytes) -> list[str]:
    """The commands of an uplink as texts; none where it spells none."""
    with contextlib.suppress(library.NoText):
        return calls.decode(port, True, payload).splitlines()
    return []


def missing_in(texts: list[str], index: int) -> int | None:
    """The missing pieces that the last FragSessionStatusAns tells for this index; None without one."""
    found = [told for told in map(STATUS.fullmatch, texts) if told and int(told[1]) == index]
    return int(found[-1][2]) if found else None


def clock_error(texts: list[str], plan: Plan, t: int) -> dict[str, int]:
    """How many ms the clock of a device is `behind`, by the TimeToStart (`start`, in s) of its answer for the window, which came at
    `t`; below 0 where it is ahead. Nothing without such an answer, and where it is no more than a second beside the window's guard."""
    group, window = plan.group, plan.window
    found = [told for told in map(SESSION.fullmatch, texts) if told and group and int(told[2]) == group.id]
    if not found or not window or found[-1][1] != window.kind:
        return {}
    start = int(found[-1][3])
    behind = t + 1000 * start - window.opens
    return {"behind": behind, "start": start} if abs(behind) > window.guard + 1000 else {}
