"""Lines that are refused at most places, some for each cause; where one is not, the script goes on with it.
"""
from .plans import NO_KEY, group_line, window_line
from .values import beyond, chance, misspelled


LASTS = (3, 7, 15, 64, 239, 255, 256, 512, 4096, 2**24 - 1, 2**32 - 1, 2**64 - 1)


def with_wrong_number(rng, line):
    """A line with one of its numbers just outside some range, or another of its numbers."""
    words = line.split(" ")
    places = [k for k, word in enumerate(words) if word.isdecimal() and len(word) < 20]
    if places:
        at = rng.choice(places)
        words[at] = words[rng.choice(places)] if chance(rng, 20) else str(beyond(rng, 0, rng.choice(LASTS)))
    return " ".join(words)


def any_payload(draft):
    """A payload of any campaign to any device: one to another device, any other, or one number more."""
    rng, letter = draft.rng, draft.rng.choice(list(draft.sides))
    sent = draft.sides[letter].sent
    unicast = [number for number, payload in enumerate(sent, 1) if payload.receiver is not None]
    number = rng.choice(unicast) if unicast and chance(rng, 60) else rng.randint(0, len(sent) + 1)
    others = [device for device, (owner, _) in enumerate(draft.ids, 1) if owner != letter]
    device = rng.choice(others) if others and chance(rng, 50) else rng.randint(1, max(1, len(draft.ids)))
    return f"{rng.choice(('down', 'down', 'air'))} {letter}{number} {device}"


def candidates(draft):
    """For each cause lines that are refused for it in most places."""
    rng, letter = draft.rng, draft.rng.choice(list(draft.sides))
    side, devices = draft.sides[letter], len(draft.ids)
    late, mark = len(side.uplinks), f"{letter} " if letter else ""
    return {
        "time": (f"at {max(0, draft.time - 1)}", "at 0"),
        "order": (
            "end", "fuota 1", "fuota 2", draft.head("image", letter) + " 13 0" + (" 0" if letter else ""),
            group_line(rng, letter, 0), window_line(rng, letter), f"device {devices + 1} {mark}a 1 0 0 {NO_KEY}",
            "at 4294967295999",
        ),
        "range": (
            "at 4294967296000", "raw 1 256 -", "raw 1 255 -", "rawair 1 - 4294967296",
            f"down {letter}1 1 4294967296", f"down {letter}1 1 4294967295",
            f"device {devices + 2} {mark}c 1 0 0 {NO_KEY}", f"device {devices + 1} {mark}c 1 257 0 {NO_KEY}",
            draft.head("image", letter) + " 240 0" + (" 0" if letter else ""),
        ),
        "device": (
            f"wake {devices + 1}", "ask 0", f"power {max(1, devices)}", "power 1", f"migrate {devices + 1}",
            f"rawair {devices + 1} -", f"down {letter}1 {devices + 1}", "raw 0 201 -",
        ),
        "unsent": (
            *(any_payload(draft) for _ in range(6)), f"up {letter}{late + 1}", f"up {letter}{late}", f"up {letter}0",
        ),
        "limit": (
            draft.head("frag", letter), draft.head("status", letter), "raw 1 201 " + "0" * 486, "x" * 601,
            "rawair 1 " + "0" * 590, f"device {devices + 1} {mark}c 1 0 0 {NO_KEY} flash",
        ),
        "syntax": (
            "", " ", "end\r", "frag", "frag c", "raw 1 201 0", "rawair 1 0", "x" * 600, "down c1 1", "up a", "air 1",
        ),
    }


def wrong_line(draft, percent):
    """In so many of a hundred places a line that is wrong, most likely."""
    rng = draft.rng
    if not chance(rng, percent):
        return
    if draft.lines and chance(rng, 15):
        draft.write_wrong(misspelled(rng, rng.choice(draft.lines)))
    elif not draft.is_over and chance(rng, 20):
        draft.write_wrong(any_payload(draft))
    elif draft.lines and chance(rng, 25):
        draft.write_wrong(with_wrong_number(rng, rng.choice(draft.lines[-30:])))
    else:
        lines = candidates(draft)
        draft.write_wrong(rng.choice(lines[rng.choice(sorted(lines))]))


def plan_line(draft, line):
    """A line of the plan, or one like it with a wrong number, with which the script ends."""
    if chance(draft.rng, 2):
        draft.write_wrong(with_wrong_number(draft.rng, line))
    draft.write(line)


def write_many(draft):
    """So many lines that the next one, or the one after it, is too many."""
    while not draft.is_over and len(draft.lines) < draft.rng.choice((19_998, 19_999, 20_000)):
        draft.write(f"at {draft.time}")
