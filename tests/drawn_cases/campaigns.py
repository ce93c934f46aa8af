"""Scripts that are drawn, of one campaign and of two, with what happens after the plan.

Most lines are right, and many bring the moments, frames and payloads at which a rule begins or ends.
"""
from .drafts import Draft, PairDraft
from .moments import receive_delay, write_open, write_time
from .plans import device_line, frag_size, group_line, image_for, window_line
from .strangers import write_image, write_raw, write_raw_air, write_stranger
from .values import Case, chance, damaged, random_word
from .wrong_lines import any_payload, plan_line, write_many, wrong_line


def image_line(draft, letter, index):
    """How the image of a campaign is cut."""
    size, parity = frag_size(draft.rng, len(draft.sides[letter].server.image)), draft.rng.choice((0, 1, 4, 20, 512))
    return draft.head("image", letter) + f" {size} {parity}" + (f" {index}" if letter else "")


def clashing_group(draft, ident):
    """A group of b with the id or the address of a's, or with neither."""
    rng, group = draft.rng, draft.sides["a"].server.plan.group
    words = group_line(rng, "b", rng.choice((ident, rng.randint(0, 3)))).split(" ")
    if group is not None and chance(rng, 50):
        words[3] = f"{group.addr:08x}"
    return " ".join(words)


def write_sides(draft):
    """The image of each campaign, and of most a group with its window."""
    rng, indexes, idents = draft.rng, draft.rng.sample(range(4), 2), draft.rng.sample(range(4), 2)
    for k, letter in enumerate(draft.sides):
        wrong_line(draft, 2)
        if letter == "b" and chance(rng, 4):
            draft.write_wrong(image_line(draft, letter, indexes[0]))
        plan_line(draft, image_line(draft, letter, indexes[k]))
        if chance(rng, 60):
            if letter == "b" and chance(rng, 6):
                draft.write_wrong(clashing_group(draft, idents[0]))
            plan_line(draft, group_line(rng, letter, idents[k]))
            wrong_line(draft, 2)
            plan_line(draft, window_line(rng, letter))


def write_devices(draft):
    """At least one device of each campaign, in a few scripts more with a flash than there may be."""
    rng, letters = draft.rng, list(draft.sides)
    many = chance(rng, 3)
    wanted = letters + [rng.choice(letters) for _ in range(5 if many else rng.choice((0, 0, 1, 2, 4)))]
    rng.shuffle(wanted)
    for letter in wanted:
        wrong_line(draft, 2)
        if draft.is_over:
            return
        before, line = len(draft.ids), device_line(draft, letter, len(draft.ids) + 1)
        plain = line.removesuffix(" flash")
        if many:
            draft.write_wrong(plain + " flash")
        else:
            plan_line(draft, line)
        if len(draft.ids) == before:
            draft.write(plain)


def write_plan(draft):
    """All lines before the first event."""
    plan_line(draft, "fuota 2" if len(draft.sides) == 2 else "fuota 1")
    write_sides(draft)
    if not draft.is_over:
        write_devices(draft)


def write_delivery(draft, letter, number, device, percent=25):
    """A sent payload reaches a device, as bytes or as a frame, with WORD in so many of a hundred cases."""
    word = "air" if draft.sides[letter].server.plan.group and chance(draft.rng, 30) else "down"
    if not draft.write(f"{word} {letter}{number} {device}{random_word(draft.rng, percent)}"):
        draft.write(f"down {letter}{number} {device}")


def deliver_last(draft, letter, loss, percent=10):
    """What the server sent last reaches the devices, but for losses; some twice."""
    number = len(draft.sides[letter].sent)
    for device in range(1, len(draft.ids) + 1):
        if draft.ids[device - 1][0] == letter and not chance(draft.rng, loss):
            for _ in range(2 if chance(draft.rng, 5) else 1):
                write_delivery(draft, letter, number, device, percent)


def write_turn(draft):
    """A device is asked, hears the payload in one of its windows, and its answer comes up."""
    if draft.is_over:
        return
    rng, number = draft.rng, draft.rng.randint(1, len(draft.ids))
    device, letter = draft.device_of(number)
    side = draft.sides[letter]
    before = len(side.sent), len(side.uplinks)
    draft.write(f"ask {number}")
    if len(side.sent) == before[0]:
        return
    if device.config.is_class_a and device.last_due is None:
        draft.write(f"wake {number}")
    if device.config.is_class_a:
        draft.write(f"at {device.last_due + receive_delay(rng)}")
    draft.write(f"down {letter}{before[0] + 1} {number}")
    if len(side.uplinks) > before[1] and not chance(rng, 5):
        due = side.uplinks[-1].uplink.due
        if due > draft.time:
            draft.write(f"at {due}")
        draft.write(f"up {letter}{len(side.uplinks)}")


def write_fragments(draft, percent=40):
    """Some fragments are sent, or in so many of a hundred cases all, with coded ones, and reach devices."""
    rng, letter = draft.rng, draft.rng.choice(list(draft.sides))
    loss = rng.choice((0, 0, 10, 20, 50))
    if chance(rng, 85):
        write_open(draft, letter)
    server = draft.sides[letter].server
    left = max(0, server.pieces + 1 - server.next)
    for _ in range(left + rng.choice((0, 3, 10, 40)) if chance(rng, percent) else rng.choice((1, 3, 10))):
        if not draft.write(draft.head("frag", letter)):
            return
        deliver_last(draft, letter, loss)


def write_status(draft):
    """All are asked for their status, and hear it or not; then maybe an answer comes that is due later."""
    rng, letter = draft.rng, draft.rng.choice(list(draft.sides))
    if chance(rng, 60):
        write_open(draft, letter)
    if draft.write(draft.head("status", letter)):
        deliver_last(draft, letter, 10, percent=80)
    side = draft.sides[letter]
    if side.uplinks and side.uplinks[-1].uplink.due > draft.time:
        early = chance(rng, 30)
        draft.write(f"at {side.uplinks[-1].uplink.due - int(early)}")
        up = f"up {letter}{len(side.uplinks)}"
        if early:
            draft.write_wrong(up)
        else:
            draft.write(up)


def write_spent(draft):
    """All that a server may still send, where that is little, and then maybe one thing more."""
    rng, letter = draft.rng, draft.rng.choice(list(draft.sides))
    server, word = draft.sides[letter].server, draft.rng.choice(("frag", "status"))
    group = server.plan.group
    counts = group.max - server.count if group else 1000
    left = min(counts, server.pieces + server.plan.parity + 1 - server.next) if word == "frag" else counts
    if left <= 60:
        for _ in range(left):
            draft.write(draft.head(word, letter))
        if chance(rng, 10):
            draft.write_wrong(draft.head(rng.choice((word, "frag", "status")), letter))


def write_old(draft):
    """Any payload that was sent reaches any device, or any uplink comes up."""
    rng, letter = draft.rng, draft.rng.choice(list(draft.sides))
    side = draft.sides[letter]
    if side.sent and chance(rng, 60):
        write_delivery(draft, letter, rng.randint(1, len(side.sent)), rng.randint(1, len(draft.ids)))
    elif side.uplinks:
        draft.write(f"up {letter}{rng.randint(1, len(side.uplinks))}")


def write_clock(draft):
    """A device asks for the time, and hears the answer at once, later, or never."""
    rng, number = draft.rng, draft.rng.randint(1, len(draft.ids))
    device, letter = draft.device_of(number)
    side = draft.sides[letter]
    if draft.write(f"wake {number}") and draft.write(f"up {letter}{len(side.uplinks)}"):
        if device.config.is_class_a or chance(rng, 30):
            draft.write(f"at {draft.time + receive_delay(rng)}")
        draft.write(f"down {letter}{len(side.sent)} {number}")


def write_event(draft):
    """A wake, a migration or power at any device."""
    rng = draft.rng
    draft.write(f"{rng.choice(('wake', 'wake', 'migrate', 'power', 'power'))} {rng.randint(1, len(draft.ids))}")


def write_round(draft, hostile):
    """One thing more happens, where something may."""
    rng = draft.rng
    if draft.is_over:
        return
    makers = [write_turn] * 6 + [write_fragments] * 3 + [write_time] * 3 + [write_status] * 3 + [write_old] * 2
    makers += [write_event, write_clock, write_spent]
    if hostile:
        makers += [write_raw] * 9 + [write_raw_air] * 4 + [write_stranger, write_image]
    rng.choice(makers)(draft)


def write_events(draft):
    """The events: all devices are set up first, in most scripts, and the last turns come last."""
    rng, hostile = draft.rng, len(draft.sides) == 1 and chance(draft.rng, 70)
    if chance(rng, 85):
        for _ in range(5 * len(draft.ids)):
            write_turn(draft)
        if chance(rng, 70):
            write_fragments(draft, 100)
    for _ in range(rng.choice((0, 5, 20, 40, 80))):
        write_round(draft, hostile)
        wrong_line(draft, 0.4)
    if chance(rng, 60):
        for _ in range(6 * len(draft.ids)):
            write_turn(draft)
    wrong_line(draft, 20)
    if len(draft.sides) == 2 and chance(rng, 75):
        draft.write_wrong(any_payload(draft))
    if chance(rng, 0.4):
        write_many(draft)
    if chance(rng, 97):
        draft.write("end")
        wrong_line(draft, 4)


def script_of(draft):
    """The bytes of a whole script."""
    write_plan(draft)
    if not draft.is_over:
        write_events(draft)
    text = "\n".join(draft.lines)
    return (text if chance(draft.rng, 10) else text + "\n").encode("latin-1")


def given(rng, image):
    """The image as the program is given it: in some cases damaged."""
    return damaged(rng, image) if chance(rng, 2) else image


def campaign_files(draft):
    """The files of a campaign."""
    script = script_of(draft)
    return {"image": given(draft.rng, draft.images[0]), "script": script}


def campaign_case(rng):
    """A campaign of one image."""
    return Case("campaign", ("campaign", "image", "script"), campaign_files(Draft(rng, [image_for(rng)])))


def recover_case(rng):
    """What a device of a campaign recovers, often one that has its file."""
    draft = Draft(rng, [image_for(rng)])
    files = campaign_files(draft)
    first = [(number, device.sessions[0]) for number, device in enumerate(draft.world.devices, 1)]
    whole = [number for number, session in first if session is not None and session.is_complete()]
    number = rng.choice(whole) if whole and chance(rng, 80) else rng.choice((1, 1, 1, 2, 3, 64))
    return Case("recover", ("recover", "image", "script", str(number)), files)


def campaigns_case(rng):
    """Two campaigns."""
    images = [image_for(rng), image_for(rng)]
    files = {"image_a": given(rng, images[0]), "image_b": given(rng, images[1])}
    files["script"] = script_of(PairDraft(rng, images))
    return Case("campaigns", ("campaigns", "image_a", "image_b", "script"), files)
