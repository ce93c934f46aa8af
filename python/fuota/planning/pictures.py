"""Pictures of campaigns that were played."""
import itertools
from collections.abc import Iterator

from ..svg import BLUE, GREEN, GREY, ORANGE, drawn_path, picture, text
from .played import Plan, Session

LEFT, ACROSS, UPPER, DOWN = 50, 600, 40, 240


def curve_axes(plan: Plan) -> Iterator[str]:
    """The lines and numbers of both axes."""
    step = next(step for step in (1, 2, 5, 10, 20, 50, 100) if plan.coded <= 10 * step)
    for percent in range(0, 101, 25):
        y = UPPER + DOWN - DOWN * percent // 100
        yield drawn_path(f"M{LEFT} {y}h{ACROSS}", GREY, 1, ' stroke-opacity="0.4"')
        yield text(LEFT - 6, y + 4, f"{percent} %", "end")
    for count in range(0, plan.coded + 1, step):
        yield text(f"{LEFT + ACROSS * count / max(1, plan.coded):.1f}", UPPER + DOWN + 18, count, "middle")
    yield text(LEFT + ACROSS // 2, UPPER + DOWN + 36, "coded fragments sent", "middle")


def curve_points(shares: list[float]) -> list[tuple[str, str]]:
    """A place for each share."""
    wide = ACROSS / max(1, len(shares) - 1)
    return [(f"{LEFT + wide * n:.1f}", f"{UPPER + DOWN - DOWN * share:.1f}") for n, share in enumerate(shares)]


def curve_picture(title: str, plan: Plan, shares: list[float], theory: list[float]) -> str:
    """The share of complete sessions over the coded fragments that were sent, and the curve of theory."""
    curve = "M" + "L".join(f"{x} {y}" for x, y in curve_points(theory))
    dots = "".join(f"M{x} {y}h0" for x, y in curve_points(shares))
    parts = [text(LEFT, 14, f"Complete sessions: {title}"), *curve_axes(plan)]
    parts += [drawn_path(curve, BLUE, 2), drawn_path(dots, ORANGE, 5, ' stroke-linecap="round"')]
    parts += [drawn_path(f"M{LEFT} 26h24", BLUE, 2), text(LEFT + 30, 30, "theory")]
    parts += [drawn_path(f"M{LEFT + 112} 26h0", ORANGE, 5, ' stroke-linecap="round"'), text(LEFT + 120, 30, "played")]
    return picture(LEFT + ACROSS + 30, UPPER + DOWN + 48, title, parts)


ROW = 14


def runs(lost: list[bool]) -> Iterator[tuple[int, int]]:
    """Where the runs of lost fragments begin, and how long they are."""
    at = 0
    for is_lost, group in itertools.groupby(lost):
        length = len(list(group))
        if is_lost:
            yield at, length
        at += length


def device_row(plan: Plan, device: int, session: Session, wide: float) -> Iterator[str]:
    """The row of a device: heard until it is complete, heard after that, lost, the mark and the words of completion."""
    y = UPPER + 16 + ROW * (device - 1) + ROW // 2
    until = plan.fragments if session.fragment is None else session.fragment
    yield text(LEFT - 6, y + 4, device, "end")
    yield drawn_path(f"M{LEFT} {y}h{until * wide:.2f}", BLUE, ROW - 4)
    if until < plan.fragments:
        rest = (plan.fragments - until) * wide
        yield drawn_path(f"M{LEFT + until * wide:.2f} {y}h{rest:.2f}", BLUE, ROW - 4, ' stroke-opacity="0.3"')
    steps = "".join(f"M{LEFT + at * wide:.2f} {y}h{length * wide:.2f}" for at, length in runs(session.lost))
    if steps:
        yield drawn_path(steps, ORANGE, ROW - 4)
    if session.fragment is not None:
        yield drawn_path(f"M{LEFT + until * wide:.2f} {y - ROW // 2}v{ROW}", GREEN, 3)
    words = session.state if session.fragment is None else f"{session.coded_sent(plan)} coded, line {session.line}"
    yield text(LEFT + ACROSS + 8, y + 4, words)


def time_legend() -> Iterator[str]:
    """What the colours say."""
    table_of = ((BLUE, 1, "heard"), (BLUE, 0.3, "heard when complete"), (ORANGE, 1, "lost"))
    x = LEFT
    for colour, opacity, words in table_of:
        yield drawn_path(f"M{x} 26h16", colour, ROW - 4, f' stroke-opacity="{opacity}"')
        yield text(x + 22, 30, words)
        x += 48 + 7 * len(words)
    yield drawn_path(f"M{x + 8} 19v{ROW}", GREEN, 3)
    yield text(x + 16, 30, "complete: coded fragments sent, line of the script")


def time_picture(title: str, plan: Plan, sessions: list[Session]) -> str:
    """One campaign in time: a device a row, a fragment a column."""
    wide = ACROSS / plan.fragments
    bottom = UPPER + 16 + ROW * len(sessions)
    border = f"{LEFT + plan.pieces * wide:.2f}"
    parts = [text(LEFT, 14, f"One campaign in time: {title}"), *time_legend(), text(LEFT, UPPER + 10, f"{plan.pieces} pieces")]
    if plan.coded:
        # (after the words before it, where the pieces are few)
        at = max(float(border), LEFT + 7 * len(f"{plan.pieces} pieces") + 8)
        parts.append(text(f"{at:.2f}", UPPER + 10, f"{plan.coded} coded fragments"))
    for device, session in enumerate(sessions, 1):
        parts += device_row(plan, device, session, wide)
    parts.append(drawn_path(f"M{border} {UPPER + 14}V{bottom}", GREY, 1))
    return picture(LEFT + ACROSS + 170, bottom + 6, title, parts)
