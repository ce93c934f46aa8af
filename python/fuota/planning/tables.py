"""What is said of campaigns that were played: sums, and tables beside theory; and the table of air time."""
import math
from collections.abc import Iterator

from ..limits import MAX_PIECE, MAX_ROWS
from ..regions import Region
from ..theory import FRAGMENT_HEAD, FRAME, air_time, duration, fragments_within, mean_beyond, time_of
from .played import Plan, Session

SHARES = (50, 90, 99, 99.9)


def shares_played(plan: Plan, sessions: list[Session]) -> list[float]:
    """For each number of coded fragments that were sent the share of complete sessions."""
    needed = [session.coded_sent(plan) for session in sessions]
    return [sum(n is not None and n <= sent for n in needed) / len(needed) for sent in range(plan.coded + 1)]


def first_at(shares: list[float], percent: float) -> str:
    """The least number of coded fragments at which a share is complete, as a word."""
    return next((str(n) for n, share in enumerate(shares) if share >= percent / 100), "-")


def mean(numbers: list[float]) -> str:
    """The mean as a word; a dash where there is none."""
    return f"{math.fsum(numbers) / len(numbers):.2f}" if numbers else "-"


def sums(plan: Plan, sessions: list[Session]) -> Iterator[str]:
    """The lines on what was lost, and on how the sessions went."""
    pieces_lost: list[int] = [session.lost_pieces(plan) for session in sessions]
    heard = sum(session.lost.count(False) for session in sessions)
    complete, receiving, norows = (
        sum(session.state == state for session in sessions) for state in ("complete", "receiving", "norows"))
    mended = [session for session in sessions if session.fragment is not None and session.lost_pieces(plan) > 0]
    beyond = mean([session.beyond(plan) for session in mended])
    by_theory = mean([mean_beyond(session.lost_pieces(plan)) for session in mended])
    yield f"heard {heard} of {len(sessions) * plan.fragments}"
    yield f"pieces lost by a device: mean {mean([*pieces_lost])}, most {max(pieces_lost)}"
    yield f"sessions complete {complete}, receiving {receiving}, norows {norows}"
    yield f"coded fragments heard beyond the pieces lost: mean {beyond}, theory {by_theory}"
    if norows:
        yield f"norows: {plan.rows} rows are not enough for {max(pieces_lost)} lost pieces: {remedy(plan, max(pieces_lost))}"


def remedy(plan: Plan, most: int) -> str:
    """What bears so many lost pieces: as many rows, or pieces so long that the same share of them is no more than the rows."""
    sizes = (size for size in range(plan.size, MAX_PIECE + 1) if -(-len(plan.image.data) // size) * most <= plan.pieces * plan.rows)
    size = next(sizes, None)
    ways = ([f"{most} rows"] if most <= MAX_ROWS else []) + ([f"pieces of {size} bytes"] if size else [])
    return f"take {', or '.join(ways)}" if ways else "take a shorter image"


def table(shares: list[float], theory: list[float], every: int) -> Iterator[str]:
    """The lines of both tables: the share for numbers of coded fragments, and the number for shares."""
    yield "coded sent   complete    theory"
    for count in range(0, len(shares), every):
        yield f"{count:10}   {100 * shares[count]:6.1f} %  {100 * theory[count]:6.1f} %"
    yield "complete   coded sent    theory"
    for percent in SHARES:
        yield f"{percent:6} %   {first_at(shares, percent):>10}  {first_at(theory, percent):>8}"


def title_of(plan: Plan, loss: float, burst: float | None, seed: int) -> str:
    """The campaign in one line."""
    bursts = "" if burst is None else f" burst {burst:g}"
    return (f"pieces {plan.pieces} size {plan.size} coded {plan.coded} rows {plan.rows}"
            f" loss {100 * loss:g} %{bursts} seed {seed}")


def air_row(plan: Plan, share: float, region: Region, number: int) -> str:
    """A data rate, the longest piece that it carries, and of fragments as the plan's the air time, how many an hour bears, how
    long all of them take, and the TIMEOUT of a window of class C that has this time, where there is one."""
    rate = region.rates[number]
    longest = rate.longest - FRAGMENT_HEAD
    if plan.size > longest:
        return f"{number:9}   {longest:13}          -"
    air = air_time(rate, FRAME + FRAGMENT_HEAD + plan.size)
    takes = time_of(plan.fragments, air / share, air)
    window = next((timeout for timeout in range(16) if 1000 * 2 ** timeout >= takes), "-")
    hour = fragments_within(3_600_000, air / share, air)
    return f"{number:9}   {longest:13}   {duration(air):>8}   {hour:7}   {duration(takes):>11}   {window:>7}"


def air_table(plan: Plan, share: float, region: Region) -> Iterator[str]:
    """The lines of the table of air time."""
    yield f"pieces {plan.pieces} size {plan.size} coded {plan.coded}, on the air {100 * share:g} % of the time in {region.name}"
    yield "data rate   longest piece   air time   an hour           all   TIMEOUT"
    yield from (air_row(plan, share, region, number) for number in region.rates)
