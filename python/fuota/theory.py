"""What theory says of losses, coded fragments and air time; docs/PLANNING.md says what it assumes."""
import functools
import itertools
import math
from dataclasses import dataclass

from .errors import Wrong
from .limits import MAX_CODED, MAX_PIECES
from .regions import Rate


@dataclass(frozen=True)
class Chain:
    """The probabilities that a fragment is lost: the first, one after a lost one, and one after a heard one."""

    first: float
    after_lost: float
    after_heard: float


def chain_of(loss: float, burst: float | None) -> Chain:
    """The chain that loses a share of the fragments, in bursts of a mean length, or independently where that is None."""
    if burst is None:
        return Chain(loss, loss, loss)
    begins = loss / (burst * (1 - loss))
    if begins > 1:
        raise Wrong(f"a loss of {100 * loss:g} % needs bursts of {loss / (1 - loss):.4g} or more, and not of {burst:g}")
    return Chain(loss, 1 - 1 / burst, begins)


def full_ranks(most: int) -> list[float]:
    """For each n up to `most` the product of 1 - 2^-i for i from 1 to n."""
    factors = (1 - 0.5 ** i for i in range(1, most + 1))
    return list(itertools.accumulate(factors, lambda product, factor: product * factor, initial=1.0))


FULL_RANKS = full_ranks(MAX_CODED)


def rank_share(columns: int, rows: int) -> float:
    """The probability that a random matrix of GF(2) with so many rows has as many independent ones as it has columns."""
    return FULL_RANKS[rows] / FULL_RANKS[rows - columns] if rows >= columns else 0.0


@functools.lru_cache
def enough_coded(missing: int, loss: float, share: float) -> int:
    """How many coded fragments bring so many missing pieces to this share of devices, which lose each of them independently with a
    probability below 1; MAX_CODED where no fewer do."""
    for count in range(missing, MAX_CODED):
        chances = (math.comb(count, heard) * (1 - loss) ** heard * loss ** (count - heard) * rank_share(missing, heard)
                   for heard in range(missing, count + 1))
        if math.fsum(chances) >= share:
            return count
    return MAX_CODED


def one_more(chain: Chain, heard: list[float], lost: list[float]) -> tuple[list[float], list[float]]:
    """After one fragment more: `heard` and `lost` have, for each count, the probability of it with the last fragment so."""
    after_heard = [h * (1 - chain.after_heard) + l * (1 - chain.after_lost) for h, l in zip(heard, lost)]
    after_lost = [h * chain.after_heard + l * chain.after_lost for h, l in zip(heard, lost)]
    return after_heard, after_lost


def lost_counts(chain: Chain, pieces: int, most: int) -> tuple[list[float], list[float]]:
    """For each count of lost pieces up to `most` its probability, with the last piece heard, and with it lost."""
    heard = [1 - chain.first] + [0.0] * most
    lost = ([0.0, chain.first] + [0.0] * most)[:most + 1]
    for _ in range(pieces - 1):
        heard, lost = one_more(chain, heard, lost)
        lost = [0.0] + lost[:-1]
    return heard, lost


def solved_by_heard(counts: list[float], coded: int) -> list[float]:
    """For each number of coded fragments heard the probability that they make good the lost pieces, of these counts."""
    return [math.fsum(chance * rank_share(n, k) for n, chance in enumerate(counts)) for k in range(coded + 1)]


def complete_shares(chain: Chain, pieces: int, coded: int, rows: int) -> list[float]:
    """For each number of coded fragments that were sent the share of complete sessions."""
    solved = [solved_by_heard(counts, coded) for counts in lost_counts(chain, pieces, rows)]
    shares = [0.0] * (coded + 1)
    for last in (0, 1):
        heard = [float(last == 0)] + [0.0] * coded
        lost = [float(last == 1)] + [0.0] * coded
        for sent in range(coded + 1):
            shares[sent] += math.fsum((h + l) * s for h, l, s in zip(heard, lost, solved[last]))
            heard, lost = one_more(chain, heard, lost)
            heard = [0.0] + heard[:-1]
    return shares


def most_pieces(chain: Chain, rows: int, share: float, most: int = MAX_PIECES) -> int:
    """How many pieces, up to `most`, rows bear: so that a share of the devices loses no more pieces than it has rows."""
    heard, lost = [1 - chain.first] + [0.0] * rows, ([0.0, chain.first] + [0.0] * rows)[:rows + 1]
    for pieces in range(1, most + 1):
        if math.fsum(heard) + math.fsum(lost) < share:
            return pieces - 1
        heard, lost = one_more(chain, heard, lost)
        lost = [0.0] + lost[:-1]
    return most


def mean_beyond(columns: int) -> float:
    """How many rows beyond its columns a random matrix needs, in the mean."""
    return math.fsum(1 / (2 ** i - 1) for i in range(1, columns + 1))


# ---- Air time

# Bytes of a frame beside its payload: MHDR, FHDR without options, FPort, MIC.
FRAME = 13
# Bytes of a fragment beside its piece.
FRAGMENT_HEAD = 3


def air_time(rate: Rate, length: int) -> float:
    """The ms that a downlink of so many bytes, its frame in all, is on the air: LoRa with 8 symbols of preamble, explicit
    header, coding rate 4/5 and no CRC."""
    symbol = 2.0 ** rate.factor / rate.bandwidth
    # (from 16 ms on symbols carry two bits less)
    blocks = max(0, math.ceil((8 * length - 4 * rate.factor + 28) / (4 * (rate.factor - 2 * (symbol >= 16)))))
    return (8 + 4.25 + 8 + 5 * blocks) * symbol


def time_of(fragments: int, distance: float, air: float) -> float:
    """The ms from the first of so many fragments to the end of the last one."""
    return (fragments - 1) * distance + air


def fragments_within(ms: float, distance: float, air: float) -> int:
    """How many fragments have room in so many ms."""
    return 0 if ms < air else 1 + int((ms - air) // distance)


def duration(ms: float) -> str:
    """So long, in its two largest units."""
    seconds = round(ms / 1000)
    if ms < 10_000:
        return f"{ms / 1000:.3g} s"
    parts = [(seconds // 86_400, "d"), (seconds // 3_600 % 24, "h"), (seconds // 60 % 60, "min"), (seconds % 60, "s")]
    first = next(k for k, (count, _) in enumerate(parts) if count)
    return " ".join(f"{count} {unit}" for count, unit in parts[first:first + 2] if count)
