"""The command fuota-plan."""
import argparse
import pathlib
import random
import shutil
import tempfile

from .. import image, words
from ..errors import Failed, Wrong
from ..limits import IMAGE_HEAD, MAX_CODED, MAX_DEVICES, MAX_IMAGE, MAX_LINES, MAX_PIECE, MAX_PIECES, MAX_ROWS
from ..regions import DEFAULT, REGIONS
from ..theory import chain_of, complete_shares
from .pictures import curve_picture, time_picture
from .played import Plan, draw_losses, parted, play
from .tables import air_table, shares_played, sums, table, title_of

NAME = "fuota-plan"
FIRMWARE = 2
# Where a clone has the program that it built.
BUILT = pathlib.Path(__file__).parents[3] / "crates" / "fuota" / "out" / "fuota"
TEXT = """\
Says how many coded fragments a loss asks for, by campaigns that the program fuota plays, beside what theory says; and how
long the fragments of a campaign take on the air.
"""
MORE = """\
The campaign is an honest one. All devices are set up, the fragments are sent in order, each is lost or brought to each device,
and all devices are asked for their status. A script has at most 64 devices and 20,000 lines, so that a campaign of more is
played as several, with the same image and coded fragments. The same words give the same bytes.

Losses are a chain of two states, one for each device: after a lost fragment the next is lost with a probability, after a heard
one with another. They are such that PERCENT are lost from the first fragment on, and that a burst has LENGTH in the mean.
Without --burst both are the same. No request or answer is lost.

Theory takes the losses by the same chain, exactly, and the lines of coded fragments as if each piece stood in each with
probability 1/2, independently. Then a device that lost n pieces and heard k coded fragments is complete with the probability
that a k by n matrix of GF(2) has n independent rows: the product of 1 - 2^-i for i from k - n + 1 to k. A device that lost more
pieces than it has rows is never complete. The program's lines are the standard's: half as many pieces are drawn as there are,
one drawn twice standing once, so that some 39 % stand on a line. A device that lost few pieces needs more than theory says.

The status is 0 where this was said; 2 where the words ask for no campaign; 1 where a file could not be read or written, or the
program's report is not one of the campaign.
"""


def program_of(named: pathlib.Path | None) -> pathlib.Path:
    """The program fuota: the one that is named, that of a clone, or the one that PATH names."""
    if named or BUILT.is_file():
        return (named or BUILT).resolve()
    found = shutil.which("fuota")
    if not found:
        raise Failed("the program fuota is not on PATH: --program names it")
    return pathlib.Path(found)


def plan_of(asked: argparse.Namespace) -> Plan:
    """What is sent to whom."""
    if asked.image:
        made = image.load(asked.image)
    else:
        length = asked.pieces * asked.size
        if not IMAGE_HEAD <= length <= MAX_IMAGE:
            raise Wrong(f"an image has {IMAGE_HEAD} to {MAX_IMAGE} bytes, and not {length}")
        made = image.make(bytes(k % 251 for k in range(length - IMAGE_HEAD)), 1, 1, FIRMWARE)
    plan = Plan(made, asked.size, asked.coded, asked.rows)
    if plan.pieces > MAX_PIECES:
        raise Wrong(f"{plan.pieces} pieces of {plan.size} bytes, of at most {MAX_PIECES}")
    return plan


def campaign(asked: argparse.Namespace, folder: pathlib.Path) -> None:
    """Plays the campaign that is asked for, and says and draws how it went."""
    chain, plan = chain_of(asked.loss / 100, asked.burst), plan_of(asked)
    source = random.Random(asked.seed)
    losses = [draw_losses(chain, plan.fragments, source) for _ in range(asked.devices)]
    parts = play(program_of(asked.program), folder, plan, parted(plan, losses))
    sessions = [session for part in parts for session in part]
    shares, theory = shares_played(plan, sessions), complete_shares(chain, plan.pieces, plan.coded, plan.rows)
    title = title_of(plan, asked.loss / 100, asked.burst, asked.seed)
    said = [f"devices {len(sessions)} {title}"]
    if len(parts) > 1:
        said.append(f"scripts {len(parts)}: one has at most {MAX_DEVICES} devices and {MAX_LINES} lines")
    print("\n".join([*said, *sums(plan, sessions), *table(shares, theory, asked.every)]))
    if asked.curve:
        asked.curve.write_text(curve_picture(f"devices {len(sessions)} {title}", plan, shares, theory))
    if asked.time:
        asked.time.write_text(time_picture(f"devices {len(parts[0])} {title}", plan, parts[0]))


def run(asked: argparse.Namespace) -> int:
    """Does what the words ask for, in a folder of its own where they name none."""
    if asked.air is not None:
        print("\n".join(air_table(plan_of(asked), asked.air / 100, REGIONS[asked.region])))
    elif asked.scripts:
        asked.scripts.mkdir(exist_ok=True)
        campaign(asked, asked.scripts)
    else:
        with tempfile.TemporaryDirectory() as folder:
            campaign(asked, pathlib.Path(folder))
    return words.DONE


def parser() -> argparse.ArgumentParser:
    made = words.parser_of(NAME, TEXT, MORE)
    what = made.add_mutually_exclusive_group(required=True)
    what.add_argument("--loss", metavar="PERCENT", type=words.fraction(0, 99),
                      help="how many fragments of a hundred are lost, from 0 to 99; 12.5 is a percentage too")
    what.add_argument("--air", metavar="PERCENT", type=words.fraction(0.1, 100),
                      help="in place of --loss, and plays nothing: for each data rate of a region how long all fragments take, where "
                           "so much of the time may be spent on the air, from 0.1 to 100, and the TIMEOUT of a window for them")
    made.add_argument("--region", choices=tuple(REGIONS), default=DEFAULT, help=f"with --air; {DEFAULT} if left out")
    made.add_argument("--burst", metavar="LENGTH", type=words.fraction(1, MAX_PIECES),
                      help="lost fragments stand in bursts of this length, in the mean; else each is lost independently")
    made.add_argument("--devices", metavar="N", type=words.whole(1, 10_000), default=100, help="1 to 10000; 100 if left out")
    made.add_argument("--size", metavar="BYTES", type=words.whole(1, MAX_PIECE), default=48,
                      help="bytes of a fragment, 1 to 239; 48 if left out")
    source = made.add_mutually_exclusive_group()
    source.add_argument("--pieces", metavar="M", type=words.whole(1, MAX_PIECES), default=256,
                        help="uncoded fragments, 1 to 4096; 256 if left out. The image is made for them")
    source.add_argument("--image", metavar="FILE", type=pathlib.Path,
                        help="in place of --pieces: an image file, which is cut into at most 4096 pieces")
    made.add_argument("--coded", metavar="C", type=words.whole(0, MAX_CODED), default=128,
                      help="coded fragments that are sent after the pieces, 0 to 512; 128 if left out")
    made.add_argument("--rows", metavar="R", type=words.whole(0, MAX_ROWS), default=MAX_ROWS,
                      help="rows of a device, 0 to 256: so many lost pieces it makes good; 256 if left out")
    made.add_argument("--seed", metavar="S", type=words.whole(0, 2**64 - 1), default=0,
                      help="what the losses are drawn from, a decimal below 2^64; 0 if left out")
    made.add_argument("--every", metavar="K", type=words.whole(1, MAX_CODED), default=20,
                      help="the table has a line for each K coded fragments, 1 to 512; 20 if left out")
    for name, what_it_is in (("--curve", "writes a picture (SVG) of the share of complete sessions over the coded fragments sent"),
                             ("--time", "writes a picture (SVG) of the first script's campaign in time: a device a row"),
                             ("--scripts", "a folder that keeps the image and the scripts, as `image` and `script1` on"),
                             ("--program", "the program fuota; that of a clone, or the one on PATH, if left out")):
        made.add_argument(name, metavar="FILE", type=pathlib.Path, help=what_it_is)
    return made


def main(arguments: list[str] | None = None) -> int:
    return words.ended(NAME, run, parser().parse_args(arguments))
