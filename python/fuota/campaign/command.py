"""The command fuota-campaign."""
import argparse
import contextlib
import hashlib
import os
import pathlib
import signal
import sys
import time
from collections.abc import Callable
from functools import partial
from typing import NoReturn

from .. import library, words
from ..errors import Failed, Wrong
from ..lns import Lost, Refusing, Server
from ..theory import duration
from .carrier import LOG, Carrier
from .clean import Cleaning
from .folder import Folder, is_used
from .mqtt import Mqtt, access_of
from .online import tried
from .pipe import Pipe
from .plan import Plan, moment_of, read_plan
from .play import Campaign
from .progress import Kept, Picture, Progress
from .reckoning import begin_of, lines_of, set_up_of, unfit
from .rehearsal import Rehearsal
from .settings import euis_of, group_of, lines_of as settings_lines

NAME = "fuota-campaign"
NOT_ALL = 3
TEXT = """\
Runs the campaign of a plan over a network server, with the proved server of libfuota.so, and keeps it in a folder.

What is sent, and what an answer means, is the library's. This command carries: it paces, asks again, and keeps what the
server knows before a payload goes out, so that it goes on where it stood after it was ended in whatever way.
docs/OPERATING.md goes from an image to an updated fleet.
"""
STATUSES = """\
The status is 0 where all devices are updated, and of `check` where the plan can be run; 3 where the campaign ended and not all
devices are updated; 2 where words, plan or folder are wrong; 1 where a file can't be written, the network server refuses, or
the campaign was stopped. Whatever ends it, begun again with the same words it goes on.
"""


def plan_text() -> str:
    """A plan with each field explained."""
    return pathlib.Path(__file__).with_name("plan.toml").read_text()


def percent(word: str) -> float:
    """Reads a percentage below 100, as a share."""
    return words.fraction(0, 99.999)(word) / 100


def parser() -> argparse.ArgumentParser:
    whole = words.parser_of(NAME, TEXT, STATUSES)
    ways = whole.add_subparsers(metavar="COMMAND", required=True)

    def way(name: str, work: Callable[[argparse.Namespace], int], text: str) -> argparse.ArgumentParser:
        made = ways.add_parser(name, help=text, description=text, epilog=STATUSES, allow_abbrev=False,
                               formatter_class=argparse.RawDescriptionHelpFormatter)
        words.add_common(made, is_subcommand=True)
        made.set_defaults(work=work)
        return made

    def of_plan(made: argparse.ArgumentParser) -> argparse.ArgumentParser:
        made.add_argument("plan", metavar="PLAN", type=pathlib.Path, help="the plan, a file in TOML")
        return made

    def with_library(made: argparse.ArgumentParser) -> argparse.ArgumentParser:
        made.add_argument("--library", metavar="FILE", help="libfuota.so; else FUOTA_LIBRARY of the environment names it")
        return made

    def of_folder(made: argparse.ArgumentParser) -> argparse.ArgumentParser:
        made.add_argument("folder", metavar="FOLDER", type=pathlib.Path,
                          help="where the campaign is kept; made where it is not there")
        return with_library(made)

    def with_pipe(made: argparse.ArgumentParser) -> None:
        made.add_argument("--pipe", action="store_true", help="lines of JSON on standard input and output in the place of a network server")
        made.add_argument("--simulated", action="store_true", help="with --pipe: the time is that of the lines that are read")

    way("sample", sample, "prints a plan with each field explained")
    settings_words = with_library(of_plan(way("settings", settings, "prints what a network server has to know of the plan's group")))
    settings_words.add_argument("--apply", action="store_true", help="makes the group over ChirpStack's API, and prints its id")
    check_words = with_library(of_plan(way("check", check, "says what would be sent and when, and sends nothing")))
    check_words.add_argument("--online", action="store_true", help="tries the network server too: broker, uplinks, group and devices")
    check_words.add_argument("--wait", metavar="SECONDS", type=words.fraction(0, 86_400), default=10.0,
                             help="with --online: so long it waits for an uplink; 10 if left out")
    rehearse_words = of_folder(of_plan(way("rehearse", rehearse, "plays the campaign at once, against simulated devices")))
    rehearse_words.add_argument("--loss", metavar="PERCENT", type=percent, default=0.0,
                                help="so much of what is sent is lost, each way; 0 if left out")
    rehearse_words.add_argument("--seed", type=words.whole(0, 2**64 - 1), default=0, help="what losses are drawn from")
    run_words = of_folder(of_plan(way("run", run, "runs the campaign over the network server of the plan")))
    run_words.add_argument("--begin", action="store_true", help="the window begins, however many devices are ready")
    with_pipe(run_words)
    clean_words = of_folder(of_plan(way("clean", clean, "asks each device to delete what an ended campaign left on it")))
    clean_words.add_argument("--image", action="store_true", help="also an image of the plan's version that was received and never ran")
    clean_words.add_argument("--anyway", action="store_true", help="also where the campaign has not ended; it can't go on then")
    with_pipe(clean_words)
    status_words = way("status", status, "says how the campaign of a folder stands")
    status_words.add_argument("folder", metavar="FOLDER", type=pathlib.Path)
    status_words.add_argument("--picture", metavar="FILE", type=pathlib.Path, help="draws it, as SVG")
    forms = status_words.add_mutually_exclusive_group()
    for name, form, help_text in (("--json", Kept.json, "as an object of JSON"), ("--csv", Kept.csv, "the devices as lines of CSV")):
        forms.add_argument(name, dest="form", action="store_const", const=form, default=Kept.text, help=help_text)
    return whole


# ---- What they do


def sample(asked: argparse.Namespace) -> int:
    print(plan_text(), end="")
    return words.DONE


def settings(asked: argparse.Namespace) -> int:
    plan, calls = read_plan(asked.plan, has_group=False), calls_of(asked.library)
    if not asked.apply:
        print("\n".join(settings_lines(plan, calls)))
        return words.DONE
    try:
        made = server_of(plan).make_group(group_of(plan, calls), plan.region.name, euis_of(plan))
    except (Lost, Refusing) as why:
        raise Failed(why) from None
    print(f'multicast_group = "{made}"')
    return words.DONE


def check(asked: argparse.Namespace) -> int:
    plan, now = read_plan(asked.plan), time.time_ns() // 1_000_000
    print("\n".join(lines_of(plan, now)))
    if plan.server:
        plan.server.prepare()
        access_of(plan.server.access_file)
    fault = unfit(plan, now)
    if fault and not plan.does_not_fit():
        raise Wrong(f"{plan.file}: {fault}")
    is_well = not asked.online or is_well_online(plan, calls_of(asked.library), asked.wait)
    return words.WRONG if fault or not is_well else words.DONE


def is_well_online(plan: Plan, calls: library.Library, wait: float) -> bool:
    """Says what is found at the network server of a plan, and whether all is well."""
    with contextlib.closing(Mqtt(server_of(plan), "")) as carrier:
        found = []
        for one in tried(plan, carrier, calls, wait):
            print(one.line, flush=True)
            found.append(one.is_well)
    return all(found)


def server_of(plan: Plan, else_by: str = "") -> Server:
    """The network server of a plan, which has to have one, or be run in another way."""
    if plan.server is None:
        raise Wrong(f'{plan.file}: missing table "server"{else_by}')
    return plan.server


def status(asked: argparse.Namespace) -> int:
    kept = Kept(asked.folder)
    form: Callable[[Kept], str] = asked.form
    print(form(kept), end="")
    if asked.picture:
        asked.picture.write_text(Picture(kept).drawn())
    return words.DONE


def rehearse(asked: argparse.Namespace) -> int:
    plan, calls = read_plan(asked.plan), calls_of(asked.library)
    if is_used(asked.folder):
        raise Wrong(f"{asked.folder}: a campaign is kept there already, and a rehearsal takes a new folder")
    begin = begin_of(plan)
    if begin is not None:
        print(f"begins {moment_of(begin)}, since the set-up takes about {duration(set_up_of(plan).likely)}")
    return played(plan, calls, asked.folder, partial(Rehearsal, plan, calls, asked.loss, asked.seed), Progress(sys.stdout))


def run(asked: argparse.Namespace) -> int:
    plan, calls = read_plan(asked.plan), calls_of(asked.library)
    if plan.exposed:
        LOG.warning("%s", plan.exposed)
    return played(plan, calls, asked.folder, way_of(asked, plan), Progress(sys.stderr if asked.pipe else sys.stdout), asked.begin)


def way_of(asked: argparse.Namespace, plan: Plan) -> Callable[[], Carrier]:
    """What makes the way to the devices that the words ask for."""
    if asked.simulated and not asked.pipe:
        raise Wrong("--simulated goes with --pipe")
    if asked.pipe:
        return partial(Pipe, asked.simulated)
    client = "fuota-" + hashlib.sha256(os.fsencode(os.path.realpath(asked.folder))).hexdigest()[:16]
    return partial(Mqtt, server_of(plan, ", and no --pipe"), client)


def clean(asked: argparse.Namespace) -> int:
    plan, calls = read_plan(asked.plan), calls_of(asked.library)
    if not is_used(asked.folder):
        raise Wrong(f"{asked.folder}: no campaign is kept there")
    stream = sys.stderr if asked.pipe else sys.stdout
    shown = Progress(stream)
    with contextlib.ExitStack() as open_things:
        folder = Folder(asked.folder)
        open_things.callback(folder.close)
        carrier = way_of(asked, plan)()
        open_things.callback(carrier.close)
        cleaning = Cleaning(plan, folder, carrier, calls, asked.image, asked.anyway)
        open_things.callback(shown.close)
        while cleaning.step():
            shown.put(carrier.now(), cleaning.line)
        shown.put(carrier.now(), cleaning.line, is_last=True)
    for line in cleaning.table():
        print(line, file=stream)
    return words.DONE if cleaning.is_done else NOT_ALL


def calls_of(path: str | None) -> library.Library:
    try:
        return library.Library(path)
    except (OSError, AttributeError) as why:
        raise Wrong(f"the library: {why}; a wheel of fuota has it, and tools/c_library makes it") from None


def played(plan: Plan, calls: library.Library, path: pathlib.Path, way: Callable[[], Carrier], shown: Progress,
           is_forced: bool = False) -> int:
    """Plays a campaign to its end; of a rehearsal, which takes no time, only the end is shown."""
    with contextlib.ExitStack() as open_things:
        folder = Folder(path)
        open_things.callback(folder.close)
        carrier = way()
        open_things.callback(carrier.close)
        campaign = Campaign(plan, folder, carrier, calls, is_forced)
        open_things.callback(shown.close)
        while campaign.step():
            if not isinstance(carrier, Rehearsal):
                shown.show(campaign)
        shown.show(campaign, is_last=True)
    return words.DONE if campaign.is_updated else NOT_ALL


def stop(*_: object) -> NoReturn:
    raise KeyboardInterrupt


def done(asked: argparse.Namespace) -> int:
    """Does what the words ask for: the status."""
    signal.signal(signal.SIGTERM, stop)
    try:
        return int(asked.work(asked))
    except OSError as why:
        why.filename = why.filename or getattr(asked, "folder", None)
        raise Failed(f"{words.fault_of(why)}; nothing more was sent") from None
    except (Refusing, library.Error) as why:
        raise Failed(str(why)) from None
    except KeyboardInterrupt:
        raise Failed("stopped; it goes on when it is begun again") from None


def main(arguments: list[str] | None = None) -> int:
    return words.ended(NAME, done, parser().parse_args(arguments))

