"""What all commands share: how their words are read, and how they end."""
import argparse
import logging
import re
from collections.abc import Callable

from . import __version__
from .errors import Failed, Wrong, plain

DONE, FAULT, WRONG = 0, 1, 2


def parser_of(name: str, text: str, statuses: str) -> argparse.ArgumentParser:
    """Reads the words of a command; `statuses` is what --help says of how it ends."""
    parser = argparse.ArgumentParser(prog=name, description=text, epilog=statuses, allow_abbrev=False,
                                     formatter_class=argparse.RawDescriptionHelpFormatter)
    add_common(parser)
    return parser


def add_common(parser: argparse.ArgumentParser, is_subcommand: bool = False) -> None:
    """Adds the words that each command takes; those of a subcommand may stand before it and after it."""
    parser.add_argument("--version", action="version", version=f"fuota {__version__}")
    parser.add_argument("--verbose", action="store_true", default=argparse.SUPPRESS if is_subcommand else False,
                        help="says on standard error what is done")


def ended(name: str, work: Callable[[argparse.Namespace], int], asked: argparse.Namespace) -> int:
    """Does what the words ask for: the status. What is wrong is said on standard error, in a line."""
    logging.basicConfig(format=f"{name}: %(message)s", level=logging.INFO if asked.verbose else logging.WARNING, force=True)
    try:
        return work(asked)
    except Wrong as why:
        logging.error("%s", why)
        return WRONG
    except OSError as why:
        logging.error("%s", fault_of(why))
    except Failed as why:
        logging.error("%s", why)
    return FAULT


def fault_of(why: OSError) -> str:
    """What the system says of a file, with the file first."""
    return plain(why) if why.filename is None else f"{why.filename}: {plain(why)}"


def whole(lowest: int, highest: int) -> Callable[[str], int]:
    """Reads a decimal within these."""
    def read(word: str) -> int:
        if not re.fullmatch("0|[1-9][0-9]{0,19}", word) or not lowest <= int(word) <= highest:
            raise argparse.ArgumentTypeError(f"not a decimal from {lowest} to {highest}: {word!r:.40}")
        return int(word)
    return read


def fraction(lowest: float, highest: float) -> Callable[[str], float]:
    """Reads a decimal within these, maybe with digits after a point."""
    def read(word: str) -> float:
        if not re.fullmatch("[0-9]{1,9}([.][0-9]{1,9})?", word) or not lowest <= float(word) <= highest:
            raise argparse.ArgumentTypeError(f"not a number from {lowest:g} to {highest:g}: {word!r:.40}")
        return float(word)
    return read
