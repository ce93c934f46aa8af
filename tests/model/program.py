"""The program: what its words ask for, which files it reads, and with which text and status it answers.

The words are read as clap reads seven subcommands whose words are all required and which have no options.
"""
import os
import sys
from collections.abc import Callable

from .capture import capture
from .commands import DOWN, FIRST_PORT, LAST_PORT, UP
from .decode import decode
from .device import file_of
from .generator import generate
from .image import MAX_IMAGE, image_of
from .pair import pair_report_of, play_pair
from .replay import replay
from .script import MAX_DEVICES
from .words import Refused, decimal_of
from .world import numbered, play, report_of

MAX_SCRIPT = 1_048_576
USAGE_TEXT = (
    "usage: fuota campaign IMAGE SCRIPT, recover IMAGE SCRIPT DEVICE, replay FILE, "
    "decode PORT DIR FILE, generate SEED, capture FILE, campaigns IMAGE IMAGE SCRIPT\n"
)
DONE, USAGE, IMAGE_REFUSED, LINE_REFUSED, READ_FAULT, WRITE_FAULT = 0, 2, 3, 4, 5, 6
TOO_LONG, NOT_COMPLETE = 8, 9


class Answer(Exception):
    """An answer with which a run ends before its end."""

    def __init__(self, status: int, text: str) -> None:
        super().__init__(text)
        self.status = status
        self.text = text


def usage() -> Answer:
    """The answer to words that are no form."""
    return Answer(USAGE, USAGE_TEXT)


# ---- files


def source(name: str, limit: int) -> bytes:
    """The bytes of a file, which is not longer than its limit."""
    try:
        with open(os.fsencode(name), "rb") as handle:
            data = handle.read(limit + 1)
    except (OSError, ValueError):
        raise Answer(READ_FAULT, "read fault\n") from None
    if len(data) > limit:
        raise Answer(TOO_LONG, f"too long {limit + 1}\n")
    return data


def image_source(name: str) -> bytes:
    """The bytes of an image file."""
    data = source(name, MAX_IMAGE)
    if image_of(data) is None:
        raise Answer(IMAGE_REFUSED, "image refused\n")
    return data


def script_source(name: str) -> bytes:
    """The bytes of a script or of a file of payloads."""
    return source(name, MAX_SCRIPT)


# ---- forms: each takes its words, and gives its text


def ranged(word: str, first: int, last: int) -> int:
    """A decimal in a range; other words are no form."""
    value = decimal_of(word)
    if value is None or not first <= value <= last:
        raise usage()
    return value


def on_campaign(image: str, script: str) -> str:
    """The report of a campaign."""
    return report_of(play(image_source(image), script_source(script)))


def on_recover(image: str, script: str, device: str) -> bytes:
    """The file of a device's session 0, or how the session stands."""
    number = ranged(device, 1, MAX_DEVICES)
    world = play(image_source(image), script_source(script))
    found = numbered(world.devices, number)
    file = file_of(None if found is None else found.sessions[0])
    if isinstance(file, str):
        raise Answer(NOT_COMPLETE, f"device {number} {file}\n")
    return file


def on_replay(file: str) -> str:
    """The text of a file of payloads, replayed."""
    return replay(script_source(file))


def on_decode(port: str, direction: str, file: str) -> str:
    """The text of a file of payloads, decoded."""
    number = ranged(port, FIRST_PORT, LAST_PORT)
    if direction not in (DOWN, UP):
        raise usage()
    return decode(number, direction, script_source(file))


def on_generate(seed: str) -> str:
    """The summary of the campaign of a seed."""
    return generate(ranged(seed, 0, 2**32 - 1))


def on_capture(file: str) -> str:
    """The text of a capture."""
    return capture(script_source(file))


def on_campaigns(image_a: str, image_b: str, script: str) -> str:
    """The report of two campaigns."""
    return pair_report_of(play_pair(image_source(image_a), image_source(image_b), script_source(script)))


# each form with the number of its words
FORMS: dict[str, tuple[Callable[..., str | bytes], int]] = {
    "campaign": (on_campaign, 2),
    "recover": (on_recover, 3),
    "replay": (on_replay, 1),
    "decode": (on_decode, 3),
    "generate": (on_generate, 1),
    "capture": (on_capture, 1),
    "campaigns": (on_campaigns, 3),
}


def words_of_form(words: list[str]) -> list[str]:
    """The words after the form: the first `--` is dropped, and only those after it may begin with a dash."""
    front, back = words, []
    if "--" in words:
        cut = words.index("--")
        front, back = words[:cut], words[cut + 1:]
    if any(word.startswith("-") and word != "-" for word in front):
        raise usage()
    return front + back


def is_text(word: str) -> bool:
    """A word is UTF-8."""
    try:
        os.fsencode(word).decode("utf-8")
    except UnicodeDecodeError:
        return False
    return True


def answer_text(words: list[str]) -> bytes | str:
    """The text that the words ask for."""
    if not words or words[0] not in FORMS or not all(is_text(word) for word in words):
        raise usage()
    form, count = FORMS[words[0]]
    rest = words_of_form(words[1:])
    if len(rest) != count:
        raise usage()
    return form(*rest)


def answer(words: list[str]) -> tuple[int, bytes]:
    """The status and the text, as bytes, of the program's words."""
    try:
        status, text = DONE, answer_text(words)
    except Answer as early:
        status, text = early.status, early.text
    except Refused as fault:
        status, text = LINE_REFUSED, f"{fault}\n"
    return status, text if isinstance(text, bytes) else text.encode()


def main() -> int:
    """Answers the words of the command line."""
    status, text = answer(sys.argv[1:])
    try:
        sys.stdout.buffer.write(text)
        sys.stdout.buffer.flush()
    except OSError:
        os._exit(WRITE_FAULT)
    return status
