"""The forms of a script's lines: which words a line has, and the ranges of its numbers (docs/FORMATS.md, script).

A line of two campaigns has the letter of one, and is else read as a line of one campaign. Numbers of payloads and
uplinks have the letter before their digits there.
"""
from collections.abc import Callable
from dataclasses import dataclass
from typing import Any, TypeVar

from .words import MAX_PAYLOAD, decimal_of, hex_number, payload_word, sized_hex

MAX_TIME = 4_294_967_295_999
MAX_FRAG_SIZE = 239
MAX_PARITY = 512
MAX_ROWS = 256
MAX_DEVICES = 64
MAX_INDEX = 3
MAX_TIMEOUT = 15
MAX_PERIODICITY = 7
MAX_BYTE = 255
MAX_FLASH_DEVICES = 4
LETTERS = ("a", "b")
T = TypeVar("T")
# What reads the words of a form.
Reader = Callable[[list[str]], dict[str, Any]]


class NoForm(Exception):
    """A line spells no form."""


@dataclass(frozen=True)
class Form:
    """A form: its first word, its fields, and the campaign that it names, if any."""

    name: str
    fields: dict[str, Any]
    campaign: str | None = None

    def __getitem__(self, name: str) -> Any:
        return self.fields[name]

    @property
    def named(self) -> str:
        """The campaign, of a form that names one."""
        assert self.campaign is not None
        return self.campaign


# ---- words


def needed(value: T | None) -> T:
    """A value that must be there."""
    if value is None:
        raise NoForm
    return value


def decimal(word: str) -> int:
    """A decimal."""
    return needed(decimal_of(word))


def address(word: str) -> int:
    """A number of 8 hex digits."""
    return needed(hex_number(word))


def key(word: str) -> bytes:
    """A key of 32 hex digits."""
    return needed(sized_hex(word, 16))


def payload(word: str) -> bytes:
    """Bytes in hex, or `-`."""
    return needed(payload_word(word))


def expect(condition: object) -> None:
    """A line that is not so spells no form."""
    if not condition:
        raise NoForm


def fields_of(words: list[str], *kinds: tuple[str, Callable[..., Any]]) -> dict[str, Any]:
    """A field for each word, by pairs of name and kind; there must be as many."""
    expect(len(words) == len(kinds))
    return {name: kind(word) for word, (name, kind) in zip(words, kinds)}


def with_word(words: list[str], *kinds: tuple[str, Callable[..., Any]]) -> dict[str, Any]:
    """The same with WORD after them, or without, which is 0."""
    if len(words) == len(kinds):
        return {**fields_of(words, *kinds), "word": 0}
    return fields_of(words, *kinds, ("word", decimal))


# ---- forms of one campaign, over the words after the first


def image_words(words: list[str]) -> dict[str, int]:
    """FRAGSIZE PARITY, for a session of index 0."""
    return {**fields_of(words, ("fragsize", decimal), ("parity", decimal)), "index": 0}


def group_words(words: list[str]) -> dict[str, Any]:
    """ADDR KEY MIN MAX, of a group of id 0."""
    kinds = ("addr", address), ("key", key), ("min", decimal), ("max", decimal)
    return {**fields_of(words, *kinds), "id": 0}


def window_words(words: list[str]) -> dict[str, Any]:
    """c START TIMEOUT FREQ DR, or b START PERIODICITY TIMEOUT FREQ DR."""
    expect(words)
    rest = ("timeout", decimal), ("freq", decimal), ("dr", decimal)
    if words[0] == "c":
        return {**fields_of(words[1:], ("start", decimal), *rest), "periodicity": None}
    expect(words[0] == "b")
    return fields_of(words[1:], ("start", decimal), ("periodicity", decimal), *rest)


def device_class(word: str) -> str:
    """CLASS."""
    expect(word in ("a", "c"))
    return word


def device_words(words: list[str]) -> dict[str, Any]:
    """ID CLASS HW ROWS OFFSET KEY, then DESCRIPTOR, v1, k11 and flash, each of them or not."""
    first, rest = words[:6], words[6:]
    numbers = ("hw", decimal), ("rows", decimal), ("offset", decimal)
    fields = fields_of(first, ("id", decimal), ("class", device_class), *numbers, ("key", key))
    for name in ("flash", "k11", "v1"):
        fields[name] = rest[-1:] == [name]
        if fields[name]:
            rest = rest[:-1]
    expect(len(rest) <= 1)
    fields["descriptor"] = address(rest[0]) if rest else None
    return fields


def down_words(words: list[str]) -> dict[str, Any]:
    """S D [WORD]."""
    return with_word(words, ("number", decimal), ("device", decimal))


def raw_words(words: list[str]) -> dict[str, Any]:
    """D PORT HEX [WORD]."""
    return with_word(words, ("device", decimal), ("port", decimal), ("payload", payload))


def rawair_words(words: list[str]) -> dict[str, Any]:
    """D HEX [WORD]."""
    return with_word(words, ("device", decimal), ("payload", payload))


def header_words(number: str) -> Reader:
    """The number of the form alone."""
    def read(words: list[str]) -> dict[Any, Any]:
        expect(words == [number])
        return {}

    return read


def one(name: str) -> Reader:
    """A form of one decimal."""
    return lambda words: fields_of(words, (name, decimal))


FORMS: dict[str, Reader] = {
    "fuota": header_words("1"),
    "image": image_words,
    "group": group_words,
    "window": window_words,
    "device": device_words,
    "at": one("time"),
    "wake": one("device"),
    "migrate": one("device"),
    "power": one("device"),
    "ask": one("device"),
    "frag": fields_of,
    "status": fields_of,
    "down": down_words,
    "raw": raw_words,
    "air": down_words,
    "rawair": rawair_words,
    "up": one("number"),
    "end": fields_of,
}


def form_of(line: str) -> Form | None:
    """The form that a line of one campaign spells; None where it spells none."""
    name, *words = line.split(" ")
    try:
        return Form(name, FORMS[name](words)) if name in FORMS else None
    except NoForm:
        return None


# ---- forms of two campaigns


def pair_image_words(words: list[str]) -> dict[str, Any]:
    """FRAGSIZE PARITY INDEX."""
    expect(len(words) == 3)
    return {**image_words(words[:2]), "index": decimal(words[2])}


def pair_group_words(words: list[str]) -> dict[str, Any]:
    """ID ADDR KEY MIN MAX."""
    expect(len(words) == 5)
    return {**group_words(words[1:]), "id": decimal(words[0])}


# those that name a campaign by a word of its letter, which stands at this place
LETTERED: dict[str, tuple[int, Reader]] = {
    "image": (0, pair_image_words),
    "group": (0, pair_group_words),
    "window": (0, window_words),
    "device": (1, device_words),
    "frag": (0, fields_of),
    "status": (0, fields_of),
}
# those whose first number has the letter before it
NUMBERED = ("down", "air", "up")
# those that name none
UNNAMED = ("at", "wake", "migrate", "power", "ask", "end")


def pair_form(name: str, words: list[str]) -> Form | None:
    """The form of a line of two campaigns."""
    if name == "fuota":
        return Form(name, header_words("2")(words))
    if name in UNNAMED:
        return Form(name, FORMS[name](words))
    if name in LETTERED:
        place, read = LETTERED[name]
        expect(len(words) > place and words[place] in LETTERS)
        return Form(name, read(words[:place] + words[place + 1:]), words[place])
    expect(name in NUMBERED and words and words[0][:1] in LETTERS)
    return Form(name, FORMS[name]([words[0][1:], *words[1:]]), words[0][0])


def pair_form_of(line: str) -> Form | None:
    """The form that a line of two campaigns spells; None where it spells none."""
    name, *words = line.split(" ")
    try:
        return pair_form(name, words)
    except NoForm:
        return None


# ---- ranges


def is_u32(n: int) -> bool:
    """A number below 2^32."""
    return n < 2**32


def is_in_range(form: Form) -> bool:
    """The numbers of a form are within their ranges, but for what depends on the image or the lines before."""
    f = form.fields
    if form.name == "image":
        return bool(1 <= f["fragsize"] <= MAX_FRAG_SIZE and f["parity"] <= MAX_PARITY and f["index"] <= MAX_INDEX)
    if form.name == "group":
        return bool(is_u32(f["min"]) and is_u32(f["max"]) and f["min"] < f["max"] and f["id"] <= MAX_INDEX)
    if form.name == "window":
        periodicity = 0 if f["periodicity"] is None else f["periodicity"]
        fits = f["timeout"] <= MAX_TIMEOUT and f["freq"] < 2**24 and f["dr"] <= MAX_BYTE
        return bool(is_u32(f["start"]) and fits and periodicity <= MAX_PERIODICITY)
    if form.name == "device":
        return bool(1 <= f["id"] <= MAX_DEVICES and is_u32(f["hw"]) and f["rows"] <= MAX_ROWS and is_u32(f["offset"]))
    if form.name == "at":
        return bool(f["time"] <= MAX_TIME)
    if form.name == "raw" and f["port"] > MAX_BYTE:
        return False
    return is_u32(f.get("word", 0))


def fits_payload(form: Form) -> bool:
    """Anybody's payload is not too long."""
    return form.name != "raw" or len(form["payload"]) <= MAX_PAYLOAD
