"""Image files (docs/FORMATS.md): made of a body and its versions, and read; and the command fuota-image."""
import argparse
import hashlib
import pathlib
import struct
import sys
from dataclasses import dataclass

from . import files, words
from .errors import Wrong
from .limits import MAX_IMAGE

MAGIC = b"FUIM"
LAST_NUMBER = 2**32 - 1
# The head by its format: the magic, the format, one hardware version or the lowest and the highest, the firmware version, and
# the body's length and SHA-256.
HEADS = {1: struct.Struct("<4sB3I32s"), 2: struct.Struct("<4sB4I32s")}


@dataclass(frozen=True)
class Image:
    """An image file: its bytes, its firmware version, and the hardware versions that it is for."""

    data: bytes
    version: int
    lowest: int
    highest: int


def make(body: bytes, lowest: int, highest: int, version: int, layout: int | None = None) -> Image:
    """The image of a body, in the format `layout`, or where that is None in the first one that has room for the versions."""
    if version == 0:
        raise Wrong("firmware version 0")
    if lowest > highest:
        raise Wrong(f"lowest hardware version {lowest} above the highest, {highest}")
    if layout is None:
        layout = 1 if lowest == highest else 2
    if layout == 1 and lowest != highest:
        raise Wrong(f"format 1 has one hardware version, and not {lowest} to {highest}")
    head = HEADS[layout]
    if head.size + len(body) > MAX_IMAGE:
        raise Wrong(f"a body of more than {MAX_IMAGE - head.size} bytes, of an image of at most {MAX_IMAGE}")
    hardware = (lowest,) if layout == 1 else (lowest, highest)
    start = head.pack(MAGIC, layout, *hardware, version, len(body), hashlib.sha256(body).digest())
    return Image(start + body, version, lowest, highest)


def read(data: bytes) -> Image:
    """The image that these bytes are."""
    head = HEADS.get(data[4]) if data[:4] == MAGIC and len(data) > 4 else None
    if head is None or not head.size <= len(data) <= MAX_IMAGE:
        raise Wrong("not an image file; fuota-image makes one")
    _, _, *hardware, version, length, digest = head.unpack_from(data)
    body = data[head.size:]
    if not version or hardware[0] > hardware[-1] or length != len(body):
        raise Wrong("not an image file; fuota-image makes one")
    if hashlib.sha256(body).digest() != digest:
        raise Wrong("not an image file: its body has another digest")
    return Image(data, version, hardware[0], hardware[-1])


def load(path: pathlib.Path) -> Image:
    """The image of a file."""
    data = files.read(path, MAX_IMAGE + 1)
    try:
        return read(data)
    except Wrong as why:
        raise Wrong(f"{path}: {why}") from None


# ---- The command

TEXT = """\
Makes the image file of a firmware update: a head of versions, length and digest, and after it the body.

Format 1 names one hardware version, and every device reads it. Format 2 names the lowest and the highest, and is corrupt to a
device that knows format 1 alone. Without --format it is the first where LOWEST is HIGHEST, else the second.
"""
STATUSES = """\
The status is 0 where the image was written; 2 where words are wrong or this would be no image file, and nothing is written; 1
where a file could not be read or written.
"""


def run(asked: argparse.Namespace) -> int:
    """Writes the image file that the words ask for."""
    with open(asked.body, "rb") as handle:
        body = handle.read(MAX_IMAGE + 1)
    made = make(body, asked.lowest, asked.highest, asked.firmware, asked.format)
    pathlib.Path(asked.image).write_bytes(made.data)
    return words.DONE


def main(arguments: list[str] | None = None) -> int:
    parser = words.parser_of("fuota-image", TEXT, STATUSES)
    number = words.whole(0, LAST_NUMBER)
    parser.add_argument("--format", type=int, choices=tuple(HEADS))
    parser.add_argument("body", metavar="BODY", help="the file that a device is to run; it may be empty")
    parser.add_argument("lowest", metavar="LOWEST", type=number, help="the lowest hardware version that it is for")
    parser.add_argument("highest", metavar="HIGHEST", type=number, help="the highest one")
    parser.add_argument("firmware", metavar="FIRMWARE", type=number, help="the firmware version, which is not 0")
    parser.add_argument("image", metavar="IMAGE", help="the file that is written, whatever it held before")
    return words.ended("fuota-image", run, parser.parse_args(arguments))


if __name__ == "__main__":
    sys.exit(main())
