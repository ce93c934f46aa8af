"""Image files of both formats, and what one is to a device (docs/FORMATS.md, image file).

A device has two slots: what runs, and what was received to run next, whose state is read when its file comes.
"""
import hashlib
from dataclasses import dataclass

MAX_IMAGE = 262_144
NONE, CORRUPT, INCOMPATIBLE, VALID = "none", "corrupt", "incompatible", "valid"


def number_at(data: bytes, at: int) -> int:
    """The little-endian number of four bytes at a place."""
    return int.from_bytes(data[at:at + 4], "little")


@dataclass(frozen=True)
class Head:
    """The fields before the body of an image file."""

    form: int
    lowest: int
    highest: int
    firmware: int
    length: int
    digest: bytes
    size: int

    def is_for(self, hardware: int) -> bool:
        """It is an image for this hardware version."""
        return self.lowest <= hardware <= self.highest


def head_of(file: bytes) -> Head:
    """The head of a file as its format has it; a format that there is not is read as the first."""
    form = file[4]
    more = 4 if form == 2 else 0
    return Head(
        form,
        number_at(file, 5),
        number_at(file, 5 + more),
        number_at(file, 9 + more),
        number_at(file, 13 + more),
        file[17 + more:49 + more],
        49 + more,
    )


def image_of(file: bytes) -> Head | None:
    """The head of an image file; None where the bytes are none."""
    if not 49 <= len(file) <= MAX_IMAGE or file[:4] != b"FUIM" or file[4] not in (1, 2):
        return None
    head = head_of(file)
    body = file[head.size:]
    is_image = (
        len(file) >= head.size
        and head.lowest <= head.highest
        and head.firmware != 0
        and head.length == len(body)
        and head.digest == hashlib.sha256(body).digest()
    )
    return head if is_image else None


def make_image(hardware: int, firmware: int, body: bytes) -> bytes:
    """An image file of format 1."""
    numbers = (hardware, firmware, len(body))
    head = b"FUIM\x01" + b"".join(n.to_bytes(4, "little") for n in numbers)
    return head + hashlib.sha256(body).digest() + body


def state_of(file: bytes, hardware: int, formats: int) -> tuple[str, int | None]:
    """What a file is to a device that knows so many formats: its state, and the firmware version of a valid one."""
    head = image_of(file)
    if head is None or head.form > formats:
        return CORRUPT, None
    return (VALID, head.firmware) if head.is_for(hardware) else (INCOMPATIBLE, None)


@dataclass
class Slots:
    """What runs, and what was received to run next with its bytes."""

    hardware: int
    formats: int
    running: int = 0
    next: tuple[str, int | None] = (NONE, None)
    next_file: bytes = b""

    def offer(self, file: bytes) -> None:
        """A whole file becomes next, whatever next was."""
        self.next, self.next_file = state_of(file, self.hardware, self.formats), file

    def clear(self) -> None:
        """Next is none."""
        self.next, self.next_file = (NONE, None), b""

    def swap(self) -> None:
        """A valid next becomes what runs, and any other stays."""
        state, version = self.next
        if state == VALID and version is not None:
            self.running = version
            self.clear()

    def delete(self, version: int) -> int:
        """Deletes a valid next of this version; else bit 0 without a valid one, bit 1 where it is another."""
        if self.next[0] != VALID:
            return 1
        if self.next[1] != version:
            return 2
        self.clear()
        return 0

    def migrate(self) -> None:
        """Both formats are known from now on, and next is read again."""
        self.formats = 2
        if self.next[0] != NONE:
            self.offer(self.next_file)
