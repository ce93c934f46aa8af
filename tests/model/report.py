"""The lines that are told of images, devices, and their sessions (docs/FORMATS.md, report).

A campaign compares whole files with its image; a replay and a capture tell their bytes.
"""
from collections.abc import Callable
from typing import Any

from .device import Counts, Device
from .image import VALID
from .server import Server, Stage
from .session import COMPLETE, RECEIVING, Session, Verdict


def next_text(state: tuple[str, int | None]) -> str:
    """The image in the next slot."""
    return f"valid {state[1]}" if state[0] == VALID else state[0]


def device_line(name: str, stage: Stage, device: Device) -> str:
    """device NAME STAGE clock OFFSET token T running V next NEXT."""
    return (
        f"device {name} {stage} clock {device.clock.offset} token {device.clock.token}"
        f" running {device.slots.running} next {next_text(device.slots.next)}\n"
    )


def counts_line(counts: Counts) -> str:
    """counts deaf A refused B full C dropped D."""
    return f"counts deaf {counts.deaf} refused {counts.refused} full {counts.full} dropped {counts.dropped}\n"


def session_line(index: int, session: Session, verdict: Verdict, last_word: str) -> str:
    """session I received N missing K STATE; of a whole file one word more may stand after it."""
    state = verdict.state
    if state != RECEIVING:
        state += f" at {verdict.mark}"
    if verdict.state == COMPLETE:
        state += last_word
    return f"session {index} received {session.received} missing {verdict.missing} {state}\n"


def session_lines(sessions: list[Session | None], last_word: Callable[..., Any], line_below: Callable[..., Any]) -> str:
    """The lines of all sessions; of a whole file two functions say which word ends its line, and which line follows."""
    text = ""
    for index, session in enumerate(sessions):
        if session is not None:
            verdict = session.verdict()
            text += session_line(index, session, verdict, last_word(verdict.file))
            text += line_below(verdict.file) if verdict.state == COMPLETE else ""
    return text


def compared_lines(sessions: list[Session | None], image: bytes) -> str:
    """Sessions whose files are compared with an image."""
    return session_lines(sessions, lambda file: " same" if file == image else " other", lambda file: "")


def told_lines(sessions: list[Session | None]) -> str:
    """Sessions whose files are told in hex."""
    return session_lines(sessions, lambda file: "", lambda file: f"file {file.hex()}\n")


def device_part(name: str, stage: Stage, device: Device, image: bytes) -> str:
    """The lines of a device of a campaign."""
    return device_line(name, stage, device) + counts_line(device.counts) + compared_lines(device.sessions, image)


def image_words(server: Server) -> str:
    """SIZE fragments M size FRAGSIZE padding PAD parity P."""
    plan = server.plan
    return (
        f"{len(server.image)} fragments {server.pieces} size {plan.fragsize} padding {server.padding}"
        f" parity {plan.parity}"
    )
