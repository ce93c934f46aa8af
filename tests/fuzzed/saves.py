"""Saved devices that are bent, with their digest made anew: none is restored, or one that lives on and saves the same again."""
import random
from typing import Any

from .bending import is_one_of
from .devices import SPANS, Tried
from .library import Wrong, agree, answered, fuota
from .saved import DEVICE, FLAGS, device_bent, device_sealed, image_file, is_device


def check(draws: random.Random, library: object) -> None:
    """A device with some history is saved, and restored of other bytes."""
    tried = Tried(draws, library, draws.choice(SPANS) if is_one_of(draws, 3) else None)
    try:
        tried.call("power")
        tried.begin()
        for _ in range(draws.choice((0, 2, 6))):
            tried.step()
        saved, running, following = tried.saved()
        refuses(tried, saved, running, following)
        for _ in range(4):
            restored_of(tried, saved, running, following)
    finally:
        tried.free()


def restored_of(tried: Tried, saved: bytes, running: bytes, following: bytes) -> None:
    """A device is restored of bent bytes."""
    draws, config, span = tried.draws, tried.config, tried.span
    state = device_bent(draws, saved[:DEVICE])
    if is_one_of(draws, 6):
        running, state = with_file(draws, tried, state, 191)
        if draws.randrange(4):
            at = 13 if running[4] == 2 else 9
            state = state[:182] + running[at:at + 4] + state[186:]
    if is_one_of(draws, 4):
        following, state = with_file(draws, tried, state, 195)
    sealed = device_sealed(state, config, span, running, following)
    device = restore(tried, sealed, running, following)
    wanted = is_device(state, config, running, following)
    agree(f"whether a device knows {state.hex()}", wanted, isinstance(device, fuota.Device))
    if not wanted:
        return
    lives_on(tried, device, sealed, running, following)


def refuses(tried: Tried, saved: bytes, running: bytes, following: bytes) -> None:
    """Its bytes with another digest, and for other files or another configuration, are no device's."""
    draws = tried.draws
    at = draws.randrange(DEVICE, len(saved))
    agree("another digest", "CORRUPT", restore(tried, turned(draws, saved, at), running, following))
    agree("bent bytes", "CORRUPT", restore(tried, turned(draws, saved, draws.randrange(DEVICE)), running, following))
    if running:
        other = turned(draws, running, draws.randrange(len(running)))
        agree("another file that runs", "CORRUPT", restore(tried, saved, other, following))
    if following:
        other = turned(draws, following, draws.randrange(len(following)))
        agree("another file of next", "CORRUPT", restore(tried, saved, running, other))
    config, tried.config = tried.config, fuota.Config.from_buffer_copy(tried.config)
    name = draws.choice(("hw", "offset", "area", "rows", "formats", "sessions", "groups", "is_class_c", "is_v11"))
    setattr(tried.config, name, getattr(config, name) ^ 1)
    told = restore(tried, saved, running, following)
    tried.config = config
    if told not in ("CORRUPT", "RANGE"):
        raise Wrong(f"a device with another {name} is answered with {told}")


def turned(draws: random.Random, data: bytes, at: int) -> bytes:
    """The bytes with a bit turned."""
    return data[:at] + bytes([data[at] ^ 1 << draws.randrange(8)]) + data[at + 1:]


def with_file(draws: random.Random, tried: Tried, state: bytes, at: int) -> tuple[bytes, bytes]:
    """Another file, with its length where the state has it."""
    file = image_file(draws, tried.config.hw, draws.choice((0, 1, 7)), 40)
    return file, state[:at] + len(file).to_bytes(4, "little") + state[at + 4:]


def restore(tried: Tried, saved: bytes, running: bytes, following: bytes) -> Any:
    """The device, or the name of the error."""
    flash = None if tried.span is None else tried.twins.objects[0].flash()
    words = (tried.config, saved, running, following, tried.library, flash) + (() if tried.span is None else (tried.span,))
    return answered(fuota.Device.restore, *words)


def lives_on(tried: Tried, device: Any, sealed: bytes, running: bytes, following: bytes) -> None:
    """It saves what it was restored of, takes calls, and its own bytes are taken back."""
    first, tried.twins.objects = tried.twins.objects[0], [device]
    try:
        wanted = sealed
        if tried.span is None:
            cleared = sealed[:FLAGS.start] + bytes(4) + sealed[FLAGS.stop:DEVICE]
            wanted = device_sealed(cleared, tried.config, None, running, following)
        agree("what is saved again", wanted, device.save())
        if tried.span is not None:
            device.power()
        for _ in range(3):
            tried.step()
        tried.is_partial = False
        tried.restore()
        tried.end()
    finally:
        tried.twins.free()
        tried.twins.objects, tried.is_partial = [first], False
