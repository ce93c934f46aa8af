"""A payload's text: what it shows is the payload, but for reserved bits, and where it is refused reading stops."""
import random

from . import commands
from .bending import bent, is_one_of
from .library import Wrong, agree, fuota


def payload_drawn(draws: random.Random, port: int, is_up: bool) -> bytes:
    """Some commands of a port, bent or not, or random bytes."""
    if is_one_of(draws, 8):
        return draws.randbytes(draws.randint(0, 242))
    rows, payload = commands.rows_at(port, is_up), b""
    for _ in range(draws.choice((0, 1, 1, 2, 3, 8))):
        data = draws.randbytes(draws.choice((1, 2, 48, 242))) if rows else b""
        row = draws.choice(rows) if rows else None
        payload += commands.some_of(row, draws, lambda name: data if name == "bytes" else None) if row else b""
    payload = payload[:242]
    return bent(draws, payload) if is_one_of(draws, 2) else payload


def check(draws: random.Random, library: object) -> None:
    """One payload."""
    port = draws.choice((200, 201, 202, 203, 200, 201, 202, 203, draws.randrange(256)))
    is_up = is_one_of(draws, 2)
    payload = payload_drawn(draws, port, is_up)
    try:
        wanted: object = commands.text_of(commands.read(port, is_up, payload))
    except commands.NoCommands as stop:
        wanted = stop.at, stop.why
    try:
        got = fuota.Library.decode(library, port, is_up, payload)
    except fuota.NoText as stop:
        got = stop.at, int(stop.why)
    agree(f"text of port {port}, {'up' if is_up else 'down'}, {payload.hex()}", wanted, got)
    if isinstance(got, str):
        again = commands.payload_of(port, is_up, got)
        if len(again) != len(payload):
            raise Wrong(f"{payload.hex()} is shown as {got!r}, which is {again.hex()}")
        agree(f"text of {again.hex()}", got, fuota.Library.decode(library, port, is_up, again))
