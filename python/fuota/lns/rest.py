"""A REST API, by the standard's http.client. That bounds each step, and a server that sends a byte at a time takes as many
steps as it likes: so a timer bounds all of them. Redirects are not followed, and the proxies of the environment not used: the
key goes to the host of the plan alone."""
import contextlib
import http.client
import json
import signal
from collections.abc import Iterator
from typing import Any, NoReturn
from urllib.parse import urlsplit

from ..errors import plain
from ..limits import MAX_MESSAGE
from .server import Lost, Members, Refusing

# Seconds for a whole exchange, from the connection to the last byte.
TIMEOUT = 30
# Of those that refuse what the next try may bring.
LATER = (408, 429)
CONNECTIONS = {"http": http.client.HTTPConnection, "https": http.client.HTTPSConnection}


class NotThere(Refusing):
    """There is nothing to get under that address."""


@contextlib.contextmanager
def within(seconds: float) -> Iterator[None]:
    """Ends what takes longer with TimeoutError. Only the main thread has such a timer."""
    def over(*_: object) -> NoReturn:
        raise TimeoutError(f"no whole answer in {seconds:g} s")

    before = signal.signal(signal.SIGALRM, over)
    # (again and again, as what is raised within a destructor is not heard)
    signal.setitimer(signal.ITIMER_REAL, seconds, 1)
    try:
        yield
    finally:
        signal.setitimer(signal.ITIMER_REAL, 0)
        signal.signal(signal.SIGALRM, before)


def ask(address: str, key: str, members: Members | None = None) -> Members:
    """What is answered to a GET, or with members to a POST; `Lost` where that is nothing that makes sense, `Refusing` where it
    will not be another the next time."""
    headers = {"Grpc-Metadata-Authorization": f"Bearer {key}", "Connection": "close"}
    if members is not None:
        headers["Content-Type"] = "application/json"
    try:
        with within(TIMEOUT):
            status, body = exchange(address, headers, None if members is None else json.dumps(members).encode())
        if 300 <= status < 400:
            raise Refusing(f"{address}: {status}, a redirect, which is not followed: http of the plan has to name the API itself")
        if not 200 <= status < 300:
            kind = NotThere if status == 404 and members is None else Refusing if 400 <= status < 500 and status not in LATER else Lost
            raise kind(f"{address}: {status} {shown(body.decode(errors='replace'), key)}".rstrip())
        return members_of(body)
    except (OSError, http.client.HTTPException, ValueError, RecursionError) as why:
        raise Lost(f"{address}: {shown(plain(why), key) or type(why).__name__}") from None


def exchange(address: str, headers: dict[str, str], body: bytes | None) -> tuple[int, bytes]:
    """Makes a request: the status of the answer, and its body."""
    parts = urlsplit(address)
    with contextlib.closing(CONNECTIONS[parts.scheme](parts.hostname or "", parts.port)) as connection:
        path = f"{parts.path}?{parts.query}" if parts.query else parts.path
        connection.request("GET" if body is None else "POST", path, body, headers)
        answer = connection.getresponse()
        said = answer.read(MAX_MESSAGE + 1)
    if len(said) > MAX_MESSAGE:
        raise ValueError(f"an answer of more than {MAX_MESSAGE} bytes")
    return answer.status, said


def members_of(body: bytes) -> Members:
    """The object that a body is."""
    made: Any = json.loads(body)
    if not isinstance(made, dict):
        raise ValueError("the answer is not an object")
    return made


def shown(text: str, key: str) -> str:
    """What can be shown of what a server said, and of no key."""
    if key:
        text = text.replace(key, "(the key)")
    return "".join(sign if sign.isprintable() else " " for sign in text[:200]).strip()
