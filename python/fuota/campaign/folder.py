"""The folder of a campaign: the server's bytes, a journal of what was sent and heard, and a lock."""
import contextlib
import fcntl
import os
import pathlib
import stat

from .. import library
from ..errors import Wrong
from .journal import Journal
from .plan import Plan


def is_used(path: pathlib.Path) -> bool:
    """Whether a campaign is kept there."""
    return any((path / name).exists() for name in ("state", "journal"))


def refuse_foreign(path: pathlib.Path) -> None:
    """Refuses a folder in which somebody else may have a hand: it and all in it are the user's, nobody else may write there, and
    what is in it are regular files."""
    for one in (path, *sorted(path.iterdir())):
        told = path.stat() if one == path else one.lstat()
        if one != path and not stat.S_ISREG(told.st_mode):
            raise Wrong(f"{one}: not a regular file, and no other belongs there")
        if told.st_uid != os.geteuid():
            raise Wrong(f"{one}: it belongs to another user")
        if told.st_mode & 0o022:
            raise Wrong(f"{one}: others may write to it (mode {stat.S_IMODE(told.st_mode):04o}): chmod go-w {one}")


def words_of(plan: Plan) -> tuple[library.Plan, list[library.PlanDevice], bytes]:
    """What the library takes for a server of a plan."""
    return plan.for_library(), plan.devices_for_library, plan.image.data


def first_server(plan: Plan, calls: library.Library | None) -> library.Server:
    """The server of a plan at its start."""
    return library.Server(*words_of(plan), calls)


def restored(plan: Plan, saved: bytes, calls: library.Library | None) -> tuple[library.Server, Plan]:
    """The server that saved these bytes, with the plan for the start of the window that it is for; `Corrupt` where it is none of them."""
    for each in plan.at_each_start():
        with contextlib.suppress(library.Corrupt):
            return library.Server.restore(*words_of(each), saved, calls), each
    raise library.Corrupt


class Folder:
    """The folder of a campaign, which one process at a time works on."""

    def __init__(self, path: str | pathlib.Path) -> None:
        self.path = pathlib.Path(path)
        self.path.mkdir(mode=0o700, exist_ok=True)
        refuse_foreign(self.path)
        self.lock = os.open(self.path / "lock", os.O_RDWR | os.O_CREAT | os.O_CLOEXEC, 0o600)
        try:
            fcntl.flock(self.lock, fcntl.LOCK_EX | fcntl.LOCK_NB)
        except BlockingIOError:
            raise Wrong(f"{self.path}: another fuota-campaign works on it") from None
        self.directory = os.open(self.path, os.O_RDONLY | os.O_DIRECTORY | os.O_CLOEXEC)
        self._saved = self._read()
        self.journal = Journal(self.path / "journal")
        if not self.has_server and self.journal.lines:
            raise Wrong(f"{self.path}: there is a journal and no state: frame counts could be sent twice")

    def _read(self) -> bytes | None:
        """The bytes that were kept; None where there are none."""
        try:
            return (self.path / "state").read_bytes()
        except FileNotFoundError:
            return None

    @property
    def has_server(self) -> bool:
        """Whether a server was kept."""
        return self._saved is not None

    def server_of(self, plan: Plan, calls: library.Library | None) -> tuple[library.Server, Plan]:
        """The server of a plan as it was kept, with the plan for the start of the window that it is for; or else at its start."""
        try:
            return (first_server(plan, calls), plan) if self._saved is None else restored(plan, self._saved, calls)
        except library.Corrupt:
            raise Wrong(f"{self.path / 'state'}: broken, or of another plan or image; nothing was sent") from None
        except library.WrongField as why:
            raise Wrong(f"{plan.file}: the library refuses it: {why.field.name}") from None
        except library.Refused:
            raise Wrong(f"{plan.file}: image: the library says that it is not an image file") from None

    def keep(self, saved: bytes) -> None:
        """Puts bytes in the place of those that were kept: all of them, or none."""
        if saved == self._saved:
            return
        new = self.path / "state.new"
        with open(os.open(new, os.O_WRONLY | os.O_CREAT | os.O_TRUNC | os.O_NOFOLLOW | os.O_CLOEXEC, 0o600), "wb") as handle:
            handle.write(saved)
            handle.flush()
            os.fsync(handle.fileno())
        os.replace(new, self.path / "state")
        os.fsync(self.directory)
        self._saved = saved

    def close(self) -> None:
        for handle in (self.journal.handle, self.directory, self.lock):
            os.close(handle)
