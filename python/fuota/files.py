"""Files that are read whole. What is no file, as a pipe or a device, is refused and not waited for."""
import os
import pathlib
import stat

from .errors import Wrong


def read(path: pathlib.Path, most: int = -1, is_private: bool = False) -> bytes:
    """What a file has, at most so many bytes; a private one nobody but its owner may read."""
    handle = os.open(path, os.O_RDONLY | os.O_NONBLOCK | os.O_CLOEXEC)
    try:
        mode = os.fstat(handle).st_mode
        if not stat.S_ISREG(mode):
            raise Wrong(f"{path}: not a regular file")
        if is_private and mode & 0o077:
            raise Wrong(f"{path}: others may read it (mode {stat.S_IMODE(mode):04o}), and it has a secret: chmod 600 {path}")
        with open(handle, "rb", closefd=False) as reader:
            return reader.read(most)
    finally:
        os.close(handle)
