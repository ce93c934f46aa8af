"""What ends a command with a message that an operator can act on."""


class Wrong(ValueError):
    """Words or a file are wrong, or do not fit what is kept. The message begins with the place, where there is one."""


class Failed(Exception):
    """Something outside did not do what was asked of it."""


def plain(why: BaseException) -> str:
    """What went wrong in the system's words, without its number."""
    inner = getattr(why, "reason", None)
    if isinstance(inner, BaseException):
        return plain(inner)
    return (why.strerror if isinstance(why, OSError) else None) or str(why)
