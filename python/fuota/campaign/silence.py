"""Which devices are silent, and how that is told."""
from collections.abc import Iterable

from .contact import Contact

# So many devices are named.
NAMED = 8


def never_answered(contacts: Iterable[Contact]) -> list[str]:
    """The devices that never answered, nor asked for the time."""
    return [contact.eui for contact in contacts if contact.heard_at is None]


def told_of(euis: list[str], words: str) -> str:
    """What is said of some devices: how many they are, and the first of them by name."""
    more = f" and {len(euis) - NAMED} more" if len(euis) > NAMED else ""
    return f"{words} {len(euis)} device{'s' * (len(euis) > 1)}: {', '.join(euis[:NAMED])}{more}"
