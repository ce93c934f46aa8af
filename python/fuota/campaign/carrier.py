"""A way to the devices: what brings payloads to a network server and uplinks from it, and tells the time."""
import abc
import logging
import time

from ..errors import Failed
from ..library import Library
from ..lns import Lost as Lost, Refusing as Refusing, Uplink as Uplink
from .plan import Device, Group, Plan

LOG = logging.getLogger(__name__)
# What a malformed message raises.
STRANGE = (ValueError, LookupError, TypeError, AttributeError, ArithmeticError, RecursionError)


class Ended(Failed):
    """No more uplinks will come."""


class Carrier(abc.ABC):
    """A way to the devices. `now` is the one place that tells the time. In true time a wait is no longer than `tick` ms, so
    that what is shown stays true."""

    name: str
    tick: float = 1_000

    def now(self) -> int:
        """ms of Unix time."""
        return time.time_ns() // 1_000_000

    def hold(self, plan: Plan, is_new: bool, calls: Library | None) -> None:
        """Refuses a network server that is set up otherwise than a plan, whose campaign is new or was begun before."""

    def never_heard(self, plan: Plan) -> list[str]:
        """The devices of a plan that the network server never heard, where it tells that."""
        return []

    def away_since(self) -> int | None:
        """Since when, in ms of Unix time, nothing can be heard; None where something can."""
        return None

    @abc.abstractmethod
    def wait(self, until: float) -> list[Uplink]:
        """The uplinks that came, once there are some, or none at this moment."""

    def is_up(self) -> bool:
        """Whether a payload would go out."""
        return True

    @abc.abstractmethod
    def to_device(self, device: Device, port: int, payload: bytes) -> None:
        """Puts a payload into the queue of a device."""

    @abc.abstractmethod
    def to_group(self, group: Group, count: int, port: int, payload: bytes) -> int | None:
        """Puts a payload into the queue of the group; the frame count that the server gives it, where it tells one."""

    def close(self) -> None:
        """Gives up what it holds."""


def pass_over(message: bytes | str, why: object) -> None:
    """Says that a message is malformed."""
    LOG.warning("passed over: %.200r: %s", message, why)
