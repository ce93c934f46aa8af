"""Whether a window begins: enough devices are ready as it opens, or the plan says what is done otherwise."""
import math
from collections.abc import Callable

from ..theory import duration
from .carrier import LOG
from .folder import first_server
from .journal import KeptWindow
from .plan import Plan, moment_of
from .reckoning import unreached
from .sending import Sending
from .silence import never_answered, told_of

Action = tuple[float, Callable[[], None]]
DECIDED = {"begin": "begun", "wait": "passed over", "ask": "waits for run --begin"}


def decision_of(window: KeptWindow, count: int) -> str:
    """What was decided of a window, with so many devices in the plan."""
    told = DECIDED[window.decided or ""] + " all the same" * (window.decided == "begin" and (window.ready or 0) < (window.needed or 0))
    return f"window of {moment_of(window.opens)}: {told}, with {window.ready} of {count} devices ready and {window.needed} needed"


class Opening(Sending):
    """A campaign up to the begin of its window."""

    @property
    def ready(self) -> int:
        """How many devices are ready."""
        return sum(contact.is_ready for contact in self.contacts)

    @property
    def is_enough(self) -> bool:
        return self.is_forced or self.ready >= self.plan.needed

    @property
    def decided(self) -> str | None:
        """What was decided of the window; None where nothing was."""
        return self.history.last_window.decided if self.history.last_window else None

    @property
    def is_begun(self) -> bool:
        """Whether fragments may go out once the window is open."""
        return not self.plan.needed or self.sent > 0 or self.decided == "begin"

    @property
    def latest(self) -> int:
        """The last moment at which the window has room for all fragments."""
        window = self.plan.window
        return math.floor(window.closes - window.guard - self.plan.need) if window else 0

    def later(self) -> Plan | None:
        """The plan for the next start of the window for which all devices can be asked; None where there is none."""
        now, following = self.carrier.now(), self.plan.following
        return next((plan for plan in following.at_each_start() if unreached(plan, now) is None), None) if following else None

    def opening(self) -> Action:
        """When it is decided whether the window begins. While somebody is asked that is once enough devices are ready, or once the
        rest of the window is too short."""
        window, moment = self.plan.window, 0
        if window:
            moment = self.latest + 1 if self.decided == "ask" and not self.is_enough else window.opens + window.guard
        return max(self.carrier.now(), moment), self.decide

    def decide(self) -> None:
        """Decides whether the window begins. One whose rest is too short is passed over where there is a further one, and where
        somebody is asked; but not if somebody forced it."""
        choice = "begin" if self.is_enough or not self.plan.window else self.plan.window.otherwise
        if self.carrier.now() > self.latest and not self.is_forced and (choice == "ask" or self.plan.following):
            choice = "wait"
        self.note(decided=choice, ready=self.ready, needed=self.plan.needed)
        if self.history.last_window:
            LOG.warning("%s", decision_of(self.history.last_window, len(self.contacts)))
        silent = never_answered(self.contacts)
        if silent:
            LOG.warning("%s", told_of(silent, "no answer so far of"))

    def move_to(self, plan: Plan) -> None:
        """Goes over to another start of the window. No frame count was spent in the one before; the time of the class session is
        another one, so a server of its own asks each device for all again, whose session stays what it is."""
        self.server.free()
        self.server, self.plan = first_server(plan, self.calls), plan
        self.keep()
        self.complete_window()

    def notice(self, is_last: bool) -> str:
        """What is said of the window before it begins, or at the end of a campaign; empty where nothing is."""
        window, now, count = self.plan.window, self.carrier.now(), len(self.contacts)
        if self.decided == "wait":
            return "" if self.later() else "no further window can be reached"
        if is_last or not window or now >= window.opens and self.decided != "ask":
            return ""
        begin = "window open" if now >= window.opens else f"window in {duration(window.opens - now)}"
        return f"{begin}, {count - self.ready} of {count} not ready" + ", waits for run --begin" * (self.decided == "ask")
