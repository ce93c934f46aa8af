"""Coded fragments in reserve: after the planned fragments as many of them go out as the devices' answers ask for, in rounds."""
import math
from collections.abc import Iterator
from functools import partial

from ..theory import enough_coded, fragments_within, time_of
from .contact import Contact
from .opening import Action, Opening
from .reckoning import GROUP_ANSWERS, LOSS

# A round is so long that the device it is for is complete with this probability.
SURE = 0.9


class Rounds(Opening):
    """A campaign with its reserve. Up to `target` fragments go out, which a round makes more."""

    @property
    def target(self) -> int:
        return max(self.plan.fragments, self.history.until)

    def is_over(self, moment: float) -> bool:
        """Whether no fragment goes out any more: none is left in reserve either, or the window is past."""
        return self.sent == self.plan.in_all or self.within(moment) is None

    def is_asking(self, moment: float) -> bool:
        """Whether devices are asked what they miss: all fragments up to the target went out, or the window is past."""
        return self.sent == self.target or self.within(moment) is None

    def room(self, moment: float) -> int:
        """How many fragments of the reserve can go out from a moment on."""
        left, window = self.plan.in_all - self.sent, self.plan.window
        if not window:
            return left
        air = self.plan.fragment_air
        return min(left, fragments_within(window.closes - window.guard - max(moment, self.carrier.now()), self.plan.distance(air), air))

    def is_beyond(self, missing: int, moment: float) -> bool:
        """Whether no fragment makes good so many missing pieces any more."""
        return self.is_over(moment) or self.sent == self.target and missing > self.room(moment)

    def waits_for_round(self, contact: Contact, moment: float) -> bool:
        """Whether a device told since the last fragment what it misses, and the reserve can make it good."""
        return (contact.stage == "status" and contact.told_at > self.history.fragment_at and contact.missing is not None
                and not self.is_beyond(contact.missing, moment))

    def is_open(self, contact: Contact) -> bool:
        """Whether a device has not told yet what it misses since the last fragment."""
        return contact.stage == "status" and not contact.is_silent and contact.told_at <= self.history.fragment_at

    # ---- What is to do

    @property
    def asked_at(self) -> int | None:
        """When all devices were asked at once what they miss since the last fragment; None where they were not."""
        return self.history.status_at if self.history.asked else None

    @property
    def can_ask(self) -> bool:
        """Whether all can be asked at once: the group has a frame count beside those of the reserve."""
        group = self.plan.group
        return group is not None and self.server.frame_count() + self.plan.in_all - self.sent < group.end

    def asked_one_by_one(self, contact: Contact) -> int:
        """From when on a device is asked: with a reserve the answers to what all were asked at once come first."""
        is_later = contact.stage == "status" and self.plan.reserve and self.plan.group
        return self.history.status_at + GROUP_ANSWERS if is_later else 0

    def last_status(self, free: float) -> Iterator[Action]:
        """Once no fragment goes out any more all are asked at once, if they were not."""
        is_asked = self.asked_at is not None if self.plan.reserve else self.group_payloads > self.sent
        if not is_asked and self.can_ask:
            yield free, self.send_status

    def rounds(self, free: float) -> Iterator[Action]:
        """Once all fragments up to the target went out and the window is open all are asked at once what they miss, and what the
        worst of those that can be helped needs goes out, once all told it or the time for that is over."""
        asked_at = self.asked_at
        if asked_at is None and self.can_ask:
            yield free, self.send_status
            return
        worst = max((contact.missing or 0 for contact in self.contacts if self.waits_for_round(contact, free)), default=0)
        is_told = not any(self.is_open(contact) for contact in self.contacts)
        if worst and (is_told or asked_at is not None):
            count = min(self.room(free), enough_coded(worst, LOSS if self.plan.loss is None else self.plan.loss, SURE))
            moment = 0 if is_told or asked_at is None else min(asked_at + GROUP_ANSWERS, self.latest_for(count))
            yield max(free, moment), partial(self.begin_round, count, worst)
        elif not is_told and asked_at is not None and self.has_spare_count:
            # (an answer may be lost; the longer none comes, the rarer all are asked)
            wait = min(GROUP_ANSWERS * 2 ** (self.history.asked - 1), max(GROUP_ANSWERS, self.plan.retry.distance))
            yield max(free, asked_at + wait), self.send_status

    def latest_for(self, count: int) -> int:
        """The last moment at which the window has room for so many fragments."""
        window, air = self.plan.window, self.plan.fragment_air
        return math.floor(window.closes - window.guard - time_of(count, self.plan.distance(air), air)) if window else 0

    @property
    def has_spare_count(self) -> bool:
        """Whether the group has a frame count beside those that the reserve needs, with a request for the status for each of it."""
        group = self.plan.group
        return group is not None and self.server.frame_count() + 2 * (self.plan.in_all - self.sent) < group.end

    def begin_round(self, count: int, worst: int) -> None:
        """So many fragments more go out."""
        self.note(until=self.sent + count, worst=worst)
