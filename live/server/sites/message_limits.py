"""Find senders that send more messages than this site takes.

    floods = Floods()
    if floods.count_message(sender): ..    the sender is over its limit: ignore this message
    floods.add_work(sender, seconds)       a message that kept the server busy counts as many messages

A sender is a run that has announced itself, or one of four for all others. So nobody without the key can make a site ignore another
one by playing its messages again.
"""
from __future__ import annotations

import time
from typing import Callable, TypeVar

MOST_SENDERS = 256  # senders that are remembered
MESSAGE_BURST, MESSAGES_PER_SECOND = 6_000, 500  # messages that a sender may send in a burst, and per second
WORK = 1_000  # messages: a second of work counts as this many
STRANGERS, UNSEALED = "strangers", "unsealed"  # runs that have not announced themselves; messages without a valid seal
ANNOUNCEMENTS, REPEATS = "announcements", "repeats"  # announcements; messages that bring nothing new
FLOOD = 30.0  # seconds for which a sender over its limit is ignored
K = TypeVar("K")
V = TypeVar("V")


class Floods:
    """Counts the messages of each sender. The limit is `MESSAGE_BURST` messages at once and `MESSAGES_PER_SECOND`, or as much
    work."""

    def __init__(self, clock: Callable[[], float] = time.monotonic) -> None:
        self._clock = clock
        self._left: dict[str, tuple[float, float]] = {}  # by sender: messages that it may still send, and the time of this count
        self._until: dict[str, float] = {}  # by sender: the time until which it is ignored

    def count_message(self, sender: str) -> bool:
        """Count one more message of a sender. Return whether the sender is over its limit."""
        now = self._clock()
        if self.is_ignored(sender):
            return True
        left, when = self._left.pop(sender, (float(MESSAGE_BURST), now))
        left = min(MESSAGE_BURST, left + MESSAGES_PER_SECOND * (now - when)) - 1
        self._left[sender] = left, now
        drop_oldest(self._left)
        if left < 0:
            self._until[sender] = now + FLOOD
            drop_oldest(self._until)
        return left < 0

    def is_ignored(self, sender: str) -> bool:
        return self._clock() < self._until.get(sender, 0.0)

    def add_work(self, sender: str, seconds: float) -> None:
        """Count a message that kept the server busy for some seconds as many messages."""
        left, when = self._left.get(sender, (float(MESSAGE_BURST), self._clock()))
        self._left[sender] = left - WORK * seconds, when
        drop_oldest(self._left)

    def ignored_senders(self) -> list[str]:
        """Return the senders that are ignored now."""
        return [sender for sender in [*self._until] if self.is_ignored(sender)]


def drop_oldest(entries: dict[K, V]) -> None:
    """Drop the oldest entry if there are too many."""
    if len(entries) > MOST_SENDERS:
        del entries[next(iter(entries))]
