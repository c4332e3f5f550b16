"""Name sites and count operations, so that the later of two changes wins, whatever the clocks of their sites say.

    counter = Counter()
    counter.hold(count)         a count that an operation has
    counter.hear(count)         the greatest count of another site
    count = counter.next()      above all of them, and at least what the clock says

Nobody looks at another's clock: whoever has taken an operation makes the next one above it.
"""
from __future__ import annotations

import re
import secrets
import socket
import time


A_MILLISECOND = 32  # counts in a millisecond
FAR = 1 << 50  # a clock counts as this at most; above it, counts grow by few at a time
FAR_STEP = 1 << 24  # how far a count above `FAR` may be above the greatest one of the shared road
SAID = re.compile(r"[A-Za-z0-9.-]{1,31}")


class Counter:
    """The counts of a server. It never sinks while the server runs, whatever is forgotten."""

    def __init__(self, milliseconds: int | None = None) -> None:
        """`milliseconds` is a constant time for tests, since 1970; None means the system's clock."""
        self._fixed = milliseconds
        self.greatest = 0  # of all operations held, private ones of all seats included, and of all sites that were heard

    def hold(self, count: int) -> None:
        self.greatest = max(self.greatest, count)

    def hear(self, count: int) -> None:
        """Believe the greatest count that another site announces, unless it is far."""
        if count <= FAR:
            self.hold(count)

    def next(self) -> int:
        """Return the count of a new operation."""
        return max(self.greatest + 1, self._of_clock())

    def milliseconds_ahead(self) -> int:
        """Return how far the greatest count is ahead of the clock; a negative number if it is behind."""
        return (self.greatest - self._of_clock()) // A_MILLISECOND

    def _of_clock(self) -> int:
        now = time.time_ns() // 1_000_000 if self._fixed is None else self._fixed
        return min(max(0, now) * A_MILLISECOND, FAR)


def is_far(count: int, greatest: int) -> bool:
    """Return whether a count is too far above the greatest one of the shared road to be taken now."""
    return count > max(FAR, greatest) + FAR_STEP


def can_be_said(name: str) -> bool:
    """Return whether --site may say this name."""
    return SAID.fullmatch(name) is not None


def new_site(said: str | None) -> str:
    """Return the name of a new site: what --site says, or else the host's name, with random digits."""
    name = re.sub(r"[^A-Za-z0-9.-]", "-", socket.gethostname())[:31] or "site" if said is None else said
    return f"{name}-{secrets.token_hex(4)}"
