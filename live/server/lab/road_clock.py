"""Set the clock of the road: let it run at a rate, or set it forward to a step."""
from __future__ import annotations

import asyncio
import time
from typing import Mapping

from zegdrut.program.grammar import LAST_HORIZON

from ..base.refusals import Refused
from ..journal.entries import Clock
from .keeper import A_MOMENT, SHARED, Keeper, wait_until_written

STEPS_AHEAD = 36_000  # steps that a replica may run ahead of the clock, and that the clock may be set forward
FASTEST, FAST = 600, 60  # steps a second; above `FAST` the clock stops after an hour of the road
HOUR = 3_600  # steps


class RoadClock:
    """Sets the clock, and saves it to the journal at intervals."""

    def __init__(self, keeper: Keeper) -> None:
        self._keeper = keeper
        self._setting = asyncio.Lock()
        self._waiting: set[asyncio.Future[None]] = set()  # clocks that are being written

    async def set_clock(self, rate: float | None = None, to: int | None = None) -> Mapping[str, object]:
        """Set the rate of the clock in steps a second, or set the clock forward to a step. If several tabs do this at the same time, one
        that sets the rate does not change the step, and vice versa. Return the present step."""
        keeper = self._keeper
        now = keeper.now()
        if to is not None and not now <= to <= min(LAST_HORIZON, now + STEPS_AHEAD):
            raise Refused("Range", f"the clock goes forward only, and by at most {STEPS_AHEAD // HOUR} hours at a time: `to` must be {now} to "
                          f"{min(LAST_HORIZON, now + STEPS_AHEAD)}, not {to}")
        async with self._setting:
            await keeper.turns.ask(SHARED, keeper.require_writable)
            clock = keeper.clock() if rate is None else Clock(rate, keeper.now())
            step = clock.now if to is None else max(to, clock.now)
            stop = min(LAST_HORIZON, step + HOUR) if clock.rate > FAST else clock.stop
            await wait_until_written(self._put(Clock(clock.rate, step, stop)), {})
        keeper.listeners.clock.notify()
        return {"now": step}

    def _put(self, clock: Clock) -> asyncio.Future[None]:
        """Save a clock. It takes effect once it is on the disk, and counts from the time of this call."""
        def begin() -> None:
            self._keeper.clock_started = begun
        begun = time.monotonic()
        self._waiting.add(done := self._keeper.apply_when_written(clock, begin))
        done.add_done_callback(self._waiting.discard)
        return done

    def save(self) -> None:
        """Save the present step if the clock has run on, without losing the fraction of a step since then. Stop the clock when it
        reaches its `stop`."""
        keeper = self._keeper
        clock, before = keeper.clock(), keeper.state.now
        if self._waiting or keeper.journal.has_waited(A_MOMENT):
            return
        if clock.now > before:
            keeper.record(clock)
            keeper.clock_started += (clock.now - before) / clock.rate
        elif clock.now == clock.stop:
            self._put(Clock(0, before)).add_done_callback(self._notify_stopped)

    def _notify_stopped(self, done: asyncio.Future[None]) -> None:
        if not done.cancelled() and done.exception() is None:
            self._keeper.listeners.clock.notify()
