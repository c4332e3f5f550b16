"""Take fair turns: many seats share one program, and each seat in turn gets a piece of work done.

    turns = Turns(do_job)
    result = await turns.ask(seat, job)     the jobs of a seat are done in their order

A job is an async function that returns the answer. If it returns `MORE` instead, it is called again when all other seats have had
their turn. A job that is done at leisure lets other jobs of its seat go first, also between its pieces, but waits for a second at most.

Before a seat whose turns are long, seats that have used little time go first: with the jobs that wait now, and with those that follow
from their answers within a moment. So a gesture and the query of its rows together wait for one long turn, not for two.

A short job (`takes_long=False`) does not use the program. It need not wait until the turn of another seat ends: it is done while that
waits for the program or for a thread.
"""
from __future__ import annotations

import asyncio
import collections
import contextlib
import logging
import math
import time
from typing import Awaitable, Callable, Deque, Dict, Generic, TypeVar, Union

LONG_TURN = 0.03  # seconds from which a turn counts as long
FORGOTTEN = 2.0  # seconds after which the time that a seat has used counts only about a third (1/e)
LITTLE = 0.25  # the part of the long seat's used time below which a seat has used little
PUT_OFF = 0.25  # the part of a long turn's duration that other seats get before it
WAITED = 1 / 12  # the part of a long turn's duration that is spent at most on waiting for jobs of others
MOST_WAITED = 0.01  # seconds that are spent at most on waiting
LEISURE = 1.0  # seconds that a job at leisure waits for other jobs of its seat


class More:
    """The result of a job that is not done yet."""


MORE = More()
T = TypeVar("T")
V = TypeVar("V", covariant=True)
Job = Callable[[], Awaitable[Union[T, More]]]
Work = Callable[[], Awaitable[object]]
"""A job, whatever the type of its answer."""
Around = Callable[[Work], Awaitable[object]]


class Waiting(Generic[V]):
    """A job in a queue, the time when it was asked, and whether it takes long (None: not known). `answer` gets its result."""

    def __init__(self, job: Job[V], asked: float, takes_long: bool | None) -> None:
        self.job, self.asked, self.takes_long = job, asked, takes_long
        self.answer: asyncio.Future[V] = asyncio.get_running_loop().create_future()
        self.answer.add_done_callback(lambda one: one.cancelled() or one.exception())


Queue = Deque[Waiting[object]]


class Use:
    """The time that a seat has used; time long ago counts less. `last` is the duration of its last turn, `number` the turn's number."""

    def __init__(self) -> None:
        self._sum, self._at, self.last, self.number = 0.0, 0.0, 0.0, 0

    def add(self, seconds: float, now: float, number: int) -> None:
        self._sum, self._at, self.last, self.number = self.used_until(now) + seconds, now, seconds, number

    def used_until(self, now: float) -> float:
        return self._sum * math.exp((self._at - now) / FORGOTTEN)


class Turns:
    """The queues of all seats, and one task that works through them."""

    def __init__(self, do_job: Around, clock: Callable[[], float] = time.monotonic,
                 may_be_within: Callable[[], bool] = lambda: True) -> None:
        """`do_job` calls a job. If the program has exited, it may replace the program and call the job again. `may_be_within` returns
        whether a short job may be called at present without `do_job`, within the turn of another seat."""
        self._do_job, self._clock, self._may_be_within = do_job, clock, may_be_within
        self._queues: Dict[int, Queue] = collections.defaultdict(collections.deque)
        self._later: Dict[int, Queue] = collections.defaultdict(collections.deque)  # jobs at leisure
        self._turn: Deque[int] = collections.deque()
        self._work = asyncio.Event()
        self._uses: Dict[int, Use] = collections.defaultdict(Use)
        self._number = 0  # the number of the last turn

    def ask(self, seat: int, job: Job[T], at_leisure: bool = False, takes_long: bool | None = None) -> asyncio.Future[T]:
        """Put a job into a seat's queue. Return a future with its answer. If `takes_long` is not given, it is assumed to be as with the
        seat's last turn."""
        waiting: Waiting[T] = Waiting(job, self._clock(), takes_long)
        if not self._first(seat):
            self._turn.append(seat)
        (self._later if at_leisure else self._queues)[seat].append(waiting)
        self._work.set()
        return waiting.answer

    def _first(self, seat: int) -> Queue:
        """Return the queue whose first job is the seat's next one; an empty queue if the seat has none."""
        queue, later = self._queues[seat], self._later[seat]
        return later if later and (not queue or self._clock() - later[0].asked > LEISURE) else queue

    async def run(self) -> None:
        """Do jobs for ever. After a restart of this task, this includes those of the seat whose turn it was."""
        self._turn.extend(seat for seat in {*self._queues, *self._later} if self._first(seat) and seat not in self._turn)
        while True:
            while not self._turn:
                self._work.clear()
                await self._work.wait()
            seat = self._turn.popleft()
            if self._takes_long(seat):
                await self._serve_others_first(seat)
            await self._run_turn(seat)

    def _takes_long(self, seat: int) -> bool:
        """Return whether the next job of a seat takes long, as far as is known."""
        said = self._first(seat)[0].takes_long
        return self._uses[seat].last >= LONG_TURN if said is None else said

    async def _serve_others_first(self, seat: int) -> None:
        """Before a long turn, do jobs of other seats that have used little time or whose turns are not long. Also wait a moment for the
        next jobs of seats that have used little and were just answered."""
        own = self._uses[seat]
        left, wait = max(LONG_TURN, own.last) * PUT_OFF, min(own.last * WAITED, MOST_WAITED)
        while left > 0:
            lighter = self._is_lighter_than(seat)
            asking = next((one for one in self._turn if one != seat and (lighter(one) or not self._takes_long(one))), None)
            if asking is not None:
                self._turn.remove(asking)
                await self._run_turn(asking)
                left -= self._uses[asking].last
                continue
            began = self._clock()
            answered = any(self._uses[one].number > own.number for one in filter(self._is_lighter_than(seat), [*self._uses]))
            if wait <= 0 or not answered or not await self._wait_for_job(wait):
                return
            wait -= self._clock() - began

    def _is_lighter_than(self, seat: int) -> Callable[[int], bool]:
        """Return a function that tells whether a seat has used little time compared with this one."""
        now = self._clock()
        most = self._uses[seat].used_until(now) * LITTLE
        return lambda one: one != seat and self._uses[one].used_until(now) < most

    async def _wait_for_job(self, seconds: float) -> bool:
        """Wait for a new job, at most for some seconds. Return whether there is one."""
        self._work.clear()
        with contextlib.suppress(asyncio.TimeoutError):
            async with asyncio.timeout(seconds):
                await self._work.wait()
        return self._work.is_set()

    async def _run_beside_short_jobs(self, job: Work) -> object:
        """Do a job. While it waits, do short jobs of other seats."""
        turn = asyncio.ensure_future(self._do_job(job))
        turn.add_done_callback(lambda _: self._work.set())
        await asyncio.sleep(0)  # let the job begin first
        try:
            while not turn.done():
                short = next(filter(self._is_short, self._turn), None) if self._may_be_within() else None
                if short is None:
                    self._work.clear()
                    await self._work.wait()
                else:
                    self._turn.remove(short)
                    await self._run_turn(short, is_within=True)
        finally:
            if not turn.done():
                turn.cancel()
                await asyncio.wait([turn])
        return turn.result()

    def _is_short(self, seat: int) -> bool:
        return self._first(seat)[0].takes_long is False

    async def _run_turn(self, seat: int, is_within: bool = False) -> None:
        queue = self._first(seat)
        job, future = queue[0].job, queue[0].answer
        began = self._clock()
        try:
            if future.cancelled():
                result: object = MORE
            elif self._is_short(seat):
                result = await (job() if is_within else self._do_job(job))
            else:
                result = await self._run_beside_short_jobs(job)
        except Exception as fault:  # pylint: disable=broad-except
            if not future.done():
                future.set_exception(fault)
            else:
                logging.exception("a job that nobody waits for failed")
            result = None
        now = self._clock()
        self._number += 1
        self._uses[seat].add(now - began, now, self._number)
        if isinstance(result, More):
            await asyncio.sleep(0)  # a piece may not have waited for anything, but new jobs must be able to arrive
        if not isinstance(result, More) or future.cancelled():
            queue.popleft()
            if not future.done():
                future.set_result(result)
        if self._first(seat):
            self._turn.append(seat)
