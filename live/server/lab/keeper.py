"""Keep a journal, and a program that simulates the roads that the journal says.

The journal decides what the roads are, so the program can be replaced at any time: if it exits, if it has read almost as many lines
as it can, or if a write fails after it got the edits. A replica of the program gets its missing edits and steps when it is next
asked, one piece at a time.
"""
from __future__ import annotations

import asyncio
import contextlib
import hashlib
import json
import logging
import time
from pathlib import Path
from typing import TYPE_CHECKING, Awaitable, Callable, Iterable, Mapping, TypeVar, Union

from zegdrut.program.grammar import LAST_HORIZON

from ..base.journal_lines import JOURNAL, JOURNAL_FORM, CannotStart, CorruptJournal, Entries, JournalLine
from ..base.json_values import Json, to_json
from ..base.listeners import Listeners
from ..base.refusals import Refused, program_crashed
from ..base.settings import Settings
from ..base.supervised import supervise
from ..journal.entries import Clock, Entry, Folder, Forgetting, OwnOperation, read_plan_line, write_entry
from ..journal.journal import Journal, NotWritten, explain_fault
from ..journal.naming import Counter, new_site
from ..journal.state import NO_PLAN, State
from ..model.reading import Malformed
from ..model.road import Road
from ..program.program import ProgramExited, Program, Times, command_of, start
from ..program.simulated_roads import Differences, SimulatedRoads
from ..program.turns import MORE, Job, More, Turns

if TYPE_CHECKING:
    from .new_road import NewRoad

MOST_UNDOABLE = 20  # newest private operations of a seat, which are never forgotten
LONGEST_DISK_PAUSE = 60.0  # seconds between two tries of a disk that refuses writes
STALLS = 5.0  # seconds without an answer of the disk after which the page says so
A_MOMENT = 1.0  # seconds that a try of the disk may keep others waiting
SHARED = 0
T = TypeVar("T")


class NotKept(Refused):
    """The refusal of a change that could not be written to the disk."""

    def __init__(self, fault: object) -> None:
        super().__init__("NotWritten", f"the change was not saved, so it was not made: {fault}. Try again later")


async def do_nothing() -> None:
    """Do nothing. As a job, it only waits for its turn."""


async def wait_until_written(done: Awaitable[None], times: Times) -> None:
    """Wait until an entry is on the disk, and add the seconds to `times`. Raise `Refused` if the write fails. If the caller is cancelled,
    the write goes on."""
    began = time.perf_counter()
    try:
        await asyncio.shield(done)
    except NotWritten as fault:
        raise NotKept(fault) from None
    times["sync"] = times.get("sync", 0) + time.perf_counter() - began


class Keeper:
    """A folder's journal, the state that it describes, and a program that simulates it."""

    def __init__(self, folder: Path, program: str, settings: Settings) -> None:
        self.folder, self.path, self.settings = folder, program, settings
        self.counter = Counter(settings.milliseconds)
        self.state = State(self.counter, time.time_ns() // 1_000)
        self.target_steps: dict[int, int] = {}  # by replica: the step up to which it shall be simulated
        self.connected: set[int] = set()  # seats with a tab
        self.turns = Turns(self._with_program, may_be_within=lambda: self.journal.failures == self._forgotten)
        self.replacements = 0  # how often the program was replaced
        self.why_replaced: str | None = None  # why it was replaced, for people; None if that was planned
        self.undo_count = 0  # operations that were undone or withdrawn since the oldest were forgotten
        self._trouble: str | None = None
        self._is_stalled = False
        self._try: asyncio.Future[str | None] | None = None  # the last try of a disk that refused writes
        self.confirmed = 0  # how many of the shared operations are on the disk; nobody is shown the others
        self._forgotten = 0  # the number of failed writes after which the state was read again from the disk
        self.clock_started = time.monotonic()
        self._unapplied: dict[asyncio.Future[None], Entry] = {}  # written entries that take effect once they are on the disk
        self.differences = Differences()
        self._simulated: SimulatedRoads | None = None
        self._next: asyncio.Future[SimulatedRoads] | None = None
        self.tasks: list[asyncio.Task[None]] = []
        self.listeners = Listeners()

    # Start

    async def open(self, read_road: Callable[[], NewRoad], site: str | None) -> bool:
        """Read the journal, or begin one with this road and a new site, which has the name `site` if that is given. Start the program.
        Return whether the journal is new. Raise `CannotStart` if the journal cannot be read. If the program refuses the plan, the folder
        is left as it was."""
        path = self.folder / JOURNAL
        entries = Entries(path)
        self.state, is_new = self._read(entries)
        self.confirmed = self.state.shared.size
        if not is_new and site is not None and self.state.site.rpartition("-")[0] != site:
            raise CannotStart(f"{self.folder} belongs to site {self.state.site} for ever: start it without --site, or use a new folder")
        if is_new:
            own, road = new_site(site), read_road()
            first: dict[str, Json] = {**road.plan, "replicas": [self.state.replica(seat.index).at for seat in self.state.seats]}
            # A program must accept the plan before it is written to the journal.
            await (await start(command_of(self.path, first), to_json(first).encode())).close()
        self.journal = Journal(path, entries.size)
        if is_new:
            await self.record(Folder(JOURNAL_FORM, read_plan_line(first), own, road.origin, road.lead))
        self.clock_started = time.monotonic()
        self._forget()
        self._simulated = await self._start()
        self.supervise("the answers to tabs", self.turns.run)
        self.supervise("the watch over the disk", self._watch_disk)
        self.supervise("the task that shortens the journal", self.shorten_journal)
        return is_new

    def supervise(self, what: str, run: Callable[[], Awaitable[object]]) -> None:
        """Run a task until the server is closed. If it ends, tell people, and start it again."""
        self.tasks.append(supervise(what, run, self.listeners.ended.notify))

    async def compact(self) -> None:
        """Shorten the journal: write the present state, with each operation once."""
        for seat in self.state.seats[1:]:
            self.state.forget_keys(seat)
            await asyncio.sleep(0)
        await self.journal.compact(lambda: (self._written(entry) for entry in (*self.state.entries(), *self._unapplied.values())))

    async def shorten_journal(self) -> None:
        """Shorten the journal whenever it is too long; never return."""
        size = self.settings.most_journal
        while True:
            await asyncio.sleep(1)
            if self.journal.size > size:
                await self.compact()
                size = max(self.settings.most_journal, 2 * self.journal.size)

    def _written(self, entry: Entry) -> JournalLine:
        return write_entry(entry, self.state.site)

    def _read(self, entries: Iterable[JournalLine]) -> tuple[State, bool]:
        """Replay journal entries. Return the resulting state, and whether the journal is empty."""
        number = 0
        state = State(self.counter, time.time_ns() // 1_000)
        for number, entry in enumerate(entries, 1):
            try:
                state.read(entry)
            except Malformed as fault:
                raise CorruptJournal(self.folder / JOURNAL, number, str(fault)) from None
        if number and state.plan is NO_PLAN:
            raise CorruptJournal(self.folder / JOURNAL, 1, "has no plan")
        state.shared.prepare()
        return state, number == 0

    async def close(self) -> None:
        """End the program and close the journal. All that was confirmed is on the disk."""
        for task in self.tasks:
            task.cancel()
        if self._simulated is not None:
            self.program.kill()
        self.cancel_successor()
        if hasattr(self, "journal"):
            await self.journal.close()

    def record(self, entry: Entry) -> asyncio.Future[None]:
        """Apply an entry to the state at once, and write it. The future is done when the entry is on the disk."""
        self._check_disk()
        entry.apply(self.state)
        if isinstance(entry, OwnOperation):
            operation = entry.operation
            self.undo_count += operation.undoes is not None or operation.withdraws
        upto = self.state.shared.size

        def confirm() -> None:
            self.confirmed = max(self.confirmed, upto)
        done = self.journal.write(self._written(entry), confirm)
        done.add_done_callback(self._is_written)
        return done

    def apply_when_written(self, entry: Entry, then: Callable[[], None]) -> asyncio.Future[None]:
        """Write an entry, and apply it to the state once it is on the disk; then the future is done."""
        def apply() -> None:
            self._unapplied.pop(done)
            entry.apply(self.state)
            then()
        self._check_disk()
        done = self.journal.write(self._written(entry), apply)
        self._unapplied[done] = entry
        done.add_done_callback(self._is_written)
        return done

    def _is_written(self, done: asyncio.Future[None]) -> None:
        self._unapplied.pop(done, None)
        if not done.cancelled() and done.exception() is not None:
            self.turns.ask(SHARED, do_nothing)  # before this job the state is read again from the disk

    # The disk

    @property
    def trouble(self) -> str | None:
        """Return a sentence that says what is wrong with the disk or the journal; None if nothing is."""
        if self._trouble is None and self._is_stalled:
            return (f"the disk has not answered for {STALLS:g} seconds: new changes are pending until it does; confirmed changes "
                    f"can still be viewed")
        return self._trouble

    async def _watch_disk(self) -> None:
        """Report when the disk has not answered for some seconds, and when it answers again. It may never answer."""
        while True:
            await asyncio.sleep(STALLS / 10)
            if self.journal.has_waited(STALLS) != self._is_stalled:
                self._is_stalled = not self._is_stalled
                logging.warning("the disk %s", "does not answer" if self._is_stalled else "answers again")
                self.listeners.trouble.notify()

    def _check_disk(self) -> None:
        if self.journal.fault is not None:
            raise NotKept(self.journal.fault)

    async def require_writable(self) -> None:
        """Try the disk again if it refused the last write. Raise `Refused` if it still refuses. A job calls this before it writes."""
        if self.journal.fault is None:
            return
        if self.journal.failures != self._forgotten:
            raise NotKept(self.journal.fault)
        if self._try is None or self._try.done():
            self._try = asyncio.ensure_future(self._try_disk())
        elif self.journal.has_waited(A_MOMENT):
            raise NotKept("the disk does not answer")
        if not (await asyncio.wait([self._try], timeout=A_MOMENT))[0]:
            raise NotKept("the disk does not answer")
        fault = self._try.result()
        if fault is not None:
            raise NotKept(fault)

    async def _try_disk(self) -> str | None:
        """Try the disk. Return why it refuses writes, or None if it accepts them. This may never return."""
        try:
            await self.journal.probe_disk(self._written(self.clock()))
        except OSError as fault:
            return explain_fault(fault)
        self._trouble = None
        self.listeners.trouble.notify()
        return None

    async def wait_until_writable(self) -> None:
        """While the disk refuses writes, try it again after growing pauses."""
        pause = 1.0
        while self.journal.fault is not None:
            with contextlib.suppress(Refused):
                await self.turns.ask(SHARED, self.require_writable)
                return
            await asyncio.sleep(pause)
            pause = min(LONGEST_DISK_PAUSE, 2 * pause)

    def clock(self) -> Clock:
        """Return the clock: the present step, the steps per second, and the step at which a fast clock stops."""
        return Clock(self.state.rate, self.now(), self.state.stop)

    async def _start_over(self) -> None:
        """After a failed write, return to the confirmed state, and replace the program. This is done once for each failure. From then on
        all that was confirmed can be viewed, whether or not the disk accepts writes."""
        failures = self.journal.failures
        logging.error("%s: returning to the state on the disk", self.journal.fault)
        self._trouble = self.journal.fault
        self.listeners.trouble.notify()
        try:
            state, _ = await asyncio.to_thread(lambda: self._read(self.journal.read_confirmed()))
        except (OSError, CannotStart) as fault:
            raise NotKept(f"the journal cannot be read ({fault})") from None
        clock, self.state, self.confirmed = self.clock(), state, state.shared.size
        clock.apply(self.state)
        self.clock_started = time.monotonic()
        await self.replace()
        self._forgotten = failures
        self.listeners.shared.notify(0)
        self.listeners.seats.notify()

    @property
    def reference(self) -> str:
        """Return a hash of the plan and seed, without the names of replicas, and of an approach. Sites with the same hash have the same
        road, km and times."""
        units = self.state.units
        approach = {"origin": units.origin, "lead": units.begin} if units.origin else {}
        return hashlib.sha256(json.dumps({**self.state.plan, **approach, "replicas": 0}, sort_keys=True).encode()).hexdigest()[:16]

    # The program

    async def _start(self) -> SimulatedRoads:
        """Start a program, whose replicas all have the road of the plan."""
        program = await start(command_of(self.path, self.state.plan), to_json(self.state.plan).encode())
        return SimulatedRoads(program, self.state.empty)

    @property
    def simulated(self) -> SimulatedRoads:
        assert self._simulated is not None
        return self._simulated

    @property
    def program(self) -> Program:
        return self.simulated.program

    async def _with_program(self, job: Callable[[], Awaitable[T]]) -> T:
        """Do a job with a program that runs and has no edits that failed to be written. Replace a program that exits, once."""
        try:
            for _ in range(2):
                if self.journal.failures != self._forgotten:
                    await self._start_over()
                self._replace_in_time()
                try:
                    return await job()
                except ProgramExited as fault:
                    logging.warning("%s: starting a new one", fault)
                    await self.replace(str(fault))
        except ProgramExited as fault:
            logging.error("%s", fault)
        raise program_crashed()

    async def replace(self, why: str | None = None) -> None:
        """Replace the program. The replicas of the new one get their roads when they are next asked."""
        self.cancel_successor()
        self.why_replaced = why
        old, self._simulated = self._simulated, await self._start()
        self.replacements += 1
        if old is not None:
            old.program.kill()
        self.listeners.program.notify()

    def _forget(self) -> None:
        """Forget private operations that have no effect any more, except the newest. No road differs without them. If the disk refuses
        writes, forget none."""
        self.undo_count = 0
        for seat in self.state.seats[1:] if self.journal.fault is None else ():
            stamps = self.state.forgettable(seat, MOST_UNDOABLE)
            if stamps:
                self.record(Forgetting(seat.index, stamps))

    def cancel_successor(self) -> None:
        if self._next is not None:
            self._next.cancel()
            self._next = None

    def _replace_in_time(self) -> None:
        """Start a successor of the program in the background if the program is near its limit of lines, or holds many edits without an
        effect. Switch to the successor once it has simulated as far as the program."""
        if self._next is not None and self._next.done():
            successor, self._next = self._next, None
            if successor.exception() is None:
                asyncio.ensure_future(self.program.close())
                self._simulated, self.replacements, self.why_replaced = successor.result(), self.replacements + 1, None
                self.listeners.program.notify()
            else:
                logging.warning("a new program, which is to replace the present one, could not be started: %s", successor.exception())
        settings = self.settings
        is_due = (self.program.lines >= settings.most_lines or self.undo_count >= settings.most_undone
                   or self.simulated.withdrawn >= settings.most_withdrawn)
        if self._next is None and is_due:
            self._forget()
            self._next = asyncio.ensure_future(self._start_successor())

    async def _start_successor(self) -> SimulatedRoads:
        simulated = await self._start()
        try:
            for index in (SHARED, *self.connected):
                while not await self._run_to_target(simulated, index):
                    pass
        except BaseException:
            simulated.program.kill()
            raise
        return simulated

    def road(self, index: int) -> Road:
        """Return the road that a replica of the program shall simulate. The shared one has the operations that are on the disk."""
        return self.state.shared.upto(self.confirmed) if index == SHARED else self.state.seats[index].road

    async def _run_to_target(self, simulated: SimulatedRoads, index: int) -> bool:
        """Send a replica its missing edits, or simulate some of its missing steps. Return whether nothing is missing any more."""
        at, road, shown = self.state.replica(index).at, self.road(index), simulated.shown(index)
        if shown is not road:
            await simulated.show(index, at, road, await self.differences.between(shown, road))
            return False
        to = self.target_steps.get(index, 0)
        return simulated.program.horizons.get(at, 0) >= to or await simulated.program.advance(at, to) >= to

    def ask(self, turn: int, replicas: tuple[int, ...], body: Job[T], at_leisure: bool = False,
            takes_long: bool | None = None) -> asyncio.Future[T]:
        """Do a job in the turn of a seat, when these replicas have their edits and steps. If a write fails before the job has ended,
        raise `NotKept`, since the job may have seen a state that no longer exists."""
        async def job() -> Union[T, More]:
            failures.add(self.journal.failures)
            if len(failures) > 1:
                raise NotKept(self.journal.fault or "the disk did not accept it")
            for index in replicas:
                if not await self._run_to_target(self.simulated, index):
                    return MORE
            return await body()
        failures: set[int] = set()
        return self.turns.ask(turn, job, at_leisure, takes_long)

    async def read_committed(self, look: Callable[[], Awaitable[T]], may_see: str = "all") -> T:
        """Return the result of `look` once all that it may have seen is on the disk. `may_see` says what it may have seen that is not yet
        there: "nothing", what was "shared", or "all". If a write fails, look again."""
        while True:
            failures = self._forgotten  # not the journal's count, since a state that is about to be discarded may still be seen
            try:
                found = await look()
                if may_see == "all" or may_see == "shared" and self.confirmed < self.state.shared.size:
                    await self.journal.wait_until_written()
            except (NotKept, NotWritten):
                if failures == self._forgotten == self.journal.failures:
                    raise
            else:
                if failures == self._forgotten == self.journal.failures:
                    return found
            await self.turns.ask(SHARED, do_nothing)

    def now(self) -> int:
        """Return the step at which the road's clock is."""
        last = LAST_HORIZON if self.state.stop is None else self.state.stop
        return min(last, self.state.now + int(self.state.rate * (time.monotonic() - self.clock_started)))
