"""Test a fault at each call to the disk, each line of the program and each message, in turn, while people put, undo, share and
take, others' changes arrive and the journal is compacted. What was confirmed is there, the server announces nothing else, and
nothing hangs. The gate tries some of the faults, `live/test --all` each.
"""
from __future__ import annotations

import asyncio
import contextlib
import errno
import logging
import os
import random
import signal
from pathlib import Path
from typing import Any, Coroutine, Iterable
from unittest import mock

from faulty import Bus, Disk, Here, Message, soon
from running import ALL, Case, new_folder
from server.model.operations import Stamp
from server.base.refusals import Refused
from server.base.journal_lines import read_entries
from server.program.program import Program
from server.journal.state import State

FEW = 7  # the gate tries one of this many faults: odd, so that both kinds of fault occur
LINES = ("killed before", "killed after", "stopped")


def each(of: Iterable[Any]) -> list[Any]:
    """Return all cases, or a fixed sample of them in the gate."""
    return [one for place, one in enumerate(of) if ALL or place % FEW == FEW // 2]


class Story:
    """Two sites, a fixed series of acts, and a record of what was confirmed, refused and announced."""

    def __init__(self, disk: Disk | None = None) -> None:
        self.disk = disk or Disk()
        self.disk.folder = new_folder()
        self.disk.after = self._changed
        self.durable = b""  # the part of the journal that is durable on the disk
        self.confirmed: list[tuple[Any, ...]] = []
        self.refused: list[str] = []
        self.told: list[Stamp] = []  # the stamps of its operations that the server announced to others
        self.untrue: list[str] = []

    @property
    def journal(self) -> Path:
        assert self.disk.folder is not None
        return self.disk.folder / "journal.jsonl"

    def _changed(self, name: str, _given: Any) -> None:
        if name == "fsync" and self.journal.exists():
            self.durable = self.journal.read_bytes()

    async def __aenter__(self) -> Story:
        self._all = contextlib.AsyncExitStack()
        self._all.enter_context(self.disk)
        self.here = await self._all.enter_async_context(Here(self.disk.folder))
        self.there = await self._all.enter_async_context(Here())
        self.bus = Bus()
        self.site, self.other = self.bus.site(self.here), self.bus.site(self.there)
        self.bus.hears = self._hears
        self.ada, self.ben, self.cleo = await self.here.join("Ada", "Ben", "Cleo")
        await self.there.join("Sam")
        self.here.keeper.listeners.shared.on(lambda touched: self._look())
        self.disk.calls.clear()
        return self

    async def __aexit__(self, *fault: Any) -> None:
        await self._all.__aexit__(*fault)

    # What the server announces to others

    def _hears(self, message: Message) -> None:
        for stamp in stamps_in(message):
            self._tells(stamp)

    def _look(self) -> None:
        """Note what the server announces to Cleo, who takes no changes."""
        for change in self.here.lab.unseen_shares(self.cleo, 1_000)["changes"]:
            self._tells(change["stamp"])

    def _tells(self, stamp: Stamp) -> None:
        if any(one.stamp == stamp for one in self.there.lab.state.makers):
            return
        self.told.append(stamp)
        if f'"stamp":[{stamp[0]},"{stamp[1]}"]'.encode() not in self.durable:
            self.untrue.append(f"{stamp} was announced before it was on the disk")

    # What is done

    async def act(self, name: str, act: Coroutine[Any, Any, Any]) -> Any:
        try:
            result = await soon(act)
        except Refused as fault:
            self.refused.append(f"{name}: {fault.text}")
            return None
        self.confirmed.append((name, result))
        return result

    async def put(self, seat: int, step: int) -> Any:
        return await self.act(f"put {seat} {step}", self.here.put(seat, ["limit", seat, step, step % 7], key=f"k{step}"))

    async def undo(self, seat: int, stamp: Any) -> None:
        if stamp is not None:
            await self.act(f"undo {seat}", self.here.ask(seat, "undo", key=f"u{stamp[0]}", stamp=list(stamp)))

    async def share(self, seat: int) -> None:
        await self.act(f"share {seat}", self.here.share(seat))

    async def take(self, seat: int) -> None:
        await self.act(f"take {seat}", self.here.take(seat))

    async def from_there(self, step: int) -> None:
        """Let Sam share a change, and wait until it arrives."""
        await self.there.put(1, ["limit", 5, step, 2])
        await self.there.share(1)
        await soon(self.bus.carry())

    async def tell(self) -> None:
        """Deliver everything that is waiting."""
        await asyncio.sleep(0)
        self._look()
        await soon(self.bus.carry())

    async def runs(self) -> None:
        await self.put(self.ada, 10)
        second = await self.put(self.ada, 20)
        await self.put(self.ben, 30)
        await self.undo(self.ada, second)
        await self.share(self.ada)
        await self.tell()
        await self.take(self.ben)
        await self.from_there(10)
        await self.take(self.ada)
        await asyncio.gather(self.put(self.ada, 40), self.put(self.ben, 50), self.share(self.ben), self.put(self.ada, 60),
                             self.share(self.ada), self.from_there(20), self.take(self.ben))
        await soon(self.here.keeper.compact())
        await self.put(self.ben, 70)
        await self.share(self.ben)
        await self.act("clock", self.here.lab.road_clock.set_clock(to=100))
        await self.tell()
        await self.take(self.ada)

    async def ends(self) -> None:
        """Without faults, exchange until both sites hold all that was shared."""
        await soon(self.here.keeper.wait_until_writable())
        for number in range(12):
            self.site._sent.clear()
            self.other._sent.clear()
            self.site._pauses.clear()
            self.other._pauses.clear()
            await soon(self.bus.rounds())
            if number > 2 and shared(self.here.keeper.state) == shared(self.there.keeper.state):
                return

    def faults(self, state: State, confirmed: list[tuple[Any, ...]], told: list[Stamp]) -> list[str]:
        """Return the operations that were confirmed or announced, and that a state does not have."""
        lacking = [f"{name} is not there" for name, result in confirmed if not is_there(state, name, result)]
        known = shared(state)
        return lacking + [f"{stamp} was announced, and is not there" for stamp in told if stamp not in known]


def is_there(state: State, name: str, result: Any) -> bool:
    verb, *words = name.split()
    held = {one.stamp for one in state.seats[int(words[0])].places} if words else set()
    if verb in ("put", "undo"):
        stamp = result if verb == "put" else result["stamp"]
        return tuple(stamp) in held
    if verb == "share":
        return set(map(tuple, result["stamps"])) <= shared(state)
    if verb == "take":
        return {tuple(one["stamp"]) for one in result["changes"]} <= held
    return state.now >= 100


def shared(state: State) -> set[Stamp]:
    return {one.stamp for one in state.shared.places}


def stamps_in(message: Message) -> list[Stamp]:
    """Return the stamps of a message with operations."""
    import json
    value = json.loads(message.payload.partition(b"\n")[2])
    return [(count, name) for count, name in (one["stamp"] for one in value.get("operations", []))]


def replayed(path: Path) -> State:
    state = State()
    for entry in read_entries(path)[0]:
        state.read(entry)
    return state


class Faults(Case):
    def setUp(self) -> None:
        logging.disable(logging.CRITICAL)
        self.addCleanup(logging.disable, logging.NOTSET)

    async def whole(self) -> Story:
        """Run the story without a fault, and check that all is confirmed."""
        async with Story() as story:
            await story.runs()
            await story.ends()
        self.assertEqual((story.refused, story.untrue), ([], []))
        self.assertEqual(shared(story.here.keeper.state), shared(story.there.keeper.state))
        return story

    def look(self, story: Story, what: str, may_refuse: bool) -> None:
        """Check that what was confirmed is there, that what was announced was on the disk, and that the sites agree. Then check
        the same for a state that is read from the disk."""
        for state in (story.here.keeper.state, replayed(story.journal)):
            self.assertEqual(story.faults(state, story.confirmed, story.told), [], what)
            done = sum(len(seat.done) for seat in state.seats[1:])
            self.assertEqual(done, sum(name.startswith(("put", "undo")) for name, _ in story.confirmed), what)
        self.assertEqual(story.untrue, [], what)
        self.assertEqual(shared(story.here.keeper.state), shared(story.there.keeper.state), what)
        if not may_refuse:
            self.assertEqual(story.refused, [], what)

    async def test_at_each_call_to_the_disk_once_and_for_good(self) -> None:
        calls = len((await self.whole()).disk.calls)
        self.assertGreater(calls, 30)
        ways = [(number, lasting, fault) for number in range(1, calls + 1)
                for lasting, fault in ((False, errno.EIO), (True, errno.ENOSPC))]
        some, refused = each(ways), 0
        for number, lasting, fault in some:
            async with Story() as story:
                story.disk.fault = lambda call, name: fault if call == number or lasting and call > number else None
                await story.runs()
                refused += bool(story.refused)
                story.disk.fault = lambda *_: None
                await story.ends()
                self.look(story, f"call {number} and {'all later' if lasting else 'no other'}", True)
        self.assertGreater(refused, len(some) // 3)

    async def test_power_failure_at_each_call_to_the_disk(self) -> None:
        """After a power failure the disk has its durable part, and any part of the rest, or zeros in its place."""
        moments: list[tuple[bytes, bytes, list[Any], list[Any]]] = []
        async with Story() as story:
            def moment(name: str, given: Any) -> None:
                is_more = name == "write" and os.readlink(f"/proc/self/fd/{given[0]}") == str(story.journal)
                there = story.journal.read_bytes() + (bytes(given[1]) if is_more else b"")
                moments.append((story.durable, there, [*story.confirmed], [*story.told]))
            story.disk.before = moment
            await story.runs()
        chance, path = random.Random(1), new_folder() / "journal.jsonl"
        for durable, there, confirmed, told in moments:
            rest = there[len(durable):] if there.startswith(durable) else b""  # otherwise another one has replaced it
            cut = chance.randrange(len(rest) + 1)
            tails = {b"", rest, rest[:cut], rest[:cut] + bytes(len(rest) - cut), bytes(cut) + rest[cut:]}
            for data in {there, *(durable + tail for tail in tails)}:
                path.write_bytes(data)
                self.assertEqual(story.faults(replayed(path), confirmed, told), [], data[len(durable):])

    async def test_at_each_line_of_the_program(self) -> None:
        lines = 0
        ask_all = Program.ask_all

        async def counted(program: Program, asked: list[bytes]) -> list[bytes]:
            nonlocal lines
            lines += 1
            return await ask_all(program, asked)
        with mock.patch.object(Program, "ask_all", counted):
            await self.whole()
        for number, way in each((number, way) for number in range(1, lines + 1) for way in LINES):
            async with Story() as story:
                with mock.patch.object(Program, "ask_all", ends_at(number, way)), mock.patch("server.program.program.IDLE_PATIENCE", 0.4):
                    await story.runs()
                await story.ends()
                self.look(story, f"line {number}, {way}", False)

    async def test_at_each_message(self) -> None:
        count = len((await self.whole()).bus.seen)
        for number, way in each((number, way) for number in range(count) for way in ("lost", "twice", "late")):
            async with Story() as story:
                story.bus.way = number, way
                await story.runs()
                await story.ends()
                self.look(story, f"message {number}, {way}", False)

    async def test_at_each_call_to_the_disk_of_a_new_folder(self) -> None:
        """A folder whose creation failed can be created again."""
        with Disk() as disk:
            async with Here():
                calls = len(disk.calls)
            for number in range(1, calls + 1):
                folder, disk.calls[:] = new_folder(), []
                disk.fault = lambda call, name: errno.EIO if call == number else None
                with contextlib.suppress(OSError, Refused, Exception):
                    async with Here(folder):
                        pass
                disk.fault = lambda *_: None
                async with Here(folder) as here:
                    await here.join("Ada")
                    await here.put(1, ["limit", 2, 50, 3])


def ends_at(number: int, way: str) -> Any:
    """Return a replacement of `Program.ask_all`, in which the program ends, or hangs, at the line of this number."""
    ask_all, count = Program.ask_all, 0

    async def asked(program: Program, lines: list[bytes]) -> list[bytes]:
        nonlocal count
        count += 1
        if count != number:
            return await ask_all(program, lines)
        if way == "killed after":
            asyncio.get_running_loop().call_later(0.001, program.kill)
        else:
            os.kill(program._process.pid, signal.SIGKILL if way == "killed before" else signal.SIGSTOP)
        return await ask_all(program, lines)
    return asked
