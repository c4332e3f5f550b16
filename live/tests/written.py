"""Test that everything that was confirmed is on the disk, and that the server announces nothing else, whatever the disk does."""
from __future__ import annotations

import asyncio
import contextlib
import errno
import json
import multiprocessing
import threading
import time
from typing import Any, Coroutine, Iterator
from unittest import mock

from faulty import Bus, Disk, Here, soon
from figures_told import means, mine, of_side
from running import Case, until
from server.figures import comparison
from server.figures.child import Child
from server.base.refusals import Refused
from server.journal.entries import SeatUse
from server.journal.journal import Journal
from server.model.operations import About, Operation, Shape, put
from server.program.program import ProgramExited, Program
from server.base.settings import Settings
from server.journal.naming import Counter
from server.program.turns import MORE

LIMIT = ["limit", 2, 50]


class Written(Case):
    async def asyncSetUp(self) -> None:
        self.disk = self.enterContext(Disk())
        self.here = await self.enterAsyncContext(Here())
        self.ada, self.ben = await self.here.join("Ada", "Ben")

    async def start(self, act: Coroutine[Any, Any, Any]) -> asyncio.Task[Any]:
        """Start an act, and wait until it waits for nothing but the disk. Return its task."""
        self.disk.is_asked.clear()
        self.disk.free.clear()
        task = asyncio.create_task(act)
        await soon(asyncio.to_thread(self.disk.is_asked.wait))
        for _ in range(20):
            await asyncio.sleep(0.01)
        self.assertFalse(task.done())
        return task

    def release_disk(self, fault: int | None = None) -> None:
        """Let the disk do what it was asked to do, or let it fail."""
        self.disk.fault = lambda _, name: fault if name == "write" else None
        self.disk.free.set()

    async def refused(self, done: Any) -> str:
        with self.assertRaises(Refused) as caught:
            await soon(done)
        return caught.exception.text

    async def test_a_resent_gesture_gets_the_answer_of_its_first_write(self) -> None:
        for key, fault in (("a", None), ("b", errno.EIO)):
            first = await self.start(self.here.put(self.ada, [*LIMIT, 3], key=key))
            again = asyncio.create_task(self.here.put(self.ada, [*LIMIT, 3], key=key))
            await asyncio.sleep(0.2)
            self.assertFalse(again.done())
            self.release_disk(fault)
            if fault:
                self.assertEqual([await self.refused(one) for one in (first, again)], ["NotWritten"] * 2)
            else:
                self.assertEqual(await soon(first), await soon(again))
        self.release_disk()
        stamp = await self.here.put(self.ada, [*LIMIT, 3], key="b")
        self.assertEqual(stamp, await self.here.put(self.ada, [*LIMIT, 3], key="b"))
        self.assertEqual([one["made"]["key"] for one in self.here.entries() if "made" in one], ["a", "b"])

    async def test_a_take_and_a_share_end_if_a_write_fails_meanwhile(self) -> None:
        await self.here.put(self.ada, [*LIMIT, 3])
        share = await self.start(self.here.share(self.ada))
        take = asyncio.create_task(self.here.take(self.ben))
        await asyncio.sleep(0.1)
        self.release_disk(errno.EIO)
        self.assertEqual(await self.refused(share), "NotWritten")
        self.assertEqual((await soon(take))["size"], 0)
        self.release_disk()
        await self.here.share(self.ada)
        take = await self.start(self.here.take(self.ben))
        self.release_disk(errno.EIO)
        self.assertEqual(await self.refused(take), "NotWritten")
        self.release_disk()
        self.assertEqual((await soon(self.here.take(self.ben)))["size"], 1)

    async def test_work_in_pieces_ends_if_a_write_fails(self) -> None:
        """Each piece may depend on a change that is then forgotten."""
        keeper, rounds = self.here.keeper, 0

        async def piece() -> Any:
            nonlocal rounds
            rounds += 1
            if rounds == 2:
                self.release_disk(errno.EIO)
                await asyncio.wait([keeper.record(SeatUse(1, 0))])
            return MORE
        self.assertEqual(await self.refused(keeper.ask(self.ben, (), piece)), "NotWritten")
        self.assertEqual(rounds, 2)

    async def test_nothing_is_written_after_what_the_disk_refused(self) -> None:
        """A job during which a write fails may depend on that write, so it is refused, even if the disk accepts later writes."""
        keeper = self.here.keeper

        async def body() -> None:
            self.release_disk(errno.EIO)
            await asyncio.wait([keeper.record(SeatUse(1, 0))])
            self.release_disk()
            await keeper.require_writable()
        self.assertEqual(await self.refused(keeper.ask(self.ben, (), body)), "NotWritten")
        await self.here.put(self.ben, [*LIMIT, 3])

    async def test_a_change_on_the_disk_was_done_even_if_another_write_fails(self) -> None:
        """The program gets the rest of the change later, with another write."""
        keeper, is_free = self.here.keeper, asyncio.Event()
        ask_all = Program.ask_all

        async def held_up(program: Program, lines: list[bytes]) -> list[bytes]:
            if lines[0].startswith(b'{"import":{"at":"shared"'):
                await is_free.wait()
            return await ask_all(program, lines)
        for step in (50, 60, 70):
            await self.here.put(self.ada, ["limit", 2, step, step % 9])
        with mock.patch.object(Program, "ask_all", held_up), mock.patch("server.program.program.IMPORT_EDITS", 1):
            share = asyncio.create_task(self.here.share(self.ada))

            async def is_kept() -> bool:
                return any("share" in one for one in self.here.entries())
            await until(is_kept, "the share is on the disk")
            self.release_disk(errno.EIO)
            await asyncio.wait([keeper.record(SeatUse(self.ben, 0))])
            is_free.set()
            self.assertEqual(len((await soon(share))["stamps"]), 3)
        self.release_disk()
        self.assertEqual((await self.here.take(self.ben))["size"], 3)

    async def test_a_change_on_the_disk_was_done_even_without_a_program(self) -> None:
        """The program has ended, and none can be started for a while. The next one gets the change."""
        async def none(*_: Any) -> Program:
            raise ProgramExited("the program cannot be started")
        await self.here.put(self.ben, ["limit", 1, 50, 4])
        for act in (self.here.put(self.ada, [*LIMIT, 3]), self.here.share(self.ben), self.here.take(self.ada)):
            for seat, at in ((self.ada, "seat1"), (self.ben, "seat2"), (self.ben, "shared")):  # which hold this so far
                await self.here.ask(seat, "scenario", at=at)
            self.here.keeper.program.kill()
            with mock.patch("server.lab.keeper.start", none):
                await soon(act)
                self.assertEqual(await self.refused(self.here.ask(self.ben, "scenario", at="shared")), "NoProgram")
        self.assertEqual([next(iter(one)) for one in self.here.entries()][-3:], ["made", "share", "take"])
        self.assertEqual(self.here.heard[-1:], [50])
        self.assertEqual((await self.edits(self.ben), len((await self.here.ask(self.ada, "scenario"))["edits"])), (1, 2))

    async def test_nobody_is_told_of_a_change_before_it_is_on_the_disk(self) -> None:
        lab, keeper = self.here.lab, self.here.keeper
        cleo, = await self.here.join("Cleo")
        await self.here.put(self.ada, [*LIMIT, 3])
        await self.here.put(self.ben, ["limit", 1, 50, 4])
        await self.here.share(self.ben)
        for fault, edits in ((errno.EIO, 1), (None, 2)):
            self.release_disk()
            await keeper.wait_until_writable()
            self.here.heard.clear()
            share = await self.start(self.here.share(self.ada))
            questions: list[tuple[str, dict[str, Any]]] = [("layers", {}), ("operations", {}), ("transcript", {"from": 0, "to": 0})]
            looks = [asyncio.create_task(self.here.ask(cleo, verb, at="shared", **more)) for verb, more in questions]
            self.assertEqual((lab.unseen_shares(cleo, 9)["size"], lab.unseen_shares(cleo, 9)["shares"][1:]), (1, []))
            first = asyncio.create_task(self.first(cleo))
            self.assertEqual(await self.edits(cleo), 1)  # questions about the road are answered with what is on the disk
            await asyncio.sleep(0.2)
            self.assertEqual([look for look in (*looks, first) if look.done()], [])
            self.assertEqual(self.here.heard, [])
            self.release_disk(fault)
            layers, gestures, transcript = [await soon(look) for look in looks]
            self.assertEqual([len(layers["layers"]), len(gestures["operations"]), transcript["lines"].count('["limit",')],
                             [edits] * 3)
            if fault:
                self.assertEqual(await self.refused(share), "NotWritten")
            else:
                await soon(share)
            self.assertEqual((lab.unseen_shares(cleo, 9)["size"], (await soon(first))["size"], await self.edits(cleo)), (edits,) * 3)

    async def test_a_tab_that_leaves_while_it_gets_a_seat_harms_nobody(self) -> None:
        """Other tabs that wait for the same write are answered, and the seat can be taken over."""
        join = await self.start(self.here.lab.seating.join("Cleo", "", None))
        looks = [asyncio.create_task(self.here.lab.seating.list_saved_seats(turn)) for turn in (self.ben, None)]
        await asyncio.sleep(0.1)
        join.cancel()
        looks.append(asyncio.create_task(self.here.lab.seating.list_saved_seats()))
        await asyncio.sleep(0.1)
        self.release_disk()
        for look in looks:
            self.assertEqual([one["name"] for one in await soon(look)][:2], ["Ada", "Ben"])
        seats = {one["name"]: one for one in await soon(self.here.lab.seating.list_saved_seats())}
        self.assertEqual([seats[name]["here"] for name in ("Ada", "Ben", "Cleo")], [True, True, False])
        index, _ = await soon(self.here.lab.seating.join("", "", seats["Cleo"]["seat"]))
        await soon(self.here.put(index, [*LIMIT, 3]))

    async def test_the_list_is_complete_after_a_failed_write(self) -> None:
        """A tab that saw a pending change must not continue from that version."""
        await self.here.put(self.ada, ["limit", 1, 40, 3])
        put = await self.start(self.here.put(self.ada, [*LIMIT, 3]))
        pending = await soon(self.here.ask(self.ada, "layers"))
        self.release_disk(errno.EIO)
        self.assertEqual(await self.refused(put), "NotWritten")
        said = await soon(self.here.ask(self.ada, "layers", **{"from": pending["next"]}))
        self.assertEqual((len(pending["layers"]), len(said["layers"]), said["since"]), (2, 1, 0))
        said = await soon(self.here.ask(self.ada, "layers", **{"from": said["next"]}))
        self.assertEqual((said["layers"], said["since"]), ([], said["next"]))

    async def test_nobody_is_told_of_a_change_that_is_being_forgotten(self) -> None:
        """A tab that asks while the journal is read again after a failed write gets what is on the disk."""
        await self.here.put(self.ada, [*LIMIT, 3])
        share = await self.start(self.here.share(self.ada))
        reads, is_read, may_read = Journal.read_confirmed, threading.Event(), threading.Event()
        self.addCleanup(may_read.set)

        def held_up(journal: Journal) -> list[Any]:
            is_read.set()
            may_read.wait()
            return reads(journal)
        with mock.patch.object(Journal, "read_confirmed", held_up):
            self.release_disk(errno.EIO)
            await asyncio.get_running_loop().run_in_executor(None, is_read.wait)
            asked: list[tuple[str, dict[str, Any]]] = [
                ("layers", {"at": "shared"}), ("operations", {"at": "shared"}), ("figures", {"of": mine(self.ben), "from": 0, "to": 60})]
            looks = [asyncio.create_task(self.here.ask(self.ben, verb, **fields)) for verb, fields in asked]
            await asyncio.sleep(0.2)
            may_read.set()
            layers, gestures, figures_of = [await soon(look) for look in looks]
        self.assertEqual((layers["layers"], gestures["operations"]), ([], []))
        self.assertEqual(*([of_side(row, side) for row in figures_of["figures"]] for side in ("before", "after")))
        self.assertEqual(await self.refused(share), "NotWritten")

    async def test_operations_of_another_site_are_announced_only_after_they_are_on_the_disk(self) -> None:
        def new_operation() -> Operation:
            return put(Counter().next(), Shape("limit", 2, 2, 50, None, 3), About("Sam", site="south-00000002"))
        lab = self.here.lab
        for fault, size in ((errno.EIO, 0), (None, 1)):
            self.release_disk()
            await self.here.keeper.wait_until_writable()
            self.here.heard.clear()
            operations = [new_operation()]
            came = await self.start(lab.receive(operations, "", {}))
            again = asyncio.create_task(lab.receive(operations, "", {}))
            self.assertEqual((lab.unseen_shares(self.ben, 9)["size"], lab.unseen_shares(self.ben, 9)["shares"], self.here.heard), (0, [], []))
            self.assertEqual(await self.edits(self.ben), 0)
            self.assertEqual((await soon(self.here.take(self.ben)))["size"], 0)
            look = asyncio.create_task(self.first(self.ben))
            await asyncio.sleep(0.2)
            self.assertFalse(look.done() or again.done())
            self.release_disk(fault)
            said = await soon(asyncio.gather(came, again, return_exceptions=True))
            self.assertEqual([getattr(one, "text", one) for one in said], ["NotWritten"] * 2 if fault else [True, False])
            seen = (await soon(look))["size"], lab.unseen_shares(self.ben, 9)["size"], await self.edits(self.ben)
            self.assertEqual(seen, (size,) * 3)

    async def test_figures_are_those_of_the_road_on_the_disk(self) -> None:
        """The share closes the first inlet, so the first detector counts no car if the share is on the disk."""
        span = {"from": 0, "to": 60}
        self.here.keeper.settings = Settings(days=2)
        await self.here.put(self.ada, ["inflow", 0, 0, 0])
        for fault in (errno.EIO, None):
            self.release_disk()
            await self.here.keeper.wait_until_writable()
            share = await self.start(self.here.share(self.ada))
            with counted() as computed:
                looks = [asyncio.create_task(self.here.ask(self.ben, verb, of=mine(self.ben), **span)) for verb in ("figures", "days")]

                async def both() -> bool:
                    return len(computed) == len(looks)
                await until(both, "they are computed")
                await asyncio.sleep(0.2)
                self.assertEqual([look for look in looks if look.done()], [])
                self.release_disk(fault)
                day, days = [await soon(look) for look in looks]
            before, after = ([means(said, side, "cars", None, 0) for said in (day, days)] for side in ("before", "after"))
            if fault:
                self.assertEqual(await self.refused(share), "NotWritten")
                self.assertEqual(before, after)
            else:
                await soon(share)
                self.assertEqual(before, [[0, None], [0, 0]])
            self.assertGreater(min(mean or 0 for mean, _ in after), 0)

    async def test_the_roads_of_a_preview_are_computed_once_they_are_on_the_disk(self) -> None:
        await self.here.put(self.ada, [*LIMIT, 3])
        for fault, size in ((errno.EIO, 0), (None, 1)):
            self.release_disk()
            await self.here.keeper.wait_until_writable()
            share = await self.start(self.here.share(self.ada))
            preview = asyncio.create_task(self.first(self.ben))
            await asyncio.sleep(0.2)
            self.assertFalse(preview.done())
            self.assertEqual(await self.refused(self.here.ask(self.ben, "advance", at="after", to=60)), "NoPreview")
            self.release_disk(fault)
            self.assertEqual((await soon(preview))["size"], size)
            await soon(asyncio.gather(share, return_exceptions=True))
            await soon(self.here.ask(self.ben, "advance", at="after", to=60))
            await self.here.ask(self.ben, "preview", what=None)

    async def edits(self, seat: int) -> int:
        """Return how many edits are in force on the shared road."""
        return len((await soon(self.here.ask(seat, "scenario", at="shared")))["edits"])

    async def first(self, seat: int) -> Any:
        """Return what `Look first` shows."""
        return await self.here.ask(seat, "preview", what="take")

    async def test_a_full_disk_with_a_running_clock_starts_one_program(self) -> None:
        lab, keeper = self.here.lab, self.here.keeper
        told: list[Any] = []
        keeper.listeners.trouble.on(lambda: told.append(keeper.trouble))
        await lab.road_clock.set_clock(rate=60)
        await self.here.put(self.ada, [*LIMIT, 3])
        self.disk.is_full()

        async def is_told() -> bool:
            return bool(told)
        await until(is_told, "the clock finds that the disk is full")
        began = keeper.now()
        for _ in range(3):
            self.assertEqual(await self.refused(self.here.put(self.ada, [*LIMIT, 4])), "NotWritten")
            await asyncio.sleep(1)
        tries, since = self.disk.calls.count("write"), time.monotonic()
        await asyncio.sleep(5)
        passed = time.monotonic() - since
        self.assertLessEqual(self.disk.calls.count("write") - tries, max(2, passed / 3))  # writing is tried again after 1, 2 and 4 seconds
        self.assertGreater(keeper.now(), began + 200)  # it goes on
        self.assertEqual((keeper.replacements, len(told)), (1, 1))
        self.disk.is_full(False)
        await self.here.put(self.ben, [*LIMIT, 4])
        self.assertEqual((keeper.replacements, told[1:]), (1, [None]))
        self.assertEqual(len([one for one in self.here.entries() if "made" in one]), 2)

    async def test_the_clock_finds_that_the_disk_has_space_again(self) -> None:
        keeper = self.here.keeper
        self.disk.is_full()
        self.assertEqual(await self.refused(self.here.put(self.ada, [*LIMIT, 4])), "NotWritten")
        self.disk.is_full(False)

        async def is_over() -> bool:
            return keeper.trouble is None
        await until(is_over, "it is found")

    async def test_a_folder_on_a_read_only_disk_can_be_viewed(self) -> None:
        lab, keeper = self.here.lab, self.here.keeper
        await self.here.put(self.ada, [*LIMIT, 3])
        self.disk.is_read_only()
        for _ in range(2):
            self.assertEqual(await self.refused(self.here.put(self.ada, [*LIMIT, 4])), "NotWritten")
            reply = await soon(keeper.ask(self.ben, (self.ada,), lambda: keeper.program.ask(b'{"scenario":{"at":"seat1"}}')))
            self.assertIn(b'["limit",2,50,', reply)
            self.assertIn(b",3]]", reply)
        self.assertIn("read-only", str(keeper.trouble).lower())
        self.assertEqual(keeper.replacements, 1)
        self.assertEqual(await soon(lab.seating.join("", self.here.keys[self.ada], None)), (self.ada, self.here.keys[self.ada]))
        cleo, _ = await soon(lab.seating.join("Cleo", "", None))  # who comes now looks, too
        self.assertEqual((await self.here.ask(cleo, "scenario"))["edits"], [])
        self.assertEqual(await self.refused(self.here.put(cleo, [*LIMIT, 4])), "NotWritten")
        self.assertNotIn("Cleo", str(self.here.entries()))
        self.disk.is_read_only(False)
        await soon(self.here.put(cleo, [*LIMIT, 4]))
        kinds = [kind for entry in self.here.entries() for kind, value in entry.items() if value.get("seat") == cleo]
        self.assertEqual(kinds, ["seat", "made"])  # in this order


    async def test_a_seat_given_while_the_disk_was_full_is_given_again_after_a_kill(self) -> None:
        """It is given again with its key, as often as the server is killed, and with no other key."""
        self.disk.is_read_only()
        self.assertEqual(await self.refused(self.here.put(self.ada, [*LIMIT, 4])), "NotWritten")
        index, key = await soon(self.here.lab.seating.join("Zoé Ü", "", None))
        there = self.here
        for is_free in (False, False, True, True):
            await there.keeper.close()
            self.disk.is_read_only(False)
            there, secret = await self.enterAsyncContext(Here(self.here.folder)), there.lab.seating.secret
            there.lab.seating.secret = secret
            self.disk.is_read_only(not is_free)
            for other in (f"{key}e", key.replace(f".{index}.", ".9."), key[:20], f"..{key}"):
                self.assertEqual(await self.refused(there.lab.seating.join("", other, None)), "UnknownKey")
            self.assertEqual(await soon(there.lab.seating.join("", key, None)), (index, key))
            self.assertEqual(there.lab.state.seats[index].name, "Zoé Ü")
        await there.lab.seating.release_seat(index)
        there.keeper.connected.discard(index)
        await there.join("Zoe U", "Zoé ü")
        self.assertEqual(await self.refused(there.lab.seating.join("", key, None)), "UnknownKey")


@contextlib.contextmanager
def counted() -> Iterator[list[Any]]:
    """Yield a list of what the programs that run both roads have computed so far."""
    computed: list[Any] = []

    def kept(does: Any) -> Any:
        async def also(*given: Any) -> Any:
            computed.append(found := await does(*given))
            return found
        return also
    with mock.patch.object(Child, "ask_in_turn", kept(Child.ask_in_turn)), mock.patch.object(
            comparison.Comparisons, "compare", kept(comparison.Comparisons.compare)):
        yield computed


class Stalled(Case):
    """A disk that takes very long, or for ever, at each call that changes a folder."""

    async def asyncSetUp(self) -> None:
        self.disk = self.enterContext(Disk())
        self.enterContext(mock.patch("server.lab.keeper.STALLS", 0.3))
        for module in ("keeper", "seating", "road_clock"):
            self.enterContext(mock.patch(f"server.lab.{module}.A_MOMENT", 0.2))
        self.here = await self.enterAsyncContext(Here(site="north"))
        self.keeper = self.here.keeper
        self.told: list[Any] = []
        self.keeper.listeners.trouble.on(lambda: self.told.append(self.keeper.trouble))
        self.ada, self.ben = await self.here.join("Ada", "Ben")
        await self.here.put(self.ben, ["limit", 1, 50, 4])
        await self.here.share(self.ben)
        await self.here.take(self.ben)
        await self.here.put(self.ben, ["limit", 1, 60, 3])
        await self.here.lab.seating.list_saved_seats()

    async def stalls(self, *names: str) -> None:
        """Stall from the next call with such a name on, and forget what was reported before: a busy disk may have stalled, too."""
        self.told.clear()
        held, is_stalled = self.disk.free, threading.Event()
        self.is_stalled = is_stalled
        held.clear()
        self.disk.free = multiprocessing.Event()
        self.disk.free.set()

        def waits(name: str, _given: Any) -> None:
            if name in names:
                is_stalled.set()
                held.wait()  # until the test ends
        self.disk.before = waits
        self.addCleanup(held.set)
        self.held = held

    async def is_told(self, count: int) -> None:
        async def is_so() -> bool:
            return len(self.told) >= count
        await until(is_so, "the server reports it")
        self.assertEqual(len(self.told), count)

    async def looks(self, edits: int) -> None:
        """Check that readers are answered, with what is confirmed."""
        ben, ask = self.ben, self.here.ask
        self.assertEqual(len((await soon(ask(ben, "scenario", at="shared")))["edits"]), edits)
        for at in (f"seat{ben}", "shared"):
            for verb, fields in (("advance", {"to": 20}), ("diagram", {"from": 0, "to": 9}), ("cars", {"step": 3})):
                await soon(ask(ben, verb, at=at, **fields))
        await soon(ask(ben, "layers"))
        for turn in (ben, None):
            self.assertEqual([one["name"] for one in await soon(self.here.lab.seating.list_saved_seats(turn))], ["Ada", "Ben"])

    async def test_changes_are_pending_and_all_else_goes_on(self) -> None:
        await self.here.lab.road_clock.set_clock(rate=60)
        for names in (("write",), ("fsync",)):
            await self.stalls(*names)
            before = len([one for one in self.here.entries() if "made" in one])
            gestures = [asyncio.create_task(self.here.put(seat, [*LIMIT, 3])) for seat in (self.ada, self.ben, self.ada)]
            joins = asyncio.create_task(self.here.lab.seating.join(f"Cleo {names}", "", None))
            await self.is_told(1)
            self.assertIn("the disk has not answered for", self.told[0])
            now = self.keeper.now()
            await self.looks(1)
            questions: list[tuple[str, dict[str, Any]]] = [
                ("layers", {"at": "shared"}), ("preview", {"what": "share"}), ("figures", {"of": mine(self.ben), "from": 0, "to": 9})]
            for verb, fields in questions:
                await soon(self.here.ask(self.ben, verb, **fields))
            self.assertEqual((await soon(self.here.take(self.ben)))["size"], 0)
            await asyncio.sleep(3)
            self.assertGreater(self.keeper.now(), now + 100)
            self.assertLess(len(self.keeper.journal._waiting), 6)  # the clock does not pile up
            self.assertEqual([one for one in (*gestures, joins) if one.done()], [])
            self.held.set()
            stamps = [await soon(one) for one in gestures]
            index, _ = await soon(joins)
            await soon(self.here.ask(index, "leave"))
            self.here.lab.seating.leave(index)
            await self.is_told(2)
            self.assertIsNone(self.told[1])
            held = [tuple(one["made"]["operation"]["stamp"]) for one in self.here.entries() if "made" in one]
            self.assertEqual(held[before:], stamps)
            self.assertEqual(self.keeper.replacements, 0)  # of the program

    async def test_readers_of_the_shared_road_go_on_while_a_share_is_pending(self) -> None:
        bus = Bus()
        there = await self.enterAsyncContext(Here(site="south"))
        first, second = bus.site(self.here), bus.site(there)
        await bus.rounds(2)
        await self.here.put(self.ada, ["limit", 3, 70, 4])
        await self.here.share(self.ada)
        await bus.carry()
        await self.here.put(self.ada, [*LIMIT, 3])
        await self.stalls("fsync")
        share = asyncio.create_task(self.here.share(self.ada))
        layers = asyncio.create_task(self.here.ask(self.ben, "layers", at="shared"))
        await self.is_told(1)
        await self.looks(2)
        second._peers.known.clear()
        await soon(first.announce())
        first._send_missing("another", [(None, "")], await first._sum_up())
        told = [one for one in bus.sent if one.topic.endswith("operations")]
        self.assertEqual([len(json.loads(one.payload.partition(b"\n")[2])["operations"]) for one in told], [2])  # what is on the disk
        bus.sent = [one for one in bus.sent if one not in told]
        await soon(bus.carry())
        self.assertEqual([one["site"] for one in second.state()["sites"]], [self.here.lab.state.site])  # the change is there all the same
        self.assertEqual(there.lab.state.shared.size, 2)
        self.assertEqual([one for one in (share, layers) if one.done()], [])
        self.held.set()
        await soon(share)
        self.assertEqual(len((await soon(layers))["layers"]), 3)
        await soon(bus.carry())
        self.assertEqual(there.lab.state.shared.size, 3)
        await self.looks(3)

    async def test_a_stalled_retry_and_a_stalled_compaction_keep_nobody_waiting(self) -> None:
        self.disk.is_full()
        with self.assertRaises(Refused):
            await self.here.put(self.ada, [*LIMIT, 3])
        self.disk.is_full(False)
        await self.stalls("fsync")
        for _ in range(3):
            with self.assertRaisesRegex(Refused, "NotWritten"):
                await soon(self.here.put(self.ada, [*LIMIT, 3]))
            await self.looks(1)
        self.held.set()
        await soon(self.keeper.wait_until_writable())
        await soon(self.here.put(self.ada, [*LIMIT, 3], key="k"))
        for name in ("rename", "fsync"):
            await self.stalls(name)
            compacted = asyncio.create_task(self.keeper.compact())
            if name == "rename":  # (the file that is synced first is written by a separate process, for which nobody waits)
                await soon(asyncio.to_thread(self.is_stalled.wait))
            gesture = asyncio.create_task(self.here.put(self.ada, [*LIMIT, 4]))
            await asyncio.sleep(0.4)
            await self.looks(1)
            self.assertFalse(compacted.done() or gesture.done())
            self.held.set()
            await soon(compacted)
            stamp = await soon(gesture)
            self.assertIn(stamp, [tuple(one["made"]["operation"]["stamp"]) for one in self.here.entries() if "made" in one])
