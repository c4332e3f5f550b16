"""Test the journal: cuts, broken lines, a full disk, a single server for each folder, compaction."""
from __future__ import annotations

import asyncio
import binascii
import contextlib
import dataclasses
import errno
import itertools
import json
import os
import resource
import socket
import stat
import subprocess
import sys
import time
import unittest
from typing import Any, Callable, Iterable, Iterator
from unittest import mock

import running
from faulty import Disk, Here, soon
from server.shell.client import Seat
from server.journal.journal import Journal, NotWritten, lock, make_folder, put_in_place
from server.base.journal_lines import CannotStart, Entries, read_entries
from server.lab.keeper import Keeper
from server.base.settings import Settings
from crashes import numbers
from running import LIVE, SMALL, Case, Server
from server.journal.naming import Counter, can_be_said, is_far, new_site
from server.journal.entries import write_entry
from server.journal.state import State
from server.model.operations import About, Shape, put
from server.model.reading import SITE
from server.base.refusals import Refused
from working import takes_at_most

GESTURES: list[Any] = [{"made": {"seat": 1, "key": f"k{count}", "operation": put(count, Shape(
    "block", 60, 60, 20 * count, 20 * count + 9, 1), About("Ada", "Closed é €", 1, "north-00000001")).written()}} for count in range(1, 4)]


def line_of(entry: dict[str, Any], sum_as: str | None = "crc") -> bytes:
    """Return a line as `journal.py` writes it; without a checksum as in older journals."""
    text = json.dumps(entry, ensure_ascii=False, separators=(",", ":")).encode()
    summed = f',"{sum_as}":"{binascii.crc32(text):08x}"}}'.encode() if sum_as else b"}"
    return text[:-1] + summed + b"\n"


class Gate:
    """Holds up the process that writes the new journal in a compaction, until it is opened."""

    def __init__(self) -> None:
        folder = running.new_folder()
        self._begun, self._open = folder / "begun", folder / "open"

    def before(self, entries: Callable[[], Iterable[Any]]) -> Callable[[], Iterator[Any]]:
        """Return entries that the process gets once the gate is open."""
        def held() -> Iterator[Any]:
            self._begun.touch()
            end = time.monotonic() + running.PATIENCE
            while not self._open.exists() and time.monotonic() < end:
                time.sleep(0.02)
            yield from entries()
        return held

    async def is_reached(self) -> None:
        async def has_begun() -> bool:
            return self._begun.exists()
        await running.until(has_begun, "the process runs that writes the new journal")

    def open(self) -> None:
        self._open.touch()


class Reading(unittest.TestCase):
    def setUp(self) -> None:
        self.path = running.new_folder() / "journal.jsonl"
        self.lines = [line_of(entry) for entry in GESTURES]

    def test_each_cut_of_the_last_two_lines_leaves_whole_lines(self) -> None:
        """The entries that were confirmed before the cut are there, and nothing else is."""
        data = b"".join(self.lines)
        for cut in range(len(self.lines[0]), len(data) + 1):
            self.path.write_bytes(data[:cut])
            whole = sum(cut >= end for end in (len(self.lines[0]), len(data) - len(self.lines[2]), len(data)))
            entries, size = read_entries(self.path)
            self.assertEqual(entries, GESTURES[:whole], cut)
            self.assertEqual(size, sum(map(len, self.lines[:whole])), cut)

    def test_a_broken_line_is_named(self) -> None:
        good = self.lines[1]
        for broken in (b"{\n", b"7\n", b'{"a":{},"b":{}}\n', b'{"gesture":[]}\n', b"\xff\n", b"[" * 3_000 + b"\n", b"\n",
                       good.replace(b"49", b"48"), good.replace(b'"crc":"', b'"crc":"0'), good[:20] + bytes(30) + good[50:]):
            # A last line with zeros is a write that was cut off, and no fault.
            for rest in (good, line_of(GESTURES[1], None), *([] if 0 in broken else [b""])):
                self.path.write_bytes(self.lines[0] + broken + rest)
                with self.assertRaisesRegex(CannotStart, "line 2"):
                    read_entries(self.path)

    def test_zeros_in_a_write_were_never_confirmed(self) -> None:
        """After a power failure the disk may have some of the blocks of the last write; the others are zeros."""
        whole, last = self.lines[0], line_of(GESTURES[1]) + line_of(GESTURES[2], "and")
        for begin in range(0, len(last), 7):
            for end in (begin + 1, begin + 40, len(last)):
                torn = last[:begin] + bytes(len(last[begin:end])) + last[end:]
                self.path.write_bytes(whole + torn)
                entries, size = read_entries(self.path)
                kept = 1 + (begin >= len(line_of(GESTURES[1])))
                self.assertEqual((entries, size), (GESTURES[:kept], sum(map(len, self.lines[:kept]))), (begin, end))
        self.path.write_bytes(whole + bytes(len(last)) + self.lines[2])  # a later line follows: the zeros were confirmed
        with self.assertRaisesRegex(CannotStart, "line 2"):
            read_entries(self.path)

    def test_10_000_operations_are_read_in_a_second(self) -> None:
        """However long the journal is, until questions about the shared road can be answered."""
        size = 20_000
        about = About("Ada", site="north-00000001")
        entries: list[Any] = [{"lab": {"form": 4, "plan": SMALL, "site": about.site}}]
        entries += [{"made": {"seat": 1 + count % 20, "operation": put(count, Shape(
            "block", count % 90, count % 90 + 19, count, count + 60, 1), about).written(), "key": f"key {count}", "shared": True}}
            for count in range(1, size + 1)]
        self.path.write_bytes(b"".join(map(line_of, entries)))
        with takes_at_most(size / 10_000):
            state, _ = Keeper(self.path.parent, "", Settings())._read(Entries(self.path))
            self.assertEqual(len(state.shared.road.layers), size)

    def test_only_one_server_locks_a_folder(self) -> None:
        with lock(self.path.parent), self.assertRaisesRegex(CannotStart, "another server"), lock(self.path.parent):
            self.fail("held twice")
        with lock(self.path.parent):
            pass


class Writing(unittest.IsolatedAsyncioTestCase):
    def setUp(self) -> None:
        self.path = running.new_folder() / "journal.jsonl"

    async def test_an_entry_is_on_the_disk_when_it_is_confirmed(self) -> None:
        journal = Journal(self.path, 0)
        for count, entry in enumerate(GESTURES, 1):
            await journal.write(entry)
            self.assertEqual(read_entries(self.path)[0], GESTURES[:count])

    async def test_after_a_failed_write_waiting_entries_are_refused_and_the_file_is_cut_back(self) -> None:
        journal = Journal(self.path, 0)
        await journal.write(GESTURES[0])
        old = resource.getrlimit(resource.RLIMIT_FSIZE)
        resource.setrlimit(resource.RLIMIT_FSIZE, (journal.size + 20, old[1]))
        try:
            waiting = [journal.write(entry) for entry in GESTURES[1:]]
            results = await asyncio.gather(*waiting, journal.wait_until_written(), return_exceptions=True)
            with self.assertRaises(OSError):
                await journal.probe_disk(GESTURES[1])
        finally:
            resource.setrlimit(resource.RLIMIT_FSIZE, old)
        self.assertEqual([type(one) for one in results], [NotWritten] * 3)
        self.assertEqual(self.path.read_bytes(), line_of(GESTURES[0]))
        with self.assertRaises(NotWritten):  # the entry before it may be missing
            await journal.write(GESTURES[1])
        self.assertEqual(journal.read_confirmed(), GESTURES[:1])
        await journal.probe_disk(GESTURES[1])
        await journal.write(GESTURES[2])
        self.assertEqual(read_entries(self.path)[0], GESTURES)

    async def test_a_fault_after_a_write_keeps_nobody_waiting(self) -> None:
        """Entries that are on the disk are confirmed, and later ones are written."""
        journal = Journal(self.path, 0)

        def fails() -> None:
            raise KeyError("a fault in the server")
        with self.assertLogs(level="ERROR"):
            await asyncio.wait_for(asyncio.gather(journal.write(GESTURES[0], fails), journal.write(GESTURES[1])), running.PATIENCE)
        await journal.write(GESTURES[2])
        self.assertEqual(read_entries(self.path)[0], GESTURES)

    async def test_lines_that_are_written_together_are_marked(self) -> None:
        journal = Journal(self.path, 0)
        await journal.write(GESTURES[0])
        await asyncio.gather(*map(journal.write, GESTURES[1:]))
        self.assertEqual(self.path.read_bytes(),
                         b"".join(map(line_of, GESTURES, ("crc", "crc", "and"))))

    async def test_compaction_loses_no_entry_that_is_written_during_it(self) -> None:
        journal, gate = Journal(self.path, 0), Gate()
        await journal.write(GESTURES[0])
        compaction = asyncio.ensure_future(journal.compact(gate.before(lambda: [GESTURES[1]])))  # replaces GESTURES[0] by GESTURES[1]
        await gate.is_reached()
        await journal.write(GESTURES[2])
        gate.open()
        await compaction
        self.assertEqual(read_entries(self.path)[0], GESTURES[1:])
        self.assertEqual(journal.size, self.path.stat().st_size)
        self.assertEqual(self.path.stat().st_mode & 0o777, 0o600)

    async def test_nobody_waits_for_a_compaction(self) -> None:
        """Entries that are written during a compaction follow the compacted ones, which contain no change that was made during
        it."""
        journal, held, gate = Journal(self.path, 0), [GESTURES[1]], Gate()
        await journal.write(GESTURES[0])
        compaction = asyncio.ensure_future(journal.compact(gate.before(lambda: held)))
        await gate.is_reached()
        held.append(GESTURES[0])
        many: list[Any] = [{"gesture": {"note": "x" * 60_000, "number": number}} for number in range(20)]
        for entry in many:
            await journal.write(entry)
        self.assertFalse(compaction.done())
        gate.open()
        await compaction
        await journal.write(GESTURES[2])
        self.assertEqual(read_entries(self.path)[0], [GESTURES[1], *many, GESTURES[2]])
        self.assertEqual([one.name for one in self.path.parent.iterdir()], [self.path.name])

    async def test_a_compaction_does_not_wait_until_nothing_is_written(self) -> None:
        """While entries are written without a pause, those before the compaction are in it, and the others follow it."""
        journal, applied, gate = Journal(self.path, 0), list[Any](), Gate()
        is_enough = False

        async def writes() -> None:
            while not is_enough:
                entry: Any = {"gesture": {"number": len(applied)}}
                applied.append(entry)
                await journal.write(entry)
        writers = [asyncio.create_task(writes()) for _ in range(3)]
        await asyncio.sleep(0)
        compaction = asyncio.ensure_future(journal.compact(gate.before(lambda: [{"all": {"before": len(applied)}}])))
        await gate.is_reached()
        at_the_fork = len(applied)

        async def are_more() -> bool:
            return len(applied) > at_the_fork + 9
        await running.until(are_more, "each writer has written several entries")
        gate.open()
        await asyncio.wait_for(compaction, running.PATIENCE)
        is_enough = True
        await asyncio.gather(*writers)
        (first, *others), _ = read_entries(self.path)
        before = first["all"]["before"]
        assert isinstance(before, int) and before > 0
        self.assertEqual(others, applied[before:])
        self.assertGreater(len(others), 3)

    async def test_a_journal_that_is_moved_or_replaced_is_noticed_before_the_next_confirmation(self) -> None:
        """The entry is in no file. Once the journal is back, entries are written."""
        journal, aside = Journal(self.path, 0), self.path.with_name("aside")
        await journal.write(GESTURES[0])
        for other in (None, line_of(GESTURES[0]), b""):
            self.path.rename(aside)
            if other is not None:
                self.path.write_bytes(other)
            await journal.compact(lambda: [GESTURES[1]])
            for _ in range(2):
                with self.assertRaisesRegex(NotWritten, "moved or replaced while the server was running: put it back"):
                    await journal.write(GESTURES[1])
                with self.assertRaisesRegex(OSError, "put it back"):
                    await journal.probe_disk(GESTURES[1])
            self.assertEqual(journal.read_confirmed(), GESTURES[:1])
            self.assertEqual(aside.read_bytes(), line_of(GESTURES[0]))
            self.assertEqual(self.path.read_bytes() if self.path.exists() else None, other)
            aside.rename(self.path)
            journal.fault = None
        await journal.write(GESTURES[2])
        self.assertEqual(read_entries(self.path)[0], GESTURES[::2])

    async def test_a_compaction_that_fails_leaves_the_old_journal(self) -> None:
        """It does so whichever call fails, in the process that writes the new journal or in this one."""
        journal, here = Journal(self.path, 0), os.getpid()
        await journal.write(GESTURES[0])

        def fails() -> Any:
            raise OSError(errno.EIO, os.strerror(errno.EIO))
        await journal.compact(fails)
        for number, is_here in itertools.product((1, 2), (True, False)):
            with Disk() as disk:
                disk.fault = lambda call, name: errno.EIO if call == number and (os.getpid() == here) == is_here else None
                await journal.compact(lambda: [GESTURES[1]])
            self.assertIsNone(journal.fault, number)
            await journal.write(GESTURES[2])
        self.assertEqual(read_entries(self.path)[0], [GESTURES[0], *[GESTURES[2]] * 4])

    async def test_a_compacted_journal_that_may_not_be_durable_takes_no_entries(self) -> None:
        """If the folder cannot be synced, the old file may reappear later, without newer entries."""
        journal = Journal(self.path, 0)
        await journal.write(GESTURES[0])
        with Disk() as disk:
            disk.fault = lambda _, name: errno.EIO if disk.calls[-2:] == ["rename", "fsync"] else None
            await journal.compact(lambda: [GESTURES[1]])
            with self.assertRaises(NotWritten):
                await journal.write(GESTURES[2])
            disk.fault = lambda *_: None
            await journal.probe_disk(GESTURES[2])
        self.assertEqual(journal.read_confirmed(), GESTURES[1:])

    async def test_no_line_goes_to_a_strangers_socket_if_the_old_file_cannot_be_closed(self) -> None:
        """The file's descriptor is free nevertheless, and the next socket gets it."""
        journal = Journal(self.path, 0)
        await journal.write(GESTURES[0])

        def closes_badly(file: int) -> None:
            is_file = stat.S_ISREG(os.fstat(file).st_mode)
            close(file)
            if is_file:
                raise OSError(errno.EIO, os.strerror(errno.EIO))
        close = os.close
        with mock.patch("server.journal.journal.os.close", closes_badly):
            await journal.compact(lambda: [GESTURES[1]])
        sockets = [socket.socketpair() for _ in range(4)]
        with contextlib.suppress(NotWritten):
            await journal.write(GESTURES[2])
        self.assertEqual(journal.read_confirmed(), read_entries(self.path)[0])
        for one in (one for pair in sockets for one in pair):
            self.addCleanup(one.close)
            one.setblocking(False)
            with self.assertRaises(BlockingIOError, msg="a line of the journal was sent to a socket"):
                one.recv(1_000)
        self.assertEqual(read_entries(self.path)[0], GESTURES[1:])

    async def test_a_file_is_replaced_completely_or_not_at_all(self) -> None:
        """Whichever call fails, either the old file or the new one is there."""
        self.path.write_bytes(b"old")
        with Disk() as disk:
            disk.fault = lambda call, _: errno.ENOSPC if call == number else None
            for number in range(1, 6):
                disk.calls.clear()
                with contextlib.suppress(OSError):
                    os.close(put_in_place(self.path, [b"ne", b"w"]))
                self.assertEqual(self.path.read_bytes(), b"new" if number > 4 else b"old", number)
                self.assertEqual([one.name for one in self.path.parent.iterdir()], [self.path.name])
            self.assertEqual(disk.calls, ["write", "write", "fsync", "rename"])


    async def test_a_new_folder_is_in_the_folder_above_it_after_a_power_failure(self) -> None:
        top, synced = self.path.parent, list[str]()
        with Disk() as disk:
            disk.before = lambda name, given: synced.append(f"{name} {os.readlink(f'/proc/self/fd/{given[0]}')}")
            make_folder(top / "a" / "b")
            make_folder(top / "a" / "b")
        self.assertEqual(synced, [f"fsync {top}", f"fsync {top / 'a'}"])
        self.assertTrue((top / "a" / "b").is_dir())


def seen(state: State) -> Any:
    """Return a state in a form that can be compared."""
    return (state.plan, state.site, state.rate, state.now, state.stop, state.shares,
            sorted(one.stamp for one in state.unsent),
            [(seat.name, seat.key, seat.upto, dict(seat.done), seat.used * bool(seat.key),
              sorted(one.text() for one in state.replica(seat.index).places)) for seat in state.seats])


class Folders(Case):
    """Test servers on folders after kills, cuts and full disks."""

    async def shared(self, seat: Seat, number: int) -> None:
        await seat.ask("gesture", key=f"g{number}", shape=["limit", number % 6, number % 6, 10 + number, None, number % 5])

    async def test_a_start_on_a_disk_that_fails_names_the_folder(self) -> None:
        """Nothing is lost: once the disk works again, so does the server."""
        server = self.server()
        server.stop()
        (server.folder / "failing").touch()
        with mock.patch.object(Server, "serve", LIVE / "tests" / "stalling.py"):
            with self.assertRaisesRegex(RuntimeError, f"live/serve: a file in {server.folder} cannot be read or written: Input/output error"):
                server.start()
        (server.folder / "failing").unlink()
        server.start()
        async with server.seat("Ada") as ada:
            self.assertEqual(ada.welcome["seat"], 1)

    async def test_a_server_starts_from_each_of_twenty_cuts(self) -> None:
        """A server starts from each cut journal, and has all complete lines."""
        server = self.server()
        async with server.seat() as seat:
            for number in range(4):
                await self.shared(seat, number)
            key = seat.key
        server.kill()
        path = server.folder / "journal.jsonl"
        data = path.read_bytes()
        gestures = [at for at in range(len(data)) if data.startswith(b'{"made"', at)]
        ends = [data.index(b"\n", at) + 1 for at in gestures]
        for cut in range(gestures[-2], ends[-1] + 1, (ends[-1] - gestures[-2]) // 19):
            path.write_bytes(data[:cut])
            server.restart()
            async with server.seat(key=key) as seat:
                held: Any = (await seat.ask("operations"))["operations"]
                self.assertEqual([one["stamp"][0] for one in held], list(range(1, 1 + sum(cut >= end for end in ends))))
                await self.shared(seat, 9)
                await seat.ask("undo", stamp="g9", key="u")
            server.kill()

    async def test_a_broken_line_keeps_a_server_from_starting_and_is_named(self) -> None:
        server = self.server()
        server.kill()
        path = server.folder / "journal.jsonl"
        good = path.read_bytes()
        beyond = {"seat": 1, "upto": 1 << 41}
        for broken in (b"good morning\n", b'{"made":{"seat":99}}\n', b'{"what":{}}\n', line_of({"take": beyond})):
            path.write_bytes(good + broken + line_of({"clock": {"rate": 0, "now": 5}}))
            with self.assertRaisesRegex(RuntimeError, r"live/serve: [^\n]*journal\.jsonl, line 2[,:][^\n]*\n\Z"):
                server.start()
            self.assertEqual(path.read_bytes(), good + broken + line_of({"clock": {"rate": 0, "now": 5}}))

    async def test_a_token_is_written_completely_and_a_partial_one_admits_nobody(self) -> None:
        server = self.server()
        server.kill()
        path = server.folder / "token"
        token = path.read_text()
        self.assertEqual((len(token), path.stat().st_mode & 0o777), (24, 0o600))
        for short in ("", "\n", token[:15]):
            path.write_text(short)
            with self.assertRaisesRegex(RuntimeError, "token has [0-9]+ characters.*makes a new token"):
                server.start()
            self.assertEqual(path.read_text(), short)
        path.unlink()
        (server.folder / "token.new").write_text("half")  # a crash before it was renamed
        server.start()
        self.assertTrue(server.address.endswith(path.read_text()))
        self.assertNotEqual(path.read_text(), token)
        self.assertFalse((server.folder / "token.new").exists())

    async def test_a_server_starts_on_an_almost_full_disk(self) -> None:
        """The road that the folder already has can be viewed."""
        server = self.server()
        async with server.seat() as seat:
            await self.shared(seat, 1)
        server.kill()
        (server.folder / "address.new").mkdir()
        size = (server.folder / "journal.jsonl").stat().st_size
        old = resource.getrlimit(resource.RLIMIT_FSIZE)
        server.log = running.new_folder() / "server.log"
        resource.setrlimit(resource.RLIMIT_FSIZE, (size, old[1]))
        try:
            server.start()
        finally:
            resource.setrlimit(resource.RLIMIT_FSIZE, old)
        async with server.seat(key=seat.key) as seat:
            self.assertEqual(len((await seat.ask("scenario"))["edits"]), 1)
            said = await seat.reply("gesture", at=seat.at, key="x", shape=["limit", 2, 2, 50, None, 1])
            self.assertEqual(said["refused"], "NotWritten")

    async def test_a_plan_that_is_refused_leaves_a_folder_that_can_be_used(self) -> None:
        folder = running.new_folder()
        for plan, why in (({**SMALL, "length": 7}, r"the program refuses the plan line \(Length\)"), ({"a": 1}, "refuses the plan")):
            with self.assertRaisesRegex(RuntimeError, why):
                running.Server(folder, plan)
            self.assertEqual(read_entries(folder / "journal.jsonl"), ([], 0))
        (folder / "journal.jsonl").write_bytes(line_of({"lab": {}})[:-3])  # the write that was begun was never confirmed
        server = running.Server(folder, SMALL)
        self.addCleanup(lambda: running.end(server.process))
        async with server.seat() as seat:
            self.assertEqual(seat.welcome["plan"]["length"], SMALL["length"])

    async def test_a_second_server_in_a_folder_says_so(self) -> None:
        server = self.server()
        ran = subprocess.run([sys.executable, LIVE / "serve", "--folder", server.folder, "--port", "0"],
                             capture_output=True, text=True, timeout=running.PATIENCE, check=False)
        self.assertEqual((ran.returncode, ran.stdout), (1, ""))
        self.assertIn("another server is running in", ran.stderr)
        self.assertNotIn("Traceback", ran.stderr)

    async def test_a_second_server_says_so_even_if_the_lock_file_was_removed(self) -> None:
        """It says so also after a compaction, which makes the journal a new file."""
        server = self.server(LIVE_MOST_JOURNAL="2000")
        path = server.folder / "journal.jsonl"
        first = path.stat().st_ino
        async with server.seat() as ada:
            for is_shortened in (False, True):
                if is_shortened:
                    numbers = itertools.count()

                    async def shortened() -> bool:
                        await self.shared(ada, next(numbers))
                        return path.stat().st_ino != first
                    await running.until(shortened, "it is shortened")
                (server.folder / "lock").unlink()
                ran = subprocess.run([sys.executable, LIVE / "serve", "--folder", server.folder, "--port", "0"],
                                     capture_output=True, text=True, timeout=running.PATIENCE, check=False)
                self.assertEqual((ran.returncode, ran.stdout), (1, ""))
                self.assertIn("another server is running in", ran.stderr)
            await self.shared(ada, 5)

    async def test_a_server_starts_on_a_read_only_disk(self) -> None:
        """Everything can be viewed, and changes are refused until the disk accepts them."""
        server = self.server()
        async with server.seat() as ada:
            await self.shared(ada, 1)
            scenario = await ada.ask("scenario")
        server.kill()
        before = {path: path.read_bytes() for path in server.folder.iterdir() if path.is_file()}
        server.log, switch = running.new_folder() / "server.log", running.new_folder() / "writable"
        server.prefix = [str(LIVE / "tests" / "read_only.py"), str(server.folder), str(switch)]
        server.start()
        async with server.seat(key=ada.key) as ada:
            self.assertEqual(numbers((await ada.ask("scenario"))["edits"]), numbers(scenario["edits"]))
            said = await ada.reply("gesture", at=ada.at, key="x", shape=["limit", 2, 2, 50, None, 1])
            self.assertEqual(said["refused"], "NotWritten")
            self.assertIn("Read-only file system", said["why"])

            async def is_told() -> bool:
                told = [ada.welcome["trouble"], *(one["trouble"] for one in ada.received if "trouble" in one)]
                return "Read-only file system" in str(told[-1])
            await running.until(is_told, "the page shows the trouble")
            async with server.seat("Ben") as ben:  # somebody who joins now can look, too
                self.assertEqual((await ben.ask("scenario"))["edits"], [])
                said = await ben.reply("gesture", at=ben.at, key="x", shape=["limit", 2, 2, 50, None, 1])
                self.assertEqual(said["refused"], "NotWritten")
            self.assertEqual({path: path.read_bytes() for path in before}, before)
            switch.touch()
            await self.shared(ada, 2)
            async with server.seat(key=ben.key) as ben:
                await self.shared(ben, 3)

                async def is_kept() -> bool:
                    return any(entry["seat"]["name"] == "Ben" for entry in server.journal() if "seat" in entry)
                await running.until(is_kept, "his seat is written down")
        server.prefix = []
        server.restart()
        async with server.seat(key=ben.key) as ben:
            self.assertEqual(len((await ben.ask("scenario"))["edits"]), 1)

    async def test_a_full_disk_is_reported_and_unwritten_changes_are_nowhere(self) -> None:
        server = self.server()
        async with server.seat() as ada, server.seat("Ben") as ben:
            await ada.say("clock", to=100)
            for seat in (ada, ben):
                await seat.ask("advance", to=60)
            await self.shared(ada, 1)
            size = (server.folder / "journal.jsonl").stat().st_size
            before = await ada.ask("diagram", **{"from": 0, "to": 60}), await ada.ask("scenario")
            resource.prlimit(server.process.pid, resource.RLIMIT_FSIZE, (size + 30, resource.RLIM_INFINITY))
            said = await asyncio.gather(*(seat.reply("gesture", at=seat.at, key=f"full {step}",
                                                     shape=["block", 60, 60, step, None, 1])
                                          for step in range(10, 13) for seat in (ada, ben)))
            self.assertEqual({one.get("refused") for one in said}, {"NotWritten"})
            self.assertTrue(all("was not saved, so it was not made" in one["why"] for one in said))
            self.assertEqual((server.folder / "journal.jsonl").stat().st_size, size)
            after = await ada.ask("diagram", **{"from": 0, "to": 60}), await ada.ask("scenario")
            self.assertEqual([one.get("rows") or one["edits"] for one in before], [one.get("rows") or one["edits"] for one in after])
            self.assertEqual((await ben.ask("scenario"))["edits"], [])
            resource.prlimit(server.process.pid, resource.RLIMIT_FSIZE, (resource.RLIM_INFINITY, resource.RLIM_INFINITY))
            self.assertEqual((await ada.ask("gesture", key="full 10", shape=["block", 60, 60, 10, None, 1]))["touched"], 10)

            async def is_over() -> bool:
                return [bool(one["trouble"]) for one in ada.received if "trouble" in one][-2:] == [True, False]
            await running.until(is_over, "the trouble is over")
            held = numbers((await ada.ask("scenario"))["edits"])
        server.restart()
        async with server.seat(key=ada.key) as ada:
            self.assertEqual(numbers((await ada.ask("scenario"))["edits"]), held)

    async def test_a_long_journal_is_compacted_and_gives_the_same_state(self) -> None:
        server = self.server(LIVE_MOST_JOURNAL="6000", LIVE_DAY="40")
        async with server.seat() as ada, server.seat("Ben") as ben:
            path = server.folder / "journal.jsonl"
            first = path.stat().st_ino
            for number in range(30):
                await self.shared(ada, number)
                await self.shared(ben, number + 3)
                if number % 10 == 5:
                    await ada.ask("send", name="shared", title="so far")
                    await ben.ask("take", message="shared")
                    await ada.ask("undo", stamp=f"g{number}", key=f"u{number}")
            places = itertools.count(100)

            async def is_shortened() -> bool:
                await self.shared(ada, next(places))
                return path.stat().st_ino != first
            await running.until(is_shortened, "it is shortened")
            await self.shared(ben, 77)
            held = [await seat.ask("scenario", at=at) for seat, at in ((ada, ada.at), (ben, ben.at), (ada, "shared"))]
            again = await ada.ask("gesture", key="g0", shape=["limit", 0, 0, 1, None, 1])
            self.assertEqual((again["stamp"][0], again["again"]), (1, True))
        server.restart()
        async with server.seat(key=ada.key) as ada, server.seat(key=ben.key) as ben:
            now = [await seat.ask("scenario", at=at) for seat, at in ((ada, ada.at), (ben, ben.at), (ada, "shared"))]
            self.assertEqual([numbers(one["edits"]) for one in held], [numbers(one["edits"]) for one in now])
            self.assertEqual((await ada.ask("gesture", key="g0", shape=["limit", 0, 0, 1, None, 1]))["stamp"], again["stamp"])

    async def test_a_journal_is_shortened_under_steady_work_and_the_clock_survives_a_kill(self) -> None:
        """Three robots have four changes each on their way, without a pause."""
        server = self.server(LIVE_MOST_JOURNAL="30000")
        path, confirmed = server.folder / "journal.jsonl", set[str]()
        first = path.stat().st_ino
        async with server.seat("Ada") as ada, server.seat("Ben") as ben, server.seat("Cleo") as cleo:
            async def works(seat: Seat, part: int) -> None:
                with contextlib.suppress(ConnectionError):
                    for count in itertools.count():
                        key = f"{part} {count}"
                        await seat.ask("gesture", key=key, shape=["limit", part, part, count % 500, None, count % 5])
                        confirmed.add(f"{seat.at} {key}")
            robots = [asyncio.create_task(works(seat, part)) for seat in (ada, ben, cleo) for part in range(4)]
            await ada.say("clock", rate=5)

            async def is_shortened() -> bool:
                return path.stat().st_ino != first
            await running.until(is_shortened, "it is shortened")
            await asyncio.sleep(3)
            now = (await ada.say("clock", rate=5))["now"]

            async def is_saved() -> bool:
                return any(entry["clock"]["now"] >= now + 5 for entry in server.journal() if "clock" in entry)
            await running.until(is_saved, "the clock is saved")
            server.kill()
            await asyncio.gather(*robots)
        server.start()
        async with server.seat(key=ada.key) as ada:
            self.assertGreaterEqual(ada.welcome["now"], now + 5)
        made = [entry["made"] for entry in server.journal() if "key" in entry.get("made", {})]
        kept = {f"seat{one['seat']} {one['key']}" for one in made}
        done = [entry["done"] for entry in server.journal() if "done" in entry]
        kept |= {f"seat{one['seat']} {key}" for one in done for key, _ in one["keys"]}
        self.assertLessEqual(confirmed, kept)

    async def test_a_compaction_has_what_takes_effect_only_once_it_is_on_the_disk(self) -> None:
        """The clock is pending when the compaction begins."""
        here = await self.enterAsyncContext(Here())
        ada, = await here.join("Ada")
        with Disk(here.folder) as disk:
            disk.free.clear()
            disk.is_asked.clear()
            gesture = asyncio.create_task(here.ask(ada, "gesture", key="k", shape=["limit", 2, 2, 50, None, 1]))
            await soon(asyncio.to_thread(disk.is_asked.wait))
            clock = asyncio.create_task(here.lab.road_clock.set_clock(to=77))
            while not here.keeper._unapplied:
                await asyncio.sleep(0)
            compaction = asyncio.create_task(here.keeper.compact())
            for _ in range(1_000):
                await asyncio.sleep(0)
            disk.free.set()
            await soon(asyncio.gather(gesture, clock, compaction))
        entries = here.entries()
        self.assertEqual([entry["clock"]["now"] for entry in entries if "clock" in entry], [0, 77])
        self.assertEqual([entry["made"]["seat"] for entry in entries if "made" in entry], [ada])
        self.assertEqual(here.keeper.now(), 77)

    async def test_a_server_whose_journal_was_moved_away_confirms_nothing_until_it_is_back(self) -> None:
        server = self.server()
        path, aside = server.folder / "journal.jsonl", server.folder / "aside"

        async def place(seat: Seat, step: int) -> Any:
            return await seat.reply("gesture", at=seat.at, key=f"k{step}", shape=["limit", 2, 2, step, None, 1])
        async with server.seat() as ada:
            await place(ada, 50)
            path.rename(aside)
            said = await place(ada, 40)
            self.assertEqual(said["refused"], "NotWritten")
            self.assertIn("was moved or replaced while the server was running: put it back", said["why"])
            self.assertEqual(len((await ada.ask("layers"))["layers"]), 1)
            aside.rename(path)
            self.assertNotIn("refused", await place(ada, 30))
        server.restart()
        async with server.seat(key=ada.key) as ada:
            shapes: list[Any] = [line["shape"] for line in (await ada.ask("layers"))["layers"]]
            self.assertEqual([shape[3] for shape in shapes], [50, 30])

    async def test_the_compacted_journal_gives_the_same_state(self) -> None:
        server = self.server()
        async with server.seat() as ada, server.seat("Ben") as ben:
            for number in range(6):
                await self.shared(ada, number)
                await self.shared(ben, number + 1)
            made = [one["stamp"] for one in (await ada.ask("operations"))["operations"]]
            await ada.ask("send", name="shared", stamps=[made[0], made[2]])
            await ben.ask("take", message="shared")
            await ben.ask("undo", stamp=made[0], key="u")
            await ben.ask("send", name="shared")
            await ada.say("clock", rate=70)
            async with server.seat("Cleo") as cleo:  # she leaves before what she shared has come back
                await self.shared(cleo, 1)
                await cleo.ask("send", name="shared", title="of one who left")
                await cleo.reply("leave", at=cleo.at)
        server.kill()
        first, second = State(), State()
        for entry in server.journal():
            first.read(entry)
        for entry in json.loads(json.dumps([write_entry(one, first.site) for one in first.entries()])):
            second.read(entry)
        self.assertEqual(len(first.unsent), 10)  # two of Ada's, six of Ben's and his undo, one of Cleo's
        self.assertEqual(seen(first), seen(second))


class Names(Case):
    """Names of sites, and counts."""

    def setUp(self) -> None:
        self.enterContext(mock.patch.dict(os.environ, LIVE_MILLISECONDS="0"))

    async def counts(self, here: Here, *made: int) -> list[int]:
        """Make a change at each of these seats. Return their counts."""
        return [(await here.ask(seat, "gesture", key=os.urandom(8).hex(), shape=["limit", 2, 2, 50 + number, None, 1]))["stamp"][0]
                for number, seat in enumerate(made)]

    async def test_a_folder_has_one_site_for_ever(self) -> None:
        folder = running.new_folder()
        async with Here(folder, site="north") as here:
            site = here.lab.state.site
            self.assertRegex(site, r"^north-[0-9a-f]{8}$")
        for said in (None, "north"):
            async with Here(folder, site=said) as here:
                self.assertEqual(here.lab.state.site, site)
        for other in ("nort", "south", site):
            with self.assertRaisesRegex(CannotStart, f"belongs to site {site} for ever"):
                await self.enterAsyncContext(Here(folder, site=other))
        async with Here(site="north") as other_folder:
            self.assertNotEqual(other_folder.lab.state.site, site)
        self.assertTrue(can_be_said("x" * 31))
        for bad in ("", "x" * 32, "a_b", "a b", "\u00e9", 'a"'):
            self.assertFalse(can_be_said(bad))

    def test_a_site_is_called_after_its_host(self) -> None:
        for host, name in (("tower.example.org", "tower.example.org"), ("my_host/1", "my-host-1"), ("x" * 40, "x" * 31), ("", "site")):
            with mock.patch("server.journal.naming.socket.gethostname", lambda: host):
                self.assertEqual(new_site(None)[:-9], name)
                self.assertRegex(new_site(None), SITE)

    async def test_the_journal_leaves_out_the_folders_own_site(self) -> None:
        """It writes all others."""
        async with Here(site="north") as here:
            await here.join("Ada")
            await here.ask(1, "gesture", key="a", shape=["limit", 2, 2, 50, None, 1])
            await here.lab.receive([put(7, Shape("limit", 1, 1, 5, None, 3), About("Sam", site="south-00000002"))], "", {})
            self.assertEqual(["site" in entry["made"]["operation"] for entry in here.entries() if "made" in entry], [False])
            for _ in range(2):
                self.assertEqual([one["site"] for entry in here.entries() if "came" in entry for one in entry["came"]["operations"]],
                                 ["south-00000002"])
                await here.keeper.compact()
            sites = {one.stamp: one.site for one in here.lab.state.by_stamp.values()}
            self.assertEqual(sorted(sites.values()), [here.lab.state.site, "south-00000002"])
        async with Here(here.folder) as again:
            self.assertEqual({one.stamp: one.site for one in again.lab.state.by_stamp.values()}, sites)

    async def test_a_count_is_above_all_that_the_server_holds(self) -> None:
        """Private ones of other seats are among them."""
        async with Here() as here:
            await here.join("Ada", "Ben", "Cleo")
            self.assertEqual(await self.counts(here, 1, 1, 1, 2, 3, 1), [1, 2, 3, 4, 5, 6])
            await here.lab.receive([put(90, Shape("limit", 1, 1, 5, None, 3), About("Sam", site="south-00000002"))], "", {})
            self.assertEqual(await self.counts(here, 2), [91])
        async with Here(here.folder) as again:
            self.assertEqual(await self.counts(again, 3), [92])

    async def test_a_count_never_sinks_when_changes_are_forgotten(self) -> None:
        """Nor after a failed write, whose count nobody has seen."""
        async with Here() as here:
            await here.join("Ada")
            for number in range(25):
                await here.ask(1, "gesture", key=f"p{number}", shape=["limit", 2, 2, 50, None, 1])
                await here.ask(1, "undo", key=f"u{number}", stamp=f"p{number}")
            with mock.patch("server.lab.keeper.MOST_UNDOABLE", 0):
                here.keeper._forget()
            self.assertEqual(len(here.lab.state.by_stamp), 0)
            self.assertEqual(await self.counts(here, 1), [51])
            with Disk(here.folder) as disk:
                disk.is_full()
                with self.assertRaisesRegex(Refused, "NotWritten"):
                    await self.counts(here, 1)
                self.assertEqual([*here.lab.state.by_stamp], [*here.lab.state.seats[1].road.operations.held])
                disk.is_full(False)
                await here.keeper.wait_until_writable()
                self.assertEqual(await self.counts(here, 1), [53])

    async def test_roads_can_be_viewed_when_it_is_time_to_forget_but_the_disk_is_full(self) -> None:
        """Changes are forgotten when the program is replaced."""
        async with Here() as here:
            await here.join("Ada")
            for number in range(25):
                await here.ask(1, "gesture", key=f"p{number}", shape=["limit", 2, 2, 50, None, 1])
                await here.ask(1, "undo", key=f"u{number}", stamp=f"p{number}")
            with Disk(here.folder) as disk:
                disk.is_full()
                with self.assertRaisesRegex(Refused, "NotWritten"):
                    await self.counts(here, 1)
                here.keeper.settings = dataclasses.replace(here.keeper.settings, most_lines=0)
                for _ in range(3):
                    self.assertEqual((await soon(here.ask(1, "cells", step=0)))["cells"], "." * SMALL["length"])

    def test_a_count_follows_the_clock_and_never_goes_back_with_it(self) -> None:
        now = [1_000]
        with mock.patch("server.journal.naming.time.time_ns", lambda: now[0] * 1_000_000):
            counter = Counter()
            for clock, held, heard, count in ((1_000, 0, 0, 32_000), (1_000, 32_000, 0, 32_001), (1_002, 32_001, 0, 32_064),
                                              (10, 32_064, 0, 32_065), (2_000, 0, 99_000, 99_001), (2_000, 0, (1 << 50) + 1, 99_001),
                                              (2_000, 0, 1 << 50, (1 << 50) + 1), (1 << 50, 0, 0, (1 << 50) + 1)):
                now[0] = clock
                counter.hold(held)
                counter.hear(heard)
                self.assertEqual(counter.next(), count, (clock, held, heard))
            now[0] = 1 << 50
            self.assertEqual(Counter().next(), 1 << 50)  # a clock counts as this at most

    def test_changes_of_sites_that_were_apart_lie_in_the_order_of_their_clocks(self) -> None:
        """A week passes, and neither hears the other. Then one has its clock three days ahead for one change, and the other takes it."""
        now, day = [1_760_000_000_000], 86_400_000
        with mock.patch("server.journal.naming.time.time_ns", lambda: now[0] * 1_000_000):
            north, south = Counter(), Counter()

            def make(counter: Counter) -> int:
                counter.hold(count := counter.next())
                return count
            made = [make(north) for _ in range(100)]
            for counter in (south, north, south):
                now[0] += 7 * day
                made += [make(counter) for _ in range(100)]
            self.assertEqual(made, sorted({*made}))
            now[0] += 3 * day
            ahead = make(north)
            now[0] -= 3 * day
            self.assertEqual(make(north), ahead + 1)
            self.assertLess(make(south), ahead)
            south.hold(ahead)
            self.assertEqual(make(south), ahead + 1)

    def test_how_far_counts_are_ahead_of_the_clock(self) -> None:
        with mock.patch("server.journal.naming.time.time_ns", lambda: 5_000_000_000):
            counter = Counter()
            counter.hold(32 * 65_000)
            self.assertEqual(counter.milliseconds_ahead(), 60_000)

    def test_far_counts_are_those_that_are_far_above_the_shared_road(self) -> None:
        far, step = 1 << 50, 1 << 24
        for count, greatest, wanted in ((far, 0, False), (far + step, 0, False), (far + step + 1, 0, True), (far + step, far, False),
                                        (far + step + 1, far, True), (far + step + 1, far + 1, False), (far + step + 2, far + 1, True)):
            self.assertEqual(is_far(count, greatest), wanted, (count - far, greatest - far))

    def test_what_is_made_after_any_announcement_is_taken_by_others(self) -> None:
        """The next operations of a site that hears an announcement, whatever it says, are not far for a site that does not hear it."""
        counter = Counter()
        for heard in ((1 << 50) - 1, 1 << 50, (1 << 50) + 1, (1 << 53) - 1):
            counter.hear(heard)
            for _ in range(100):
                counter.hold(counter.next())
        self.assertGreater(counter.greatest, 1 << 50)
        self.assertFalse(is_far(counter.greatest, 0))
