"""Keep the journal of a folder: all that a server has confirmed. An entry is on the disk before anybody hears of it.

    entries, size = read_entries(path)     the confirmed entries, and their length in bytes
    with lock(folder): ..                  lets no other server use the folder; locks the journal, too
    journal = Journal(path, size)          removes what follows the confirmed entries, and appends
    await journal.write({"clock": ..})     returns once the entry is on the disk; one sync serves all that wait
    await journal.wait_until_written()     returns once all entries written so far are on the disk

The module `journal_lines` defines the lines.
"""
from __future__ import annotations

import asyncio
import contextlib
import errno
import fcntl
import gc
import itertools
import logging
import os
import signal
import time
from pathlib import Path
from typing import Callable, Iterable, Iterator, ParamSpec

from zegdrut.base.child_processes import end_with_parent

from ..base.journal_lines import JOURNAL, CannotStart, JournalLine, journal_line, read_entries
from ..base.json_values import to_json

WRITTEN_AT_ONCE = 1_000
ROOM = 262_144  # bytes that must fit on the disk before it counts as writable; no gesture is longer
NICE = 5  # the priority of the process that shortens a journal, below editing
LAST_WAIT = 5.0  # seconds that the end of the server waits for the disk
Then = Callable[[], None]
P = ParamSpec("P")


class ServerRuns(CannotStart):
    """Another server uses the folder."""


class NotWritten(Exception):
    """An entry could not be written to the disk."""


class DisplacedJournal(OSError):
    """The journal of a running server was moved away, removed or replaced."""

    def __init__(self, path: Path) -> None:
        super().__init__(errno.ESTALE, f"{path} was moved or replaced while the server was running: put it back, or stop the server")


def explain_fault(fault: OSError) -> str:
    """Return why an entry was not written, as a sentence."""
    return str(fault.strerror) if isinstance(fault, DisplacedJournal) else f"the disk does not accept writes ({fault.strerror})"


@contextlib.contextmanager
def lock(folder: Path) -> Iterator[None]:
    """Lock a folder, since a journal has one writer. Raise `CannotStart` if another server has locked it. The journal is locked, too, in
    case somebody removes the file `lock`."""
    with contextlib.ExitStack() as files:
        try:
            file = files.enter_context(open(folder / "lock", "a", encoding="ascii"))
        except OSError as fault:
            if not is_read_only(fault):
                raise
        else:
            lock_file(file.fileno(), folder)
        with contextlib.suppress(FileNotFoundError):
            os.close(open_locked(folder / JOURNAL))  # only a test: `Journal` locks it again
        yield


def open_locked(path: Path) -> int:
    """Open a journal and lock it until the file is closed. Raise `CannotStart` if another server has locked it."""
    file = os.open(path, os.O_RDONLY)
    try:
        lock_file(file, path.parent)
        if os.fstat(file).st_ino != os.stat(path).st_ino:  # another server has replaced the file in the meantime
            raise ServerRuns(f"another server was running in {path.parent} until a moment ago: try again")
    except BaseException:
        os.close(file)
        raise
    return file


def lock_file(file: int, folder: Path) -> None:
    try:
        fcntl.flock(file, fcntl.LOCK_EX | fcntl.LOCK_NB)
    except BlockingIOError:
        raise ServerRuns(f"another server is running in {folder}: stop it, or use another folder") from None


def is_read_only(fault: OSError) -> bool:
    """Return whether a call failed because the file or the file system is read-only."""
    return fault.errno in (errno.EROFS, errno.EACCES, errno.EPERM)


def sync_folder(folder: Path) -> None:
    handle = os.open(folder, os.O_RDONLY)
    try:
        os.fsync(handle)
    finally:
        os.close(handle)


def make_folder(path: Path) -> None:
    """Make a folder that only its owner may use, and the folders above it. It is there after a power failure, too."""
    for folder in reversed([one for one in (path, *path.parents) if not one.exists()]):
        folder.mkdir(exist_ok=True)
        folder.chmod(0o700)
        sync_folder(folder.parent)


def open_for_append(path: Path) -> int:
    """Open a file to append to it. Only its owner may read and write it."""
    return os.open(path, os.O_WRONLY | os.O_CREAT | os.O_APPEND, 0o600)


def write(file: int, pieces: Iterable[bytes]) -> None:
    """Write all pieces, and return when they are on the disk."""
    for piece in pieces:
        while piece:
            piece = piece[os.write(file, piece):]
    os.fsync(file)


def put_in_place(path: Path, pieces: Iterable[bytes]) -> int:
    """Create or replace a file atomically. Return it, open to append to it."""
    file = put_beside(path, pieces)
    with dropped_after_fault(path, file):
        os.rename(successor_path(path), path)
    return file


def successor_path(path: Path) -> Path:
    """Return the path at which the replacement of a file is written."""
    return path.with_name(path.name + ".new")


def put_beside(path: Path, pieces: Iterable[bytes]) -> int:
    """Write the replacement of a file, completely or not at all. Return it, open to append to it."""
    successor_path(path).unlink(missing_ok=True)
    file = open_for_append(successor_path(path))
    with dropped_after_fault(path, file):
        write(file, pieces)
    return file


@contextlib.contextmanager
def dropped_after_fault(path: Path, file: int) -> Iterator[None]:
    """Close and remove the replacement of a file if the block fails."""
    try:
        yield
    except OSError:
        close_all(file)
        with contextlib.suppress(OSError):
            successor_path(path).unlink()
        raise


def fork_writer(path: Path, entries: Callable[[], Iterable[JournalLine]]) -> int:
    """Fork a process, which writes `entries()` to the replacement of a journal. Return its number. Its status is 0 if all of them are
    on the disk."""
    parent, process = os.getpid(), os.fork()
    if process:
        return process
    status = 1
    try:
        end_with_parent(parent)
        signal.set_wakeup_fd(-1)
        for signal_number in (signal.SIGINT, signal.SIGTERM):
            signal.signal(signal_number, signal.SIG_DFL)
        os.closerange(3, os.sysconf("SC_OPEN_MAX"))  # else the connections of tabs would stay open as long as this process runs
        os.nice(NICE)
        gc.disable()
        put_beside(path, journal_lines(entries()))
        status = 0
    finally:
        os._exit(status)


def journal_lines(entries: Iterable[JournalLine]) -> Iterator[bytes]:
    """Yield the lines of entries, in blocks of many lines."""
    several = iter(entries)
    while part := list(itertools.islice(several, WRITTEN_AT_ONCE)):
        yield b"".join(journal_line(to_json(entry), True) for entry in part)


class Journal:
    """Appends entries. After a failed write, all waiting entries fail with `NotWritten`, and so do all new ones until `probe_disk`
    succeeds, since they may depend on an entry that is not there. `failures` counts failed writes."""

    def __init__(self, path: Path, size: int) -> None:
        self.path, self.size = path, size
        self.fault: str | None = None
        self.failures = 0
        self._waiting: list[tuple[str, Then, asyncio.Future[None]]] = []
        self._last: asyncio.Future[None] | None = None
        self._writer: asyncio.Future[None] | None = None
        self._turn = asyncio.Lock()  # held by a write, and by the steps of a compaction that must lie between two writes
        self._began: float | None = None  # the start of the pending call to the disk; None if no call is pending
        self._is_read_only = self._is_closed = False
        self._file = self._open()
        self._held = -1
        try:
            self._begin(os.fstat(self._file).st_size - size)
        except BaseException:
            close_all(self._file, self._held)
            raise

    def _begin(self, torn: int) -> None:
        """Lock the journal, and remove the `torn` bytes at its end, which were never confirmed."""
        self._held = open_locked(self.path)
        if torn > 0:
            logging.warning("%s: the last %d bytes were never confirmed and are removed", self.path, torn)
        if not self._is_read_only:
            self._cut()
            sync_folder(self.path.parent)

    def _open(self) -> int:
        """Open the journal to append to it. If it exists but is read-only, open it to read; writes then fail until `probe_disk`
        succeeds."""
        try:
            return open_for_append(self.path)
        except OSError as fault:
            if not is_read_only(fault) or not self.path.exists():
                raise
            logging.warning("%s is read-only (%s): everything can be viewed, but nothing can be changed", self.path, fault.strerror)
            self._fail_waiting(fault)
            self._is_read_only = True
            return os.open(self.path, os.O_RDONLY)

    def write(self, entry: JournalLine, then: Then = lambda: None) -> asyncio.Future[None]:
        """Write an entry. Return a future that is done once the entry is on the disk and `then` was called, or that fails with
        `NotWritten`."""
        done: asyncio.Future[None] = asyncio.get_running_loop().create_future()
        done.add_done_callback(lambda one: one.cancelled() or one.exception())  # else asyncio logs a fault that nobody awaits
        if self.fault is not None:
            done.set_exception(NotWritten(self.fault))
            return done
        self._waiting.append((to_json(entry), then, done))
        self._last = done
        if self._writer is None:
            self._writer = asyncio.ensure_future(self._write_waiting())
        return done

    def has_waited(self, seconds: float) -> bool:
        """Return whether the disk has not answered for more than these seconds."""
        return self._began is not None and time.monotonic() - self._began > seconds

    async def wait_until_written(self) -> None:
        """Wait until all entries written so far are on the disk. Raise `NotWritten` if the disk did not accept them."""
        if self._last is not None:
            await asyncio.shield(self._last)

    async def _write_waiting(self) -> None:
        try:
            while self._waiting and self.fault is None:
                async with self._turn:
                    await self._write_batch()
        finally:
            self._writer = None

    async def _write_batch(self) -> None:
        """Write all entries that are waiting now. To be called in the turn."""
        batch, self._waiting = self._waiting, []
        if not batch:
            return
        data = b"".join(journal_line(text, place == 0) for place, (text, _, _) in enumerate(batch))
        try:
            await self._call_disk(self._append, data)
        except OSError as fault:
            self._waiting = batch + self._waiting
            self._fail_waiting(fault)
            return
        for _, then, done in batch:
            try:
                then()
            except Exception:  # pylint: disable=broad-except
                logging.exception("an entry is on the disk, but its callback raised an exception")
            if not done.done():
                done.set_result(None)

    async def _call_disk(self, does: Callable[P, None], *given: P.args, **named: P.kwargs) -> None:
        """Call a function that waits for the disk, on another thread."""
        self._began = time.monotonic()
        try:
            await asyncio.to_thread(does, *given, **named)
        finally:
            self._began = None

    def _fail_waiting(self, fault: OSError) -> None:
        self.fault = explain_fault(fault)
        self.failures += 1
        waiting, self._waiting, self._last = self._waiting, [], None
        for _, _, done in waiting:
            if not done.done():
                done.set_exception(NotWritten(self.fault))

    def _append(self, data: bytes, more: bytes = b"") -> None:
        try:
            write(self._file, [data, more])
            self._require_in_place()
        except OSError:
            with contextlib.suppress(OSError):  # `probe_disk` cuts again
                self._cut()
            raise
        self.size += len(data)

    def _require_in_place(self) -> None:
        """Raise `DisplacedJournal` if the journal's path does not name the file that this server writes."""
        try:
            is_in_place = os.path.samestat(os.stat(self.path), os.fstat(self._file))
        except (FileNotFoundError, NotADirectoryError):
            is_in_place = False
        if not is_in_place:
            raise DisplacedJournal(self.path)

    def _cut(self) -> None:
        os.ftruncate(self._file, self.size)
        os.fsync(self._file)

    def read_confirmed(self) -> list[JournalLine]:
        """Read all confirmed entries from the disk, which need not be writable."""
        return read_entries(Path(f"/proc/self/fd/{self._held}"), self.size)[0]

    async def probe_disk(self, entry: JournalLine) -> None:
        """Try whether the disk accepts writes again: append an entry and as many bytes as a gesture can have, and remove these bytes.
        From then on `write` works again. Raise OSError if the disk refuses."""
        async with self._turn:
            await self._call_disk(self._write_probe, entry)
        self.fault = None

    def _write_probe(self, entry: JournalLine) -> None:
        self._require_in_place()
        if self._is_read_only:
            file, old = open_for_append(self.path), self._file
            self._file, self._is_read_only = file, False
            os.close(old)
        self._cut()
        sync_folder(self.path.parent)
        self._append(journal_line(to_json(entry), True), bytes(ROOM))
        self._cut()

    async def compact(self, entries: Callable[[], Iterable[JournalLine]]) -> None:
        """Replace all that was written so far by `entries()`, and append what is written meanwhile. `entries` is called between two
        writes, and its result includes what waits to be written then. A forked process writes it, while other writes go on."""
        if self.fault is not None:
            return
        failures = self.failures
        process, copied = await asyncio.shield(self._fork(entries))
        if not await self._is_written(process):
            logging.warning("the journal was not compacted: the shorter one could not be written to the disk")
            return
        file = open_for_append(successor_path(self.path))
        try:
            while self.size - copied > ROOM and self.failures == failures:
                copied = await asyncio.to_thread(self._copy, file, copied)  # tabs do not wait for it, so it does not count as a slow disk
            await asyncio.wait([asyncio.ensure_future(self._replace(file, copied, failures))])
        except OSError as fault:
            logging.warning("the journal was not compacted: %s", fault)
        finally:
            if file != self._file:
                close_all(file)

    async def _fork(self, entries: Callable[[], Iterable[JournalLine]]) -> tuple[int, int]:
        """Start the process that writes `entries()`. Return its number, and the length of the journal with all that these include."""
        async with self._turn:
            process = fork_writer(self.path, entries)
            await self._write_batch()
            return process, self.size

    async def _is_written(self, process: int) -> bool:
        """Wait for the process that writes the entries. Return whether all of them are on the disk."""
        try:
            _, status = await asyncio.to_thread(os.waitpid, process, 0)
        except asyncio.CancelledError:
            os.kill(process, signal.SIGKILL)
            raise
        return status == 0

    def _copy(self, file: int, begin: int) -> int:
        """Append what was written from the byte `begin` on to another file. Return the byte up to which it was copied."""
        end = self.size
        write(file, [os.pread(self._held, end - begin, begin)])
        return end

    async def _replace(self, file: int, copied: int, failures: int) -> None:
        """Replace the journal by the new file, between two writes, unless a write has failed since the new file was begun."""
        async with self._turn:
            if self.failures != failures or self._is_closed:
                return
            try:
                await self._call_disk(self._rename, file, copied)
            except OSError as fault:
                logging.warning("the journal was not compacted: %s", fault)
                return
            try:
                await self._call_disk(sync_folder, self.path.parent)
            except OSError as fault:  # after a crash the old journal may be there again
                self._fail_waiting(fault)

    def _rename(self, file: int, copied: int) -> None:
        """Lock the new file, and rename it over the old one. A reader sees either file, complete."""
        self._require_in_place()
        self._copy(file, copied)
        lock_of_new = open_locked(successor_path(self.path))
        try:
            os.rename(successor_path(self.path), self.path)
        except OSError:
            close_all(lock_of_new)
            raise
        # The old file is closed last: if `close` fails, its number may already belong to a socket.
        olds = self._file, self._held
        self._file, self._held, self.size = file, lock_of_new, os.fstat(file).st_size
        close_all(*olds)

    async def close(self) -> None:
        """Close the files when the disk has answered. If it does not answer for some seconds, leave that to the end of the process."""
        with contextlib.suppress(TimeoutError):
            async with asyncio.timeout(LAST_WAIT):
                while self._writer is not None:
                    await asyncio.wait([self._writer])
                async with self._turn:
                    if not self._is_closed:
                        self._is_closed, self.fault = True, self.fault or "the server has stopped"
                        close_all(self._file, self._held)


def close_all(*files: int) -> None:
    """Close files; ignore errors."""
    for file in files:
        with contextlib.suppress(OSError):
            os.close(file)
