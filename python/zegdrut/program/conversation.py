"""Talk with a running program, so that no call gets the reply to another call.

One thread writes each whole request and reads its whole reply. A caller only waits for the reply to its own request. An
interrupt, a timeout or an exception in the caller therefore leaves program and thread in step: the thread reads the
abandoned reply before it writes the next request.
"""
from __future__ import annotations

import _thread
import contextlib
import copy
import errno
import functools
import json
import math
import os
import queue
import select
import shutil
import signal
import subprocess
import tempfile
import threading
import time
from pathlib import Path
from typing import IO, Iterable, NamedTuple

from ..base.errors import Ended, LabBroken, LabCancelled, LabTimeout, Refused
from ..base.wire import Fields, Reply
from .programs import NoProgram
from .refusal_reasons import Reasons

PIECE = 1 << 20
"""The number of bytes to read at once."""
GRACE = 5.0
"""The seconds in which a program must end that has closed its output."""
PATIENCE = 60.0
"""The seconds in which a killed program and its thread must end."""
GUARD = ("setpriv", "--pdeathsig", "KILL", "--")
"""The command that has the kernel kill a program when the thread that started it ends (PR_SET_PDEATHSIG of `man prctl`)."""
HEADS = (b"\x7fELF", b"#!")
"""The first bytes of programs and of scripts."""
ROWS = b'{"rows":["'
"""The first bytes of a reply with rows."""
SHORT = 0.001
"""The seconds between two looks at a thread that will end at once."""
LOOK = 1.0
"""The seconds without a reply after which a caller checks that the thread still runs."""


@functools.cache
def find_guard() -> tuple[str, ...]:
    """Return GUARD, or nothing if it is not installed. Then the program ends once it has finished its present command."""
    return GUARD if shutil.which(GUARD[0]) else ()


class Deadline(NamedTuple):
    """When a call of a lab must end, which may send several lines.

    until: the time, by `time.monotonic`. seconds: the timeout. cancels: how often calls had been cancelled when this one began.
    """

    until: float
    seconds: float
    cancels: int


class Request:
    """A line for the program, and its reply once it has come."""

    __slots__ = ("line", "text", "wants_rows", "rows", "reply", "fault", "taken", "done")

    def __init__(self, line: Fields, text: bytes, wants_rows: bool = False) -> None:
        self.line, self.text = line, text
        self.wants_rows, self.rows = wants_rows, b""  # a reply with rows is then not parsed, and `rows` is its line
        self.reply: Reply = {}
        self.fault: BaseException | None = None
        self.taken = threading.Lock()  # by the thread, which then sends the line, or by a caller who no longer wants that
        self.done = threading.Lock()
        self.done.acquire()

    def take(self) -> bool:
        """Take the request, to send its line or to drop it. Return whether nobody has taken it before."""
        return self.taken.acquire(blocking=False)

    def finish(self) -> None:
        """Wake the caller, unless `cancel` has done so."""
        with contextlib.suppress(RuntimeError):
            self.done.release()

    def raise_fault(self) -> None:
        """Raise the exception of the thread, if there was one."""
        if self.fault is not None:
            try:
                raise self.fault
            finally:
                self.fault = None  # (otherwise the exception and its traceback refer to each other)


class Conversation:
    """A conversation with a program, which starts with the first request."""

    def __init__(self, path: Path | str) -> None:
        self._path = path
        self._owner = os.getpid()
        self._requests: queue.SimpleQueue[Request | None] = queue.SimpleQueue()
        self._ending = threading.RLock()  # held while the program is started or killed
        self._process: subprocess.Popen[bytes] | None = None
        self._complaints: IO[bytes] | None = None
        self._broken: LabBroken | None = None
        self._surplus = b""
        self._waiting: set[Request] = set()
        self._cancels = 0
        self._reasons = Reasons()
        self._has_thread = self._has_ended = False  # the thread that talks to the program
        self._thread = 0  # its identifier while it runs

    def deadline(self, timeout: float | None) -> Deadline:
        """Return when a call must end that begins now."""
        seconds = math.inf if timeout is None else timeout
        return Deadline(time.monotonic() + seconds, seconds, self._cancels)

    def ask(self, line: Fields, text: bytes, deadline: Deadline) -> Reply:
        """Return the program's reply to a line. `text` is the line in JSON.

        Refused: the program refuses the line. NoProgram: there is no program. LabBroken: the program has ended, or the
        conversation was closed. LabTimeout: there was no reply before the deadline. LabCancelled: the call was cancelled.
        """
        return self.finish(self.begin(Request(line, text), deadline), deadline).reply

    def begin(self, request: Request, deadline: Deadline) -> Request:
        """Send a request, whose reply `finish` returns. Several may be sent at once."""
        if os.getpid() != self._owner:
            raise LabBroken("this lab belongs to the process that started it")
        if self._broken is not None:
            raise self._cause()
        self._waiting.add(request)
        if self._cancels != deadline.cancels:
            self._waiting.discard(request)
            raise LabCancelled
        self._requests.put(request)
        with self._ending:
            if not self._has_thread:
                _thread.start_new_thread(self._serve, ())  # (an interrupt of `threading.Thread.start` leaves a thread that never ends)
                self._has_thread = True
        return request

    def finish(self, request: Request, deadline: Deadline) -> Request:
        """Return a request with its reply, or raise its exception."""
        try:
            while not request.done.acquire(timeout=max(0.0, min(LOOK, deadline.until - time.monotonic()))):
                if self._has_ended and not request.done.acquire(blocking=False):
                    raise self._cause()
                if time.monotonic() >= deadline.until:
                    then = ("the program was busy with an earlier call, and this one was dropped" if request.take() else
                            "the program carries the call out all the same, and the next call waits for that")
                    raise LabTimeout(f"no reply within {deadline.seconds:g} s: {then}")
            request.raise_fault()
            return request
        finally:
            request.take()
            self._waiting.discard(request)

    def forget(self, requests: Iterable[Request]) -> None:
        """Do not wait for requests that were sent. Their replies are read and dropped."""
        self._waiting.difference_update(requests)

    def cancel(self) -> None:
        """Cancel all calls that have begun. Each raises `LabCancelled`."""
        self._cancels += 1
        for request in list(self._waiting):
            request.fault = LabCancelled()
            request.finish()

    def close(self) -> None:
        """End the program. Each later call raises `LabBroken`. It may be interrupted and repeated."""
        if os.getpid() == self._owner:
            self._break(LabBroken("this lab was closed"))
            self._requests.put(None)

    def wait(self) -> None:
        """Wait until the program and its thread have ended, after `close`."""
        until = time.monotonic() + PATIENCE
        while os.getpid() == self._owner and self._thread not in (0, threading.get_ident()) and time.monotonic() < until:
            time.sleep(SHORT)

    # The thread

    def _serve(self) -> None:
        self._thread = threading.get_ident()
        while (request := self._requests.get()) is not None:
            if request.take():
                try:
                    request.reply = self._answer(request)
                except BaseException as fault:  # (the caller raises it)
                    request.fault = fault
                request.finish()
            del request
        self._reap()
        self._has_ended, self._thread = True, 0

    def _answer(self, request: Request) -> Reply:
        process = self._start()
        self._check_silence(process)
        self._write(process, request.text + b"\n")
        text = self._read_line(process)
        if request.wants_rows and text.startswith(ROWS):
            request.rows = text
            return {}
        try:
            reply = json.loads(text)
            if not isinstance(reply, dict):
                raise ValueError
        except (ValueError, RecursionError):
            raise self._break(LabBroken(f"{self._path} wrote something that is not a reply: {text[:80]!r}")) from None
        if "refused" in reply:
            raise Refused(reply["refused"], self._explain(request, reply), request.text.decode())
        self._reasons.accept(request.line, reply)
        return reply

    def _explain(self, request: Request, reply: Reply) -> str:
        try:
            return self._reasons.hear(request.text, reply) or "the program gives no reason"
        except (LookupError, TypeError, ValueError):
            return "the program gives no reason"

    def _start(self) -> subprocess.Popen[bytes]:
        """Return the program, started in its own process session, so that Ctrl-C in a terminal does not reach it.

        It ends with this thread, which waits for it, and so it ends with this process, however the process ends.
        """
        with self._ending:
            if self._broken is not None:
                raise self._cause()
            if self._process is None:
                path = shutil.which(self._path)
                if path is None:
                    raise NoProgram(self._path)
                try:
                    with open(path, "rb") as file:  # (a shell would try to run any other file)
                        if not file.read(4).startswith(HEADS):
                            raise OSError(errno.ENOEXEC, os.strerror(errno.ENOEXEC))
                    self._complaints = tempfile.TemporaryFile()
                    self._process = subprocess.Popen([*find_guard(), str(self._path)], stdin=subprocess.PIPE, stdout=subprocess.PIPE,
                                                     stderr=self._complaints, bufsize=0, start_new_session=True, pipesize=PIECE)
                except OSError as fault:
                    raise self._break(LabBroken(f"{self._path} could not be started: {fault.strerror}")) from None
            return self._process

    def _check_silence(self, process: subprocess.Popen[bytes]) -> None:
        """Raise LabBroken if the program has written anything without a request, and Ended if it has ended."""
        assert process.stdout is not None
        waiting = select.poll()
        waiting.register(process.stdout, select.POLLIN)
        if not self._surplus and waiting.poll(0):
            self._surplus = os.read(process.stdout.fileno(), PIECE)
            if not self._surplus:
                raise self._break(self._describe_end(process))
        if self._surplus:
            raise self._break(LabBroken(f"the program wrote something without a request: {self._surplus[:80]!r}"))

    @staticmethod
    def _write(process: subprocess.Popen[bytes], data: bytes) -> None:
        assert process.stdin is not None
        rest = memoryview(data)
        with contextlib.suppress(BrokenPipeError):  # (reading then finds the cause)
            while rest:
                rest = rest[os.write(process.stdin.fileno(), rest):]

    def _read_line(self, process: subprocess.Popen[bytes]) -> bytes:
        """Return the next line of the program. Ended: it has ended."""
        assert process.stdout is not None
        pieces: list[bytes] = []
        while not pieces or b"\n" not in pieces[-1]:
            piece = os.read(process.stdout.fileno(), PIECE)
            if not piece:
                raise self._break(self._describe_end(process))
            pieces.append(piece)
        line, _, self._surplus = b"".join(pieces).partition(b"\n")
        return line

    def _describe_end(self, process: subprocess.Popen[bytes]) -> LabBroken:
        """Return how the program ended. It has closed its output, so it will end soon, or is killed."""
        try:
            status = process.wait(GRACE)
        except subprocess.TimeoutExpired:
            with self._ending:
                self._kill()
            status = process.wait()
        assert self._complaints is not None
        self._complaints.seek(0)
        return Ended(status, self._complaints.read().decode(errors="replace").strip())

    def _break(self, cause: LabBroken) -> LabBroken:
        """Kill the program. Return the first cause that was found for it."""
        with self._ending:
            self._broken = self._broken or cause
            self._kill()
        return self._cause()

    def _cause(self) -> LabBroken:
        """Return a copy of the cause, as an exception to raise once."""
        return copy.copy(self._broken) or LabBroken("the thread of this lab has ended")

    def _kill(self) -> None:
        """Kill the program and its children, if it still runs. The caller holds `_ending`."""
        if self._process is not None and self._process.returncode is None:
            with contextlib.suppress(ProcessLookupError, PermissionError):
                os.killpg(self._process.pid, signal.SIGKILL)

    def _reap(self) -> None:
        process = self._process
        if process is None:
            return
        process.wait()
        for stream in (process.stdin, process.stdout, self._complaints):
            if stream is not None:
                stream.close()
