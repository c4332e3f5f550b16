"""Start servers, brokers and tabs for the tests, and end them with the tests whatever happens."""
from __future__ import annotations

import asyncio
import atexit
import contextlib
import ctypes
import functools
import gc
import json
import logging
import os
import random
import re
import shutil
import signal
import socket
import statistics
import subprocess
import sys
import tempfile
import time
import unittest
from pathlib import Path
from typing import Any, Awaitable, Callable, Iterator

from server.shell.client import Seat
from server.base.watch import SAID, Watch
from working import is_too_long
from zegdrut import program_path
from zegdrut.base.child_processes import end_with_parent

LIVE = Path(__file__).resolve().parent.parent
PATIENCE = 120.0  # seconds; on a machine with nothing else to do, every wait is far shorter
SMALL: dict[str, Any] = {
    "length": 120, "exit": 1, "zone": 20, "zones": [[5, 6_554]] * 6, "inlets": [[0, 27_918], [40, 9_000]],
    "detectors": [30, 70, 110], "words": 1, "replicas": ["road"]}
ALL = os.environ.get("LIVE_TEST") == "all"  # `live/test --all`
# A new count is the largest held one plus 1 (some tests use the clock instead). Figures get as much of a busy machine as the server.
FIXED = {"LIVE_MILLISECONDS": "0", "LIVE_GIVES_WAY": "0"}
STARTED: list[subprocess.Popen[Any]] = []
LONGEST = 0.2  # seconds of processor that a piece of a server's work may take on a quiet machine
PIECE = re.compile(rf"{SAID} for a piece of work of ([\d.]+) s")
HELD_UP: list[str] = []  # the work of servers in this process that kept all others waiting for longer
LOGS: dict[Path, int] = {}  # logs of servers, and how many bytes of each were checked
FOLDERS: list[Path] = []
CLAIMS: list[socket.socket] = []  # one for each port that this process has taken
logging.getLogger("asyncio").setLevel(logging.ERROR)  # it warns where the machine is slow
GETS_ORPHANS = 36  # PR_SET_CHILD_SUBREAPER
ctypes.CDLL(None).prctl(GETS_ORPHANS, 1)


def transport_of(seat: Seat) -> asyncio.Transport:
    """Return the transport of a seat's socket."""
    connection = seat._socket._response.connection
    assert connection is not None and connection.transport is not None
    return connection.transport


def started(command: list[str], **more: Any) -> subprocess.Popen[Any]:
    process = subprocess.Popen(command, preexec_fn=functools.partial(end_with_parent, os.getpid()), **more)
    STARTED.append(process)
    return process


def end(process: subprocess.Popen[Any]) -> None:
    if process.poll() is None:
        process.kill()
    process.wait()
    for stream in (process.stdin, process.stdout, process.stderr):
        if stream is not None:
            stream.close()


def descendants(process: int | str = "self") -> Iterator[int]:
    """Yield all processes that were started here, and their descendants."""
    children: list[int] = []
    with contextlib.suppress(OSError):  # it has ended just now
        for path in Path(f"/proc/{process}/task").glob("*/children"):
            with contextlib.suppress(OSError):  # so has this thread of it
                children += map(int, path.read_text().split())
    for child in children:
        yield from descendants(child)
        yield child


def kill_all() -> None:
    """Kill all that was started, browsers too, and remove the folders."""
    for child in list(descendants()):
        with contextlib.suppress(OSError):
            os.kill(child, signal.SIGKILL)
    for folder in FOLDERS:
        shutil.rmtree(folder, ignore_errors=True)
    FOLDERS.clear()


@atexit.register
def end_all() -> None:
    """End all that was started."""
    for process in STARTED:
        end(process)
    STARTED.clear()
    kill_all()


def leave(*_: Any) -> None:
    """End the process on a signal, whatever it is doing: an exception would end only one test."""
    try:
        kill_all()
    finally:
        os._exit(1)


signal.signal(signal.SIGTERM, leave)


def new_folder() -> Path:
    FOLDERS.append(Path(tempfile.mkdtemp(prefix="live-test-")))
    return FOLDERS[-1]


def slowness() -> float:
    """Return how many processes want to run for each processor that this one may use, or 1 if there are fewer."""
    return max(1.0, os.getloadavg()[0] / len(os.sched_getaffinity(0)))


def patience(seconds: float = PATIENCE) -> float:
    """Return for how long to wait for what nothing should delay: these seconds, or longer on a busy machine."""
    return seconds * slowness()


async def until(holds: Callable[[], Awaitable[Any]], what: str, seconds: float = PATIENCE) -> None:
    """Wait until a condition holds: for `seconds`, or longer on a busy machine."""
    begin = time.monotonic()
    while not await holds():
        if time.monotonic() > begin + patience(seconds):
            raise AssertionError(f"waited in vain: {what}")
        await asyncio.sleep(0.05)


class Server:
    """A server in a folder, at a port of its own."""

    serve = LIVE / "serve"

    def __init__(self, folder: Path | None = None, plan: dict[str, Any] | None = None, *more: str, **environment: str):
        self.folder = folder or new_folder()
        self.arguments, self.environment = list(more), environment
        self.prefix: list[str] = []  # a Python program that runs the server
        self.log = self.folder / "server.log"
        LOGS[self.log] = 0
        (self.folder / "plan.json").write_text(json.dumps(plan or SMALL))
        self.start()

    def start(self) -> None:
        """Start the server, and wait until it answers."""
        with open(self.log, "ab") as log:
            self.process = started(
                [sys.executable, *self.prefix, str(self.serve), "--folder", str(self.folder), "--port", "0", *self.arguments,
                 str(self.folder / "plan.json")], stdout=subprocess.PIPE, stderr=log, text=True,
                env={**os.environ, **FIXED, "LIVE_WATCH": str(LONGEST), **self.environment})
        assert self.process.stdout is not None
        self.address = self.process.stdout.readline().strip()
        if not self.address:
            self.process.wait()
            raise RuntimeError(f"no server: {self.said()}")

    def said(self) -> str:
        return self.log.read_text()

    def kill(self) -> None:
        self.process.send_signal(signal.SIGKILL)
        end(self.process)

    def stop(self) -> int:
        """End the server as Ctrl-C does."""
        self.process.send_signal(signal.SIGINT)
        return self.process.wait(patience())

    def restart(self) -> None:
        """Kill the server, and start it again with the same command."""
        self.kill()
        self.start()

    @property
    def program(self) -> int:
        """Return the process id of its oldest program that has not ended. Children that compute figures do not count."""
        for child in Path(f"/proc/{self.process.pid}/task/{self.process.pid}/children").read_text().split():
            with contextlib.suppress(OSError):  # it has ended just now
                command = Path(f"/proc/{child}/cmdline").read_bytes()
                if command and b"server.figures" not in command:
                    return int(child)
        raise RuntimeError("the server has no program")

    def journal(self) -> list[dict[str, Any]]:
        """Return the entries of its journal, without their checksums, up to the last line that is complete: the server may be
        writing the next one."""
        complete, _, _ = (self.folder / "journal.jsonl").read_bytes().rpartition(b"\n")
        lines = map(json.loads, complete.splitlines())
        return [{name: value for name, value in line.items() if name not in ("crc", "and")} for line in lines]

    def seat(self, name: str = "Ada", **hello: Any) -> Seat:
        return Seat(self.address, **(hello or {"name": name}))


class Broker:
    """A mosquitto at a port that stays the same."""

    def __init__(self, keeps: bool = True, *more: str) -> None:
        """`more` are lines of its configuration."""
        self.folder = new_folder()
        self.port = free_port()
        kept = self.folder / "kept"
        kept.mkdir()
        lines = [f"listener {self.port} 127.0.0.1", "allow_anonymous true", f"persistence {str(keeps).lower()}",
                 f"persistence_location {kept}/", "max_queued_messages 10000", *more]
        lines += ["user root"] if os.geteuid() == 0 else []
        (self.folder / "conf").write_text("\n".join(lines) + "\n")
        self.start()

    def start(self) -> None:
        self.process = started([mosquitto(), "-c", str(self.folder / "conf")], stdout=subprocess.DEVNULL,
                               stderr=subprocess.DEVNULL)
        begin = time.monotonic()
        while time.monotonic() < begin + patience():
            with contextlib.suppress(OSError), socket_to(self.port):
                return
            time.sleep(0.02)
        raise RuntimeError("no broker")

    def kill(self, by: int = signal.SIGKILL) -> None:
        self.process.send_signal(by)
        self.process.wait()

    @property
    def address(self) -> str:
        return f"127.0.0.1:{self.port}"

    def say(self, topic: str, message: str) -> None:
        """Publish a message, as a stranger would."""
        subprocess.run(["mosquitto_pub", "-h", "127.0.0.1", "-p", str(self.port), "-q", "1", "-t", topic,
                        *(["-s"] if message else ["-n"])], input=message.encode(), check=True, timeout=patience())


def mosquitto() -> str:
    return shutil.which("mosquitto") or "/usr/sbin/mosquitto"


@contextlib.contextmanager
def socket_to(port: int) -> Iterator[None]:
    with socket.create_connection(("127.0.0.1", port), 1):
        yield


def free_port() -> int:
    """Return a free port that no outgoing connection gets meanwhile, and no other test until this process ends: it is bound, freed and
    bound again when a server or broker is started again."""
    while True:
        port = random.randrange(10_000, 32_000)
        claim = socket.socket(socket.AF_UNIX)
        with socket.socket() as one, contextlib.suppress(OSError):
            claim.bind(f"\0live/test: port {port}")
            one.bind(("127.0.0.1", port))
            CLAIMS.append(claim)
            return port
        claim.close()


def is_of_server(callback: object) -> bool:
    """Return whether a piece of work belongs to the server: it is a call of one of its functions, or a step of a task that runs one. The
    client, which tests use as tabs, is not a part of it."""
    task = getattr(callback, "__self__", None)
    does = task.get_coro() if isinstance(task, asyncio.Task) else callback
    code = getattr(does, "cr_code", None) or getattr(getattr(does, "__func__", does), "__code__", None)
    return code is not None and code.co_filename.startswith(str(LIVE / "server")) and not code.co_filename.endswith("client.py")


@functools.cache
def watch() -> Watch:
    """Watch the servers in this process from now on."""
    return Watch(LONGEST, HELD_UP.append, is_of_server)


class Watched(unittest.TestCase):
    """Fails if a piece of a server's work kept all others waiting, in this process or according to a log. Garbage is collected
    only between tests, since a collection scans all objects of the tests, which is not the server's work."""

    def run(self, result: Any = None) -> Any:
        watch()
        HELD_UP.clear()
        gc.collect()
        gc.disable()
        self.addCleanup(self._held_nobody_up)  # the first one that was added runs last
        return super().run(result)

    def _held_nobody_up(self) -> None:
        said = list(HELD_UP)
        for log, begin in LOGS.items():
            text = log.read_text(errors="replace") if log.exists() else ""
            LOGS[log] = len(text)
            said += [line for line in text[begin:].splitlines() if SAID in line]
        long = [one for one in said if is_too_long(float(PIECE.findall(one)[0]), LONGEST, 1.0)]
        if long:
            raise AssertionError("\n".join(long))


class Case(Watched, unittest.IsolatedAsyncioTestCase):
    """A test with servers."""

    def _setupAsyncioRunner(self) -> None:
        self._asyncioRunner = asyncio.Runner()  # without the debug mode, in which 63 tabs take minutes

    def assertEqual(self, first: Any, second: Any, msg: Any = None) -> None:
        """Show where two values differ. The search of unittest itself takes minutes for rows."""
        if first != second:
            texts = repr(first), repr(second)
            at = max(0, len(os.path.commonprefix(texts)) - 100)
            raise self.failureException(f"{texts[0][at:at + 400]}\n  is not {texts[1][at:at + 400]}: {msg}")

    def server(self, *more: str, plan: dict[str, Any] | None = None, **environment: str) -> Server:
        server = Server(None, plan, *more, **environment)
        self.addCleanup(end, server.process)
        self.addCleanup(lambda: end(server.process))  # the one that runs at last
        return server

    def broker(self, keeps: bool = True, *more: str) -> Broker:
        broker = Broker(keeps, *more)
        self.addCleanup(lambda: end(broker.process))
        return broker


def program() -> Path:
    return program_path()


def report(what: str, values: list[float], goal: float | None = None, least: float | None = None, unit: str = "ms") -> None:
    """Print a figure of live/measure or live/measure_page: the median, the goal, and the limit that it must meet."""
    median = statistics.median(values)
    largest = f", largest {max(values):.0f}" if len(values) > 1 else ""
    goals = f" | goal {goal:g}, at the least {least:g} | " if goal is not None and least is not None else " | no goal | "
    verdict = "" if goal is None or least is None else "met" if median <= goal else "enough" if median <= least else "MISSED"
    print(f"{what} | {median:.3g} {unit}{largest}{goals}{verdict}", flush=True)
