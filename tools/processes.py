"""Run the commands of ./start and ./check: each of them ends when its caller ends. A line on standard error shows how long it takes."""
from __future__ import annotations

import contextlib
import os
import signal
import subprocess
import sys
import tempfile
import time
from pathlib import Path
from types import FrameType
from typing import Any, Callable, Sequence

PATIENCE = 10.0  # seconds that a command has to end after a signal, before it is killed
LOOK = 0.1  # seconds between two looks at a command
SHOWN = 2_000  # characters of a failed command's output
sys.path.insert(0, str(Path(__file__).resolve().parent.parent / "python"))


class Failed(Exception):
    """A command ended with a status that is not 0."""


class Step:
    """A line on standard error: what is being done, and for how long. On a terminal, the seconds are updated."""

    def __init__(self, doing: str) -> None:
        self.doing, self.begin, self.counts = doing, time.monotonic(), sys.stderr.isatty()

    def __enter__(self) -> Step:
        print(f"{self.doing} ..", end="", file=sys.stderr, flush=True)
        return self

    def show(self) -> None:
        if self.counts:
            print(f"\r{self.doing} .. {time.monotonic() - self.begin:.0f} s", end="", file=sys.stderr, flush=True)

    def __exit__(self, *_: Any) -> None:
        self.show()
        print("" if self.counts else f" {time.monotonic() - self.begin:.0f} s", file=sys.stderr, flush=True)


def prepare_child() -> Callable[[], None]:
    """Return what a child of this process does before its command runs: it gets SIGTERM when this process has ended for any reason, and
    SIGINT even if it runs in the background, where shells ignore SIGINT."""
    from zegdrut.base.child_processes import end_with_parent  # not at the top: first of all, this process handles signals
    parent = os.getpid()

    def prepare() -> None:
        end_with_parent(parent, signal.SIGTERM)
        signal.signal(signal.SIGINT, signal.SIG_DFL)
    return prepare


def start(words: Sequence[Any], **how: Any) -> subprocess.Popen[bytes]:
    """Start a command in a process group of its own, so that only this process gets a Ctrl-C and passes it on."""
    return subprocess.Popen(list(map(str, words)), start_new_session=True, preexec_fn=prepare_child(), **how)


def end(process: subprocess.Popen[Any], number: int = signal.SIGTERM) -> None:
    """Send a command the signal to end, wait until it has ended, and kill what is left of its group."""
    if process.poll() is None:
        send_signal(process, number)
    wait_for_end(process)


def wait_for_end(process: subprocess.Popen[Any]) -> None:
    """Wait for a command that got a signal to end, and kill what is left of its group."""
    try:
        process.wait(PATIENCE)
    except subprocess.TimeoutExpired:
        pass
    finally:  # even after a second Ctrl-C
        send_signal(process, signal.SIGKILL)
        process.wait()


def send_signal(process: subprocess.Popen[Any], number: int) -> None:
    """Send a signal to a command's process group, if the group still exists."""
    with contextlib.suppress(ProcessLookupError):
        os.killpg(process.pid, number)


def run(words: Sequence[Any], **how: Any) -> int:
    """Run a command to its end, and return its status. If an exception is raised here, the command ends first."""
    process = start(words, **how)
    try:
        return process.wait()
    finally:
        end(process)


def capture(words: Sequence[Any], step: Step, **how: Any) -> tuple[int, str]:
    """Run a command to its end, and return its status and its output."""
    with tempfile.TemporaryFile() as output:
        process = start(words, stdin=subprocess.DEVNULL, stdout=output, stderr=output, **how)
        try:
            while process.poll() is None:
                time.sleep(LOOK)
                step.show()
        finally:
            end(process)
        output.seek(0)
        return process.returncode, output.read().decode(errors="replace")


def run_quietly(words: Sequence[Any], step: Step, **how: Any) -> None:
    """Run a command to its end. Raises Failed, with the end of its output, if its status is not 0."""
    status, output = capture(words, step, **how)
    if status:
        raise Failed(f"{step.doing} ended with status {status}: {output[-SHOWN:].strip()}")


def end_on_signals() -> None:
    """Let Ctrl-C, SIGTERM and SIGHUP raise SystemExit, so that all commands of this process end first, and no traceback is printed."""
    for number in (signal.SIGINT, signal.SIGTERM, signal.SIGHUP):
        if signal.getsignal(number) is not signal.SIG_IGN:  # shells and `nohup` set this for commands in the background
            signal.signal(number, leave)


def leave(number: int, _: FrameType | None) -> None:
    """End this process with the status that shells report for a signal."""
    sys.exit(128 + number)


def find_processors() -> int:
    """Return how many processors this process may use; a container may have only some of the machine's processors."""
    found = len(os.sched_getaffinity(0))
    with contextlib.suppress(OSError, ValueError), open("/sys/fs/cgroup/cpu.max", encoding="ascii") as limit:
        quota, period = map(int, limit.read().split())
        found = min(found, round(quota / period))
    return max(1, found)
