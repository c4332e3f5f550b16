"""Run work that takes seconds to minutes in child processes of low priority, so that editing stays fast.

    child = Child("server.figures.admission", nice=8)
    curve = await child.ask(inlet, path)        in the server; `path` is that of road_lab

    serve(measure)                              in the child, the module: `measure(question)` yields results

A child reads a question from each line of standard input. It answers with a line for each result, which is more complete than the one
before, and with null after the last one; or with {"fault": sentence}.
"""
from __future__ import annotations

import asyncio
import contextlib
import json
import os
import signal
import sys
from typing import AsyncIterator, Callable, Generic, Iterable, Mapping, TypeVar

from .. import LIVE
from ..base.json_values import to_json
from ..base.refusals import Refused
from ..base.settings import Settings
from ..program.program import LONGEST_REPLY, command_ending_with_parent

PATIENCE = 600.0  # seconds that a question may take
GIVES_WAY = Settings.read().gives_way
RUNNING = asyncio.Semaphore(1)
WAITING_SEATS: list[int] = []  # seats for which a road is being simulated for figures or files, or will be
MOST_WAITING_SEATS = 8
Q = TypeVar("Q", bound=Mapping[str, object])
A = TypeVar("A", bound=Mapping[str, object])


@contextlib.asynccontextmanager
async def wait_for_slot(index: int) -> AsyncIterator[None]:
    """Wait until no other road is simulated besides the laboratory's. Raise `Refused` if the seat waits already, or too many wait."""
    if index in WAITING_SEATS or len(WAITING_SEATS) >= MOST_WAITING_SEATS:
        raise Refused("Busy", "the server is simulating other roads for figures or files: try again later")
    WAITING_SEATS.append(index)
    try:
        async with RUNNING:
            yield
    finally:
        WAITING_SEATS.remove(index)


class Child(Generic[Q, A]):
    """A process that runs a module of this package. It starts with the first question, and again if it has ended."""

    def __init__(self, module: str, nice: int, patience: float | None = PATIENCE) -> None:
        self._module, self._nice, self._patience, self._path = module, nice if GIVES_WAY else 0, patience, ""
        self._process: asyncio.subprocess.Process | None = None
        self._closed = 0  # how often it was closed

    async def ask(self, asked: Q, path: str, on_result: Callable[[A], None] | None = None) -> A:
        """Return the last result for a question, and call `on_result` with each. `path` is that of road_lab. Raise `Refused` if there is a
        fault, or if it takes too long. If it fails or if the caller is cancelled, end the process."""
        process = await self._running(path)
        assert process.stdin is not None and process.stdout is not None
        found: A | None = None
        is_done = False
        try:
            process.stdin.write(to_json(asked).encode() + b"\n")
            async with asyncio.timeout(self._patience):
                async for line in process.stdout:
                    result = json.loads(line)
                    if result is None:
                        is_done = True
                        break
                    if "fault" in result:
                        raise Refused("Failed", result["fault"])
                    found = result
                    if on_result is not None:
                        on_result(result)
        except asyncio.TimeoutError:
            raise Refused("TooLong", f"this took more than {self._patience:g} seconds: choose a shorter period") from None
        except (OSError, ValueError):
            pass
        finally:
            if not is_done and process is self._process:
                self.close()
        if found is None or not is_done:
            raise Refused("Failed", "the server could not compute this; its log says why")
        return found

    async def ask_in_turn(self, index: int, asked: Q, path: str) -> A:
        """Answer the question of a seat like `ask`, but simulate one road at a time besides the laboratory's. Raise `Refused` if the seat
        waits already, or too many wait."""
        async with wait_for_slot(index):
            return await self.ask(asked, path)

    async def _running(self, path: str) -> asyncio.subprocess.Process:
        """Return the process, started if necessary."""
        if self._process is None or self._process.returncode is not None or path != self._path:
            self.close()
            closed, self._path = self._closed, path
            process = await asyncio.create_subprocess_exec(
                *command_ending_with_parent(["nice", "-n", str(self._nice), sys.executable, "-m", self._module]),
                stdin=asyncio.subprocess.PIPE, stdout=asyncio.subprocess.PIPE, start_new_session=True, cwd=LIVE, limit=LONGEST_REPLY,
                env={**os.environ, "ROAD_LAB": path})
            if closed != self._closed:  # it was closed meanwhile
                end(process)
            self._process = process
        return self._process

    def close(self) -> None:
        """End the process and all processes that it has started."""
        self._closed += 1
        if self._process is not None:
            end(self._process)
        self._process = None


def end(process: asyncio.subprocess.Process) -> None:
    """Kill a process that has a session of its own, and all processes that it has started."""
    if process.returncode is None:
        with contextlib.suppress(ProcessLookupError):
            os.killpg(process.pid, signal.SIGKILL)
        process._transport.close()  # type: ignore[attr-defined]  # (nobody waits for the process, even when the loop ends)


# In the child

def serve(answer: Callable[[Q], Iterable[A]]) -> None:
    """Answer the question on each line of standard input."""
    from zegdrut import Fault
    processors = sorted(os.sched_getaffinity(0))
    if GIVES_WAY:
        os.sched_setaffinity(0, processors[1:] or processors)  # one processor is left to the server and its program
    for line in sys.stdin:
        try:
            for result in answer(json.loads(line)):
                print(json.dumps(result), flush=True)
            print("null", flush=True)
        except Fault as fault:
            print(json.dumps({"fault": str(fault)}), flush=True)
