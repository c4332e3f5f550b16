"""Run road_lab as a process, and ask it line by line.

    program = await start(command, plan)
    reply = await program.ask(line)              bytes, without the newline
    horizon = await program.advance(at, to)      simulates some of the steps
    await program.close()
"""
from __future__ import annotations

import asyncio
import contextlib
import json
import os
import shutil
import time
from pathlib import Path
from typing import Dict, Mapping, Sequence

from zegdrut.base.wire import WrittenEdit
from zegdrut.program import Reasons

from ..base.json_values import to_json
from ..base.refusals import Refused

LONGEST_REPLY = 1 << 26
IMPORT_EDITS = 1_200  # edits of an import, so that its line has at most 65,536 bytes
STEPS = 2_000  # steps that are simulated at a time, so that other seats get their turn
IDLE_PATIENCE = 10.0  # seconds without processor time after which a program that owes an answer is ended
LOOKS_AT_IDLE = 8  # how often the program is looked at in that time
LONG_ROAD = 4_096  # cells from which on two threads are faster than one; more than two are not, on a machine that does other work


Times = Dict[str, float]
"""How an answer took its time: seconds by cause, such as the program or the disk."""


class ProgramExited(Exception):
    """The program has ended, or does not answer."""


class BadPlan(Exception):
    """The program refused the plan."""


def command_of(path: str, plan: Mapping[str, object]) -> list[str]:
    """Return the command that starts the program at a path, with two threads if the road is long."""
    length = plan.get("length")
    pays = isinstance(length, int) and length >= LONG_ROAD and len(os.sched_getaffinity(0)) > 2
    return [path, "--workers", "2"] if pays else [path]


def command_ending_with_parent(command: list[str]) -> list[str]:
    """Return a command whose process is killed as soon as this process ends, for whatever reason."""
    return [*(["setpriv", "--pdeathsig", "KILL"] if shutil.which("setpriv") else []), *command]


def import_lines(at: str, edits: Sequence[WrittenEdit]) -> list[dict[str, object]]:
    """Return the lines that import edits into the replica `at`."""
    return [{"import": {"at": at, "edits": edits[begin:begin + IMPORT_EDITS], "form": 2}}
            for begin in range(0, len(edits), IMPORT_EDITS)]


class Program:
    """A process of road_lab. `lines` counts the lines that it has read; `horizons` has the step up to which each replica has run."""

    def __init__(self, process: asyncio.subprocess.Process, plan: bytes) -> None:
        self._process, self._plan, self.lines = process, plan, 0
        self._read = 0  # replies
        self._watch: asyncio.TimerHandle | None = None
        self._fault: str | None = None
        self.horizons: dict[str, int] = {}

    async def ask(self, line: bytes) -> bytes:
        """Return the reply to a line. Raise `ProgramExited` if it does not come."""
        return (await self.ask_all([line]))[0]

    async def ask_all(self, lines: Sequence[bytes]) -> list[bytes]:
        """Send lines all at once, and return their replies. Raise `ProgramExited` if one is missing."""
        self.lines += len(lines)
        stdin, stdout = self._process.stdin, self._process.stdout
        assert stdin is not None and stdout is not None
        replies: list[bytes] = []
        try:
            stdin.write(b"\n".join(lines) + b"\n")
            self._look(None, 0)
            while len(replies) < len(lines) and (not replies or replies[-1].endswith(b"\n")):
                replies.append(await stdout.readline())
                self._read += 1
        except asyncio.CancelledError:
            self.kill()  # else the next caller would read replies to these lines
            raise
        except (OSError, ValueError) as fault:
            self.kill()
            raise ProgramExited(f"the program does not answer: {fault!r}") from None
        finally:
            if self._watch is not None:
                self._watch.cancel()
        if not replies[-1].endswith(b"\n"):
            status = await self._process.wait()
            raise ProgramExited(self._fault or f"the program ended with status {status}")
        return [reply[:-1] for reply in replies]

    async def say_all(self, lines: Sequence[bytes], times: Times) -> list[bytes]:
        """Send lines all at once, return their replies, and add the time that they took. Raise the first refusal."""
        began = time.perf_counter()
        replies = await self.ask_all(lines)
        times["program"] = times.get("program", 0) + time.perf_counter() - began
        for line, reply in zip(lines, replies):
            if reply.startswith(b'{"refused"'):
                raise self._explain(line, reply)
        return replies

    def _explain(self, line: bytes, reply: bytes) -> Refused:
        """Return a refusal by the program, with a sentence that says why."""
        (_, fields), = json.loads(line).items()
        at, refused = str(fields.get("at")), json.loads(reply)
        horizon, reasons = self.horizons.get(at, 0), Reasons()
        reasons.hear(self._plan, {"open": 1})
        reasons.hear(to_json({"advance": {"at": at, "to": horizon}}).encode(), {"horizon": horizon})
        return Refused(refused["refused"], reasons.hear(line, refused) or f"the program refused it: {refused['refused']}")

    def _look(self, before: object, idle: int) -> None:
        """While the program owes an answer, look at intervals whether it does anything. End it if it hangs."""
        now = self._find_progress()
        idle = idle + 1 if now == before else 0
        if idle >= LOOKS_AT_IDLE:
            self._fault = f"the program did not answer and used no processor time for {IDLE_PATIENCE:g} seconds"
            self.kill()
        else:
            self._watch = asyncio.get_running_loop().call_later(IDLE_PATIENCE / LOOKS_AT_IDLE, self._look, now, idle)

    def _find_progress(self) -> object:
        """Return a value that changes when the program has done something."""
        try:
            said = Path(f"/proc/{self._process.pid}/stat").read_text(encoding="ascii", errors="replace")
        except OSError:
            return object()
        state, *numbers = said.rpartition(")")[2].split()
        return object() if state == "R" else (self._read, *numbers[10:12])  # the processor time of all its threads

    async def advance(self, at: str, to: int) -> int:
        """Simulate some of the steps of a replica up to `to`. Return the step that it has reached."""
        here = self.horizons.get(at, 0)
        if here < to:
            reply = await self.ask(to_json({"advance": {"at": at, "to": min(to, here + STEPS)}}).encode())
            self.horizons[at] = json.loads(reply).get("horizon", to)
        return self.horizons.get(at, 0)

    def kill(self) -> None:
        with contextlib.suppress(ProcessLookupError):
            self._process.kill()

    async def close(self) -> None:
        """End the program, and wait until it has ended."""
        assert self._process.stdin is not None
        self._process.stdin.close()
        try:
            async with asyncio.timeout(5):
                await self._process.wait()
        except asyncio.TimeoutError:
            self.kill()
            await self._process.wait()


async def start(command: list[str], plan: bytes) -> Program:
    """Start a program and send it the plan line. Raise `ProgramExited` if it cannot be started, and `BadPlan` if it refuses the plan."""
    try:
        if not os.access(command[0], os.X_OK):
            raise PermissionError(f"{command[0]} is not an executable file")
        process = await asyncio.create_subprocess_exec(
            *command_ending_with_parent(command), stdin=asyncio.subprocess.PIPE, stdout=asyncio.subprocess.PIPE, limit=LONGEST_REPLY,
            start_new_session=True)
    except OSError as fault:
        raise ProgramExited(f"the program cannot be started: {fault}") from None
    program = Program(process, plan)
    reply = json.loads(await program.ask(plan))
    program.lines = 0
    if "open" not in reply:
        await program.close()
        raise BadPlan(reply.get("refused", "?"))
    return program
