"""Test that nothing that a server has started outlives it, however it ends."""
from __future__ import annotations

import asyncio
import contextlib
import importlib.machinery
import os
import secrets
import signal
import tempfile
import unittest
from pathlib import Path
from typing import Any

from running import PATIENCE, SMALL, Case, descendants, slowness, until
from server.shell.client import Seat

HERE = Path(__file__).resolve().parent

# A setpriv that takes its time.
SETPRIV = """#!/bin/sh
touch {folder}/begun
sleep 1
exec /usr/bin/setpriv "$@"
"""
LONG: dict[str, Any] = {**SMALL, "length": 2_000, "zone": 1_000, "zones": [[5, 6_554]] * 2, "exit": 1}


def marked(mark: str) -> set[int]:
    """Return the running processes whose environment has a mark."""
    found = set()
    for path in Path("/proc").glob("[0-9]*"):
        with contextlib.suppress(OSError):
            if mark.encode() in (path / "environ").read_bytes() and " Z " not in (path / "stat").read_text():
                found.add(int(path.name))
    return found


def age_of(process: int) -> float:
    """Return the seconds for which a process has run; 0 if it has ended."""
    with contextlib.suppress(OSError):
        began = int(Path(f"/proc/{process}/stat").read_text().rpartition(")")[2].split()[19])
        return float(Path("/proc/uptime").read_text().split()[0]) - began / os.sysconf("SC_CLK_TCK")
    return 0.0


def kill(process: int, by: int) -> None:
    """Send a signal to a process, unless it has ended just now."""
    with contextlib.suppress(ProcessLookupError):
        os.kill(process, by)


class Orphans(Case):
    async def asyncSetUp(self) -> None:
        self.mark = secrets.token_hex(8)
        self.a6 = self.server(plan=LONG, LIVE_MARK=self.mark)
        self.addCleanup(self.end_all)

    def end_all(self) -> None:
        for process in marked(self.mark):
            kill(process, signal.SIGKILL)

    async def ends(self, by: int) -> None:
        """Figures, a preview, a question over many days and a save are under way, all of them stopped, when it ends."""
        async with self.a6.seat("Ada") as ada, self.a6.seat("Ben") as ben, self.a6.seat("Cleo") as cleo:
            for seat in (ada, ben, cleo):
                await seat.ask("gesture", key="k", note="", shape=["limit", 1, 1, 60, None, 2])
            await ada.ask("preview", what="share")
            questions: list[tuple[Seat, str, str, dict[str, Any]]] = [
                (ada, "advance", "before", {"to": 30_000}), (ada, "figures", ada.at, {"of": ["shared", ada.at], "from": 0, "to": 30_000}),
                (ben, "days", ben.at, {"of": ["shared", ben.at], "from": 0, "to": 7_000}),
                (cleo, "transcript", cleo.at, {"from": 0, "to": 30_000})]
            asked = [asyncio.ensure_future(seat.reply(verb, at=at, **more)) for seat, verb, at, more in questions]
            await until(lambda: self.are(8), "all is under way")
            await asyncio.sleep(0.5 * slowness())
            for process in descendants(self.a6.process.pid):
                # A younger process may not yet have asked the kernel to end it with the server.
                if age_of(process) > 0.3 * slowness():
                    kill(process, signal.SIGSTOP)
            self.a6.process.send_signal(by)
            await until(lambda: self.are(0), "all has ended")
            await asyncio.gather(*asked, return_exceptions=True)

    async def are(self, count: int) -> bool:
        there = len(marked(self.mark))
        return there > count if count else not there

    async def test_nothing_outlives_a_server_that_is_killed(self) -> None:
        await self.ends(signal.SIGKILL)

    async def test_nothing_outlives_a_server_that_gets_a_signal(self) -> None:
        await self.ends(signal.SIGTERM)


class Guards(Case):
    async def test_a_program_that_is_guarded_too_late_ends_with_its_input(self) -> None:
        """Kill a server before setpriv has asked the kernel to kill the program with it."""
        mark, folder = secrets.token_hex(8), Path(self.enterContext(tempfile.TemporaryDirectory()))
        (folder / "setpriv").write_text(SETPRIV.format(folder=folder), encoding="utf-8")
        (folder / "setpriv").chmod(0o755)

        async def has_begun() -> bool:
            return (folder / "begun").exists()

        async def has_ended() -> bool:
            return not marked(mark)
        server = self.server(plan=LONG, LIVE_MARK=mark, PATH=f"{folder}:{os.environ['PATH']}")
        await until(has_begun, "the program begins")
        server.process.kill()
        await until(has_ended, "all has ended")


class Termination(unittest.TestCase):
    def test_a_signal_during_a_task_cancels_only_the_start(self) -> None:
        serve = importlib.machinery.SourceFileLoader("serve", str(HERE.parent / "serve")).load_module()

        async def starts() -> None:
            serve.cancel_at_termination()

            async def works() -> None:
                os.kill(os.getpid(), signal.SIGTERM)
                await asyncio.sleep(0)
            task = asyncio.ensure_future(works())
            with self.assertRaises(asyncio.CancelledError):
                await asyncio.sleep(PATIENCE)
            await task  # goes on to its end
        self.addCleanup(signal.signal, signal.SIGTERM, signal.getsignal(signal.SIGTERM))
        asyncio.run(starts())
