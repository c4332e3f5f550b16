"""Supervise tasks that last as long as the server: if one ends, say so, and start it again.

    task = supervise("the clock", self._look_after, warn)
"""
from __future__ import annotations

import asyncio
import logging
import time
from typing import Awaitable, Callable

RESTART_PAUSE, LONGEST_PAUSE = 1.0, 60.0  # seconds until it is started again; doubled each time that it ends soon


def has_lasted(seconds: float) -> bool:
    return seconds > LONGEST_PAUSE


def supervise(what: str, run: Callable[[], Awaitable[object]], warn: Callable[[str], None],
              has_worked: Callable[[float], bool] = has_lasted) -> asyncio.Task[None]:
    """Start a task that runs until it is cancelled. If `run` ends, call `warn` with a sentence that says that `what` has stopped,
    and start it again. `has_worked` says whether it worked for long, given the seconds since its start: then the pause is short again."""
    return asyncio.create_task(restart_for_ever(what, run, warn, has_worked))


async def restart_for_ever(what: str, run: Callable[[], Awaitable[object]], warn: Callable[[str], None],
                           has_worked: Callable[[float], bool]) -> None:
    pause = RESTART_PAUSE
    while True:
        began = time.monotonic()
        try:
            await run()
            logging.error("%s: this task has ended", what)
        except Exception:  # pylint: disable=broad-except
            logging.exception("%s: this task has ended", what)
        warn(f"A fault in the server has stopped {what}: it is started again. The server's log says why")
        pause = RESTART_PAUSE if has_worked(time.monotonic() - began) else min(LONGEST_PAUSE, pause)
        await asyncio.sleep(pause)
        pause *= 2
