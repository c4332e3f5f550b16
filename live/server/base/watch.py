"""Report pieces of work that keep the event loop busy for too long; and keep garbage collections short, which are such pieces.

    watch = Watch(0.2, logging.warning)     warns of each piece that uses the processor for more than 0.2 seconds
    ..
    watch.end()

An event loop does one piece of work at a time. A piece counts by the processor time of its thread, not by the time that passes, since on
a busy machine even a short piece takes long. A second thread looks at the stack of a long piece, to say where in the code it is.
"""
from __future__ import annotations

import asyncio
import gc
import sys
import threading
import time
import traceback
from pathlib import Path
from typing import Callable

LOOKS_AT_PIECE = 4  # how often a piece of the longest allowed duration is looked at
FRAMES = 4  # frames of the stack in a warning
SAID = "all others waited"
LONG_COLLECTION = 0.01  # seconds of processor time from which a full garbage collection counts as long


class Watch:
    """Measures each piece of work of the event loops in this process."""

    def __init__(self, longest: float, told: Callable[[str], object],
                 counts: Callable[[object], bool] = lambda callback: True) -> None:
        """Call `told` with a warning for each piece that takes longer than `longest` seconds. `counts` decides by the callback of a piece
        whether it is measured."""
        self._longest, self._told, self._counts = longest, told, counts
        self._piece: tuple[int, float] | None = None  # the thread of the present piece, and when the piece began
        self._seen: list[str] = []  # where in the code it was seen
        self._ended = threading.Event()
        self._run = asyncio.Handle._run
        self._looker = threading.Thread(target=self._look, daemon=True)
        self._begin()

    def _begin(self) -> None:
        run, longest, clock = self._run, self._longest, time.thread_time

        def measured(handle: asyncio.Handle) -> None:
            callback: object = getattr(handle, "_callback")
            if not self._counts(callback):
                run(handle)
                return
            began = clock()
            self._piece = threading.get_ident(), time.monotonic()
            try:
                run(handle)
            finally:
                self._piece = None
                took = clock() - began
                if took > longest:
                    self._report(took, callback)
                self._seen = []
        self._measured = measured
        setattr(asyncio.Handle, "_run", measured)
        self._looker.start()

    def _report(self, took: float, callback: object) -> None:
        where = max(self._seen, key=self._seen.count, default=describe_callback(callback))
        self._told(f"{SAID} for a piece of work of {took:.2f} s: {where}")

    def _look(self) -> None:
        while not self._ended.wait(self._longest / LOOKS_AT_PIECE):
            piece = self._piece
            if piece is not None and time.monotonic() - piece[1] > self._longest / LOOKS_AT_PIECE:
                frame = sys._current_frames().get(piece[0])
                stack = traceback.extract_stack(frame)[-FRAMES:] if frame is not None else []
                del frame
                if piece is self._piece:
                    self._seen.append(", ".join(f"{Path(one.filename).name} {one.lineno} {one.name}" for one in stack))

    def end(self) -> None:
        """Stop measuring."""
        self._ended.set()
        if asyncio.Handle._run is self._measured:
            setattr(asyncio.Handle, "_run", self._run)
        self._looker.join()


def describe_callback(callback: object) -> str:
    """Return a description of a piece for the case that it was not seen on the stack."""
    task = getattr(callback, "__self__", None)
    return repr(task.get_coro()) if isinstance(task, asyncio.Task) else repr(callback)


def keep_collections_short() -> None:
    """Freeze all present objects, so that garbage collections skip them. Freeze again after each full collection that takes long.

    A frozen object is still freed when its last reference goes. Only cycles would never be freed, and operations and roads form none."""
    began = 0.0

    def look(phase: str, info: dict[str, int]) -> None:
        nonlocal began
        if info["generation"] < 2:
            return
        if phase == "start":
            began = time.thread_time()
        elif time.thread_time() - began > LONG_COLLECTION:
            gc.freeze()
    gc.callbacks.append(look)
    gc.collect()
    gc.freeze()
