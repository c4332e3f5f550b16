"""Keep the messages of the broker until they are taken, one after the other, in the order in which they came.

The broker's thread never waits for the disk: it puts a message here and goes on reading. It waits only while the inbox is full.
"""
from __future__ import annotations

import asyncio
import collections
import logging
import threading
from typing import Awaitable, Callable, Deque, Generic, TypeVar

MOST_WAITING = 64  # messages; the broker delivers fewer that it wants acknowledged
LOOK = 1.0  # seconds after which a thread that waits for room looks whether the inbox is closed
M = TypeVar("M")


class Inbox(Generic[M]):
    """Messages that have come and are not taken yet, each with what acknowledges it."""

    def __init__(self) -> None:
        self._room, self._is_closed = threading.Semaphore(MOST_WAITING), False
        self._waiting: Deque[tuple[M, Callable[[], None]]] = collections.deque()
        self._came = asyncio.Event()

    @property
    def behind(self) -> int:
        """Return how many messages wait behind the one that is being taken."""
        return max(0, len(self._waiting) - 1)

    def put(self, loop: asyncio.AbstractEventLoop, message: M, acknowledge: Callable[[], None], may_be_lost: bool) -> None:
        """Put a message; leave out one that may be lost if many wait. (The broker's thread calls this.)"""
        if may_be_lost and len(self._waiting) >= MOST_WAITING // 2:
            return
        while not self._room.acquire(timeout=LOOK):
            if self._is_closed:
                return
        self._waiting.append((message, acknowledge))
        loop.call_soon_threadsafe(self._came.set)

    async def take_for_ever(self, take: Callable[[M], Awaitable[object]]) -> None:
        """Take each message that comes."""
        while True:
            await self._came.wait()
            self._came.clear()
            await self.take_waiting(take)

    async def take_waiting(self, take: Callable[[M], Awaitable[object]]) -> None:
        """Take the messages that wait, and acknowledge each: also one that cannot be taken, since it could not be taken later either."""
        while self._waiting:
            message, acknowledge = self._waiting[0]
            try:
                await take(message)
            except Exception:  # pylint: disable=broad-except
                logging.exception("a message from the broker could not be handled")
            self._waiting.popleft()
            self._room.release()
            acknowledge()
            await asyncio.sleep(0)  # others get their turn

    def close(self) -> None:
        """Let nobody wait for room any more."""
        self._is_closed = True
