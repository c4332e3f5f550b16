"""Run a laboratory in this process whose disk and program can be held up, fail, or end at any call."""
from __future__ import annotations

import argparse
import asyncio
import base64
import errno
import hashlib
import json
import multiprocessing
import os
import secrets
import threading
from pathlib import Path
from types import SimpleNamespace
from typing import Any, Callable, NamedTuple
from unittest import mock

from running import PATIENCE, SMALL, new_folder, patience, program
from server.tabs import verbs
from server.tabs.fields import CommandFields
from server.lab.keeper import Keeper
from server.lab.gestures import Lab
from server.lab.new_road import NewRoad
from server.model.operations import Operation, Stamp
from server.tabs.questions import Questions
from server.base.settings import Settings
from server.sites.brokers import Arrival
from server.sites.sites import Sites

CALLS = ("write", "fsync", "rename", "ftruncate")


class Disk:
    """Replaces `os` in the journal: counts the calls that change a folder, and calls a function before each."""

    def __init__(self, folder: Path | None = None) -> None:
        self.folder = folder  # None: all folders
        self.calls: list[str] = []
        self.fault: Callable[[int, str], int | None] = lambda number, name: None  # the number of the error, or None
        self.before: Callable[[str, Any], None] = lambda name, given: None
        self.after: Callable[[str, Any], None] = lambda name, given: None
        self.free = multiprocessing.Event()  # if it is not set, each call waits, also in the process that compacts the journal
        self.free.set()
        self.is_asked = threading.Event()  # by a call of this process

    def __getattr__(self, name: str) -> Any:
        return self._asked(name) if name in CALLS else getattr(os, name)

    def _asked(self, name: str) -> Callable[..., Any]:
        def call(*given: Any) -> Any:
            path = os.readlink(f"/proc/self/fd/{given[0]}") if isinstance(given[0], int) else str(given[0])
            if self.folder is not None and not path.startswith(str(self.folder)):
                return getattr(os, name)(*given)
            self.is_asked.set()
            self.free.wait(PATIENCE)
            self.before(name, given)
            self.calls.append(name)
            fault = self.fault(len(self.calls), name)
            if fault is not None:
                raise OSError(fault, os.strerror(fault))
            result = getattr(os, name)(*given)
            self.after(name, given)
            return result
        return call

    def is_full(self, is_so: bool = True) -> None:
        """Refuse every write, but let files be truncated."""
        self.fault = lambda _, name: errno.ENOSPC if is_so and name == "write" else None

    def is_read_only(self, is_so: bool = True) -> None:
        self.fault = lambda *_: errno.EROFS if is_so else None

    def __enter__(self) -> Disk:
        self._patch = mock.patch("server.journal.journal.os", self)
        self._patch.start()
        return self

    def __exit__(self, *_: object) -> None:
        self.free.set()
        self._patch.stop()


class Here:
    """A laboratory in this process, without sockets."""

    def __init__(self, folder: Path | None = None, plan: dict[str, Any] | None = None, site: str | None = None, origin: int = 0) -> None:
        """`origin` is the cell at km 0."""
        self.folder, self.plan, self.site, self.origin = folder or new_folder(), plan or SMALL, site, origin
        self.keys: dict[int, str] = {}

    async def __aenter__(self) -> Here:
        self.keeper = Keeper(self.folder, str(program()), Settings.read())
        self.lab = Lab(self.keeper)
        self.questions = Questions(self.lab)
        self.heard: list[Any] = []
        self.keeper.listeners.shared.on(self.heard.append)
        try:
            await self.lab.open(lambda: NewRoad({**self.plan}, origin=self.origin), self.site)
        except BaseException:
            await self.keeper.close()
            raise
        return self

    async def __aexit__(self, *_: object) -> None:
        self.questions.close()
        await self.keeper.close()
        if self.keeper._simulated is not None:
            await self.keeper.program._process.wait()

    async def join(self, *names: str) -> list[int]:
        joined = [await self.lab.seating.join(name, "", None) for name in names]
        self.keys.update(joined)
        return [index for index, _ in joined]

    async def ask(self, seat: int, verb: str, **fields: Any) -> Any:
        """Ask a question as a tab of the seat. Return the answer; raise `Refused` if it is refused."""
        asked = CommandFields(verb, {"at": f"seat{seat}", **fields})
        reply = await verbs.answer(self.lab, self.questions, seat, asked, {})
        return json.loads(reply) if isinstance(reply, bytes) else reply

    async def put(self, seat: int, edit: list[Any], key: str | None = None) -> Stamp:
        """Put a shape of one object from a step on: its kind, index, step and value. Return its stamp."""
        kind, index, step, value = edit
        shape = [kind, index, index, step, None, value]
        stamp: Stamp = (await self.ask(seat, "gesture", key=key or secrets.token_hex(8), shape=shape))["stamp"]
        return stamp

    async def share(self, seat: int) -> Any:
        return await self.ask(seat, "send", name="shared")

    async def take(self, seat: int) -> Any:
        return await self.ask(seat, "take", message="shared")

    def entries(self) -> list[Any]:
        """Return the entries on the disk."""
        from server.base.journal_lines import read_entries
        return read_entries(self.folder / "journal.jsonl")[0]


async def soon(waited_for: Any) -> Any:
    """Wait for a result that nothing should delay, and return it. The test fails if that takes too long."""
    return await asyncio.wait_for(waited_for, patience())


class Message(NamedTuple):
    topic: str
    payload: bytes


def written(count: int, **fields: Any) -> dict[str, Any]:
    """Return an operation as PROTOCOL.md says that it is written, under the name that its text gives it. (`Operation.written` and
    `name_of` are not used here.)"""
    value = {"site": "eve-00000000", **fields}
    text = json.dumps({**value, "stamp": count}, ensure_ascii=False, separators=(",", ":"), sort_keys=True)
    name = base64.b64encode(hashlib.sha256(text.encode("utf-8", "surrogatepass")).digest()[:16], b"-_").decode()[:22]
    return {**value, "stamp": [count, name]}


def message_of(site: Sites, *operations: Operation, **more: Any) -> Message:
    """Return a message with operations, as a site sends it."""
    value = {"form": 4, "operations": [one.written() for one in operations], **more}
    return Message(f"road/{site._road}/operations", json.dumps(value).encode())


class Bus:
    """A broker in this process, which does nothing by itself: messages wait until `carry` delivers them."""

    def __init__(self) -> None:
        self.sites: list[Sites] = []
        self.sent: list[Message] = []
        self.seen: list[Message] = []
        self.hears: Callable[[Message], None] = lambda message: None
        self.way: tuple[int, str] = -1, ""  # the number of a message, and its fate: lost, twice or late

    def site(self, here: Here, key: Path | None = None) -> Sites:
        """Return a connected site."""
        options = argparse.Namespace(broker="127.0.0.1:1", broker_user=None, broker_authority=None, site_key=key)
        with mock.patch.object(Sites, "_new_client", lambda _: self):
            site = Sites(here.lab, lambda: None, options)
        site._loop = asyncio.get_running_loop()
        site._outbox.open(self, 1_000_000)  # type: ignore[arg-type]
        here.keeper.listeners.shared.on(lambda touched: site.send_shared())
        self.sites.append(site)
        return site

    def publish(self, topic: str, payload: bytes, qos: int) -> SimpleNamespace:
        message = Message(topic, payload)
        self.hears(message)
        self.sent.append(message)
        return SimpleNamespace(mid=len(self.seen) + len(self.sent))

    async def carry(self) -> None:
        """Deliver all messages to all sites, and what they send in reply."""
        late: list[Message] = []
        while self.sent or late:
            message = self.sent.pop(0) if self.sent else late.pop()
            way = self.way[1] if len(self.seen) == self.way[0] else ""
            self.seen.append(message)
            if way == "late" and self.sent:
                late.append(message)
            for site in self.sites * {"": 1, "lost": 0, "twice": 2, "late": int(message not in late)}[way]:
                await self.give(site, message)

    async def give(self, site: Sites, message: Message) -> None:
        """Hand a message to a site, as the broker's thread does, and let it be taken."""
        await asyncio.to_thread(site._on_message, Arrival(message.topic, message.payload, None), lambda: None)
        await site._inbox.take_waiting(site._receive_waiting)
        await asyncio.sleep(0)

    async def rounds(self, count: int = 1) -> None:
        """Let all sites announce themselves and what they hold."""
        for _ in range(count):
            for site in self.sites:
                await site.announce()
            await self.carry()


def told(site: Sites) -> str:
    """Return what the site reports to its users, once or permanently."""
    state = site.state()
    return " | ".join([*state["told"], *state["stays"]])
