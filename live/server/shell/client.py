"""Use a running server as a tab does, from a script.

    async with Seat(address, name="Robot") as seat:
        reply = await seat.ask("advance", to=3600)
"""
from __future__ import annotations

import asyncio
import json
import ssl
import urllib.parse
from types import TracebackType
from typing import TYPE_CHECKING

import aiohttp
from yarl import URL

if TYPE_CHECKING:
    from ..tabs.frames import Frame, Welcome

LONGEST_ANSWER = 1 << 26  # bytes
PATIENCE = 120.0  # seconds


class RefusedReply(Exception):
    """The server refused a command. `reply` is its reply."""

    def __init__(self, reply: Frame) -> None:
        super().__init__(f"{reply['refused']}: {reply.get('why', '')}")
        self.reply = reply


class Closed(ConnectionError):
    """The server closed the connection. `code` is the close code of the WebSocket."""

    def __init__(self, code: int | None) -> None:
        super().__init__(f"the server closed the connection with code {code}")
        self.code = code


class Seat:
    """A connection to a server, with a seat. To be used as a context."""

    def __init__(self, address: str, authority: str | None = None, **hello: object) -> None:
        """`address` includes the token, `authority` is the path of the certificate that signed the server's. `hello` has name, key or
        take."""
        self._base, _, self._token = address.strip().partition("/#")
        self._ssl = ssl.create_default_context(cafile=authority) if authority else None
        self._hello = hello
        self._number = 0
        self._open: dict[int, asyncio.Future[Frame]] = {}
        self.received: list[Frame] = []
        """All news from the server so far."""
        self.welcome: Welcome = {}

    @property
    def at(self) -> str:
        return str(self.welcome["at"])

    @property
    def key(self) -> str:
        return str(self.welcome["key"])

    async def __aenter__(self) -> Seat:
        self._session = aiohttp.ClientSession()
        try:
            url = URL(f"{self._base}/live?{urllib.parse.quote(self._token, safe='%')}", encoded=True)
            self._socket = await self._session.ws_connect(
                url, headers={"Origin": self._base}, max_msg_size=LONGEST_ANSWER, ssl=self._ssl)
            self._reader = asyncio.create_task(self._read())
            self.welcome = (await self.say("hello", **self._hello))["welcome"]
        except BaseException:
            await self._session.close()
            raise
        return self

    async def __aexit__(self, kind: type[BaseException] | None, fault: BaseException | None,
                        trace: TracebackType | None) -> None:
        await self._socket.close()
        await self._session.close()
        self._reader.cancel()

    async def _read(self) -> None:
        async for message in self._socket:
            value: Frame = json.loads(message.data)
            waiting = self._open.pop(value["id"], None) if "id" in value else None
            if waiting is None:
                self.received.append(value)
            elif not waiting.done():
                waiting.set_result(value)
        for waiting in self._open.values():
            if not waiting.done():
                waiting.set_exception(Closed(self._socket.close_code))
        self._open.clear()

    async def reply(self, verb: str, **fields: object) -> Frame:
        """Send a command with these fields and return the reply, which may be a refusal. Raise ConnectionError if none comes."""
        if self._socket.closed or self._reader.done():
            raise Closed(self._socket.close_code)
        self._number += 1
        waiting: asyncio.Future[Frame] = asyncio.get_running_loop().create_future()
        waiting.add_done_callback(lambda one: one.cancelled() or one.exception())  # else asyncio logs a fault that nobody awaits
        self._open[self._number] = waiting
        try:
            async with asyncio.timeout(PATIENCE):
                await self._socket.send_str(json.dumps({"id": self._number, verb: fields}))
                return await waiting
        except TimeoutError:
            raise ConnectionError(f"the server has not answered `{verb}` for {PATIENCE:.0f} seconds") from None

    async def say(self, verb: str, **fields: object) -> Frame:
        """Send a command and return the reply. Raise `RefusedReply` if the command is refused."""
        reply = await self.reply(verb, **fields)
        if "refused" in reply:
            raise RefusedReply(reply)
        return reply

    async def ask(self, verb: str, **fields: object) -> Frame:
        """Send a command about the seat's own road, or about the road `at` if that is given, and return the reply."""
        asked: dict[str, object] = {"at": self.at, **fields}
        return await self.say(verb, **asked)
