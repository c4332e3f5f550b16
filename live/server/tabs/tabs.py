"""Serve tabs: their sockets, `hello`, frames and refusals, and news, which no tab asks for.

Nobody waits for a bad tab. A tab that does not read its replies is disconnected, a tab that sends too much gets `Busy`, and a tab that
sends malformed frames is disconnected.
"""
from __future__ import annotations

import asyncio
import collections
import contextlib
import functools
import logging
import re
import socket as sockets
import struct
import time
from typing import TYPE_CHECKING, Callable, Deque, Mapping

from aiohttp import WSMsgType, web
from zegdrut.program.programs import describe_standing

from ..base.json_values import Json, find_depth, read_json, to_json
from ..base.refusals import Refused, not_a_command
from ..base.supervised import supervise
from ..figures.figures import list_heads
from ..journal.state import TAB_FORM
from ..lab import new_road
from ..lab.gestures import Lab
from ..lab.road_clock import STEPS_AHEAD
from ..model.reading import LONGEST_NAME
from ..program.program import Times
from . import verbs
from .fields import CommandFields
from .new_connections import is_token
from .questions import MOST_BYTES, MOST_ROWS, Questions, Reply

if TYPE_CHECKING:
    from aiohttp.web_protocol import RequestHandler

    from ..sites.peers import BrokerState

LONGEST_FRAME = 65_536
MOST_PENDING = 8  # commands of a tab that may wait
MOST_NESTED = 20  # lists and objects in one another, in a frame
NUMBER = re.compile(r'\{"id": ?([0-9]{1,15}),')  # the beginning of a frame, up to its number
MOST_CHANGING = 2 * MOST_PENDING  # waiting commands of a seat that change something, including those of former tabs
FLOOD_PAUSE = 0.01  # seconds that a tab is not read after each frame too many
MOST_FAULTS = 20  # malformed frames
MOST_TABS = 200
FRAME_PATIENCE = 20.0  # seconds for a tab to read a frame, and to answer a ping
CLOSE_PATIENCE = 5.0  # seconds for a tab to close its end, once it has been told why
ABNORMAL = 1006  # the close code of a socket whose other end has not sent a close frame
NAMED = 900.0  # seconds to `hello`, while a person types a name
BUFFER = 262_144  # bytes for a tab in the kernel's send buffer
TOLD_EVERY = 0.2  # seconds between two news of a running clock
STANDS = 60.0  # seconds for which the page says that a task of the server has ended
MOST_IN_NEWS = 50  # operations in news


class Tab:
    """A tab's socket, and the frames that wait to be sent: all replies in their order, and the latest news of each kind."""

    def __init__(self, tabs: Tabs, socket: web.WebSocketResponse, connection: RequestHandler) -> None:
        self._tabs, self._socket, self.connection = tabs, socket, connection
        self.index: int | None = None  # its seat, once it has said hello
        self._replies: Deque[str] = collections.deque()
        self._news: dict[str, Callable[[], object]] = {}  # by kind: a function that returns the news when it is sent
        self.steps: list[int] = []  # first steps of changes of the shared road that the tab has not been told of
        self._wake, self._read = asyncio.Event(), asyncio.Event()
        self._faults = 0
        self._asked: dict[asyncio.Future[None], str] = {}  # tasks that answer, and their commands
        self._is_entering = False
        self._tasks: list[asyncio.Task[None]] = []
        self.close_reason = 1000, "ended"

    async def serve(self) -> None:
        """Read and write frames until the tab goes or is disconnected."""
        self._tasks = [asyncio.create_task(part) for part in (self._read_frames(), self._write_frames(), self._require_hello())]
        try:
            await asyncio.wait(self._tasks[:2], return_when=asyncio.FIRST_COMPLETED)
        finally:
            looks = [task for task, verb in self._asked.items() if not verbs.is_change(verb)]  # nobody needs their answers
            for task in [*self._tasks, *looks]:
                task.cancel()
            for result in await asyncio.gather(*self._tasks, return_exceptions=True):
                if isinstance(result, Exception):
                    logging.error("a tab was disconnected because of a fault in the server: %r", result)

    def disconnect(self, code: int, why: str) -> None:
        """Stop serving the tab. Its own handler closes the socket, since a close from another task would be lost."""
        self.close_reason = code, why
        for task in self._tasks[:2]:
            task.cancel()

    def tell(self, kind: str, value: object) -> None:
        self.tell_then(kind, lambda: value)

    def tell_then(self, kind: str, value: Callable[[], object]) -> None:
        """Tell the tab news that `value` works out when it is sent, since it would take long to do so for many tabs at once."""
        self._news[kind] = value
        self._wake.set()

    def _next_message(self) -> str:
        """Return the frame to send next: a reply if there is one, else news."""
        if self._replies:
            return self._replies.popleft()
        kind = next(iter(self._news))
        return to_json({kind: self._news.pop(kind)()})

    async def _require_hello(self) -> None:
        await asyncio.sleep(NAMED)
        if self.index is None and not self._is_entering:
            self.disconnect(1008, "no hello")

    async def _write_frames(self) -> None:
        while True:
            await self._wake.wait()
            self._wake.clear()
            while self._replies or self._news:
                text = self._next_message()
                self._read.set()
                try:
                    async with asyncio.timeout(FRAME_PATIENCE):  # (`wait_for` may swallow a cancellation of the task)
                        await self._socket.send_str(text)
                except asyncio.TimeoutError:
                    self.close_reason = 1013, "too slow"
                    return
                except (ConnectionError, RuntimeError):
                    return

    async def _read_frames(self) -> None:
        async for message in self._socket:
            if message.type != WSMsgType.TEXT:
                self.close_reason = 1003, "frames are text"
                return
            await self._handle_frame(message.data)
            while len(self._replies) > MOST_PENDING:  # do not read from a tab that does not read
                self._read.clear()
                await self._read.wait()

    async def _handle_frame(self, text: str) -> None:
        came = time.perf_counter()
        try:
            number, verb, fields = parse_frame(text)
        except (ValueError, RecursionError) as fault:
            self._faults += 1
            if self._faults >= MOST_FAULTS:
                self.disconnect(1008, "too many malformed frames")
            asked = NUMBER.match(text)
            self._send({**({"id": int(asked[1])} if asked else {}),
                        **not_a_command(f'a frame must be {{"id":NUMBER,"COMMAND":{{..}}}} ({fault})').reply()})
            return
        if verb == "hello" or verb == "seats" and self.index is None:
            await self._enter(number, verb, fields)
        elif self.index is None:
            self.disconnect(1008, "the first command must be hello")
        elif len(self._asked) >= MOST_PENDING or verbs.is_change(verb) and self._tabs.changing[self.index] >= MOST_CHANGING:
            self._send({"id": number, **Refused("Busy", f"{MOST_PENDING} commands of this tab are waiting: try again later").reply()})
            await asyncio.sleep(FLOOD_PAUSE)
        else:
            task = asyncio.ensure_future(self._answer(self.index, number, verb, fields, came))
            self._asked[task] = verb
            task.add_done_callback(self._asked.pop)
            await asyncio.sleep(0)  # so that a tab's commands begin in their order

    async def _enter(self, number: int, verb: str, fields: Json) -> None:
        self._is_entering = True
        try:
            asked = CommandFields(verb, fields)
            if verb == "seats":
                asked.refuse_unknown()
                self._send({"id": number, "seats": await self._tabs.lab.seating.list_saved_seats()})
            elif self.index is not None:
                raise not_a_command("this tab has a seat already, so it cannot send `hello` again")
            else:
                self._send({"id": number, "welcome": await self._tabs.welcome(self, asked)})
                self._tabs.register(self)
        except Refused as fault:
            self._send({"id": number, **fault.reply()})
        finally:
            self._is_entering = False

    async def _answer(self, index: int, number: int, verb: str, fields: Json, came: float) -> None:
        times: Times = {}
        reply: Reply
        changes = verbs.is_change(verb)
        self._tabs.changing[index] += changes
        try:
            reply = await self._tabs.answer(self, index, verb, fields, times)
        except Refused as fault:
            reply = fault.reply()
        except Exception:  # pylint: disable=broad-except
            logging.exception("`%s` failed", verb)
            reply = Refused("Failed", "the server could not do this; its log says why").reply()
        finally:
            self._tabs.changing[index] -= changes
        times["server"] = time.perf_counter() - came
        us = to_json({name: round(1e6 * value) for name, value in times.items()})
        text = reply.decode() if isinstance(reply, bytes) else to_json(reply)
        self._replies.append(f'{{"id":{number},"us":{us}{"," if len(text) > 2 else ""}{text[1:]}')
        self._wake.set()

    def _send(self, value: Mapping[str, object]) -> None:
        self._replies.append(to_json(value))
        self._wake.set()


def parse_frame(text: str) -> tuple[int, str, Json]:
    """Return number, command and fields of a frame. Raise ValueError if it is malformed or not UTF-8, or its values are nested too deep."""
    text.encode()
    if text.count("[") + text.count("{") > MOST_NESTED and find_depth(text) > MOST_NESTED:
        raise ValueError(f"its values are nested more than {MOST_NESTED} deep")
    value = read_json(text)
    number = value.get("id") if isinstance(value, dict) else None
    if not isinstance(value, dict) or type(number) is not int or len(value) != 2:
        raise ValueError("no command")
    del value["id"]
    if not 0 <= number < 1 << 53:
        raise ValueError("no number")
    (verb, fields), = value.items()
    return number, verb, fields


class Tabs:
    """All tabs of a server."""

    def __init__(self, lab: Lab, token: str) -> None:
        self.lab, self.token = lab, token
        self._questions = Questions(lab)
        self._all: set[Tab] = set()
        self.changing: collections.Counter[int] = collections.Counter()  # by seat: commands that change something and are not done
        self._standing = describe_standing(lab.keeper.path)  # a warning if the program is unproved
        self.broker: Callable[[], BrokerState | None] = lambda: None  # returns the state of the broker
        listeners, keeper = lab.keeper.listeners, lab.keeper
        listeners.shared.on(self._news)
        listeners.seats.on(self._seats)
        listeners.clock.on(self._clock)
        listeners.days.on(self._days)
        listeners.trouble.on(self._tell_trouble)
        listeners.program.on(lambda: self._tell_all("program", {"changes": keeper.replacements, "why": keeper.why_replaced}))
        self._ended: str | None = None  # a sentence about a task of the server that has ended a moment ago
        listeners.ended.on(self._show_fault)
        self._ticks = supervise("the news of the clock", self._tick, listeners.ended.notify)

    # Coming and going

    async def welcome(self, tab: Tab, asked: CommandFields) -> Mapping[str, object]:
        """Give a tab its seat. Return the fields of `welcome`."""
        with asked:
            name, key = asked.text("name", LONGEST_NAME, ""), asked.text("key", 100, "")
            take = asked.whole("take") if asked.has("take") else None
            if asked.whole("form", default=TAB_FORM) != TAB_FORM:
                raise Refused("OtherVersion", f"this page is older or newer than the server, which has version {TAB_FORM}: reload the page")
        index, key = await self.lab.seating.join(name, key, take)
        for other in self._all:
            if other.index == index:
                other.index = None
                self._questions.drop_seat(index)
                other.disconnect(4000, "this seat is open in another tab")
        tab.index = index
        self.lab.keeper.connected.add(index)
        state = self.lab.keeper.state
        seat = state.seats[index]
        plan: Mapping[str, object] = {**state.plan, "replicas": []}
        return {"at": seat.at, "seat": index, "name": seat.name, "key": key, "form": TAB_FORM, "site": state.site, "plan": plan,
                "horizon": self.lab.keeper.target_steps.get(index, 0), **self.lab.keeper.clock().fields(), "ahead": STEPS_AHEAD,
                "time": round(time.time(), 3),
                "most": {"rows": MOST_ROWS, "bytes": MOST_BYTES,
                         "days": self.lab.keeper.settings.days}, "broker": self.broker(),
                "trouble": self._trouble, "standing": self._standing, "day": self._day(), "origin": state.units.origin, "lead": state.units.begin,
                "demand_end": new_road.find_profile_end(self.lab.keeper.folder, state.units.begin),
                "road": new_road.name_of(self.lab.keeper.folder), "figures": list_heads(state.plan, state.units),
                "variants": [*seat.variants]}

    def _day(self) -> Mapping[str, int | str | None]:
        """Return the time of day at minute 0 in seconds after midnight, the date and the time zone, as far as they are known."""
        clock = new_road.clock_of(self.lab.keeper.folder)
        if clock is None:
            return {"begin": None, "date": None, "zone": None}
        date, zone = (None if one is None else str(one) for one in (clock.date, clock.zone))
        return {"begin": clock.begin, "date": date, "zone": zone}

    def register(self, tab: Tab) -> None:
        self._tell_news(tab, None)
        self._seats()

    def _unregister(self, tab: Tab) -> None:
        self._all.discard(tab)
        if tab.index is not None:
            self.lab.seating.leave(tab.index)
            self._questions.drop_seat(tab.index)
            self._seats()

    def known(self) -> set[RequestHandler]:
        """Return the connections of all tabs."""
        return {tab.connection for tab in self._all}

    async def socket(self, request: web.Request) -> web.WebSocketResponse:
        """Serve a tab on a new WebSocket until the tab goes, if it shows the token."""
        if len(self._all) >= MOST_TABS:
            raise web.HTTPServiceUnavailable(text=f"{MOST_TABS} tabs are open, which is the limit: close one")
        socket = web.WebSocketResponse(max_msg_size=LONGEST_FRAME + 1, heartbeat=2 * FRAME_PATIENCE, compress=False)
        await socket.prepare(request)
        if not is_token(request.rel_url.raw_query_string, self.token):
            await self._close_socket(request, socket, 1008, "the address has a wrong token: open the address that live/serve printed")
            return socket
        socket_of(request).setsockopt(sockets.SOL_SOCKET, sockets.SO_SNDBUF, BUFFER)
        tab = Tab(self, socket, request.protocol)
        self._all.add(tab)
        try:
            await tab.serve()
        finally:
            self._unregister(tab)
        await self._close_socket(request, socket, *tab.close_reason)
        return socket

    async def _close_socket(self, request: web.Request, socket: web.WebSocketResponse, code: int, why: str) -> None:
        """Tell the tab why, and wait for some seconds until it has closed its end; discard what it still sends. If the socket were closed
        at once with unread data, the system would reset the connection, and the tab would not learn why."""
        try:
            async with asyncio.timeout(1):
                await socket.close(code=code, message=why.encode())
        except (asyncio.TimeoutError, ConnectionError, RuntimeError):
            pass
        if code != 1013 and socket.close_code == ABNORMAL:  # the tab has not sent a close frame
            request.protocol.close()
            request.protocol.resume_reading()
            until = time.monotonic() + CLOSE_PATIENCE
            while request.transport is not None and time.monotonic() < until:
                await asyncio.sleep(0.02)
        if request.transport is not None and (code == 1013 or socket.close_code == ABNORMAL):
            socket_of(request).setsockopt(sockets.SOL_SOCKET, sockets.SO_LINGER, struct.pack("ii", 1, 0))
            request.transport.abort()  # a close would wait until the tab has read everything, perhaps for ever

    async def close(self) -> None:
        self._ticks.cancel()
        for tab in list(self._all):
            tab.disconnect(1012, "the server stops")
        self._questions.close()
        await asyncio.sleep(0)

    # Answers

    async def answer(self, tab: Tab, index: int, verb: str, fields: Json, times: Times) -> Reply:
        """Return the reply to a command of a seat. Raise `Refused` if the command is refused."""
        if verb == "ping":
            return {"pong": fields}
        reply = await verbs.answer(self.lab, self._questions, index, CommandFields(verb, fields), times)
        if verb == "take":
            self._tell_news(tab, None)
        elif verb == "leave":
            self._drop_tab(tab, index)
        return reply

    def _drop_tab(self, tab: Tab, index: int) -> None:
        """Disconnect the tab of a seat that was freed, after a moment."""
        tab.index = None
        self.lab.keeper.connected.discard(index)
        self._questions.drop_seat(index)
        self._seats()
        asyncio.get_running_loop().call_later(TOLD_EVERY, tab.disconnect, 4001, "the seat was left")

    # News

    def _tell_all(self, kind: str, value: object) -> None:
        for tab in self._all:
            if tab.index is not None:
                tab.tell(kind, value)

    def tell_broker(self) -> None:
        self._tell_all("broker", self.broker())

    def _clock(self) -> None:
        self._tell_all("clock", self.lab.keeper.clock().fields())

    @property
    def _trouble(self) -> str | None:
        """Return a sentence that says what is wrong with the disk or the server; None if nothing is."""
        return self.lab.keeper.trouble or self._ended

    def _tell_trouble(self) -> None:
        self._tell_all("trouble", self._trouble)

    def _show_fault(self, sentence: str | None) -> None:
        """Show for a while a sentence about a task of the server that has ended."""
        self._ended = sentence
        self._tell_trouble()
        if sentence is not None:
            asyncio.get_running_loop().call_later(STANDS, self._show_fault, None)

    def _days(self, index: int, done: int, days: int) -> None:
        """Tell the tab of a seat how many days of its question are done."""
        for tab in self._all:
            if tab.index == index:
                tab.tell("days", {"done": done, "days": days})

    def _seats(self) -> None:
        if any(tab.index is not None for tab in self._all):
            asyncio.ensure_future(self._tell_seats())

    async def _tell_seats(self) -> None:
        with contextlib.suppress(Refused):
            self._tell_all("seats", await self.lab.seating.list_saved_seats())

    def _news(self, touched: int | None) -> None:
        for tab in self._all:
            self._tell_news(tab, touched)

    def _tell_news(self, tab: Tab, touched: int | None) -> None:
        """Tell a tab what was shared and its seat has not taken. `touched` is the first step that has changed, or None."""
        index = tab.index
        if index is None:
            return
        tab.steps += [] if touched is None else [touched]
        tab.tell_then("news", functools.partial(self._news_of, tab, index))

    def _news_of(self, tab: Tab, index: int) -> Mapping[str, object]:
        """Return the news for a tab. Their `touched` is the first of all steps that the tab has not been told of."""
        first, tab.steps = min(tab.steps, default=None), []
        return {**self.lab.unseen_shares(index, MOST_IN_NEWS), "touched": first}

    async def _tick(self) -> None:
        while True:
            await asyncio.sleep(TOLD_EVERY)
            if self.lab.keeper.state.rate:
                self._clock()


def socket_of(request: web.Request) -> sockets.socket:
    assert request.transport is not None
    socket: sockets.socket = request.transport.get_extra_info("socket")
    return socket
