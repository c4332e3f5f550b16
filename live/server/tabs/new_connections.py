"""Accept connections from each address in turn, so that no address locks the others out.

    doors = Doors(sockets, protocol, certificate, token)
    doors.open()
    await doors.serve()             never returns
    doors.close()
    strangers = Strangers(connections, known)
    await strangers.watch()         closes connections that do not become tabs in time

A connection waits for its first bytes, and then in a queue of its address: those that show the token in one, all others in another. So
connections without the token keep no tab of their own address out. (With TLS the first bytes do not show it.) If too many wait, the
oldest are closed. Only a few connections may be in their TLS handshake, since each takes a third of a megabyte.
"""
from __future__ import annotations

import asyncio
import collections
import contextlib
import hmac
import ipaddress
import logging
import re
import socket
import ssl
import time
import urllib.parse
from typing import AsyncIterator, Callable, Container, Coroutine, Deque, Iterable, Protocol

MOST_QUEUED = 64  # connections in a queue
MOST_QUEUES = 512
REQUEST = re.compile(rb"GET /live\?(\S*) ")  # the beginning of a tab's request, with its token
LONGEST_START = 512  # bytes in which the token must come
ENTRY_BURST, ENTRIES_PER_SECOND = 128, 100  # connections that may enter in a burst, and per second
MOST_SILENT = 256  # connections before their first bytes
MOST_ENTERING = 64  # connections in their TLS handshake
HANDSHAKE = 10.0  # seconds for the first bytes, and again for the handshake
TLS_SHUTDOWN = 5.0  # seconds for the TLS shutdown
AT_A_TIME = 256  # connections that are accepted before other work has its turn
MOST_UNKNOWN_OF_ADDRESS, MOST_UNKNOWN = 64, 512  # connections that are not tabs, of an address, and of all addresses
SHORT = 60.0  # seconds in which a connection must become a tab
LOOK_EVERY = 0.2  # seconds between two looks at connections that are not tabs
TOO_MANY = 0.5  # seconds until the next try if the system has no more sockets


class Connection(Protocol):
    """A connection of aiohttp. It has no transport once it is closed."""

    @property
    def transport(self) -> asyncio.Transport | None:
        """Return the transport; None if the connection is closed."""


Line = tuple[str, bool]
"""Whose queue it is: an address, and whether it is for those that show the token."""


class Doors:
    """Listening sockets, and the queues of connections that wait to enter."""

    def __init__(self, sockets: list[socket.socket], protocol: Callable[[], asyncio.Protocol], certificate: ssl.SSLContext | None,
                 token: str) -> None:
        self._sockets, self._protocol, self._certificate, self._token = sockets, protocol, certificate, token
        self._waiting: collections.OrderedDict[Line, Deque[socket.socket]] = collections.OrderedDict()
        self._silent: dict[asyncio.Future[None], str] = {}  # tasks that wait for first bytes, the oldest first, and their addresses
        self._entering: dict[asyncio.Future[None], str] = {}  # tasks in the TLS handshake, in the same way
        self._come = asyncio.Event()
        self._left, self._at = float(ENTRY_BURST), time.monotonic()

    def open(self) -> None:
        """Accept connections from now on."""
        for door in self._sockets:
            door.setblocking(False)
            asyncio.get_running_loop().add_reader(door, self._accept, door)

    def _accept(self, door: socket.socket) -> None:
        loop = asyncio.get_running_loop()
        for _ in range(AT_A_TIME):
            try:
                connection, (address, *_) = door.accept()
            except (BlockingIOError, InterruptedError, ConnectionError):
                return
            except OSError as fault:
                logging.warning("new connections wait for a moment: %s", fault)
                loop.remove_reader(door)
                loop.call_later(TOO_MANY, self._resume, door)
                return
            self._hear(connection, address_group(address))

    def _resume(self, door: socket.socket) -> None:
        if door.fileno() >= 0:
            asyncio.get_running_loop().add_reader(door, self._accept, door)

    def _hear(self, connection: socket.socket, address: str) -> None:
        """Put a connection into the queue of its address once it has sent something."""
        add_task(self._silent, self._wait_for_bytes(connection, address), address, MOST_SILENT)

    async def _wait_for_bytes(self, connection: socket.socket, address: str) -> None:
        async with closed_after_fault(connection):
            async with asyncio.timeout(HANDSHAKE):
                await wait_for_first_bytes(connection)
            said = connection.recv(LONGEST_START, socket.MSG_PEEK)
            if not said:
                raise ConnectionError("the other end has closed the connection")
            request = REQUEST.match(said)
            self._put(connection, (address, request is not None and is_token(request[1].decode("latin-1"), self._token)))

    def _put(self, connection: socket.socket, line: Line) -> None:
        """Put a connection into its queue. Close the oldest one if the queue is full."""
        queue = self._waiting.setdefault(line, collections.deque())
        queue.append(connection)
        if len(queue) > MOST_QUEUED:
            queue.popleft().close()
        if len(self._waiting) > MOST_QUEUES:  # drop the queue whose turn is last
            for other in self._waiting.popitem()[1]:
                other.close()
        self._come.set()

    async def serve(self) -> None:
        """Let waiting connections enter, from one queue after the other."""
        while True:
            self._come.clear()
            while self._waiting:
                await self._wait_to_enter()
                line, queue = self._waiting.popitem(last=False)
                connection = queue.popleft()
                if queue:
                    self._waiting[line] = queue
                add_task(self._entering, self._connect(connection), line[0], MOST_ENTERING)
            await self._come.wait()

    async def _wait_to_enter(self) -> None:
        """Wait until one more connection may enter."""
        now = time.monotonic()
        self._left = min(ENTRY_BURST, self._left + ENTRIES_PER_SECOND * (now - self._at)) - 1
        self._at = now
        await asyncio.sleep(max(0.0, -self._left / ENTRIES_PER_SECOND))

    async def _connect(self, connection: socket.socket) -> None:
        has_tls = self._certificate is not None
        async with closed_after_fault(connection):
            await asyncio.get_running_loop().connect_accepted_socket(
                self._protocol, connection, ssl=self._certificate, ssl_handshake_timeout=HANDSHAKE if has_tls else None,
                ssl_shutdown_timeout=TLS_SHUTDOWN if has_tls else None)

    def close(self) -> None:
        """Close the listening sockets and all connections that have not entered."""
        for door in self._sockets:
            asyncio.get_running_loop().remove_reader(door)
            door.close()
        for task in [*self._silent, *self._entering]:
            task.cancel()
        for queue in self._waiting.values():
            for connection in queue:
                connection.close()
        self._waiting.clear()


def add_task(tasks: dict[asyncio.Future[None], str], work: Coroutine[object, object, None], address: str, most: int) -> None:
    """Start a task for an address. If there are then more than `most`, cancel the oldest task of the address with the most tasks."""
    task = asyncio.ensure_future(work)
    tasks[task] = address
    task.add_done_callback(lambda one: tasks.pop(one, None))
    if len(tasks) > most:
        counts = collections.Counter(tasks.values())
        worst = max(counts.values())
        oldest = next(one for one, of in tasks.items() if counts[of] == worst)
        del tasks[oldest]
        oldest.cancel()


@contextlib.asynccontextmanager
async def closed_after_fault(connection: socket.socket) -> AsyncIterator[None]:
    """Close a connection if the block fails or is cancelled; ignore errors of the connection and of TLS, which are OSErrors."""
    try:
        yield
    except (OSError, asyncio.TimeoutError):
        connection.close()
    except asyncio.CancelledError:
        with contextlib.suppress(OSError):
            connection.close()
        raise


async def wait_for_first_bytes(connection: socket.socket) -> None:
    """Wait until there is something to read. A silent connection costs a socket, and nothing else."""
    loop, said = asyncio.get_running_loop(), asyncio.Event()
    connection.setblocking(False)
    loop.add_reader(connection, said.set)
    try:
        await said.wait()
    finally:
        loop.remove_reader(connection)


def is_token(said: str, token: str) -> bool:
    """Return whether the query of a request, in percent-encoding, is the token."""
    return hmac.compare_digest(urllib.parse.unquote_to_bytes(said), token.encode())


def address_group(address: str) -> str:
    """Return the address, or for IPv6 its /64 network, since one host may have all addresses of such a network."""
    if ":" not in address:
        return address
    long = ipaddress.IPv6Address(address.partition("%")[0])
    return str(long.ipv4_mapped or ipaddress.ip_network((long, 64), strict=False))


class Strangers:
    """Closes connections that are not tabs: the oldest if there are too many, and all after a time."""

    def __init__(self, connections: Callable[[], Iterable[Connection]], known: Callable[[], Container[Connection]]) -> None:
        """`connections` returns all connections, `known` those of tabs."""
        self._connections, self._known = connections, known
        self._since: dict[Connection, float] = {}

    async def watch(self) -> None:
        """Look at all connections again and again; never return."""
        while True:
            await asyncio.sleep(LOOK_EVERY)
            self.look(time.monotonic())

    def look(self, now: float) -> None:
        known = self._known()
        there = {one: one.transport for one in self._connections() if one not in known and one.transport is not None}
        self._since = {one: self._since.get(one, now) for one in there}
        addresses = {one: address_of(transport) for one, transport in there.items()}
        counts = collections.Counter(addresses.values())
        for connection, address in sorted(addresses.items(), key=lambda pair: self._since[pair[0]]):
            is_late = now - self._since[connection] > SHORT
            if counts[address] > MOST_UNKNOWN_OF_ADDRESS or counts.total() > MOST_UNKNOWN or is_late:
                counts[address] -= 1
                there[connection].abort()


def address_of(transport: asyncio.Transport) -> str:
    return address_group(str((transport.get_extra_info("peername") or ("",))[0]))
