"""Test two sites with a broker that passes on packets which paho cannot read, refuses, stalls, answers rubbish or passes nothing on.

Nothing dies in silence: the page has a sentence, or says that the broker is away, and afterwards both sites hold the same.
"""
from __future__ import annotations

import argparse
import asyncio
import contextlib
import json
import signal
import socket
import time
from typing import Any, AsyncIterator, Awaitable, Callable
from unittest import mock

from faulty import Bus, Disk, Here, Message, message_of, told, written
from running import ALL, SMALL, Broker, Case, patience, until
from server.base import supervised
from server.base.json_values import to_json
from server.model.operations import About, Shape, put
from server.sites import brokers
from server.sites.inbox import MOST_WAITING
from server.sites.sites import Sites

FEFF = "\ufeff".encode()
TOO_LARGE = 0x95
CONNACK, PUBLISH, PUBACK, SUBSCRIBE, SUBACK, PING, PONG = 2, 3, 4, 8, 9, 12, 13  # kinds of packets
CONNECT = bytes([0x10, 16, 0, 4]) + b"MQTT" + bytes([5, 2, 0, 0, 0, 0, 3]) + b"eve"
FAULTS: dict[Here, list[str]] = {}  # the sentences about stopped tasks of each site
SAID = "A fault in the server has stopped the connection to the broker: it is started again. The server's log says why"


def packet(head: int, *parts: bytes) -> bytes:
    """Return a packet of MQTT of less than 16,384 bytes."""
    body = b"".join(parts)
    return bytes([head, len(body) & 127 | 128, len(body) >> 7]) + body


def text(value: bytes) -> bytes:
    return len(value).to_bytes(2, "big") + value


def publish_with_property(broker: Broker, topic: str, payload: bytes, quality: int = 0) -> None:
    """Publish a message that has U+FEFF in a user property."""
    told = bytes([38]) + text(FEFF) + text(b"x")
    with socket.create_connection(("127.0.0.1", broker.port), patience()) as eve:
        eve.sendall(CONNECT)
        eve.recv(100)
        number = b"\0\1" if quality else b""
        eve.sendall(packet(0x30 | quality << 1, text(topic.encode()), number, bytes([len(told)]), told, payload))
        if quality:
            eve.recv(100)
        eve.sendall(b"\xe0\0")


class Fake:
    """A broker that does what `answer` says for each packet: its kind and its body. By default it accepts all and passes nothing on."""

    def __init__(self, port: int, answers: dict[int, bytes] | None = None) -> None:
        self.port, self.answers, self.heard = port, answers or {}, list[int]()
        self.writers: list[asyncio.StreamWriter] = []

    async def __aenter__(self) -> Fake:
        self._server = await asyncio.start_server(self._serve, "127.0.0.1", self.port)
        self.port = self._server.sockets[0].getsockname()[1]
        return self

    async def __aexit__(self, *_: object) -> None:
        self._server.close()
        for writer in self.writers:
            writer.close()

    async def _serve(self, reader: asyncio.StreamReader, writer: asyncio.StreamWriter) -> None:
        self.writers.append(writer)
        with contextlib.suppress(asyncio.IncompleteReadError, ConnectionError):
            while True:
                head, length, shift, byte = (await reader.readexactly(1))[0], 0, 0, 128
                while byte & 128:
                    byte = (await reader.readexactly(1))[0]
                    length, shift = length | (byte & 127) << shift, shift + 7
                body = await reader.readexactly(length)
                self.heard.append(head >> 4)
                writer.write(self.answer(head, body))

    def answer(self, head: int, body: bytes) -> bytes:
        kind, number = head >> 4, body[:2]
        if kind == PUBLISH and head >> 1 & 3:
            behind = 2 + int.from_bytes(body[:2], "big")
            number = body[behind:behind + 2]
        usual = {1: bytes([0x20, 3, 0, 0, 0]), SUBSCRIBE: packet(0x90, number, b"\0", b"\1\0\0"), PING: b"\xd0\0",
                 PUBLISH: packet(0x40, number) if head >> 1 & 3 else b""}
        given = self.answers.get(kind, usual.get(kind, b""))
        return given.replace(b"NN", number) if kind != PUBLISH or head >> 1 & 3 else b""


class Faults(Case):
    def setUp(self) -> None:
        self.enterContext(mock.patch.object(supervised, "RESTART_PAUSE", 0.05))

    async def site(self, port: int, name: str) -> tuple[Here, Sites]:
        """Start a site in this process, and let it connect. `FAULTS` gets the sentences about stopped tasks."""
        here = await self.enterAsyncContext(Here(site=name, plan=SMALL))
        options = argparse.Namespace(broker=f"127.0.0.1:{port}", broker_user=None, broker_authority=None, site_key=None)
        site = Sites(here.lab, lambda: None, options)
        here.keeper.listeners.shared.on(lambda touched: site.send_shared())
        here.keeper.listeners.ended.on(FAULTS.setdefault(here, []).append)
        await self.enterAsyncContext(site)
        return here, site

    async def pair(self, broker: Broker) -> list[tuple[Here, Sites]]:
        """Start two sites with a seat each, and wait until they are connected."""
        sites = [await self.site(broker.port, name) for name in ("north", "south")]
        for here, _ in sites:
            await here.join("Ada")
        await self.are_connected(sites)
        return sites

    async def are_connected(self, sites: list[tuple[Here, Sites]], state: str = "connected") -> None:
        async def holds() -> bool:
            return all(site.state()["state"] == state for _, site in sites)
        await until(holds, state)

    async def come_together(self, sites: list[tuple[Here, Sites]], size: int) -> None:
        """Wait until all sites hold this many operations, the same ones, and nothing is unsent."""
        async def holds() -> bool:
            sums = {(await site._sum_up()).total for _, site in sites}
            return len(sums) == 1 and all((here.lab.state.shared.size, site.state()["unsent"]) == (size, 0) for here, site in sites)
        await until(holds, "the sites hold the same")

    async def share(self, here: Here, step: int, note: str = "") -> None:
        await here.ask(1, "gesture", key=f"k{step}", note=note, shape=["limit", 2, 2, step, None, 1 + step % 3])
        await here.share(1)


class Packets(Faults):
    async def test_a_message_with_any_property_stops_nobody(self) -> None:
        """paho reads U+FEFF as a fault, and ends."""
        broker = self.broker()
        sites = await self.pair(broker)
        (north, first), (_, second) = sites
        topic = first._operations_topic
        eve = to_json({"form": 4, "operations": [written(5, shape=["limit", 1, 1, 8, None, 2])]}).encode()
        publish_with_property(broker, topic, eve, 1)
        await self.come_together(sites, 1)  # the message itself is well-formed

        async def publish() -> None:
            for number in range(60 if ALL else 12):
                publish_with_property(broker, topic, b"x", number % 2)
                await asyncio.sleep(1 if ALL else 0.2)
        others = asyncio.create_task(publish())
        await asyncio.sleep(1)
        began = time.monotonic()
        await self.share(north, 50)
        await self.come_together(sites, 2)
        self.assertLess(time.monotonic() - began, patience(10))
        await others
        broker.kill()
        broker.start()
        await self.share(north, 60)
        await self.come_together(sites, 3)
        self.assertEqual([FAULTS[here] for here, _ in sites], [[], []])
        self.assertEqual(second.state()["state"], "connected")

    async def test_packets_are_read_whatever_they_have(self) -> None:
        body = text(b"road/sites") + b"\1\2"
        for properties, payload in ((b"\0", b"x"), (b"\3\x01\x00\x00", b"x"), (b"\x80\1" + b"y" * 128, b""), (b"\0", b"")):
            self.assertEqual(brokers.read_publish(body + properties + payload, 1), ("road/sites", 258, payload))
        self.assertEqual(brokers.read_publish(text(b"t") + b"\0\0", 0), ("t", None, b"\0"))
        for wrong in (b"", b"\5", b"\x80", b"\x80\x80\x80\x80\1", b"\xff\xff\xff\x7fx"):
            self.assertEqual(brokers.read_publish(body + wrong, 1), (None, 258, b""), wrong)
        self.assertEqual(brokers.read_publish(text(b"\xff") + b"\1\2\0", 1), (None, 258, b""))
        for wrong in (b"", b"\0", b"\0\5road", text(b"road"), text(b"road") + b"\1"):
            with self.assertRaises(ValueError):
                brokers.read_publish(wrong, 1)

    async def test_what_has_no_number_is_a_fault_and_the_rest_is_acknowledged(self) -> None:
        async with Fake(0, {SUBSCRIBE: packet(0x90, b"NN", b"\0\1\0\0") + packet(0x32, text(b"\xff"), b"\1\2", b"\0")}) as fake:
            here, _ = await self.site(fake.port, "north")
            await until(self.holds(lambda: PUBACK in fake.heard), "it is acknowledged")
            self.assertEqual(FAULTS[here], [])
            for writer in fake.writers:
                writer.write(packet(0x32, b"\0\5"))
            with self.assertLogs(level="ERROR"):
                await until(self.holds(lambda: FAULTS[here] == [SAID]), "the page says so")

    def holds(self, holds: Callable[[], bool]) -> Callable[[], Awaitable[bool]]:
        async def asked() -> bool:
            return holds()
        return asked


class Sizes(Faults):
    async def share_all(self, here: Here, count: int) -> None:
        for step in range(count):
            await here.ask(1, "gesture", key=f"k{step}", note="works " * 30, shape=["limit", 2, 2, step, None, 1 + step % 3])
        await here.share(1)

    async def test_what_a_broker_refuses_for_its_length_is_sent_in_shorter_messages(self) -> None:
        broker = self.broker(True, "message_size_limit 100000")
        sites = await self.pair(broker)
        await self.share_all(sites[0][0], 400)
        await self.come_together(sites, 400)
        self.assertEqual([(site.state()["told"], FAULTS[here]) for here, site in sites], [([], []), ([], [])])

    async def test_one_operation_that_is_too_long_is_named_and_a_sum_has_fewer_ranges(self) -> None:
        broker = self.broker(True, "message_size_limit 600")
        sites = await self.pair(broker)
        (here, site), _ = sites
        with mock.patch("server.sites.sums.MOST_IN_RANGE", 2):
            for step in range(30):
                await self.share(here, step)
            await self.come_together(sites, 30)
            await self.share(here, 40, "€" * 199)
            await self.share(here, 41)

            async def is_named() -> bool:
                return f"A change by Ada ({'€' * 199}) was not sent, since the broker takes no message of" in told(site)
            await until(is_named, "it is named")

            async def are_sent() -> bool:
                return site.state()["unsent"] == 1 and sites[1][0].lab.state.shared.size == 31
            await until(are_sent, "the others are sent")
            await site.announce()
            sums = await site._sum_up()
            self.assertEqual(len(sums.ranges()), 16)
            with mock.patch.object(site._client, "publish") as publish:
                site._outbox.send_sum(site._sum_topic, {}, sums)
        sent: bytes = publish.call_args[0][1]
        self.assertLess(len(sent), 600)
        self.assertIn(len(json.loads(sent.partition(b"\n")[2])["ranges"]), range(1, 16))

    async def test_sizes_are_tried_anew_at_the_next_connection(self) -> None:
        broker = self.broker(True, "message_size_limit 2000")
        sites = await self.pair(broker)
        (here, site), _ = sites
        await self.share_all(here, 20)
        await self.come_together(sites, 20)
        self.assertLess(site._outbox._size, 2_000)
        broker.kill()
        broker.start()
        await self.are_connected(sites, "connected")

        async def is_long() -> bool:
            return site._outbox._size == brokers.LONGEST_MESSAGE // 2
        await until(is_long, "the size is that of a new connection")

    async def test_a_refusal_that_paho_does_not_know_is_told(self) -> None:
        for code, why in ((0xe0, "reason 224"), (0x87, "Not authorized"), (0x95, "A change by Ada was not sent")):
            async with Fake(0, {PUBLISH: packet(0x40, b"NN", bytes([code, 0]))}) as fake:
                here, site = await self.site(fake.port, "north")
                await here.join("Ada")
                await self.share(here, 7)

                async def is_told() -> bool:
                    return why in told(site)
                await until(is_told, why)
                self.assertEqual((site.state()["unsent"], FAULTS[here]), (1, []))

    async def test_a_refused_connection_or_subscription_is_told(self) -> None:
        for answers, why in (({1: bytes([0x20, 3, 0, 0xe1, 0])}, "The broker refused the connection: reason 225"),
                             ({1: bytes([0x20, 3, 0, 0x87, 0])}, "The broker refused the connection: Not authorized"),
                             ({1: bytes([0x20, 3, 0, 0x95, 0])}, "The broker refused the connection: Packet too large"),
                             ({SUBSCRIBE: packet(0x90, b"NN", b"\0\x87\0\0")}, "does not deliver the other sites' messages: Not authorized"),
                             ({SUBSCRIBE: packet(0x90, b"NN", b"\0\1\0\xe3")}, "does not deliver the other sites' messages: reason 227"),
                             ({SUBSCRIBE: packet(0xe0, b"\xe2")}, "The broker has ended the connection: reason 226")):
            async with Fake(0, answers) as fake:
                here, site = await self.site(fake.port, "north")

                async def is_told() -> bool:
                    return why in told(site)
                await until(is_told, why)
                self.assertEqual(FAULTS[here], [])


class Endings(Faults):
    async def test_a_fault_in_what_the_client_calls_is_told_and_a_new_client_connects(self) -> None:
        """After each of them both sites come together."""
        for name in ("_on_open", "_on_gone", "_on_message", "_on_receipt", "_on_refusal"):
            broker, calls, does = self.broker(), list[str](), getattr(Sites, name)

            def fails(site: Sites, *given: Any) -> Any:
                if site._keeper.state.site.startswith("north"):
                    calls.append(name)
                    if len(calls) == 1:
                        raise KeyError("a fault in the server")
                return does(site, *given)
            with mock.patch.object(Sites, name, fails), self.assertLogs(level="ERROR"):
                sites = [await self.site(broker.port, which) for which in ("north", "south")]
                await sites[0][0].join("Ada")
                if name == "_on_refusal":
                    broker.kill()
                    async with Fake(broker.port, {SUBSCRIBE: packet(0xe0, b"\xe2")}):
                        await until(self.is_told(sites[0][0]), "the page says so")
                    broker.start()
                if name == "_on_gone":
                    await self.are_connected(sites)
                    broker.kill()
                    broker.start()
                await self.share(sites[0][0], 50)
                await until(self.is_told(sites[0][0]), name)
                await self.come_together(sites, 1)
                await self.are_connected(sites)
                self.assertEqual([len(FAULTS[here]) for here, _ in sites], [1, 0])
            broker.kill()

    def is_told(self, here: Here) -> Callable[[], Awaitable[bool]]:
        async def holds() -> bool:
            return FAULTS[here] == [SAID]
        return holds

    async def test_pauses_are_short_again_after_a_connection_that_lasted(self) -> None:
        async with Fake(0) as fake:
            _, site = await self.site(fake.port, "north")

            async def is_open() -> bool:
                return site._outbox.client is not None
            await until(is_open, "it is open")
            now = time.monotonic()
            for seconds, lasted in ((29.0, False), (31.0, True)):
                with mock.patch("server.sites.sites.time.monotonic", lambda seconds=seconds: now + seconds):
                    site._opened = now
                    self.assertEqual(site._has_lasted(3_600.0), lasted)

    async def test_another_version_of_paho_refuses_the_start(self) -> None:
        with mock.patch("paho.mqtt.__version__", "2.1.0"), self.assertRaisesRegex(Exception, "live needs version 1.6 .*, not 2.1.0"):
            brokers.check_version()


class Away(Faults):
    async def trouble(self, broker: Broker, trouble: Callable[[], contextlib.AbstractAsyncContextManager[None]]) -> None:
        """Let something happen to the broker, and see that the page says that it is away, and that the sites come together afterwards."""
        sites = await self.pair(broker)
        await self.share(sites[0][0], 50)
        await self.come_together(sites, 1)
        async with trouble():
            await self.are_connected(sites, "away")
            for number, (here, site) in enumerate(sites):
                await self.share(here, 60 + number)
                self.assertEqual(site.state()["unsent"], 1)
        await self.come_together(sites, 3)
        await self.are_connected(sites)

    async def test_a_broker_that_is_stopped(self) -> None:
        broker = self.broker()

        @contextlib.asynccontextmanager
        async def stopped() -> AsyncIterator[None]:
            broker.kill(signal.SIGTERM)
            yield
            broker.start()
        await self.trouble(broker, stopped)

    async def test_a_broker_that_is_paused(self) -> None:
        broker = self.broker()

        @contextlib.asynccontextmanager
        async def paused() -> AsyncIterator[None]:
            broker.process.send_signal(signal.SIGSTOP)
            yield
            broker.process.send_signal(signal.SIGCONT)
        await self.trouble(broker, paused)

    async def replaced(self, answers: dict[int, bytes]) -> None:
        broker = self.broker()

        @contextlib.asynccontextmanager
        async def fake() -> AsyncIterator[None]:
            broker.kill()
            async with Fake(broker.port, answers):
                yield
            broker.start()
        await self.trouble(broker, fake)

    async def test_a_broker_that_answers_rubbish(self) -> None:
        with mock.patch("logging.exception"), mock.patch("logging.error"):
            for rubbish in (b"\x20\3\0\7\0", b"HTTP/1.1 400 Bad Request\r\n\r\n" * 9, b"\xff" * 99, b"\x20\0", bytes(200)):
                await self.replaced({1: rubbish})
            await self.replaced({SUBSCRIBE: b"\x32\2\0\5\x40\1\0"})

    async def test_a_broker_that_takes_everything_and_passes_nothing_on(self) -> None:
        await self.replaced({})
        async with Fake(0) as fake:
            _, site = await self.site(fake.port, "north")

            async def is_open() -> bool:
                return fake.heard.count(PUBLISH) > 2
            await until(is_open, "it is open")
            self.assertEqual(site.state()["state"], "away")

    async def test_announcements_and_hashes_do_not_fill_the_inbox(self) -> None:
        """While operations wait for a slow disk, the broker's thread must go on reading."""
        bus = Bus()
        here = await self.enterAsyncContext(Here(site="north"))
        site = bus.site(here)
        for number in range(300):
            site._announce_site()
            for message in (bus.sent.pop(), Message(site._sum_topic, b"{}")):
                await asyncio.wait_for(asyncio.to_thread(site._on_message, brokers.Arrival(*message, None), lambda: None), patience(20))
        self.assertEqual(site.state()["behind"], MOST_WAITING // 2 - 1)
        for number in range(16):
            arrival = brokers.Arrival(site._operations_topic, b"{}", number)
            await asyncio.wait_for(asyncio.to_thread(site._on_message, arrival, lambda: None), patience(20))
        self.assertEqual(site.state()["behind"], MOST_WAITING // 2 + 15)

    async def test_a_site_whose_hash_takes_long_is_heard(self) -> None:
        broker = self.broker()
        hold = asyncio.Event()

        async def waits(site: Sites) -> str:
            await hold.wait()
            return ""
        with mock.patch.object(Sites, "_hash_road", waits), mock.patch("server.sites.sites.ANNOUNCE_EVERY", 0.2), \
                mock.patch("server.sites.sites.HEARD", 3.0):
            north = await self.site(broker.port, "north")
            await self.are_connected([north])
            for _ in range(30):
                await asyncio.sleep(0.2)
                self.assertEqual(north[1].state()["state"], "connected")
            hold.set()

    async def test_only_an_announcement_of_a_moment_ago_shows_that_the_connection_is_heard(self) -> None:
        """An older one, or that of another site, does not."""
        bus, now = Bus(), [1_000.0]
        north, south = [await self.enterAsyncContext(Here(site=name)) for name in ("north", "south")]
        with mock.patch("server.sites.sites.time.monotonic", lambda: now[0]):
            first, second = bus.site(north), bus.site(south)
            first._announce_site()
            old, = bus.sent
            await bus.give(second, old)
            self.assertEqual(second.state()["state"], "away")
            now[0] += 13
            await bus.give(first, old)
            self.assertEqual(first.state()["state"], "away")
            first._announce_site()
            await bus.give(first, bus.sent[-1])
            self.assertEqual(first.state()["state"], "connected")
            now[0] += 11
            self.assertEqual(first.state()["state"], "connected")
            now[0] += 2
            self.assertEqual(first.state()["state"], "away")

    async def test_a_slow_disk_is_no_broker_that_is_away(self) -> None:
        """The page says how many messages wait."""
        count = 20_000 if ALL else 2_500
        broker, states, behind = self.broker(), set[str](), 0
        (here, site), = sites = [await self.site(broker.port, "north")]
        await self.are_connected(sites)
        operations = [put(number, Shape("limit", 1 + number % 3, 2 + number % 3, number % 900, None, number % 5), About("Eve", site="eve-00000000"))
                      for number in range(1, count + 1)]
        with Disk(here.folder) as disk:
            disk.before = lambda name, _: time.sleep(6) if name == "fsync" else None
            for begin in range(0, count, 500):
                message = message_of(site, *operations[begin:begin + 500])
                await asyncio.to_thread(broker.say, message.topic, message.payload.decode())
            while here.lab.state.shared.size < count or site._inbox.behind:
                states.add(site.state()["state"])
                behind = max(behind, site.state()["behind"])
                await asyncio.sleep(0.2)
            disk.before = lambda *_: None
        self.assertEqual((states, behind > 1), ({"connected"}, True))
