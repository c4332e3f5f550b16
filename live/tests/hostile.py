"""Test hostile frames, tabs and addresses: each gets a refusal, and nobody else is slowed down."""
from __future__ import annotations

import asyncio
import contextlib
import json
import os
import signal
import socket as sockets
import time
from pathlib import Path
from typing import Any
from unittest import mock

import aiohttp

from server.tabs import verbs
from server.tabs.fields import CommandFields
from server.base.refusals import Refused
from server.shell.client import Seat
from server.tabs.new_connections import ENTRY_BURST, MOST_QUEUED, Doors, Strangers, address_group
from server.tabs.tabs import Tab, parse_frame
from running import PATIENCE, SMALL, Case, Server, transport_of, until
from working import takes_at_most



class Frames(Case):
    """The replies to frames that are sent unchanged."""

    async def asyncSetUp(self) -> None:
        self.a6 = self.server()
        self.base, _, self.token = self.a6.address.partition("/#")
        self.session = await self.enterAsyncContext(aiohttp.ClientSession())

    async def connect(self, token: str, **headers: str) -> aiohttp.ClientWebSocketResponse:
        """Connect as a tab that shows this token."""
        return await self.session.ws_connect(f"{self.base}/live?{token}", headers={"Origin": self.base, **headers})

    async def raw(self, *frames: str | bytes, **headers: str) -> list[Any]:
        """Send frames. Return the replies, and at last the code with which the socket was closed, or None."""
        socket = await self.connect(self.token, **headers)
        replies: list[Any] = []
        for frame in frames:
            await (socket.send_str(frame) if isinstance(frame, str) else socket.send_bytes(frame))
            while True:
                message = await asyncio.wait_for(socket.receive(), PATIENCE)
                if message.type != aiohttp.WSMsgType.TEXT:
                    await socket.close()
                    return [*replies, socket.close_code]
                value = json.loads(message.data)
                if "id" in value or "refused" in value:
                    replies.append(value)
                    break
        await socket.close()
        return [*replies, None]

    def hello(self, name: str) -> str:
        return json.dumps({"id": 0, "hello": {"name": name}})

    async def status(self, path: str, **headers: str) -> int:
        async with self.session.get(self.base + path, headers=headers) as reply:
            return reply.status

    async def test_origin_and_host_are_the_servers_own(self) -> None:
        for headers in ({"Origin": "http://evil.example"}, {"Origin": "null"},
                        {"Origin": self.base.replace("http", "https")},
                        {"Host": "evil.example"}, {"Host": "evil.example", "Origin": "http://evil.example"}):
            with self.assertRaises(aiohttp.WSServerHandshakeError) as caught:
                await self.raw("x", **headers)
            self.assertEqual(caught.exception.status, 403, headers)
        with self.assertRaises(aiohttp.WSServerHandshakeError):
            await self.session.ws_connect(f"{self.base}/live?{self.token}")
        self.assertEqual(await self.status("/", Host="evil.example"), 403)

    async def test_no_other_files_are_served(self) -> None:
        for path in ("/serve", "/lab.py", "/token", "/plan.json", "/../token", "/%2e%2e/token", "/page/..%2f..%2ftoken",
                     "/page/%2e%2e", "/page/../lab.py", "/page/a.py", "/page/README.md", "/tests/hostile.py",
                     "/tests/connection.test.mjs", "/viewer/drawing.js/", "/viewer/page.js", "/viewer/index.html", "/viewer/drawing.d.mts",
                     "//etc/passwd"):
            reader, writer = await asyncio.open_connection("127.0.0.1", int(self.base.rpartition(":")[2]))
            writer.write(f"GET {path} HTTP/1.1\r\nHost: {self.base[7:]}\r\nConnection: close\r\n\r\n".encode())
            self.assertIn(b" 404 ", await reader.readline(), path)
            writer.close()

    async def test_a_connection_has_one_request(self) -> None:
        """Then the limit of new connections holds for requests, too."""
        for path, status in (("/", 200), ("/live", 403), ("/nothing", 404)):
            reader, writer = await asyncio.open_connection("127.0.0.1", int(self.base.rpartition(":")[2]))
            writer.write(2 * f"GET {path} HTTP/1.1\r\nHost: {self.base[7:]}\r\n\r\n".encode())
            said = await asyncio.wait_for(reader.read(), PATIENCE)  # until the server closes it
            self.assertTrue(said.startswith(f"HTTP/1.1 {status} ".encode()), said[:40])
            self.assertEqual((said.count(b"HTTP/1.1 "), said.lower().count(b"connection: close")), (1, 1), path)
            writer.close()

    async def test_the_page_may_load_nothing_from_elsewhere(self) -> None:
        async with self.session.get(self.base + "/viewer/drawing.js") as one, self.session.get(self.base + "/") as other:
            for reply in (one, other):
                if reply.status == 200:
                    policy = reply.headers["Content-Security-Policy"]
                    for part in ("default-src 'none'", "script-src 'self'", "frame-ancestors 'none'", "base-uri 'none'"):
                        self.assertIn(part, policy)
                    self.assertNotIn("unsafe", policy)
                    self.assertEqual(reply.headers["Referrer-Policy"], "no-referrer")

    async def test_the_token_admits_a_tab(self) -> None:
        for token in ("", "wrong", self.token[:-1], self.token + "x", "\u00e9", f"token={self.token}", self.token + "&x=1"):
            socket = await self.connect(token)
            closed = await asyncio.wait_for(socket.receive(), PATIENCE)
            self.assertEqual((closed.data, closed.extra),
                             (1008, "the address has a wrong token: open the address that live/serve printed"), token)
        self.assertEqual(await self.raw('{"id":1,"advance":{"at":"seat1","to":5}}'), [1008])
        for frame in ('{"id":1,"hello":{"name":"x","token":"x"}}', '{"id":1,"seats":{"token":"x"}}'):
            self.assertEqual((await self.raw(frame))[0]["refused"], "not a command")
        self.assertEqual((await self.raw('{"id":1,"seats":{}}'))[0]["seats"], [])

    async def test_a_tab_that_never_sends_a_name_is_disconnected_at_last(self) -> None:
        self.enterContext(mock.patch("server.tabs.tabs.NAMED", 0.1))
        tab = Tab(mock.Mock(), mock.Mock(), mock.Mock())
        await asyncio.wait_for(tab._require_hello(), PATIENCE)
        self.assertEqual(tab.close_reason, (1008, "no hello"))

    async def test_malformed_frames_get_a_refusal(self) -> None:
        for number, frame in enumerate((
                "", "x", "[]", "7", "null", "[" * 60_000, '{"id":1}', '{"id":"1","ping":{}}', '{"id":1.5,"ping":{}}',
                '{"id":true,"ping":{}}',
                '{"id":-1,"ping":{}}', '{"id":' + "9" * 5_000 + ',"ping":{}}', '{"id":1,"ping":{},"pong":{}}',
                '{"ping":{}}',
                '{"id":1,"ping":NaN}', '{"id":1,"ping":1e999}', '{"id":1,"ping":"\\ud800"}', '{"id":1,"\\udfff":{}}')):
            replies = await self.raw(self.hello(f"f{number}"), frame, '{"id":2,"ping":5}')
            self.assertEqual(replies[1]["refused"], "not a command", frame[:40])
            self.assertEqual(replies[1].get("id"), 1 if frame.startswith('{"id":1,') else None, frame[:40])
            self.assertEqual(replies[2]["pong"], 5)

    async def test_values_that_are_nested_too_deep_are_refused(self) -> None:
        """Brackets in texts do not count, and 20 of them are allowed."""
        deep = "[" * 980 + "]" * 980
        for number, (verb, fields) in enumerate((("gesture", '"key":"k","note":DEEP,"shape":["limit",2,2,50,null,1]'), ("gesture", '"key":"k","shape":DEEP'),
                                                 ("send", '"name":"shared","title":DEEP'), ("variant", '"name":DEEP'), ("ping", '"a":"\\"",' + '"b":DEEP'))):
            frame = f'{{"id":7,"{verb}":{{"at":"seat1",{fields.replace("DEEP", deep)}}}}}'
            replies = await self.raw(self.hello(f"d{number}"), frame)
            self.assertEqual((replies[1]["id"], replies[1]["refused"]), (7, "not a command"), verb)
            self.assertIn("nested more than 20 deep", replies[1]["why"])
        text = "[{" * 400 + '\\"'
        for name, said in (("e", f'"{text}"'), ("f", "[" * 19 + "]" * 19)):
            self.assertIn("pong", (await self.raw(self.hello(name), f'{{"id":2,"ping":{said}}}'))[1])
        self.assertIn("refused", (await self.raw(self.hello("g"), '{"id":2,"ping":' + "[" * 20 + "]" * 20 + "}"))[1])
        self.assertNotIn("Traceback", self.a6.said())

    async def test_frames_beyond_the_limit_close_the_socket(self) -> None:
        fits = json.dumps({"id": 2, "ping": ""})
        most = fits[:-2] + "x" * (65_536 - len(fits)) + fits[-2:]
        self.assertEqual(len((await self.raw(self.hello("a"), most))[1]["pong"]), 65_536 - len(fits))
        for number, more in enumerate((1, 1, 1_000, 1_000, 3_000_000, 3_000_000)):  # the code is heard each time
            frame = most[:-2] + "x" * more + most[-2:]
            self.assertEqual((await self.raw(self.hello(f"b{number}"), frame))[1:], [1009], more)
        self.assertEqual((await self.raw(self.hello("c"), b"\x00binary"))[1:], [1003])
        self.assertEqual((await self.raw(self.hello("d"), *["x"] * 40))[-1], 1008)

    async def test_an_endless_frame_is_refused_and_not_kept(self) -> None:
        host = self.base.rpartition("/")[2]
        reader, writer = await asyncio.open_connection("127.0.0.1", int(host.rpartition(":")[2]))
        writer.write((f"GET /live?{self.token} HTTP/1.1\r\nHost: {host}\r\nOrigin: {self.base}\r\nUpgrade: websocket\r\n"
                      "Connection: Upgrade\r\nSec-WebSocket-Version: 13\r\n"
                      "Sec-WebSocket-Key: AAAAAAAAAAAAAAAAAAAAAA==\r\n\r\n").encode())
        await asyncio.wait_for(reader.readuntil(b"\r\n\r\n"), PATIENCE)
        before = memory(self.a6)
        writer.write(b"\x81\xff" + (1 << 40).to_bytes(8, "big") + b"mask" + bytes(1 << 20))
        self.assertEqual(await asyncio.wait_for(reader.readexactly(4), PATIENCE), b"\x88\x02" + (1009).to_bytes(2, "big"))

        async def sends_on() -> None:
            while True:
                writer.write(bytes(1 << 20))
                await writer.drain()
                await asyncio.sleep(0.01)
        with self.assertRaises(ConnectionError):  # in the end it is disconnected
            await asyncio.wait_for(sends_on(), PATIENCE)
        self.assertLess(memory(self.a6), before + 30)

    async def test_malformed_commands_are_refused_and_change_nothing(self) -> None:
        async with self.a6.seat("good") as good, self.a6.seat("bad") as bad:
            shape, stamp = ["limit", 1, 1, 5, None, 1], [9, "M47dx6_hno3g_1R9IF57TQ"]
            for verb, fields, refusal in (
                    ("diagram", {"at": good.at, "from": 0, "to": 5}, "NotYourReplica"),
                    ("gesture", {"at": good.at, "shape": shape, "key": "k"}, "NotYourReplica"),
                    ("gesture", {"at": "shared", "shape": shape, "key": "k"}, "NotYourReplica"),
                    ("take", {"at": good.at, "message": "shared"}, "NotYourReplica"),
                    ("undo", {"at": "shared", "stamp": stamp, "key": "k"}, "NotYourReplica"),
                    ("import", {"at": bad.at, "edits": [], "form": 2}, "not a command"),
                    ("crowd", {"form": 2, "shares": [[]], "to": 1_000_000}, "not a command"),
                    ("heads", {"at": bad.at, "name": "x"}, "not a command"),
                    ("beyond", {"at": bad.at}, "not a command"),
                    ("send", {"at": bad.at, "name": "other"}, "not a command"),
                    ("take", {"at": bad.at, "message": "x"}, "not a command"),
                    ("eval", {}, "not a command"), ("__class__", {"at": bad.at}, "not a command"),
                    ("hello", {}, "not a command"),
                    ("advance", {"at": bad.at, "to": 1_048_577}, "Horizon"),
                    ("advance", {"at": bad.at, "to": 36_001}, "TooFarAhead"),
                    ("advance", {"at": bad.at, "to": True}, "not a command"),
                    ("advance", {"at": bad.at, "to": "5"}, "not a command"),
                    ("advance", {"at": bad.at}, "not a command"), ("clock", {"rate": 1e9}, "Range"),
                    ("clock", {"rate": -1}, "Range"),
                    ("clock", {"rate": "1"}, "Range"), ("clock", {"to": 36_001}, "Range"),
                    ("clock", {"what": 1}, "not a command"),
                    ("clock", 7, "not a command"), ("diagram", {"at": bad.at, "from": 0, "to": 4_000_000}, "Range"),
                    ("diagram", {"at": bad.at, "from": 5, "to": 0}, "Range"),
                    ("diagram", {"at": bad.at, "from": 0, "to": 5}, "NotSimulated"),
                    ("diagram", {"at": bad.at, "from": 0, "to": 0, "every": 0}, "Range"),
                    ("diagram", {"at": bad.at, "from": 0, "to": 0, "cells": [0, 120]}, "Range"),
                    ("means", {"at": bad.at, "from": 0, "to": 70, "every": 9, "wide": 9}, "not a command"),
                    ("sums", {"at": bad.at, "from": 0, "to": 7_260}, "Range"),
                    ("sums", {"at": bad.at, "from": 30, "to": 90}, "Range"),
                    ("sums", {"at": bad.at, "from": 0, "to": 60}, "NotSimulated"),
                    ("counts", {"at": bad.at, "from": 0, "to": 4_000_000, "each": 1}, "Range"),
                    ("cells", {"at": bad.at, "step": 0, "x\n{\"crowd\":1}": "\n"}, "not a command"),
                    ("cells", {"at": bad.at, "step": 1.5}, "not a command"),
                    ("count", {"at": bad.at, "detector": 9, "from": 0, "to": 0}, "NoDetector"),
                    ("gesture", {"at": bad.at, "shape": shape}, "not a command"),
                    ("gesture", {"at": bad.at, "shape": shape, "key": ""}, "not a command"),
                    ("gesture", {"at": bad.at, "shape": shape, "key": "k" * 41}, "not a command"),
                    ("gesture", {"at": bad.at, "shape": shape, "key": "k", "stamp": stamp}, "not a command"),
                    ("gesture", {"at": bad.at, "shape": shape, "key": "k", "note": 7}, "not a command"),
                    ("gesture", {"at": bad.at, "edits": [["limit", 1, 5, 1]], "key": "k"}, "not a command"),
                    ("edit", {"at": bad.at, "object": ["limit", 1], "step": 5, "value": 1}, "not a command"),
                    ("withdraw", {"at": bad.at, "object": ["limit", 1], "step": 5}, "not a command"),
                    ("numbers", {}, "not a command"), ("unbind", {"site": "north-00000000"}, "not a command"),
                    ("gesture", {"at": bad.at, "shape": ["limit", 1, 1, 5, None, -1], "key": "k"}, "not a command"),
                    ("gesture", {"at": bad.at, "shape": ["capacity", 1, 1, 5, None, [900, 2, 0]], "key": "k"}, "not a command"),
                    ("gesture", {"at": bad.at, "shape": ["capacity", 1, 1, 5, None, [900, 10, 0, 0]], "key": "k"}, "ValueOutOfRange"),
                    ("gesture", {"at": bad.at, "shape": ["block", 60, 61, -1, None, 1], "key": "k"}, "not a command"),
                    ("gesture", {"at": bad.at, "shape": ["block", -1, 61, 5, None, 1], "key": "k"}, "not a command"),
                    ("gesture", {"at": bad.at, "shape": ["block", 60, 120, 5, None, 1], "key": "k"}, "NoObject"),
                    ("site", {"at": bad.at, "key": "k", "site": bad.welcome["site"], "out": True}, "OwnSite"),
                    ("site", {"at": bad.at, "key": "k", "site": "north", "out": True}, "not a command"),
                    ("site", {"at": bad.at, "key": "k", "site": 2, "out": True}, "not a command"),
                    ("site", {"at": "shared", "key": "k", "site": "north-00000000", "out": True}, "NotYourReplica"),
                    ("gesture", {"at": bad.at, "key": "k", "shape": ["x"]}, "not a command"),
                    *(("undo", {"at": bad.at, "stamp": wrong, "key": "k"}, "not a command") for wrong in (
                        [1 << 53, stamp[1]], [9, 65], [9, "x"], [9], [9, "+" * 22], [9, stamp[1], 1]))):
                said = await bad.reply(verb, **fields) if isinstance(fields, dict) else await self.other(bad, verb, fields)
                self.assertEqual(said.get("refused"), refusal, (verb, fields, said))
                self.assertGreater(len(said["why"]), 10)
            for seat, at in ((bad, bad.at), (good, good.at), (bad, "shared")):
                self.assertEqual((await seat.ask("scenario", at=at))["edits"], [])
            self.assertEqual({kind for entry in self.a6.journal() for kind in entry} - {"left"}, {"lab", "seat"})

    async def other(self, seat: Seat, verb: str, fields: Any) -> Any:
        replies = await self.raw(self.hello("other"), json.dumps({"id": 9, verb: fields}))
        return replies[1]


class Long(Case):
    """Malformed frames of 64 KB delay nobody."""

    def test_faults_of_large_frames_are_found_quickly(self) -> None:
        def many(one: str) -> str:
            return "[" + ",".join([one] * (64_000 // (len(one) + 1))) + "]"
        wrong = [*map(many, ("1", "[]", "[1]", '["x",1,1,1]', '["limitt",1,1,1]', '["limit",1,1,1.5]', '["limit",1,1,1]', '"x"',
                             "null", "{}", "9" * 4_200)),
                 json.dumps("limit" * 12_000), f'["{"limit " * 10_000}",1]', '[["' + "limit" * 12_000 + '",1,1,1]]',
                 "[" * 900 + "]" * 900, json.dumps("7" * 60_000), json.dumps(" " * 60_000 + "7"), json.dumps('"' * 30_000)]
        reads: dict[str, Any] = {
            "stamps": CommandFields.stamps, "shape": CommandFields.shape, "layer": lambda asked: asked.stamp_or_key("layer"),
            "to": lambda asked: asked.whole("to"), "key": CommandFields.key, "note": lambda asked: asked.text("note", 200)}
        frames = [(f'{{"id":1,"x":{{"{name}":{value}}}}}', read) for name, read in reads.items() for value in wrong]
        for frame, read in frames:
            with takes_at_most(0.05, frame[:40]), contextlib.suppress(Refused, ValueError):  # (of values that are nested too deep)
                _, verb, fields = parse_frame(frame)
                read(CommandFields(verb, fields))


class Connection(asyncio.Transport):
    """A connection from an address, which may be cut."""

    def __init__(self, address: str) -> None:
        super().__init__()
        self.transport: Connection | None = self
        self._address = address

    def get_extra_info(self, name: str, default: object = None) -> tuple[str, int]:
        return self._address, 50_000

    def abort(self) -> None:
        self.transport = None


class Crowds(Case):
    def test_a_network_of_one_host_counts_as_one_address(self) -> None:
        for one, other, is_one in (("1.2.3.4", "1.2.3.5", False), ("2001:db8::1", "2001:db8::ffff:2", True), ("::1", "::1", True),
                                   ("2001:db8::1", "2001:db8:0:1::1", False), ("fe80::1%eth0", "fe80::2%eth0", True),
                                   ("::ffff:1.2.3.4", "1.2.3.4", True), ("::ffff:1.2.3.4", "::ffff:1.2.3.5", False)):
            self.assertEqual(address_group(one) == address_group(other), is_one, (one, other))

    def test_strangers_are_at_most_64_of_an_address_and_512_in_all_for_a_minute(self) -> None:
        """Beyond these numbers the oldest are cut. A tab does not count as a stranger."""
        ones: list[Connection] = []
        strangers = Strangers(lambda: ones, lambda: set(ones[:2]))

        def come(addresses: list[str], now: float) -> list[bool]:
            """Connect from these addresses, one after the other within a second. Return which are still connected."""
            for place, address in enumerate(addresses):
                ones.append(Connection(address))
                strangers.look(now + place / len(addresses))
            return [one.transport is not None for one in ones]
        self.assertEqual(come(["a"] * 67, 0), [True] * 2 + [False] * 1 + [True] * 64)
        there = come([f"b{number}" for number in range(449)], 30)
        self.assertEqual(there, [True] * 2 + [False] * 2 + [True] * (63 + 449))
        self.assertEqual(come(["c"], 62).count(True), 2 + 449 + 1)  # none of the first ones is left
        self.assertEqual(come(["c"], 123).count(True), 2 + 1)

    async def test_sockets_without_a_token_lock_nobody_out(self) -> None:
        """Many sockets send nothing, never finish a request, or show no token. Tabs that had joined stay."""
        server = self.server()
        base, _, _ = server.address.partition("/#")
        host = base.rpartition("/")[2]
        async with server.seat("Ada") as ada:
            head = f"GET /live HTTP/1.1\r\nHost: {host}\r\nOrigin: {base}\r\n"
            upgrade = ("Upgrade: websocket\r\nConnection: Upgrade\r\nSec-WebSocket-Version: 13\r\n"
                       "Sec-WebSocket-Key: AAAAAAAAAAAAAAAAAAAAAA==\r\n\r\n")
            for said in ("", head, head + upgrade):
                for _ in range(150):
                    _, writer = await asyncio.open_connection("127.0.0.1", int(host.rpartition(":")[2]))
                    self.addCleanup(writer.close)
                    writer.write(said.encode())
            async with server.seat("Ben") as ben:
                self.assertEqual((await ben.reply("ping"))["pong"], {})
            await until(lambda: self.are_few(server), "most of them are cut")
            self.assertEqual((await ada.reply("ping"))["pong"], {})

    async def test_a_flood_from_its_own_address_keeps_no_tab_out(self) -> None:
        """A connection with the token enters before 200 further ones of the same address do."""
        entered = list[int]()

        class Entered(asyncio.Protocol):
            def connection_made(self, transport: asyncio.BaseTransport) -> None:
                entered.append(transport.get_extra_info("peername")[1])
        door = sockets.create_server(("127.0.0.1", 0), backlog=1_024)
        doors = Doors([door], Entered, None, "a token of the server")
        doors.open()
        tasks = [asyncio.create_task(doors.serve())]

        async def end_all() -> None:
            for task in tasks:
                task.cancel()
            await asyncio.gather(*tasks, return_exceptions=True)
            doors.close()
        self.addAsyncCleanup(end_all)

        async def connect(query: str) -> int:
            _, writer = await asyncio.open_connection(*door.getsockname()[:2])
            self.addCleanup(writer.close)
            writer.write(f"GET /{query} HTTP/1.1\r\nHost: x\r\n\r\n".encode())
            return int(writer.get_extra_info("sockname")[1])

        async def flood() -> None:
            while True:
                await asyncio.gather(*(connect(query) for query in ("", "live?another%20token", "live") for _ in range(50)))
        tasks.append(asyncio.create_task(flood()))
        for _ in range(3):
            while len(entered) < ENTRY_BURST or max(map(len, doors._waiting.values()), default=0) < MOST_QUEUED:
                await asyncio.sleep(0.01)
            before, own = len(entered), await connect("live?a%20token%20of%20the%20server")
            while own not in entered:
                self.assertLess(len(entered), before + 200)
                await asyncio.sleep(0.01)

    async def are_few(self, server: Server) -> bool:
        """Return whether the server has few files and sockets open."""
        return len(os.listdir(f"/proc/{server.process.pid}/fd")) < 110


class Neighbours(Case):
    """One tab makes gestures and asks for rows while others flood the server, never read, or edit the first step."""

    async def goes_on(self, seat: Seat) -> None:
        """Make gestures, and wait for their rows. (live/measure measures how long that takes.)"""
        for number in range(15):
            await seat.ask("gesture", key=f"{number}", shape=["limit", 3, 3, 150, None, number % 5])
            await seat.ask("diagram", **{"from": 140, "to": 200})

    async def ready(self, server: Server, name: str) -> Seat:
        seat = await self.enterAsyncContext(server.seat(name))
        await seat.ask("advance", to=200)
        return seat

    async def test_nobody_waits_for_questions_of_tabs_that_have_gone(self) -> None:
        """The tab of a seat is reopened again and again, and each time it asks questions that take long. The program is stopped while a tab is
        there, so it answers none of its questions before the tab has gone."""
        plan = {**SMALL, "length": 2_000, "zone": 1_000, "zones": [[5, 6_554]] * 2}
        server = self.server(plan=plan)
        async with server.seat("Ada") as ada:
            await ada.say("clock", to=7_200)
            await ada.ask("advance", to=7_200)
            rows = {"from": 0, "to": 7_000, "every": 7, "cells": [0, 1_000]}
            before = used(server)
            for _ in range(4):
                await ada.ask("diagram", **rows)
            alone, before = (used(server) - before) / 4, used(server)
        for _ in range(8):
            async with server.seat(key=ada.key) as tab:
                os.kill(server.program, signal.SIGSTOP)
                for number in range(8):
                    await tab._socket.send_str(json.dumps({"id": number, "diagram": {"at": tab.at, **rows}}))
                await tab.reply("ping")  # all are read
            os.kill(server.program, signal.SIGCONT)
        async with server.seat(key=ada.key) as tab:
            await tab.ask("scenario")
        spent = list[int]()

        async def is_idle() -> bool:
            spent.append(used(server))
            await asyncio.sleep(1)
            return used(server) == spent[-1]
        await until(is_idle, "the program has nothing to do")
        self.assertLess(spent[-1] - before, 16 * alone)  # of 64

    async def test_nobody_waits_for_a_tab_that_floods_or_never_reads(self) -> None:
        server = self.server()
        good = await self.ready(server, "good")
        flood, deaf = await self.ready(server, "flood"), await self.ready(server, "deaf")
        transport = transport_of(deaf)
        transport.pause_reading()

        said: set[Any] = set()

        async def floods() -> None:
            while True:
                replies = await asyncio.gather(*(flood.reply("scenario", at="shared") for _ in range(50)))
                said.update(one.get("refused") for one in replies)

        async def is_told_busy() -> bool:
            return "Busy" in said

        async def never_reads() -> None:
            with self.assertRaises((ConnectionError, aiohttp.ClientError, asyncio.TimeoutError)):
                for number in range(1_000_000):
                    frame = json.dumps({"id": number, "diagram": {"at": deaf.at, "from": 0, "to": 200}})
                    await asyncio.wait_for(deaf._socket.send_str(frame), PATIENCE)
        tasks = [asyncio.create_task(floods()), asyncio.create_task(never_reads())]
        await until(is_told_busy, "the flood is answered Busy")
        await self.goes_on(good)
        self.assertFalse(tasks[0].done(), "the flood ended")
        tasks[0].cancel()
        await asyncio.wait_for(tasks[1], PATIENCE)  # the server lets it go
        transport.resume_reading()
        with self.assertRaises(ConnectionError):
            await deaf.reply("ping")
        await good.reply("ping")
        self.assertLess(memory(server), 120)  # replies that nobody reads would be hundreds of megabytes


def used(server: Server) -> int:
    """Return the hundredths of a processor second that the program of the roads has used."""
    fields = Path(f"/proc/{server.program}/stat").read_text(encoding="ascii").rpartition(")")[2].split()
    return int(fields[11]) + int(fields[12])


def memory(server: Server) -> float:
    """Return the megabytes that the server has in memory."""
    with open(f"/proc/{server.process.pid}/status", encoding="ascii") as file:
        return int(next(line for line in file if line.startswith("VmRSS")).split()[1]) / 1_024
