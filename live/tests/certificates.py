"""Test that other hosts can reach the server only with TLS."""
from __future__ import annotations

import asyncio
import contextlib
import os
import re
import socket
import ssl
import subprocess
import sys
from pathlib import Path
from typing import Any, Iterator

import aiohttp

from hostile import memory
from server.shell.client import Seat
from running import LIVE, PATIENCE, Case, end, free_port, mosquitto, new_folder, started, until


FLOOD = """
import itertools, socket, sys, time
port, a_second = map(int, sys.argv[1:])
began, open_now = time.monotonic(), []
for number in itertools.count():
    try:
        one = socket.socket()
        one.setblocking(False)
        one.connect_ex(("127.0.0.1", port))
        open_now.append(one)
    except OSError:
        pass
    if len(open_now) > 900:
        open_now.pop(0).close()
    if number == a_second:
        print("under way", flush=True)
    time.sleep(max(0, began + number / a_second - time.monotonic()))
"""


@contextlib.contextmanager
def two_ports() -> Iterator[tuple[int, int]]:
    """Take two ports, one next to the other."""
    with contextlib.ExitStack() as taken:
        is_pair = False
        while not is_pair:
            port = taken.enter_context(socket.create_server(("127.0.0.1", 0))).getsockname()[1]
            with contextlib.suppress(OSError):
                taken.enter_context(socket.create_server(("127.0.0.1", port + 1)))
                is_pair = True
        yield port, port + 1


class Certificates(Case):
    def setUp(self) -> None:
        self.certificate = new_folder() / "certificate.pem"
        subprocess.run(["openssl", "req", "-x509", "-newkey", "rsa:2048", "-nodes", "-days", "2", "-subj", "/CN=road.example",
                        "-addext", "subjectAltName=DNS:localhost,IP:127.0.0.1", "-keyout",
                        self.certificate.parent / "key.pem",
                        "-out", self.certificate], check=True, capture_output=True)
        self.authority = str(self.certificate)
        both = self.certificate.parent / "both.pem"
        both.write_bytes(self.certificate.read_bytes() + (self.certificate.parent / "key.pem").read_bytes())
        self.both = str(both)

    async def test_a_tab_connects_over_tls(self) -> None:
        server = self.server("--listen", "0.0.0.0", "--name", "localhost", "--certificate", self.both)
        self.assertRegex(server.address, "^https://localhost:")
        async with Seat(server.address, self.authority, name="Ada") as ada:
            self.assertEqual((await ada.ask("gesture", key="1", shape=["limit", 1, 1, 5, None, 1]))["stamp"][0], 1)
        for address in (server.address.replace("https", "http"), server.address.replace("localhost", "127.0.0.1")):
            with self.assertRaises((aiohttp.ClientError, ssl.SSLError)):
                async with Seat(address, self.authority, name="Ben"):
                    pass

    async def test_nobody_waits_for_a_missing_handshake(self) -> None:
        server = self.server("--listen", "0.0.0.0", "--name", "localhost", "--certificate", self.both)
        port = int(server.address.partition("/#")[0].rpartition(":")[2])
        silent = [(await asyncio.open_connection("127.0.0.1", port)) for _ in range(300)]
        async with Seat(server.address, self.authority, name="Ada") as ada:
            self.assertEqual((await ada.reply("ping"))["pong"], {})
        for reader, writer in silent:  # they are cut long before a minute is over
            with contextlib.suppress(ConnectionError):
                self.assertEqual(await asyncio.wait_for(reader.read(), 40), b"")
            writer.close()

    async def test_many_missing_handshakes_cost_little(self) -> None:
        server = self.server("--listen", "0.0.0.0", "--name", "localhost", "--certificate", self.both)
        port, before = int(server.address.partition("/#")[0].rpartition(":")[2]), memory(server)
        silent = [(await asyncio.open_connection("127.0.0.1", port)) for _ in range(800)]
        async with Seat(server.address, self.authority, name="Ada") as ada:
            self.assertEqual((await ada.reply("ping"))["pong"], {})
            self.assertLess(memory(server), before + 60)
            self.assertLess(len(os.listdir(f"/proc/{server.process.pid}/fd")), 400)
        for _, writer in silent:
            writer.close()

    async def test_a_flood_from_one_address_locks_out_no_other_address(self) -> None:
        """One address opens 600 silent TLS connections a second. No connection of the other address is closed, and each gets the
        page in time."""
        server = self.server("--listen", "0.0.0.0", "--name", "localhost", "--certificate", self.both)
        port = int(server.address.partition("/#")[0].rpartition(":")[2])
        context = ssl.create_default_context(cafile=self.authority)

        async def page() -> bytes:
            reader, writer = await asyncio.open_connection("localhost", port, ssl=context, local_addr=("127.0.0.2", 0))
            writer.write(f"GET / HTTP/1.1\r\nHost: localhost:{port}\r\nConnection: close\r\n\r\n".encode())
            try:
                return await reader.read()
            finally:
                writer.close()
        flood = started([sys.executable, "-c", FLOOD, str(port), "600"], stdout=subprocess.PIPE)
        self.addCleanup(end, flood)
        assert flood.stdout is not None
        await asyncio.to_thread(flood.stdout.readline)
        for _ in range(20):
            self.assertIn(b"200 OK", (await asyncio.wait_for(page(), PATIENCE))[:20])
        self.assertIsNone(flood.poll(), "the flood ended")
        self.assertLess(memory(server), 200)

    async def test_a_broker_with_tls_and_a_password(self) -> None:
        folder, port = self.certificate.parent, free_port()
        subprocess.run(["mosquitto_passwd", "-b", "-c", folder / "passwords", "sites", "secret"], check=True)
        (folder / "password").write_text("secret\n")
        (folder / "wrong").write_text("wrong\n")
        (folder / "conf").write_text(
            f"listener {port} 127.0.0.1\nallow_anonymous false\npassword_file {folder}/passwords\n"
            f"certfile {self.certificate}\nkeyfile {folder}/key.pem\n" + ("user root\n" if os.geteuid() == 0 else ""))
        broker = started([mosquitto(), "-c", str(folder / "conf")], stdout=subprocess.DEVNULL, stderr=subprocess.DEVNULL)
        self.addCleanup(end, broker)
        words = ["--broker", f"localhost:{port}", "--broker-user", "sites", "--broker-authority", self.authority]
        sites = [self.server(*words, "--broker-password", str(folder / "password"), "--site", number) for number in "12"]
        stranger = self.server(*words, "--broker-password", str(folder / "wrong"), "--site", "3")
        async with sites[0].seat("Ada") as ada, sites[1].seat("Sam") as sam, stranger.seat("Eve") as eve:
            await ada.ask("gesture", key="1", shape=["limit", 1, 1, 5, None, 1])
            await ada.ask("send", name="shared")
            async def is_told() -> bool:
                told[:] = [one["broker"] for one in eve.received if "broker" in one and one["broker"]["told"]]
                return bool(told and (await sam.ask("scenario", at="shared"))["edits"])
            told: list[Any] = []
            await until(is_told, "the one has the edit, the other a warning")
            kind, index, step, *_, value = (await sam.ask("scenario", at="shared"))["edits"][0]    # stamps differ
            self.assertEqual((kind, index, step, value), ("limit", 1, 5, 1))
            self.assertIn("refused the connection", told[-1]["told"][0])
            self.assertEqual((await eve.ask("scenario", at="shared"))["edits"], [])

    def test_without_a_certificate_other_hosts_are_refused(self) -> None:
        self.refused("--listen 0.0.0.0 requires --certificate", "--listen", "0.0.0.0")
        folder = new_folder() / "new"
        self.refused("cannot be loaded as a certificate", "--listen", "0.0.0.0", "--name", "x", "--certificate", str(LIVE / "serve"),
                     "--folder", str(folder))
        self.assertFalse(folder.exists())

    def test_a_server_that_listens_everywhere_must_name_its_host(self) -> None:
        for everywhere in ("0.0.0.0", "::"):
            self.refused(f"--listen {everywhere} requires --name", "--listen", everywhere, "--certificate", self.both)

    def test_a_port_in_use_is_reported_at_once_with_the_next_free_one(self) -> None:
        """The port is tried before the road is opened, which may take long: here the program never answers. No new folder is
        left."""
        silent, folder = new_folder() / "road_lab", new_folder() / "new"
        silent.write_text("#!/bin/sh\nsleep 600\n", encoding="utf-8")
        silent.chmod(0o755)
        with two_ports() as (first, second):
            said = self.refused("Address already in use", "--port", str(first), "--program", str(silent), "--folder", str(folder))
        named = re.search(r"in use: --port (\d+) is free, and --port 0 takes any free port", said)
        assert named is not None, said
        self.assertGreater(int(named[1]), second)
        self.assertLess(int(named[1]), second + 100)
        self.assertFalse(folder.exists())

    def test_an_invalid_port_is_reported(self) -> None:
        """Otherwise the server would listen at another port, or wait for a broker that cannot exist."""
        for port in ("65536", "-1"):
            self.refused(f"--port must be 1 to 65535, or 0 for any free port, not {port}", "--port", port)
        for broker in ("127.0.0.1:65536", "127.0.0.1:0", "127.0.0.1:", "127.0.0.1:x"):
            self.refused(f"--broker must be HOST:PORT, not {broker}", "--broker", broker)

    def refused(self, why: str, *options: str) -> str:
        """Start a server that must fail. Return its message."""
        command: list[str | Path] = [sys.executable, LIVE / "serve", "--folder", new_folder(), "--port", "0", *options]
        ran = subprocess.run(command, capture_output=True, text=True, timeout=PATIENCE, check=False)
        self.assertNotEqual(ran.returncode, 0)
        self.assertEqual(ran.stdout, "")
        self.assertIn(why, ran.stderr)
        self.assertNotIn("Traceback", ran.stderr)
        return ran.stderr
