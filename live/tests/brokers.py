"""Test two and three servers with a broker that is stopped, is killed, forgets everything, or gets garbage."""
from __future__ import annotations

import asyncio
import hashlib
import json
import os
import shutil
import signal
import subprocess
from pathlib import Path
from typing import Any

from server.shell.client import Seat
from zegdrut import Edit, RoadLab
from server.model.operations import Stamp
from server.sites.peers import BrokerState
from faulty import written
from running import SMALL, Broker, Case, Server, end, new_folder, until
from server.journal.entries import read_plan_line

TOTALS = {"from": 0, "to": 100}


async def put(seat: Seat, kind: str, index: int, begin: int, value: int, end: int | None = None) -> Stamp:
    """Put a shape of one object, and share it at once. Return its stamp."""
    count, name = (await seat.ask("gesture", key=os.urandom(8).hex(), shape=[kind, index, index, begin, end, value]))["stamp"]
    await seat.ask("send", name="shared")
    return count, name


async def shared(seat: Seat) -> list[Any]:
    """Return the edits of the shared road. Stamps are left out, since they are local to each server."""
    edits = (await seat.ask("scenario", at="shared"))["edits"]
    return [[*edit[:3], 1, 64, edit[5]] for edit in edits if edit[5] is not None]


def broker_of(seat: Seat) -> BrokerState:
    """Return the latest state of the broker that a seat was sent."""
    told = [seat.welcome["broker"], *(one["broker"] for one in seat.received if "broker" in one)]
    assert told[-1] is not None
    return told[-1]


def told(seat: Seat) -> list[str]:
    return list(broker_of(seat).get("told", []))


class Brokers(Case):
    def site(self, broker: Broker, name: str, plan: dict[str, Any] | None = None) -> Server:
        return self.server("--broker", broker.address, "--site", name, plan=plan)

    async def same(self, *seats: Seat, edits: int) -> list[Any]:
        """Wait until all shared replicas hold the same number of edits. Then check that their rows and totals are the same, and
        equal those of a program that got the edits in another order."""
        async def holds() -> bool:
            held = [await shared(seat) for seat in seats]
            return len(held[0]) == edits and all(one == held[0] for one in held)
        await until(holds, "all hold the same")
        seen = []
        for seat in seats:
            await seat.say("clock", to=max(100, seat.welcome["now"]))
            await seat.ask("advance", at="shared", to=100)
            seen.append(((await seat.ask("diagram", at="shared", **TOTALS))["rows"],
                         (await seat.ask("counts", at="shared", **TOTALS))["counts"]))
        self.assertEqual(seen, [seen[0]] * len(seats))
        scenario = await shared(seats[0])
        plan: dict[str, Any] = {**SMALL, "replicas": ["A"]}
        with RoadLab(read_plan_line(plan)) as lab:
            lab.advance("A", 100)
            for edit in reversed(scenario):
                lab.take_in("A", [Edit.read(edit)])
            self.assertEqual(seen[0], (lab.diagram("A", 0, 100), [list(lab.count("A", one, 0, 100)) for one in range(3)]))
        return scenario

    async def test_sites_agree_whatever_happens_to_the_broker(self) -> None:
        for keeps in (True, False):
            broker = self.broker(keeps)
            first, second = self.site(broker, "north"), self.site(broker, "south")
            async with first.seat("Ada") as ada:
                async with second.seat("Sam") as sam:
                    made = {await put(ada, "limit", 2, 80, 1): 1, await put(sam, "limit", 2, 80, 2): 2}
                    self.assertEqual(await self.same(ada, sam, edits=1), [["limit", 2, 80, 1, 64, made[max(made)]]])
                    await until(lambda: self.has_news(ada, "Sam"), "news of Sam")
                    key = sam.key
                second.kill()  # a site is away
                await put(ada, "limit", 3, 90, 3)
                await put(ada, "limit", 4, 91, 3)
                broker.kill()  # with the messages that it kept for the site
                await put(ada, "limit", 5, 92, 3)
                broker.start()
                second.start()
                async with second.seat(key=key) as sam:
                    await self.same(ada, sam, edits=4)
                    broker.kill(signal.SIGTERM)
                    await put(sam, "block", 60, 30, 1, 50)
                    first.restart()
                    async with first.seat(key=ada.key) as again:
                        await put(again, "block", 61, 30, 1)
                        broker.start()
                        third = self.site(broker, "east")  # it joins late, and gets everything
                        async with third.seat("Tom") as tom:
                            await self.same(again, sam, tom, edits=7)

    async def has_news(self, seat: Seat, name: str) -> bool:
        """Return whether the latest news of a seat is of changes by this person, among others."""
        news = [one["news"] for one in seat.received if "news" in one]
        return bool(news) and name in news[-1]["from"]

    async def test_a_title_goes_with_what_is_shared(self) -> None:
        broker = self.broker(keeps=False)
        first, second = self.site(broker, "north"), self.site(broker, "south")
        async with first.seat("Ada") as ada, second.seat("Sam") as sam:
            for number, title in enumerate(("night works", "by day")):
                if number:
                    broker.kill()  # what waits for the broker has its title, which the journal keeps, too
                await ada.ask("gesture", key=f"k{number}", shape=["limit", 2, 2, 80 + number, None, 1])
                await ada.ask("send", name="shared", title=title)
                if number:
                    first.restart()
                    broker.start()
                await until(lambda: self.has_title(sam, title), title)
            news = next(one["news"] for one in reversed(sam.received) if "news" in one)
            self.assertEqual([one["title"] for one in news["shares"]], ["night works", "by day"])

    async def has_title(self, seat: Seat, title: str) -> bool:
        """Return whether the server announced a single share to the seat: by Ada, with this title."""
        shares = [share for one in seat.received if "news" in one for share in one["news"]["shares"]]
        return bool(shares) and (shares[-1]["who"], shares[-1]["title"]) == ("Ada", title)

    async def test_garbage_is_ignored_and_reported(self) -> None:
        broker = self.broker()
        first, second = self.site(broker, "north"), self.site(broker, "south")
        topic = f"road/{reference(first)}/operations"

        def said(*operations: Any, **more: Any) -> str:
            return json.dumps({"form": 4, "operations": operations, **more})

        def limit(count: int, zone: int, step: int, **more: Any) -> dict[str, Any]:
            return written(count, shape=["limit", zone, zone, step, None, 1], who="Eve", **more)
        async with first.seat("Ada") as ada, second.seat("Sam") as sam:
            await put(ada, "limit", 1, 8, 1)
            await self.same(ada, sam, edits=1)
            for text, why in (
                    ("good morning", "not JSON"), ("", "not JSON"), ("[" * 3_000, "not JSON"), ("[1]", "no list"),
                    ('{"operations":7}', "no list"), (said(limit(1, 5, 8), form=3), "no list"),
                    (said(7), "an operation must be a JSON object"), (said(written(1)), "does nothing"),
                    (said(limit(1, 99, 8)), "no zone 99"), (said({**limit(1, 1, 8), "stamp": [1, 3]}), "stamp"),
                    (said({**limit(1, 1, 8), "who": "Eva"}), "the hash of its text is"),
                    (said(limit((1 << 50) + (1 << 24) + 9, 1, 20)), "1 changes were left out, since their counts are far"),
                    (said(limit(1 << 53, 1, 21)), "is not a whole number"), (said(limit(1, 1, 8, note="\ud800")), "not JSON"),
                    (said(limit(1, 1, 8, site=7)), "site"), (said(written(1, shape=["block", 1, 700, 1, 2, 1])), "at most 600 objects")):
                broker.say(topic, text)
                await until(lambda: self.is_told(why, ada, sam), why)
            await put(sam, "limit", 2, 5, 4)  # counts are not spent
            self.assertLess((await put(ada, "limit", 3, 6, 3))[0], 10)
            await self.same(ada, sam, edits=3)
            good = written(7, shape=["limit", 4, 4, 9, None, 2], who="Eve", note="by a script", seat=1, shared=False)
            broker.say(topic, said(7, good, {}))
            await self.same(ada, sam, edits=4)  # the valid operations of a message are taken
            came: Any = await ada.ask("operations", at="shared")
            self.assertEqual([came["operations"][-1][name] for name in ("who", "note", "seat", "shared")], ["Eve", "by a script", 1, False])
            self.assertEqual([came[name][-1] for name in ("makers", "shared")], [None, True])

    async def is_told(self, why: str, *seats: Seat) -> bool:
        return all(any(why in sentence for sentence in told(seat)) for seat in seats)

    async def stays(self, why: str, *seats: Seat) -> bool:
        """Return whether a permanent warning has this sentence."""
        return all(any(why in sentence for sentence in broker_of(seat).get("stays", [])) for seat in seats)

    async def test_two_running_copies_of_a_folder_both_send_and_are_reported(self) -> None:
        broker = self.broker()
        first = self.site(broker, "north")
        async with first.seat("Ada") as ada:
            await put(ada, "limit", 2, 80, 1)
        copy = new_folder() / "copy"
        shutil.copytree(first.folder, copy)
        second = Server(copy, None, "--broker", broker.address)
        self.addCleanup(lambda: end(second.process))
        async with first.seat(key=ada.key) as ada, second.seat("Sam") as sam:
            self.assertEqual(sam.welcome["site"], ada.welcome["site"])
            await put(ada, "limit", 3, 80, 1)
            await put(sam, "limit", 4, 80, 2)
            await self.same(ada, sam, edits=3)
            await until(lambda: self.stays("Another server runs a copy of this folder", ada, sam), "one folder twice")

    async def test_a_site_whose_plan_has_another_seed_is_reported(self) -> None:
        broker = self.broker()
        first, second = self.site(broker, "north"), self.site(broker, "south", {**SMALL, "words": 2})
        async with first.seat("Ada") as ada, second.seat("Sam") as sam:
            await until(lambda: self.stays("has another road", ada, sam), "another road")
            self.assertEqual(broker_of(ada)["sites"], [])
            await put(ada, "limit", 2, 80, 1)
            await until(lambda: self.broker_is(ada, "connected", 0), "it came back")
            self.assertEqual(await shared(sam), [])

    async def test_changes_that_have_not_come_back_are_shown(self) -> None:
        broker = self.broker()
        first = self.site(broker, "north")
        async with first.seat("Ada") as ada:
            await until(lambda: self.broker_is(ada, "connected", 0), "connected")
            broker.kill()
            await put(ada, "limit", 2, 80, 1)
            await until(lambda: self.broker_is(ada, "away", 1), "away")
            first.restart()
        async with first.seat(key=ada.key) as ada:
            self.assertEqual(broker_of(ada)["unsent"], 1)
            broker.start()
            await until(lambda: self.broker_is(ada, "connected", 0), "it came back")

    async def broker_is(self, seat: Seat, state: str, unsent: int) -> bool:
        now = broker_of(seat)
        return (now["state"], now["unsent"]) == (state, unsent)

    async def test_a_broker_delivers_no_message_above_the_limit(self) -> None:
        """However long it is, the server needs no memory for it, and takes other messages."""
        broker = self.broker()
        first = self.site(broker, "north")
        topic = f"road/{reference(first)}/operations"

        def message(count: int, length: int) -> str:
            text = json.dumps({"form": 4, "operations": [written(count, shape=["limit", 2, 2, 50 + count, None, 1], who="Eve")]})
            return text + " " * (length - len(text) - len(topic))
        async with first.seat("Ada") as ada:
            await until(lambda: self.broker_is(ada, "connected", 0), "connected")
            before = memory_of(first)
            for count, length in ((1, 999_900), (2, 1_000_000), (3, 40_000_000), (4, 100)):
                broker.say(topic, message(count, length))

            async def have_come() -> bool:
                lines: Any = (await ada.ask("layers", at="shared"))["layers"]
                counts.append([line["name"][0] for line in lines])
                return 4 in counts[-1]
            counts: list[Any] = []
            await until(have_come, "the last one has come")
            self.assertEqual(counts[-1], [1, 4])
            self.assertLess(memory_of(first) - before, 20_000_000)

    async def test_a_message_that_the_broker_does_not_take_is_not_sent_and_reported(self) -> None:
        """Messages are as short as this broker wants them; an operation that is longer is kept until it takes more."""
        broker = self.broker(True, "max_packet_size 2000")
        first, second = self.site(broker, "north"), self.site(broker, "south")
        async with first.seat("Ada") as ada, second.seat("Sam") as sam:
            await until(lambda: self.broker_is(ada, "connected", 0), "connected")
            for step in range(30):
                await ada.ask("gesture", key=f"k{step}", shape=["limit", 2, 2, 50 + step, None, step % 2])
            await ada.ask("send", name="shared")

            async def have_come() -> bool:
                lines: Any = (await sam.ask("layers", at="shared"))["layers"]
                return len(lines) == 30 + is_long and (not is_long or lines[-1]["shape"][3] == 10)
            is_long = False
            await until(have_come, "all have come")
            is_long = True
            await ada.ask("gesture", key="long", note="€" * 200, shape=["block", 60, 60, 1, None, 1])
            for number in range(9):
                await ada.ask("gesture", key=f"l{number}", note="€" * 200, layer="long", shape=["block", 60, 60, 2 + number, None, 1])
            await ada.ask("send", name="shared")
            await until(have_come, "all have come")
            await until(lambda: self.broker_is(ada, "connected", 0), "all came back")
        broker.kill()
        conf = broker.folder / "conf"
        conf.write_text(conf.read_text().replace("max_packet_size 2000", "max_packet_size 500"))
        broker.start()
        async with first.seat(key=ada.key) as ada:
            await ada.ask("gesture", key="again", note="€" * 200, shape=["block", 61, 61, 1, None, 1])
            await ada.ask("send", name="shared")
            await until(lambda: self.is_told("A change by Ada (€€€", ada), "it is reported")
            await until(lambda: self.broker_is(ada, "connected", 1), "it has not come back")

    async def test_a_broker_without_mqtt_5_is_reported(self) -> None:
        async def refuse(reader: asyncio.StreamReader, writer: asyncio.StreamWriter) -> None:
            await reader.read(14)
            writer.write(bytes([0x20, 2, 0, 1]))  # the answer of MQTT 3.1.1: this version of the protocol is refused
            writer.close()
        async with await asyncio.start_server(refuse, "127.0.0.1", 0) as old:
            port = old.sockets[0].getsockname()[1]
            first = self.server("--broker", f"127.0.0.1:{port}")
            async with first.seat("Ada") as ada:
                await until(lambda: self.is_told("The broker does not know MQTT 5, which live needs", ada), "it is reported")

    async def test_a_broker_that_lets_in_the_sites_alone(self) -> None:
        """As OPERATING.md says. Nobody else can send anything, and the sites exchange everything."""
        broker, secret = self.broker(), new_folder() / "secret"
        broker.kill()
        secret.write_text("a secret")
        (broker.folder / "acl").write_text("pattern readwrite road/#\n")
        subprocess.run(["mosquitto_passwd", "-c", "-b", str(broker.folder / "sites"), "site", "a secret"], check=True, capture_output=True)
        (broker.folder / "sites").chmod(0o644)
        conf = broker.folder / "conf"
        conf.write_text(conf.read_text().replace("allow_anonymous true", f"allow_anonymous false\npassword_file {broker.folder}/sites\n"
                                                 f"acl_file {broker.folder}/acl"))
        broker.start()
        first, second = (self.server("--broker", broker.address, "--site", name, "--broker-user", "site", "--broker-password", str(secret))
                         for name in ("north", "south"))
        async with first.seat("Ada") as ada, second.seat("Sam") as sam:
            await put(ada, "limit", 1, 8, 1)
            await put(sam, "limit", 2, 9, 2)
            await self.same(ada, sam, edits=2)
            await until(lambda: self.broker_is(ada, "connected", 0), "connected")
        with self.assertRaises(subprocess.CalledProcessError):
            broker.say(f"road/{reference(first)}/operations", "x")
        third = self.server("--broker", broker.address, "--site", "east")
        async with third.seat("Eve") as eve:
            await until(lambda: self.is_told("The broker refused the connection: Not authorized", eve), "it is reported")

    async def test_a_broker_on_another_host_requires_a_password(self) -> None:
        with self.assertRaisesRegex(RuntimeError, "give --broker-user and --broker-password"):
            self.server("--broker", "192.0.2.1:8883")


def memory_of(server: Server) -> int:
    """Return the bytes of memory that a server uses."""
    pages = int(Path(f"/proc/{server.process.pid}/statm").read_text().split()[1])
    return pages * os.sysconf("SC_PAGE_SIZE")


def reference(server: Server) -> str:
    return road_of(server.journal()[0]["lab"]["plan"])


def road_of(plan: dict[str, Any], key: bytes = b"") -> str:
    """Return the name of a road at the broker."""
    def shortened(text: str) -> str:
        return hashlib.sha256(text.encode()).hexdigest()[:16]
    plain = shortened(json.dumps({**plan, "replicas": 0}, sort_keys=True))
    return shortened(f"{plain} {hashlib.sha256(key).hexdigest()}" if key else plain)
