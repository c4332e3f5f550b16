"""Test `kill -9` during bursts of three seats: each confirmed gesture is there afterwards, and none is there twice."""
from __future__ import annotations

import asyncio
import os
import random
import signal
import time
from typing import Any, Callable, Sequence

from aiohttp import ClientError

from oracle import by_rows, oracle_of
from server.shell.client import Seat
from server.model.operations import Stamp
from server.model.reading import read_operation
from running import PATIENCE, SMALL, Case, Server, transport_of, until

ROUNDS = 10
LAST = 60
PLAN: dict[str, Any] = {**SMALL, "length": 60, "zones": [[5, 6_554]] * 3, "inlets": [[0, 27_918]], "detectors": [30]}
ORACLE = oracle_of(PLAN, LAST + 1)


class Engineer:
    """An engineer who puts one gesture after another, and notes which were confirmed."""

    def __init__(self, name: str, chance: random.Random) -> None:
        self.name, self.key, self._chance = name, "", chance
        self.sent: dict[str, list[Any]] = {}
        self.confirmed: dict[str, Stamp] = {}
        self.shared: set[Stamp] = set()

    def connect(self, server: Server) -> Seat:
        return server.seat(key=self.key) if self.key else server.seat(self.name)

    async def burst(self, seat: Seat, is_enough: Callable[[], bool] = lambda: False) -> None:
        """Put gestures until the server is gone, or enough are confirmed."""
        try:
            while not is_enough():
                key = f"{self.name}-{self._chance.getrandbits(60):x}"
                step = self._chance.randrange(LAST)
                cell, zone = self._chance.randrange(5, 55), self._chance.randrange(3)
                self.sent[key] = self._chance.choice([["block", cell, cell, step, step + 3, 1], ["limit", zone, zone, step, None, 3]])
                self.confirmed[key] = (await seat.ask("gesture", key=key, shape=self.sent[key]))["stamp"]
                if self._chance.random() < 0.2:
                    self.shared.update((count, name) for count, name in (await seat.ask("send", name="shared"))["stamps"])
                if self._chance.random() < 0.1:
                    await seat.ask("take", message="shared")
        except (ConnectionError, ClientError):
            pass


def numbers(scenario: Sequence[Any]) -> dict[tuple[Any, ...], int]:
    """Return the values in force in a program, by object and step."""
    return {tuple(edit[:3]): edit[5] for edit in scenario if edit[5] is not None}


class Crashes(Case):
    async def rounds(self, server: Server, engineers: list[Engineer], kill: Any) -> None:
        chance = random.Random(1)
        for number in range(ROUNDS):
            seats = []
            for engineer in engineers:
                seat = engineer.connect(server)
                seats.append(await seat.__aenter__())
                engineer.key = seat.key
            if not number:
                await seats[0].say("clock", to=LAST)
            for seat in seats:
                await seat.ask("advance", to=LAST)
            tasks = [asyncio.create_task(one.burst(seat)) for one, seat in zip(engineers, seats)]
            await self.more(engineers)
            await asyncio.sleep(chance.uniform(0, 0.4))
            await kill(tasks)
            for seat in seats:
                await seat.__aexit__(None, None, None)
            await self.look(server, engineers)

    async def more(self, engineers: list[Engineer]) -> None:
        """Wait until each seat has more confirmed gestures."""
        async def has_more() -> bool:
            return all(len(one.confirmed) > count for one, count in zip(engineers, counts))
        counts = [len(one.confirmed) + 1 for one in engineers]
        await until(has_more, "gestures are confirmed")

    async def look(self, server: Server, engineers: list[Engineer]) -> None:
        """Check that every confirmed gesture is there with its shape. Send every unconfirmed gesture again, and check that it is
        there once."""
        for engineer in engineers:
            async with engineer.connect(server) as seat:
                for key in engineer.sent.keys() - engineer.confirmed.keys():
                    said = await seat.ask("gesture", key=key, shape=engineer.sent[key])
                    engineer.confirmed[key] = said["stamp"]
                own: Any = await seat.ask("operations")
                held = {tuple(one["stamp"]): one for one in own["operations"]}
                all_shared: Any = await seat.ask("operations", at="shared")
                shared = {tuple(one["stamp"]) for one in all_shared["operations"]}
                for key, stamp in engineer.confirmed.items():
                    self.assertEqual(held[tuple(stamp)]["shape"], engineer.sent[key])
                self.assertEqual(own["makers"].count(seat.welcome["seat"]), len(engineer.confirmed))
                self.assertLessEqual(engineer.shared, shared)
                values = ORACLE.painted(map(read_operation, held.values()))
                self.assertEqual(ORACLE.by_the_program(by_rows((await seat.ask("scenario"))["edits"])), values)

    def engineers(self) -> list[Engineer]:
        return [Engineer(f"e{number}", random.Random(number)) for number in range(3)]

    async def test_the_server_is_killed(self) -> None:
        server = self.server(plan=PLAN)

        async def kill(tasks: list[asyncio.Task[None]]) -> None:
            server.kill()
            await asyncio.gather(*tasks)
            server.start()
        await self.rounds(server, self.engineers(), kill)

    async def test_the_program_is_killed(self) -> None:
        server = self.server(plan=PLAN)
        engineers = self.engineers()

        async def kill(tasks: list[asyncio.Task[None]]) -> None:
            os.kill(server.program, signal.SIGKILL)
            await self.more(engineers)  # another program
            self.assertFalse(any(task.done() for task in tasks), "a tab was let go with the program")
            for task in tasks:
                task.cancel()
            await asyncio.gather(*tasks, return_exceptions=True)
        await self.rounds(server, engineers, kill)

    async def test_the_broker_is_killed(self) -> None:
        """Changes that are shared while it is down still reach the other site."""
        broker = self.broker()
        server = self.server("--broker", broker.address, plan=PLAN)
        other = self.server("--broker", broker.address, "--site", "south", plan=PLAN)
        engineers = self.engineers()

        async def kill(tasks: list[asyncio.Task[None]]) -> None:
            broker.kill()
            await self.more(engineers)  # without it
            for task in tasks:
                task.cancel()
            await asyncio.gather(*tasks, return_exceptions=True)
            broker.start()
        await self.rounds(server, engineers, kill)
        async with engineers[0].connect(server) as here, other.seat("Sam") as there:
            async def shared() -> list[Any]:
                return [numbers((await seat.ask("scenario", at="shared"))["edits"]) for seat in (here, there)]

            async def are_same() -> bool:
                one, other = await shared()
                return bool(one == other)
            await until(are_same, "both hold the same")
            self.assertGreater(len((await shared())[0]), ROUNDS)

    async def test_a_program_near_its_limit_is_replaced_unnoticed(self) -> None:
        """Near its limit of lines the program gets a successor: no question is refused, and rows stay what they are."""
        server = self.server(plan=PLAN, LIVE_MOST_LINES="60")
        async with server.seat("Ada") as ada, server.seat("Ben") as ben:
            await ada.say("clock", to=LAST)
            for seat in (ada, ben):
                await seat.ask("gesture", key="1", shape=["block", 30, 30, 10, 40, 1])
                await seat.ask("send", name="shared")
                await seat.ask("advance", to=LAST)
            rows = await ada.ask("diagram", **{"from": 0, "to": LAST})
            number = made = 0
            until = time.monotonic() + PATIENCE
            while number < 300 or self.changes(ada) < 3 and time.monotonic() < until:
                number += 1
                if number % 50 == 49:
                    made += 1
                    await ben.ask("gesture", key=f"k{number}", shape=["limit", 2, 2, made % LAST, None, 1 + made % 2])
                said = await (ada, ben)[number % 2].ask("cells", step=number % 10)
                self.assertEqual(said["cells"], rows["rows"][number % 10] if number % 2 == 0 else said["cells"])
            self.assertEqual((await ada.ask("diagram", **{"from": 0, "to": LAST}))["rows"], rows["rows"])
            self.assertGreaterEqual(self.changes(ada), 3)
            self.assertEqual(len((await ben.ask("scenario"))["edits"]), 2 + min(made, LAST))

    def changes(self, seat: Seat) -> int:
        return max((one["program"]["changes"] for one in seat.received if "program" in one), default=0)

    async def test_an_interrupt_ends_the_server_with_tabs_open(self) -> None:
        """It does so even if one of the tabs does not read."""
        server = self.server(plan=PLAN)
        ada, deaf = [await server.seat(name).__aenter__() for name in ("Ada", "deaf")]
        await ada.ask("gesture", key="1", shape=["block", 30, 30, 10, None, 1])
        transport = transport_of(deaf)
        transport.pause_reading()
        began = time.monotonic()
        self.assertEqual(await asyncio.get_running_loop().run_in_executor(None, server.stop), 0)
        self.assertLess(time.monotonic() - began, PATIENCE / 2)  # the server does not wait until that tab reads
        with self.assertRaisesRegex(ConnectionError, "1012"):
            await ada.reply("ping")
        transport.resume_reading()
        for seat in (ada, deaf):
            await seat.__aexit__(None, None, None)
        server.start()
        async with server.seat(key=ada.key) as ada:
            self.assertEqual(len((await ada.ask("scenario"))["edits"]), 1)

    async def test_a_program_that_cannot_continue_is_reported(self) -> None:
        server = self.server(plan=PLAN)
        async with server.seat("Ada") as ada:
            await ada.ask("gesture", key="1", shape=["block", 30, 30, 10, None, 1])
            for _ in range(3):
                os.kill(server.program, signal.SIGKILL)
                self.assertEqual(len((await ada.ask("scenario"))["edits"]), 1)
