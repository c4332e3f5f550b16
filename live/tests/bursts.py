"""Test bursts of gestures. In each a server, its program or the broker is killed, or a folder is restored from an older copy, or
cloned. Afterwards every confirmed gesture is there, no stamp was made twice, and all sites have the same road.
`live/test --all` has twenty bursts of 500 gestures.
"""
from __future__ import annotations

import asyncio
import os
import random
import shutil
import signal
from pathlib import Path
from typing import Any

from aiohttp import ClientError

from crashes import PLAN, Engineer, numbers
from running import ALL, PATIENCE, Case, Server, end, new_folder, until
from server.model.operations import Stamp
from server.shell.client import RefusedReply, Seat

ROUNDS, GESTURES = (20, 500) if ALL else (5, 50)
WAYS = ("server_is_killed", "folder_is_restored", "broker_is_killed", "folder_is_cloned", "program_is_killed")


class Bursts(Case):
    async def asyncSetUp(self) -> None:
        self.chance = random.Random(1)
        self.mosquitto = self.broker()
        self.one, self.two = [self.site(name) for name in ("north", "south")]
        self.engineers = [Engineer(f"e{number}", random.Random(number)) for number in range(3)]
        self.stamps: dict[Stamp, str] = {}  # all gestures that were ever confirmed, with their keys
        self.tom: dict[str, str] = {"name": "Tom"}

    def site(self, name: str) -> Server:
        return self.server("--broker", self.mosquitto.address, "--site", name, plan=PLAN, LIVE_MILLISECONDS="")

    async def test_bursts(self) -> None:
        for number in range(ROUNDS):
            await getattr(self, WAYS[number % len(WAYS)])()
            for engineer in self.engineers:
                await self.look(engineer)
            await self.share(number)
        await until(self.are_same, "all sites have one road", 5 * PATIENCE)
        async with self.two.seat(**self.tom) as tom:
            shared = {tuple(one["stamp"]) for one in await self.operations(tom, "shared")}
        for engineer in self.engineers:
            self.assertLessEqual(engineer.shared, shared)

    # What happens in a burst

    async def server_is_killed(self) -> None:
        await self.burst(self.one, lambda: self.one.restart())

    async def program_is_killed(self) -> None:
        await self.burst(self.one, lambda: os.kill(self.one.program, signal.SIGKILL))

    async def broker_is_killed(self) -> None:
        def restart_broker() -> None:
            self.mosquitto.kill()
            self.mosquitto.start()
        await self.burst(self.one, restart_broker)

    async def folder_is_restored(self) -> None:
        """Restore the folder from before the burst. What was shared during the burst comes back from the other site."""
        old = self.copy(self.one.folder)
        before = [dict(engineer.confirmed) for engineer in self.engineers]
        await self.burst(self.one, lambda: None)
        await until(self.are_same, "what was shared is at the other site", 5 * PATIENCE)
        self.one.kill()
        shutil.rmtree(self.one.folder)
        shutil.copytree(old, self.one.folder)
        self.one.start()
        for engineer, confirmed in zip(self.engineers, before):
            engineer.confirmed = confirmed
            engineer.sent = {key: engineer.sent[key] for key in confirmed}

    async def folder_is_cloned(self) -> None:
        """Run a clone of the folder at the same time. Neither may use a stamp of the other."""
        clone = Server(self.copy(self.one.folder), PLAN, "--broker", self.mosquitto.address, LIVE_MILLISECONDS="")
        self.addCleanup(lambda: end(clone.process))
        twins = [Engineer(one.name, random.Random(9)) for one in self.engineers]
        for twin, engineer in zip(twins, self.engineers):
            twin.key = engineer.key
        await self.burst(self.one, lambda: None)
        await self.burst(clone, lambda: None, twins)
        clone.kill()

    def copy(self, folder: Path) -> Path:
        copy = new_folder() / "copy"
        shutil.copytree(folder, copy, ignore=shutil.ignore_patterns("server.log"))
        return copy

    async def burst(self, server: Server, fault: Any, engineers: list[Engineer] | None = None) -> None:
        """Make GESTURES gestures, and let the fault happen at some time between them."""
        some = engineers or self.engineers
        left = [GESTURES - self.chance.randrange(GESTURES // 5, GESTURES * 4 // 5)]
        count = sum(len(one.confirmed) for one in some) + GESTURES
        tasks = [asyncio.create_task(self.puts(server, one, count, some)) for one in some]

        async def is_time() -> bool:
            return sum(len(one.confirmed) for one in some) + left[0] >= count
        await until(is_time, "some gestures are confirmed", 5 * PATIENCE)
        fault()
        await asyncio.gather(*tasks)

    async def puts(self, server: Server, engineer: Engineer, count: int, some: list[Engineer]) -> None:
        """Put, share and take until all seats together have this many confirmed gestures. A seat whose connection breaks joins again."""
        while sum(len(one.confirmed) for one in some) < count:
            try:
                async with engineer.connect(server) as seat:
                    engineer.key = seat.key
                    await engineer.burst(seat, lambda: sum(len(one.confirmed) for one in some) >= count)
            except (ConnectionError, ClientError, RefusedReply):
                await asyncio.sleep(0.05)
            self.check_stamps(engineer)

    def check_stamps(self, engineer: Engineer) -> None:
        """Check that no stamp is used twice, in any folder."""
        for key, stamp in engineer.confirmed.items():
            self.assertEqual(self.stamps.setdefault((stamp[0], stamp[1]), key), key)

    # What must be so afterwards

    async def look(self, engineer: Engineer) -> None:
        """Check that each confirmed gesture is there. Send every unconfirmed gesture again, and check that it is there once."""
        async with engineer.connect(self.one) as seat:
            for key in engineer.sent.keys() - engineer.confirmed.keys():
                engineer.confirmed[key] = (await seat.ask("gesture", key=key, shape=engineer.sent[key]))["stamp"]
            self.check_stamps(engineer)
            held = {tuple(one["stamp"]): one.get("shape") for one in await self.operations(seat, seat.at)}
            for key, stamp in engineer.confirmed.items():
                self.assertEqual(held[tuple(stamp)], engineer.sent[key])

    async def operations(self, seat: Seat, at: str) -> list[Any]:
        found: list[Any] = []
        place = 0
        while True:
            said = await seat.ask("operations", **{"at": at, "from": place})
            found, place = [*found, *said["operations"]], said["next"]
            if not said["more"]:
                return found

    async def share(self, number: int) -> None:
        """Make a change at the other site, and share it."""
        async with self.two.seat(**self.tom) as tom:
            self.tom = {"key": tom.key}
            await tom.ask("gesture", key=f"s{number}", shape=["limit", 1, 1, number, None, 2])
            await tom.ask("send", name="shared")

    async def are_same(self) -> bool:
        """Return whether both sites hold the same gestures, also those that are covered, and the same edits."""
        async with self.one.seat(key=self.engineers[0].key) as here, self.two.seat(**self.tom) as there:
            self.tom = {"key": there.key}
            one, other = [{tuple(one["stamp"]) for one in await self.operations(seat, "shared")} for seat in (here, there)]
            if one != other:
                return False
            left, right = [numbers((await seat.ask("scenario", at="shared"))["edits"]) for seat in (here, there)]
            return left == right
