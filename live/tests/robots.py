"""Let robots make random shapes, change or undo them, and share and take, on one server or on several with a
broker. At the end every road equals, row by row, one that a program simulates from the values in force at each step."""
from __future__ import annotations

import random
from typing import Any, cast

from server.shell.client import RefusedReply, Seat
from server.model.operations import Operation
from server.model.reading import read_operation
from zegdrut import Kind, RoadLab
from oracle import oracle_of
from running import ALL, SMALL, Case, Server, until
from server.journal.entries import read_plan_line

LAST = 80
ROBOTS = 4
RUNS, ACTS = (20 if ALL else 3), 100
SITE_RUNS = 12 if ALL else 3  # runs of several servers
PLAN: dict[str, Any] = {**SMALL, "length": 60, "zones": [[4, 9_000]] * 3, "inlets": [[0, 30_000], [25, 9_000]], "detectors": [20, 45]}
OBJECTS = [("limit", 3, 5), ("slow", 3, 40_000), ("block", 60, 1), ("inflow", 2, 65_536), ("watch", 2, 1),
           ("start", 3, 50_000), ("capacity", 3, 0)]
ORACLE = oracle_of(PLAN, LAST + 1)


def random_shape(chance: random.Random) -> list[Any]:
    """Return a shape of random objects, steps and value."""
    kind, number_of_objects, most = chance.choice(OBJECTS)
    first, begin = chance.randrange(number_of_objects), chance.randrange(0, LAST, 5)
    end = None if chance.random() < 0.2 else begin + chance.randrange(1, 40)
    value = [900, chance.randint(0, 5), chance.randrange(40_000), chance.randrange(50_000)] if kind == "capacity" else chance.randint(0, most)
    return [kind, first, min(number_of_objects - 1, first + chance.randrange(12)), begin, end, value]


class Acts(Case):
    """Random acts of a robot, and the check of a road."""

    def setUp(self) -> None:
        self.named: dict[tuple[str, str], list[Operation]] = {}  # by a seat's road and the name of a variant: what the road was made of

    async def act(self, seat: Seat, chance: random.Random, key: str) -> None:
        what = chance.random()
        try:
            if what < 0.4:
                await seat.ask("gesture", key=key, shape=random_shape(chance))
            elif what < 0.75:
                await self.act_on(seat, chance, key)
            elif what < 0.85:
                await seat.ask("send", name="shared")
            elif what < 0.93:
                await seat.ask("take", message="shared")
            elif what < 0.96:
                held: Any = (await seat.ask("operations"))["operations"]
                name = chance.choice("abc")
                await seat.ask("variant", name=name)
                self.named[seat.at, name] = [*map(read_operation, held)]
            else:
                await seat.ask("advance", to=chance.randrange(LAST + 1))
        except RefusedReply as fault:
            self.assertIn(fault.reply["refused"], ("NothingToUndo", "NothingToPut", "NoEffect", "NoSuchChange"))

    async def act_on(self, seat: Seat, chance: random.Random, key: str) -> None:
        """Change, put on top, withdraw, undo or repeat a random line."""
        held = (await seat.ask("layers"))["layers"]
        if not held:
            return
        line = chance.choice([*held])
        what = chance.choice(["change", "change", "top", "withdraw", "undo", "again"])
        if what in ("undo", "again"):
            stamp = chance.choice([one["stamp"] for one in line.get("operations", [])] or [(1, "M47dx6_hno3g_1R9IF57TQ")])
            await seat.ask(what, key=key, stamp=stamp)
        else:
            of: dict[str, dict[str, Any]] = {"change": {"shape": random_shape(chance)}, "top": {"top": True}, "withdraw": {"shape": None}}
            await seat.ask("gesture", key=key, layer=line["name"], **of[what])

    async def compare(self, server: Server, seat: Seat, at: str) -> list[str]:
        """Compare a road with one built from the journal's operations alone. Return its rows."""
        return await self.compare_with(operations(server.journal(), at), seat, at)

    async def compare_with(self, held: list[Operation], seat: Seat, at: str) -> list[str]:
        """Compare a road with one built from some operations alone. Return its rows."""
        await seat.ask("advance", at=at, to=LAST)
        values = {(*thing, step): value for thing, line in ORACLE.painted(held).items() for step, value in enumerate(line)}
        with RoadLab(read_plan_line({**PLAN, "replicas": ["A"]})) as lab:
            for (kind, index, step), value in values.items():
                if step == 0 or values[kind, index, step - 1] != value:
                    lab.edit("A", (cast(Kind, kind), index), step, value)
            lab.advance("A", LAST)
            rows = [*(await seat.ask("diagram", at=at, **{"from": 0, "to": LAST}))["rows"]]
            self.assertEqual(rows, lab.diagram("A", 0, LAST), at)
            counts = (await seat.ask("counts", at=at, **{"from": 0, "to": LAST}))["counts"]
            self.assertEqual(counts, [list(lab.count("A", detector, 0, LAST)) for detector in range(2)])
            cars = (await seat.ask("cars", at=at, step=LAST))["cars"]
            self.assertEqual(cars, [list(car) for car in lab.cars("A", LAST)])
        return rows


class Robots(Acts):
    async def test_roads_equal_those_of_the_shapes(self) -> None:
        for seed in range(RUNS):
            chance = random.Random(seed)
            server = self.server(plan=PLAN, LIVE_MOST_LINES=str(chance.choice([50, 900_000])),
                                 LIVE_MOST_UNDONE=str(chance.choice([10, 1_000])))
            seats = [await self.enterAsyncContext(server.seat(f"r{number}")) for number in range(ROBOTS)]
            await seats[0].say("clock", to=LAST)
            for number in range(ACTS):
                await self.act(chance.choice(seats), chance, f"k{number}")
                if number in (40, 80) and seed % 2:
                    server.restart()
                    seats = [await self.enterAsyncContext(server.seat(key=seat.key)) for seat in seats]
            for at, seat in [("shared", seats[0]), *((seat.at, seat) for seat in seats)]:
                await self.compare(server, seat, at)
            for seat in seats:
                for (at, name), held in self.named.items():
                    if at == seat.at:
                        await self.compare_with(held, seat, f"variant:{name}")
            self.named.clear()

    async def test_roads_of_several_sites_equal_those_of_the_shapes(self) -> None:
        for seed in range(SITE_RUNS):
            chance = random.Random(seed)
            broker = self.broker(keeps=bool(seed % 2))
            sites = [self.server("--broker", broker.address, "--site", f"s{number}", plan=PLAN)
                     for number in range(2 + seed % 3)]
            seats = [(site, await self.enterAsyncContext(site.seat(f"{name} of {number}")))
                     for number, site in enumerate(sites) for name in ("Ada", "Ben")]
            for site, seat in seats:
                await seat.say("clock", to=LAST)
            for number in range(ACTS):
                site, seat = chance.choice(seats)
                await self.act(seat, chance, f"k{number}")
                if number in (30, 60):
                    broker.kill()
                elif number in (40, 70):
                    broker.start()
            while any([(await seat.ask("send", name="shared"))["size"] for _, seat in seats]):
                await until(lambda: self.hold_the_same([seat for _, seat in seats]), "all have the same")
                for _, seat in seats:  # after a take, more private operations may have an effect that can be shared
                    await seat.ask("take", message="shared")
            roads = [await self.compare(site, seat, at) for site, seat in seats for at in (seat.at, "shared")]
            self.assertEqual(roads, [roads[0]] * len(roads), seed)

    async def hold_the_same(self, seats: list[Seat]) -> bool:
        """Return whether all sites hold the same operations and nothing is unsent."""
        # One seat of each site
        held = [{str(one["stamp"]) for one in (await seat.ask("operations", at="shared"))["operations"]} for seat in seats[::2]]
        states = [next((one["broker"] for one in reversed(seat.received) if "broker" in one), {"unsent": 1})
                  for seat in seats[::2]]
        return all(one == held[0] for one in held) and not any(one["unsent"] for one in states)


def operations(entries: list[dict[str, Any]], at: str) -> list[Operation]:
    """Return all operations that a replica holds according to the entries of the journal."""
    own: dict[int, list[Operation]] = {}
    shared: list[Operation] = []
    upto: dict[int, int] = {}
    for entry in entries:
        kind, value = next(iter(entry.items()))
        if kind == "made":
            own.setdefault(value["seat"], []).append(read_operation({"site": entries[0]["lab"]["site"], **value["operation"]}))
        elif kind == "share":
            shared += [one for one in own[value["seat"]] if list(one.stamp) in value["stamps"]]
        elif kind == "came":
            shared += map(read_operation, value["operations"])
        elif kind == "take":
            upto[value["seat"]] = value["upto"]
    if at == "shared":
        return shared
    seat = int(at.removeprefix("seat"))
    return [*{one.stamp: one for one in own.get(seat, []) + shared[:upto.get(seat, 0)]}.values()]
