"""Let two seats on each of two sites put, change, put on top, withdraw and undo closures and limits that overlap, look first,
share some or all, and take, all at once, while servers and the broker are killed. After each round the road of each seat equals,
row by row, that of the shapes in force, given what the seat did and took, and its list says which change covers which. The
expected roads and lists are computed here, from the rules alone.
"""
from __future__ import annotations

import asyncio
import random
from typing import Any, Callable, Sequence, cast

from crashes import numbers
from oracle import counting_operations
from server.shell.client import RefusedReply, Seat
from server.model.operations import Operation, Shape, Stamp
from zegdrut import Kind, RoadLab
from running import ALL, SMALL, Case, Server, until
from server.journal.entries import read_plan_line

LAST = 80
PLAN: dict[str, Any] = {**SMALL, "length": 60, "zones": [[4, 9_000]] * 3, "inlets": [[0, 30_000], [25, 9_000]], "detectors": [20, 45]}
BASE = {"block": 0, "limit": 4}
THERE = {"block": 60, "limit": 3}
HOURS, ROUNDS = (12 if ALL else 1), (20 if ALL else 6)

KEPT = 20  # a seat keeps at least this many of its own unshared operations, the newest, also after a restart
NOT_THERE = "NoSuchChange"
REFUSED = ("NothingToUndo", "NothingToPut", "NoEffect")


class Reader:
    """A seat, and the operations that it holds."""

    def __init__(self, server: Server, seat: Seat, chance: random.Random, made: dict[Stamp, Operation]) -> None:
        self.server, self.seat, self.chance, self.made = server, seat, chance, made
        self.held: set[Stamp] = set()
        self.own: list[Stamp] = []
        self.private: list[Stamp] = []  # own operations that are not shared, in their order
        self.old: set[Stamp] = set()  # of these what a server that was started again need not have
        self.count = 0

    def layers(self) -> dict[Stamp, tuple[Stamp, Shape | None]]:
        """Return the height and the shape of each layer, from the active operations."""
        shapes: dict[Stamp, Shape | None] = {}
        heights: dict[Stamp, Stamp] = {}
        for one in counting_operations(self.made[stamp] for stamp in self.held):
            if one.line is not None and (one.shape is not None or not one.top):
                shapes.setdefault(one.line, one.shape)
            if one.line is not None and one.top:
                heights.setdefault(one.line, one.stamp)
        names = {self.made[stamp].line for stamp in self.held}
        return {name: (heights.get(name, name), shapes.get(name)) for name in names if name is not None}

    def standing(self) -> list[tuple[Stamp, Stamp, Shape]]:
        """Return height, name and shape of the layers in force, the highest first."""
        return sorted(((height, name, shape) for name, (height, shape) in self.layers().items() if shape), reverse=True)

    # What the seat does

    async def acts(self, count: int) -> None:
        for _ in range(count):
            self.count += 1
            what = self.chance.random()
            try:
                if what < 0.3:
                    shape = self.shape()
                    await self.makes("gesture", lambda stamp: Operation(stamp, stamp, Shape(*shape)), shape=shape)
                elif what < 0.75:
                    await self.acts_on([*self.layers()])
                elif what < 0.87:
                    await self.shares()
                else:
                    await self.takes()
            except RefusedReply as fault:
                if fault.reply["refused"] not in REFUSED:
                    raise

    def shape(self) -> list[Any]:
        kind = self.chance.choice(["block", "block", "limit"])
        first, begin = self.chance.randrange(THERE[kind]), self.chance.randrange(0, LAST, 5)
        end = None if self.chance.random() < 0.2 else begin + self.chance.randrange(1, 40)
        value = self.chance.random() < 0.9 if kind == "block" else self.chance.randrange(5)
        return [kind, first, min(THERE[kind] - 1, first + self.chance.randrange(12)), begin, end, int(value)]

    async def makes(self, verb: str, makes: Callable[[Stamp], Operation], **fields: Any) -> None:
        """Send a command, and note which operation it made."""
        key = f"{self.seat.at}-{self.count}"
        try:
            count, name = (await self.seat.ask(verb, key=key, **fields))["stamp"]
        except RefusedReply as fault:
            if fault.reply["refused"] == NOT_THERE and self.is_forgotten(fields.get("layer"), fields.get("stamp")):
                return
            raise
        self.made[count, name] = makes((count, name))
        self.held.add((count, name))
        self.own.append((count, name))
        self.private.append((count, name))

    def is_forgotten(self, name: Stamp | None, stamp: Stamp | None) -> bool:
        """Return whether a line or an operation may have been forgotten: it was private, and was withdrawn long ago."""
        return stamp in self.old if name is None else name in self.old and self.layers()[name][1] is None

    async def acts_on(self, some: Sequence[Stamp]) -> None:
        """Do something random to an existing line."""
        if not some:
            return
        name = self.chance.choice(some)
        _, shape = self.layers()[name]
        what = self.chance.choice(["change", "change", "top", "withdraw", "withdraw", "undo", "again"])
        if what == "change":
            new = self.shape()
            if shape is not None and self.chance.random() < 0.5:  # drag an end
                new = [*shape[:4], shape[3] + self.chance.randrange(1, 40), shape[5]]
            await self.makes("gesture", lambda stamp: Operation(stamp, name, Shape(*new), top=not shape), layer=name, shape=new)
        elif what == "withdraw":
            await self.makes("gesture", lambda stamp: Operation(stamp, name), layer=name, shape=None)
        elif what == "top":
            await self.makes("gesture", lambda stamp: Operation(stamp, name, top=True), layer=name, top=True)
        else:
            old = self.made[self.chance.choice(sorted(self.held))]
            await self.makes(what, lambda stamp: Operation(stamp, undoes=old.stamp) if what == "undo" else Operation(
                stamp, old.line, old.shape, old.shape is not None or old.top), stamp=old.stamp)

    async def shares(self) -> None:
        some = [one for one in self.own if self.chance.random() < 0.5][:50]
        await self.sends(**({} if self.chance.random() < 0.6 else {"stamps": some}))

    async def sends(self, **some: Any) -> int:
        """Share operations. Return how many."""
        said = await self.seat.ask("send", name="shared", **some)
        given = {(count, name) for count, name in said["stamps"]}
        self.private = [stamp for stamp in self.private if stamp not in given]
        return len(given)

    async def takes(self) -> None:
        looked, after = None, None
        if self.chance.random() < 0.5:
            looked = (await self.seat.ask("preview", what="take"))["size"]
            after = await self.rows("after")
        said = await self.seat.ask("take", message="shared")
        assert said["size"] == len(said["changes"]), "the reply lists all that was taken"
        self.held.update((count, name) for count, name in (one["stamp"] for one in said["changes"]))
        if looked is not None and looked == said["size"]:
            assert await self.rows(self.seat.at) == after, "the road is not what was looked at first"

    async def rows(self, at: str) -> Sequence[str]:
        await self.seat.ask("advance", at=at, to=LAST)
        return (await self.seat.ask("diagram", at=at, **{"from": 0, "to": LAST}))["rows"]

    # What must be so

    def covering(self, kind: str, index: int, step: int) -> tuple[Stamp, Shape] | None:
        return next(((name, shape) for _, name, shape in self.standing_now if shape[0] == kind
                     and shape[1] <= index <= shape[2] and shape[3] <= step and (shape[4] is None or step < shape[4])), None)

    async def look(self, case: Case) -> None:
        """Compare the road and the list with the layers in force."""
        self.standing_now = self.standing()
        tops = {(kind, index, step): self.covering(kind, index, step) for kind, there in THERE.items() for index in range(there)
                for step in range(LAST + 1)}
        with RoadLab(read_plan_line({**PLAN, "replicas": ["A"]})) as lab:
            for (kind, index, step), top in tops.items():
                value: Any = top[1][5] if top else BASE[kind]
                before = tops.get((kind, index, step - 1)) if step else None
                if value != (before[1][5] if before else BASE[kind]):
                    lab.edit("A", (cast(Kind, kind), index), step, value)
            lab.advance("A", LAST)
            case.assertEqual(await self.rows(self.seat.at), lab.diagram("A", 0, LAST), self.seat.at)
        lines = {tuple(one["name"]): one for one in await self.list()}
        case.assertEqual({name for name, one in lines.items() if one.get("standing")}, {one[1] for one in self.standing_now})
        for name, line in lines.items():
            found = {(kind, index, step): by for kind, first, last, since, end, _, by in line.get("shown", ())
                     for index in range(first, last + 1) for step in range(since, min(LAST + 1, end or LAST + 1))}
            wanted = {}
            for _, kind, first, last, since, end, _ in ((1, *shape) for _, one, shape in self.standing_now if one == name):
                for index in range(first, last + 1):
                    for step in range(since, min(LAST + 1, end or LAST + 1)):
                        top = tops[kind, index, step]
                        wanted[kind, index, step] = None if top is None or top[0] == name else list(top[0])
            case.assertEqual(found, wanted, f"{self.seat.at}: the line {name}")

    async def list(self) -> list[Any]:
        found: list[Any] = []
        place, more = 0, True
        while more:
            said = await self.seat.ask("layers", **{"from": place})
            found, place, more = [*found, *said["layers"]], said["next"], said["more"]
        return found


class Readers(Case):
    async def test_no_road_or_list_is_wrong_after_any_round(self) -> None:
        for seed in range(HOURS):
            await self.hour(seed, ROUNDS)

    async def hour(self, seed: int, rounds: int) -> None:
        chance = random.Random(seed)
        self.mosquitto = self.broker(keeps=bool(seed % 2))
        sites = [self.server("--broker", self.mosquitto.address, "--site", number, plan=PLAN, LIVE_MILLISECONDS="")
                 for number in "12"]
        made: dict[Stamp, Operation] = {}
        readers = [Reader(site, await self.enterAsyncContext(site.seat(name)), random.Random(f"{seed} {name} {number}"), made)
                   for number, site in enumerate(sites) for name in ("Ada", "Ben")]
        for reader in readers:
            await reader.seat.say("clock", to=LAST)
        for number in range(rounds):
            if number % 4 == 2:
                self.mosquitto.kill()
            await asyncio.gather(*(reader.acts(chance.randrange(4, 12)) for reader in readers))
            if number % 4 == 2:
                self.mosquitto.start()
            if number % 4 == 3:
                await self.killed(chance.choice(sites), readers)
            for reader in readers:
                await reader.look(self)
            if number % 3 == 2:
                await self.all_have_all(readers)

    async def killed(self, site: Server, readers: list[Reader]) -> None:
        site.restart()
        for reader in readers:
            if reader.server is site:
                reader.seat = await self.enterAsyncContext(site.seat(key=reader.seat.key))
                reader.old.update(reader.private[:-KEPT])

    async def all_have_all(self, readers: list[Reader]) -> None:
        """Share and take until nothing is left to share, and check that everyone has the same road.

        An operation that changes nothing need not be shared; it may have an effect again after somebody else changes its line."""
        async def sites_agree() -> bool:
            one, other = [numbers((await reader.seat.ask("scenario", at="shared"))["edits"]) for reader in readers[::2]]
            return bool(one == other) and not any([await self.unsent(reader) for reader in readers[::2]])
        while any([await reader.sends() for reader in readers]):
            await until(sites_agree, "both sites have the same edits")
            for reader in readers:
                await reader.takes()
        await until(sites_agree, "both sites have the same edits")
        for reader in readers:
            await reader.takes()
        for reader in readers:
            await reader.look(self)

        async def is_one_road() -> bool:
            roads = [await reader.rows(at) for reader in readers for at in (reader.seat.at, "shared")]
            return roads == [roads[0]] * len(roads)
        await until(is_one_road, "one road")

    async def unsent(self, reader: Reader) -> int:
        told = [one["broker"] for one in reader.seat.received if one.get("broker")]
        return int(told[-1]["unsent"]) if told else int((reader.seat.welcome["broker"] or {"unsent": 1})["unsent"])
