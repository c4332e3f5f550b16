"""Test excluding a site: its past and future changes are ignored at all sites, whoever excludes it, and come back when it is
included."""
from __future__ import annotations

import contextlib
import json
import random
import secrets
from typing import Any, Iterable

from faulty import Bus, Here, Message, message_of, written
from oracle import all_edits, oracle_of
from zegdrut import Edit, RoadLab
from running import ALL, SMALL, Case
from server.base.refusals import Refused
from server.model.operations import About, Operation, Shape, exclude, put
from server.program.simulated_roads import rows_of
from server.journal.state import State
from server.journal.entries import read_plan_line

CELLS, STEPS = range(50, 56), range(0, 30, 5)


ORACLE = oracle_of(SMALL, 50)


def by_shapes(operations: Iterable[Operation]) -> dict[tuple[int, int], int]:
    """Return which cells are closed at which steps, from the rules alone."""
    values = ORACLE.painted(operations)
    return {(cell, step): values["block", cell][step] for cell in CELLS for step in range(50)}


def closed(edits: Iterable[Any]) -> dict[tuple[int, int], int]:
    """Return which cells are closed at which steps, from the edits in force."""
    puts: dict[int, dict[int, int]] = {cell: {} for cell in CELLS}
    for kind, cell, step, _, _, value in edits:
        if kind == "block" and value is not None:
            puts[cell][step] = value
    return {(cell, step): next((puts[cell][at] for at in range(step, -1, -1) if at in puts[cell]), 0)
            for cell in CELLS for step in range(50)}


class LeftOut(Case):
    """Three sites: one is excluded and included again."""

    async def asyncSetUp(self) -> None:
        self.bus = Bus()
        self.here = [await self.enterAsyncContext(Here(site=f"s{number}")) for number in (1, 2, 3)]
        self.sites = [self.bus.site(here) for here in self.here]
        self.names = [here.lab.state.site for here in self.here]
        for here in self.here:
            await here.join(f"of site {here.site}")
            await here.lab.road_clock.set_clock(to=100)

    async def shape(self, place: int, *shape: Any, **more: Any) -> Any:
        """Make a gesture at a site, and share it."""
        here = self.here[place]
        said = await here.ask(1, "gesture", key=secrets.token_hex(8), note="", shape=list(shape), **more)
        await self.share(place)
        return list(said["stamp"])

    async def share(self, place: int) -> None:
        await self.here[place].share(1)
        await self.bus.carry()
        await self.bus.rounds(2)

    async def rows(self, here: Here, at: str = "shared") -> list[str]:
        await here.ask(1, "advance", at=at, to=100)
        rows: list[str] = (await here.ask(1, "diagram", at=at, **{"from": 0, "to": 100}))["rows"]
        return rows

    def road(self, *edits: tuple[Any, ...]) -> list[str]:
        """Return the rows of a road with only these edits."""
        with RoadLab(read_plan_line({**SMALL, "replicas": ["A"]})) as lab:
            lab.take_in("A", [Edit.read((kind, index, step, 1, 64, value)) for kind, index, step, value in edits])
            lab.advance("A", 100)
            rows: list[str] = lab.diagram("A", 0, 100)
            return rows

    async def test_past_and_future_changes_of_a_site_are_excluded_for_all_and_come_back(self) -> None:
        limit, closure = ("limit", 1, 20, 2), (("block", 60, 30, 1), ("block", 60, 50, 0))
        later = ("block", 80, 10, 1)
        await self.shape(0, "limit", 1, 1, 20, None, 2)
        stamp = await self.shape(2, "block", 60, 60, 30, 50, 1)
        await self.here[1].take(1)
        await self.everywhere(self.road(limit, *closure))

        said = await self.here[1].ask(1, "site", key="out", site=self.names[2], out=True)
        self.assertEqual(await self.rows(self.here[1], "seat1"), self.road(limit))  # the exclusion is private at first
        await self.everywhere(self.road(limit, *closure))
        await self.share(1)
        await self.everywhere(self.road(limit))

        await self.shape(2, "block", 80, 80, 10, None, 1)  # what the excluded site sends from then on
        other = put(stamp[0] + 1_000, Shape("block", 20, 20, 5, None, 1), About(site=self.names[2]))
        await self.bus.give(self.sites[0], message_of(self.sites[0], other))
        await self.bus.rounds(4)
        await self.everywhere(self.road(limit))
        key, = self.here[1].keys.values()
        await self.here[1].keeper.close()
        again = await self.enterAsyncContext(Here(self.here[1].folder))  # as its journal says
        self.assertEqual(await self.rows(again), self.road(limit))
        await again.keeper.close()
        self.here[1] = await self.enterAsyncContext(Here(self.here[1].folder))
        self.bus.sites[1] = self.sites[1] = Bus.site(self.bus, self.here[1])
        del self.bus.sites[-1]
        self.assertEqual((await self.here[1].lab.seating.join("", key, None))[0], 1)

        await self.here[1].ask(1, "undo", key="in", stamp=list(said["stamp"]))
        await self.share(1)
        extra = ("block", 20, 5, 1)
        await self.everywhere(self.road(limit, *closure, later, extra))
        await self.here[2].ask(1, "gesture", key="w", note="", layer=stamp, shape=None)
        await self.share(2)
        await self.everywhere(self.road(limit, later, extra))

    async def test_a_seat_that_excluded_a_site_has_the_road_without_it_after_a_restart(self) -> None:
        """The seat took that site's changes, but has not yet taken the exclusion that is on the shared road."""
        await self.shape(2, "block", 52, 53, 30, 45, 1)
        await self.here[1].take(1)
        await self.here[1].ask(1, "site", key="out", site=self.names[2], out=True)
        await self.share(1)
        self.assertEqual(set(by_shapes(self.here[1].lab.state.seats[1].places).values()), {0})
        self.starts_again(self.here[1], "left out")

    async def everywhere(self, rows: list[str]) -> None:
        for place, here in enumerate(self.here, 1):
            self.assertEqual(await self.rows(here), rows, f"site {place}")

    async def test_random_histories_give_the_road_of_the_active_shapes(self) -> None:
        """All sites have the same road, whichever site is excluded and when, and in whatever order messages arrive."""
        for seed in range(24 if ALL else 8):
            chance = random.Random(seed)
            for number in range(24):
                place = chance.randrange(3)
                with contextlib.suppress(Refused):
                    await self.act(self.here[place], chance, f"{seed} {number}")
                if chance.random() < 0.3:
                    chance.shuffle(self.bus.sent)
                    await self.bus.carry()
                if chance.random() < 0.7:
                    self.starts_again(self.here[place], f"{seed} {number}")
            for here in self.here:
                await here.share(1)
            for _ in range(8):
                await self.bus.carry()
                for site in self.sites:
                    site._sent.clear()
                    site._pauses.clear()
                await self.bus.rounds(2)
            numbers = [await self.numbers(here) for here in self.here]
            self.assertEqual(numbers, [by_shapes(here.lab.state.shared.places) for here in self.here], seed)
            self.assertEqual(numbers, [numbers[0]] * 3, seed)

    def starts_again(self, here: Here, what: str) -> None:
        """Read the journal again: the seat has the road of the active shapes."""
        state = State()
        for entry in here.entries():
            state.read(entry)
        for seat in (state.shared, state.seats[1]):
            self.assertEqual(closed(rows_of(all_edits(seat.road))), by_shapes(seat.places), f"{what} {seat.at}")

    async def act(self, here: Here, chance: random.Random, key: str) -> None:
        what, first, begin = chance.random(), chance.choice(CELLS), chance.choice(STEPS)
        if what < 0.4:
            shape = ["block", first, chance.randint(first, CELLS[-1]), begin, begin + chance.randint(1, 20), chance.randint(0, 1)]
            await here.ask(1, "gesture", key=key, note="", shape=shape)
        elif what < 0.6:
            others = [name for name in self.names if name != here.lab.state.site]
            await here.ask(1, "site", key=key, site=chance.choice(others), out=chance.random() < 0.6)
        elif what < 0.75:
            made = [one.stamp for one in here.lab.state.seats[1].places]
            await here.ask(1, "undo", key=key, note="", stamp=list(chance.choice(made or [(1, "M47dx6_hno3g_1R9IF57TQ")])))
        elif what < 0.85:
            await here.take(1)
        else:
            await here.share(1)

    async def numbers(self, here: Here) -> dict[tuple[int, int], int]:
        """Return which cells are closed at which steps of the shared road, from the edits in force in the program."""
        reply = await here.keeper.ask(0, (0,), lambda: here.keeper.program.ask(b'{"scenario":{"at":"shared"}}'))
        return closed(json.loads(reply)["edits"])

    async def test_an_excluded_site_warns_its_users_and_goes_on_working(self) -> None:
        await self.shape(2, "block", 60, 60, 30, None, 1)
        await self.here[2].ask(1, "gesture", key="private", note="", shape=["limit", 1, 1, 20, None, 2])
        await self.here[0].ask(1, "site", key="out", site=self.names[2], out=True)
        await self.share(0)
        await self.here[2].take(1)
        for at in ("seat1", "shared"):
            self.assertEqual(await self.rows(self.here[2], at), self.road())
            said = await self.here[2].ask(1, "layers", at=at)
            self.assertEqual([line["standing"] for line in said["layers"] if "gone" not in line and line["kind"] != "site"], [False])
        with self.assertRaisesRegex(Refused, "SiteExcluded"):
            await self.here[2].ask(1, "gesture", key="more", note="", shape=["block", 70, 70, 30, None, 1])
        self.assertEqual((await self.here[2].share(1))["size"], 0)
        await self.here[0].ask(1, "site", key="in", site=self.names[2], out=False)
        await self.share(0)
        await self.here[2].take(1)
        self.assertEqual((await self.here[2].share(1))["size"], 1)
        await self.share(2)
        await self.everywhere(self.road(("block", 60, 30, 1), ("limit", 1, 20, 2)))

    async def test_the_newest_exclusions_count_and_an_excluded_site_may_exclude(self) -> None:
        """It is for mistakes: sites that exclude each other are not out for good, since the next to exclude one mends it."""
        await self.shape(2, "block", 60, 60, 30, None, 1)
        await self.shape(0, "limit", 1, 1, 20, None, 2)
        both = self.road(("limit", 1, 20, 2), ("block", 60, 30, 1))
        for place, out, rows in ((0, 2, self.road(("limit", 1, 20, 2))), (2, 0, self.road(("block", 60, 30, 1))), (
                1, 2, self.road(("limit", 1, 20, 2)))):
            await self.here[place].ask(1, "site", key=f"out {out}", site=self.names[out], out=True)
            await self.share(place)
            await self.everywhere(rows)
        self.assertEqual((await self.here[0].ask(1, "layers", at="shared"))["layers"][-1]["site"], self.names[0])
        # Once the third site is in again, its own exclusion of the first counts, too: so that is included next.
        for place, back, rows in ((0, 2, self.road(("block", 60, 30, 1))), (1, 0, both)):
            await self.here[place].take(1)
            await self.here[place].ask(1, "site", key=f"in {back}", site=self.names[back], out=False)
            await self.share(place)
            await self.everywhere(rows)
        with self.assertRaisesRegex(Refused, "OwnSite"):
            await self.here[2].ask(1, "site", key="own", site=self.names[2], out=False)

    async def test_older_exclusions_of_an_excluded_site_have_no_effect(self) -> None:
        """Also if it says later that it made them first."""
        await self.shape(0, "limit", 1, 1, 20, None, 2)
        await self.here[1].ask(1, "site", key="out", site=self.names[2], out=True)
        await self.share(1)
        for count, name in enumerate(self.names[:2], 1):
            one = exclude(count, name, True, About("Eve", site=self.names[2]))
            await self.bus.give(self.sites[0], message_of(self.sites[0], one))
        await self.bus.rounds(3)
        await self.everywhere(self.road(("limit", 1, 20, 2)))
        for number, wrong in enumerate(([3, True], [self.names[2], 1], ["s3", True], [self.names[2], True], [self.names[1]])):
            bad = written(9 + number, site=self.names[2], excludes=wrong)
            body = json.dumps({"form": 4, "operations": [bad]}).encode()
            await self.bus.give(self.sites[0], Message(f"road/{self.sites[0]._road}/operations", body))
            self.assertNotIn(tuple(bad["stamp"]), self.here[0].lab.state.by_stamp)

    async def test_all_sites_choose_the_same_one_of_two_exclusions_with_one_count(self) -> None:
        """One excludes a site, and the other includes it. They arrive in either order, and the greater hash wins."""
        stamp = await self.shape(2, "block", 60, 60, 30, None, 1)
        two = [exclude(stamp[0] + 1_000, self.names[2], out, About(site="eve-00000000")) for out in (True, False)]
        for place, site in enumerate(self.sites):
            for one in two[::-1] if place else two:
                await self.bus.give(site, message_of(site, one))
        await self.bus.rounds(3)
        is_out = max(two, key=lambda one: one.stamp[1]) is two[0]
        await self.everywhere(self.road() if is_out else self.road(("block", 60, 30, 1)))
        self.bus.seen.clear()
        await self.bus.rounds(3)  # and no more messages are sent
        self.assertEqual([one for one in self.bus.seen if one.topic.endswith("operations")], [])
