"""Test named variants: a variant keeps the road as it was when it was named, whatever happens later; up to four roads are compared."""
from __future__ import annotations

import asyncio
import json
import random
import statistics
import time
from pathlib import Path
from typing import Any, Sequence
from unittest import mock

from zegdrut.figures import RoadRun, Window, compute_vehicle_hours
from zegdrut.figures.trips import compute_delay
from zegdrut.program import Script
from zegdrut.program.scripts import open_edited

from faulty import Disk, Here, soon, written
from figures_told import run_with_queue
from oracle import by_rows, oracle_of
from raw_figures import STEPS, Run, figures_of, random_plan, random_shapes
from running import SMALL, Case, descendants, new_folder, program, until
from server.base.settings import Settings
from server.lab.gestures import MOST_VARIANTS
from server.model.reading import read_operation
from server.lab.fixed_roads import MOST_PROGRAMS, UNUSED
from server.base.refusals import Refused

LAST = 200
ELSEWHERE = "elsewhere-0123abcd"  # a site that does not exist
ORACLE = oracle_of(SMALL, LAST)


def near(one: Any, other: Any) -> bool:
    return one == other or None not in (one, other) and abs(one - other) < 1e-7


class Kept(Case):
    """A seat's road is named; then something happens."""

    async def asyncSetUp(self) -> None:
        self.here = await self.enterAsyncContext(Here())
        self.ada, self.ben = await self.here.join("Ada", "Ben")
        await self.here.lab.road_clock.set_clock(to=LAST)
        self.works = await self.put(self.ben, "works", ["block", 60, 60, 30, 90, 1])
        await self.here.share(self.ben)
        await self.here.take(self.ada)
        self.slow = await self.put(self.ada, "slow", ["limit", 0, 2, 10, None, 2])
        self.open = await self.put(self.ada, "open", ["block", 60, 62, 50, 70, 0])
        self.rows: dict[str, Any] = {}
        await self.name("night")

    async def put(self, seat: int, key: str, shape: list[Any] | None, **more: Any) -> Any:
        return (await self.here.ask(seat, "gesture", key=key, shape=shape, **more))["stamp"]

    async def picture(self, at: str) -> Any:
        """Return the rows, counts, sums and list of a road."""
        await self.here.ask(self.ada, "advance", at=at, to=LAST)
        lists = [one for piece in await self.pieces(at) for one in piece]
        return [await self.here.ask(self.ada, "diagram", at=at, **{"from": 0, "to": LAST}),
                await self.here.ask(self.ada, "counts", at=at, **{"from": 0, "to": LAST}),
                await self.here.ask(self.ada, "sums", at=at, **{"from": 0, "to": 180}),
                sorted((tuple(one["name"]), json.dumps(one.get("shown"))) for one in lists)]

    async def pieces(self, at: str) -> list[Any]:
        """Return the list of a road, in the pieces in which it comes."""
        found, after, more = list[Any](), 0, True
        while more:
            said = await self.here.ask(self.ada, "layers", at=at, **{"from": after})
            found.append(said["layers"])
            after, more = said["next"], said["more"]
        return found

    async def name(self, name: str) -> list[str]:
        """Name the present road, and note its picture and what the oracle paints."""
        self.rows[name] = await self.picture(f"seat{self.ada}")
        held = [read_operation({field: one for field, one in operation.items() if field not in ("shared", "seat")})
                for operation in (await self.here.ask(self.ada, "operations"))["operations"]]
        self.rows[f"{name} painted"] = ORACLE.painted(held)
        said: list[str] = (await self.here.ask(self.ada, "variant", name=name))["variants"]
        return said

    async def is_kept(self, name: str, what: str, is_computed: bool = True) -> None:
        """Check that a variant is as it was named; if its road is computed again, from what it is made of."""
        if is_computed:
            self.here.questions.drop_seat(self.ada)
        found = await self.picture(f"variant:{name}")
        self.assertEqual(found[:3], self.rows[name][:3], what)
        self.assertEqual(found[3], self.rows[name][3], what)
        known = await self.here.questions.roads.find_fixed(self.ada, f"variant:{name}").know()
        self.assertEqual(ORACLE.by_the_program(by_rows(known.edits)), self.rows[f"{name} painted"], what)

    async def test_it_stays_as_it_was_named(self) -> None:
        await self.is_kept("night", "at once")
        await self.put(self.ada, "a", ["block", 20, 25, 20, 120, 1])
        await self.put(self.ada, "b", ["limit", 0, 2, 10, 60, 1], layer=self.slow)
        await self.is_kept("night", "own edits")
        self.assertEqual(await self.name("noon"), ["night", "noon"])
        self.assertNotEqual(self.rows["noon"], self.rows["night"])
        await self.here.ask(self.ada, "undo", key="c", stamp=self.open)
        await self.put(self.ada, "d", None, layer=self.slow)
        await self.is_kept("night", "undone and withdrawn")
        await self.here.share(self.ada)
        later = await self.put(self.ben, "e", ["block", 60, 60, 30, 150, 1], layer=self.works)
        await self.here.share(self.ben)
        await self.here.take(self.ada)
        await self.is_kept("night", "changed by another")
        await self.here.take(self.ben)
        await self.here.ask(self.ben, "undo", key="f", stamp=later)
        await self.here.share(self.ben)
        await self.here.take(self.ada)
        await self.is_kept("night", "shared and taken")
        await self.here.ask(self.ada, "site", key="g", site=ELSEWHERE, out=True)
        for name in ("night", "noon"):
            await self.is_kept(name, f"{name}, a site is excluded")

    async def test_an_excluded_site_has_its_part_in_a_variant(self) -> None:
        """A variant that was named before an exclusion has the changes of that site; one that was named after it has not."""
        theirs = {"site": ELSEWHERE, "who": "Eve", "shape": ["block", 30, 40, 40, 160, 1]}
        operation = self.here.lab.read(written(1 << 20, **theirs))
        await self.here.lab.receive([operation], "", {})
        await self.here.take(self.ada)
        await self.name("with")
        await self.here.ask(self.ada, "site", key="out", site=ELSEWHERE, out=True)
        await self.name("without")
        self.assertNotEqual(self.rows["with"][0], self.rows["without"][0])
        await self.here.share(self.ada)
        for name in ("with", "without"):
            await self.is_kept(name, name)

    async def test_own_shared_changes_are_part_of_it(self) -> None:
        """They are on the own road before they are taken, and stay once they are taken with those of others."""
        await self.here.share(self.ada)
        await self.name("shared")
        await self.put(self.ben, "e", ["block", 20, 25, 20, 120, 1])
        await self.here.share(self.ben)
        await self.put(self.ada, "f", ["block", 30, 35, 20, 120, 1])
        await self.name("more")
        await self.here.share(self.ada)
        await self.here.take(self.ada)
        await self.name("taken")
        await self.here.keeper.compact()
        await self.again()
        for name in ("night", "shared", "more", "taken"):
            await self.is_kept(name, name)

    async def test_it_is_kept_over_forgetting_compaction_and_a_restart(self) -> None:
        """An operation of a variant is not forgotten, though it was undone or withdrawn long ago, until the variant is removed."""
        await self.here.ask(self.ada, "undo", key="u", stamp=self.open)
        await self.put(self.ada, "w", None, layer=self.slow)
        for number in range(30):  # the newest 20 of a seat are never forgotten
            stamp = await self.put(self.ada, f"{number}", ["block", 5, 5, number, None, 1])
            await self.here.ask(self.ada, "undo", key=f"u{number}", stamp=stamp)
        before = len(self.here.lab.state.seats[self.ada].own)
        self.here.keeper._forget()
        self.assertLess(len(self.here.lab.state.seats[self.ada].own), before - 30)
        await self.is_kept("night", "forgotten")
        await self.here.keeper.compact()
        await self.again()
        await self.is_kept("night", "compacted")
        for _ in range(2):
            await self.again()
        await self.is_kept("night", "restarted")
        await self.here.ask(self.ada, "variant", name="night", drop=True)
        self.here.keeper._forget()
        held = {one.stamp for one in self.here.lab.state.seats[self.ada].own}
        self.assertFalse(held & {tuple(self.slow), tuple(self.open)})
        await self.again()
        self.assertEqual(self.here.lab.state.seats[self.ada].variants, {})

    async def again(self) -> None:
        """Start the laboratory of the folder again."""
        await self.here.__aexit__(None, None, None)
        await self.here.__aenter__()

    async def test_the_same_name_names_the_present_road(self) -> None:
        await self.name("noon")
        await self.is_kept("night", "at first", is_computed=False)
        await self.put(self.ada, "a", ["block", 20, 25, 20, 120, 1])
        before = self.rows["night"]
        self.assertEqual(await self.name("night"), ["night", "noon"])
        self.assertNotEqual(self.rows["night"], before)
        await self.put(self.ada, "b", ["block", 40, 45, 20, 120, 1])
        await self.is_kept("night", "named again", is_computed=False)
        self.assertEqual((await self.here.ask(self.ada, "variant", name="night", drop=True))["variants"], ["noon"])
        await self.is_kept("noon", "the other one was removed")

    async def test_names_are_those_of_people(self) -> None:
        """A variant may be called like a road; spaces are as in other names."""
        for name, said in (("mine", "mine"), ("shared", "shared"), ("file", "file"), ("variant:night", "variant:night"), ("  at \n dawn ", "at dawn"),
                           ("Nacht – «früh» 早", "Nacht – «früh» 早"), ("x" * 70, "x" * 64)):
            self.assertEqual((await self.here.ask(self.ada, "variant", name=name))["variants"][-1], said)
            figures = await soon(self.here.ask(self.ada, "figures", of=["shared", f"seat{self.ada}", f"variant:{said}"], **{"from": 0, "to": 60}))
            self.assertTrue(all(row["values"][1] == row["values"][2] for row in figures["figures"]))

    async def test_the_road_of_the_file_is_the_plan(self) -> None:
        """A folder of a plan line has no works: nobody's changes are on the road of its file."""
        async with Here() as other:
            seat, = await other.join("Cleo")
            await other.lab.road_clock.set_clock(to=LAST)
            await other.ask(seat, "advance", to=LAST)
            rows = await other.ask(seat, "diagram", **{"from": 0, "to": LAST})
        await self.here.ask(self.ada, "advance", at="file", to=LAST)
        self.assertEqual(await self.here.ask(self.ada, "diagram", at="file", **{"from": 0, "to": LAST}), rows)
        self.assertEqual((await self.here.ask(self.ada, "layers", at="file"))["layers"], [])

    async def test_a_list_comes_in_pieces(self) -> None:
        """Each piece has lines; together they are those of the road when it was named."""
        for number in range(40):
            await self.put(self.ada, f"{number}", ["block", 5, 5, number, number + 1, 1])
        await self.name("many")
        with mock.patch("server.tabs.questions.LIST_AT_ONCE", 0.0):
            pieces = await self.pieces("variant:many")
        self.assertEqual({len(piece) for piece in pieces}, {1})
        self.assertEqual(sorted((tuple(one["name"]), json.dumps(one.get("shown"))) for piece in pieces for one in piece), self.rows["many"][3])

    async def test_what_cannot_be_named_is_refused_and_changes_nothing(self) -> None:
        names = [f"{number}" for number in range(MOST_VARIANTS - 1)]
        for name in names:
            await self.here.ask(self.ada, "variant", name=name)
        entries = self.here.entries()
        cases: list[tuple[dict[str, Any], str]] = [
            ({"name": "one more"}, "TooManyVariants"), ({"name": ""}, "NoName"), ({"name": " \u2800 "}, "NoName"),
            ({"name": 5}, "not a command"), ({}, "not a command"), ({"name": "a", "drop": 1}, "not a command"),
            ({"name": "unknown", "drop": True}, "NoSuchVariant"), ({"name": "a", "key": "k"}, "not a command")]
        for fields, refusal in cases:
            with self.assertRaisesRegex(Refused, refusal):
                await self.here.ask(self.ada, "variant", **fields)
        looks: list[tuple[str, dict[str, Any]]] = [("diagram", {"from": 0, "to": 5}), ("layers", {}), ("advance", {"to": 5})]
        for verb, more in looks:
            with self.assertRaisesRegex(Refused, "NoSuchVariant"):
                await self.here.ask(self.ada, verb, at="variant:unknown", **more)
            with self.assertRaisesRegex(Refused, "NoSuchVariant"):  # the variant belongs to a different seat
                await self.here.ask(self.ben, verb, at="variant:night", **more)
        for verb in ("scenario", "operations"):
            with self.assertRaisesRegex(Refused, "NotYourReplica"):
                await self.here.ask(self.ada, verb, at="variant:night")
        with self.assertRaisesRegex(Refused, "NotYourReplica"):
            await self.here.ask(self.ada, "variant", at="shared", name="a")
        with self.assertRaisesRegex(Refused, "NotYourReplica") as caught:  # "seat1" is the only name of that road
            await self.here.ask(self.ada, "figures", of=["own", f"seat{self.ada}"], **{"from": 0, "to": 60})
        self.assertIn('"variant:NAME"', caught.exception.why)
        self.assertEqual(self.here.entries(), entries)
        self.assertEqual((await self.here.ask(self.ada, "variant", name="night"))["variants"], ["night", *names])

    async def test_a_seat_with_variants_is_not_freed(self) -> None:
        """It may have no private changes."""
        await self.here.share(self.ada)
        with self.assertRaisesRegex(Refused, "PrivateChanges") as caught:
            await self.here.ask(self.ada, "leave")
        self.assertIn("remove them", caught.exception.why)
        await self.here.ask(self.ada, "variant", name="night", drop=True)
        await self.here.ask(self.ada, "leave")

    async def test_a_name_that_was_not_written_is_not_there(self) -> None:
        with Disk(self.here.folder) as disk:
            disk.is_read_only()
            wanted: list[dict[str, Any]] = [{"name": "noon"}, {"name": "night", "drop": True}]
            for fields in wanted:
                with self.assertRaisesRegex(Refused, "NotWritten"):
                    await self.here.ask(self.ada, "variant", **fields)
            disk.is_read_only(False)
        await self.here.keeper.wait_until_writable()
        self.assertEqual([*self.here.lab.state.seats[self.ada].variants], ["night"])
        await self.is_kept("night", "after a fault")

    async def test_few_programs_are_kept(self) -> None:
        """All variants of a seat have one program; of all seats together, the latest four have one."""
        there, seats = {*descendants()}, await self.here.join(*(f"e{number}" for number in range(6)))
        for seat in seats:
            await self.here.ask(seat, "variant", name="a")
            await self.here.ask(seat, "variant", name="b")
        await asyncio.gather(*(self.here.ask(seat, "advance", at=at, to=LAST) for seat in seats for at in ("variant:a", "variant:b", "file")))
        await asyncio.gather(*(self.here.ask(seat, "cells", at=at, step=LAST) for seat in seats for at in ("variant:a", "variant:b", "file")))

        async def are_few() -> bool:
            return len({*descendants()} - there) == MOST_PROGRAMS
        await until(are_few, "four programs beside that of the roads")
        self.here.questions.drop_seat(seats[-1])
        with mock.patch("server.lab.fixed_roads.time.monotonic", return_value=1e9 + UNUSED):
            self.here.questions.roads.find(self.ben, "file")

        async def are_none() -> bool:
            return {*descendants()} <= there
        await until(are_none, "unused roads have no program")

    def program_that(self, does: str) -> Path:
        """Replace road_lab for the roads that do not change. The new program adds a line to a file when it starts, and then does this. Return the
        file."""
        folder = new_folder()
        path, starts = folder / "road_lab", folder / "starts"
        path.write_text(f"#!/bin/sh\nSTARTS={starts}\necho >> $STARTS\n{does}\n", encoding="utf-8")
        path.chmod(0o755)
        self.here.keeper.path = str(path)
        return starts

    async def test_a_program_that_crashes_is_replaced_once(self) -> None:
        """A road on which the program crashes again is refused, and the other roads of the seat are not. So are those of a preview."""
        there = {*descendants()}
        await self.name("noon")
        await self.here.ask(self.ada, "preview", what="share")
        crash = f'[ "$(wc -l < $STARTS)" -gt 1 ] || exit 3; exec {program()}'
        for at, kept in (("variant:night", "night"), ("after", "noon")):
            starts = self.program_that(crash)
            found = await self.picture_of_rows(at)
            self.assertEqual(found, self.rows[kept][0])
            self.assertEqual(starts.read_text(), "\n\n")
        self.here.questions.drop_seat(self.ada)
        await self.here.ask(self.ada, "preview", what="share")
        on_night = 'read -r plan; echo \'{"open":3}\'; while read -r line; do case "$line" in *road1*) exit 3; esac; echo \'{"horizon":200}\'; done'
        for at in ("variant:night", "after"):
            starts = self.program_that(on_night)
            for wanted in ("\n\n", "\n\n\n\n"):
                with self.assertRaisesRegex(Refused, "NoProgram"), self.assertLogs(level="WARNING"):
                    await soon(self.here.ask(self.ada, "advance", at=at, to=LAST))
                self.assertEqual(starts.read_text(), wanted)
            self.assertEqual((await soon(self.here.ask(self.ada, "advance", at={"after": "before"}.get(at, "file"), to=LAST)))["horizon"], LAST)
        await self.end_of_programs(there)

    async def picture_of_rows(self, at: str) -> Any:
        await self.here.ask(self.ada, "advance", at=at, to=LAST)
        return await soon(self.here.ask(self.ada, "diagram", at=at, **{"from": 0, "to": LAST}))

    async def test_roads_that_are_being_queried_are_kept(self) -> None:
        """A query may take longer than roads are kept without one. They are kept as long after its end."""
        there = {*descendants()}
        for at in ("variant:night", "after"):
            await self.here.ask(self.ada, "preview", what="share")
            await self.here.ask(self.ada, "advance", at=at, to=LAST)
            road, is_free = self.here.questions.roads.find(self.ada, at), asyncio.Event()
            query = asyncio.ensure_future(road.run_job(is_free.wait))
            await asyncio.sleep(0)
            late = time.monotonic() + 2 * UNUSED
            with mock.patch("server.lab.fixed_roads.time.monotonic", return_value=late):
                self.here.questions.roads.find(self.ben, "file")
                is_free.set()
                self.assertTrue(await soon(query))
            with mock.patch("server.lab.fixed_roads.time.monotonic", return_value=late + UNUSED - 1):
                self.here.questions.roads.find(self.ben, "file")
                self.assertEqual(await self.picture_of_rows(at), self.rows["night"][0])
        await self.end_of_programs(there)

    async def test_a_query_of_a_preview_that_is_replaced_meanwhile_is_refused(self) -> None:
        """Its program has ended, but did not crash."""
        there = {*descendants()}
        await self.here.ask(self.ada, "preview", what="share")
        road, is_free = self.here.questions.roads.find(self.ada, "after"), asyncio.Event()

        async def body() -> list[bytes]:
            await is_free.wait()
            return await road.say_all([b'{"cells":{"at":"road1","step":0}}'], {})
        query = asyncio.ensure_future(road.run_job(body))
        await asyncio.sleep(0)
        await self.here.ask(self.ada, "preview", what="share")
        is_free.set()
        with self.assertRaisesRegex(Refused, "NoPreview"):
            await soon(query)
        await self.end_of_programs(there)

    async def end_of_programs(self, there: set[int]) -> None:
        """Drop the roads of the seat, and wait until only these processes are left."""
        self.here.questions.drop_seat(self.ada)

        async def are_none() -> bool:
            return {*descendants()} <= there
        await until(are_none, "no program is left")

    async def test_a_query_is_answered_while_another_variant_is_named(self) -> None:
        """Its roads are dropped for those with the new name once all queries are answered."""
        there = {*descendants()}
        long = {"from": 0, "to": LAST}
        await self.here.ask(self.ada, "advance", at="variant:night", to=LAST)
        roads = self.here.questions.roads
        asked = [asyncio.ensure_future(self.here.ask(self.ada, "diagram", at="variant:night", **long)) for _ in range(3)]
        await asyncio.sleep(0)
        await self.here.ask(self.ada, "variant", name="noon")
        await self.here.ask(self.ada, "advance", at="variant:noon", to=LAST)
        for said in await soon(asyncio.gather(*asked)):
            self.assertEqual(said, self.rows["night"][0])
        self.assertIs(roads.find_fixed(self.ada, "file")._roads, roads.find_fixed(self.ada, "variant:noon")._roads)

        async def is_one() -> bool:
            return len({*descendants()} - there) == 1
        await until(is_one, "one program is left")


class Restarts(Case):
    async def test_a_seat_has_its_variants_again_after_a_kill(self) -> None:
        """The list comes with `welcome`, also to whoever takes the seat over."""
        server = self.server()
        async with server.seat("Ada") as ada:
            self.assertEqual(ada.welcome["variants"], [])
            await ada.say("clock", to=LAST)
            await ada.ask("gesture", key="1", shape=["block", 60, 60, 30, 90, 1])
            self.assertEqual((await ada.ask("variant", name="night"))["variants"], ["night"])
            await ada.ask("gesture", key="2", shape=["block", 20, 20, 30, 90, 1])
            await ada.ask("advance", at="variant:night", to=LAST)
            rows = (await ada.ask("diagram", at="variant:night", **{"from": 0, "to": LAST}))["rows"]
        server.restart()
        async with server.seat(take=1) as taken:
            self.assertEqual(taken.welcome["variants"], ["night"])
            await taken.ask("advance", at="variant:night", to=LAST)
            self.assertEqual((await taken.ask("diagram", at="variant:night", **{"from": 0, "to": LAST}))["rows"], rows)


class Compared(Case):
    """Figures, days and reports of several roads, compared with what follows from the cars."""

    async def asyncSetUp(self) -> None:
        chance = random.Random(11)
        self.here = await self.enterAsyncContext(Here(plan=random_plan(chance)))
        self.seat, = await self.here.join("Ada")
        await self.here.lab.road_clock.set_clock(to=STEPS)
        self.edits: dict[str, Any] = {"file": []}
        for number, at in enumerate(("shared", "variant:night", "variant:noon", f"seat{self.seat}")):
            for place, shape in enumerate([["block", 90, 92, 60 + 40 * number, 200 + 20 * number, 1], *random_shapes(self.here.plan, chance)]):
                await self.here.ask(self.seat, "gesture", key=f"{at} {place}", shape=shape)
            self.edits[at] = (await self.here.ask(self.seat, "scenario"))["edits"]
            if at == "shared":
                await self.here.share(self.seat)
            elif at.startswith("variant:"):
                await self.here.ask(self.seat, "variant", name=at.partition(":")[2])

    def run_of(self, at: str, day: int = 0) -> Run:
        return Run({**self.here.plan, "words": self.here.plan["words"] + day}, self.edits[at], STEPS)

    def day_of(self, at: str, day: int, first: int, last: int) -> RoadRun:
        """Return a day on which cars that cannot enter wait before the road."""
        return run_with_queue({**self.here.plan, "words": self.here.plan["words"] + day}, self.edits[at], first, last)

    def are(self, said: Any, of: Sequence[str], first: int, last: int) -> None:
        """Check each figure of one day: the value on each road, and each later road minus the first."""
        runs = [self.run_of(at) for at in of]
        tables = [figures_of(runs[0], run, first, last) for run in runs[1:]]
        for row in said["figures"]:
            key = row["figure"]["key"], row["figure"]["of"][0], row["figure"]["of"][1]
            if key[0] in ("demand", "demand at", "lost", "lost at"):
                continue
            wanted = [table[key] for table in tables]
            values = [wanted[0][0], *(one[1] for one in wanted)]
            for found, value in zip([*row["values"], *row["differences"]], [*values, *(one[2] for one in wanted)], strict=True):
                self.assertTrue(near(found[0], value) and found[1] is None, (key, found, value))
        self.assertEqual(len(said["entries"]), len(of))
        for entries, run in zip(said["entries"], runs):
            self.assertEqual({step: [list(one) for one in each] for step, each in entries.items()}, run.by_entry(first, last))

    async def test_the_figures_of_four_roads_follow_from_their_cars(self) -> None:
        for of in (["shared", "variant:night", "variant:noon", "file"], ["variant:noon", "shared", f"seat{self.seat}"], ["file", "variant:night"]):
            for first, last in ((0, STEPS), (60, 300)):
                self.are(await soon(self.here.ask(self.seat, "figures", of=of, **{"from": first, "to": last})), of, first, last)

    async def test_each_pair_is_the_same_alone(self) -> None:
        """The bounds of each pair, too, though the words name the cars that all roads lose."""
        of, span = ["shared", "variant:night", "file", f"seat{self.seat}"], {"from": 0, "to": STEPS}
        said = await soon(self.here.ask(self.seat, "figures", of=of, **span))
        bounds = set()
        for place, at in enumerate(of[1:]):
            pair = await soon(self.here.ask(self.seat, "figures", of=[of[0], at], **span))
            for row, alone in zip(said["figures"], pair["figures"], strict=True):
                self.assertEqual([row["values"][0], row["values"][place + 1], row["differences"][place], row["bounds"][place]],
                                 [*alone["values"], *alone["differences"], *alone["bounds"]], row["figure"])
                bounds |= {row["bounds"][place]}
                if "lost" in alone["words"]:
                    self.assertEqual(row["words"].count("Cars that cannot enter are lost"), 1)
        self.assertGreater(len(bounds), 1)

    async def test_days_of_three_roads_are_means_of_their_days(self) -> None:
        self.here.keeper.settings = Settings(days=3)
        of, (first, last) = ["shared", "variant:noon", "variant:night"], (60, 400)
        said = await soon(self.here.ask(self.seat, "days", of=of, **{"from": first, "to": last}))
        days = [[self.day_of(at, day, first, last) for at in of] for day in range(3)]
        rows = {row["figure"]["key"]: row for row in said["figures"]}
        hours = [[compute_vehicle_hours(run.trips, Window(first, last)) for run in day] for day in days]
        delays = [[compute_delay(day[0].by_arrival, run.by_arrival, Window(first, last)).seconds / 3_600 for run in day[1:]] for day in days]
        for place in range(3):
            self.assertAlmostEqual(rows["hours"]["values"][place][0], statistics.mean(day[place] for day in hours), 7)
        for place in range(2):
            for key, each in (("hours", [day[place + 1] - day[0] for day in hours]), ("delay", [day[place] for day in delays])):
                mean, half = rows[key]["differences"][place]
                self.assertAlmostEqual(mean, statistics.mean(each), 7)
                self.assertAlmostEqual(half, 4.302653 * statistics.stdev(each) / 3 ** 0.5, 4)

    async def test_a_script_makes_the_road(self) -> None:
        for at, edits in self.edits.items():
            said = await self.here.ask(self.seat, "script", at=at)
            plan, *commands = map(json.loads, said["lines"].splitlines())
            with open_edited(at, Script(plan, commands)) as lab:
                found = {(*edit.object, edit.step): edit.value for edit in lab.scenario(plan["replicas"][0])}
            self.assertEqual(found, {(kind, index, step): value for kind, index, step, *_, value in edits if value is not None}, at)

    async def test_a_report_has_a_column_for_each_road(self) -> None:
        """It says what the figures of days say: the columns are the roads, and each later one is compared with the first."""
        of, span = ["shared", f"seat{self.seat}", "variant:night", "file"], {"from": 60, "to": 300}
        with mock.patch("server.figures.report.DAYS", 2):
            html = (await soon(self.here.ask(self.seat, "report", of=of, title="Four", works=["a"], **span)))["html"]
        head = "".join(f"<th>{name}</th><th>±</th>" for name in ("shared", "Ada", "“night”", "file"))
        self.assertIn(f"<th>mean of 2 days, per lane</th>{head}", html)
        later = "".join(f"<th>{name}</th><th>±</th><th></th>" for name in ("Ada", "“night”", "file"))
        self.assertIn(f"<th>difference from shared, per lane</th>{later}", html)
        self.assertEqual(html.count('class="field"'), 4)
        hours = [statistics.mean(compute_vehicle_hours(self.day_of(at, day, 60, 300).trips, Window(60, 300)) for day in range(2)) for at in of]
        line = html.partition("<td>vehicle hours on the road</td>")[2].partition("</tr>")[0]
        self.assertEqual([cell.partition("<")[0] for cell in line.split("<td>")[1::2]], [f"{one:,.2f}" for one in hours])
