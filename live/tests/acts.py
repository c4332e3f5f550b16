"""Test what a tab can do: put, change, withdraw, put on top, undo, share, take; which change covers which, and what the server
sends."""
from __future__ import annotations

import asyncio
import os
import signal
from typing import Any

from faulty import Bus, Here
from figures_told import at_inlets, mine, value
from server.shell.client import RefusedReply, Seat
from server.base.refusals import Refused
from server.model.operations import Stamp
from running import SMALL, Case, descendants, until

LIMIT = ["limit", 2, 50]
ELSEWHERE = "elsewhere-0123abcd"  # a site that does not exist
CLOSED = ["block", 60, 69, 30, 60, 1]
SLOW = ["limit", 1, 3, 20, 80, 2]


def limit(value: int) -> list[Any]:
    """Return a shape at LIMIT, without an end."""
    return ["limit", 2, 2, 50, None, value]


async def put_layer(seat: Seat, key: str, shape: list[Any] | None, **more: Any) -> Stamp:
    """Put, change or withdraw a shape. Return the stamp."""
    return (await seat.ask("gesture", key=key, shape=shape, **more))["stamp"]


async def limit_at(seat: Seat, at: str = "") -> Any:
    """Return what the seat's replica holds for LIMIT: null for a withdrawal, "-" for nothing."""
    edits = (await seat.ask("scenario", **({"at": at} if at else {})))["edits"]
    return next((edit[5] for edit in edits if [*edit[:3]] == LIMIT), "-")


async def numbers(seat: Seat, at: str = "") -> dict[tuple[Any, ...], int]:
    """Return the values of the edits in force, by object and step."""
    edits = (await seat.ask("scenario", **({"at": at} if at else {})))["edits"]
    return {tuple(edit[:3]): edit[5] for edit in edits if edit[5] is not None}


async def lines(seat: Seat, at: str = "") -> dict[tuple[Any, ...], Any]:
    """Return the whole list of changes, by name."""
    found: dict[tuple[Any, ...], Any] = {}
    after, more = 0, True
    while more:
        said = await seat.ask("layers", **({"at": at} if at else {}), **{"from": after})
        found.update({tuple(one["name"]): one for one in said["layers"] if "gone" not in one})
        after, more = said["next"], said["more"]
    return found


def closed(first: int, last: int, begin: int, end: int) -> dict[tuple[Any, ...], int]:
    """Return the values of the edits of a road that has only this closure."""
    return {("block", cell, step): value for cell in range(first, last + 1) for step, value in ((begin, 1), (end, 0))}


class Acts(Case):
    async def asyncSetUp(self) -> None:
        self.a6 = self.server()
        self.ada = await self.enterAsyncContext(self.a6.seat("Ada"))
        self.ben = await self.enterAsyncContext(self.a6.seat("Ben"))

    # Shapes

    async def test_a_shape_has_one_stamp_and_touches_from_its_first_step(self) -> None:
        said = await self.ada.ask("gesture", key="1", shape=CLOSED, note=" Closed\n3\u202e km\x00 ")
        stamp = said["stamp"]
        self.assertEqual((len(stamp[1]), said["touched"]), (22, 30))
        self.assertEqual(await numbers(self.ada), closed(60, 69, 30, 60))
        line: Any = said["layers"][-1]
        self.assertEqual(([line], line), (said["layers"], (await lines(self.ada))[tuple(stamp)]))
        self.assertEqual([line[name] for name in ("name", "shape", "kind", "who", "note", "standing", "shared", "height")],
                         [stamp, CLOSED, "block", "Ada", "Closed 3 km", True, False, stamp])
        self.assertEqual(line["shown"], [["block", 60, 69, 30, 60, 1, None]])
        self.assertAlmostEqual(line["when"], self.ada.welcome["time"], delta=600)
        again = await self.ada.ask("gesture", key="1", shape=SLOW)
        self.assertEqual((again["stamp"], again["again"], again["layers"]), (stamp, True, []))
        self.assertEqual(await numbers(self.ada), closed(60, 69, 30, 60))

    async def test_each_of_two_overlapping_closures_can_be_withdrawn(self) -> None:
        first = await put_layer(self.ada, "1", ["block", 60, 60, 30, 60, 1])
        second = await put_layer(self.ada, "2", ["block", 60, 60, 20, 40, 1])
        self.assertEqual(await numbers(self.ada), closed(60, 60, 20, 60))
        await put_layer(self.ada, "3", None, layer=first)
        self.assertEqual(await numbers(self.ada), closed(60, 60, 20, 40))
        await put_layer(self.ada, "4", None, layer=second)
        self.assertEqual(await numbers(self.ada), {})
        self.assertEqual(await lines(self.ada), {})  # it was private: nothing of it is left to list

    async def test_a_replaced_preview_leaves_no_program(self) -> None:
        await put_layer(self.ada, "1", CLOSED)
        asked = []
        for count in range(30):
            await self.ada.ask("preview", what="share")
            asked.append(asyncio.ensure_future(self.ada.reply("advance", at="after", to=2_000)))
            await asyncio.sleep(count / 1_000)
        await self.ada.ask("preview", what=None)
        for said in await asyncio.gather(*asked):
            self.assertIn(said.get("refused", "NoPreview"), ("NoPreview", "Busy"), said)

        async def is_alone() -> bool:
            return [*descendants(self.a6.process.pid)] == [self.a6.program]
        await until(is_alone, "the program of the roads alone")
        self.assertNotIn("` failed", self.a6.said())  # no question failed (asyncio may log a broken pipe)

    async def test_four_previews_keep_a_program_after_many_asked_at_once(self) -> None:
        seats = [self.ada, self.ben, *[await self.enterAsyncContext(self.a6.seat(f"n{number}")) for number in range(8)]]
        for seat in seats:
            await put_layer(seat, "1", CLOSED)
            await seat.ask("preview", what="share")
        for _ in range(2):
            await asyncio.gather(*(seat.ask("advance", at="after", to=50) for seat in seats))

            async def are_four() -> bool:
                return len([*descendants(self.a6.process.pid)]) == 1 + 4
            await until(are_four, "the program of the roads, and those of four previews")

    async def test_shown_lists_which_layer_covers_which_and_when(self) -> None:
        old = await put_layer(self.ada, "old", ["limit", 2, 2, 20, 80, 1], note="long")
        said = await self.ada.ask("gesture", key="new", shape=["limit", 2, 2, 40, 50, 3])
        new = said["stamp"]
        self.assertEqual({tuple(one["name"]) for one in said["layers"]}, {tuple(old), tuple(new)})  # those that changed
        shown = next(one["shown"] for one in said["layers"] if one["name"] == old)
        self.assertEqual(shown, [["limit", 2, 2, 20, 40, 1, None], ["limit", 2, 2, 40, 50, 1, new],
                                 ["limit", 2, 2, 50, 80, 1, None]])
        changed = await put_layer(self.ada, "change", ["limit", 2, 2, 20, 90, 2], layer=old)  # a change keeps its height
        self.assertEqual(await numbers(self.ada), {("limit", 2, 20): 2, ("limit", 2, 40): 3, ("limit", 2, 50): 2,
                                                   ("limit", 2, 90): 5})
        top = await self.ada.ask("gesture", key="top", layer=old, top=True)
        self.assertEqual(await numbers(self.ada), {("limit", 2, 20): 2, ("limit", 2, 90): 5})
        held = await lines(self.ada)
        self.assertEqual(held[tuple(new)]["shown"], [["limit", 2, 2, 40, 50, 3, old]])  # wholly covered
        self.assertEqual([one["does"] for one in held[tuple(old)]["operations"]], ["put", "change", "top"])
        self.assertEqual([one["stamp"] for one in held[tuple(old)]["operations"]], [old, changed, top["stamp"]])
        gone = await self.ada.ask("gesture", key="gone", layer=new, shape=None)  # it can still be withdrawn
        self.assertEqual((gone["touched"], gone["layers"]), (None, [{"name": new, "gone": True}]))

    async def test_undo_restores_exactly_what_was_there(self) -> None:
        old = await put_layer(self.ada, "old", ["limit", 2, 2, 20, 80, 1])
        await put_layer(self.ada, "new", ["limit", 2, 2, 40, 50, 3])
        before = await numbers(self.ada), await lines(self.ada)
        gone = await self.ada.ask("gesture", key="gone", layer=old, shape=None)
        self.assertEqual((gone["undo"], gone["redo"]), (gone["stamp"], None))
        back = await self.ada.ask("undo", key="back", stamp=gone["stamp"])
        self.assertEqual(await numbers(self.ada), before[0])
        self.assertEqual(back["redo"], back["stamp"])
        after = await lines(self.ada)
        self.assertEqual({name: line["shown"] for name, line in after.items()},
                         {name: line["shown"] for name, line in before[1].items()})
        await self.ada.ask("undo", key="again", stamp=back["redo"])
        self.assertEqual(await numbers(self.ada), {("limit", 2, 40): 3, ("limit", 2, 50): 5})

    async def test_z_undoes_one_change_after_the_other_and_redo_repeats_them(self) -> None:
        states, undo = [await numbers(self.ada)], None
        for count in range(4):
            undo = (await self.ada.ask("gesture", key=f"g{count}", shape=["limit", count % 2, 2, 20 + count, 80, 1]))["undo"]
            states.append(await numbers(self.ada))
        redo = None
        for count in range(4):
            said = await self.ada.ask("undo", key=f"u{count}", stamp=undo)
            undo, redo = said["undo"], said["redo"]
            self.assertEqual(await numbers(self.ada), states[3 - count])
        self.assertIsNone(undo)
        for count in range(4):
            said = await self.ada.ask("undo", key=f"r{count}", stamp=redo)
            undo, redo = said["undo"], said["redo"]
            self.assertEqual(await numbers(self.ada), states[1 + count])
        self.assertIsNone(redo)
        await self.ada.ask("undo", key="last", stamp=undo)
        self.assertEqual(await numbers(self.ada), states[3])

    async def test_z_undoes_every_change_of_one_line(self) -> None:
        line = await put_layer(self.ada, "under", ["limit", 2, 2, 40, 90, 1])
        states = [await numbers(self.ada)]
        gestures: list[tuple[str, dict[str, Any]]] = [
            ("put", {"shape": ["limit", 2, 3, 20, 50, 2]}), ("change", {"shape": ["limit", 2, 3, 20, 70, 2]}),
            ("longer", {"shape": ["limit", 2, 3, 20, 80, 3]}), ("gone", {"shape": None}),
            ("back", {"shape": ["limit", 1, 3, 20, 80, 3]}), ("top", {"top": True})]
        said: Any = None
        for key, fields in gestures:
            said = await self.ada.ask("gesture", key=key, **fields, **({} if key == "put" else {"layer": "put"}))
            states.append(await numbers(self.ada))
        for turn, walk in enumerate(("undo", "redo", "undo", "redo")):
            for count in range(1, 7):
                self.assertIsNotNone(said[walk], f"{walk} {count}")
                said = await self.ada.ask("undo", key=f"{turn} {count}", stamp=said[walk])
                self.assertEqual(await numbers(self.ada), states[-1 - count if walk == "undo" else count], f"{walk} {count}")
            self.assertEqual(said[walk], line if walk == "undo" else None)

    async def test_a_change_that_somebody_undid_again_blocks_nobody(self) -> None:
        mine = await put_layer(self.ada, "1", CLOSED)
        await self.ada.ask("send", name="shared")
        await self.ben.ask("take", message="shared")
        change = await put_layer(self.ben, "1", ["block", 60, 69, 30, 70, 1], layer=mine)
        await self.ben.ask("send", name="shared")
        await self.ada.ask("take", message="shared")
        with self.assertRaisesRegex(RefusedReply, "Ben changed its line since"):
            await self.ada.ask("undo", key="2", stamp=mine)
        await self.ben.ask("undo", key="2", stamp=change)
        await self.ben.ask("send", name="shared")
        took = await self.ada.ask("take", message="shared")
        self.assertEqual((took["undo"], await numbers(self.ada)), (mine, closed(60, 69, 30, 60)))
        await self.ada.ask("undo", key="3", stamp=mine)
        self.assertEqual(await numbers(self.ada), {})
        await self.ada.ask("send", name="shared")
        await self.ben.ask("take", message="shared")
        self.assertEqual(await numbers(self.ben), {})

    async def test_a_pending_operation_is_named_by_its_key(self) -> None:
        asked: list[tuple[str, dict[str, Any]]] = [
            ("gesture", {"key": "a", "shape": CLOSED}), ("gesture", {"key": "b", "layer": "a", "shape": SLOW}),
            ("gesture", {"key": "c", "layer": "a", "top": True}), ("undo", {"key": "d", "stamp": "b"}),
            ("undo", {"key": "e", "stamp": "c"}), ("undo", {"key": "f", "stamp": "b"})]
        said = await asyncio.gather(*(self.ada.reply(verb, at=self.ada.at, **fields) for verb, fields in asked))
        self.assertEqual([one.get("refused") for one in said], [None, None, None, None, None, "NothingToUndo"])
        self.assertIn("Ada undid this change already", said[-1]["why"])
        self.assertEqual(await numbers(self.ada), closed(60, 69, 30, 60))
        self.a6.restart()
        async with self.a6.seat(key=self.ada.key) as ada:  # keys are known after a restart, too
            await ada.ask("gesture", key="g", layer="a", shape=None)
            self.assertEqual(await numbers(ada), {})

    async def test_invalid_shapes_are_refused_with_a_sentence(self) -> None:
        for refusal, why, shape in (
                ("NoObject", "no zone 6", ["limit", 5, 6, 0, None, 1]), ("NoObject", "before its first", ["limit", 3, 2, 0, 9, 1]),
                ("NoObject", "no cell 120", ["block", 119, 120, 0, 9, 1]), ("Step", "at most", ["limit", 1, 1, 1_048_576, None, 1]),
                ("Step", "must end at step", ["limit", 1, 1, 5, 1_048_576, 1]), ("Range", "must end after step", ["limit", 1, 1, 5, 5, 1]),
                ("ValueOutOfRange", "0 to 9", ["limit", 1, 1, 5, 6, 10]), ("not a command", "not a number", ["limit", 1, 1, 5, 6, None]),
                ("not a command", "is not [kind", ["limit", 1, 1, 5, 6]), ("not a command", "is not [kind", None),
                ("not a command", "does not exist", ["lane", 1, 1, 5, 6, 1])):
            said = await self.ada.reply("gesture", at=self.ada.at, key="k", shape=shape)
            self.assertEqual(said.get("refused"), refusal, (shape, said))
            self.assertIn(why, said["why"])
        cases: list[tuple[str, dict[str, Any]]] = [
            ("NoSuchChange", {"layer": [7, "x" * 22], "shape": None}), ("NoSuchChange", {"layer": "x", "top": True}),
            ("not a command", {"layer": [7, "x" * 22]}), ("not a command", {"layer": 7, "shape": None}),
            ("not a command", {"layer": [7, 65], "top": True}), ("not a command", {"layer": [7, "x" * 22], "top": 1}),
            ("not a command", {"shape": CLOSED, "edits": [["limit", 2, 50, 1]]})]
        for refusal, fields in cases:
            self.assertEqual((await self.ada.reply("gesture", at=self.ada.at, key="k", **fields))["refused"], refusal)
        self.assertEqual((await self.ada.ask("scenario"))["edits"], [])

    async def test_a_shape_has_at_most_600_objects(self) -> None:
        server = self.server(plan={**SMALL, "length": 1_300, "zone": 100, "zones": [[5, 0]] * 13, "detectors": []})
        async with server.seat() as ada:
            said = await ada.reply("gesture", at=ada.at, key="k", shape=["block", 0, 600, 5, 9, 1])
            self.assertEqual(said["refused"], "TooManyObjects")
            for count in range(4):  # which is more edits than an import may have
                await put_layer(ada, f"k{count}", ["block", 0, 599, 10 * count, 10 * count + 5, 1])
            said = await ada.ask("gesture", key="all", shape=["block", 0, 599, 0, 100, 1])
            self.assertEqual(await numbers(ada), closed(0, 599, 0, 100))
            await ada.ask("undo", key="u", stamp=said["stamp"])
            self.assertEqual(len(await numbers(ada)), 4 * 1_200)

    async def test_malformed_shapes_are_refused_with_a_sentence(self) -> None:
        for why, shape in (
                ("is not a number", ["limit", {}, 1, 5, None, 1]), ("in quotes", ["limit", "1", 1, 5, None, 1]),
                ("without sign", ["limit", 1, 1, 5.5, None, 1]), ("is not a number", ["limit", 1, True, 5, None, 1]),
                ("use `limit`", ["limt", 1, 1, 5, None, 1]), ("is not a number", ["limit", 1, 1, 5, None, [900, 2, 3, 4]]),
                ("is not [cars per hour", ["capacity", 1, 1, 5, None, [900, 2, 3]]), ("is not [cars per hour", ["capacity", 1, 1, 5, None, 7]),
                ("without sign", ["capacity", 1, 1, 5, None, [900, 2, 3, -1]])):
            said = await self.ada.reply("gesture", at=self.ada.at, key="k", shape=shape)
            self.assertEqual(said.get("refused"), "not a command", (shape, said))
            self.assertIn(why, said["why"])
        self.assertEqual((await self.ada.ask("scenario"))["edits"], [])

    async def test_commands_of_raw_edits_and_of_numbers_are_no_more(self) -> None:
        for verb in ("edit", "withdraw", "numbers", "unbind"):
            said = await self.ada.reply(verb, at=self.ada.at)
            self.assertEqual((said["refused"], said["why"]), ("not a command", f"there is no command `{verb}`"))

    async def test_a_capacity_sets_limit_slowing_and_start_and_says_where_it_does_not_hold(self) -> None:
        made = await put_layer(self.ada, "1", ["capacity", 1, 2, 30, 60, [900, 2, 20_000, 30_000]], note="one of two lanes")
        self.assertEqual(await numbers(self.ada), {
            (kind, zone, step): value for kind, values in (("limit", (2, 5)), ("slow", (20_000, 6_554)), ("start", (30_000, 6_554)))
            for zone in (1, 2) for step, value in zip((30, 60), values)})
        line = (await lines(self.ada))[tuple(made)]
        self.assertEqual((line["kind"], line["shape"]), ("capacity", ["capacity", 1, 2, 30, 60, [900, 2, 20_000, 30_000]]))
        self.assertEqual(line["shown"], [["limit", 1, 2, 30, 60, 2, None], ["slow", 1, 2, 30, 60, 20_000, None],
                                         ["start", 1, 2, 30, 60, 30_000, None]])
        self.assertNotIn("covered", line)
        over = await put_layer(self.ada, "2", ["slow", 2, 2, 40, 50, 7])
        self.assertEqual((await lines(self.ada))[tuple(made)]["covered"], [
            ["capacity", 2, 2, 40, 50, [900, 2, 20_000, 30_000], over]])
        self.assertEqual((await numbers(self.ada))["limit", 2, 30], 2)
        for refusal, shape in (("ValueOutOfRange", ["capacity", 1, 2, 30, 60, [900, 10, 1, 1]]), (
                "ValueOutOfRange", ["capacity", 1, 2, 30, 60, [900, 2, 1, 65_537]]), ("NoObject", ["capacity", 5, 6, 30, 60, [900, 2, 1, 1]])):
            self.assertEqual((await self.ada.reply("gesture", at=self.ada.at, key="k", shape=shape))["refused"], refusal, shape)
        await self.ada.ask("send", name="shared")
        await self.ben.ask("take", message="shared")
        self.assertEqual(await numbers(self.ben), await numbers(self.ada))

    # Sharing and taking

    async def test_shared_changes_are_taken_and_the_later_one_is_on_top(self) -> None:
        mine = await put_layer(self.ada, "1", ["limit", 2, 2, 50, 70, 1], note="mine")
        one = await put_layer(self.ben, "1", ["limit", 0, 0, 5, None, 4])
        other = await put_layer(self.ben, "2", ["limit", 2, 3, 50, 60, 3], note="his")
        said = await self.ben.ask("send", name="shared", title="two")
        self.assertEqual((said["size"], said["stamps"], said["touched"]), (2, [one, other], 5))
        self.assertEqual(await limit_at(self.ada), 1)
        news: Any = await self.news_with(self.ada, "two")
        self.assertEqual((news["size"], news["from"], news["touched"], news["shares"][0]["title"]), (2, ["Ben"], 5, "two"))
        self.assertEqual([one["note"] for one in news["changes"]], ["", "his"])
        took = await self.ada.ask("take", message="shared")
        self.assertEqual((took["size"], took["touched"]), (2, 5))
        covered = next(line for line in took["layers"] if line["name"] == mine)
        self.assertEqual(covered["shown"], [["limit", 2, 2, 50, 60, 1, other], ["limit", 2, 2, 60, 70, 1, None]])
        self.assertEqual(await numbers(self.ada), {("limit", 0, 5): 4, ("limit", 2, 50): 3, ("limit", 2, 60): 1,
                                                   ("limit", 2, 70): 5, ("limit", 3, 50): 3, ("limit", 3, 60): 5})
        self.assertEqual((await self.ada.ask("take", message="shared"))["size"], 0)
        self.assertGreater(await put_layer(self.ada, "2", SLOW), other)  # above all that it holds

    async def news_with(self, seat: Seat, title: str) -> Any:
        """Wait for news of a share with this title. Return the latest news."""
        async def has_come() -> bool:
            return any(share["title"] == title for one in seat.received if "news" in one for share in one["news"]["shares"])
        await until(has_come, f"news of {title}")
        return [one["news"] for one in seat.received if "news" in one][-1]

    async def test_an_operation_has_one_time_at_all_seats(self) -> None:
        """It is the time at which it was made, and not that at which it was shared or taken."""
        mine = await put_layer(self.ada, "1", CLOSED)
        made = (await lines(self.ada))[tuple(mine)]["operations"][0]["when"]
        await asyncio.sleep(1.1)
        await self.ada.ask("send", name="shared")
        await asyncio.sleep(1.1)
        took = await self.ben.ask("take", message="shared")
        found = [(await lines(seat))[tuple(mine)]["operations"][0]["when"] for seat in (self.ada, self.ben)]
        self.assertEqual([*found, took["changes"][0]["when"]], [made] * 3)

    async def test_a_shared_change_of_another_seat_is_withdrawn_and_that_is_undone(self) -> None:
        mine = await put_layer(self.ada, "1", CLOSED, note="mine")
        await self.ada.ask("send", name="shared")
        await self.ben.ask("take", message="shared")
        gone = await put_layer(self.ben, "1", None, layer=mine, note="open")
        line = (await lines(self.ben))[tuple(mine)]
        self.assertEqual((line["who"], line["standing"], line["shared"]), ("Ada", False, False))
        self.assertEqual((await self.ben.ask("send", name="shared"))["stamps"], [gone])
        took = await self.ada.ask("take", message="shared")
        line, = took["layers"]
        self.assertEqual([(one["who"], one["does"], one["note"], one["lost"]) for one in line["operations"]],
                         [("Ada", "put", "mine", None), ("Ben", "withdraw", "open", None)])
        self.assertEqual(await numbers(self.ada), {})
        with self.assertRaisesRegex(RefusedReply, "Ben changed its line since"):
            await self.ada.ask("undo", key="2", stamp=mine)

    async def test_an_operation_on_a_line_that_its_seat_had_seen_does_not_compete(self) -> None:
        """A seat has seen an operation if it held it when it made its own, however often the line was changed; this also holds
        for an undo."""
        line = tuple(await put_layer(self.ada, "1", CLOSED))
        await self.ada.ask("send", name="shared")
        await self.ben.ask("take", message="shared")
        await put_layer(self.ben, "1", ["block", 60, 69, 30, 70, 1], layer=list(line))
        await put_layer(self.ben, "2", ["block", 60, 69, 30, 80, 1], layer=list(line))
        gone = await put_layer(self.ben, "3", None, layer=list(line))
        await self.ben.ask("undo", key="4", stamp=gone)
        await self.ben.ask("send", name="shared")
        await self.ada.ask("take", message="shared")
        for seat in (self.ada, self.ben):
            self.assertEqual({one["lost"] for one in (await lines(seat))[line]["operations"]}, {None})

    async def test_of_two_changes_of_one_line_at_once_the_later_one_wins(self) -> None:
        line = tuple(await put_layer(self.ada, "1", CLOSED))
        await self.ada.ask("send", name="shared")
        await self.ben.ask("take", message="shared")
        change = await put_layer(self.ada, "2", ["block", 60, 69, 30, 70, 1], layer=list(line))
        gone = await put_layer(self.ben, "2", None, layer=list(line))
        self.assertGreater(gone, change)  # neither knew of the other: the later one wins
        await self.ben.ask("send", name="shared")
        await self.ada.ask("take", message="shared")
        self.assertEqual(await numbers(self.ada), {})
        told = {tuple(one["stamp"]): one["lost"] for one in (await lines(self.ada))[line]["operations"]}
        self.assertEqual(told, {line: None, tuple(change): gone, tuple(gone): None})
        await self.ada.ask("again", key="3", stamp=change)
        self.assertEqual(await numbers(self.ada), closed(60, 69, 30, 70))
        await self.ada.ask("send", name="shared")
        await self.ben.ask("take", message="shared")
        self.assertEqual(await numbers(self.ben), closed(60, 69, 30, 70))

    async def test_some_operations_can_be_shared_without_the_others(self) -> None:
        first = await put_layer(self.ada, "1", CLOSED)
        second = await put_layer(self.ada, "2", ["block", 65, 74, 40, 80, 1])
        self.assertEqual((await self.ada.ask("send", name="shared", stamps=[second]))["stamps"], [second])
        self.assertEqual(await numbers(self.ada, "shared"), closed(65, 74, 40, 80))
        self.assertEqual((await self.ada.ask("send", name="shared"))["stamps"], [first])
        self.assertEqual(await numbers(self.ada, "shared"), {**closed(60, 64, 30, 60), **closed(65, 69, 30, 80),
                                                             **closed(70, 74, 40, 80)})
        self.assertEqual((await self.ada.ask("send", name="shared"))["size"], 0)
        self.assertTrue(all(one["shared"] for one in (await lines(self.ada)).values()))

    async def test_a_change_is_shared_without_its_put(self) -> None:
        line = await put_layer(self.ada, "1", CLOSED)
        change = await put_layer(self.ada, "2", ["block", 60, 69, 30, 70, 1], layer=line)
        await self.ada.ask("send", name="shared", stamps=[change])
        await self.ben.ask("take", message="shared")
        self.assertEqual(await numbers(self.ben), closed(60, 69, 30, 70))
        self.assertEqual((await self.ada.ask("send", name="shared"))["size"], 0)  # the shared road already has the same shape
        await self.ada.ask("send", name="shared", stamps=[line])
        self.assertEqual(await numbers(self.ada, "shared"), closed(60, 69, 30, 70))

    async def test_privately_undone_changes_are_not_shared_and_hide_nothing(self) -> None:
        his = await put_layer(self.ben, "1", ["limit", 2, 2, 50, 80, 4])
        for count in range(3):
            await put_layer(self.ada, f"a{count}", ["limit", 0, 0, 5 + 10 * count, 10 + 10 * count, 3])
        stamp = await put_layer(self.ada, "b", ["limit", 2, 2, 40, 70, 1])
        await self.ada.ask("undo", key="u", stamp=stamp)
        gone = await put_layer(self.ada, "c", CLOSED)
        await put_layer(self.ada, "d", None, layer=gone)
        self.assertEqual((await self.ada.ask("send", name="shared"))["size"], 3)
        self.assertEqual([edit for edit in (await self.ada.ask("scenario", at="shared"))["edits"] if edit[1] != 0], [])
        await self.ben.ask("send", name="shared")
        took = await self.ada.ask("take", message="shared")
        self.assertEqual([line["shown"] for line in took["layers"] if line["name"] == his],
                         [[["limit", 2, 2, 50, 80, 4, None]]])
        self.assertEqual({key: value for key, value in (await numbers(self.ada)).items() if key[1] == 2},
                         {("limit", 2, 50): 4, ("limit", 2, 80): 5})
        self.assertEqual([one["seat"] for one in (await self.ada.say("seats"))["seats"] if one["private"]], [])

    async def test_changes_undone_long_ago_are_forgotten_and_never_come_back(self) -> None:
        server = self.server(LIVE_MOST_UNDONE="70")
        async with server.seat() as ada, server.seat("Ben") as ben:
            first = await put_layer(ada, "first", ["limit", 2, 2, 20, 60, 1])
            for count in range(30):
                await put_layer(ben, f"b{count}", ["limit", 2, 3, 3 * count, 3 * count + 2, 3])
            for count in range(80):
                stamp = await put_layer(ada, f"g{count}", ["limit", 1, 3, count, count + 30, 2])
                await ada.ask("undo", key=f"u{count}", stamp=stamp)
            last = await put_layer(ada, "last", ["limit", 1, 1, 7, None, 3])

            async def is_shorter() -> bool:
                await ada.reply("cells", at=ada.at, step=0)
                return len((await ada.ask("operations"))["operations"]) < 150
            await until(is_shorter, "the oldest are forgotten")
            road = {("limit", 2, 20): 1, ("limit", 2, 60): 5, ("limit", 1, 7): 3}
            self.assertEqual(await numbers(ada), road)
            redo = await ada.ask("undo", key="redo", stamp="u79")
            self.assertEqual((await numbers(ada))["limit", 3, 79], 2)
            await ada.ask("undo", key="unredo", stamp=redo["stamp"])
            await ben.ask("send", name="shared")  # operations that are older than those that were forgotten
            await ada.ask("take", message="shared")
            for _ in range(2):
                held = await numbers(ada)
                ends = {(zone, step): 1 if zone == 2 and 20 <= step < 60 else 5 for zone in (2, 3) for step in range(2, 90, 3)}
                self.assertEqual(held, {("limit", 1, 7): 3, **{("limit", *end): value for end, value in ends.items()},
                                        **{("limit", zone, step): 3 for zone in (2, 3) for step in range(0, 90, 3)}})
                os.kill(server.program, signal.SIGKILL)  # with another program it is the same
            self.assertEqual((await ada.ask("send", name="shared"))["stamps"], [first, last])

    async def test_a_change_that_names_a_change_belongs_to_its_line(self) -> None:
        """So does one that names it by its key, before it is confirmed: three drags give one shape."""
        line, change, last = await asyncio.gather(
            put_layer(self.ada, "a", CLOSED), put_layer(self.ada, "b", ["block", 60, 70, 30, 60, 1], layer="a"),
            put_layer(self.ada, "c", ["block", 60, 71, 30, 60, 1], layer="b"))
        undo = (await self.ada.ask("undo", key="u", stamp=last))["stamp"]
        for key, name, cells in (("d", change, 72), ("e", undo, 73)):
            await put_layer(self.ada, key, ["block", 60, cells, 30, 60, 1], layer=name)
        self.assertEqual([(name, one["shape"][2]) for name, one in (await lines(self.ada)).items()], [(tuple(line), 73)])

    async def test_a_line_that_excludes_a_site_gets_no_shape(self) -> None:
        out = (await self.ada.ask("site", key="out", site=ELSEWHERE, out=True))["stamp"]
        acts: tuple[dict[str, Any], ...] = ({"shape": CLOSED}, {"shape": None}, {"top": True})
        for fields in acts:
            with self.assertRaisesRegex(RefusedReply, "include the site again that it excludes"):
                await self.ada.ask("gesture", key="a", layer=out, **fields)

    async def test_only_its_site_undoes_an_exclusion(self) -> None:
        bus = Bus()
        one, two = [await self.enterAsyncContext(Here(site=name)) for name in ("north", "south")]
        bus.site(one), bus.site(two)
        for here in (one, two):
            await here.join("Ada")
        out = (await one.ask(1, "site", key="out", site=ELSEWHERE, out=True))["stamp"]
        await one.share(1)
        await bus.carry()
        await two.take(1)
        with self.assertRaises(Refused) as refused:
            await two.ask(1, "undo", key="u", stamp=[*out])
        self.assertEqual((refused.exception.text, refused.exception.why),
                         ("NothingToUndo", f"only site {one.lab.state.site} can undo its own exclusion of site {ELSEWHERE}: include that "
                          "site again instead"))
        await one.ask(1, "undo", key="u", stamp="out")
        self.assertEqual(one.lab.state.seats[1].road.operations.excluded, frozenset())

    async def test_an_excluded_site_may_exclude_and_include_sites_and_nothing_else(self) -> None:
        bus = Bus()
        one, two = [await self.enterAsyncContext(Here(site=name)) for name in ("north", "south")]
        bus.site(one), bus.site(two)
        for here in (one, two):
            await here.join("Ada")
        north, south = one.lab.state.site, two.lab.state.site
        await one.ask(1, "site", key="out", site=south, out=True)
        await one.share(1)
        await bus.carry()
        await two.take(1)
        with self.assertRaises(Refused) as refused:
            await two.ask(1, "gesture", key="a", shape=CLOSED)
        self.assertEqual(refused.exception.text, "SiteExcluded")
        await two.ask(1, "site", key="out", site=north, out=True)
        self.assertEqual(two.lab.state.seats[1].road.operations.excluded, {north})
        await two.ask(1, "gesture", key="a", shape=CLOSED)

    async def test_what_need_not_be_shared_is_marked_in_its_line(self) -> None:
        async with Here() as here:
            await here.join("Ada")
            await here.ask(1, "gesture", key="a", shape=CLOSED)
            await here.share(1)
            await here.ask(1, "gesture", key="b", layer="a", shape=["block", 60, 70, 30, 60, 1])

            async def idle() -> list[Any]:
                line, = (await here.ask(1, "layers"))["layers"]
                return [(one["does"], one.get("idle", False)) for one in line["operations"]]
            self.assertEqual(await idle(), [("put", False), ("change", False)])
            await here.ask(1, "undo", key="c", stamp="b")
            self.assertEqual(await idle(), [("put", False), ("change", True), ("undo", True)])

    async def test_a_demand_goes_with_its_chance(self) -> None:
        """A change of the time keeps the demand, a change to another chance does not."""
        async with Here() as here:
            await here.join("Ada")
            await here.ask(1, "gesture", key="a", shape=["inflow", 0, 0, 30, 60, 9_000], demand=700)
            for key, shape, demand in (("b", ["inflow", 0, 0, 30, 90, 9_000], 700), ("c", ["inflow", 0, 0, 30, 90, 9_500], None)):
                await here.ask(1, "gesture", key=key, layer="a", shape=shape)
                line, = (await here.ask(1, "layers"))["layers"]
                self.assertEqual(line.get("demand"), demand, key)

    async def test_a_demand_is_rounded_to_whole_cars_as_the_page_shows_it(self) -> None:
        async with Here() as here:
            await here.join("Ada")
            for demand, whole in ((310.5, 311), (447.69, 448), (0.4, 0), (700, 700)):
                await here.ask(1, "gesture", key=f"{demand}", shape=["inflow", 0, 0, 30, 60, 9_000], demand=demand)
                operation = (await here.ask(1, "operations"))["operations"][-1]
                self.assertEqual((operation["demand"], type(operation["demand"])), (whole, int))

    async def test_forgotten_changes_are_no_longer_listed(self) -> None:
        server = self.server(LIVE_MOST_UNDONE="30")
        async with server.seat() as ada:
            gone = await put_layer(ada, "gone", ["limit", 2, 2, 20, 60, 1])
            await put_layer(ada, "withdrawn", None, layer=gone)
            line = tuple(await put_layer(ada, "line", CLOSED))
            for count in range(29):
                stamp = await put_layer(ada, f"c{count}", ["block", 60, 69, 30, 70 + count, 1], layer=list(line))
                said = await ada.ask("undo", key=f"u{count}", stamp=stamp)

            async def is_shorter() -> bool:
                return len((await ada.ask("operations"))["operations"]) < 30
            await until(is_shorter, "the oldest are forgotten")
            fresh = (await lines(ada))[line]
            self.assertEqual([one["does"] for one in fresh["operations"]], ["put", *["change", "undo"] * 10])
            self.assertEqual((await ada.ask("layers", **{"from": said["next"]}))["layers"], [fresh])
            with self.assertRaisesRegex(RefusedReply, "this seat holds no change with the stamp"):
                await ada.ask("gesture", key="late", layer=gone, top=True)

    async def test_z_undoes_the_same_operations_after_a_start_that_forgets_some(self) -> None:
        """One of the operations that are kept undoes an older one."""
        line = await put_layer(self.ada, "line", CLOSED)
        stamp = await put_layer(self.ada, "change", ["block", 60, 69, 30, 70, 1], layer=line)
        await self.ada.ask("undo", key="undo", stamp=stamp)
        undo: Stamp | None = None
        for count in range(19):
            undo = await put_layer(self.ada, f"g{count}", ["limit", 2, 2, 20 + count, 60, 1])
        self.a6.restart()
        async with self.a6.seat(key=self.ada.key) as ada:
            for count in range(20):
                said = await ada.ask("undo", key=f"u{count}", stamp=undo)
                undo = said["undo"]
                self.assertEqual(closed(60, 69, 30, 60).items() <= (await numbers(ada)).items(), count < 19)
            self.assertEqual((undo, await numbers(ada)), (None, {}))

    async def test_what_a_start_has_forgotten_does_not_come_back_at_the_next(self) -> None:
        """Not even if newer operations are shared meanwhile, so that it would now be one of the newest private ones."""
        gone = await put_layer(self.ada, "gone", CLOSED)
        await self.ada.ask("undo", key="undo", stamp=gone)
        stamps = [await put_layer(self.ada, f"g{count}", ["limit", 2, 2, 20 + count, 60, 1]) for count in range(20)]
        for shared in ([], stamps[:10]):
            await self.ada.ask("send", name="shared", stamps=shared)
            self.a6.restart()
            self.ada = await self.enterAsyncContext(self.a6.seat(key=self.ada.key))
            held: Any = (await self.ada.ask("operations"))["operations"]
            self.assertEqual([tuple(one["stamp"]) for one in held], [tuple(stamp) for stamp in stamps])

    async def test_a_withdrawn_line_comes_back_whole_after_a_restart(self) -> None:
        line = await put_layer(self.ada, "line", CLOSED, note="works")
        for count in range(20):
            await put_layer(self.ada, f"g{count}", ["limit", 2, 2, 20 + count, 60, 1])
        gone = await put_layer(self.ada, "gone", None, layer=line, note="open")
        self.a6.restart()
        async with self.a6.seat(key=self.ada.key) as ada:
            back = await ada.ask("undo", key="back", stamp=gone)
            self.assertEqual([(one["name"], one["note"]) for one in back["layers"]], [(line, "works")])
            await ada.ask("undo", key="none", stamp=line)
            self.assertEqual({kind for kind, _, _ in await numbers(ada)}, {"limit"})

    # Lists

    async def test_the_list_has_only_what_changed_since_a_version(self) -> None:
        for count in range(3):
            await put_layer(self.ada, str(count), ["limit", count, count, 20, 40, 1])
        said, version = await self.list_since(0)
        self.assertEqual(len(said), 3)
        self.assertEqual(await self.list_since(version), ([], version))
        new = await self.ada.ask("gesture", key="3", shape=["limit", 0, 0, 30, 50, 2])
        self.assertEqual(new["since"], version)
        changed, later = await self.list_since(version)
        self.assertEqual((len(changed), changed[:len(new["layers"])]), (2, new["layers"]))
        await self.ada.ask("send", name="shared", stamps=[new["stamp"]])
        flags, _ = await self.list_since(later)
        self.assertEqual([(one["name"], one["shared"]) for one in flags], [(new["stamp"], True)])

    async def list_since(self, version: int) -> tuple[list[Any], int]:
        """Return what has changed in Ada's list since a version, and the present version. A slow server sends it in pieces."""
        found, more = list[Any](), True
        while more:
            said = await self.ada.ask("layers", **{"from": version})
            found, version, more = [*found, *said["layers"]], said["next"], said["more"]
        return found, version


class Previews(Case):
    """Compare a preview of sharing or taking with what sharing or taking then does."""

    async def asyncSetUp(self) -> None:
        self.a6 = self.server()
        self.ada = await self.enterAsyncContext(self.a6.seat("Ada"))
        self.ben = await self.enterAsyncContext(self.a6.seat("Ben"))
        await self.ada.say("clock", to=200)
        self.his = await put_layer(self.ben, "1", ["block", 60, 60, 30, 90, 1], note="works")
        await self.ben.ask("send", name="shared")
        self.slow = await put_layer(self.ada, "1", ["limit", 0, 1, 1, None, 2], note="slow")
        self.mine = await put_layer(self.ada, "2", ["block", 60, 62, 50, 70, 0], note="open")

    async def picture(self, at: str, to: int = 200) -> Any:
        """Return the rows, counts and sums of a road, each from a question of its own."""
        await self.ada.ask("advance", at=at, to=to)
        return (await self.ada.ask("diagram", at=at, **{"from": 0, "to": to}),
                await self.ada.ask("counts", at=at, **{"from": 0, "to": to}),
                await self.ada.ask("sums", at=at, **{"from": 0, "to": 180}))

    def seen(self, picture: Any) -> Any:
        return [{name: value for name, value in one.items() if name not in ("id", "us")} for one in picture]

    async def figures_are(self, said: Any, name: str, at: str, first: int) -> None:
        """Compare the figures of a road with those that follow from the replica's cars."""
        cars: list[Any] = [(await self.ada.ask("cars", at=at, step=step))["cars"] for step in range(first, 201)]
        self.assertAlmostEqual(value(said, name, "hours"), sum(map(len, cars[1:])) / 3_600)
        numbers = {car[0] for row in cars for car in row if first <= car[0] // 16 < 200}
        entered = [sum(number % 16 == inlet for number in numbers) for inlet in (0, 1)]
        self.assertEqual(at_inlets(said, name, "admitted"), entered)
        counts: Any = (await self.ada.ask("counts", at=at, **{"from": first, "to": 200}))["counts"]
        for detector, (passed, speeds) in enumerate(counts):
            self.assertEqual(value(said, name, "cars", None, detector), passed)
            self.assertEqual(value(said, name, "speed", None, detector), speeds / passed * 27 if passed else None)

    async def test_a_preview_of_sharing_compares_with_the_shared_road(self) -> None:
        said = await self.ada.ask("preview", what="share")
        self.assertEqual((said["size"], said["touched"]), (2, 1))
        told = {tuple(one["name"]): (one["was"], one["shown"]) for one in said["layers"]}
        self.assertEqual(told, {
            tuple(self.slow): (None, [["limit", 0, 1, 1, None, 2, None]]),
            tuple(self.mine): (None, [["block", 60, 62, 50, 70, 0, None]]),
            tuple(self.his): ([["block", 60, 60, 30, 90, 1, None]],
                              [["block", 60, 60, 30, 50, 1, None], ["block", 60, 60, 50, 70, 1, self.mine],
                               ["block", 60, 60, 70, 90, 1, None]])})
        figures = [await self.ada.ask("figures", of=["before", "after"], **{"from": first, "to": 200}) for first in (0, 100)]
        pictures = {name: await self.picture(name) for name in ("before", "after")}
        before = await self.picture("shared")
        self.assertEqual(self.seen(pictures["before"]), self.seen(before))
        for found, first in zip(figures, (0, 100)):
            await self.figures_are(found, "before", "shared", first)
        await self.ada.ask("send", name="shared")
        self.assertEqual(self.seen(pictures["after"]), self.seen(await self.picture("shared")))
        self.assertNotEqual(self.seen(pictures["before"]), self.seen(pictures["after"]))
        for found, first in zip(figures, (0, 100)):
            await self.figures_are(found, "after", "shared", first)
        self.assertEqual(self.seen(await self.picture("before")), self.seen(before))  # the roads of the preview stay as they were

    async def test_a_preview_of_taking_compares_with_the_own_road(self) -> None:
        said = await self.ada.ask("preview", what="take")
        self.assertEqual((said["size"], said["touched"]), (1, 30))
        told = {tuple(one["name"]): (one["was"], one["shown"]) for one in said["layers"]}
        self.assertEqual(told, {tuple(self.his): (None, [
            ["block", 60, 60, 30, 50, 1, None], ["block", 60, 60, 50, 70, 1, self.mine],
            ["block", 60, 60, 70, 90, 1, None]])})
        figures = await self.ada.ask("figures", of=["before", "after"], **{"from": 0, "to": 200})
        self.assertEqual(self.seen(await self.picture("before")), self.seen(await self.picture(self.ada.at)))
        await self.figures_are(figures, "before", self.ada.at, 0)
        after = await self.picture("after")
        await self.ada.ask("take", message="shared")
        self.assertEqual(self.seen(after), self.seen(await self.picture(self.ada.at)))
        await self.figures_are(figures, "after", self.ada.at, 0)

    async def test_a_change_that_would_be_lost_is_listed_with_its_shape_and_the_winner(self) -> None:
        """It is listed although the road would stay the same."""
        await self.ada.ask("take", message="shared")
        theirs = await put_layer(self.ben, "3", ["block", 60, 60, 30, 95, 1], layer=self.his)
        await self.ben.ask("send", name="shared")
        mine = await put_layer(self.ada, "4", ["block", 60, 60, 30, 99, 1], layer=self.his)
        for is_shared in (False, True):
            said = await self.ada.ask("preview", what="take")
            line: Any
            line, = said["layers"]
            self.assertEqual((said["size"], said["touched"], line["name"], line["shape"][4]), (1, None, self.his, 99), is_shared)
            told, = [one for one in line["operations"] if one["lost"]]
            self.assertEqual([told[name] for name in ("stamp", "who", "lost", "shape")],
                             [theirs, "Ben", mine, ["block", 60, 60, 30, 95, 1]])
            await self.ada.ask("send", name="shared")

    async def test_the_own_road_is_compared_with_the_shared_one(self) -> None:
        figures = await self.ada.ask("figures", of=mine(1), **{"from": 0, "to": 200})
        for name, at in (("before", "shared"), ("after", self.ada.at)):
            await self.ada.ask("advance", at=at, to=200)
            await self.figures_are(figures, name, at, 0)

    async def test_a_preview_of_sharing_some_changes_has_only_their_effects(self) -> None:
        said = await self.ada.ask("preview", what="share", stamps=[self.mine])
        self.assertEqual((said["size"], said["touched"]), (1, 50))
        self.assertEqual({tuple(one["name"]) for one in said["layers"]}, {tuple(self.mine), tuple(self.his)})

    async def test_figures_of_a_preview_need_a_preview(self) -> None:
        for verb, fields in (("cells", {"at": "after", "step": 0}), ("advance", {"at": "before", "to": 5}),
                             ("figures", {"at": self.ada.at, "of": ["before", "after"], "from": 0, "to": 5})):
            self.assertEqual((await self.ada.reply(verb, **fields))["refused"], "NoPreview")
        await self.ada.ask("preview", what="share")
        self.assertEqual((await self.ada.ask("cells", at="after", step=0))["cells"], "." * 120)
        await self.ada.ask("preview", what=None)
        self.assertEqual((await self.ada.reply("cells", at="after", step=0))["refused"], "NoPreview")
        self.assertEqual((await self.ada.reply("cells", at="after", step=0))["refused"], "NoPreview")
        self.assertEqual((await self.ben.reply("cells", at="after", step=0))["refused"], "NoPreview")

    async def test_demand_that_could_not_enter_is_lost(self) -> None:
        """Without slowing, an inlet with chance 1 admits a car every other step, 1,800 an hour, so demand and lost demand are
        known. A demand that is lowered is not lost."""
        plan = {**SMALL, "zones": [[5, 0]] * 6, "inlets": [[0, 65_536], [40, 0]]}
        server = self.server(plan=plan)
        async with server.seat() as ada:
            await ada.say("clock", to=300)
            await put_layer(ada, "1", ["block", 50, 50, 60, 200, 1])  # its jam reaches both inlets
            await put_layer(ada, "2", ["inflow", 1, 1, 100, 250, 65_536])
            await put_layer(ada, "3", ["inflow", 0, 0, 200, None, 0])
            said: Any = await ada.ask("figures", of=mine(1), **{"from": 30, "to": 290})
            self.assertEqual(at_inlets(said, "before", "demand"), [(290 - 30) / 2, 0])
            self.assertEqual(at_inlets(said, "before", "lost"), [0, 0])
            self.assertEqual(at_inlets(said, "after", "demand"), [(200 - 30) / 2, (250 - 100) / 2])
            for side, at in (("before", "shared"), ("after", ada.at)):
                await ada.ask("advance", at=at, to=290)
                rows: list[Any] = [(await ada.ask("cars", at=at, step=step))["cars"] for step in range(31, 291)]
                cars = {car[0] for row in rows for car in row if 30 <= car[0] // 16 < 290}
                entered = [sum(number % 16 == inlet for number in cars) for inlet in (0, 1)]
                self.assertEqual(at_inlets(said, side, "admitted"), entered)
                self.assertEqual(at_inlets(said, side, "lost"), [asked - there for asked, there in zip(at_inlets(said, side, "demand"), entered)])
            self.assertGreater(value(said, "after", "lost"), 60)


class Seats(Case):
    async def test_a_key_gives_the_seat_back_and_closes_the_other_tab(self) -> None:
        server = self.server()
        async with server.seat("Ada") as ada:
            await put_layer(ada, "1", limit(1))
            async with server.seat(key=ada.key) as again:
                self.assertEqual((again.at, again.welcome["name"], await limit_at(again)), ("seat1", "Ada", 1))
                with self.assertRaisesRegex(ConnectionError, "4000"):
                    await ada.reply("ping")
                    await ada.reply("ping")

    async def test_a_seat_without_a_tab_can_be_taken_over(self) -> None:
        server = self.server()
        async with server.seat("Ada") as ada, server.seat("Ben") as ben:
            await put_layer(ada, "1", limit(1))
            cases: list[tuple[dict[str, Any], str]] = [
                ({"take": 1}, "SeatConnected"), ({"name": "Ada"}, "NameTaken"), ({"take": 9}, "NoSuchSeat"),
                ({"key": "none"}, "UnknownKey"), ({"name": " \n"}, "NoName"), ({"take": 0}, "NoSuchSeat")]
            for hello, refusal in cases:
                with self.assertRaisesRegex(RefusedReply, refusal) as caught:
                    async with server.seat(**hello):
                        pass
                self.assertEqual([(one["name"], one["here"], one["private"]) for one in caught.exception.reply["seats"]],
                                 [("Ada", True, 1), ("Ben", True, 0)])
        async with server.seat(take=1) as taken:
            self.assertEqual((taken.welcome["name"], await limit_at(taken)), ("Ada", 1))
            with self.assertRaisesRegex(RefusedReply, "UnknownKey"):
                async with server.seat(key=ada.key):
                    pass
        async with server.seat(key=taken.key) as back:
            self.assertEqual(back.at, "seat1")

    async def test_63_seats_can_be_used_and_no_more(self) -> None:
        server = self.server(plan={**SMALL, "length": 20, "zones": [[5, 0]], "inlets": [[0, 65_536]], "detectors": []})
        seats = [await self.enterAsyncContext(server.seat(f"n{count}")) for count in range(63)]
        self.assertEqual({seat.at for seat in seats}, {f"seat{count}" for count in range(1, 64)})
        with self.assertRaisesRegex(RefusedReply, "AllSeatsTaken"):
            async with server.seat("one more"):
                pass
        for seat in seats:
            await put_layer(seat, "1", ["limit", 0, 0, seat.welcome["seat"], seat.welcome["seat"] + 1, 1])
            await seat.ask("send", name="shared")
        await seats[62].ask("take", message="shared")
        self.assertEqual(sorted(line["seat"] for line in (await lines(seats[62])).values()), [*range(1, 64)])
        self.assertEqual(await numbers(seats[62]), {("limit", 0, 1): 1, ("limit", 0, 64): 5})

    async def test_a_seat_without_anything_private_is_freed_and_clean_for_the_next(self) -> None:
        server = self.server(LIVE_DAY="1")
        async with server.seat("Ada") as ada, server.seat("Ben") as ben:
            await put_layer(ada, "1", limit(1))
            await put_layer(ben, "1", limit(2))
            await ada.ask("send", name="shared")
        async with server.seat("Cleo") as cleo:
            async def ada_is_gone() -> bool:
                return "Ada" not in {one["name"] for one in (await cleo.say("seats"))["seats"]}
            await until(ada_is_gone, "her seat is free")
            self.assertEqual({one["name"] for one in (await cleo.say("seats"))["seats"]}, {"Ben", "Cleo"})
            fill = [await self.enterAsyncContext(server.seat(f"n{count}")) for count in range(61)]
            new = next(seat for seat in fill if seat.at == "seat1")
            self.assertEqual(await numbers(new), {})
            await put_layer(new, "2", limit(3))
        server.restart()
        async with server.seat(key=new.key) as new:
            self.assertEqual(await numbers(new), {("limit", 2, 50): 3})

    async def test_a_seat_can_be_left_once_nothing_in_it_is_private(self) -> None:
        server = self.server()
        async with server.seat("Ada") as ada, server.seat("Ben") as ben:
            await put_layer(ada, "1", limit(1))
            with self.assertRaisesRegex(RefusedReply, "PrivateChanges"):
                await ada.ask("leave")
            await ada.ask("send", name="shared")
            said = await asyncio.gather(ada.reply("gesture", at=ada.at, key="2", shape=limit(2)),
                                        ada.reply("leave", at=ada.at))
            self.assertEqual([one.get("refused") for one in said], [None, "PrivateChanges"])  # in their order
            await ada.ask("send", name="shared")
            await asyncio.gather(ada.reply("leave", at=ada.at),
                                 ada.reply("gesture", at=ada.at, key="3", shape=limit(3)), return_exceptions=True)
            self.assertEqual(await numbers(ben, "shared"), {("limit", 2, 50): 2})
            self.assertEqual(len([one for one in server.journal() if "made" in one]), 2)
            self.assertEqual([one["name"] for one in (await ben.say("seats"))["seats"]], ["Ben"])
