"""Test sites whose folder is copied or restored, whose clock is wrong, that have no key, or that forge or repeat messages."""
from __future__ import annotations

import argparse
import errno
import hmac
import json
import shutil
import time
import unittest
from dataclasses import replace
from pathlib import Path
from typing import Any
from unittest import mock

from faulty import Bus, Disk, Here, Message, message_of, told
from running import SMALL, Case, new_folder
from server.sites import peers, seals
from server.sites.message_limits import Floods
from server.sites.peers import Peers
from server.shell.new_site import move_to_new_site
from server.base.journal_lines import CannotStart
from server.journal.naming import Counter
from server.model.operations import About, Operation, Shape, Stamp, lift, put, undo
from server.model.reading import Malformed, read_operation
from server.lab.new_road import NewRoad, share_works
from server.sites.sites import Sites
from server.base.refusals import Refused

HOUR, DAY = 3_600_000, 86_400_000  # milliseconds
NOW = 1_780_000_000_000  # milliseconds since 1970
FAR, LEAP = 1 << 50, 1 << 24  # as in PROTOCOL.md: a count above the first may be this much above the greatest one of the shared road


def limit(count: int, step: int, value: int = 3, site: str = "eve-00000000") -> Operation:
    """Return an operation of another site that puts a limit in zone 2 from a step on."""
    return put(count, Shape("limit", 2, 2, step, None, value), About("Eve", site=site))


def steps(here: Here) -> list[int]:
    """Return the steps at which the layers of a shared road begin."""
    return sorted(one.shape.begin for one in here.lab.state.shared.places if one.shape is not None)


def stamps(here: Here) -> list[Stamp]:
    return sorted(one.stamp for one in here.lab.state.shared.places)


def announced(site: Sites, run: str, name: str, **more: Any) -> Message:
    """Return the announcement of a server without a key."""
    value = {"form": 4, "site": name, "host": "there", "road": site._road, "count": 0, **more}
    return Message("road/sites", json.dumps({"run": run, "mac": ""}).encode() + b"\n" + json.dumps(value).encode())


class Sited(Case):
    """A test with sites in this process."""

    async def asyncSetUp(self) -> None:
        self.bus = Bus()

    async def here(self, name: str | None, folder: Path | None = None, **more: Any) -> tuple[Here, Sites]:
        here = await self.enterAsyncContext(Here(folder, site=name, **more))
        return here, self.bus.site(here)

    async def shared(self, here: Here) -> list[Any]:
        reply = await here.keeper.ask(0, (0,), lambda: here.keeper.program.ask(b'{"scenario":{"at":"shared"}}'))
        edits: list[Any] = json.loads(reply)["edits"]
        return edits

    async def in_force(self, here: Here) -> dict[tuple[Any, ...], int]:
        """Return the values in force on the shared road of the program, by object and step."""
        return {tuple(edit[:3]): edit[5] for edit in await self.shared(here) if edit[5] is not None}

    async def put(self, here: Here, *edit: Any) -> Stamp:
        """Put a shape, and share it."""
        if 1 not in here.keys:
            await here.join("Ada")
        stamp = await here.put(1, list(edit))
        await here.share(1)
        return stamp

    def leave(self, site: Sites) -> None:
        """Let a site fall silent."""
        self.bus.sites.remove(site)
        for one in self.bus.sites:
            one._peers.known.clear()

    async def copy(self, here: Here) -> Path:
        folder = new_folder() / "copy"
        shutil.copytree(here.folder, folder)
        return folder


class Works(Sited):
    """The shapes of a freeway's file."""

    async def test_a_site_that_joins_with_the_same_file_adds_nothing(self) -> None:
        """Its file may have another name. What people have changed meanwhile stays."""
        road = NewRoad(SMALL, [(Shape("inflow", 0, 0, 0, None, 9_000), 500.0), (Shape("block", 60, 60, 30, 90, 1), None)], "a.json")
        north, _ = await self.here("north")
        await share_works(north.lab, road)
        await north.join("Ann")
        demand, closure = (line["name"] for line in (await north.ask(1, "layers"))["layers"])
        await north.ask(1, "gesture", key="1", layer=closure, shape=None)
        await north.ask(1, "gesture", key="2", layer=demand, shape=["inflow", 0, 0, 0, None, 20_000], demand=1_000)
        await north.share(1)
        values, lines = await self.in_force(north), (await north.ask(1, "layers", at="shared"))["layers"]
        south, _ = await self.here("south")
        await share_works(south.lab, replace(road, name="b.json"))
        await self.bus.rounds(3)  # a site that hears a different sum twice sends what the other lacks
        await south.join("Bea")
        for here in (north, south):
            self.assertEqual(await self.in_force(here), values)
            self.assertEqual({(*line["name"], line["who"]) for line in (await here.ask(1, "layers", at="shared"))["layers"]},
                             {(*line["name"], line["who"]) for line in lines})


class Copies(Sited):
    """Names of sites, copies and backups of folders."""

    async def test_the_operations_of_the_protocol_have_the_names_that_it_says(self) -> None:
        text = (Path(__file__).parents[1] / "PROTOCOL.md").read_text(encoding="utf-8").replace("(one line)", "")
        lines = [line[4:].rstrip() for line in text.partition("Three operations as texts")[2].splitlines() if line.startswith("    ")]
        named: dict[str, str] = {}
        written = ""
        for line in lines:
            if line.startswith("{") or written and not written.endswith("}"):
                written += line
            elif written:
                named[line], written = written, ""
            if len(named) == 3:
                break
        self.assertEqual(len(named), 3)
        for name, operation in named.items():
            value = json.loads(operation)
            one = read_operation({**value, "stamp": [value["stamp"], name]})
            self.assertEqual((one.stamp, one.text()), ((value["stamp"], name), operation))
            with self.assertRaisesRegex(Malformed, "hash"):
                read_operation({**value, "stamp": [value["stamp"], name[::-1]]})

    async def test_two_running_copies_of_a_folder_both_send_and_say_so(self) -> None:
        first, one = await self.here("north")
        await first.join("Ada")
        copied, other = await self.here(None, await self.copy(first))
        third, south = await self.here("south")
        site, now = first.lab.state.site, time.time()
        self.assertEqual(copied.lab.state.site, site)
        for seconds, is_told in ((0.0, False), (9.0, False), (11.0, True)):
            with mock.patch("server.sites.peers.time.time", lambda seconds=seconds: now + seconds), \
                    mock.patch("server.sites.sites.time.time", lambda seconds=seconds: now + seconds):
                await self.bus.rounds()
                for copy in (one, other):
                    self.assertEqual(f"Another server runs a copy of this folder ({other._host})" in told(copy), is_told, seconds)
                    self.assertEqual([each["site"] for each in copy.state()["sites"]], [third.lab.state.site])
                self.assertNotIn("copy", told(south))
                self.assertEqual([each["site"] for each in south.state()["sites"]], [site])
        await first.put(1, ["limit", 2, 50, 3])
        await first.share(1)
        await copied.put(1, ["limit", 3, 60, 4])
        await copied.share(1)
        await self.bus.carry()  # at once, not once the sums are heard
        for here in (first, copied, third):
            self.assertEqual(steps(here), [50, 60])
        self.assertEqual([each.state()["unsent"] for each in (one, other)], [0, 0])
        mine = [line.get("seat") for line in (await first.ask(1, "layers", at="shared"))["layers"]]
        self.assertEqual(sorted(mine, key=str), [1, None])  # what the copy's seat made is not this seat's

    async def test_a_restart_is_no_copy(self) -> None:
        """The run before it was announced a moment ago, and a connection that was lost had a run of its own."""
        _, site = await self.here("north")
        now = time.time()
        with mock.patch("server.sites.peers.time.time", lambda: now), mock.patch("server.sites.sites.time.time", lambda: now):
            await self.bus.give(site, announced(site, "0" * 16, site._keeper.state.site))
            self.assertNotIn("copy", told(site))
            before = site._seal.run
            site._seal.begin_run()
            self.assertNotEqual(site._seal.run, before)
            await self.bus.give(site, announced(site, before, site._keeper.state.site))
            now += 11
            await self.bus.give(site, announced(site, before, site._keeper.state.site))
            self.assertNotIn("copy", told(site))

    async def test_each_connection_to_the_broker_has_a_run_of_its_own(self) -> None:
        """A machine that is resumed from a snapshot goes on under another one; and the broker chooses the client's name."""
        _, site = await self.here("north")
        before = site._seal.run
        site._on_open(mock.Mock(), 1_000_000)
        self.assertNotEqual(site._seal.run, before)
        self.assertEqual(site._seal.own, {before, site._seal.run})
        options = argparse.Namespace(broker="127.0.0.1:1", broker_user=None, broker_authority=None, site_key=None)
        self.assertEqual(getattr(Sites(site._lab, lambda: None, options)._client, "_client_id"), b"")

    async def test_a_stopped_copy_gets_a_site_of_its_own(self) -> None:
        first, _ = await self.here("north")
        await first.join("Ada")
        made = [await self.put(first, "limit", 2, 50, 3), await first.put(1, ["limit", 3, 60, 4])]
        folder, north = await self.copy(first), first.lab.state.site
        moved = move_to_new_site(folder)
        self.assertRegex(moved, "^north-[0-9a-f]{8}$")
        self.assertNotEqual(moved, north)
        here, site = await self.here(None, folder)
        self.assertEqual(here.lab.state.site, moved)
        own = {one.stamp: one.site for one in here.lab.state.seats[1].own}
        self.assertEqual(own, {stamp: north for stamp in made})
        here.keys.update(first.keys)
        later = await here.put(1, ["limit", 4, 70, 2])
        await here.share(1)
        await self.bus.rounds(2)
        self.assertEqual({one.stamp: one.site for one in first.lab.state.shared.places}, {**own, later: moved})
        self.assertEqual([each["site"] for each in site.state()["sites"]], [north])
        with self.assertRaisesRegex(CannotStart, "journal"):
            move_to_new_site(new_folder())

    async def test_a_folder_keeps_its_site(self) -> None:
        here, _ = await self.here("north")
        await here.keeper.close()
        with self.assertRaisesRegex(CannotStart, "north"):
            await self.here("south", here.folder)
        again, _ = await self.here("north", here.folder)
        self.assertEqual(again.lab.state.site, here.lab.state.site)

    async def test_a_restored_backup_gets_back_what_it_lost_and_names_nothing_twice(self) -> None:
        """Changes that a seat made since the backup come back by their author's name, not as the seat's own, and Undo skips them."""
        (one, first), (two, _) = await self.here("north"), await self.here("south")
        await one.join("Ada")
        before = [await self.put(one, "limit", 2, 50, 3)]
        kept = await self.copy(one)
        lost = [await self.put(one, "limit", 3, 60, 4)]
        await self.bus.rounds()
        self.leave(first)
        await one.keeper.close()
        back, site = await self.here(None, kept)
        back.keys.update(one.keys)
        await self.bus.rounds(3)
        later = [await self.put(back, "limit", 4, 70, 2)]
        await self.bus.rounds(2)
        self.assertEqual((stamps(back), stamps(two)), ([*before, *lost, *later],) * 2)  # also in the order in which they were made
        lines = {tuple(line["name"]): (line["who"], line.get("seat")) for line in (await back.ask(1, "layers", at="shared"))["layers"]}
        self.assertEqual(lines, {before[0]: ("Ada", 1), lost[0]: ("Ada", None), later[0]: ("Ada", 1)})
        await back.take(1)
        await back.ask(1, "undo", key="z", note="", stamp=later[0])
        self.assertEqual((await back.ask(1, "layers"))["undo"], before[0])
        self.assertEqual(site.state()["told"], [])

    async def test_a_restored_folder_holds_a_private_change_that_was_shared_since_only_once(self) -> None:
        (one, first), (two, second) = await self.here("north"), await self.here("south")
        await self.bus.rounds()
        await one.join("Ada")
        await one.put(1, ["limit", 2, 50, 3])
        await one.keeper.close()
        kept = await self.copy(one)
        self.leave(first)
        again, third = await self.here(None, one.folder)
        await again.share(1)
        await self.bus.rounds(2)
        self.assertEqual(two.lab.state.shared.size, 1)
        await again.keeper.close()
        self.leave(third)
        restored, fourth = await self.here(None, kept)
        await self.bus.rounds(3)
        self.assertEqual((restored.lab.state.shared.size, len(restored.lab.state.seats[1].own)), (1, 1))
        self.assertEqual((await fourth._sum_up()).total, (await second._sum_up()).total)
        self.assertEqual((await restored.take(1))["size"], 0)
        self.assertEqual((await restored.share(1))["size"], 0)
        line, = (await restored.ask(1, "layers"))["layers"]
        self.assertTrue(line["shared"])
        self.assertEqual(len(line["operations"]), 1)

    async def test_a_forged_name_is_refused_everywhere(self) -> None:
        """So one name has one content: nobody can give a change of another site other contents, or its name to another change."""
        (one, first), (two, second) = await self.here("north"), await self.here("south")
        stamp = await self.put(one, "limit", 2, 50, 3)
        await self.bus.rounds()
        true, = one.lab.state.shared.places
        changed: list[dict[str, Any]] = [
            {"shape": ["limit", 2, 2, 50, None, 4]}, {"who": "Eve"}, {"site": "south-00000000"}, {"x": 1},
            {"stamp": [stamp[0] + 1, stamp[1]]}, {"stamp": [stamp[0], limit(stamp[0], 50).stamp[1]]}]
        for place, more in enumerate(changed):
            forged = {**true.written(), **more}
            for site in (first, second):
                body = json.dumps({"form": 4, "operations": [forged]}).encode()
                await self.bus.give(site, Message(f"road/{site._road}/operations", body))
                self.assertIn("An operation of a message was ignored", told(site), place)
                site._told.clear()
        self.assertEqual((stamps(one), stamps(two)), ([stamp], [stamp]))
        self.assertEqual([one.text() for one in two.lab.state.shared.places], [true.text()])

    async def test_a_disk_that_refuses_between_name_and_disk_leaves_no_name(self) -> None:
        here, site = await self.here("north")
        await here.join("Ada")
        with Disk(here.folder) as disk:
            disk.fault = lambda _, name: errno.ENOSPC if name == "write" else None
            with self.assertRaises(Refused):
                await here.put(1, ["limit", 2, 50, 3], key="k")
            disk.fault = lambda *_: None
            stamp = await here.put(1, ["limit", 2, 50, 3], key="k")
            await here.share(1)
        self.assertEqual(stamps(here), [stamp])
        await here.keeper.close()
        self.leave(site)
        again, _ = await self.here(None, here.folder)
        self.assertEqual(stamps(again), [stamp])


class Counts(Sited):
    """The order of changes, clocks that are wrong, and counts that are far."""

    async def at(self, name: str, milliseconds: int) -> tuple[Here, Sites]:
        """Return a site with this clock."""
        here, site = await self.here(name)
        self.set_clock(here, milliseconds)
        return here, site

    def set_clock(self, here: Here, milliseconds: int) -> None:
        here.keeper.counter._fixed = milliseconds

    async def is_equal(self, *some: Here) -> None:
        roads = [await self.in_force(here) for here in some]
        self.assertEqual(roads, [roads[0]] * len(some))
        self.assertEqual([stamps(here) for here in some], [stamps(some[0])] * len(some))

    async def test_a_count_is_above_all_that_the_server_holds_and_at_least_the_clock(self) -> None:
        counter = Counter(0)
        self.assertEqual(counter.next(), 1)
        for clock, held, expected in ((1_000, 7, 32_000), (1_000, 40_000, 40_001), (1 << 60, 9, FAR), (1 << 60, FAR + 5, FAR + 6)):
            counter = Counter(clock)
            counter.hold(held)
            self.assertEqual(counter.next(), expected)

    async def test_private_work_at_a_seat_counts_while_others_share(self) -> None:
        """A change is above the private ones of other seats of its server, so changes of one server are in the order of their making."""
        here, _ = await self.at("north", 0)
        await here.join("Ada", "Ben")
        made = [await here.put(seat, ["limit", 2, 50, 3]) for seat in (1, 2, 1, 1, 2)]
        self.assertEqual(made, sorted(made))
        await here.share(2)
        await here.share(1)
        self.assertEqual(stamps(here), made)
        for turn in range(25):  # undone private changes are forgotten meanwhile; the count never sinks
            stamp = await here.put(1, ["limit", 2, turn, 3])
            made.append((await here.ask(1, "undo", key=f"u{turn}", note="", stamp=stamp))["stamp"])
        here.keeper._forget()
        self.assertGreater(await here.put(2, ["limit", 2, 50, 3]), made[-1])

    async def test_changes_made_a_week_apart_are_in_the_order_of_their_making(self) -> None:
        (one, first), (two, second) = await self.at("north", NOW), await self.at("south", NOW + 7 * DAY)
        self.bus.sites.clear()
        for here, steps_of, value in ((one, range(50, 60), 3), (two, range(50, 53), 4)):
            for _ in steps_of:
                await self.put(here, "limit", 2, 50, value)
        self.bus.sites[:] = [first, second]
        await self.bus.rounds(4)
        await self.is_equal(one, two)
        self.assertEqual([edit[5] for edit in await self.shared(one)], [4])  # of the one made a week later, though after fewer others

    async def test_an_announced_count_orders_what_is_made_next(self) -> None:
        """Here one clock is two hours ahead, and the sites share 72 s apart: with announcements their changes are in order."""
        (one, first), (two, second) = await self.at("north", NOW + 2 * HOUR), await self.at("south", NOW)
        made = []
        for turn in range(6):
            here = (one, two)[turn % 2]
            self.set_clock(one, NOW + 2 * HOUR + 72_000 * turn)
            self.set_clock(two, NOW + 72_000 * turn)
            if 1 not in here.keys:
                await here.join("Ada")
            made.append(await here.put(1, ["limit", 2, 50 + turn, 3]))  # not shared: only the count is announced
            await self.bus.rounds()
        self.assertEqual(made, sorted(made))
        self.assertEqual((one.lab.state.shared.size, two.lab.state.shared.size), (0, 0))
        self.assertIn("stamped ahead of this server's clock", told(second))
        self.assertNotIn("stamped ahead of this server's clock", told(first))

    async def test_an_announced_count_above_2_to_the_50_is_ignored_and_one_below_is_believed(self) -> None:
        here, site = await self.at("north", NOW)
        await here.join("Ada")
        await self.bus.give(site, announced(site, "a" * 16, "eve-00000000", count=FAR + 1))
        self.assertEqual((await here.put(1, ["limit", 2, 50, 3]))[0], 32 * NOW)
        await self.bus.give(site, announced(site, "a" * 16, "eve-00000000", road="another", count=FAR))
        self.assertEqual((await here.put(1, ["limit", 2, 50, 3]))[0], 32 * NOW + 1)
        await self.bus.give(site, announced(site, "a" * 16, "eve-00000000", count=FAR))
        self.assertEqual((await here.put(1, ["limit", 2, 50, 3]))[0], FAR + 1)
        self.assertIn("so from now on changes that are made at the same time are ordered by their counts alone", told(site))

    async def test_a_clock_three_days_ahead_for_one_gesture_costs_nothing_else(self) -> None:
        """Everything goes on at once, at both sites, and the page says until when the order goes by counts alone."""
        (one, first), (two, second) = await self.at("north", NOW + 3 * DAY), await self.at("south", NOW)
        made = [await self.put(one, "limit", 2, 50, 3)]
        self.set_clock(one, NOW)
        await self.bus.rounds()
        await self.is_equal(one, two)
        for site in (first, second):
            self.assertIn("compare the clocks of the sites", told(site))
            self.assertRegex(told(site), r"so until \d{4}-\d\d-\d\d \d\d:\d\d UTC changes that are made at the same time")
        made.append(await self.put(two, "limit", 2, 50, 4))
        await self.bus.rounds()
        made.append(await self.put(one, "limit", 2, 50, 2))
        await self.bus.rounds()
        await self.is_equal(one, two)
        self.assertEqual((stamps(one), made), (made, sorted(made)))
        self.assertEqual([edit[5] for edit in await self.shared(two)], [2])
        self.assertLess(made[-1][0], 32 * (NOW + 3 * DAY) + 3)
        for here in (one, two):
            self.set_clock(here, NOW + 3 * DAY - 500_000)
        self.assertNotIn("compare the clocks", told(first) + told(second))

    async def test_a_clock_three_days_back_makes_changes_above_what_is_held(self) -> None:
        (one, first), (two, second) = await self.at("north", NOW), await self.at("south", NOW - 3 * DAY)
        made = [await self.put(one, "limit", 2, 50, 3)]
        await self.bus.rounds()
        made.append(await self.put(two, "limit", 2, 50, 4))
        self.set_clock(one, NOW - 3 * DAY)  # and then the other clock goes back, too
        await self.bus.rounds()
        made.append(await self.put(one, "limit", 2, 50, 2))
        await one.ask(1, "undo", key="u", note="", stamp=made[-1])
        await one.share(1)
        await self.bus.rounds()
        await self.is_equal(one, two)
        self.assertEqual(made, sorted(made))
        self.assertEqual([edit[5] for edit in await self.shared(one)], [4])
        self.assertNotIn("ignored", told(first) + told(second))

    async def test_far_counts_are_taken_whatever_the_order_of_arrival(self) -> None:
        chain = [limit(FAR, 1), limit(FAR + LEAP, 2), limit(FAR + 2 * LEAP, 3), limit(FAR + 3 * LEAP + 1, 4)]
        roads = []
        for order in ((0, 1, 2, 3), (3, 2, 1, 0), (2, 0, 3, 1)):
            here, site = await self.here("north")
            for _ in range(4):  # their site sends them again, in the order of counts
                for place in order:
                    await self.bus.give(site, message_of(site, chain[place]))
            roads.append(steps(here))
            self.assertIn("1 changes were left out, since their counts are far above all that are shared here", told(site))
            await here.keeper.close()
            again = await self.enterAsyncContext(Here(here.folder))
            self.assertEqual(steps(again), [1, 2, 3])
        self.assertEqual(roads, [[1, 2, 3]] * 3)  # the last is a step too far
        here, site = await self.here("north")
        await self.bus.give(site, message_of(site, *reversed(chain)))  # in one message each follows those before it
        self.assertEqual(steps(here), [1, 2, 3])

    async def test_counts_cannot_be_used_up(self) -> None:
        (here, site), last = await self.here("north"), (1 << 53) - 1
        await here.join("Ada")
        await self.bus.give(site, message_of(site, limit(last, 1), limit(FAR + LEAP + 1, 2)))
        self.assertEqual(steps(here), [])
        for count in (last + 1, 1 << 60):
            with self.assertRaises(Malformed):
                read_operation(limit(count, 1).written())
        await self.bus.give(site, message_of(site, limit(FAR, 3)))
        self.assertLess((await here.put(1, ["limit", 2, 50, 3]))[0], FAR + 10)
        await here.share(1)
        self.assertEqual(steps(here), [3, 50])

    async def test_thousands_of_changes_stamped_days_ahead_are_taken_at_once_and_hold_up_nobody(self) -> None:
        """(The test fails if the server does a long piece of work.)"""
        here, site = await self.at("north", NOW)
        await here.join("Ada")
        many = [put(32 * (NOW + 3 * DAY) + place, Shape("limit", place % 6, place % 6, place, None, place % 5), About("Sam", site="south-00000000"))
                for place in range(2_500)]
        for _ in range(2):
            await self.bus.give(site, message_of(site, *many))
            self.assertEqual(here.lab.state.shared.size, 2_500)
        self.assertGreater((await here.put(1, ["limit", 2, 50, 3]))[0], many[-1].stamp[0])

    async def test_a_far_count_that_the_journal_holds_is_read(self) -> None:
        """Then it lies on the shared road, so others can take it after those before it."""
        here, site = await self.here("north")
        with mock.patch("server.sites.sites.is_far", lambda *_: False):
            await self.bus.give(site, message_of(site, limit(FAR + 5 * LEAP, 1)))
        await here.keeper.close()
        again = await self.enterAsyncContext(Here(here.folder))
        self.assertEqual(steps(again), [1])


class Exchange(Sited):
    """Messages: which are sent, and how often."""

    async def test_a_gesture_is_sent_in_one_message_and_no_other(self) -> None:
        """Here two of five sites share overlapping changes at once."""
        sites = [await self.here(name) for name in ("a", "b", "c", "d", "e")]
        await self.bus.rounds(2)

        async def sent() -> int:
            """Return the number of messages with operations that are sent until all sites have announced twice what they hold."""
            self.bus.seen.clear()
            await self.bus.carry()
            await self.bus.rounds(4)
            return sum(one.topic.endswith("operations") for one in self.bus.seen)
        for here, _ in sites[:2]:
            await here.join("Ada")
        for place, last in ((0, 61), (1, 62), (0, 63)):
            shape = ["block", 60, last, last, 90, 1]
            await sites[place][0].ask(1, "gesture", key=f"{last}", note="", shape=shape)
        await sites[0][0].share(1)
        self.assertEqual(await sent(), 1)  # of two gestures
        self.assertEqual(await sent(), 0)
        await sites[0][0].ask(1, "gesture", key="w", note="", layer="61", shape=None)
        await sites[0][0].share(1)
        await sites[1][0].share(1)
        self.assertEqual(await sent(), 2)  # what was shared is sent once, and nothing is sent because it arrived
        self.assertEqual(await sent(), 0)
        roads = [await self.in_force(here) for here, _ in sites]
        self.assertEqual(roads, [roads[0]] * 5)

    async def test_unsent_changes_are_sent_after_a_restart_in_the_order_of_their_counts(self) -> None:
        here = await self.enterAsyncContext(Here())
        for seat, begin, end in zip(await here.join("Ada", "Ben"), (10, 20), (30, 40)):
            await here.ask(seat, "gesture", key="k", note="", shape=["block", 60, 60, begin, end, 1])
        for seat in (2, 1):
            await here.share(seat)
        await here.keeper.close()
        again = await self.enterAsyncContext(Here(here.folder))
        self.bus.site(again).send_shared()
        message, = self.bus.sent
        operations = json.loads(message.payload.partition(b"\n")[2])["operations"]
        self.assertEqual([tuple(one["stamp"]) for one in operations], stamps(here))

    async def test_a_site_announces_itself_when_it_has_connected(self) -> None:
        """Until then the others would count its messages as those of a stranger."""
        here, site = await self.here("north")
        site._note_connection(site._client, 1_000_000)
        message = self.bus.sent[0]
        said = json.loads(message.payload.partition(b"\n")[2])
        self.assertRegex(said.pop("echo"), "^[0-9a-f]{16}$")
        self.assertEqual((message.topic, said), ("road/sites", {
            "form": 4, "site": here.lab.state.site, "host": site._host, "road": site._road, "count": here.keeper.counter.greatest}))

    async def test_a_site_with_another_road_is_named_and_its_counts_do_not_matter(self) -> None:
        (here, first), _ = await self.here("north"), await self.here("south", plan={**SMALL, "words": 2})
        await self.bus.rounds()
        self.assertEqual(first.state()["sites"], [])
        self.assertRegex(told(first), "Site south-[0-9a-f]{8} has another road")

    async def test_the_order_of_a_plans_fields_does_not_matter(self) -> None:
        (_, first), (_, other) = await self.here("north"), await self.here("south", plan=dict(reversed(SMALL.items())))
        self.assertEqual(first._road, other._road)

    async def test_another_version_is_named(self) -> None:
        _, first = await self.here("north")
        for form, update in ((3, "site south-00000001"), (5, "this site"), (None, "site south-00000001")):
            await self.bus.give(first, announced(first, "a" * 16, "south-00000001", form=form))
            self.assertIn(f"Nothing is exchanged with site south-00000001, whose server has a different version: update {update}", told(first))
            self.assertEqual(first.state()["sites"], [])


class Keys(Case):
    """Sites with a shared key, and strangers at their broker."""

    async def asyncSetUp(self) -> None:
        self.bus = Bus()
        self.key = new_folder() / "key"
        self.key.write_text("a secret of the sites\n")
        self.one, self.two = [await self.enterAsyncContext(Here(site=name)) for name in ("north", "south")]
        self.first, self.second = self.bus.site(self.one, self.key), self.bus.site(self.two, self.key)
        await self.one.join("Ada")

    async def share(self, step: int) -> None:
        await self.one.put(1, ["limit", 2, step, 3])
        await self.one.share(1)
        await self.bus.carry()

    def held(self, here: Here) -> int:
        return here.lab.state.shared.size

    def road(self, here: Here) -> list[tuple[Stamp, bool]]:
        """Return the operations of the shared road, and whether each counts."""
        road = here.lab.state.shared.road
        return [(one.stamp, road.operations.counts(one)) for one in sorted(here.lab.state.shared.places)]

    async def test_only_sealed_messages_are_taken(self) -> None:
        await self.share(50)
        self.assertEqual(self.held(self.two), 1)
        edits = next(one for one in self.bus.seen if one.topic.endswith("/operations"))
        head, _, body = edits.payload.partition(b"\n")
        fields = json.loads(head)
        other = seals.Seal(b"another secret of others").seal(edits.topic, body)
        changed = body.replace(b",50,", b",51,")
        heads: list[Any] = [{**fields, "run": "0" * 16}, {**fields, "run": "é" * 16}, {**fields, "mac": "é"}, {**fields, "mac": 7}, {"run": fields["run"]}, []]
        for number, payload in enumerate((body, changed, head + b"\n" + changed, other, *(
                json.dumps(one).encode() + b"\n" + body for one in heads)), 1):
            await self.bus.give(self.second, Message(edits.topic, payload))
            self.assertEqual((self.held(self.two), self.second.state()["left_out"]), (1, number), payload)
        await self.bus.give(self.second, Message("road/sites", edits.payload))  # at another topic
        self.assertEqual(self.second.state()["left_out"], 11)
        self.assertIn("11 messages were ignored: they are not sealed with this site's --site-key", " ".join(self.second.state()["stays"]))
        self.assertEqual(self.second._peers.known, {})  # nothing of such a message is used

    async def test_a_seal_is_the_mac_that_the_protocol_says(self) -> None:
        seal = seals.Seal(b"a secret of the sites")
        head, _, body = seal.seal("road/sites", b'{"form":4}').partition(b"\n")
        mac = hmac.new(b"a secret of the sites", b"road/sites\n" + seal.run.encode() + b'\n{"form":4}', "sha256").hexdigest()
        self.assertEqual((json.loads(head), body), ({"run": seal.run, "mac": mac}, b'{"form":4}'))
        self.assertRegex(seal.run, "^[0-9a-f]{16}$")

    async def test_roads_with_different_keys_are_different_roads(self) -> None:
        """So the recorded changes of last month do not come along if a new folder of the same road takes a new key."""
        other = new_folder() / "key"
        other.write_text("a new secret of the sites\n")
        roads = {Bus().site(self.one, key)._road for key in (None, self.key, other)}
        self.assertEqual(len(roads), 3)
        self.assertEqual(Bus().site(self.two, self.key)._road, self.first._road)

    async def test_a_flood_without_a_seal_is_ignored_and_reported(self) -> None:
        """It costs the event loop nothing, and sealed messages are heard."""
        now = [0.0]
        await self.bus.rounds()
        with mock.patch("server.sites.message_limits.MESSAGE_BURST", 20), mock.patch("server.sites.message_limits.MESSAGES_PER_SECOND", 1):
            self.second._floods = Floods(lambda: now[0])
            said: list[str] = []
            with mock.patch.object(self.second, "_say", said.append):
                for number in range(300):
                    await self.bus.give(self.second, Message("road/sites", json.dumps({"site": f"{number:x}"}).encode()))
            self.assertLess(len(said), 30)
            self.assertEqual(self.second.state()["left_out"], 300)
            self.assertIn("A sender without this site's --site-key sends too many messages", told(self.second))
            await self.share(50)
            self.assertEqual(self.held(self.two), 1)
            now[0] += 31
            self.assertNotIn("too many", told(self.second))

    async def test_a_flood_from_many_runs_is_ignored_and_reported(self) -> None:
        """If the sites have no key, each message may name a different run. Messages of a known site are still read."""
        here = await self.enterAsyncContext(Here(site="east"))
        bus, now, came = Bus(), [0.0], list[str]()
        site, _ = bus.site(here), bus.site(self.one)
        await bus.rounds()
        with mock.patch("server.sites.message_limits.MESSAGE_BURST", 20), mock.patch("server.sites.message_limits.MESSAGES_PER_SECOND", 1):
            site._floods = Floods(lambda: now[0])
            with mock.patch.object(Sites, "_receive", lambda _, topic, run, body: came_in(run)):
                async def came_in(run: str) -> None:
                    came.append(run)
                for number in range(300):
                    head = json.dumps({"run": f"{number:016x}", "mac": ""}).encode()
                    await bus.give(site, Message(f"road/{site._road}/operations", head + b"\n{}"))
            self.assertLess(len(came), 30)
            self.assertIn("A sender that does not announce itself sends too many messages", told(site))
            await self.one.put(1, ["limit", 2, 50, 3])
            await self.one.share(1)
            await bus.carry()
            self.assertEqual(self.held(here), 1)

    async def test_all_messages_of_two_rounds_played_again_after_a_restart_change_nothing(self) -> None:
        """Not the road, not the clock, not what is sent; a site that is gone seems connected for some seconds, and that is all."""
        await self.bus.rounds(2)
        for step in (50, 60):
            await self.share(step)
        undone = self.road(self.one)[1][0]
        await self.one.ask(1, "undo", key="u", note="", stamp=undone)
        await self.one.share(1)
        await self.bus.rounds(2)
        caught = list(self.bus.seen)
        self.bus.sites.remove(self.second)
        await self.two.keeper.close()
        again = await self.enterAsyncContext(Here(self.two.folder))
        site = self.bus.site(again, self.key)
        expected, count = self.road(again), again.keeper.counter.greatest
        self.assertEqual(expected, self.road(self.one))
        self.bus.sent.clear()
        for _ in range(3):
            for message in caught:
                await self.bus.give(site, message)
        self.assertEqual((self.road(again), again.keeper.counter.greatest, site.state()["left_out"]), (expected, count, 0))
        self.assertEqual((site.state()["told"], site.state()["unsent"]), ([], 0))
        self.assertLessEqual([one.topic for one in self.bus.sent], [f"road/{site._road}/operations"])  # an old sum gets one answer at most
        self.assertEqual([one["site"] for one in site.state()["sites"]], [self.one.lab.state.site])
        await self.share(70)
        await self.bus.rounds(2)
        self.assertEqual(self.road(again), self.road(self.one))
        await site._keeper.journal.wait_until_written()
        self.assertNotIn("seen.json", [one.name for one in again.folder.iterdir()])

    async def test_a_message_played_again_is_known_by_its_hash(self) -> None:
        """So it costs no reading, and who plays it often cannot silence the site that sent it: its account is that of repeats."""
        await self.bus.rounds()
        await self.share(50)
        message = next(one for one in self.bus.seen if one.topic.endswith("/operations"))
        run = json.loads(message.payload.partition(b"\n")[0])["run"]
        with mock.patch("server.sites.message_limits.MESSAGE_BURST", 20), mock.patch("server.sites.message_limits.MESSAGES_PER_SECOND", 1):
            self.second._floods = Floods()
            with mock.patch.object(self.second._lab, "read", side_effect=AssertionError):
                for _ in range(200):
                    await self.bus.give(self.second, message)
            self.assertIn("A sender of messages that bring nothing new sends too many messages", told(self.second))
            self.second._done.clear()  # also if it is no longer known
            for _ in range(200):
                self.second._done.clear()
                await self.bus.give(self.second, message)
            self.assertFalse(self.second._floods.is_ignored(run))
            announcement = next(one for one in self.bus.seen if one.topic == "road/sites" and run.encode() in one.payload)
            for _ in range(200):
                await self.bus.give(self.second, announcement)
            self.assertIn("A sender of announcements sends too many messages", told(self.second))
            self.assertFalse(self.second._floods.is_ignored(run))
            await self.share(60)
            self.assertEqual(self.held(self.two), 2)

    async def test_a_sum_played_again_and_again_is_ignored(self) -> None:
        await self.bus.rounds(2)
        run = self.first._seal.run
        message = next(one for one in self.bus.seen if one.topic.endswith("/sum") and run.encode() in one.payload)
        read = list[str]()

        async def receive(run: str, _: Any) -> None:
            read.append(run)
        with mock.patch.multiple("server.sites.message_limits", MESSAGE_BURST=20, MESSAGES_PER_SECOND=1, WORK=0), \
                mock.patch.object(self.second, "_receive_hash", receive):
            self.second._floods = Floods()
            for _ in range(100):
                await self.bus.give(self.second, message)
        self.assertEqual((set(read), len(read) < 30, self.second._floods.is_ignored(run)), ({run}, True, False))

    async def test_no_message_deafens_a_site_to_another(self) -> None:
        """Neither one with the largest numbers, nor one that somebody else with the key seals under another's run, also after a restart."""
        await self.bus.rounds()
        large = (1 << 53) - 1
        topic = f"road/{self.second._road}/operations"
        forger = seals.Seal(self.key.read_bytes().strip())
        forger.run = self.first._seal.run
        bodies = [{"form": 4, "operations": [limit(large, 1).written()], "number": large, "time": large}, {"form": 4, "operations": []},
                  {"form": 4, "operations": [7, limit(1, 1, 99).written()]}]
        for body in bodies:
            await self.bus.give(self.second, Message(topic, forger.seal(topic, json.dumps(body).encode())))
        sealed = {"site": self.one.lab.state.site, "host": "x", "road": self.second._road, "count": large, "form": 4}
        await self.bus.give(self.second, Message("road/sites", forger.seal("road/sites", json.dumps(sealed).encode())))
        await self.share(50)
        self.assertEqual(steps(self.two), [50])
        self.bus.sites.remove(self.second)
        await self.two.keeper.close()
        again = await self.enterAsyncContext(Here(self.two.folder))
        self.bus.site(again, self.key)
        await self.share(60)
        self.assertEqual(steps(again), [50, 60])

    async def test_a_flood_of_new_messages_is_its_senders_own(self) -> None:
        await self.bus.rounds()
        with mock.patch("server.sites.message_limits.MESSAGE_BURST", 5), mock.patch("server.sites.message_limits.MESSAGES_PER_SECOND", 0):
            self.second._floods = Floods()
            for step in range(20):
                await self.share(step)
            self.assertIn(f"Site {self.one.lab.state.site} sends too many messages", told(self.second))
            self.assertLess(self.held(self.two), 8)

    async def test_a_clock_a_day_wrong_and_an_hour_away_leaves_both_roads_equal(self) -> None:
        """Seals have no time, so no message is too old; what was shared meanwhile is sent when the site is back."""
        for day in (DAY, -DAY):
            self.two.keeper.counter._fixed = time.time_ns() // 1_000_000 + day
            if 1 not in self.two.keys:
                await self.two.join("Ben")
            self.second._note_connection(None)  # for an hour; the other one goes on
            self.bus.sites.remove(self.second)
            for step in (50, 51):
                await self.share(step)
                await self.two.put(1, ["limit", 2, step, 4])
                await self.two.share(1)
            await self.bus.rounds(3)
            self.bus.sites.append(self.second)
            real = time.monotonic
            with mock.patch("server.sites.sites.time.monotonic", lambda: real() + 3_600):
                self.second._note_connection(self.second._client, 1_000_000)
                await self.bus.rounds(4)
            self.assertEqual(self.road(self.one), self.road(self.two))
            self.assertEqual(self.second.state()["left_out"], 0)
        self.assertEqual(self.held(self.one), 8)

    async def test_the_page_warns_that_messages_have_no_key(self) -> None:
        here = await self.enterAsyncContext(Here(site="east"))
        site = Bus().site(here)
        self.assertFalse(site.state()["sealed"])
        self.assertIn("Anybody who can connect to the broker can send changes", " ".join(site.state()["stays"]))
        self.assertNotIn("Anybody", " ".join(self.first.state()["stays"]))

    def test_a_key_that_is_too_short_is_refused(self) -> None:
        self.key.write_text(" 15 bytes, here \n")
        with self.assertRaisesRegex(CannotStart, "has 14 bytes, but the key of the sites must have at least 16"):
            seals.key_of(self.key)
