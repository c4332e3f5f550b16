"""Test that a site that was away gets what it lacks and little else."""
from __future__ import annotations

import base64
import json
import random
import time
import unittest
from typing import Any
from unittest import mock

from faulty import Bus, Here, message_of
from running import Case
from server.model.operations import About, Operation, Shape, put
from server.sites.sums import MOST_RANGES, Sums


def made(count: int, value: int = 3) -> Operation:
    return put(count, Shape("limit", count % 6, count % 6, count, None, value), About(site="east-00000000"))


def hash_by_hand(operations: list[Operation]) -> str:
    """Return the hash of operations: the sum of the first 64 bits of the hashes in their names."""
    return f"{sum(int(base64.b64decode(one.stamp[1] + '==', b'-_')[:8].hex(), 16) for one in operations) % (1 << 64):x}"


class Ranges(unittest.TestCase):
    def test_each_range_has_the_hash_of_its_operations_in_whatever_order_they_came(self) -> None:
        chance = random.Random(1)
        for size, most, ranges in ((0, 4, 5), (1, 4, 5), (4, 4, 5), (5, 4, 5), (16, 4, 5), (23, 4, 5), (40, 4, 5)):
            with mock.patch("server.sites.sums.MOST_IN_RANGE", most), mock.patch("server.sites.sums.MOST_RANGES", ranges):
                operations = [made(count) for count in range(1, size + 1)]
                sums, mixed = Sums(), chance.sample(operations, size)
                for begin in range(0, size, 3):
                    sums.add(mixed[begin:begin + 3])
                found = sums.ranges()
                begins = [begin for begin, _ in found]
                self.assertEqual((begins[0], len(found) <= ranges), (None, True))
                parts: list[list[Operation]] = [[] for _ in found]
                for one in operations:
                    parts[sum(begin is not None and begin <= one.stamp for begin in begins) and
                          max(place for place, begin in enumerate(begins) if begin is None or begin <= one.stamp)].append(one)
                self.assertEqual([theirs for _, theirs in found], [hash_by_hand(part) for part in parts])
                self.assertTrue(all(len(part) <= most for part in parts[1:]), size)
                self.assertEqual(sums.total, hash_by_hand(operations))
                self.assertEqual(sums.lacking(found), [])

    def test_operations_with_equal_counts_may_be_in_two_ranges(self) -> None:
        with mock.patch("server.sites.sums.MOST_IN_RANGE", 2):
            equal = sorted((made(2, value) for value in range(5)), key=lambda one: one.stamp)
            one, other = Sums(), Sums()
            one.add([made(1), *equal, made(3)])
            for each in (made(3), *equal[::-1], made(1)):
                other.add([each])
            self.assertEqual((other.lacking(one.ranges()), one.lacking(other.ranges())), ([], []))
            self.assertEqual([begin for begin, _ in one.ranges()], [None, equal[1].stamp, equal[3].stamp, made(3).stamp])

    def test_a_message_has_a_few_kilobytes_however_many_operations_there_are(self) -> None:
        sums = Sums()
        with mock.patch("server.sites.sums.MOST_IN_RANGE", 8):
            sums.add(made(57_474_374_771_840 + count) for count in range((MOST_RANGES + 3) * 8))
            self.assertEqual(len(sums.ranges()), MOST_RANGES)
            self.assertLess(len(json.dumps(sums.ranges())), 20_000)


class Away(Case):
    async def test_a_site_that_was_away_gets_the_ranges_in_which_it_lacks_something(self) -> None:
        bus, operations = Bus(), [made(count) for count in range(1, 101)]
        one, two = [await self.enterAsyncContext(Here()) for _ in range(2)]
        first, second = bus.site(one), bus.site(two)
        await bus.give(first, message_of(first, *operations))
        await bus.give(second, message_of(second, *(each for each in operations if each.stamp[0] not in (15, 77))))
        with mock.patch("server.sites.sums.MOST_IN_RANGE", 10):
            bus.seen.clear()
            await bus.rounds(4)
        sent = [each["stamp"][0] for message in bus.seen if message.topic.endswith("operations")
                for each in json.loads(message.payload.partition(b"\n")[2])["operations"]]
        # Each site sends its own operations of the ranges that differ, cut where the other one cuts.
        self.assertTrue({15, 77} <= {*sent} <= {*range(11, 23), *range(71, 83)}, sorted(sent))
        self.assertLessEqual(len(sent), 2 * 2 * 12)
        self.assertEqual((await first._sum_up()).total, (await second._sum_up()).total)
        self.assertEqual(two.lab.state.shared.size, 100)

    async def test_a_sum_with_wrong_ranges_costs_little_and_is_counted(self) -> None:
        """Each of 257 ranges differs, and this site holds 20,000 operations."""
        here = await self.enterAsyncContext(Here())
        bus = Bus()
        site, held = bus.site(here), [made(count) for count in range(1, 20_001)]
        with mock.patch.object(site, "_sum_up", mock.AsyncMock(return_value=Sums())) as sum_up:
            sum_up.return_value.add(held)
            said = {"form": 4, "site": "east-00000000", "host": "there", "road": site._road, "count": 0}
            await site._receive("road/sites", "f", json.dumps(said).encode())
            ranges = [[None, "1"], *([[*one.stamp], "1"] for one in held[78::78])]
            body = json.dumps({"form": 4, "sum": "1", "ranges": ranges, "timeline": ""}).encode()
            await site._receive(f"road/{site._road}/sum", "f", body)
            self.assertEqual((len(ranges), bus.sent), (257, []))
            began = time.thread_time()
            await site._receive(f"road/{site._road}/sum", "f", body)
            took = time.thread_time() - began
        sent = [each["stamp"] for one in bus.sent for each in json.loads(one.payload.partition(b"\n")[2])["operations"]]
        self.assertEqual(sent, [[*one.stamp] for one in held[:500]])
        self.assertLess(took, 0.2)
        self.assertGreater(site._work, took / 2)

    async def test_old_operations_that_come_late_are_added_up(self) -> None:
        here = await self.enterAsyncContext(Here())
        site, mixed = Bus().site(here), random.Random(2).sample([made(count) for count in range(1, 400)], 399)
        with mock.patch("server.sites.sites.ADDED_AT_ONCE", 7):
            for begin in range(0, 399, 57):
                await here.lab.receive(mixed[begin:begin + 57], "", {})
                self.assertEqual((await site._sum_up()).total, hash_by_hand(mixed[:begin + 57]))

    async def test_nobody_gets_a_second_piece_before_the_next_announcement(self) -> None:
        bus = Bus()
        here = await self.enterAsyncContext(Here())
        site = bus.site(here)
        await bus.give(site, message_of(site, *(made(count) for count in range(1, 20))))
        runs = [f"{number:x}" for number in range(1, 9)]

        async def ask() -> int:
            bus.sent.clear()
            for run in runs * 3:
                said = {"form": 4, "site": "east-00000000", "host": "there", "road": site._road, "count": 0}
                await site._receive("road/sites", run, json.dumps(said).encode())
                body = json.dumps({"form": 4, "sum": "0", "ranges": [[None, "0"]], "timeline": ""}).encode()
                await site._receive(f"road/{site._road}/sum", run, body)
            return sum(one.topic.endswith("operations") for one in bus.sent)
        self.assertEqual(await ask(), 1)
        self.assertEqual(await ask(), 0)
        await site.announce()
        self.assertEqual(await ask(), 1)
