"""Test hostile sites and tabs: what they send is checked and bounded, and floods are ignored."""
from __future__ import annotations

import itertools
import json
import random
import re
import unittest
from typing import Any, Iterator, Mapping
from unittest import mock

from crashes import numbers
from faulty import Bus, Here, message_of, soon, told, written
from oracle import all_edits
from running import ALL, LIVE, SMALL, Case
from server.tabs import verbs
from server.tabs.fields import CommandFields
from server.base.refusals import NAMES, OF_THE_FORMAT, Refused
from server.model.operations import About, Shape, put
from server.program.simulated_roads import rows_of
from server.sites.message_limits import Floods
from server.sites.sites import Sites

JUNK: list[Any] = [None, True, -1, 0, 1, 5, 119, 1 << 20, 1 << 48, 10 ** 30, 0.5, "", "block", "k", "shared", "before", "x" * 300, [], {},
        [[]], [1, "M47dx6_hno3g_1R9IF57TQ"], [1, 65]]
STAMP = [1, "M47dx6_hno3g_1R9IF57TQ"]


def asked_well(number: int) -> list[tuple[str, dict[str, Any]]]:
    """Return valid questions that a tab may ask."""
    made = {"key": f"{number}", "note": ""}
    former = f"{number - 1}"
    return [
        ("gesture", {**made, "shape": ["block", 60, 61, number % 90, None, 1]}),
        ("gesture", {**made, "layer": former, "shape": None, "top": True}),
        ("gesture", {**made, "shape": ["capacity", 1, 2, number % 90, None, [900, 2, 9_000, 20_000]]}),
        ("undo", {**made, "stamp": former}), ("again", {"key": f"{number}", "stamp": STAMP}),
        ("site", {**made, "site": "eve-00000000", "out": True}), ("send", {"name": "shared", "stamps": [STAMP]}),
        ("take", {"message": "shared"}), ("layers", {"from": 0}), ("operations", {"from": 0}), ("advance", {"to": 60}),
        ("diagram", {"from": 0, "to": 20, "every": 1, "cells": [0, 50]}), ("cells", {"step": 5}), ("cars", {"step": 5}),
        ("count", {"detector": 1, "from": 0, "to": 5}), ("counts", {"from": 0, "to": 5, "each": 1}), ("scenario", {}),
        ("sums", {"from": 0, "to": 60}), ("preview", {"what": "share", "stamps": [STAMP]}), ("seats", {}),
        ("variant", {"name": f"{number % 20}", "drop": False}),
        ("csv", {"what": "counts", "from": 0, "to": 5, "each": 1}), ("clock", {"rate": 0})]


def renamed(value: Any) -> Any:
    """Return an operation under the name that its text gives it; another value as it is."""
    if not isinstance(value, dict) or not isinstance(value.get("stamp"), list) or not value["stamp"]:
        return value
    count, fields = value["stamp"][0], {name: one for name, one in value.items() if name != "stamp"}
    return written(count, **{"site": None, **fields})


def places_in(value: Any) -> Iterator[tuple[Any, Any]]:
    """Yield all places in a message: the list or object, and the key or index."""
    keys: Any = value if isinstance(value, dict) else range(len(value)) if isinstance(value, list) else ()
    for key in list(keys):
        yield value, key
        yield from places_in(value[key])


def announced(sites: Sites, **more: Any) -> bytes:
    """Return an announcement of another site."""
    return json.dumps({"form": 4, "site": "south-00000000", "host": "there", "road": sites._road, "count": 0, **more}).encode()


class Bounds(Case):
    async def test_a_flooding_site_is_ignored_for_a_while_and_reported(self) -> None:
        bus = Bus()
        one, two = [await self.enterAsyncContext(Here(site=name)) for name in ("north", "south")]
        first, second = bus.site(one), bus.site(two)
        now = [0.0]
        await bus.rounds()
        await two.join("Ben")
        with mock.patch.multiple("server.sites.message_limits", MESSAGE_BURST=20, MESSAGES_PER_SECOND=1, WORK=0):
            first._floods = Floods(lambda: now[0])
            for step in range(30):
                await two.put(1, ["limit", 2, step, 3])
                await two.share(1)
                await bus.carry()
            self.assertIn(f"Site {two.lab.state.site} sends too many messages: they are ignored for 30 seconds", told(first))
            self.assertEqual(one.lab.state.shared.size, 21)
            now[0] += 29
            second._sent.clear()
            second.send_shared()
            await bus.carry()
            self.assertEqual(one.lab.state.shared.size, 21)
            now[0] += 2
            await bus.rounds(4)
            self.assertEqual(one.lab.state.shared.size, 30)
            self.assertNotIn("too many", told(first))

    async def test_a_site_whose_messages_take_much_work_is_ignored_for_a_while(self) -> None:
        """The limit is 6 seconds of work in a burst, and half of the time in the long run; a second counts as 1,000 messages."""
        bus = Bus()
        one, two = [await self.enterAsyncContext(Here(site=name)) for name in ("north", "south")]
        first, second = bus.site(one), bus.site(two)
        now, work = [0.0], [0.0]
        first._floods = Floods(lambda: now[0])
        await bus.rounds()
        await two.join("Ben")

        def worked() -> float:
            work[0] += 2.9  # once before, and once after
            return work[0]
        with mock.patch("server.lab.gestures.time.thread_time", worked):
            for step, seconds in ((50, 0), (51, 6), (52, 0), (53, 0), (54, 0)):  # 9 seconds of work are allowed in all
                await two.put(1, ["limit", 2, step, 3])
                await two.share(1)
                await bus.carry()
                now[0] += seconds
        self.assertEqual(one.lab.state.shared.size, 4)
        self.assertIn(f"Site {two.lab.state.site} sends too many messages: they are ignored for 30 seconds", told(first))
        self.assertEqual(second._floods.ignored_senders(), [])  # the site does not ignore its own messages

    async def test_what_is_refused_counts_as_work_and_a_message_gives_one_sentence(self) -> None:
        """So a site that sends nothing but operations that are refused is ignored, too."""
        bus = Bus()
        one, two = [await self.enterAsyncContext(Here(site=name)) for name in ("north", "south")]
        first, second = bus.site(one), bus.site(two)
        await bus.rounds()
        first._floods, work = Floods(lambda: 0.0), [0.0]
        refused = [put(count, Shape("block", 60, 60 + count % 2 * 1_000, count, None, 2), About("Ben", site="south-00000000"))
                   for count in range(1, 301)]
        message = message_of(second, *refused)
        before = len(first.state()["told"])
        with mock.patch("server.sites.sites.READ_FOR", 1e9), mock.patch("server.sites.sites.thread_time", side_effect=itertools.count(0, 1.1)):
            await first._receive(message.topic, second._seal.run, message_of(second, refused[1]).payload)  # 3.3 seconds: 1.1 for its text
            self.assertFalse(first._floods.count_message(second._seal.run))
            await first._receive(message.topic, second._seal.run, message_of(second, refused[1]).payload)
            self.assertTrue(first._floods.count_message(second._seal.run))
        first._floods = Floods(lambda: 0.0)
        first._told.clear()

        def worked() -> float:
            work[0] += 0.01
            return work[0]
        with mock.patch("server.sites.sites.thread_time", worked), self.assertLogs(level="WARNING") as logs:
            for number in range(3):
                await first._receive(message.topic, second._seal.run, message.payload)
                self.assertEqual(len(first.state()["told"]), before + 1)
        self.assertEqual(len(logs.output), 1)
        self.assertIn("300 operations of a message were ignored. The first: ", told(first))
        self.assertEqual(one.lab.state.shared.size, 0)
        # Each operation took 0.01 seconds, of 6 that are allowed at once.
        self.assertTrue(first._floods.count_message(second._seal.run))
        self.assertIn(second._seal.run, first._floods.ignored_senders())

    async def test_every_site_accepts_exactly_the_operations_that_a_tab_may_make(self) -> None:
        """Sites and tabs have the same limits: here a closure of 600 cells, and one of 601."""
        bus, plan = Bus(), {**SMALL, "length": 1_300, "zone": 100, "zones": [[5, 0]] * 13, "detectors": []}
        one, two = [await self.enterAsyncContext(Here(plan=plan)) for _ in range(2)]
        first, _ = bus.site(one), bus.site(two)
        await two.join("Ben")
        line = (await two.ask(1, "gesture", key="k", shape=["block", 0, 599, 5, 15, 1]))["stamp"]
        await two.ask(1, "gesture", key="drag", layer=list(line), shape=["block", 100, 699, 5, 25, 1])
        await two.share(1)
        await bus.rounds(2)
        self.assertEqual(one.lab.state.shared.road.layers, two.lab.state.shared.road.layers)
        self.assertEqual(one.lab.state.shared.road.layers.keys(), {line})
        with self.assertRaisesRegex(Refused, "TooManyObjects"):
            await two.ask(1, "gesture", key="large", shape=["block", 0, 600, 5, 15, 1])
        large, good = (put(line[0] + 9, Shape("block", 0, last, 5, None, 1), About(site="eve-00000000")) for last in (600, 599))
        message = message_of(first, large, good)
        await first._receive(message.topic, "f", message.payload)
        self.assertIn("at most 600 objects, not 601", told(first))
        self.assertIn(good.stamp, [each.stamp for each in one.lab.state.shared.places])  # valid operations of the message came

    async def test_an_undo_or_an_exclusion_that_does_something_else_is_refused(self) -> None:
        """It would be in force and in no list, or although its site is out; the other operations of its message are taken."""
        here = await self.enterAsyncContext(Here(plan=SMALL))
        site, shape = Bus().site(here), ["limit", 2, 2, 5, None, 1]
        good = written(1, shape=shape)
        for base in ({"undoes": good["stamp"]}, {"excludes": ["north-00000000", True]}):
            for more in ({"shape": shape}, {"layer": good["stamp"]}, {"layer": good["stamp"], "top": True}, {"seen": good["stamp"]},
                         {"undoes": good["stamp"], "excludes": ["north-00000000", True]}):
                site._told.clear()
                one = written(2, **base, **{name: value for name, value in more.items() if name not in base}, who="Eve")
                body = json.dumps({"form": 4, "operations": [one, good]}).encode()
                await site._receive(f"road/{site._road}/operations", "f", body)
                self.assertEqual([[*each.stamp] for each in here.lab.state.shared.places], [good["stamp"]])
                self.assertIn("undoes another one or excludes a site, so it must do nothing else", told(site))

    async def test_an_operation_without_an_effect_is_refused_with_a_sentence(self) -> None:
        here = await self.enterAsyncContext(Here())
        await here.join("Ada")
        line = list(await here.put(1, ["limit", 1, 50, 4]))
        await here.ask(1, "gesture", key="w", layer=line, shape=None)
        cases: list[tuple[dict[str, Any], str]] = [
            ({"layer": line, "shape": None}, "nothing to withdraw"), ({"layer": line, "top": True}, "on top already")]
        for what, why in cases:
            with self.assertRaisesRegex(Refused, "NoEffect") as caught:
                await here.ask(1, "gesture", key="again", **what)
            self.assertIn(why, caught.exception.why)
        self.assertEqual(len(here.lab.state.seats[1].own), 2)

    async def test_shapes_and_edits_of_sites_are_checked_against_the_plan(self) -> None:
        here = await self.enterAsyncContext(Here())
        site, older = Bus().site(here), written(1, shape=["limit", 1, 1, 5, None, 1])["stamp"]

        def put(*shape: Any, **more: Any) -> dict[str, Any]:
            return written(9, shape=list(shape), **{"who": "Eve", **more})
        closure = ("block", 60, 61, 30, None, 1)
        good = put(*closure)
        for wrong in (
                put("block", 0, 120, 30, None, 1), put("limit", 6, 6, 30, None, 3), put("block", 61, 60, 30, None, 1),
                put("block", 60, 60, 1 << 20, None, 1), put("block", 60, 60, 30, 30, 1), put("block", 60, 60, 30, 1 << 20, 1),
                put("block", 60, 60, 30, None, 2), put("limit", 1, 1, 30, None, 10), put("bloc", 60, 60, 30, None, 1),
                put("block", 60, 60, -1, None, 1), put("block", 60, 60, 0.5, None, 1), put("block", "60", 60, 30, None, 1),
                put("block", 60, 60, 30, None), put("capacity", 1, 2, 30, None, 900), put("capacity", 1, 6, 30, None, [900, 2, 0, 0]),
                put("capacity", 1, 2, 30, None, [900, 10, 0, 0]), put("capacity", 1, 2, 30, None, [900, 2, 65_537, 0]),
                put("capacity", 1, 2, 30, None, [-1, 2, 0, 0]), put("capacity", 1, 2, 30, None, [900, 2, 0]),
                put("limit", 1, 2, 30, None, [900, 2, 0, 0]),
                put(*closure, top=True), put(*closure, top=1), put(*closure, layer=[9, older[1]]), put(*closure, layer="x"),
                put(*closure, layer=[10, older[1]]), put(*closure, seen=[9, older[1]]), put(*closure, undoes=older),
                put(*closure, who="x\u202e"), put(*closure, who=" x"), put(*closure, note=7), put(*closure, when=0.5),
                put(*closure, more="x" * 1_001), put(*closure, more=[0.5]), put(*closure, more={"x": [1 << 53]}),
                put(*closure, site="eve"), put(*closure, site="-00000000"), put(*closure, site=f"{'x' * 32}-00000000"),
                put(*closure, site="eve-0000000G"), put(*closure, site=7), put(*closure, site=None),
                written(9, known=5, sets=[]), written(9), written(9, top=True), written(9, seen=older), written(9, undoes=7),
                written(9, excludes=["eve-00000000", True]), written(9, excludes=["north-00000000", 1]), written(9, excludes=[3, True]),
                *({**good, "stamp": [count, good["stamp"][1]]} for count in (8, -1, 0.5, "9", 1 << 53)),
                *({**good, "stamp": [9, name]} for name in ("", "x" * 22, older[1], 7, None)), {**good, "stamp": "x"}):
            site._told.clear()
            body = json.dumps({"form": 4, "operations": [wrong]}).encode()
            await site._receive(f"road/{site._road}/operations", "", body)
            self.assertEqual((len(site._told), here.lab.state.shared.size), (1, 0), wrong)
            self.assertIn("was ignored", site._told[0])
        body = json.dumps({"form": 4, "operations": [good, 7]}).encode()
        await site._receive(f"road/{site._road}/operations", "", body)
        self.assertEqual([one.about.who for one in here.lab.state.shared.places], ["Eve"])

    async def test_a_changed_message_is_taken_or_reported_whatever_was_changed(self) -> None:
        """The program accepts everything that the server accepted."""
        here = await self.enterAsyncContext(Here())
        site, chance = Bus().site(here), random.Random(1)
        with mock.patch("logging.error") as error, mock.patch("logging.exception", error):
            for number in range(600 if ALL else 200):
                count = 3 * number + 9
                put = written(count, who="Eve", when=1, shape=["block", 60, 61, 30 + number % 9, None, 1])
                change = written(count + 1, who="Eve", layer=put["stamp"], shape=["limit", 1, 2, 20, None, 3], top=True, seen=STAMP)
                operations = [put, change, written(count + 2, undoes=change["stamp"]), written(count, excludes=["north-00000000", True])]
                message: dict[str, Any] = {"form": 4, "operations": operations, "title": ""}
                places = list(places_in(message))
                for _ in range(chance.randrange(1, 3)):
                    parent, key = chance.choice(places)
                    parent[key] = chance.choice([*JUNK, "\ud800"])
                if chance.random() < 0.7:  # under the names that their texts have
                    message["operations"] = [renamed(one) for one in operations]
                topic = chance.choice(["operations", "operations", "sum"])
                await site._receive(f"road/{site._road}/{topic}", "f", json.dumps(message).encode())
        self.assertEqual(error.call_args_list, [])
        reply = await here.keeper.ask(0, (0,), lambda: here.keeper.program.ask(b'{"scenario":{"at":"shared"}}'))
        self.assertEqual(numbers(json.loads(reply)["edits"]), numbers(rows_of(all_edits(here.lab.state.shared.road))))
        self.assertGreater(here.lab.state.shared.size, 10)

    async def test_missing_operations_are_sent_after_a_hash_is_heard_twice(self) -> None:
        """A site that lacks operations gets them once. A site with another version of the protocol gets nothing."""
        bus = Bus()
        here = await self.enterAsyncContext(Here())
        site = bus.site(here)
        ada, = await here.join("Ada")
        await here.put(ada, ["limit", 1, 50, 4])
        await here.share(ada)
        await bus.carry()
        for form, is_here, sent in ((3, True, []), (4, False, []), (4, True, ["operations"])):
            site._peers.known.clear()
            if is_here:
                await site._receive("road/sites", "f", announced(site))
            for _ in range(3):
                body = json.dumps({"form": form, "sum": "0", "ranges": [[None, "0"]], "timeline": "?"}).encode()
                await site._receive(f"road/{site._road}/sum", "f", body)
            self.assertEqual([one.topic.rpartition("/")[2] for one in bus.sent], sent)

    async def test_two_sites_that_derive_different_roads_from_the_same_changes_say_so(self) -> None:
        bus = Bus()
        here = await self.enterAsyncContext(Here())
        site = bus.site(here)
        await site._receive("road/sites", "f", announced(site))
        sums = await site._sum_up()
        body = json.dumps({"form": 4, "sum": sums.total, "ranges": sums.ranges(),
                           "timeline": await site._hash_road()}).encode()
        await site._receive(f"road/{site._road}/sum", "f", body)
        self.assertNotIn("another road", told(site))
        await site._receive(f"road/{site._road}/sum", "f", body.replace(b'"timeline": "', b'"timeline": "x'))
        self.assertIn("has the same changes but computes a different road from them", told(site))
        self.assertEqual(bus.sent, [])

    async def test_announcements_of_unknown_sites_are_bounded(self) -> None:
        bus = Bus()
        here = await self.enterAsyncContext(Here())
        site = bus.site(here)
        for number in range(1_100):
            name, run = f"{number}" + "x" * 5_000, f"{number:016x}"
            await site._receive("road/sites", run, announced(site, road=name, host=name))
            for begin in ("", name[:9]):
                body = json.dumps({"form": 4, "sum": name, "ranges": [[None, begin]]}).encode()
                await site._receive(f"road/{site._road}/sum", run, body)
            await site._receive(f"road/{site._road}/operations", run, json.dumps({"form": 4, "operations": [], "title": name}).encode())
        everything: list[Mapping[Any, object]] = [site._peers.known, site._sums, site._pauses]
        for kept in everything:
            self.assertLessEqual(len(kept), 1_024)
            self.assertLess(len(str(kept)), 200_000)
        self.assertLess(len(json.dumps(site.state())), 100_000)
        wrongs: list[dict[str, Any]] = [{"site": 7}, {"site": "eve"}, {"site": None}, {"host": 7}, {"road": None}, {"count": -1}, {"count": "x"}]
        for wrong in wrongs:
            site._told.clear()
            await site._receive("road/sites", "", announced(site, **wrong))
            self.assertIn("it does not say which site sent it", told(site), wrong)

    async def test_an_operation_that_does_not_come_back_is_resent_after_growing_pauses(self) -> None:
        bus = Bus()
        here = await self.enterAsyncContext(Here())
        site = bus.site(here)
        await here.join("Ada")
        await here.put(1, ["limit", 2, 50, 3])
        sent = []
        now = [1_000.0]
        with mock.patch("server.sites.sites.time.monotonic", lambda: now[0]):
            await here.share(1)
            for _ in range(1_000):
                site.send_shared()
                sent += [now[0]] * len([one for one in bus.sent if one.topic.endswith("operations")])
                bus.sent.clear()
                now[0] += 3
        gaps = [later - sooner for sooner, later in zip(sent, sent[1:])]
        self.assertEqual(gaps[:4], [3, 6, 12, 24])
        self.assertEqual((max(gaps), gaps), (300, sorted(gaps)))

    async def test_a_site_that_lacks_many_operations_gets_them_in_pieces(self) -> None:
        bus = Bus()
        one, two = [await self.enterAsyncContext(Here(site=name)) for name in ("north", "south")]
        bus.site(one)
        await one.join("Ada")
        for step in range(25):
            await one.put(1, ["limit", 2, step, 3])
        await one.share(1)
        await bus.carry()
        bus.site(two)
        with mock.patch("server.sites.sites.OPERATIONS_AT_ONCE", 10):
            counts = []
            for _ in range(6):
                bus.seen.clear()
                await bus.rounds()
                told = [json.loads(each.payload.partition(b"\n")[2]) for each in bus.seen if each.topic.endswith("operations")]
                counts.append(sum(len(each["operations"]) for each in told))
        self.assertEqual((counts, two.lab.state.shared.size), ([0, 10, 10, 5, 0, 0], 25))


class Refusals(unittest.TestCase):
    """The names of refusals are the same in PROTOCOL.md, the server and FORMAT.md."""

    def rows(self, page: str) -> dict[str, str]:
        text = (LIVE.parent / page).read_text().partition("## Refusals\n")[2].partition("\n## ")[0]
        return dict(re.findall(r"^\| `([^`]+)` \| (.+) \|$", text, re.MULTILINE))

    def test_the_pages_name_the_same_refusals(self) -> None:
        self.assertEqual(set(self.rows("live/PROTOCOL.md")), NAMES)
        self.assertEqual(set(self.rows("docs/FORMAT.md")), OF_THE_FORMAT)

    def test_each_refusal_is_used_and_no_other(self) -> None:
        texts = [path.read_text() for path in (LIVE / "server").rglob("*.py")]
        used = {name for text in texts for name in re.findall(
            r'(?:(?:Refused|_refuse_with_seats|super\(\).__init__)\(|Malformed\((?:f?"[^"]*"\s*)+,)\s*"([^"]+)"', text)}
        self.assertEqual(used - OF_THE_FORMAT, NAMES - OF_THE_FORMAT)
        for name in NAMES:
            self.assertRegex(name, r"^[A-Z][A-Za-z]+$")
        with self.assertRaisesRegex(ValueError, "no refusal is named too far ahead"):
            Refused("too far ahead", "")


class Changes(unittest.TestCase):
    def test_the_commands_that_the_page_lists_as_changes_are_marked(self) -> None:
        text = (LIVE / "PROTOCOL.md").read_text(encoding="utf-8").partition("### Changing your own road\n")[2].partition("\n### ")[0]
        listed = {name for line in re.findall("^- (.*)$", text, re.MULTILINE) for name in re.findall(r"`(\w+)` \{", line)}
        others = {"clock", "leave"}  # of the clock and of seats
        self.assertEqual({verb for verb in verbs.VERBS if verbs.is_change(verb)}, listed | others)
        self.assertFalse(verbs.is_change("nothing"))


class Tabs(Case):
    async def test_every_question_of_a_tab_is_answered_or_refused(self) -> None:
        """A refusal has a sentence, and the program accepts everything that the server accepted."""
        here = await self.enterAsyncContext(Here())
        chance = random.Random(1)
        await here.join("Eve")
        refused = 0
        with mock.patch("logging.error") as error:
            for number in range(1_500 if ALL else 400):
                verb, fields = chance.choice(asked_well(number))
                asked = {"command": {"at": "seat1", **fields} if verb not in ("seats", "clock") else fields}
                for _ in range(chance.randrange(3)):
                    parent, key = chance.choice(list(places_in(asked["command"])) or [(asked, "command")])
                    parent[key] = chance.choice(JUNK)
                try:
                    await soon(verbs.answer(here.lab, here.questions, 1, CommandFields(verb, asked["command"]), {}))
                except Refused as fault:
                    refused += 1
                    self.assertGreater(len(fault.why), 10)
        self.assertEqual(error.call_args_list, [])
        self.assertTrue(100 < refused < number - 100, refused)
        for seat in (0, 1):
            replica = here.lab.state.replica(seat)
            line = json.dumps({"scenario": {"at": replica.at}}).encode()
            reply = await here.keeper.ask(1, (seat,), lambda: here.keeper.program.ask(line))
            self.assertEqual(numbers(json.loads(reply)["edits"]), numbers(rows_of(all_edits(replica.road))))
