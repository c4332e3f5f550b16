"""Test who gets which seat when many join at once, how seats are freed, and the clock of the road."""
from __future__ import annotations

import asyncio
import shutil
from pathlib import Path
from typing import Any
from unittest import mock

from faulty import Here, soon
from running import Case, new_folder
from server.tabs import verbs
from server.tabs.fields import CommandFields
from server.base.refusals import Refused
from server.lab.seating import SteadyClock
from server.lab.gestures import Lab


def copied(folder: Path) -> Path:
    return Path(shutil.copytree(folder, new_folder() / "copy"))


class Seats(Case):
    async def asyncSetUp(self) -> None:
        self.here = await self.enterAsyncContext(Here())
        self.time = 1_000_000.0

    async def together(self, *names: str) -> list[Any]:
        """Return the seats of tabs that join at once, or why they get none."""
        said = await soon(asyncio.gather(*(self.here.lab.seating.join(name, "", None) for name in names), return_exceptions=True))
        return [one.text if isinstance(one, Refused) else one[0] for one in said]

    async def test_no_two_get_one_seat_or_one_name(self) -> None:
        seats = await self.together(*(f"n{number}" for number in range(60)))
        self.assertEqual(sorted(seats), list(range(1, 61)))
        self.assertEqual(sorted(map(str, await self.together("Ada", "Ada", "Ada"))), ["61", "NameTaken", "NameTaken"])
        for seat in (3, 5):
            await self.here.lab.seating.release_seat(seat)
            self.here.keeper.connected.discard(seat)
        # Each free seat but 62 and 63 was used before, and the program still holds what was put in it.
        self.assertEqual(len(set(await self.together("Ben", "Cleo", "Dan", "Eve"))), 4)
        self.assertEqual(await self.together("Fay"), ["AllSeatsTaken"])

    async def test_a_name_that_looks_like_anothers_is_refused(self) -> None:
        """Names are compared regardless of case, width, style, invisible characters, composition, and similar characters of other
        scripts."""
        await self.here.join("Ada", "Zoé 1", "straße", "Βίκα", "Cecil")
        for name in ("ada", "ADA", "Ａｄａ", "\U0001d400da", "A da", "Ad\ufe0fa", "Аdа", "Ad\u034fa", "Zoe\u0301 1",
                     "ZOÉ 1", "zoé  1", "Zoé ①", "STRASSE", "strasse", "Bίκα", "Сecil", "Ceсil", "Cec\u0131l", "Ceci\u04cf"):
            with self.assertRaises(Refused, msg=name) as caught:
                await self.here.lab.seating.join(name, "", None)
            self.assertEqual(caught.exception.text, "NameTaken")
            self.assertIn(f"{name} looks like it", caught.exception.why)
        await self.here.join("Adam", "Zoe 1", "Zoé 2", "語", "語語", "Ad-a")

    async def test_a_name_that_cannot_be_seen_is_refused(self) -> None:
        for name in ("", "\u3164", "\u2800\u2800", "\u115f \u1160", "\u034f\ufe0f", "e" + 63 * "\u0301", "Ada\u0301\u0302\u0303\u0304", "\u00e9\u0302\u0303\u0304"):
            with self.assertRaises(Refused, msg=name) as caught:
                await self.here.lab.seating.join(name, "", None)
            self.assertEqual(caught.exception.text, "NoName")

    async def test_a_seat_with_many_marks_in_its_name_keeps_it(self) -> None:
        """Only new names have few; and Vietnamese, Hindi and Thai are written with as many as they need."""
        await self.here.join("Nguyễn", "हिन्दी", "ภาษาไทยที่", "e\u0301\u0302\u0303")
        with mock.patch("server.base.names.MOST_MARKS", 99):
            index, key = await self.here.lab.seating.join("e" + 63 * "\u0301", "", None)
        await self.here.keeper.close()
        again = await self.enterAsyncContext(Here(self.here.folder))
        self.assertEqual(await again.lab.seating.join("", key, None), (index, key))

    async def test_a_list_kept_by_its_version_hears_that_a_seat_was_freed(self) -> None:
        """The next owner has not made the changes of the one before."""
        ada, ben = await self.here.join("Ada", "Ben")
        stamp = await self.here.put(ada, ["limit", 2, 50, 3])
        await self.here.share(ada)
        await self.here.take(ben)
        kept = await self.here.ask(ben, "layers")
        self.assertEqual([(line["name"], line["seat"], line["operations"][0]["seat"]) for line in kept["layers"]], [(stamp, ada, ada)])
        await self.here.ask(ada, "leave")
        cem, = await self.here.join("Cem")
        self.assertEqual(cem, ada)
        fresh = await self.here.ask(ben, "layers", **{"from": kept["next"]})
        self.assertEqual([(line["name"], line.get("seat"), line["operations"][0].get("seat")) for line in fresh["layers"]], [(stamp, None, None)])

    async def test_keys_live_as_long_as_their_operations_and_the_newest_forgotten_ones_stay(self) -> None:
        """Changes that were undone are forgotten, except the newest; the shortened journal has no more keys than the server."""
        ada, = await self.here.join("Ada")
        for count in range(30):
            shape = ["limit", 2, 2, 50 + count, None, 1]
            await self.here.ask(ada, "gesture", key=f"put {count}", shape=shape)
            if count:
                await self.here.ask(ada, "undo", key=f"undo {count}", stamp=f"put {count}")
        self.here.keeper._forget()
        seat = self.here.keeper.state.seats[ada]
        with mock.patch("server.journal.state.MOST_FORGOTTEN_KEYS", 7):
            await self.here.keeper.compact()
        stamps = {one.stamp for one in seat.own}
        held = {key for key, stamp in seat.done.items() if stamp in stamps}
        self.assertIn("put 0", held)
        made = [f"{does} {count}" for count in range(1, 30) for does in ("put", "undo")]
        forgotten = [key for key in made if key not in held]
        self.assertGreater(len(forgotten), 20)
        self.assertEqual(seat.done.keys(), held | {*forgotten[-7:]})
        kept, = [entry["done"]["keys"] for entry in self.here.entries() if "done" in entry]
        self.assertEqual({key for key, _ in kept}, seat.done.keys())
        for key in (forgotten[-1], "put 0"):  # a key that is sent again gets the answer of its first time
            said = await self.here.ask(ada, "gesture", key=key, shape=["limit", 2, 2, 7, None, 1])
            self.assertTrue(said["again"])

    async def test_one_of_two_tabs_that_take_a_seat_over_gets_it(self) -> None:
        index, = await self.here.join("Ada")
        self.here.keeper.connected.discard(index)
        lab = self.here.lab
        said = await asyncio.gather(*(lab.seating.join("", "", index) for _ in range(2)), return_exceptions=True)
        self.assertEqual([getattr(one, "text", "seat") for one in said], ["seat", "SeatConnected"])

    async def test_a_seat_that_was_used_until_a_kill_is_not_free_after_it(self) -> None:
        """It is not, even if its tab joined days ago and never left."""
        now = [1_000_000.0]
        with mock.patch("server.lab.seating.time.time", lambda: now[0]):
            self.here.lab.seating.steady = SteadyClock(3_600, lambda: now[0], lambda: now[0])
            ada, ben = await self.here.join("Ada", "Ben")
            self.here.lab.seating.leave(ben)
            for _ in range(2 * 24 * 6):
                now[0] += 600
                self.here.lab.seating.free_unused()
            await self.here.keeper.journal.wait_until_written()
            self.assertLess(len(self.here.entries()), 60)
            again = await self.enterAsyncContext(Here(copied(self.here.folder)))  # as the folder is when the server is killed
            again.lab.seating.steady = SteadyClock(3_600, lambda: now[0], lambda: now[0])
            now[0] += 22 * 3_600
            again.lab.seating.free_unused()
            self.assertEqual((await again.lab.seating.join("", self.here.keys[ada], None))[0], ada)
            with self.assertRaisesRegex(Refused, "UnknownKey"):
                await again.lab.seating.join("", self.here.keys[ben], None)

    async def test_a_clock_that_jumps_frees_no_seats(self) -> None:
        """The machine's clock is three days ahead for a moment, or when the server starts. If days have really passed, seats are
        freed an hour later."""
        wall, passed = [1_000_000.0], [0.0]
        with mock.patch("server.lab.seating.time.time", lambda: wall[0]):
            def looks(lab: Lab, minutes: int) -> str:
                """Return who has a seat after this many minutes."""
                for _ in range(minutes):
                    wall[0], passed[0] = wall[0] + 60, passed[0] + 60
                    lab.seating.free_unused()
                return self.here.lab.state.seats[1].name
            lab = self.here.lab
            lab.seating.steady = SteadyClock(3_600, lambda: wall[0], lambda: passed[0])
            index, = await self.here.join("Ada")
            lab.seating.leave(index)
            self.assertEqual(looks(lab, 180), "Ada")
            wall[0] += 3 * 86_400
            self.assertEqual(looks(lab, 50), "Ada")
            wall[0] -= 3 * 86_400
            self.assertEqual(looks(lab, 180), "Ada")
            wall[0] += 3 * 86_400
            lab.seating.steady = SteadyClock(3_600, lambda: wall[0], lambda: passed[0])  # as after a start
            self.assertEqual(looks(lab, 50), "Ada")
            self.assertEqual(looks(lab, 11), "")

    async def test_changes_of_a_freed_seat_keep_the_name_of_their_maker(self) -> None:
        ada, = await self.here.join("Ada")
        await self.here.put(ada, ["limit", 2, 50, 3])
        await self.here.share(ada)
        await self.here.lab.seating.release_seat(ada)
        self.here.keeper.connected.discard(ada)
        others = await self.here.join(*(f"n{number}" for number in range(63)))  # one of them has her seat
        self.assertIn(ada, others)
        for keeper in (self.here.keeper, None):
            if keeper is None:  # and after a restart
                await self.here.keeper.close()
                self.here = await self.enterAsyncContext(Here(self.here.folder))
            line, = (await self.here.ask(others[0], "layers", at="shared"))["layers"]
            self.assertEqual([line["who"], line["operations"][0]["who"]], ["Ada", "Ada"])

    async def test_who_gets_a_freed_seat_undoes_nothing_of_the_one_who_left(self) -> None:
        """The journal says what a seat made."""
        async with Here() as here:
            await here.join("Ada")
            await here.ask(1, "gesture", key="a", shape=["limit", 1, 1, 10, None, 3])
            await here.share(1)
            own = (await here.ask(1, "layers"))["layers"][0]
            self.assertEqual((own["seat"], own["operations"][0]["seat"]), (1, 1))
            await here.ask(1, "leave")
            here.keeper.connected.clear()
            for _ in range(2):
                self.assertEqual(await here.join("Ben"), [1])
                await here.take(1)
                said = await here.ask(1, "layers")
                self.assertEqual(said["undo"], None)
                self.assertEqual([("seat" in line, "seat" in line["operations"][0]) for line in said["layers"]], [(False, False)])
                await here.ask(1, "leave")
                here.keeper.connected.clear()
                await here.keeper.compact()

    async def test_requests_for_whole_lists_wait_for_their_turn(self) -> None:
        """Earlier questions of the seat are answered first, and questions of others while it waits."""
        keeper, is_free = self.here.keeper, asyncio.Event()
        ada, ben = await self.here.join("Ada", "Ben")
        busy = keeper.turns.ask(ada, is_free.wait)
        asked = [asyncio.create_task(self.here.ask(ada, verb)) for verb in ("layers", "operations", "scenario")]
        asked.append(asyncio.create_task(verbs.answer(self.here.lab, self.here.questions, ada, CommandFields("seats", {}), {})))
        await asyncio.sleep(0.2)
        self.assertEqual([one for one in asked if one.done()], [])
        is_free.set()
        await soon(asyncio.gather(busy, *asked))
        self.assertEqual((await self.here.ask(ben, "layers"))["layers"], [])

    async def test_no_question_may_reach_beyond_the_limit_of_the_clock(self) -> None:
        ada, = await self.here.join("Ada")
        now = self.here.keeper.now()
        cases: list[tuple[str, dict[str, Any]]] = [
            ("advance", {"to": now + 36_001}), ("transcript", {"from": 0, "to": now + 36_001}),
            ("figures", {"of": ["shared", "file"], "from": 0, "to": now + 36_001})]
        for verb, more in cases:
            with self.assertRaisesRegex(Refused, "TooFarAhead"):
                await self.here.ask(ada, verb, **more)
        with self.assertRaisesRegex(Refused, "Range"):
            await self.here.lab.road_clock.set_clock(to=now + 36_001)

    async def clock(self, rate: float, seconds: float) -> int:
        """Return how many steps a clock of this rate advances in some seconds."""
        keeper, lab = self.here.keeper, self.here.lab
        with mock.patch("server.lab.keeper.time.monotonic", lambda: self.time):
            await verbs.answer(lab, self.here.questions, 1, CommandFields("clock", {"rate": rate}), {})
            before = keeper.now()
            for _ in range(int(seconds)):
                self.time += 1
                lab.road_clock.save()
                await keeper.journal.wait_until_written()
                await asyncio.sleep(0)
            return keeper.now() - before

    async def test_a_clock_only_goes_forward_and_keeps_what_others_set_at_once(self) -> None:
        keeper, lab, is_free = self.here.keeper, self.here.lab, asyncio.Event()
        await soon(asyncio.gather(lab.road_clock.set_clock(rate=60), lab.road_clock.set_clock(to=3_600), lab.road_clock.set_clock(to=3_500)))
        self.assertEqual(keeper.clock().rate, 60)
        self.assertGreaterEqual(keeper.now(), 3_600)
        await lab.road_clock.set_clock(rate=600)
        busy = keeper.turns.ask(0, is_free.wait)
        sets = asyncio.create_task(lab.road_clock.set_clock(to=keeper.now() + 1))
        await asyncio.sleep(0.2)
        before = keeper.now()
        is_free.set()
        await soon(busy)
        self.assertGreaterEqual((await soon(sets))["now"], before)
        self.assertGreaterEqual(keeper.now(), before)

    async def test_rates_may_have_a_fraction(self) -> None:
        for rate, steps in ((0.3, 30), (0.5, 50), (1.5, 150), (0.01, 1)):
            self.assertAlmostEqual(await self.clock(rate, 100), steps, delta=1)

    async def test_a_fast_clock_stops_in_an_hour_and_says_so(self) -> None:
        told: list[Any] = []
        self.here.keeper.listeners.clock.on(lambda: told.append(self.here.keeper.clock().fields()))
        self.assertEqual(await self.clock(60, 100), 6_000)
        self.assertEqual(await self.clock(600, 5), 3_000)
        self.assertEqual(told[-1], {"rate": 600, "now": 6_000, "stop": 9_600})
        self.assertEqual(await self.clock(500, 20), 3_600)  # it can be set again from where it is
        self.assertEqual(told[-1], {"rate": 0, "now": 12_600})
        self.assertEqual(self.here.keeper.state.rate, 0)

    async def test_files_that_several_save_at_once_are_complete(self) -> None:
        """Tabs get pieces in turn. A tab that comes too late gets `Busy`."""
        with mock.patch("server.figures.files.MOST_PIECE", 2_000):
            seats = await self.here.join("Ada", "Ben", "Cleo", "Dan", "Eve")
            alone = [await self.saved(seat) for seat in seats]
            pieces = [[await self.piece(seat, 0)] for seat in seats[:4]]
            with self.assertRaisesRegex(Refused, "Busy"):
                await self.piece(seats[4], 0)
            while any(one[-1]["next"] is not None for one in pieces):
                for seat, one in zip(seats, pieces):
                    one.append(await self.piece(seat, one[-1]["next"]))
            self.assertEqual(["".join(each["lines"] for each in one) for one in pieces], alone[:4])
            self.assertGreater(len(pieces[0]), 2)
            self.assertEqual(await self.saved(seats[4]), alone[4])
            for seat in seats[:4]:
                await self.piece(seat, 0)
            with mock.patch("server.figures.files.TRANSCRIPT_UNUSED", 0):
                await self.piece(seats[4], 0)  # of files that nobody fetches

    async def piece(self, seat: int, number: int) -> Any:
        return await self.here.ask(seat, "transcript", **{"from": 0, "to": 60, "next": number})

    async def saved(self, seat: int) -> str:
        """Return all pieces."""
        said = [await self.piece(seat, 0)]
        while said[-1]["next"] is not None:
            said.append(await self.piece(seat, said[-1]["next"]))
        return "".join(one["lines"] for one in said)
