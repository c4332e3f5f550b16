"""Test the road of a freeway's file that has an approach: where km 0 and minute 0 are, in texts, tables and files, after a restart, and at
other sites."""
from __future__ import annotations

import asyncio
import json
import re
import sqlite3
import sys
import unittest
from typing import Any

from figures_told import value
from raw_figures import Run, figures_of
from running import LIVE, Case, Server, until
from server.figures.files import time_writer
from server.journal.entries import read_plan_line
from server.shell.put import InvalidWords, read_change
from zegdrut.base import METRES, Units
from zegdrut.roads import Clock

# Zones of 0.15 km have 20 cells, so the approach has 160, and km 0 is zone 8. A free car drives 4.8 cells a step: 320 cells take 67 seconds,
# and with two minutes the run begins 4 minutes before minute 0. The main demand enters 33 seconds before it is at km 0.
ORIGIN, LEAD, EARLY = 160, 240, 33
KM: dict[str, Any] = {
    "length": 1.2, "approach": 1.2, "zone": 0.15, "limit": 135, "slowing": 0.2, "main": [["7:00", 900], ["7:05", 600]], "ramps": [[0.45, 200]],
    "minutes": 10, "stretch": [0.3, 0.6], "detectors": [0.3, 0.75], "sections": [{"first": 0.6, "last": 0.75, "begin": "7:04", "end": "7:06", "limit": 54}],
    "stalled": [[0.9, "7:02", "7:04"]], "entry": 0, "begin": "07:00", "date": "2026-03-02", "timezone": "Europe/Berlin"}
UNITS = Units(METRES, 1.0, ORIGIN, LEAD)
PLAN = read_plan_line({
    "length": 320, "exit": 1, "zone": 20, "zones": [[5, 13_107]] * 16, "inlets": [[0, 17_000], [220, 4_000]], "detectors": [200, 260], "words": 1,
    "replicas": ["A"]})


class Words(unittest.TestCase):
    """Places and times as they are typed and written."""

    def test_changes_before_km_0_and_minute_0(self) -> None:
        for words, shape, said in (
                (("close", "-1.2", "-1.05", "-4", "6:58"), ["block", 0, 19, 0, 120, 1], "closed, km -1.2 to -1.05, 06:56 to 06:58"),
                (("limit", "54", "-0.1", "0.4", "7:00", "2"), ["limit", 7, 10, 240, 360, 2], "limit 54 km/h, km -0.15 to 0.45, 07:00 to 07:02"),
                (("demand", "500", "-1", "6:59"), ["inflow", 0, 0, 180, None, 0], "500 cars/h, at km -1.2, from 06:59 on"),
                (("demand", "500", "0.3", "0"), ["inflow", 1, 1, 240, None, 0], "500 cars/h, at km 0.45, from 07:00 on"),
                (("detector", "off", "0.5", "6:50"), ["watch", 0, 0, 86_040, None, 0], "detector off, at km 0.3, from 06:50 on")):  # the next day
            written = read_change(words, PLAN, UNITS, Clock.read("07:00"))
            self.assertEqual(([*written.shape], written.sentence), (shape, said))
        for words, why in ((("close", "-1.3", "0", "1"), "-1.3 to 0 km: give two places from -1.2 to 1.2 km, the smaller first"),
                           (("detector", "on", "1.3", "1"), "1.3 km is not on the road: give a place from -1.2 to 1.2 km"),
                           (("close", "0", "0.1", "-5"), "BEGIN: minute -5 is before the run, which begins at minute -4"),
                           (("close", "0", "0.1", "²"), "BEGIN: '²' is not a time")):
            with self.assertRaisesRegex(InvalidWords, re.escape(why)):
                read_change(words, PLAN, UNITS, Clock.read("07:00"))

    def test_times_before_midnight(self) -> None:
        """A file without a `begin` counts from 0:00 at minute 0. With one, days are those of the file."""
        self.assertEqual([time_writer(None, 240)(step) for step in (0, 239, 240, 3_900)], ["-0:04:00", "-0:00:01", "0:00:00", "1:01:00"])
        clock = Clock.read("00:02")
        self.assertEqual([time_writer(clock, 240)(step) for step in (0, 120, 240)], ["23:58", "00:00", "00:02"])
        self.assertEqual([clock.to_date_text(step - 240) for step in (0, 240, 86_520)], ["23:58 (day 0)", "00:02", "00:00 (day 2)"])
        self.assertEqual(read_change(("close", "0", "0.1", "23:58", "0:00"), PLAN, UNITS, clock).shape[3:5], (0, 120))


class Roads(Case):
    async def test_km_0_and_minute_0(self) -> None:
        """The plan, the works and the demand are those of the file, behind the approach and after the lead, with which the clock begins. A
        restart keeps them, and so does a journal that was shortened."""
        server = self.server(plan=KM, LIVE_MOST_JOURNAL="1")
        async with server.seat() as ada:
            self.check_welcome(ada.welcome)
            plan = ada.welcome["plan"]
            self.assertEqual((plan["length"], plan["zone"], len(plan["zones"])), (320, 20, 16))
            self.assertEqual(([cell for cell, _ in plan["inlets"]], plan["detectors"]), ([0, 220], [200, 260]))
            lines = (await ada.ask("layers", at="shared", **{"from": 0}))["layers"]
            shapes: list[Any] = [line["shape"] for line in lines]
            self.assertEqual([[*shape[:5], line.get("demand")] for shape, line in zip(shapes, lines)], [
                ["inflow", 0, 0, 0, None, 900], ["inflow", 0, 0, LEAD + 300 - EARLY, None, 600], ["inflow", 1, 1, 0, None, 200],
                ["inflow", 1, 1, LEAD + 300, None, 200],  # (beside less traffic)
                ["limit", 12, 12, LEAD + 240, LEAD + 360, None], ["block", 280, 280, LEAD + 120, LEAD + 240, None]])

        async def is_shortened() -> bool:
            return len(server.journal()) > 1 and "clock" in server.journal()[1]
        await until(is_shortened, "the journal is shortened")
        self.assertEqual([server.journal()[0]["lab"][name] for name in ("origin", "lead")], [ORIGIN, LEAD])
        server.restart()
        async with server.seat("Ben") as ben:
            self.check_welcome(ben.welcome)

    def check_welcome(self, welcome: Any) -> None:
        self.assertEqual([welcome[name] for name in ("origin", "lead", "now", "demand_end")], [ORIGIN, LEAD, LEAD, LEAD + 600])
        self.assertEqual(welcome["day"], {"begin": 25_200, "date": "2026-03-02", "zone": "Europe/Berlin"})
        titles = {row["key"]: row["title"] for row in welcome["figures"]}
        self.assertEqual([titles[key] for key in ("hours", "approach hours", "all hours")], [
            "vehicle hours from km 0 on", "vehicle hours before km 0", "vehicle hours on the road and before it"])
        self.assertEqual({row["title"] for row in welcome["figures"] if row["key"] == "travel" and row["of"] == [0, 0]}, {"km 0.3: travel time from km -1.2, s"})

    async def test_a_road_without_an_approach_has_no_such_rows(self) -> None:
        server = self.server()
        async with server.seat() as ada:
            self.assertEqual((ada.welcome["origin"], ada.welcome["lead"], ada.welcome["now"]), (0, 0, 0))
            self.assertEqual([row["title"] for row in ada.welcome["figures"] if "hours" in row["key"]], ["vehicle hours on the road"])
            await ada.ask("advance", to=60)
            self.assertNotIn("approach", await ada.ask("sums", **{"from": 0, "to": 60}))
        self.assertEqual([*server.journal()[0]["lab"]], ["form", "plan", "site"])

    async def test_the_figures_are_those_of_the_cars(self) -> None:
        """Sum the cars of each row before km 0 and from there on."""
        server, first, last = self.server(plan=KM), LEAD, LEAD + 600
        async with server.seat() as ada:
            await ada.say("clock", to=last)
            await ada.ask("gesture", key="1", shape=["block", 40, 45, LEAD + 60, LEAD + 200, 1])
            shared, mine = [Run({**ada.welcome["plan"], "replicas": ["road"]}, (await ada.ask("scenario", at=at))["edits"], last, ORIGIN) for at in ("shared", ada.at)]
            said = await ada.ask("figures", of=["shared", ada.at], **{"from": first, "to": last})
            known = figures_of(shared, mine, first, last)
            for (key, inlet, detector), wanted in known.items():
                for side, one in zip(("before", "after", "difference"), wanted):
                    found = value(said, side, key, inlet, detector)
                    self.assertAlmostEqual(found, one, 9, (key, inlet, detector, side)) if one is not None else self.assertIsNone(found)
            self.assertGreater(known["approach hours", None, None][2] or 0, 0.1)
            await ada.ask("advance", to=last)
            sums = await ada.ask("sums", **{"from": first, "to": last})
            self.assertAlmostEqual(sum(sums["approach"]) / 3_600, mine.approach_hours(first, last), 9)
            self.assertAlmostEqual(sum(sums["sums"]) / 3_600, mine.hours(first, last), 9)

    async def test_who_loses_cars(self) -> None:
        """A queue that has room on the approach loses nobody. If it outgrows the approach, hours and delay are bounds, and the words name
        the inlet at the head. Both queues are gone at the end."""
        server, last = self.server(plan={**KM, "stalled": [], "ramps": []}), LEAD + 1_500
        async with server.seat() as ada:
            await ada.say("clock", to=last)
            for cell, bounds in ((200, ["", "", "", ""]), (60, ["at least"] * 4)):
                put = await ada.ask("gesture", key=f"{cell}", shape=["block", cell, cell, LEAD + 100, LEAD + 400, 1])
                said = await ada.ask("figures", of=["shared", ada.at], **{"from": LEAD, "to": last})
                rows = {row["figure"]["key"]: row for row in said["figures"]}
                self.assertEqual([rows[key]["bounds"][0] for key in ("delay", "hours", "approach hours", "all hours")], bounds)
                lost = value(said, "after", "lost")
                self.assertEqual(lost > 0, bool(bounds[0]))
                self.assertEqual(rows["all hours"]["words"], f"Cars that cannot enter are lost: {lost:,.0f} at km -1.2 (mine); hours and delay leave them out; "
                                 "over days they wait."
                                 if lost else "")
                self.assertGreater(value(said, "difference", "approach hours"), 0)
                await ada.ask("undo", key=f"u{cell}", stamp=put["stamp"])

    async def test_what_an_inlet_admits(self) -> None:
        """The chance of the file's ramp gives its demand back, by the same curve as on the road without an approach."""
        points = []
        for approach in (1.2, 0):
            server = self.server(plan={**KM, "sections": [], "stalled": [], "approach": approach})
            async with server.seat() as ada:
                chances = [chance for _, chance in ada.welcome["plan"]["inlets"]]
                curve = await ada.say("admission", inlet=1, start=None, before=[[0, chances[0]]])
                (low, less), (high, more) = next((one, other) for one, other in zip(curve["points"], curve["points"][1:]) if one[0] <= chances[1] <= other[0])
                self.assertAlmostEqual(less + (more - less) * (chances[1] - low) / (high - low), 200, delta=2)
                points.append((chances, curve["points"]))
        self.assertEqual(points[0], points[1])

    async def test_what_an_inlet_admits_beside_a_ramp_at_km_0(self) -> None:
        """By the curves of the main road, that ramp and the next one, their chances give the demands of the file."""
        server = self.server(plan={**KM, "main": 900, "ramps": [[0, 200], [0.45, 150]], "sections": [], "stalled": []})
        async with server.seat() as ada:
            chances = [chance for _, chance in ada.welcome["plan"]["inlets"]]
            for inlet, demand in enumerate((900, 200, 150)):
                curve = await ada.say("admission", inlet=inlet, start=None, before=[*enumerate(chances[:inlet])])
                (low, less), (high, more) = next((one, other) for one, other in zip(curve["points"], curve["points"][1:]) if one[0] <= chances[inlet] <= other[0])
                self.assertAlmostEqual(less + (more - less) * (chances[inlet] - low) / (high - low), demand, delta=5)

    async def test_files(self) -> None:
        """The table of counts, the report and the tables of changes have km from km 0 and times from minute 0."""
        server, last = self.server(plan=KM), LEAD + 600
        async with server.seat() as ada:
            await ada.say("clock", to=last)
            await ada.ask("gesture", key="1", note="works", shape=["block", 40, 45, LEAD + 60, LEAD + 200, 1])
            await ada.ask("send", name="shared")
            await ada.ask("advance", to=last)
            csv = (await ada.ask("csv", what="counts", each=300, **{"from": LEAD, "to": last}))["csv"]
            self.assertRegex(csv, r"^# counts of the road of Ada, plan\.json, 2026-03-02, 07:00 to 07:10, per lane\nfrom,.*\n07:00,07:05,0,0\.3,.*\n07:00,07:05,1,0\.75,")
            asked: dict[str, Any] = {"of": ["shared", ada.at], "title": "A road", "works": [], "from": LEAD, "to": last}
            for is_wide, marks in ((False, ["0", "0.5", "1", "1.2"]), (True, ["-1", "-0.5", "0", "0.5", "1", "1.2"])):
                html = (await ada.ask("report", **asked, approach=is_wide))["html"]
                (field, *_) = re.findall(r'<svg [^>]*class="field".*?</svg>', html)
                self.assertEqual([mark for mark in re.findall(r'text-anchor="end">([^<]*)<', field) if ":" not in mark], marks)
                for part in ("<li>1.2 km, one lane", "approach of 1.2 km before km 0, where cars enter", "on-ramp at km 0.45: 200 cars/h", "Flow, km 0.3</text>",
                             "main road at km -1.2: 900 from 06:56, 600 from 07:04:27 cars/h", "The run begins at 06:56 with an empty road", "vehicle hours before km 0"):
                    self.assertIn(part, html)
        for name in ("running.db", "stopped.db"):
            path = server.folder / name
            self.assertEqual(await self.road(server, "Cron", "export", str(path)), (0, f"wrote 7 operations to {path}"))
            with sqlite3.connect(path) as tables:
                found = [(what, round(first, 6), round(end, 6), since, until) for what, first, end, since, until in tables.execute(
                    "SELECT what, from_km, to_km, from_time, to_time FROM changes ORDER BY from_time DESC")]
            self.assertEqual([len(found), *found[:2]], [7, ("200 cars/h", 0.45, 0.45, "2026-03-02 07:05+01:00", None), (
                "600 cars/h", -1.2, -1.2, "2026-03-02 07:04:27+01:00", None)])
            self.assertIn(("limit 54 km/h", 0.6, 0.75, "2026-03-02 07:04+01:00", "2026-03-02 07:06+01:00"), found)
            self.assertIn(("closed", -0.9, -0.855, "2026-03-02 07:01+01:00", "2026-03-02 07:03:20+01:00"), found)
            self.assertIn(("900 cars/h", -1.2, -1.2, "2026-03-02 06:56+01:00", None), found)
            server.stop()

    async def road(self, server: Server, *words: str) -> tuple[int, str]:
        process = await asyncio.create_subprocess_exec(
            sys.executable, str(LIVE / "road"), *words, stdout=asyncio.subprocess.PIPE, env={"LIVE": str(server.folder), "PATH": "/usr/bin:/bin"})
        out, _ = await process.communicate()
        return process.returncode or 0, out.decode().strip()

    async def test_the_shell_counts_from_km_0_and_minute_0(self) -> None:
        server = self.server(plan=KM)
        self.assertEqual(await self.road(server, "cron", "clock", "7:10"), (0, "the clock is at 07:10"))
        status, out = await self.road(server, "cron", "put", "close", "-0.9", "-0.855", "6:58", "-1")
        self.assertEqual((status, out.partition(" ")[2]), (0, "closed, km -0.9 to -0.855, 06:58 to 06:59"))
        async with server.seat() as ada:
            self.assertEqual((await ada.say("clock", to=LEAD + 600))["now"], LEAD + 600)
        shape, = (one["made"]["operation"]["shape"] for one in server.journal() if "made" in one)
        self.assertEqual(shape, ["block", 40, 45, 120, 180, 1])

    async def test_another_site_joins(self) -> None:
        """A site that begins with the same file has the same km, minute 0 and road, and adds nothing. A site with the plan alone has a different road."""
        broker = self.broker()
        one, other = (self.server("--broker", broker.address, plan=KM) for _ in range(2))
        async with one.seat() as ada, other.seat("Ben") as ben:
            put = await ada.ask("gesture", key="1", shape=["block", 40, 45, LEAD, LEAD + 60, 1])
            await ada.ask("send", name="shared")

            async def has_come() -> bool:
                held: Any = (await ben.ask("operations", at="shared"))["operations"]
                return put["stamp"] in [operation["stamp"] for operation in held]
            await until(has_come, "the change comes")
            self.check_welcome(ben.welcome)
            self.assertEqual(*[len((await seat.ask("operations", at="shared"))["operations"]) for seat in (ada, ben)])
            plan: dict[str, Any] = {**ada.welcome["plan"]}
            plan["replicas"] = ["A"]
        third = self.server("--broker", broker.address, plan=plan)
        async with third.seat("Cleo") as cleo, one.seat(**{"name": "Dora"}) as dora:
            async def is_heard() -> bool:
                news: Any = [one["broker"] for one in dora.received if "broker" in one]
                return any("another" in text for broker in news for text in broker["stays"]) or bool(await held())

            async def held() -> Any:
                return (await cleo.ask("operations", at="shared"))["operations"]
            await until(is_heard, "the other road is heard")
            self.assertEqual(await held(), [])


if __name__ == "__main__":
    unittest.main()
