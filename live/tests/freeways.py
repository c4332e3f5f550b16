"""Test the road of a new folder: from a plan line, from a freeway in km with its works, and from files that are neither."""
from __future__ import annotations

import asyncio
import json
import os
import random
import shutil
import subprocess
import sys
from pathlib import Path
from typing import Any, Mapping, Sequence

from crashes import numbers
from figures_told import at_inlets, mine, value
from server.shell.client import Seat
from server.figures.figures import sides_of
from server.figures.report import closures_of, demand_text, facts_of
from server.lab import new_road
from running import LIVE, PATIENCE, SMALL, Case, Server, end, new_folder, program, started, until
from zegdrut.base import METRES, Units
from zegdrut.base.wire import PlanLine, WrittenEdit
from zegdrut.roads import Clock

KM: dict[str, Any] = {
    "length": 1.5, "main": 900, "ramps": [], "minutes": 15, "stretch": [0.3, 0.6], "detectors": [0.75],
    "sections": [{"first": 0.9, "last": 1.2, "begin": 4, "end": 8, "limit": 54, "slowing": 0.4}, [1.05, 1.2, 5, 6, 27]],
    "stalled": [[0.6, 9, 10]]}
UNITS = Units(METRES, 1.0)


def value_at(edits: Sequence[WrittenEdit], plan: PlanLine, inlet: int, step: int) -> int:
    """Return the inflow chance of an inlet at a step, by a scenario's edits."""
    puts = sorted((since, value) for kind, index, since, _, _, value in edits
                  if (kind, index) == ("inflow", inlet) and since <= step and value is not None)
    return puts[-1][1] if puts else plan["inlets"][inlet][1]


class Freeways(Case):
    async def test_a_freeway_in_km_gives_the_road_of_the_recipe(self) -> None:
        """Compare its rows with those of the edits that the recipe makes from the same file. A capacity is one line of the list."""
        server = self.server(plan={**KM, "sections": [*KM["sections"], [0.3, 0.6, 2, 6, None, None, None, 900]]})
        async with server.seat() as ada:
            await ada.ask("take", message="shared")
            await ada.say("clock", to=900)
            await ada.ask("advance", to=900)
            rows = (await ada.ask("diagram", **{"from": 0, "to": 900}))["rows"]
            plan = ada.welcome["plan"].copy()
            plan["replicas"] = ["A"]
            lines = (await ada.ask("layers", at="shared", **{"from": 0}))["layers"]
            self.assertEqual({line["who"] for line in lines}, {"road file"})
            self.assertEqual([line["kind"] for line in lines], ["inflow", "limit", "slow", "limit", "capacity", "block"])
            self.assertEqual([one["name"] for one in (await ada.say("seats"))["seats"]], ["Ada"])
        puts = self.of_recipe(server.folder / "plan.json").edits
        script: list[Mapping[str, object]] = [plan, *({"edit": {"at": "A", "object": [kind, index], "step": step, "value": value}}
                          for kind, index, step, value in puts),
                  {"advance": {"at": "A", "to": 900}}, {"diagram": {"at": "A", "from": 0, "to": 900}}]
        ran = subprocess.run([program()], input="".join(json.dumps(line) + "\n" for line in script).encode(),
                             stdout=subprocess.PIPE, check=True)
        self.assertEqual(rows, json.loads(ran.stdout.splitlines()[-1])["rows"])
        self.assertTrue(any("#" in row for row in rows) and plan["inlets"][0][1] > 0)
        async with server.seat("Eve") as eve:  # each new seat's road has the works from the start
            roads = [numbers((await eve.ask("scenario", at=at))["edits"]) for at in (eve.at, "shared")]
            self.assertEqual(roads[0], roads[1])
            self.assertEqual((await eve.ask("take", message="shared"))["size"], 0)
        # The same file starts the same road again, at once; a different file is refused.
        server.stop()
        server.start()
        self.assertNotIn("another plan", server.said())
        async with server.seat("Cleo") as cleo:
            shared = (await cleo.ask("operations", at="shared"))["operations"]
            self.assertTrue(shared)
            self.assertIsNone((await cleo.ask("layers"))["undo"])  # otherwise they would count as hers
        server.stop()
        (server.folder / "plan.json").write_text(json.dumps({**KM, "main": 800}), encoding="utf-8")
        server.start()
        self.assertIn("has another road than", server.said())

    async def test_values_for_the_whole_road_stay_in_force_after_the_last_minute(self) -> None:
        """The file has 15 minutes. Its last demand, its drivers and their slow-to-start chance stay; the server says when a demand
        that changes over time ends. It also does so if the demand is in a CSV file, which the folder does not have."""
        folder = new_folder()
        file = folder / new_road.FREEWAY_FILE
        for text, end in ((json.dumps({**KM, "main": {"csv": "demand.csv", "column": "main"}}), 120 + 900), (json.dumps({"main": 900, "ramps": []}), None),
                          ('{"begin": "6:30"}', None), ("[]", None), ('{"ramps": 3}', None), ("{", None)):
            file.write_text(text, encoding="utf-8")
            self.assertEqual(new_road.find_profile_end(folder, 120), end, text)
        for main, end in (([["7:00", 900], ["7:05", 600]], 900), (900, None)):
            server = self.server(plan={**KM, "main": main, "start": 0.4, "begin": "07:00"})
            async with server.seat() as ada:
                self.assertEqual(ada.welcome["demand_end"], end)
                edits = (await ada.ask("scenario", at="shared"))["edits"]
                self.assertIn("start", {kind for kind, *_ in edits})
                self.assertLess(max(step for _, _, step, *_ in edits), 900)
                chances = [value_at(edits, ada.welcome["plan"], 0, step) for step in (0, 299, 300, 899, 900, 5_000)]
                self.assertEqual(chances[3:], [chances[2]] * 3)
                self.assertEqual(chances[1] > chances[2], end is not None)

    async def test_demand_and_clock_are_those_of_the_file(self) -> None:
        """900 cars an hour, 600 from 7:05 on, and 200 at an on-ramp are admitted to within half a per cent, and the curve that
        the page asks for gives the ramp's demand back."""
        server = self.server(plan={**KM, "main": [["7:00", 900], ["7:05", 600]], "ramps": [[0.45, 200]], "begin": "07:00",
                                   "date": "2026-03-02", "timezone": "Europe/Berlin"})
        async with server.seat() as ada:
            self.assertEqual(ada.welcome["day"], {"begin": 25_200, "date": "2026-03-02", "zone": "Europe/Berlin"})
            await ada.say("clock", to=900)
            said = await ada.ask("figures", of=mine(1), **{"from": 0, "to": 900})
            wanted = [900 * 300 / 3_600 + 600 * 600 / 3_600, 200 * 900 / 3_600]
            self.assertEqual(at_inlets(said, "after", "demand"), wanted)
            edits = (await ada.ask("scenario", at="shared"))["edits"]
            plan = ada.welcome["plan"]
            for step, _ in ((0, 900), (300, 600)):
                main, ramp = (value_at(edits, plan, inlet, step) for inlet in (0, 1))
                curve = await ada.say("admission", inlet=1, start=None, before=[[0, main]])
                (low, less), (high, more) = next((one, other) for one, other in zip(curve["points"], curve["points"][1:])
                                                 if one[0] <= ramp <= other[0])
                self.assertAlmostEqual(less + (more - less) * (ramp - low) / (high - low), 200, delta=2)
            await ada.ask("advance", to=900)
            self.assertRegex((await ada.ask("csv", what="counts", each=300, **{"from": 0, "to": 900}))["csv"],
                             r"^# counts of the road of Ada, plan\.json, 2026-03-02, 07:00 to 07:15, per lane\nfrom,to,detector,km,cars,.*\n07:00,07:05,0,0.75,")
            for inlet, before in ((2, []), (0, [[5, 1]]), (0, [[0, 70_000]]), (0, [[1, 9]]), (1, [[1, 9]]), (1, [[0, 9], [0, 8]])):
                said = await ada.reply("admission", inlet=inlet, start=None, before=before)
                self.assertEqual(said["refused"], "Range")

    async def test_no_driver_is_slowed_at_an_inlet_with_a_large_demand(self) -> None:
        """1,750 cars an hour are more than an inlet with slowed drivers admits, so nobody is slowed on the first 0.3 km. The
        demand is that of the file, also at an on-ramp."""
        server = self.server(plan={**KM, "slowing": 0.2, "main": 1_750, "ramps": [[0.6, 40]], "stalled": []})
        async with server.seat() as ada:
            plan = ada.welcome["plan"]
            self.assertEqual((plan["zone"], [slow for _, slow in plan["zones"]][:3]), (20, [0, 0, 13_107]))
            await ada.say("clock", to=900)
            said = await ada.ask("figures", of=mine(1), **{"from": 0, "to": 900})
            self.assertEqual(at_inlets(said, "after", "demand"), [1_750 / 4, 40 / 4])
            curve = await ada.say("admission", inlet=1, start=None, before=[[0, plan["inlets"][0][1]]])
            (low, less), (high, more) = next((one, other) for one, other in zip(curve["points"], curve["points"][1:])
                                             if one[0] <= plan["inlets"][1][1] <= other[0])
            self.assertAlmostEqual(less + (more - less) * (plan["inlets"][1][1] - low) / (high - low), 40, delta=1)

    def test_a_report_gives_the_peak_of_a_demand_with_many_values(self) -> None:
        """A report lists all of ten values. Of fifty values it gives their range, and the time from which the largest applies."""
        clock = Clock(25_200)
        said = demand_text([(300 * place, 400 + 10 * place) for place in range(10)], clock, 9_000)
        self.assertRegex(said, r"^400 from 07:00, 410 from 07:05, .*, 490 from 07:45 cars/h$")
        self.assertEqual(demand_text([(60 * place, 400 + 90 * place % 7) for place in range(50)], clock, 3_000),
                         "400 to 406 cars/h, with the peak from 07:01 on")

    def test_the_facts_of_a_report_have_the_drivers_and_the_places_of_inlets(self) -> None:
        """The drivers are those of step 0 on the first road. Cars of the main road enter at the head of the approach, if there is one."""
        starts: list[WrittenEdit] = [("start", zone, 0, zone + 1, 64, 32_768) for zone in range(1, 6)]
        later: list[WrittenEdit] = [("start", 2, 60, 7, 64, 0), ("start", 0, 0, 8, 64, 6_554)]
        roads = [{"name": name, "edits": edits, "demands": [[(0, 900.0), (30, 600.0)], [(0, 200.0)]]}
                 for name, edits in (("a", [*starts, later[0]]), ("b", [*starts, *later]))]
        for origin, main in ((0, "main road"), (20, "main road at km -0.15")):
            compared: Any = {"plan": SMALL, "roads": roads, "first": 0, "last": 120, "program": str(program()), "origin": origin}
            length, *_, first, second = facts_of(compared, sides_of(compared), Clock(25_200))
            self.assertTrue(length.endswith("one lane, limit 135 km/h, slowing 10%, slow-to-start 50%"), length)
            self.assertEqual((first, second), (f"{main}: 900 from 07:00, 600 from 07:00:30 cars/h",
                                               f"on-ramp at km {(40 - origin) * 0.0075:g}: 200 cars/h"))

    def test_the_closures_of_a_report_are_the_closed_cells(self) -> None:
        """Draw random closures cell by cell and second by second, and compare them with those of the report; a cell has 7.5 m."""
        chance, last = random.Random(1), 30
        for _ in range(100):
            closed = set[tuple[int, int]]()
            for _ in range(3):
                first, begin = chance.randrange(9), chance.randrange(40)
                closed ^= {(cell, step) for cell in range(first, first + 4) for step in range(begin, begin + chance.choice([9, 60]))}
            edits: dict[tuple[str, int, int], int | None] = {
                ("block", cell, step): int((cell, step) in closed) for cell in range(13) for step in range(50)
                if ((cell, step) in closed) != ((cell, step - 1) in closed)}
            closures = closures_of(edits, last, UNITS)
            self.assertTrue(all(begin < last for begin, *_ in closures))
            found = [(cell, step) for begin, end, low, high in closures
                     for cell in range(round(low / 0.0075), round(high / 0.0075)) for step in range(begin, min(end, last))]
            self.assertEqual(sorted(found), sorted((cell, step) for cell, step in closed if step < last))
        one: dict[tuple[str, int, int], int | None] = {("block", cell, step): int(step < 9) for cell in (4, 5, 6) for step in (5, 9)}
        self.assertEqual(closures_of({**one, ("limit", 4, 5): 1}, last, UNITS), [(5, 9, 0.03, 0.0525)])
        self.assertEqual(closures_of(one, last, UNITS._replace(origin=8)), [(5, 9, -0.03, -0.0075)])  # before km 0

    async def test_each_curve_of_an_inlet_is_measured_once(self) -> None:
        """Ask for one curve twice, from two tabs, and once more after a restart. The folder keeps it in a line of a file, even if
        the file has a line that was not written whole."""
        server = self.server()
        asked: dict[str, Any] = {"inlet": 0, "start": None, "before": []}
        path = server.folder / "admissions.jsonl"
        async with server.seat() as ada, server.seat("Ben") as ben:
            curve, other = await asyncio.gather(ada.say("admission", **asked), ben.say("admission", **asked))
            self.assertEqual(curve["points"], other["points"])
        (key, kept), = map(json.loads, path.read_text(encoding="ascii").splitlines())
        self.assertEqual(kept, {"points": curve["points"], "capacity": curve["capacity"]})
        path.write_text(f'{json.dumps([key, {**kept, "capacity": 1_234.5}])}\n["half", {{"poi', encoding="ascii")
        server.restart()
        async with server.seat("Cleo") as cleo:
            again = await cleo.say("admission", **asked)
            self.assertEqual((again["points"], again["capacity"]), (curve["points"], 1_234.5))

    async def test_each_demand_is_the_one_that_was_asked_for(self) -> None:
        """Compare lists and figures with the demand of the file and with the demands that people put and change: on the own road,
        on the shared road and in a preview, before and after a restart. Demands are rounded. Only for a chance that was put without a
        demand is the demand measured."""
        ramp = [["7:00", 200], ["7:10", 310.5]]
        server = self.server(plan={**KM, "main": [["7:00", 900], ["7:05", 600.25]], "ramps": [[0.45, ramp]], "begin": "07:00", "sections": []})
        window = {"from": 0, "to": 900}
        main, of_file = 175.0, 59.25

        async def demands(seat: Seat, *of: str) -> list[list[float]]:
            said = await seat.ask("figures", of=of or ["shared", seat.at], **window)
            for side in ("before", "after"):
                asked, came = at_inlets(said, side, "demand"), at_inlets(said, side, "admitted")
                for lost, one, other in zip(at_inlets(said, side, "lost"), asked, came):
                    self.assertAlmostEqual(lost, one - other, delta=2 * one ** 0.5 + 3)
            return [[round(asked, 6) for asked in at_inlets(said, side, "demand")] for side in ("before", "after")]

        async with server.seat() as ada, server.seat("Ben") as ben:
            await ada.say("clock", to=900)
            lines = (await ada.ask("layers", **{"from": 0}))["layers"]
            planned = [(line["shape"], line["demand"]) for line in lines if line.get("planned")]
            self.assertEqual([(shape[1], shape[3], demand) for shape, demand in planned if shape],
                             [(0, 0, 900), (0, 300, 600), (1, 0, 200), (1, 300, 200), (1, 600, 311)])
            self.assertEqual([line["kind"] for line in lines if "demand" not in line], ["block"])
            self.assertEqual(await demands(ada), 2 * [[main, of_file]])
            said = await ada.reply("gesture", at=ada.at, key="no", shape=["limit", 0, 0, 0, None, 2], demand=100)
            self.assertEqual(said["refused"], "not a command")
            # 100 cars an hour from 7:05 to 7:10; then to 7:15, by its times alone; each as if the chance were that for 100 cars an hour.
            put = await ada.ask("gesture", key="1", note="", shape=["inflow", 1, 1, 300, 600, 3_000], demand=100)
            self.assertEqual((await demands(ada))[1], [main, 50.916_667])
            line = {"layer": put["stamp"]}
            await ada.ask("gesture", key="2", note="", shape=["inflow", 1, 1, 300, 900, 3_000], **line)
            asked = [main, 33.333_333]
            self.assertEqual(await demands(ada), [[main, of_file], asked])
            await ada.ask("preview", what="share")
            self.assertEqual(await demands(ada, "before", "after"), [[main, of_file], asked])
            await ada.ask("send", name="shared")
            await ben.ask("take", message="shared")
            self.assertEqual(await demands(ben), 2 * [asked])
            again = await ben.ask("gesture", key="3", note="", shape=["inflow", 1, 1, 300, 900, 4_000], **line)
            self.assertNotIn("demand", next(one for one in again["layers"] if one["name"] == put["stamp"]))
            ramp_asked = (await demands(ben))[1][1]
            self.assertLess(abs(ramp_asked - 200 / 12 - 4_000 / 65_536 * 600), 5)  # what that chance admits, a little less than all
            await ben.ask("undo", key="4", stamp=again["stamp"])
            self.assertEqual(await demands(ben), 2 * [asked])
            days = await ada.ask("days", of=mine(1), **window)
            self.assertLess(abs(value(days, "after", "lost")), 30)
            html = (await ada.ask("report", of=mine(1), title="A road", works=[], **window))["html"]
            self.assertRegex(html, "main road: 900 from 07:00, 600 from 07:05")
            self.assertRegex(html, "<svg[^>]*>.{0,400}Demand.{0,4000}on-ramp at km 0.45")
            self.assertRegex(html, "on-ramp at km 0.45: 200 from 07:00, 100 from 07:05")
        server.restart()
        async with server.seat("Cleo") as cleo:
            self.assertEqual(await demands(cleo), [asked, [main, of_file]])  # she has not taken it

    async def test_a_freeway_that_was_only_partly_set_up_is_set_up_again(self) -> None:
        """Here the server was killed before the works were shared."""
        folder, keys = new_folder(), dict[Path, dict[str, str]]()
        (folder / "token").write_text("a-token-of-24-characters")
        (folder / "stalled").write_text("journal.jsonl")
        (folder / "road.json").write_text(json.dumps(KM), encoding="utf-8")
        process = started([sys.executable, str(LIVE / "tests" / "stalling.py"), "--folder", str(folder), "--port", "0",
                           str(folder / "road.json")], stdout=subprocess.PIPE)
        self.addCleanup(end, process)

        async def is_begun() -> bool:
            path = folder / "journal.jsonl"
            return path.exists() and b'{"lab":' in path.read_bytes()
        await until(is_begun, "the plan is written")
        end(process)
        (folder / "stalled").unlink()
        shutil.copytree(folder, other := new_folder() / "other")
        for place, plan, lines in ((folder, KM, 5), (folder, KM, 5), (other, SMALL, 0), (other, SMALL, 0)):
            server = Server(place, plan)
            self.addCleanup(end, server.process)
            async with server.seat(**keys.get(place, {})) as ada:
                keys[place] = {"key": ada.key}
                self.assertEqual(len((await ada.ask("layers", at="shared", **{"from": 0}))["layers"]), lines)
            server.stop()

    async def test_a_file_may_have_any_name(self) -> None:
        """Even if the name is not valid text: then the page shows the characters that it can show."""
        folder = new_folder()
        path = os.fsencode(folder) + b"/r\xff d.json"
        with open(path, "w", encoding="utf-8") as file:
            json.dump(KM, file)
        process = started([str(LIVE / "serve"), "--folder", str(folder / "new"), "--port", "0", os.fsdecode(path)],
                          stdout=subprocess.PIPE, text=True)
        self.addCleanup(end, process)
        assert process.stdout is not None
        async with asyncio.timeout(PATIENCE):
            address = await asyncio.get_running_loop().run_in_executor(None, process.stdout.readline)
        async with Seat(address, name="Ada") as ada:
            lines = (await ada.ask("layers", at="shared", **{"from": 0}))["layers"]
            self.assertEqual((len(lines), ada.welcome["road"]), (5, "r\ufffd d.json"))

    def of_recipe(self, path: Path) -> Any:
        """Return the recipe's road in cells and steps."""
        from zegdrut.roads import FIGURES, make_road
        return make_road(FIGURES.override(path))

    def test_an_unreadable_file_is_refused_and_leaves_nothing(self) -> None:
        free: dict[str, Any] = {**KM, "main": 0}
        for text, said in (
                ("", "is neither a plan line nor a freeway in km"), ("[1]", "it is not a JSON object"),
                ('{"length": 3}', "has no sections"), (json.dumps({**free, "lanes": 3}), "unknown field 'lanes': the fields are"),
                (json.dumps({**free, "ramps": [[7, 100]]}), "the ramp at 7 km is not on the road"),
                (json.dumps({**free, "sections": [[1, 0.9, 4, 8, 54]]}), "it must begin before it ends"),
                (json.dumps({**free, "sections": [[0.9, 1.2, -4, 8, 54]]}), "minute -4 to 8: it must begin before it ends"),
                (json.dumps({**SMALL, "words": "\ud800"}), "is neither a plan line"), (json.dumps({**SMALL, "length": 1e400}), "is neither a plan line"),
                (json.dumps({**SMALL, "zones": [[12, 0]]}), "the program refuses the plan")):
            folder = new_folder()
            (folder / "road.json").write_text(text, encoding="utf-8")
            ran = subprocess.run([LIVE / "serve", "--folder", folder / "new", "--port", "0", folder / "road.json"],
                                 stdout=subprocess.PIPE, stderr=subprocess.PIPE, text=True, timeout=100, check=False)
            self.assertEqual(ran.returncode, 1, ran.stderr)
            self.assertIn("live/serve: ", ran.stderr.splitlines()[-1])
            self.assertIn(said, ran.stderr.splitlines()[-1])
            self.assertNotIn("Traceback", ran.stderr)
            self.assertEqual([path.name for path in folder.iterdir()], ["road.json"], said)

    def test_a_folder_that_existed_before_is_not_removed(self) -> None:
        folder = new_folder()
        (folder / "mine").write_text("kept", encoding="utf-8")
        ran = subprocess.run([LIVE / "serve", "--folder", folder, "--port", "0", folder / "none.json"],
                             stderr=subprocess.PIPE, text=True, timeout=100, check=False)
        self.assertIn("cannot read the road from", ran.stderr)
        self.assertEqual((folder / "mine").read_text(encoding="utf-8"), "kept")
