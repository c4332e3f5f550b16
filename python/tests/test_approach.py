"""Put an approach before a road, and compare it with a road without one and with a longer road."""
from __future__ import annotations

import contextlib
import csv
import dataclasses
import io
import json
import math
import re
import tempfile
import unittest
from pathlib import Path
from typing import Callable, Sequence

from zegdrut import Fault, Plan, RoadLab
from zegdrut.commands import delay, freeway, report
from zegdrut.commands.measured import draw_space_time, find_places
from zegdrut.commands.metering import Control, make_minute_table, make_site, run_again, run_day as simulate_metered_day
from zegdrut.figures import Trips, Window, count_admitted_cars
from zegdrut.figures.queues import run_day
from zegdrut.figures.waiting import ask_edits, find_narrow_zone, make_waiting_roads
from zegdrut.measurements import Measured, Station, list_segments, make_model
from zegdrut.measurements.counts_on_road import Series
from zegdrut.measurements.goodness_of_fit import simulate_day
from zegdrut.program import read_script
from zegdrut.roads import FIGURES, Figures, Section, Stalled, make_road, make_script, measure_chances
from zegdrut.roads.road_in_cells import Road, warm_up_minutes, with_lead

CELLS_A_KM = 1_000 / 7.5
PLAIN = dataclasses.replace(FIGURES, length=1.5, limit=135, slowing=0.2, main=900, ramps=[], sections=[], stalled=[], detectors=[], stretch=(0.3, 1.2),
                            minutes=20, entry=0.0)


def run_command(main: Callable[[Sequence[str]], int], *words: object) -> str:
    """Run a command, which must end well. Return what it prints."""
    with contextlib.redirect_stdout(io.StringIO()) as printed, contextlib.redirect_stderr(io.StringIO()) as said:
        status = main([str(word) for word in words])
    assert status == 0, said.getvalue()
    return printed.getvalue()


class Cells(unittest.TestCase):
    def test_places_and_times(self) -> None:
        """An approach of 3 km, which are 400 cells, moves all cells and zones of a road of 3 km. Zones of 50 cells fit its works. A free car drives 4.8
        cells a step, so the main demand enters 83 steps before it reaches km 0. The run begins 5 minutes earlier: 800 / 4.8 s and two minutes."""
        plain = dataclasses.replace(
            PLAIN, length=3, begin="07:00", main=[(0, 500), (10, 700)], ramps=[(0.75, [(0, 100), (5, 200)])], start=0.5, detectors=[0.375, 1.5],
            stalled=[Stalled(2.4, 10, 12)], sections=[Section(2.25, 2.625, 0, 15, limit=54, slowing=0.5)])
        figures = with_lead(dataclasses.replace(plain, approach=3.0))
        road, before = make_road(figures), make_road(plain)
        self.assertEqual((road.approach, road.lead, road.early, road.length, road.zone, road.zones), (400, 300, 83, 800, 50, 16))
        self.assertEqual(road.inlets, [(0, [(0, 500), (900 - 83, 700)]), (500, [(0, 100), (600, 200)])])
        self.assertEqual(road.detectors, [cell + 400 for cell in before.detectors])
        self.assertEqual(sorted(road.edits), sorted(
            (kind, index + (400 if kind == "block" else 8), step + 300 if step else 0, value) for kind, index, step, value in before.edits))
        self.assertEqual([one[1] for one in road.base_edits], [*range(16)])
        self.assertEqual(([road.to_km(cell) for cell in (0, 400, 500, 800)], road.units.place(500)), ([-3, 0, 0.75, 3], "km 0.75"))
        self.assertEqual([road.format_time(step) for step in (0, 300, 900)], ["06:55", "07:00", "07:10"])
        self.assertEqual(make_road(with_lead(dataclasses.replace(figures, lead=0, minutes=20, begin=None))).format_time(900), "minute 10")
        self.assertEqual(with_lead(plain), plain)
        # At 135 km/h a car needs 7.1 minutes for an approach of 10 km and a road of 6 km. A report begins twice as early.
        self.assertEqual(warm_up_minutes(dataclasses.replace(PLAIN, length=6, approach=10)), 15)
        self.assertEqual(road.notes, [])

    def test_a_demand_that_changes_before_the_first_cars_reach_km_0(self) -> None:
        """Let cars enter as many steps earlier as they need to km 0. What changes before the first of them are there is in force from the beginning, and
        each step has the demand that is at km 0 that much later."""
        demand = [(0, 500), (0.5, 600), (1, 700), (2, 800), (9, 400)]
        road = make_road(dataclasses.replace(PLAIN, length=3, approach=3.0, main=demand))
        self.assertEqual(road.early, 83)
        (_, rates), = road.inlets
        for step in range(600):
            wanted = [cars for minute, cars in demand if minute * 60 <= step + 83][-1]
            self.assertEqual([cars for begin, cars in rates if begin <= step][-1], wanted)
        self.assertEqual(rates, [(0, 700), (37, 800), (457, 400)])

    def test_the_entry_is_at_the_head(self) -> None:
        """Nobody is slowed at the head of the approach, where cars enter."""
        road = make_road(dataclasses.replace(PLAIN, approach=1.5, entry=0.3))
        self.assertEqual((road.zone, road.approach, road.entry, road.drivers.entry), (40, 200, 1, 40))
        self.assertEqual([road.find_slowing(zone) for zone in (0, 1, 5, 9)], [0, *[13_107] * 3])
        self.assertEqual(road.notes, ["nobody is slowed on the first 0.3 km of the approach (`entry`), so that the inlet admits up to 1,800 cars per hour"])

    def test_the_longest(self) -> None:
        """Zones of 0.1 km, which are 13 cells, make 62 of a road of 6 km, and leave two. Zones of 0.5 km, which are 67 cells, leave 52. Without a width
        the 8,192 cells leave what is not the road: 7,392. Zones become wide enough for the approach, and fit the works."""
        for zone, approach, least in ((0.1, 0.3, 0.195), (0.5, 27, 26.13), (None, 55.5, 55.44)):
            with self.assertRaises(Fault) as found:
                make_road(dataclasses.replace(PLAIN, length=6, zone=zone, approach=approach))
            zones = "" if zone is None else f" with zones of {zone:g} km"
            self.assertEqual(str(found.exception), f"approach {approach:g} km is too long: a road of 6 km{zones} leaves {least:g} km, because approach and "
                             f"road together have at most 64 zones and 8,192 cells: use at most {least:g} km" + ("" if zone is None else ", or use wider zones"))
            make_road(dataclasses.replace(PLAIN, length=6, zone=zone, approach=least))
        # With zones of 54 cells a road of 810 cells has 15 zones, and leaves 49, which are 19.845 km.
        rounded = make_road(dataclasses.replace(PLAIN, length=6.075, zone=0.405, approach=20))
        self.assertEqual((rounded.zones, rounded.approach), (64, 2_646))
        self.assertIn("an approach of 20 km: rounded to 19.845 km", rounded.notes)
        for length, approach, works in ((6, 10, (3, 3.5)), (2, 0.1, (1, 1.2)), (20, 40, (5, 5.1)), (60, 0.9, (1, 2)), (1.6, 50, (0.3, 0.4))):
            road = make_road(dataclasses.replace(PLAIN, length=length, approach=approach, sections=[Section(*works, 0, 10, limit=54)]))
            self.assertTrue(road.zones <= 64 and road.length <= 8_192 and road.approach and road.approach % road.zone == 0, road)
            self.assertLessEqual(abs(road.approach - approach * CELLS_A_KM), road.zone / 2 if approach > 0.2 else road.zone)
            zones = {index for _, index, _, _ in road.edits}
            places = road.to_km(min(zones) * road.zone), road.to_km((max(zones) + 1) * road.zone)
            self.assertLess(max(abs(one - other) for one, other in zip(places, works)), road.zone / CELLS_A_KM)
        with self.assertRaisesRegex(Fault, "leaves 0 km, .* 8,192 cells: leave it out$"):
            make_road(dataclasses.replace(PLAIN, length=61, approach=0.4))
        # Of the widths up to 200 cells that leave at most 64 zones, 43 fits 1,333 cells best.
        self.assertEqual(find_narrow_zone(1_333, [dataclasses.replace(PLAIN, length=6, approach=10)]), 43)

    def test_zones_before_which_cars_can_wait(self) -> None:
        """They have at most 200 cells. 160 cells fit an approach of 320 cells; the road alone would take 200. 17 cells fit an approach of 3,587
        cells, but make more than 64 zones: 22 zones of 163 cells are one cell less."""
        figures = dataclasses.replace(PLAIN, length=3, approach=2.4)
        self.assertEqual(make_road(figures).zone, 320)
        (road,) = make_waiting_roads([figures])
        self.assertEqual((road.zone, road.approach, road.length), (160, 320, 720))
        self.assertEqual(find_narrow_zone(400, [dataclasses.replace(PLAIN, length=6, approach=26.9025)]), 163)

    def test_what_is_not_on_the_road(self) -> None:
        """The road begins at km 0, and nothing of it may be on the approach. A detector may stand at km 0."""
        road = dataclasses.replace(PLAIN, approach=1.5)
        self.assertEqual(make_road(dataclasses.replace(road, detectors=[0])).detectors, [200])
        for what in ({"detectors": [-0.5]}, {"ramps": [(-0.5, 100)]}, {"stalled": [Stalled(-0.5, 0, 5)]}):
            with self.assertRaises(Fault) as found:
                make_road(dataclasses.replace(road, **what))  # type: ignore[arg-type]
            self.assertIn("-0.5 km is not on the road: 0 to 1.485 km", str(found.exception))


def simulate(figures: Figures, seeds: Sequence[int], works: bool = False) -> tuple[Road, list[list[str]]]:
    """Return the road and its rows with each seed. Cars that cannot enter are lost."""
    road = make_road(with_lead(figures))
    chances, found = measure_chances(road), []
    for seed in seeds:
        script = make_script(road, chances, seed, works)
        with RoadLab(script.plan) as lab:
            ask_edits(lab, script.commands)
            lab.advance("A", road.steps)
            found.append(lab.diagram("A", 0, road.steps))
    return road, found


class Traffic(unittest.TestCase):
    def test_a_road_without_an_approach(self) -> None:
        """Counts at km 0.3 in each five minutes of a rising demand, and vehicle hours from km 0.3 on, are those of a road without an approach, which is
        4 km long. Cars pass a cell if they are in front of it and were behind it a step before. They need 110 s for the approach."""
        figures = dataclasses.replace(PLAIN, minutes=25, main=[(0, 400), (10, 1_100), (20, 300)])
        seeds, counts, hours = range(1, 9), [], []
        for one in (figures, dataclasses.replace(figures, approach=4.0)):
            road, days = simulate(one, seeds)
            place = road.to_cell(0.3)
            passed = [0] * 5
            for rows in days:
                for step in range(road.lead, road.steps):
                    seen = [(ahead, int(sign)) for ahead, sign in enumerate(rows[step + 1][place:place + 9]) if sign.isdigit()]
                    passed[(step - road.lead) // 300] += sum(speed > ahead for ahead, speed in seen)
            counts.append(passed)
            hours.append(sum(len(row[place:]) - row[place:].count(".") for rows in days for row in rows[road.lead + 300:]) / 3_600)
        for before, after in zip(counts[0][1:], counts[1][1:]):
            self.assertLess(abs(before - after), 3 * math.sqrt(before + after), counts)
        self.assertLess(abs(hours[0] / hours[1] - 1), 0.06, hours)

    def test_a_ramp_at_km_0(self) -> None:
        """Its chance admits its demand in the first cell after the approach."""
        road = make_road(dataclasses.replace(PLAIN, approach=0.6, ramps=[(0.0, 300)], minutes=600))
        self.assertEqual([cell for cell, _ in road.inlets], [0, 80])
        run = run_day(make_script(road, measure_chances(road), 5), None, Window(0, road.steps))
        self.assertAlmostEqual(count_admitted_cars(run.trips, run.window)[1], 3_000, delta=3 * math.sqrt(3_000))

    def test_a_queue(self) -> None:
        """A closure whose queue is longer than the road costs as many vehicle hours with an approach as on a road that is longer from the beginning,
        where nobody needs to wait before it, and as a queue before the road, but many more than without any. The delay is the sum of the cars in all rows, after minus before."""
        figures = dataclasses.replace(PLAIN, slowing=0.16, start=0.45, main=1_000, minutes=45, stalled=[Stalled(1.0, 5, 25)])
        longer = dataclasses.replace(figures, length=7.5, stretch=(1, 2), stalled=[Stalled(7.0, 5, 25)])
        costs: list[list[float]] = []
        for one, waits in ((figures, False), (figures, True), (dataclasses.replace(figures, approach=6.0), False), (longer, False)):
            road = make_road(with_lead(one))
            chances = measure_chances(road)
            costs.append([])
            for seed in (1, 2, 3):
                scripts = [make_script(road, chances, seed, works) for works in (False, True)]
                runs = [run_day(script, scripts[0] if waits else None, Window(road.lead, road.steps), detectors=[], origin=road.approach)
                        for script in scripts]
                costs[-1].append((sum(runs[1].by_arrival.cars) - sum(runs[0].by_arrival.cars)) / 3_600)
        lost, waited, approached, true = (sum(days) / 3 for days in costs)
        self.assertLess(lost, 0.6 * true, costs)
        self.assertLess(abs(approached / true - 1), 0.08, costs)
        self.assertLess(abs(waited / true - 1), 0.25, costs)


class Measurements(unittest.TestCase):
    def test_stations(self) -> None:
        """Stations keep their km on a road with an approach, and their counts are those of its cells. The run begins 5 minutes before the window:
        3 km at 135 km/h take 80 s, twice. The segments of the stations and the diagrams begin at km 0."""
        figures = dataclasses.replace(PLAIN, approach=1.5, slowing=0.0, begin="07:00", minutes=10)
        series = [Series(Station(name, km, 1), [50.0, 40.0], [90.0, 90.0]) for name, km in (("a", 0.0), ("b", 0.9), ("c", 1.2))]
        model = make_model("small", figures, Measured(figures.clock, 300, series, []))
        self.assertEqual((model.road.detectors[:2], model.warm, find_places(model)), ([320, 360], 300, {"b": "0.9", "c": "1.2"}))
        counts, _, rows, entered = simulate_day(model, 1, with_rows=True, with_entries=True)
        for place, cell in enumerate((320, 360)):
            passed = [sum(sign.isdigit() and ahead < int(sign) for ahead, sign in enumerate(row[cell:cell + 9])) for row in rows]
            self.assertEqual(counts[place][0].cars, sum(passed[1:301]))
            self.assertGreater(min(one.cars for one in counts[place]), 20)
        self.assertGreater(entered[0], 100)
        self.assertEqual([(one.first, one.last) for one in list_segments(model)], [(200, 260), (260, 340), (340, 360)])
        self.assertNotIn('text-anchor="end">-', draw_space_time(model, simulate_day(model, model.seed, with_rows=True).rows))

    def test_a_run_that_is_read_again(self) -> None:
        """The cars on the approach are counted again after an edit of the past."""
        plan = Plan(length=120, inlets=[(0, 20_000)], zones=[(5, 9_000)], words=4)
        with RoadLab(plan) as lab:
            lab.advance("A", 1_200)
            trips = Trips(lab.plan, [], origin=60)
            trips.follow(lab, "A", 1_200)
            lab.edit("A", ("block", 50), step=700, value=1)
            trips.rewind(700)
            trips.follow(lab, "A", 1_200)
            self.assertEqual(trips.on_approach, [sum(car.cell < 60 for car in lab.cars("A", step)) for step in range(1_201)])


class Commands(unittest.TestCase):
    def setUp(self) -> None:
        folder = tempfile.TemporaryDirectory()
        self.addCleanup(folder.cleanup)
        self.folder = Path(folder.name)

    def write_road(self, name: str, **fields: object) -> Path:
        path = self.folder / f"{name}.json"
        path.write_text(json.dumps({"length": 1.8, "limit": 135, "slowing": 0.2, "main": 700, "ramps": [[0.75, 100]], "sections": [], "entry": 0,
                                    "stalled": [[1.2, "07:02", "07:06"]], "detectors": [0.3, 1.05], "stretch": [0.3, 1.2], "minutes": 10,
                                    "begin": "07:00", **fields}), encoding="utf-8")
        return path

    def read_table(self, *names: str) -> list[list[str]]:
        return list(csv.reader((self.folder.joinpath(*names)).read_text(encoding="utf-8").splitlines()))

    def test_freeway_and_delay(self) -> None:
        """The tables have the km and the times of the road without an approach. The main demand enters before km 0. `delay` reads the place of km 0 and
        the step of minute 0, and shows hours before km 0 and from there on."""
        drivers = {"slowing": 0.2, "start": 0.4, "factor": 1.0, "delay": 5.0}
        calibration = {"delay": 5.0, "less": drivers, "more": drivers}
        for name, more in (("plain", {}), ("long", {"approach": 1.5, "calibration": calibration}), ("late", {"approach": 1.5, "begin": None, "stalled": [[1.2, 2, 6]]}),
                           ("wide", {"length": 3, "approach": 2.4})):
            run_command(freeway.main, self.write_road(name, **more), "--out", self.folder / name)
        for table, columns in (("counts.csv", 2), ("stretch.csv", 1)):
            self.assertEqual(*([line[:columns] for line in self.read_table(name, table)] for name in ("plain", "long")))
        before, after = ([line[:4] for line in self.read_table(name, "demand.csv")] for name in ("plain", "long"))
        self.assertEqual(after, [*before[:2], ["-1.5", *before[2][1:]], before[3]])
        self.assertEqual([line[1:2] for line in self.read_table("late", "counts.csv")][2:4], [["0"], ["1"]])
        self.assertEqual(self.read_table("late", "counts.csv")[6][2:], self.read_table("long", "counts.csv")[6][2:])
        self.assertEqual(json.loads((self.folder / "long" / "units.json").read_text()), {"metres": 7.5, "seconds": 1, "origin": 200, "begin": 240,
                                                                                             "clock": "07:00"})
        scripts = [self.folder / "long" / name for name in ("without.jsonl", "script.jsonl")]
        printed = list(csv.reader(run_command(delay.main, "--days", 2, "--out", self.folder, *scripts).splitlines()))
        rows = {row[0]: row for row in printed if row}
        self.assertEqual([*rows][2:5], ["vehicle hours from km 0 on", "vehicle hours before km 0", "vehicle hours on the road and before it"])
        self.assertIn("cars at km 1.05", rows)
        script, cells = read_script(str(scripts[0])), list[int]()
        zones = [read_script(str(self.folder / name / "script.jsonl")).plan["zone"] for name in ("long", "wide")]
        self.assertEqual(zones, [200, 160])  # (a queue needs zones of at most 1.5 km)
        for seed in (1, 2):
            with RoadLab({**script.plan, "words": seed}) as lab:
                ask_edits(lab, [line for line in script.commands if "edit" in line])
                lab.advance("A", 840)
                cells += [car.cell for step in range(241, 841) for car in lab.cars("A", step)]
        hours = [float(rows[title][1]) for title in ("vehicle hours from km 0 on", "vehicle hours before km 0")]
        self.assertEqual(hours, [round(sum(is_on_road is (cell >= 200) for cell in cells) / 2 / 3_600, 3) for is_on_road in (True, False)])
        run_command(delay.main, "--out", self.folder, *scripts)
        self.assertEqual([line[0] for line in self.read_table("delay.csv")][:7], ["# per lane", "time of entry", "06:56", "06:57", "06:58", "06:59", "07:00"])
        self.assertEqual([line[1] for line in self.read_table("inlets.csv")[1:]], ["at km", "-1.5", "0.75"])

    def test_live(self) -> None:
        """Live gets the cell at km 0 and the step at minute 0. Shapes are behind the approach and after the lead, and the main demand changes
        earlier than at km 0. Without an approach it gets neither, and places and steps of the road alone."""
        road: dict[str, object] = {"zone": 0.15, "sections": [[0.3, 0.6, "07:01", "07:03", 54]], "main": [["7:00", 700], ["7:05", 500]], "ramps": []}
        found = json.loads(run_command(freeway.main, "--plan", self.write_road("long", approach=1.5, **road)))
        self.assertEqual([found["origin"], found["lead"], found["plan"]["length"], found["plan"]["detectors"]], [200, 240, 440, [240, 340]])
        self.assertEqual(found["demands"], [[[0, 700], [240 + 300 - round(200 / 4.8), 500]]])
        self.assertEqual([shape[:5] for shape in found["shapes"]], [
            ["inflow", 0, 0, 498, None], ["limit", 12, 13, 300, 420], ["block", 360, 360, 360, 600]])
        plain = json.loads(run_command(freeway.main, "--plan", self.write_road("plain", **road)))
        self.assertEqual([*plain], ["plan", "shapes", "demands"])
        self.assertEqual([shape[:5] for shape in plain["shapes"]], [["inflow", 0, 0, 300, None], ["limit", 2, 3, 60, 180], ["block", 160, 160, 120, 360]])

    def test_report(self) -> None:
        """The diagrams of a report begin at km 0, or with --show-approach at the head of the approach. Hours before km 0 and from there on are apart."""
        road, out = self.write_road("long", approach=1.5), self.folder / "report.html"
        for words, marks in (((), ["0", "0.5", "1", "1.5", "1.8"]), (("--show-approach",), ["-1", "0", "1", "1.8"])):
            run_command(report.main, road, "--days", 1, "--out", out, *words)
            page = out.read_text(encoding="utf-8")
            (field, *_) = re.findall(r'<svg [^>]*class="field".*?</svg>', page)
            self.assertEqual([mark for mark in re.findall(r'text-anchor="end">([^<]*)<', field) if ":" not in mark], marks)
            self.assertIn("approach of 1.5 km before km 0, where cars enter", page)
            self.assertIn("Flow, km 0.3</text>", page)
        rows = {row[0]: row for row in self.read_table("figures-long-0700-0710.csv")[1:]}
        self.assertLess(0, float(rows["vehicle hours before km 0"][1]))
        self.assertAlmostEqual(float(rows["vehicle hours before km 0"][1]) + float(rows["vehicle hours from km 0 on"][1]),
                               float(rows["vehicle hours on the road and before it"][1]))
        self.assertEqual({row[0] for row in self.read_table("series-long-0700-0710.csv")[2:]}, {"0.3", "1.05"})

    def test_metering(self) -> None:
        """The minutes of a metered day begin at minute 0, and metering starts at its time."""
        figures = FIGURES.override(self.write_road("long", approach=1.5, ramps=[[0.6, 300]], stalled=[]))
        with contextlib.redirect_stderr(io.StringIO()):
            site = make_site("long", figures, Control(ramp=0.6, detector=0.9, setpoint=8.0, begin=120))
        self.assertEqual((site.road.lead, site.road.inlets[1][0], site.cell), (240, 280, 320))
        plain, day = simulate_metered_day(site, 1)
        self.assertEqual([metered.rates for metered in run_again(site, 1, 120)], [plain.rates, day.rates])
        rows = make_minute_table(site, [plain, day])[1:]
        self.assertEqual([row[0] for row in rows], [f"07:0{minute}" for minute in range(10)])
        self.assertEqual([bool(row[4]) for row in rows], [minute >= 2 for minute in range(10)])
        self.assertEqual(day.run.window, Window(240, 840))


if __name__ == "__main__":
    unittest.main()
