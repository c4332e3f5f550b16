"""Meter a ramp, and compute the control and its tables in a second way."""
from __future__ import annotations

import contextlib
import csv
import dataclasses
import importlib.machinery
import importlib.util
import io
import json
import math
import os
import signal
import subprocess
import sys
import tempfile
import unittest.mock
from pathlib import Path

from checked import Checked
from zegdrut import Plan, RoadLab
from zegdrut.roads import FIGURES
from zegdrut.commands.metering import (
    Control, Metered, Site, compare_runs, explain_queues, make_site, open_day, run_again, run_metered)
from zegdrut.commands.report import Request, make_sides
from zegdrut.figures import measure_day
from zegdrut.measurements import Measured, Station, make_model
from zegdrut.measurements.counts_on_road import Series
from zegdrut.roads import Controller, View, make_road, run_control
from zegdrut.roads.demand import QUICK
from zegdrut.roads.road_in_cells import widen_inlet
from zegdrut.roads.road_scripts import make_plan

RECIPE = Path(__file__).resolve().parents[2] / "recipes" / "metering"


class Toggle(Controller):
    """Closes a cell in every second minute, and keeps what it measures."""

    def __init__(self) -> None:
        self.seen: list[tuple[int, int, float, int, float | None]] = []

    def decide(self, view: View) -> list[tuple[str, int, int]]:
        self.seen.append((view.first, view.last, view.occupancy(20), view.cars(0), view.speed(0)))
        return [("block", 40, view.last // 60 % 2)]


def measure(site: Site, metered: Metered) -> dict[str, float | None]:
    """Return the figures of a run by their titles."""
    figures = site.list_figures()
    return {figure.title: value.after for figure, value in zip(figures, measure_day(figures, metered.run))}


class Metering(Checked):
    def test_views(self) -> None:
        """Compute occupancy, counts and speeds of each minute by `cars` of each step, and check that a setting becomes an edit only in a
        minute that changes it."""
        plan = Plan(length=60, inlets=[(0, 30_000)], zones=[(5, 9_000)], detectors=[20])
        with RoadLab(plan) as lab:
            toggle = Toggle()
            run_control(lab, "A", [toggle], 0, 300)
            for first, last, occupancy, cars, speed in toggle.seen:
                rows = [lab.cars("A", step) for step in range(first, last + 1)]
                there = sum(car.cell == 20 for row in rows[:-1] for car in row)
                speeds = [car.speed for row in rows[1:] for car in row if car.cell - car.speed < 20 <= car.cell]
                self.check(f"minute {first // 60}", (round(occupancy, 9), cars, speed),
                      (round(100 * there / max(last - first, 1), 9), len(speeds), sum(speeds) / len(speeds) * 27 if speeds else None))
            self.check("edits", [(edit.step, edit.value) for edit in lab.scenario("A")], [(0, 0), (60, 1), (120, 0), (180, 1), (240, 0)])

    def test_metering(self) -> None:
        """Compute ALINEA by its formula, from the measurements of each minute. The queue is arrivals minus admitted cars. A day that is
        simulated again with metering in its past equals the day that was metered from then on."""
        figures = dataclasses.replace(FIGURES, length=2, slowing=0.2, start=0.5, main=1_100, ramps=[(1.2, 500)], sections=[], stalled=[],
                                      detectors=[], stretch=(0.5, 1), minutes=30, begin="07:00")
        control = Control(ramp=1.2, detector=1.5, setpoint=8.0, most=700.0)
        site = make_site("small", figures, control)
        with open_day(site, 3) as lab:
            metered = run_metered(site, lab, 600)
            found = measure(site, metered)
            rate, queue, cells = 700.0, 0.0, [len(lab.cars("A", step)) for step in range(1, 1_801)]
            numbers = {car.number for step in range(0, 1_801, 5) for car in lab.cars("A", step)}
            entries = [number // 16 for number in numbers if number % 16 == 1]
            queues = [500 * (step + 1) / 3_600 - sum(entry <= step for entry in entries) for step in range(1_800)]
            for step, occupancy, set_rate, waiting in metered.rates:
                there = sum(car.cell == site.cell for row in range(max(step - 60, 0), step) for car in lab.cars("A", row))
                self.check(f"occupancy before step {step}", round(occupancy, 9), round(100 * there / 60, 9) if step else 0.0)
                rate = min(max(rate + 70 * (8 - occupancy), 240), 700) if step >= 600 else 700.0
                queue = 500 * step / 3_600 - sum(number % 16 == 1 and number // 16 < step for number in numbers)
                self.check(f"rate and queue at step {step}", (round(set_rate, 6), round(waiting, 6)), (round(rate if step >= 600 else math.inf, 6), round(queue, 6)))
            self.check("vehicle hours", round(found["vehicle hours on the road"], 9), round(sum(cells) / 3_600, 9))
            self.check("waiting", round(found["vehicle hours waiting at the ramp"], 9), round(sum(queues) / 3_600, 9))
            self.check("the longest queue", round(found["longest queue at the ramp, cars"], 9), round(max(queues), 9))
            free = {**lab.plan, "length": 1_000, "zone": 50, "zones": [lab.plan["zones"][0]] * 20, "inlets": lab.plan["inlets"][:1], "detectors": []}
            with RoadLab(free) as alone:
                for zone in range(20):
                    alone.edit("A", ("start", zone), 0, 32_768)
                alone.advance("A", 1_800)
                arrived = {car.number // 16 for step in range(0, 1_801, 5) for car in alone.cars("A", step)}
            came = [number // 16 for number in numbers if number % 16 == 0]
            waiting = [max(sum(one <= step for one in arrived) - sum(one <= step for one in came), 0) for step in range(1_800)]
            self.check("waiting before km 0", (round(found["vehicle hours waiting before km 0"], 9), found["longest queue before km 0, cars"]),
                  (round(sum(waiting) / 3_600, 9), max(waiting)))
            self.check("cars wait before km 0", max(waiting) > 0, True)
            self.check("together", round(found["vehicle hours together"], 9), round((sum(cells) + sum(queues) + sum(waiting)) / 3_600, 9))
            self.check("nothing is lost before km 0", found["lost main demand, cars"], 0)
        lossy = site
        with open_day(lossy, 3) as lab, unittest.mock.patch("zegdrut.commands.metering.can_wait", lambda script: False):
            run = run_metered(lossy, lab, 600)
            lost = len(arrived) - len({car.number for step in range(1, 1_801) for car in lab.cars("A", step) if car.number % 16 == 0})
        row, said = next(row for row in compare_runs(lossy, [[run, run]]) if row.figure.key == "together"), explain_queues(lossy, [[run, run]])
        self.check("cars are lost at km 0", (lost > 0, measure(lossy, run)["lost main demand, cars"], row.bound), (True, lost, "unknown"))
        self.check("a sentence on them", said[-1], f"Cars that cannot enter are lost: {lost} at km 0 (without control), {lost} at km 0 (with ALINEA); hours and delay "
              "leave them out.")
        before, again = run_again(site, 3, 600)
        self.check("metering in the past", (measure(site, again), again.rates), (found, metered.rates))
        with open_day(site, 3) as lab:
            self.check("the day as it was", measure(site, before), measure(site, run_metered(site, lab, math.inf)))
        narrow = make_site("small", figures, Control(ramp=1.2, detector=1.4, setpoint=20.0, gain=10.0, least=100.0, most=450.0))
        with open_day(narrow, 3) as lab:
            self.check("the day as it was does not depend on the control", measure(site, before), measure(narrow, run_metered(narrow, lab, math.inf)))
        full = make_site("small", dataclasses.replace(figures, main=600, ramps=[(0.6, 100), (1.2, 450)]), dataclasses.replace(control, most=5_000.0))
        with open_day(full, 3) as lab:
            meter = full.meter(math.inf)
            meter.queue = 100.0
            self.check("a queue is admitted up to the capacity", meter.decide(View(lab, "A", 0, 0)), [("inflow", 2, 65_536)])

    def test_one_day(self) -> None:
        """Run the recipe for one day and the same day again, and read the tables that it writes."""
        with tempfile.TemporaryDirectory() as name:
            road, control = Path(name, "short.json"), Path(name, "control.json")
            road.write_text(json.dumps({"length": 1, "slowing": 0.2, "main": 600, "ramps": [[0.5, 300]], "sections": [], "detectors": [], "seed": 4,
                                        "stretch": [0.2, 0.4], "minutes": 6, "begin": "07:00"}), encoding="utf-8")
            control.write_text('{"ramp": 0.5, "detector": 0.7, "setpoint": 5, "most": 700}', encoding="utf-8")
            ran = subprocess.run([RECIPE / "run", road, control, "--as-if-from", "07:02", "--out", name], capture_output=True, text=True, check=False)
            head = "# short, 07:00 to 07:06, per lane, seed 4"
            self.check("one day", (ran.returncode, ran.stdout.splitlines()[:2]), (0, [head, "seed 4,as it was,with metering from 07:02 on"]))
            self.check("its table", Path(name, "as-if-short-0700-0706.csv").read_text(encoding="utf-8"), ran.stdout)
            table = list(csv.reader(ran.stdout.splitlines()[1:]))
            self.check("its titles are read as written", ([row[0] for row in table[4:]], {len(row) for row in table}),
                  (["longest queue at the ramp, cars", "cars that left the road", "lost main demand, cars"], {3}))
            first, *lines = Path(name, "as-if-minutes-short-0700-0706.csv").read_text(encoding="utf-8").splitlines()
            self.check("the head of its minutes", first, head)
            minutes = list(csv.reader(lines))
            self.check("rates before metering and after", [line[4] != "" for line in minutes[1:]], [False, False, True, True, True, True])
            self.check("its minutes", [line[0] for line in minutes], ["time", "07:00", "07:01", "07:02", "07:03", "07:04", "07:05"])
            self.check("before metering", [line[1:3] for line in minutes[1:4]], [[line[3], line[5]] for line in minutes[1:4]])
            for words, said in ((("--as-if-from", "08:00"), "--as-if-from: 08:00 is not in the run, which lasts from 07:00 to 07:06\n"),
                                (("--days", "1"), "--days must be 2 to 1,000, not 1\n")):
                ran = subprocess.run([RECIPE / "run", road, control, *words, "--out", name], capture_output=True, text=True, check=False)
                self.check(f"refused before anything is simulated: {words}", (ran.returncode, ran.stderr), (1, said))
            ran = subprocess.run([RECIPE / "run", road, control, "--days", "2", "--out", name], capture_output=True, text=True, check=False)
            first, *lines = Path(name, "metering-short-0700-0706.csv").read_text(encoding="utf-8").splitlines()
            self.check("two days", (first, "\n".join([first, *lines]) + "\n"), ("# short, 07:00 to 07:06, per lane, mean of 2 days", ran.stdout))
            self.check("their fields", {len(row) for row in csv.reader(lines)}, {8})
            self.check("the minutes of the first one", Path(name, "minutes-short-0700-0706.csv").exists(), True)

    def test_controls(self) -> None:
        """Refuse a control that makes no sense before anything is simulated: with the field, the value and what is accepted."""
        with tempfile.TemporaryDirectory() as name:
            road, control = Path(name, "short.json"), Path(name, "control.json")
            road.write_text(json.dumps({"length": 1, "main": 600, "ramps": [[0.5, 300]], "sections": [], "minutes": 6, "begin": "07:00"}), encoding="utf-8")
            rate = "a number above 0 and up to 1,800 cars per hour, which is the most that an inlet admits"
            for field, value, said in (
                    ("setpoint", 140, "140 is not an occupancy from 0 to 100 per cent"), ("setpoint", -4, "-4 is not an occupancy from 0 to 100 per cent"),
                    ("gain", -70, "-70 is not a number above 0, in cars per hour and per cent of occupancy"),
                    ("gain", 0, "0 is not a number above 0, in cars per hour and per cent of occupancy"),
                    ("least", 0, f"0 is not {rate}"), ("most", 5_000, f"5000 is not {rate}"), ("most", "x", f'"x" is not {rate}'),
                    ("least", 1_300, "1300 is above most, which is 1200 cars per hour"), ("ramp", None, "null is not a number of km"),
                    ("begin", "09:00", '"09:00" is not in the run, which lasts from 07:00 to 07:06')):
                control.write_text(json.dumps({"ramp": 0.5, "detector": 0.7, "setpoint": 5, field: value}), encoding="utf-8")
                ran = subprocess.run([RECIPE / "run", road, control, "--out", Path(name, "out")], capture_output=True, text=True, check=False)
                self.check(f"a control with {field} {value}", (ran.returncode, ran.stdout, ran.stderr), (1, "", f"{control}: {field}: {said}\n"))

    def test_one_rule(self) -> None:
        """Widen the inlet of one road in four ways: for freeway, measured, metering and report. With its drivers the inlet does not admit
        1,400 cars per hour, so nobody is slowed on the first 40 of its 267 cells, which are the first of seven zones. A demand of 600 cars is
        admitted, and a file may set the entry to 0."""
        figures = dataclasses.replace(FIGURES, length=2, limit=135, slowing=0.16, start=0.45, main=1_400, ramps=[(0.9, 100)], sections=[], stalled=[],
                                      detectors=[1.5], stretch=(0.5, 1), minutes=20, begin="07:00")
        series = [Series(Station(name, km, 1), [100.0] * 4, [90.0] * 4) for name, km in (("a", 0.0), ("b", 1.5))]
        with contextlib.redirect_stderr(io.StringIO()):
            site = make_site("small", figures, Control(ramp=0.9, detector=1.2, setpoint=8.0))
            _, (side,) = make_sides(Request(figures, [], ["simulated"], 0, None))
            model = make_model("small", figures, Measured(figures.clock, 300, series, []), None, QUICK)
        road = make_road(widen_inlet(figures, QUICK))
        plans = {"freeway": make_plan(road, site.chances, 1), "metering": make_plan(site.road, site.chances, 1), "report": side.script.plan,
                 "measured": make_plan(model.road, model.chances, 1)}
        for name, plan in plans.items():
            self.check(f"the zones of {name}", (plan["zone"], [list(zone) for zone in plan["zones"]]), (40, [[5, 0]] + [[5, 10_486]] * 6))
        for main, entry, wanted in ((600, None, 0.0), (1_400, 0.0, 0.0), (600, 0.6, 0.6)):
            self.check(f"the entry for {main}, {entry}", widen_inlet(dataclasses.replace(figures, main=main, entry=entry), QUICK).entry, wanted)

    def test_page(self) -> None:
        """Run the example of the page."""
        lines = (RECIPE / "README.md").read_text(encoding="utf-8").split("A controller of your own", 1)[1].splitlines()
        code = "\n".join(line[4:] for line in lines if line.startswith("    "))
        ran = subprocess.run([sys.executable, "-c", code], cwd=RECIPE, env={**os.environ, "PYTHONPATH": str(RECIPE.parents[1] / "python")},
                             stdout=subprocess.PIPE, text=True, check=False)
        self.check("the page's example", (ran.returncode, ran.stdout.split()[-1:]), (0, ["edits"]))

    def test_search_of_two_points(self) -> None:
        """Search two set-points over two days on a short road, and compute both lines from the same days, run one by one. The best of both is
        run over other days. The largest demands are those of the point."""
        loader = importlib.machinery.SourceFileLoader("search", str(RECIPE / "search"))
        spec = importlib.util.spec_from_loader("search", loader)
        assert spec is not None
        search = importlib.util.module_from_spec(spec)
        with unittest.mock.patch.object(signal, "signal"):
            loader.exec_module(search)
        found = {"MAIN": (1_000,), "RAMP": (700,), "STARTS": (0.5,), "SETPOINTS": (3, 16), "OTHER_DAYS": range(101, 103)}
        with tempfile.TemporaryDirectory() as name, contextlib.redirect_stdout(io.StringIO()) as said, \
                unittest.mock.patch.multiple(search, **found, HERE=Path(name)):
            Path(name, "bottleneck.json").write_text(json.dumps({
                "length": 3, "zone": 0.15, "limit": 135, "slowing": 0.1, "begin": "06:30", "minutes": 12, "main": [["06:30", 500], ["06:34", 800]],
                "ramps": [[1, [["06:30", 200], ["06:34", 100]]]], "sections": [[1.8, 2.4, "06:30", "06:42", 108, 0.2, 0.7]]}), encoding="utf-8")
            Path(name, "bottleneck_control.json").write_text('{"ramp": 1, "detector": 1.9, "setpoint": 10, "gain": 40, "least": 120, "most": 1400}',
                                                             encoding="utf-8")
            self.check("the search", search.main(["2"]), 0)
            sites = search.vary(search.measure_site((1_000, 700)), 0.5)
        head, *lines = list(csv.reader(said.getvalue().splitlines()))
        self.check("the largest demands", [max(cars for _, cars in one) for one in (sites[0].figures.main, sites[0].figures.ramps[0][1])], [1_000, 700])
        self.check("the slow-to-start chance", {one[3] for one in sites[0].road.edits if one[0] == "start"}, {32_768})

        def run_both(site: Site, seeds: range) -> tuple[float, float]:
            days = []
            for seed in seeds:
                for begin in (math.inf, 0):
                    with open_day(site, seed) as lab:
                        days.append(measure(site, run_metered(site, lab, begin))["vehicle hours together"] or 0.0)
            return sum(days[::2]) / len(seeds), sum(days[1::2]) / len(seeds) - sum(days[::2]) / len(seeds)
        both = [run_both(site, range(1, 3)) for site in sites]
        best = min((0, 1), key=lambda place: both[place][1])
        both.append(run_both(sites[best], range(101, 103)))
        self.check("the lines of the search", [line[:6] for line in lines], [
            ["1000", "700", "0.5", f"{setpoint:g}", f"{hours:.0f}", f"{difference:.0f}"] for setpoint, (hours, difference) in zip((3, 16, (3, 16)[best]), both)])
        self.check("its titles", head[:6], ["main", "ramp", "slow-to-start", "set-point", "no control", "difference"])
        with contextlib.redirect_stderr(io.StringIO()) as refused:
            self.check("one day", (search.main(["1"]), refused.getvalue()), (1, "--days must be 2 to 1,000, not 1\n"))

    def test_page_table(self) -> None:
        """Run the example of eight days: the table of the page is the beginning of what the recipe prints."""
        table = [line[4:] for line in (RECIPE / "README.md").read_text(encoding="utf-8").split("begins with\n\n", 1)[1].split("\n\n", 1)[0].splitlines()]
        with tempfile.TemporaryDirectory() as name:
            ran = subprocess.run([RECIPE / "run", "--days", "8", "--out", name], stdout=subprocess.PIPE, text=True, check=False)
        self.check("the page's table", (len(table), ran.stdout.splitlines()[:len(table)]), (6, table))


if "ALL_TESTS" not in os.environ:
    del Metering.test_page_table  # it takes minutes


if __name__ == "__main__":
    unittest.main()
