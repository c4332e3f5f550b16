"""Compute the figures of a report in a second way: by loops over `cars` of each step."""
from __future__ import annotations

import csv
import dataclasses
import json
import re
import statistics
import subprocess
import sys
import tempfile
import unittest
from pathlib import Path

from report_recipe import ROAD, ReportChecks
from zegdrut import RoadLab
from zegdrut.program import Script
from zegdrut.roads import FIGURES, make_script, measure_chances
from zegdrut.roads.road_in_cells import make_all_roads

RECIPE = Path(__file__).resolve().parents[2] / "recipes" / "report"
EARLIER = {**ROAD, "begin": "06:55", "minutes": 25, "main": [["06:55", 900], ["07:10", 1_300]]}
"""The same road, which begins five minutes earlier: twice the free travel time of 40 s, rounded up to five minutes."""
FIRST, LAST = 300, 1_500
"""The steps of the window."""
WIDE = {"length": 3, "zone": 2.25}
"""A longer road with a first zone of 300 cells, before which no car can wait."""
T_OF_TWO = 4.302653
"""Student's t for two degrees of freedom, from printed tables."""


def compute_figures(script: Script, seed: int) -> tuple[dict[str, float | None], dict, list[list[tuple[int, int]]]]:
    """Return three things: the figures of a day; for each car its seconds on the road, and when it passed each detector and the end; and
    for each detector the steps and speeds of passing cars."""
    plan, lines = script
    sites, steps, inlets = plan["detectors"], LAST, len(plan["inlets"])
    with RoadLab({**plan, "words": seed}) as lab:
        for line in lines:
            lab.ask(line)
        rows = [lab.cars("A", step) for step in range(steps + 1)]
    cars: dict = {}
    passings: list[list[tuple[int, int]]] = [[] for _ in sites]
    for step in range(steps):
        now = {car.number for car in rows[step + 1]}
        for car in rows[step + 1]:
            one = cars.setdefault(car.number, {"rows": 0})
            one["rows"] += step >= FIRST
            for index, site in enumerate(sites):
                if car.cell - car.speed < site <= car.cell:
                    one[index] = step
                    passings[index].append((step, car.speed))
        for car in rows[step]:
            if car.number not in now:
                cars[car.number]["end"] = step

    def travel(place: object, inlet: int = 0) -> float | None:
        times = [one[place] - number // 16 for number, one in cars.items() if one.get(place, 0) >= FIRST and number % 16 == inlet]
        return statistics.mean(times) if times else None
    asked = 900 / 6 + 1_300 / 6 + (200 / 3 if inlets == 2 else 0)
    admitted = sum(number // 16 >= FIRST for number in cars)
    found = {"vehicle hours on the road": sum(map(len, rows[FIRST + 1:])) / 3_600, "demand, cars": asked, "admitted cars": admitted,
             "lost demand, cars": 0.0, "travel time from km 0 to the end, s": travel("end"),
             "travel time from km 0.6 to the end, s": travel("end", 1)}
    speeds = [[speed for step, speed in one if step >= FIRST] for one in passings]
    for index, km in enumerate(("0.75", "1.2")):
        found[f"km {km}: cars/h"] = len(speeds[index]) * 3
        found[f"km {km}: time-mean km/h"] = statistics.mean(speeds[index]) * 27 if speeds[index] else None
        found[f"km {km}: travel time from km 0, s"] = travel(index)
        found[f"km {km}: travel time from km 0.6, s"] = travel(index, 1)
    return found, cars, passings


def compute_differences(one: dict, other: dict) -> dict[str, float]:
    """Return the delay of a day in vehicle hours, and the mean delays to each detector and to the end."""
    both = [number for number in one if number in other]
    found = {"delay, vehicle hours": sum(other[number]["rows"] - one[number]["rows"] for number in both) / 3_600}
    for name, place in (("to km 0.75", 0), ("to km 1.2", 1), ("to the end", "end")):
        later = [other[number][place] - one[number][place] for number in both
                 if place in one[number] and place in other[number] and number // 16 >= FIRST]
        found[f"mean delay {name}, s"] = statistics.mean(later)
    return found


def compute_interval(values: list[float]) -> tuple[float, float]:
    return statistics.mean(values), T_OF_TWO * statistics.stdev(values) / 3 ** 0.5


class Figures(ReportChecks):
    def test_variants(self) -> None:
        """Show four roads in one report: each has the means that it has in a report of two roads, and the same difference from the first one. The
        page has four diagrams and two tables, and names the works of each road."""
        works = {"night": [], "works_at_noon": [[1.05, 1.2, "07:03", "07:08", 27, 0.4]], "works_at_night": [[1.05, 1.2, "07:00", "07:02", 27, 0.4]], "more": []}
        with tempfile.TemporaryDirectory() as name:
            paths = {road: Path(name, f"{road}.json") for road in works}
            for road, sections in works.items():
                paths[road].write_text(json.dumps({**ROAD, "main": 900 if road == "more" else 700, "ramps": [], "minutes": 10,
                                                   "sections": sections, "stalled": [], "zone": 0.15}), encoding="utf-8")

            def report(*words: object, last: str = "more") -> tuple[str, dict[str, dict[str, str]]]:
                page = Path(name, "report.html")
                ran = subprocess.run([RECIPE / "run", paths[last], "--days", "2", "--out", page, *words], capture_output=True, text=True, check=False)
                table = Path(name, f"figures-{last}-0700-0710.csv").read_text(encoding="utf-8").splitlines()[1:] if ran.returncode == 0 else []
                return page.read_text(encoding="utf-8") if ran.returncode == 0 else ran.stderr, {row["figure"]: row for row in csv.DictReader(table)}
            first, *others = works
            html, all_rows = report("--against", *(paths[road] for road in list(works)[:-1]))
            for other in others:
                _, rows = report("--against", paths[first], last=other)
                for figure, row in rows.items():
                    found = all_rows.get(figure, {})
                    for of_all, of_pair in ((first, first), (other, other), (f"± {other}", f"± {other}"), (f"difference {other}", "difference"),
                                            (f"± difference {other}", "± difference"), (f"may be chance {other}", "may be chance")):
                        self.check(f"{figure}: {of_all}", found.get(of_all), row[of_pair])
            self.check("diagrams, tables, lines of a chart", (html.count('class="field"'), html.count("<table>"), html.count("<polyline")), (4, 2, 16))
            for wanted in ("<h1>works_at_noon, works_at_night and more compared with night</h1>", "difference from night",
                           "works_at_noon: km 1.05 to 1.2, 07:03 to 07:08: limit 27 km/h, slowing 40%", "more: main road: 900 cars/h"):
                self.check(f"the page has {wanted}", wanted in html, True)
            five = [paths[road] for road in works]
            self.check("five roads", report("--against", *five)[0], "--against takes up to 3 files, not 4: a report has at most 4 roads\n")
            self.check("the same road twice", report("--against", *five[:2], five[3])[0],
                  "two of the files have the name more: the report calls roads by the names of their files, so rename one\n")
            paths["more"].write_text(json.dumps({**ROAD, "main": 700, "minutes": 10, "ramps": [[0.3, 100]]}), encoding="utf-8")
            self.check("other ramps", report("--against", five[0])[0],
                  f"{five[0]}: its ramps are not those of {five[3]}: both files must describe the same road and time\n")

    def test_queue(self) -> None:
        """Let cars wait before a road without ramps whose lane is closed. Both roads then admit the same cars, so the delay is the time of all
        cars, after minus before. A run that ends too early says so. Before a first zone of 300 cells cars are lost."""
        hours = "vehicle hours on the road"
        with tempfile.TemporaryDirectory() as name:
            road, page = Path(name, "small.json"), Path(name, "report.html")
            for zones, end, bound, is_lost in (({}, "07:08", "", False), ({}, "07:19", "at least", True), (WIDE, "07:08", "at least", True)):
                road.write_text(json.dumps({**ROAD, **zones, "main": 800, "ramps": [], "sections": [], "stalled": [[0.9, "07:02", end]]}), encoding="utf-8")
                ran = subprocess.run([RECIPE / "run", road, "--days", "2", "--out", page], capture_output=True, text=True, check=False)
                self.check("a queue: status", ran.returncode, 0)
                table = Path(name, "figures-small-0700-0720.csv").read_text(encoding="utf-8").splitlines()[1:]
                rows = {row["figure"]: row for row in csv.DictReader(table)}
                self.check(f"a queue until {end}: lost cars", rows["admitted cars"]["without works"] != rows["admitted cars"]["with works"], is_lost)
                delay, html = rows["delay, vehicle hours"], page.read_text(encoding="utf-8")
                self.check(f"a queue until {end}: a bound", (delay.get("bound", ""), "delay, vehicle hours (at least)" in html), (bound, bool(bound)))
                if zones:
                    self.check("without a queue", [figure for figure in rows if "before" in figure], [])
                    lost = float(rows["lost demand, cars"]["with works"])
                    self.check("cars are lost", (lost > 0, f"Cars that cannot enter are lost: {lost:.0f} at km 0 (with works); hours and delay leave them out, because cars can wait "
                                                      "only before a first zone of at most 1.5 km." in html),
                          (True, True))
                else:
                    self.check_number("the delay of all cars", delay["difference"], float(rows[f"{hours} and before it"]["difference"]))
                    self.check_number("the parts of the time", rows[f"{hours} and before it"]["with works"], float(rows[hours]["with works"])
                               + float(rows["vehicle hours waiting before km 0"]["with works"]))

    def test_same_days(self) -> None:
        """Report a road without the time before its window: the days are those of `delay` with the same seeds. With that time the report says that they
        are others."""
        with tempfile.TemporaryDirectory() as name:
            road, page = Path(name, "small.json"), Path(name, "report.html")
            road.write_text(json.dumps({**ROAD, "minutes": 10, "sections": [], "stalled": [[0.9, "07:02", "07:05"]]}), encoding="utf-8")
            scripts = [Path(name, "freeway", f"{script}.jsonl") for script in ("without", "script")]
            hours = []
            for words in ((RECIPE.parent / "freeway" / "run", road, "--out", scripts[0].parent),
                          (RECIPE.parent / "delay" / "run", "--days", "2", "--out", Path(name, "delay"), *scripts),
                          (RECIPE / "run", road, "--days", "2", "--warm-up", "0", "--out", page), (RECIPE / "run", road, "--days", "2", "--out", page)):
                ran = subprocess.run(list(map(str, words)), capture_output=True, text=True, check=False)
                self.check(f"{words[0].parent.name}: status", (ran.returncode, ran.stderr if ran.returncode else ""), (0, ""))
                table = next((path for path in (Path(name, "figures-small-0700-0710.csv"), Path(name, "delay", "days.csv")) if path.exists()), None)
                if table is not None:
                    rows = csv.reader(table.read_text(encoding="utf-8").splitlines())
                    found = next(row for row in rows if row[0] == "vehicle hours on the road")
                    hours.append([round(float(value), 3) for value in found[1:7]])
                    said = page.exists() and "its days are not those of <code>delay</code> and live" in page.read_text(encoding="utf-8")
                    hours[-1].append(said)
        self.check("the days of delay", hours[1], hours[0])
        self.check("other days", (hours[2][:6] != hours[0][:6], hours[2][6]), (True, True))

    def test_every_figure(self) -> None:
        """Compute each figure of a report of three days, on which cars are lost, its intervals, and the charts."""
        with tempfile.TemporaryDirectory() as folder:
            path = Path(folder, "small.json")
            path.write_text(json.dumps({**ROAD, **WIDE}), encoding="utf-8")
            ran = subprocess.run([RECIPE / "run", path, "--days", "3", "--out", Path(folder, "report.html")], stdout=subprocess.PIPE,
                                 stderr=subprocess.PIPE, text=True, check=False)
            if ran.returncode:
                sys.exit(ran.stderr)
            html = Path(folder, "report.html").read_text(encoding="utf-8")
            head, *table = Path(folder, "figures-small-0700-0720.csv").read_text(encoding="utf-8").splitlines()
            series = list(csv.DictReader(Path(folder, "series-small-0700-0720.csv").read_text(encoding="utf-8").splitlines()[1:]))
            path.write_text(json.dumps({**EARLIER, **WIDE}), encoding="utf-8")
            figures = FIGURES.override(path)
        if head != "# small, 07:00 to 07:20 on 2026-03-02, per lane, mean of 3 days":
            self.check_number(f"the head of the table, {head}", "0", 1)
        for wanted in ("2026-03-02, 07:00 to 07:20, 3 simulated days. The run begins at 06:55 with an empty road",
                       "3 days are few: ± is then 4.3 ", "With fewer than 5 days the charts have no intervals", "km 1.05 to 1.2, 07:05 to 07:12: limit 27 km/h, slowing 40%", "km 1.3, 07:14 to 07:15: a stalled car closes the lane",
                       "<th>mean of 3 days, per lane</th>", "<h2>Flow per lane and speed, each 5 minutes, mean of 3 days</h2>", "@page { size: A4", "900 from 07:00, 1,300 from 07:10 cars/h", "Seeds 8 to 10"):
            if wanted not in html:
                self.check_number(f"the page has {wanted!r}", "0", 1)
        if re.search(r'(src|href)="(?!data:)', html) or "<script" in html:
            self.check_number("the page stands by itself", "0", 1)
        records = {row["figure"]: row for row in csv.DictReader(table)}

        road, plain = make_all_roads([figures, dataclasses.replace(figures, sections=[], stalled=[])])
        scripts = [make_script(one, measure_chances(one), 8) for one in (plain, road)]
        days = [[compute_figures(script, seed) for script in scripts] for seed in (8, 9, 10)]
        for (_, plain_cars, _), (found, cars, _) in days:
            # Without works everybody enters who arrives. With fewer than three missing cars a ramp loses none.
            missing = [sum(number // 16 >= FIRST and number % 16 == inlet for number in plain_cars)
                       - sum(number // 16 >= FIRST and number % 16 == inlet for number in cars) for inlet in (0, 1)]
            found["lost demand, cars"] = float(sum(lost for lost, least in zip(missing, (1, 3)) if lost >= least))
        self.check("cars are lost", sum(day[1][0]["lost demand, cars"] for day in days) > 0, True)
        seen = set()
        for name in days[0][0][0]:
            for place, side in enumerate(("without works", "with works")):
                mean, half = compute_interval([day[place][0][name] for day in days])
                self.check_number(f"{name}, {side}", records[name][side], mean)
                self.check_number(f"{name}, ± {side}", records[name][f"± {side}"], half)
            mean, half = compute_interval([day[1][0][name] - day[0][0][name] for day in days])
            self.check_number(f"{name}, difference", records[name]["difference"], mean)
            self.check_number(f"{name}, ± difference", records[name]["± difference"], half)
            if records[name]["may be chance"] != ("" if mean == half == 0 else "yes" if mean - half <= 0 <= mean + half else "no"):
                self.check_number(f"{name}, may be chance: {records[name]['may be chance']}", "0", 1)
            seen.add(name)
        costs = [compute_differences(one[1], other[1]) for one, other in days]
        for name in costs[0]:
            mean, half = compute_interval([cost[name] for cost in costs])
            self.check_number(name, records[name]["difference"], mean)
            self.check_number(f"{name}, ±", records[name]["± difference"], half)
            seen.add(name)
        for place, row in enumerate(series):
            first, index = FIRST + place % 4 * 300, place // 4
            for side, name in enumerate(("without works", "with works")):
                daily = [[speed for step, speed in day[side][2][index] if first <= step < first + 300] for day in days]
                self.check_number(f"flow of {name} at {row['time']}", row[f"{name}: cars/h"], round(statistics.mean(map(len, daily)) * 12, 1))
                speeds = [statistics.mean(one) * 27 for one in daily if one]
                self.check_number(f"speed of {name} at {row['time']}", row[f"{name}: time-mean km/h"], round(statistics.mean(speeds), 1) if speeds else None)
        if seen != set(records):
            self.check_number(f"figures that nothing checks: {set(records) ^ seen}", "0", 1)


if __name__ == "__main__":
    unittest.main()
