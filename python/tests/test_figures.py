"""Compute every figure of the table in a second way: by loops over the cars of each step, on random roads with two ramps."""
from __future__ import annotations

import dataclasses
import random
import statistics
import unittest
from typing import Callable, Sequence

from zegdrut import Car, Fault, Plan, RoadLab
from zegdrut.figures import (FREEWAY, Figure, Mean, Of, RoadRun, Value, choose, compare, compare_roads, list_figures, list_means, measure_day,
                             measure_roads, read_run, simulate_days)
from zegdrut.figures import Window, days as figures_of_days
from zegdrut.figures.queues import Ends, Waits, average_lost, compare_ends, with_lost
from zegdrut.figures.table import SHOWN
from zegdrut.figures.trips import compute_travel_times_by_entry
from zegdrut.roads import Drivers

DETECTORS = [20, 60, 90]
INLETS = [40, 0, 70]
"""The cells of the inlets. The main road's is not the first one."""
LAST = 400
Edits = list[tuple[str, int, int, int]]


class Watched:
    """A run that was watched step by step: the cars of each row, and when each car entered, passed each detector and left."""

    def __init__(self, lab: RoadLab, first: int, edits: Edits, demands: list[list[tuple[int, float]]], waiting: list[list[int]], origin: int,
                 step: float) -> None:
        self.first, self.demands, self.waiting, self.origin, self.step = first, demands, waiting, origin, step
        self.rows: list[list[Car]] = [lab.cars("A", step) for step in range(LAST + 1)]
        self.speeds: list[list[tuple[int, int]]] = [[] for _ in DETECTORS]
        self.arrivals: dict[tuple[int | None, int], int] = {}
        self.on = [[self.is_on(edits, detector, step) for step in range(LAST)] for detector in range(len(DETECTORS))]
        for step in range(LAST):
            still = {car.number for car in self.rows[step + 1]}
            for car in self.rows[step + 1]:
                for detector, cell in enumerate(DETECTORS):
                    if car.cell - car.speed < cell <= car.cell:
                        self.arrivals[detector, car.number] = step
                        self.speeds[detector] += [(step, car.speed)] if self.on[detector][step] else []
            self.arrivals.update(((None, car.number), step) for car in self.rows[step] if car.number not in still)
        self.numbers = {car.number for row in self.rows for car in row}

    @staticmethod
    def is_on(edits: Edits, detector: int, step: int) -> bool:
        values = [value for kind, index, date, value in sorted(edits, key=lambda edit: edit[2])
                  if kind == "watch" and index == detector and date <= step]
        return not values or values[-1] == 1

    def admitted(self, inlet: int, first: int, last: int) -> int:
        return sum(number % 16 == inlet and first <= number // 16 < last for number in self.numbers)

    def demand(self, inlet: int, first: int, last: int) -> float:
        total = 0.0
        for step in range(first, last):
            total += [rate for date, rate in self.demands[inlet] if date <= step][-1] / 3_600
        return total

    def queues(self, inlet: int) -> list[float]:
        waiting, found = 0.0, []
        for step in range(LAST):
            waiting += self.demand(inlet, step, step + 1) - (step * 16 + inlet in self.numbers)
            found.append(waiting)
        return found[self.first:]

    def steps(self, numbers: set[int]) -> int:
        return sum(car.number in numbers for row in self.rows[self.first + 1:] for car in row)

    def hours(self, first: int = 0, last: int = 120) -> float:
        return self.step * sum(first <= car.cell < last for row in self.rows[self.first + 1:] for car in row) / 3_600

    def waited(self, inlet: int) -> float:
        return self.step * sum(self.waiting[inlet][self.first:]) / 3_600

    def seen(self, detector: int | None) -> list[int]:
        assert detector is not None
        return [speed for step, speed in self.speeds[detector] if step >= self.first]

    def mean_time(self, of: Of) -> float | None:
        times = [step - number // 16 for (place, number), step in self.arrivals.items()
                 if place == of.detector and number % 16 == of.inlet and step >= self.first]
        return statistics.mean(times) if times else None


def find_delay(before: Watched, after: Watched) -> float:
    both = before.numbers & after.numbers
    return before.step * (after.steps(both) - before.steps(both)) / 3_600


def find_delay_at(before: Watched, after: Watched, place: int | None) -> float | None:
    later = [step - before.arrivals[place, number] for (at, number), step in after.arrivals.items()
             if at == place and (place, number) in before.arrivals and number // 16 >= before.first]
    return statistics.mean(later) if later else None


def find_through(before: Watched, after: Watched) -> list[float]:
    both = [number for at, number in before.arrivals if at is None and (None, number) in after.arrivals]
    return [run.step * sum(run.arrivals[None, number] - number // 16 for number in both) / 3_600 for run in (before, after)]


def total(ask: Callable[[int, int, int], float], first: int) -> float:
    return sum(ask(inlet, first, LAST) for inlet in range(len(INLETS)))


OF_ROAD: dict[str, Callable[[Watched, Of], float | None]] = {
    "hours": lambda run, of: run.hours(first=run.origin),
    "approach hours": lambda run, of: run.hours(last=run.origin),
    "wait": lambda run, of: run.waited(of.inlet or 0),
    "wait queue": lambda run, of: max(run.waiting[of.inlet or 0][run.first:]),
    "wait end": lambda run, of: next(((step - run.first + 1) * run.step / 60 for step in range(LAST - 1, run.first - 1, -1) if run.waiting[of.inlet or 0][step]), None),
    "all hours": lambda run, of: run.hours() + sum(map(run.waited, range(len(INLETS)))),
    "waiting": lambda run, of: sum(run.queues(of.inlet or 0)) / 3_600,
    "together": lambda run, of: run.hours() + (sum(run.queues(of.inlet or 0)) + sum(
        sum(cars[run.first:]) for inlet, cars in enumerate(run.waiting) if inlet != of.inlet)) / 3_600,
    "queue": lambda run, of: max(run.queues(of.inlet or 0)),
    "left": lambda run, of: sum(place is None and step >= run.first for (place, _), step in run.arrivals.items()),
    "entered": lambda run, of: sum(number // 16 >= run.first for number in run.numbers),
    "demand": lambda run, of: total(run.demand, run.first),
    "demand at": lambda run, of: run.demand(of.inlet or 0, run.first, LAST),
    "admitted": lambda run, of: total(run.admitted, run.first),
    "admitted at": lambda run, of: run.admitted(of.inlet or 0, run.first, LAST),
    "lost": lambda run, of: 0.0,  # (cars wait; `check_lost` has the others)
    "lost at": lambda run, of: 0.0,
    "travel": lambda run, of: run.mean_time(of),
    "cars": lambda run, of: len(run.seen(of.detector)),
    "flow": lambda run, of: (len(run.seen(of.detector)) * 3_600 / sum(run.on[of.detector or 0][run.first:])
                             if any(run.on[of.detector or 0][run.first:]) else None),
    "speed": lambda run, of: statistics.mean(run.seen(of.detector)) * 27 if run.seen(of.detector) else None,
    "on": lambda run, of: sum(run.on[of.detector or 0][run.first:])}
"""By a figure's key: what it is on a road."""
OF_CHANGE: dict[str, Callable[[Watched, Watched, Of], list[float | None]]] = {
    "delay": lambda before, after, of: [None, None, find_delay(before, after)],
    "delay at": lambda before, after, of: [None, None, find_delay_at(before, after, of.detector)],
    "through": lambda before, after, of: [*find_through(before, after), find_through(before, after)[1] - find_through(before, after)[0]]}
"""By a figure's key: what it is before a change and after it, and what the change costs."""
OF_SCRIPTS = ("delay", *SHOWN["delay"])
"""The figures of scripts whose steps have any length. The others have steps of a second."""


def run_day(chance: random.Random, first: int, origin: int, seconds: float = 1.0) -> tuple[list[RoadRun], list[Watched], list[Figure]]:
    """Run a random road before and after a closure, with a detector that is off for a while. Its first `origin` cells are an approach."""
    plan = Plan(length=120, inlets=[(cell, chance.randrange(4_000, 24_000)) for cell in INLETS], zone=30,
                zones=[(chance.randrange(2, 6), chance.randrange(16_000)) for _ in range(4)], detectors=DETECTORS, words=chance.randrange(1_000))
    off = chance.randrange(60, 200)
    edits: Edits = [("watch", chance.randrange(3), off, 0), ("watch", chance.randrange(3), off + 90, 1)]
    closure: Edits = [("block", 100, first + 20, 1), ("block", 100, first + chance.randrange(40, 90), 0)]
    demands = [[(0, chance.uniform(100, 600)), (chance.randrange(50, 300), chance.uniform(100, 900))] for _ in INLETS]
    runs, watched = [], []
    waiting = [[chance.randrange(30) if chance.randrange(2) and step < chance.randrange(LAST) else 0 for step in range(LAST)] for _ in INLETS]
    for all_edits in (edits, edits + closure):
        with RoadLab(plan) as lab:
            for kind, index, step, value in all_edits:
                lab.edit("A", (kind, index), step, value)
            lab.advance("A", LAST)
            run = read_run(lab, "A", Window(first, LAST), demands, period=70, origin=origin, seconds=seconds)
            runs.append(dataclasses.replace(run, waiting=dict(enumerate(waiting))))
            watched.append(Watched(lab, first, all_edits, demands, waiting, origin, seconds))
            figures = list_figures(lab.plan, FREEWAY._replace(origin=origin))
    return runs, watched, figures


class Table(unittest.TestCase):
    def assertFigure(self, found: float | None, wanted: float | None, what: object) -> None:
        self.assertEqual(found is None, wanted is None, what)
        self.assertAlmostEqual(found or 0.0, wanted or 0.0, 9, str(what))

    def test_each_figure_by_hand(self) -> None:
        """Every figure has an oracle here, and equals it. Each oracle gives a number on some of the roads."""
        chance, known = random.Random(3), set()
        for case in range(4):
            runs, watched, figures = run_day(chance, first=case % 2 * 80, origin=case // 2 * 30, seconds=(1.0, 3.0, 1.0, 0.4)[case])
            for figure, value in zip(figures, measure_day(figures, *runs)):
                if runs[0].seconds != 1 and figure.key not in OF_SCRIPTS:
                    continue
                what = case, figure.title, figure.of
                wanted = (OF_CHANGE[figure.key](watched[0], watched[1], figure.of) if figure.key in OF_CHANGE
                          else [OF_ROAD[figure.key](run, figure.of) for run in watched])
                for found, right in zip(value, wanted):
                    self.assertFigure(found, right, what)
                if figure.key in OF_ROAD and None not in wanted:
                    self.assertFigure(value.difference, wanted[1] - wanted[0], what)
                known |= {figure.key} if wanted[-1] is not None else set()
                self.assertEqual([alone.after for alone in measure_day([figure], runs[1])], [value.after if figure.of_road else None], what)
            self.check_lost(chance, case, runs[1], watched[1], figures)
        self.assertEqual(known, OF_ROAD.keys() | OF_CHANGE.keys())

    def test_travel_times_by_entry(self) -> None:
        """Group the cars by the time of their entry, in periods of 37 steps that begin with the window: at each detector, and at the end."""
        runs, watched, _ = run_day(random.Random(12), first=50, origin=0)
        for run, seen in zip(runs, watched):
            wanted: dict[int, list[list[int]]] = {}
            for (place, number), step in sorted(seen.arrivals.items(), key=str):
                entry = number // 16
                if entry >= 50 and step < LAST:
                    begin = max(first for first in range(50, LAST, 37) if first <= entry)
                    sums = wanted.setdefault(begin, [[0, 0] for _ in range(len(DETECTORS) + 1)])[len(DETECTORS) if place is None else place]
                    sums[0] += 1
                    sums[1] += step - entry
            found = compute_travel_times_by_entry(run.trips, run.window, 37)
            self.assertEqual({begin: [list(one) for one in times] for begin, times in found.items()}, wanted)
            self.assertGreater(len(wanted), 5)

    def check_lost(self, chance: random.Random, case: int, run: RoadRun, watched: Watched, figures: list[Figure]) -> None:
        """Compare lost cars with known arrivals minus entries: at a ramp from 3 cars on, and never fewer than none. Without arrivals they are
        demand minus entries."""
        first = watched.first
        missing = {0: (2, 3, -1, 8)[case], 1: (1, -2, 0, 5)[case]}  # at a ramp, and on the main road; the other ramp loses none
        arrivals = {inlet: sorted(chance.sample(range(first, LAST), watched.admitted(inlet, first, LAST) + more)) for inlet, more in missing.items()}
        before = {inlet: [*range(min(first, 5)), *steps] for inlet, steps in arrivals.items()}  # arrivals before the window count nothing
        unknown, run = dataclasses.replace(run, waiting={}), dataclasses.replace(run, waiting={}, arrivals=before)
        wanted = [(0, 3, 0, 8)[case], (1, 0, 0, 5)[case], 0]
        for inlet, lost in enumerate(wanted):
            self.assertEqual([figure.measure(None, run).after for figure in figures if (figure.key, figure.of.inlet) == ("lost at", inlet)], [lost])
        self.assertEqual([figure.measure(None, run).after for figure in figures if figure.key == "lost"], [sum(wanted)])
        by_demand = {inlet: watched.demand(inlet, first, LAST) - watched.admitted(inlet, first, LAST) for inlet in range(len(INLETS))}
        for figure in figures:
            if figure.key in ("lost", "lost at"):
                self.assertFigure(figure.measure(None, unknown).after, sum(by_demand.values()) if figure.key == "lost" else by_demand[figure.of.inlet or 0],
                                  figure.title)

    def test_lost_cars_make_bounds(self) -> None:
        """Hours and delay are bounds of the true ones if a road loses cars, and say how many, on which road, and where."""
        plan = Plan(length=120, inlets=[(0, 0)], zones=[(5, 0)], detectors=[60]).to_line()
        rows = compare(figures := choose(list_figures(plan), "delay", "hours", "cars"), [[Value(1.0, 2.0, 1.0)] * len(figures)])
        for lost, bound, words in (((0, 0), "", ""), ((0, 12.4), "at least", "12 at km 0 (after)"), ((3, 0), "at most", "3 at km 0 (before)"),
                                   ((3, 4), "unknown", "3 at km 0 (before), 4 at km 0 (after)")):
            for row in with_lost([rows], ["before", "after"], [{"km 0": cars} for cars in lost])[0]:
                is_bound = bool(bound) and row.figure.key != "cars"
                self.assertEqual(row.bound, bound if is_bound else "")
                self.assertEqual(row.words, (f"Cars that cannot enter are lost: {words}; hours and delay leave them out.",) if is_bound else ())

    def test_two_reasons_for_a_bound(self) -> None:
        """If one reason makes a figure too small and the other too great, nothing is known."""
        plan = Plan(length=120, inlets=[(0, 0)], zones=[(5, 0)], detectors=[60]).to_line()
        row, = compare(choose(list_figures(plan), "hours"), [[Value(1.0, 2.0, 1.0)]])
        wanted = {("", "at least"): "at least", ("at most", "at least"): "unknown", ("at least", "at least"): "at least", ("at most", "at most"): "at most",
                  ("at least", ""): "at least", ("unknown", "at most"): "unknown"}
        for (bound, of_lost), both in wanted.items():
            lost = {"": (0.0, 0.0), "at least": (0.0, 7.0), "at most": (7.0, 0.0)}[of_lost]
            early = dataclasses.replace(row, bound=bound, words=("The end.",))
            found = with_lost([[early]], ["a", "b"], [{"km 0": cars} for cars in lost])[0][0]
            self.assertEqual((found.bound, found.words[0], len(found.words)), (both, "The end.", 1 + any(lost)))

    def test_roads_that_lose_equally_many_cars_make_no_bound(self) -> None:
        """If both roads have the same demand and admit as many cars, lost cars of only one road are chance, and nothing is a bound. If both
        lose cars, only what does not differ on any day is exact. Without the demand nothing is known."""
        plan = Plan(length=120, inlets=[(0, 0)], zones=[(5, 0)], detectors=[60]).to_line()
        keys = ["delay", "hours", "demand", "admitted"]
        figures = {figure.key: figure for figure in choose(list_figures(plan), *keys)}

        def bounds(lost: tuple[float, float], differences: Sequence[Sequence[float]], shown: Sequence[str] = keys) -> tuple[str, ...]:
            rows = compare([figures[key] for key in shown], [[Value(1.0, 1.0 + one[keys.index(key)], one[keys.index(key)]) for key in shown] for one in differences])
            found = {row.figure.key: row.bound for row in with_lost([rows], ["a", "b"], [{"km 0": cars} for cars in lost])[0]}
            return tuple(found[key] for key in keys[:2])
        same, slower, other, fewer, more = (0, 0, 0, 0), (2, 3, 0, 0), (-1, 2, 0, 0), (0, 0, 0, -1), (0, 0, 5, 0)
        for lost in ((0, 4), (4, 0)):
            for days in ([same], [same, same], [slower], [slower, same], [slower, other]):
                self.assertEqual(bounds(lost, days), ("", ""), (lost, days))
        for days in ([fewer], [same, fewer], [more], [fewer, (0, 0, 0, 1)]):
            self.assertEqual(bounds((0, 4), days), ("at least", "at least"), days)
        self.assertEqual(bounds((0, 4), [same], keys[:2]), ("at least", "at least"))
        for days, wanted in (([same], ""), ([same, same], ""), ([slower], "unknown"), ([slower, (-2, -3, 0, 0)], "unknown"), ([fewer], "unknown")):
            self.assertEqual(bounds((4, 4), days), (wanted, wanted), days)

    def test_lost_cars_make_bounds_of_several_roads(self) -> None:
        """Each later road is compared with the first: its bound follows from these two alone, and the words name all roads that lose cars."""
        plan = Plan(length=120, inlets=[(0, 0)], zones=[(5, 0)], detectors=[60]).to_line()
        rows = compare(figures := choose(list_figures(plan), "delay", "cars"), [[Value(1.0, 2.0, 1.0)] * len(figures)])
        for lost, bounds in (((0, 5, 0), ("at least", "")), ((5, 0, 6), ("at most", "unknown")), ((0, 0, 0), ("", ""))):
            tables = with_lost([rows, rows], ["a", "b", "c"], [{"km 0": float(cars)} for cars in lost])
            self.assertEqual(tuple(table[0].bound for table in tables), bounds)
            parts = ", ".join(f"{cars} at km 0 ({name})" for name, cars in zip("abc", lost) if cars)
            self.assertEqual({table[0].words for table in tables},
                             {(f"Cars that cannot enter are lost: {parts}; hours and delay leave them out.",) if parts else ()})
            self.assertEqual({(table[1].bound, table[1].words) for table in tables}, {("", ())})

    def test_several_roads_are_compared_with_the_first(self) -> None:
        """The table of a pair is the same whether other roads are compared too; days are paired. A road alone has one table."""
        runs, _, figures = run_day(random.Random(5), first=40, origin=0)
        runs.append(dataclasses.replace(runs[1], demands=[[(0, 700.0)]] * 3, waiting={0: range(LAST)}))
        days = [[runs[(place + day) % 3] for place in range(3)] for day in range(2)]
        tables = compare_roads(figures, [measure_roads(figures, day) for day in days])
        self.assertEqual(tables, [compare(figures, [measure_day(figures, day[0], day[place]) for day in days]) for place in (1, 2)])
        for place in range(len(figures)):
            self.assertEqual(list_means(tables, place, 3), [tables[0][place].before, tables[0][place].after, tables[1][place].after])
        alone = compare_roads(figures, [measure_roads(figures, day[:1]) for day in days])
        self.assertEqual(alone, [compare(figures, [measure_day(figures, day[0]) for day in days])])
        self.assertEqual(list_means(alone, 0, 1), [alone[0][0].after])

    def test_names(self) -> None:
        """A figure of an inlet or a detector names its place; no two figures of a road have the same name. The main road's inlet is the
        one upstream of the others."""
        plan = Plan(length=120, inlets=[(cell, 0) for cell in INLETS], zones=[(5, 0)], detectors=DETECTORS).to_line()
        figures = list_figures(plan)
        for figure in figures:
            if figure.key == "travel":
                self.assertIn(f"travel time from km {INLETS[figure.of.inlet or 0] * 0.0075:g}", figure.title)
            if figure.of.detector is not None:
                self.assertIn(f"km {DETECTORS[figure.of.detector] * 0.0075:g}", figure.title)
            self.assertIn(figure.unit, figure.title)
        self.assertEqual(len({(figure.key, figure.of) for figure in figures}), len(figures))
        titles = [figure.title for figure in figures if figure.key != "together"]
        self.assertEqual(len(set(titles)), len(titles))
        self.assertEqual([(figure.of.inlet, figure.title) for figure in figures if figure.key == "lost at"],
                         [(1, "lost main demand, cars"), (0, "lost demand of the ramp at km 0.3, cars"), (2, "lost demand of the ramp at km 0.525, cars")])
        self.assertEqual({figure.of.inlet for figure in choose(figures, "hours", "lost at", "travel", inlet=2)}, {None, 2})

    def test_rows_over_days(self) -> None:
        """Means and intervals of three days by printed values of Student's t, paired and not; what a day does not know is unknown."""
        figure = Figure("hours", "vehicle hours on the road", "vehicle hours", 2)
        before, after = [3.0, 5.0, 4.0], [4.0, 5.0, 7.0]
        days = [[Value(one, other, other - one)] for one, other in zip(before, after)]
        row, = compare([figure], days)
        for found, values in ((row.before, before), (row.after, after), (row.difference, [1.0, 0.0, 3.0])):
            self.assertAlmostEqual(found.mean or 0, statistics.mean(values), 9)
            self.assertAlmostEqual(found.half or 0, 4.302653 * statistics.stdev(values) / 3 ** 0.5, 5)
        spread = (statistics.variance(before) + statistics.variance(after)) / 2
        self.assertAlmostEqual(row.unpaired or 0, 2.776445 * (2 * spread / 3) ** 0.5, 5)
        self.assertEqual((row.others, row.may_be_chance), (0, True))
        row, = compare([figure], [*days, [Value(3.0, None, None)]])
        self.assertEqual((row.before.mean, row.after, row.difference, row.unpaired), (3.75, Mean(), Mean(), None))
        row, = compare([figure], days[:1])
        self.assertEqual((row.before, row.after, row.difference, row.may_be_chance), (Mean(3.0), Mean(4.0), Mean(1.0), None))
        row, = compare([figure], [[Value(1.0, one, one - 1.0)] for one in (2.0, 3.0, 0.5)])
        self.assertEqual(row.others, 1)


class Waiting(unittest.TestCase):
    def test_the_cars_that_arrive_during_a_queue(self) -> None:
        """Count the cars that arrive at the main inlet in the steps after which cars wait there; the flow is theirs in the time of these steps. Queues
        before the window say nothing."""
        runs, watched, _ = run_day(random.Random(8), first=60, origin=0, seconds=2.5)
        for run, seen in zip(runs, watched):
            waiting = {1: [5] * 60 + [0] * 20 + [3] * 150 + [0] * 60 + [1] * 30 + [0] * 80, 0: [2] * LAST, 2: [4] * 60 + [0] * 340}
            steps = [step for step in range(60, LAST) if waiting[1][step]]
            cars = sum(number % 16 == 1 and number // 16 in steps for number in seen.numbers)
            self.assertEqual(len(steps), 180)
            found = Waits.of(dataclasses.replace(run, waiting=waiting))
            self.assertAlmostEqual(found.arriving or 0, cars / (len(steps) * 2.5 / 3_600), 9)
            self.assertEqual((found.inlets, found.is_growing), ({0, 1}, True))
            nobody = Waits.of(dataclasses.replace(run, waiting={**waiting, 1: [5] * 60 + [0] * 340, 0: [0] * LAST}))
            self.assertEqual(nobody, Waits(frozenset(), False, None))

    def test_the_cars_at_the_end(self) -> None:
        """Count the cars of the last row of two roads, and of those that entered both how many more the second one has. A lane that is closed until
        shortly before the end keeps cars on the second road, and others from entering it."""
        plan = Plan(length=120, inlets=[(cell, 20_000) for cell in INLETS], zone=30, zones=[(4, 9_000)] * 4, words=5)
        runs, numbers, last = [], [], []
        for works in ([], [("block", 75, 250, 1), ("block", 75, 370, 0)]):
            with RoadLab(plan) as lab:
                for kind, index, step, value in works:
                    lab.edit("A", (kind, index), step, value)
                lab.advance("A", LAST)
                runs.append(read_run(lab, "A", Window(40, 385)))
                rows = [{car.number for car in lab.cars("A", step)} for step in range(386)]
                numbers.append(set().union(*rows))
                last.append(rows[385])
        both = numbers[0] & numbers[1]
        wanted = Ends(len(last[0]), len(last[1]), len(last[1] & both) - len(last[0] & both))
        self.assertEqual(compare_ends(*runs), wanted)
        self.assertNotEqual(wanted.more, wanted.after - wanted.before)
        self.assertEqual(compare_ends(*runs[::-1]), Ends(wanted.after, wanted.before, -wanted.more))

    def test_lost_cars_are_averaged_over_all_days(self) -> None:
        """Five cars are lost at a ramp on one of three days, seven and two at the main inlet on two, and none elsewhere."""
        runs, watched, _ = run_day(random.Random(9), first=40, origin=0)
        days = []
        for missing in ({0: 5, 1: 7}, {1: 2}, {2: 1}):
            arrivals = {inlet: range(40, 40 + watched[0].admitted(inlet, 40, LAST) + missing.get(inlet, 0)) for inlet in range(3)}
            days.append(dataclasses.replace(runs[0], waiting={}, arrivals=arrivals))
        self.assertEqual(average_lost(days), {"km 0.3": 5 / 3, "km 0": 9 / 3, "km 0.525": 0.0})
        self.assertEqual(average_lost([*days, dataclasses.replace(days[1], waiting={1: [3] * LAST})])["km 0"], 9 / 4)


class Days(unittest.TestCase):
    def test_ends_of_queues_that_are_not_known(self) -> None:
        """A queue that is there on one day of two has no mean end, and then its row is left out. Its hours have a row."""
        plan = Plan(length=100, zone=100, inlets=[(0, 0)], zones=[(5, 0)], words=1).to_line()
        figures = choose(list_figures(plan), "wait", "wait end", inlet=0)
        nobody = [Waits(frozenset(), False, None)] * 2
        for end, wanted in ((None, ["wait"]), (8.0, ["wait", "wait end"])):
            values = [[Value(0.0, 2.0, 2.0), Value(None, 5.0, None)], [Value(0.0, 0.0, 0.0), Value(None, end, None)]]
            rows = figures_of_days.Days(figures, [1, 2], values, [nobody] * 2, Drivers(5, 0), [{}, {}], Ends()).rows()
            self.assertEqual([row.figure.key for row in rows], wanted)

    def test_results_in_the_order_of_the_seeds(self) -> None:
        seen: list[tuple[int, int]] = []
        self.assertEqual(simulate_days(lambda seed: seed * seed, range(5, 12), lambda *done: seen.append(done)), [one * one for one in range(5, 12)])
        self.assertEqual(seen, [(done, 7) for done in range(1, 8)])

    def test_a_fault_names_its_seed(self) -> None:
        with self.assertRaisesRegex(Fault, "^seed 0: float division by zero$"):
            simulate_days(lambda seed: 1.0 / seed, [3, 0, 2])
        with self.assertRaisesRegex(Fault, "^seed 7: KeyError"):
            simulate_days(lambda job: {}[job], [(7, "works")], name=lambda job: job[0])


if __name__ == "__main__":
    unittest.main()
