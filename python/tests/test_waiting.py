"""Let cars wait before a road, and check the queue by the cars of each step and by a longer road."""
from __future__ import annotations

import dataclasses
import unittest

from zegdrut import Plan, RoadLab
from zegdrut.base.wire import Fields
from zegdrut.figures import RoadRun, Trips, Window, read_run
from zegdrut.figures.queues import Ends, Waits, explain_end, explain_outflow
from zegdrut.figures.trips import compute_delay
from zegdrut.figures.waiting import Queue, find_arrivals, find_narrow_zone, let_wait, make_waiting_roads, name_by_arrival
from zegdrut.program import Script
from zegdrut.reports import Side
from zegdrut.reports.report_tables import make_table, run_side
from zegdrut.roads import Drivers, FIGURES
from zegdrut.roads.capacity import measure_outflow

LAST, ALWAYS = 2_400, 65_536
CHANCE = 18_000
CLOSED = [("block", 90, 300, 1), ("block", 90, 800, 0)]
"""Works that close a cell of a road of 200 cells."""


def make_script(works: list[tuple[str, int, int, int]], ramp: int = 0, upstream: int = 0, seed: int = 3, last: int = LAST,
                has_start: bool = True) -> Script:
    """Return a script of a road with a main inlet, and a ramp that may be shut. `upstream` are more cells before the road. Cars are slow to
    start, or the slowing of the first zone changes during the queue."""
    plan = Plan(length=200 + upstream, inlets=[(0, CHANCE), (50 + upstream, ramp)], zone=40, zones=[(5, 10_000)] * ((200 + upstream) // 40), words=seed)
    edits: list[tuple[str, int, int, int]] = [("inflow", 0, 900, CHANCE - 2_000), ("inflow", 0, 1_500, CHANCE - 6_000),
                                              *([("start", zone, 0, 20_000) for zone in range(len(plan.zones))] if has_start else
                                                [("slow", 0, 600, 12_000)])]
    lines: list[Fields] = [{"edit": {"at": "A", "object": [kind, index + upstream * (kind == "block")], "step": step, "value": value}}
                           for kind, index, step, value in [*edits, *works]]
    return Script(plan.to_line(), [*lines, {"advance": {"at": "A", "to": last}}])


def run(script: Script, free: Script) -> tuple[RoadRun, dict[int, list[int]], dict[int, Queue], list[set[int]], list[tuple[str, int, int, int]]]:
    """Return the run with queues, its arrivals and queues, the numbers of the cars in each row, and all edits."""
    last = script.commands[-1]["advance"]["to"]  # type: ignore[index, call-overload]
    with RoadLab(script.plan) as lab:
        for line in script.commands[:-1]:
            lab.ask(line)
        arrivals = find_arrivals(script, free, last)
        queues = let_wait(lab, "A", arrivals, last)
        rows = [{car.number for car in lab.cars("A", step)} for step in range(last + 1)]
        return (read_run(lab, "A", Window(0, last)), arrivals, queues, rows,
                [(edit.object[0], edit.object[1], edit.step, edit.value or 0) for edit in lab.scenario("A")])


def entries(rows: list[set[int]], inlet: int) -> list[int]:
    """Return the steps in which cars enter at an inlet."""
    return [step for step in range(len(rows) - 1) if step * 16 + inlet in rows[step + 1]]


def value_at(edits: list[tuple[str, int, int, int]], kind: str, index: int, step: int, default: int) -> int:
    return max(((date, value) for one, place, date, value in edits if (one, place) == (kind, index) and date <= step), default=(0, default))[1]


class Waiting(unittest.TestCase):
    def test_the_queue_step_by_step(self) -> None:
        """Arrivals are the entries on a long free road. The cars that wait are the arrivals minus the entries, and each step has the
        settings of the queue exactly if cars wait, else those of the script."""
        for has_start in (True, False):
            script, free = make_script(CLOSED, has_start=has_start), make_script([], has_start=has_start)
            _, arrivals, queues, rows, edits = run(script, free)
            long = free._replace(plan={**free.plan, "length": 1_000, "zones": [[5, 10_000]] * 25})
            with RoadLab(long.plan) as lab:
                for line in long.commands:
                    lab.ask(line)
                self.assertEqual(arrivals[0], entries([{car.number for car in lab.cars("A", step)} for step in range(LAST + 1)], 0))
            entered, waiting = entries(rows, 0), queues[0].waiting
            self.assertEqual(len(entered), len(arrivals[0]))
            self.assertEqual(waiting, [sum(one <= step for one in arrivals[0]) - sum(one <= step for one in entered) for step in range(LAST)])
            self.assertGreater(max(waiting), 50)
            self.assertEqual(waiting[-1], 0)
            plain = [(one["object"][0], one["object"][1], one["step"], one["value"]) for line in script.commands[:-1] for one in [line["edit"]]]  # type: ignore
            for step in range(1, LAST):
                for kind, default, held in (("inflow", CHANCE, ALWAYS), ("slow", 10_000, 0), ("start", None, 0)):
                    usual, found = (value_at(one, kind, 0, step, value_at(one, "slow", 0, step, 10_000) if default is None else default)
                                    for one in (plain, edits))
                    self.assertEqual(found, held if waiting[step - 1] else usual, (kind, step))

    def test_the_delay_has_all_cars(self) -> None:
        """The delay by arrivals is the time of all cars on the road and before it, after minus before."""
        free = make_script([])
        runs = [run(script, free) for script in (free, make_script(CLOSED))]
        trips = [name_by_arrival(one[0].trips, one[1], one[2]) for one in runs]
        self.assertIs(trips[0], runs[0][0].trips)
        steps = [sum(map(len, one[3])) + sum(one[2][0].waiting) for one in runs]
        delay = compute_delay(*trips, Window(0, LAST))
        self.assertEqual((delay.seconds, delay.cars), (steps[1] - steps[0], len(runs[0][1][0])))

    def test_a_road_that_loses_nobody(self) -> None:
        """Nothing is changed, and the table has the same rows with a queue and without; with a queue no demand is lost."""
        free = make_script([], ramp=3_000)
        one, _, queues, _, edits = run(free, free)
        self.assertEqual(len(edits), len(free.commands) - 1)
        self.assertFalse(any(queues[0].waiting))
        sides = [Side("before", free, [[(0, 900.0)], [(0, 100.0)]], with_queue) for with_queue in (None, free)]
        tables = [make_table([side], [[run_side(side, 3, Window(60, LAST), False)]], Window(60, LAST)) for side in sides]
        rows = [{row.figure.title: (row.after.mean, row.bound) for row in table} for table in tables]
        self.assertEqual([one.pop("lost demand, cars") for one in rows], [(650.0 - tables[0][2].after.mean, ""), (0.0, "")])
        self.assertEqual(*rows)

    def test_a_ramp(self) -> None:
        """A ramp's arrivals are its entries on the road without works. From three missing cars on they wait, and all of them enter."""
        script, free = make_script(CLOSED, ramp=6_000), make_script([], ramp=6_000)
        _, arrivals, queues, rows, _ = run(script, free)
        with RoadLab(free.plan) as lab:
            for line in free.commands:
                lab.ask(line)
            self.assertEqual(arrivals[1], entries([{car.number for car in lab.cars("A", step)} for step in range(LAST + 1)], 1))
        entered, is_open = entries(rows, 1), False
        self.assertGreater(max(queues[1].waiting), 20)
        for step, cars in enumerate(queues[1].waiting):
            missing = sum(one <= step for one in arrivals[1]) - sum(one <= step for one in entered)
            is_open = missing >= (1 if is_open else 3)
            self.assertEqual(cars, missing if is_open else 0, step)
        self.assertFalse(is_open)

    def test_a_longer_road(self) -> None:
        """The delay is near that of a road on which the queue has place, and far above that without the cars that cannot enter."""
        found = [0.0, 0.0, 0.0]
        for seed in (3, 4, 5):
            for place, (upstream, has_queue) in enumerate(((0, False), (0, True), (400, False))):
                scripts = [make_script(works, upstream=upstream, seed=seed) for works in ([], CLOSED)]
                sides = [Side("", script, [], scripts[0] if has_queue else None) for script in scripts]
                before, after = (run_side(side, seed, Window(0, LAST), False).by_arrival for side in sides)
                found[place] += compute_delay(before, after, Window(0, LAST)).seconds
        self.assertLess(found[0], 0.75 * found[2])
        self.assertLess(abs(found[1] - found[2]), 0.15 * found[2])

    def test_at_least(self) -> None:
        """A run that ends while cars wait says so; the cars that wait count in the delay up to then."""
        script, free = make_script(CLOSED, last=900), make_script([], last=900)
        sides = [Side("before", free, [[(0, 900.0)]] * 2, free), Side("after", script, [[(0, 900.0)]] * 2, free)]
        window = Window(0, 900)
        days = [[run_side(side, 3, window, False) for side in sides]]
        self.assertGreater(days[0][1].waiting[0][-1], 20)
        rows = {row.figure.title: row for row in make_table(sides, days, window)}
        self.assertEqual({title for title, row in rows.items() if row.bound == "at least" and "on the road after" in "".join(row.words)},
                         {"delay, vehicle hours", "vehicle hours waiting before km 0", "longest queue before km 0, cars",
                          "end of the queue before km 0, min after the begin", "vehicle hours on the road", "vehicle hours on the road and before it"})
        difference = rows["vehicle hours on the road and before it"].difference.mean
        self.assertAlmostEqual(rows["delay, vehicle hours"].difference.mean or 0, difference or -1, 9)
        swapped = make_table(sides[::-1], [day[::-1] for day in days], window)
        self.assertEqual({row.bound for row in swapped}, {"", "at most"})

    def test_a_run_that_ends_while_cars_are_late(self) -> None:
        """Nobody waits, but a queue on the road is there when the run ends: hours and delay say so, and how many cars more that road has."""
        last = 850
        script, free = make_script([("block", 180, 800, 1)], last=last), make_script([], last=last)
        sides = [Side(name, one, [[(0, 900.0)]] * 2, free) for name, one in (("open", free), ("closed", script))]
        days = [[run_side(side, 3, Window(0, last), False) for side in sides]]
        before, after = (run(one, free)[3] for one in (free, script))
        both = set().union(*before) & set().union(*after)
        more = len(after[-1] & both) - len(before[-1] & both)
        self.assertGreater(more, 2 * len(before[-1]) ** 0.5)
        for rows, bound in ((make_table(sides, days, Window(0, last)), "at least"), (make_table(sides[::-1], [days[0][::-1]], Window(0, last)), "at most")):
            self.assertEqual({row.figure.title: row.bound for row in rows if row.bound},
                             dict.fromkeys(["delay, vehicle hours", "vehicle hours on the road"], bound))
            self.assertEqual({one.partition(" The figures")[0] for row in rows for one in row.words},
                             {f"The run ends too early: at its end the road closed has {more} more cars than the road open."})

    def test_cars_wait_or_are_late(self) -> None:
        """A sentence names each road on which the run ends too early, once: because cars wait, or else because at least one more car is there, beyond
        chance."""
        waiting, none = Waits(frozenset({0}), True, None), Waits(frozenset(), False, None)
        waits, late = "Cars still wait at the end on the road {}: the figures of delay and waiting do not include what these cars lose later.", (
            "The run ends too early: at its end the road {} has {} than the road {}. The figures of delay do not include what these cars lose later: let the run end "
            "later.")
        for day, ends, wanted in (
                ([waiting, none], Ends(9, 40, 30), f"{waits.format('a')} {late.format('b', '30 more cars', 'a')}"),
                ([none, waiting], Ends(9, 40, 30), waits.format("b")), ([none, none], Ends(9, 40, 30), late.format("b", "30 more cars", "a")),
                ([none, none], Ends(40, 9, -7), late.format("a", "7 more cars", "b")), ([none, none], Ends(9, 40, 6), ""),
                ([none, none], Ends(0, 0.2, 0.2), ""), ([none, none], Ends(0, 1, 1), late.format("b", "1 more car", "a"))):
            self.assertEqual(explain_end(["a", "b"], [day], ends), wanted)

    def test_cars_that_nobody_knows(self) -> None:
        """Cars that enter although nobody arrived keep their numbers, and no two cars get one number. Each car is on the road in the rows after
        its number's step."""
        trips = Trips({"length": 30, "exit": 1, "inlets": [[0, 0]]}, left={160: 20, 240: 30, 320: None}, cars=[0] * 11 + [1] * 4 + [2] * 2)
        queue = Queue(waiting=[0] * 12 + [1] * 4)
        for arrived, numbers in (([10, 20], {160: 20, 240: 30, 320: None}), ([8, 15], {128: 20, 240: 30, 320: None}),
                                 ([8, 9, 15], {128: 20, 144: 30, 240: None}), ([8, 9, 10, 15], {128: 20, 144: 30, 160: None, 240: None})):
            long = dataclasses.replace(trips, cars=[sum(step < row for step in (10, 15, 20)) - sum(step < row for step in (20, 30)) for row in range(41)])
            found = name_by_arrival(long, {0: arrived}, {0: queue})
            self.assertEqual(found.left, numbers, arrived)
            steps = [number // 16 for number in numbers]
            self.assertEqual(found.cars, [sum(step < row for step in steps) - sum(step < row for step in (20, 30)) for row in range(41)], arrived)

    def test_close_to_the_outflow(self) -> None:
        """A page says that the waiting is too low if fewer than 300 cars an hour lie between the demand and the flow out of a queue. That flow is
        within the intervals of the table of inlets, which another program measured."""
        for slowing, flow, half in ((0.1, 2_430, 52), (0.25, 1_854, 52), (0.5, 1_155, 55)):
            found = measure_outflow(Drivers(5, round(slowing * ALWAYS)))
            self.assertLess(abs(found.mean - flow), half + found.half)
        drivers = Drivers(5, 10_486, 29_491, entry=40)
        outflow = measure_outflow(drivers._replace(entry=0)).mean
        for demand, is_said in ((outflow - 301, False), (outflow - 299, True), (None, False)):
            said = explain_outflow(drivers, [[Waits(frozenset(), False, None), Waits(frozenset({0}), False, demand)]])
            self.assertEqual([f"{demand:,.0f} cars per hour arrive, and a queue lets out {outflow:,.0f}" in one for one in said], [True] * is_said)

    def test_the_demand_while_cars_wait(self) -> None:
        """The cars that arrive at the main inlet in the steps in which cars wait, per hour."""
        run_of_day, arrivals, queues, *_ = run(make_script(CLOSED), make_script([]))
        waited = dataclasses.replace(run_of_day, waiting={0: queues[0].waiting}, arrived=name_by_arrival(run_of_day.trips, arrivals, queues))
        steps = [step for step, cars in enumerate(queues[0].waiting) if cars]
        self.assertAlmostEqual(Waits.of(waited).arriving or 0, 3_600 * len(set(steps) & set(arrivals[0])) / len(steps))
        self.assertEqual(Waits.of(waited), (frozenset({0}), False, Waits.of(waited).arriving))

    def test_a_narrow_zone(self) -> None:
        """A road without sections gets a first zone of at most 1.5 km; a width that the file sets stays."""
        self.assertEqual(find_narrow_zone(800, [dataclasses.replace(FIGURES, length=6, sections=[])]), 200)
        self.assertEqual(find_narrow_zone(150, [dataclasses.replace(FIGURES, length=6, sections=[])]), 150)
        self.assertEqual(find_narrow_zone(400, [dataclasses.replace(FIGURES, length=6, sections=[], zone=3)]), 400)
        for zone, wanted in ((None, 200), (3, 400)):
            self.assertEqual([road.zone for road in make_waiting_roads([dataclasses.replace(FIGURES, length=6, sections=[], zone=zone)])], [wanted])


if __name__ == "__main__":
    unittest.main()
