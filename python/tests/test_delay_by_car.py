"""Compute the delay of single cars by hand, and read and rewind trips."""
from __future__ import annotations

import collections
import random
import unittest

from checked import Checked
from delay_recipe import ALWAYS, Edits, PLAN, close_cell
from zegdrut import Plan, RoadLab
from zegdrut.figures import Trips, Window, compare_delays, compute_demands, to_vehicle_hours
from zegdrut.figures.delay_by_car import Delay, Entered, Entries, Group
from zegdrut.figures.lost_demand import compute_supplies, find_entry
from zegdrut.figures.queues import read_roads, run_day
from zegdrut.figures.trips import CHECKPOINT
from zegdrut.program import Script
from zegdrut.roads import count_demand

NONE = Group(0, 0, 0, None)


def stop_inflow(inlet: int, step: int) -> Edits:
    """Let no car enter from the step on."""
    return [("inflow", inlet, step, 0)]


def measure_cost(both: Edits, change: Edits, to: int, first: int = 0, period: int = 60) -> Delay:
    """Return what a change costs on a road where both runs have some edits."""
    with RoadLab(PLAN) as lab:
        for at, edits in (("before", both), ("after", both + change)):
            for kind, index, step, value in edits:
                lab.edit(at, (kind, index), step, value)
            lab.advance(at, to)
        runs = [Trips(lab.plan, first=first) for _ in range(2)]
        for at, trips in zip(("before", "after"), runs):
            trips.follow(lab, at, to)
        return compare_delays(*runs, period)


# Before, the cars of the steps 0, 1, 3 and 5 enter, and take 10, 11, 11 and 11 steps. After, cell 1 is closed in the steps 2 to 5: the
# second car stands at the inlet in the rows 2 to 6, and the cars of the steps 3 and 5 cannot enter.
FOUR, SHUT = stop_inflow(0, 6), close_cell(1, 2, 6)


def make_trips(states: list[list[tuple[int, int]]], rows: list[str], first: int = 0) -> Trips:
    """Return the trips on a road of three cells with the (number, cell) of the cars in each row."""
    trips = Trips({"length": 3, "exit": 1, "inlets": [[0, 0]]}, first=first)
    trips.read(dict(enumerate(states, first)), rows)
    return trips


def describe_fault(before: Trips, after: Trips) -> str:
    try:
        return f"nothing: {compare_delays(before, after)}"
    except (ValueError, ArithmeticError) as error:
        return f"{type(error).__name__}: {error}"


class Cars(Checked):
    def test_one_car(self) -> None:
        """Delay a single car: cell 5 is closed in the steps 2 to 6, so car 0 stands on cell 4 in the rows 4 to 7."""
        found = measure_cost(stop_inflow(0, 1), close_cell(5, 2, 7), 20)
        self.check("one car", found, Delay(Group(1, 10, 13, 3), Group(1, 10, 13, 3), NONE, NONE, NONE,
                                      {0: Entries(Group(1, 10, 13, 3), 0, 0)}, {0: Entered(1, 1, 0, 0)}, 3))
        self.check("one car's total", found.total, 3)
        self.check("one car's mean", found.through.mean, 3.0)
        self.check("veh·h", to_vehicle_hours(found.total, 1_200), 1.0)

    def test_lost_cars(self) -> None:
        """Lose two cars: the first two cars take 10 and 11 steps before, and 10 and 15 after."""
        self.check("lost cars", measure_cost(FOUR, SHUT, 20, period=5),
              Delay(Group(2, 21, 25, 4), Group(1, 11, 15, 4), NONE, Group(2, 22, 0, -11), NONE,
                    {0: Entries(Group(2, 21, 25, 4), 1, 0), 1: Entries(NONE, 1, 0)}, {0: Entered(4, 2, 2, 0)}, -18))

    def test_waiting_cars(self) -> None:
        """Let the same two cars wait. A car is missing after step 3, so whoever finds the cell free enters from then on. The second car moves on in step 6, so
        the third one enters in step 7. It stands for a step, so the fourth enters in step 9. From their arrivals in the steps 3 and 5 both take 15
        steps, as the second car does. One car waits after the steps 3 and 4, two after 5 and 6, and one after 7 and 8."""
        for seconds, inlets in ((1.0, [[0, ALWAYS], [6, 0]]), (600.0, [[6, 0], [0, ALWAYS]])):
            scripts = []
            for change in ([], SHUT):
                edits = [{"edit": {"at": "before", "object": [kind, inlets.index([0, ALWAYS]) if kind == "inflow" else index], "step": step, "value": value}}
                         for kind, index, step, value in FOUR + change]
                scripts.append(Script({**PLAN.to_line(), "inlets": inlets}, [*edits, {"advance": {"at": "before", "to": 24}}]))
            runs = [run_day(road.script, road.free, Window(0, 24), seconds=seconds) for road in read_roads("ab", scripts)]
            main = inlets.index([0, ALWAYS])
            self.check("a queue: before and after", [list(run.list_waiting(main)) for run in runs],
                  [[0] * 24, [0, 0, 0, 1, 1, 2, 2, 1, 1, *[0] * 15]])
            cost = compare_delays(*(run.by_arrival for run in runs))
            self.check("a queue: delay", (cost.through, cost.lost, cost.gained, cost.inside, cost.total, cost.by_rows),
                  (Group(4, 43, 55, 4), NONE, NONE, NONE, 12, 12))
            self.check("a queue: nobody waited before", runs[0].by_arrival, runs[0].trips)
            lost = [run_day(road.script, None, Window(0, 24)) for road in read_roads("ab", scripts)]
            self.check("no queue", compare_delays(*(run.by_arrival for run in lost)).total, -18)

    def test_gained_cars(self) -> None:
        """Withdraw the same change: the second car leaves four steps earlier."""
        self.check("gained cars", measure_cost(FOUR + SHUT, [("block", 1, 2, 0)], 20),
              Delay(Group(2, 25, 21, 0), NONE, NONE, NONE, Group(2, 0, 22, 11),
                    {0: Entries(Group(2, 25, 21, 0), 0, 2)}, {0: Entered(2, 4, 0, 2)}, 18))

    def test_cars_inside(self) -> None:
        """End the run in row 14. Before, the second car has left (it is last in row 12); the third is on cell 10 and has taken 11 steps; the
        fourth, of step 5, is on the road in the rows 6 to 14. After, the second car is on cell 8 and has taken 13 steps."""
        self.check("cars inside", measure_cost(FOUR, SHUT, 14),
              Delay(Group(1, 10, 10, 0), NONE, Group(1, 11, 13, 2), Group(2, 20, 0, -9), NONE,
                    {0: Entries(Group(1, 10, 10, 0), 2, 0)}, {0: Entered(4, 2, 2, 0)}, -18))

    def test_on_a_ramp(self) -> None:
        """Let cars enter at cell 6 in the steps 6 and 7, if the cell is free. Before, car 0 is there in step 6. In step 7 it is on cell 7, so
        the car that enters stands for a step, and is last seen in row 12: it takes 5 steps. After, cell 3 is closed in the steps 1 to 4, and
        car 0 stands on cell 2 in the rows 2 to 5. So a car of step 6 enters as well and takes 4 steps. The car of step 7 stands for a step
        behind it, and takes 5 steps as before. Car 0, on cell 5 in row 8, stands for a step behind that car: it takes 10 + 3 + 1 steps."""
        ramp = [("inflow", 1, 6, ALWAYS), ("inflow", 1, 8, 0)]
        self.check("a ramp", measure_cost(stop_inflow(0, 1) + ramp, close_cell(3, 1, 5), 30),
              Delay(Group(2, 10 + 5, 14 + 5, 4), Group(1, 10, 14, 4), NONE, NONE, Group(1, 0, 4, 4),
                    {0: Entries(Group(2, 15, 19, 4), 0, 1)}, {0: Entered(1, 1, 0, 0), 1: Entered(1, 2, 0, 1)}, 8))

    def test_lost_demand(self) -> None:
        """Compute lost demand. Without slowing, chance 1 admits a car in two steps. Inlet 0 has a demand of 3 cars in six steps. Four cars
        enter before, and two after, when cell 1 was closed, so one is lost. The ramp has a demand of 5 cars in the steps 6 to 15, and is then
        switched off, which loses nothing."""
        ramp = [("inflow", 1, 6, ALWAYS), ("inflow", 1, 16, 0)]
        with RoadLab(PLAN) as lab:
            for at, edits in (("before", FOUR + ramp), ("after", FOUR + SHUT)):
                for kind, index, step, value in edits:
                    lab.edit(at, (kind, index), step, value)
                lab.advance(at, 20)
            rates = [compute_demands({**lab.plan, "inlets": [[0, ALWAYS]]}, lab.scenario(at), 20) for at in ("before", "after")]
            ramps = compute_demands({**lab.plan, "inlets": [[6, 0]]}, [edit._replace(object=("inflow", 0)) for edit in lab.scenario("before")
                                                                  if edit.object == ("inflow", 1)], 20)
        self.check("demand of the inlet", [count_demand(one[0], 0, 20) for one in rates], [3.0, 3.0])
        self.check("lost after", compute_supplies(rates[1], [2], Window(0, 20))[0].lost, 1.0)
        self.check("demand of the ramp", (count_demand(ramps[0], 0, 20), count_demand(ramps[0], 16, 20)), (5.0, 0.0))

    def test_from_a_row_on(self) -> None:
        """Begin at a later row. Cell 8 is closed in the steps 6 to 9. Car 0, on cell 6 in row 6, stands on cell 7 in the rows 7 to 10, and is
        three steps late. Each car behind it stops a step later, a cell further back, and starts a step later, so it is three steps late as
        well. The result from row 6 on equals that from row 0 on."""
        found = measure_cost(FOUR, close_cell(8, 6, 10), 24, first=6)
        self.check("from a row on", (found.through, found.total, found.by_rows, found.lost, found.gained, found.inside),
              (Group(4, 43, 55, 3), 12, 12, NONE, NONE, NONE))
        self.check("as from row 0 on", found, measure_cost(FOUR, close_cell(8, 6, 10), 24))

    def test_wrong_trips(self) -> None:
        one_trip = [[], [(0, 0)], [(0, 1)], []], ["...", "0..", ".1.", "..."]
        some, wrong = make_trips(*one_trip), make_trips(*one_trip)
        self.check("two ends", describe_fault(some, make_trips([[], [(0, 0)], []], ["...", "0..", "..."])),
              "ValueError: one run ends at row 3, the other at row 2: follow both over the same rows")
        self.check("two beginnings", describe_fault(some, make_trips([[(0, 0)], [(0, 1)], []], ["0..", ".1.", "..."], 1)),
              "ValueError: one run begins at row 0, the other at row 1: follow both over the same rows")
        self.check("too late a row", describe_fault(make_trips([[(16, 0)]], ["0.."], 5), make_trips([[(32, 0)]], ["0.."], 5)),
              "ValueError: the runs differ before row 5: begin at an earlier row")
        wrong.left[0] = 1
        self.check("a wrong time", describe_fault(some, wrong), "ArithmeticError: the travel times add up to -1 steps, but the rows to 0")
        for name, states, rows, wanted in (
                ("a car that comes back", [[], [(0, 0)], [], [(0, 0)]], ["...", "0..", "#..", "0.."],
                 "0 cars left between rows 2 and 3, but the rows show -1"),
                ("a missing car", [[], [(0, 0)], [(0, 0)]], ["...", "0..", "01."], "0 cars left between rows 1 and 2, but the rows show -1"),
                ("another first row", [[(0, 0)]], ["00."], "row 5 has 2 cars, and 1 were given")):
            try:
                self.check(name, make_trips(states, rows, 5 if len(rows) == 1 else 0), "a refusal")
            except ArithmeticError as error:
                self.check(name, str(error), wanted)

    def test_sparse_rows(self) -> None:
        """Read trips from the cars of some rows: they equal the trips from the cars of all rows, on a road where cars are slowed, with a ramp
        near its end, a closed cell and a withdrawn inflow, from several rows on."""
        plan = Plan(length=60, inlets=[(0, 30_000), (40, 9_000)], zones=[(9, 20_000), (4, 0)], zone=45, words=3)
        with RoadLab(plan) as lab:
            for kind, index, step, value in (*close_cell(50, 30, 55), ("inflow", 1, 100, 0), ("limit", 1, 80, 9)):
                lab.edit("A", (kind, index), step, value)
            lab.advance("A", 200)
            for first, to in ((0, 200), (20, 200), (77, 79), (40, 40)):
                sparse, dense = Trips(lab.plan, [30], first), Trips(lab.plan, [30], first)
                sparse.follow(lab, "A", to)
                dense.read({step: [(car.number, car.cell) for car in lab.cars("A", step)] for step in range(first, to + 1)},
                           lab.diagram("A", first, to))
                for name in ("left", "passed", "cars", "initial", "horizon"):
                    self.check(f"rows {first} to {to}: {name}", getattr(sparse, name), getattr(dense, name))

    def test_rewinding(self) -> None:
        """Rewind trips to an edit in the past, and continue them: they equal trips that are read from row 0, and only the rows since a
        checkpoint are read again."""
        plan = Plan(length=60, inlets=[(0, 30_000), (20, 9_000)], zones=[(5, 12_000)], words=3)
        with RoadLab(plan) as lab:
            lab.advance("A", 2_500)
            trips = Trips(lab.plan, [30])
            for to in range(100, 2_501, 100):
                trips.follow(lab, "A", to)
            for number, step in enumerate((2_400, 1_500, 700, 0, 2_500)):
                lab.edit("A", ("block", 40 + number), step, 1)
                if step < 2_400:  # (else cars that had left stay on the road)
                    lab.edit("A", ("block", 40 + number), step + 40, 0)
                trips.rewind(step)
                self.check(f"step {step}: only a piece is read again", step - CHECKPOINT - 100 < trips.horizon <= step, True)
                trips.follow(lab, "A", 2_500)
                anew = Trips(lab.plan, [30])
                anew.follow(lab, "A", 2_500)
                for name in ("left", "passed", "cars"):
                    self.check(f"step {step}: {name}", getattr(trips, name), getattr(anew, name))


class FreeEntries(unittest.TestCase):
    def test_cells_without_slowing(self) -> None:
        """Count the cells at the beginning of random roads in which nobody is slowed: they are the entry of an inlet that is not before their end."""
        chance = random.Random(6)
        found = set()
        for _ in range(40):
            zone = chance.randrange(7, 30)
            zones = [(5, 0)] * chance.randrange(4) + [(4, chance.choice((0, 9_000, 12_000))) for _ in range(3)]
            plan = Plan(length=zone * len(zones), zone=zone, zones=zones, inlets=[(0, 9)]).to_line()
            for cell in (0, zone, 2 * zone, 2 * zone + 5):
                free = next((place for place in range(zone * len(zones)) if zones[place // zone][1]), zone * len(zones))
                self.assertEqual(find_entry(plan, cell), free if free <= cell else 0)
                found.add(find_entry(plan, cell))
        self.assertGreater(len(found), 10)


class Periods(unittest.TestCase):
    def test_cars_by_their_entry(self) -> None:
        """Compare two random runs by loops over `cars` of each step: the cars of each period of entry, which is counted from a step that no period of
        step 0 begins with, and those of each inlet."""
        plan = Plan(length=70, inlets=[(0, 24_000), (30, 9_000)], zone=35, zones=[(5, 9_000), (4, 14_000)], words=6, replicas=["before", "after"])
        period, begin, last = 37, 15, 260
        with RoadLab(plan) as lab:
            for step, value in ((60, 1), (140, 0)):
                lab.edit("after", ("block", 45), step, value)
            runs, rows = [], []
            for at in ("before", "after"):
                lab.advance(at, last)
                runs.append(Trips(lab.plan))
                runs[-1].follow(lab, at, last)
                rows.append([{car.number for car in lab.cars(at, step)} for step in range(last + 1)])
        steps = [collections.Counter(number for row in each for number in row) for each in rows]
        every = sorted(set(steps[0]) | set(steps[1]))

        def make_entries(numbers: list[int]) -> Entries:
            through = [number for number in numbers if all(number in one and number not in each[-1] for one, each in zip(steps, rows))]
            delays = [steps[1][number] - steps[0][number] for number in through]
            return Entries(Group(len(through), sum(steps[0][number] for number in through), sum(steps[1][number] for number in through),
                                 max(delays, default=None)),
                           sum(number not in steps[1] for number in numbers), sum(number not in steps[0] for number in numbers))
        keys = sorted({(number // 16 - begin) // period for number in every})
        found = compare_delays(*runs, period=period, begin=begin)
        self.assertEqual(found.periods, {key: make_entries([number for number in every if begin + period * key <= number // 16 < begin + period * (key + 1)])
                                         for key in keys})
        self.assertEqual(keys, list(range(-1, 7)))
        self.assertTrue(any(one.lost for one in found.periods.values()))
        for inlet, entered in found.inlets.items():
            both = [{number for number in one if number % 16 == inlet} for one in steps]
            self.assertEqual(entered, Entered(*map(len, (both[0], both[1], both[0] - both[1], both[1] - both[0]))))


if __name__ == "__main__":
    unittest.main()
