"""Check the inflow chance for a demand, and lost demand, by roads that were worked out and by long runs."""
from __future__ import annotations

import math
import os
import random
import statistics
import unittest

from checked import Checked
from measured_recipe import ALWAYS
from zegdrut import Plan, RoadLab
from zegdrut.figures import Trips, Window, count_admitted_cars
from zegdrut.figures.trips import count_detector
from zegdrut.roads.demand import (
    BeyondCapacity, Drivers, Inlet, QUICK, Supply, bring_closer, convert_demands, count_admitted, count_demand,
    measure_admission)

IS_ALL = "ALL_TESTS" in os.environ


def count_free_steps(inlets: list[Inlet], drivers: Drivers, steps: int, seed: int) -> int:
    """Count the steps in which the cell of the last inlet is free, in the rows of a road."""
    cell, length = inlets[-1].cell, inlets[-1].cell + 100
    zones = [(drivers.limit, drivers.slowing if zone else 0) for zone in range(-(-length // drivers.entry))]
    with RoadLab(Plan(length=length, zone=drivers.entry, inlets=inlets, zones=zones, words=seed)) as lab:
        for zone in range(1, len(zones)):
            lab.edit("A", ("start", zone), 0, drivers.start or 0)
        lab.advance("A", 1_000 + steps, progress=lambda *_: None)
        return sum(row[cell] == "." for row in lab.diagram("A", 1_000, 999 + steps))


class Demands(Checked):
    def test_without_slowing(self) -> None:
        """Check the exact flow without slowing. A car that enters leaves the inlet at once, but a car that enters one step after it waits a
        step. So f = q / (1 + q q), and 1,000 cars per hour need the q with 1 / q + q = 3.6. At chance 1 a car enters in every second step:
        1,800 per hour."""
        free = measure_admission(Drivers(5, 0))
        self.check_near("the chance of 1,000 cars an hour", free.chance(1_000) / ALWAYS, (3.6 - math.sqrt(3.6 ** 2 - 4)) / 2, 0.0002)
        self.check_near("capacity without slowing", free.capacity, 1_800, 0.01)
        try:
            self.check("beyond the capacity", free.chance(1_801), "a refusal")
        except BeyondCapacity as fault:
            self.check("beyond the capacity", (fault.demand, round(fault.capacity)), (1_801, 1_800))
        self.check("no demand", free.chance(0), 0)

    def test_accuracy(self) -> None:
        """Check the chance for a demand by runs of 100,000 seconds with other seeds: within 0.5 % or two standard errors in nine cases of ten,
        and never more than twice as far off."""
        chance, fine, number = random.Random(11), 0, 0
        for case in range(24 if IS_ALL else 4):
            drivers = Drivers(chance.choice((5, 5, 4, 3, 2)), round(chance.uniform(0.02, 0.45) * ALWAYS),
                              chance.choice((None, round(chance.uniform(0.1, 0.6) * ALWAYS))))
            capacity = measure_admission(drivers, effort=QUICK).capacity
            cells, demands = [0], [[(0, chance.uniform(0.3, 0.9) * capacity)]]
            if case % 2:
                cells.append(chance.randint(40, 150))
                demands.append([(0, chance.uniform(0.2, 0.7) * (capacity - demands[0][0][1]))])
            inlets = [Inlet(cell, found[0][1]) for cell, found in zip(cells, convert_demands(cells, demands, drivers))]
            bounds = [1_000 + 4_000 * piece for piece in range(26)]
            for asked, cars in zip(demands, zip(*count_admitted(inlets, drivers, bounds, 7_000 + case))):
                hourly = [one * 0.9 for one in cars]
                off, error = statistics.mean(hourly) - asked[0][1], statistics.stdev(hourly) / 5
                allowed, number = max(0.005 * asked[0][1], 2 * error), number + 1
                fine += abs(off) <= allowed
                if abs(off) > 2 * allowed:
                    self.check(f"{drivers}, a demand of {asked[0][1]:.1f}", statistics.mean(hourly), f"{asked[0][1]:.1f} +- {allowed:.1f}")
        self.check("demands that are admitted", fine >= 0.9 * number - 1, True)

    def test_quick_accuracy(self) -> None:
        """Check the chances that `QUICK` gives a ramp, by the free steps of its cell on the whole road, with other seeds: the demand is admitted
        within 1 % or two standard errors in nine cases of ten, and never more than twice as far off. In the first case hardly anybody is slowed:
        with limit 5 a car from the inlet then occupies every fifth cell only, 300 cells further on, too."""
        chance, fine, number = random.Random(21), 0, 0
        cases = [(Drivers(5, 1_311, 8_520, 40), 300, 589.0, 176.0)]
        for _ in range(23 if IS_ALL else 3):
            drivers = Drivers(chance.choice((5, 5, 4, 3)), round(chance.uniform(0, 0.4) * ALWAYS), round(chance.uniform(0, 0.7) * ALWAYS), 40)
            cases.append((drivers, chance.choice((150, 300, 480)), chance.uniform(500, 1_200), chance.uniform(70, 450)))
        for drivers, cell, main, ramp in cases:
            demands = [[(step, share * cars) for step, share in enumerate((0.6, 1.0, 0.8, 0.9))] for cars in (main, ramp)]
            try:
                found = [dict(changes)[1] for changes in convert_demands([0, cell], demands, drivers, QUICK)]
            except BeyondCapacity:
                continue
            inlets = [Inlet(0, found[0]), Inlet(cell, found[1])]
            flows = [found[1] / ALWAYS * count_free_steps(inlets, drivers, 12_500, 9_000 + seed) / 12_500 * 3_600 for seed in range(8)]
            off, error = abs(statistics.mean(flows) - ramp), statistics.stdev(flows) / math.sqrt(8)
            allowed, number = max(0.01 * ramp, 2 * error), number + 1
            fine += off <= allowed
            if off > 2 * allowed:
                self.check(f"{drivers}, a ramp of {ramp:.1f} at cell {cell}", statistics.mean(flows), f"{ramp:.1f} +- {allowed:.1f}")
        self.check("quick demands that are admitted", (fine >= 0.9 * number - 1, number > len(cases) / 2), (True, True))

    def test_lost_demand(self) -> None:
        """Compute lost demand by hand. Without slowing, chance 1 is a demand of 1,800 cars per hour. Cars enter in step 0 and in each odd
        step. The inlet is closed in the steps 600 to 899, so 150 cars are lost. Its cell is free after that, so a car enters in step 900 as
        well. With the car of step 0 these are two more than one car in two steps. From step 1,800 on the demand is 0, which loses nothing.
        With a slowing chance of 3/4 at the inlet, 592 cars per hour are admitted, so about 608 of 1,200 cars per hour are lost; the demand
        stays the same."""
        with RoadLab(Plan(length=60, inlets=[(0, ALWAYS)], zones=[(5, 0)], detectors=[30])) as lab:
            for kind, step, value in (("block", 600, 1), ("block", 900, 0), ("inflow", 1_800, 0)):
                lab.edit("A", (kind, 0), step, value)
            lab.advance("A", 3_600)
            trips = Trips(lab.plan, [])
            trips.follow(lab, "A", 3_600)
            rates = [(0, 1_800.0), (1_800, 0.0)]
            came = count_admitted_cars(trips, Window(0, 3_600))[0]
            supply = Supply(count_demand(rates, 0, 3_600), came)
            self.check("closed at the inlet", (supply.demand, supply.lost), (900.0, 150.0 - 2))
            lab.edit("A", ("watch", 0), 1_200, 0)
            lab.edit("A", ("watch", 0), 1_500, 1)
            count = count_detector(lab, "A", 0, Window(1_000, 1_800))
            self.check("a detector that was off", (count.cars, count.seconds_on, count.flow, count.was_off), (250, 500, 1_800.0, True))
            self.check("in a window of five minutes", Supply(count_demand(rates, 600, 900), count_admitted_cars(trips, Window(600, 900))[0]).lost, 150.0)
        drivers = Drivers(5, 6_554)
        chance = measure_admission(drivers, demands=[1_200]).chance(1_200)
        entered = 0
        for seed in range(4):
            with RoadLab(Plan(length=200, inlets=[(0, chance)], zones=[(5, 6_554)], words=seed)) as lab:
                lab.edit("A", ("slow", 0), 0, 49_152)
                lab.advance("A", 3_600)
                entered += len({car.number for step in range(0, 3_601, 10) for car in lab.cars("A", step)})
        self.check_near("slowing of 3/4 at the inlet", Supply(1_200 * 4, entered).lost / 4, 1_200 - 592, 25)


class Closer(unittest.TestCase):
    def test_inlets_of_a_quick_measurement(self) -> None:
        """Shorten each stretch between two inlets to the cells in which a car is slowed four times, at least 100: with limit 4 and a chance of 1/10 these
        are 160. The first stretch begins behind the entry, and each later inlet moves by all that is left out before it."""
        drivers, cells = Drivers(4, 6_554, 30_000, 40), [0, 700, 790, 1_500, 3_000, 3_160]
        found, place, last = [], 0, 0
        for cell in cells:
            begin = max(last, 40)
            place += min(cell - last, begin - last + 160) if cell > begin else cell - last
            found.append(place)
            last = cell
        self.assertEqual([one.cell for one in bring_closer([Inlet(cell, 9) for cell in cells], drivers)], found)
        self.assertEqual(found, [0, 200, 290, 450, 610, 770])
        self.assertEqual([one.cell for one in bring_closer([Inlet(cell, 9) for cell in cells], drivers._replace(slowing=60_000))][:3], [0, 140, 230])


if __name__ == "__main__":
    unittest.main()
