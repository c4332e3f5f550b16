"""Follow cars through measured and simulated speeds by hand."""
from __future__ import annotations

import dataclasses
import statistics
import unittest
from types import SimpleNamespace

from measured_recipe import MeasuredChecks, drive
from zegdrut import RoadLab
from zegdrut.commands import measured as measured_command
from zegdrut.roads import FIGURES
from zegdrut.measurements.congestion import (
    JudgedDay, Segment, compare_time_lost, compare_travel_times, follow_car, list_segments, simulate_segments)
from zegdrut.measurements import Measured, Station, make_model
from zegdrut.measurements.counts_on_road import Series
from zegdrut.measurements.goodness_of_fit import Passed
from zegdrut.program.road_rows import Sums
from zegdrut.roads import Clock, Stalled
from zegdrut.roads.demand import QUICK
from zegdrut.roads.road_scripts import make_base_edits, make_commands, make_plan


class TravelTimes(MeasuredChecks):
    def test_travel_times(self) -> None:
        """Follow cars by hand. On two km with 36 km/h then 72 km/h a car needs 100 and 50 s. From second 250 it has 50 s at 36 km/h, stands for an
        interval, and needs 25 s at 72 km/h for the other half of the first km. After the last interval, and without a speed, its time is unknown.
        Then compare the travel times of a road that is closed for 15 minutes with the times of its cars, in the rows of each step."""
        two = [[36.0, 0.0, 72.0], [72.0, 90.0, 36.0]]
        self.check("followed cars", [follow_car([1.0, 1.0], two, 300, departure) for departure in (0, 200, 250, 300, 800)], [150, 140, 475, 450, None])
        self.check("an unknown speed", [follow_car([1.0], [[36.0, None, 72.0]], 300, departure) for departure in (0, 200, 201)], [100, 100, None])
        figures = dataclasses.replace(FIGURES, length=5, limit=135, slowing=0.16, start=0.45, begin="07:00", minutes=75, main=800, ramps=[], sections=[],
                                      stalled=[Stalled(4.0, 15, 30)], detectors=[], entry=0.3)
        kms = {"a": 0.3, "b": 1.5, "c": 2.7, "d": 3.9, "e": 4.8}
        measured: dict[str, list[float | None]] = {name: [90.0] * 13 + [None if name == "c" else 90.0] * 2 for name in kms}
        series = [Series(Station(name, km, 1), [60.0] * 15, measured[name]) for name, km in kms.items()]
        model = make_model("closed", figures, Measured(figures.clock, 300, series, []), None, QUICK)
        cells = [round(km * 1000 / 7.5) for km in kms.values()]
        bounds = [cells[0], *((one + other) // 2 for one, other in zip(cells, cells[1:])), cells[-1]]
        sums, gate = ({name: [[0, 0] for _ in range(15)] for name in kms} for _ in range(2))
        begin, end = dict[int, int](), dict[int, int]()
        with RoadLab(make_plan(model.road, model.chances, model.seed)) as lab:
            for line in make_commands([*make_base_edits(model.road, model.chances), *model.road.edits]):
                lab.ask(line)
            lab.advance("A", model.warm + 4_500)
            for second in range(4_500):
                for car in lab.cars("A", model.warm + second):
                    for times, cell in ((begin, bounds[0]), (end, bounds[-1])):
                        if car.cell >= cell:
                            times.setdefault(car.number, second)
                    for name, first, last in zip(kms, bounds, bounds[1:]):
                        if first <= car.cell < last:
                            sums[name][second // 300][0] += 1
                            sums[name][second // 300][1] += car.speed
                for car in lab.cars("A", model.warm + second + 1):
                    for name, cell in zip(kms, cells):
                        if car.cell - car.speed < cell <= car.cell:
                            gate[name][second // 300][0] += 1
                            gate[name][second // 300][1] += car.speed
        speeds = {name: [27 * moved / cars if cars else 90.0 for cars, moved in table] for name, table in sums.items()}
        shown = {name: [27 * moved / cars if cars else kmh for (cars, moved), kmh in zip(table, speeds[name])] for name, table in gate.items()}
        self.check("nobody passes a station", min(cars for table in gate.values() for cars, _ in table), 0)
        self.check("traffic stands in an interval", min(min(line) for line in speeds.values()), 0)
        found = compare_travel_times(model, list_segments(model), simulate_segments(model, list_segments(model), 1))
        assert found is not None
        bridged = {name: [90.0] * 15 for name in kms}  # (c has no speed in the last two intervals, and its neighbours have 90 km/h)
        self.check_times("a closed road", found, [drive(list(kms), bounds, table, 4_500) for table in (bridged, speeds, shown)])
        self.check("bridged intervals", (found.bridged, found.left_out), (2, 0))
        of_cars = [(second, end[number] - second) for number, second in begin.items() if number in end and 0 < second <= found.last]
        means = [statistics.mean(each) for minute in range(75) if (each := [time for second, time in of_cars if second // 60 == minute])]
        self.check_near("the mean time of the cars", found.mean.simulated / statistics.mean(means), 1, 0.1)
        self.check_near("the longest time of a car", found.longest.simulated / max(time for _, time in of_cars), 1, 0.1)

    def test_delay_at_stations(self) -> None:
        """Compute delay and travel times of two segments of 3 km by hand. Ten cars at 50 km/h instead of 100 lose 10 x 3 x (1/50 - 1/100) vehicle hours, at
        40 km/h 0.45. The second interval has no count, and in the third no simulated car passes the first station, so it has the 54 km/h of all cars
        there. A car needs 270 s at 40 km/h and 120 s at 90. One that departs at second 420 has 180 s at 40 km/h for 2 km, and needs 66.7 s for the third."""
        segments = [Segment(Series(Station(str(place), 3.0 * place, 1), [10.0, None, 10.0], speeds), 400 * place, 400 * place + 400, 100.0, place)
                    for place, speeds in enumerate(([50.0, 50.0, 100.0], [100.0, 100.0, 100.0]))]
        day = JudgedDay([], [], [[Sums(1, 2, 1)] * 3, [Sums(3, 10, 1)] * 3], (), [[Passed(10, 40.0), Passed(10, 40.0), Passed(0, None)], [Passed(10, 90.0)] * 3])
        found = compare_time_lost(segments, [day], 0.6, at_stations=True)
        self.check("the delay", (round(found.measured, 9), round(found.simulated, 9)), (0.3, 0.45))
        times = compare_travel_times(SimpleNamespace(window_steps=900, measured=SimpleNamespace(interval=300)), segments, [day])
        self.check("the departures", (times.number, times.last), (10, 540))
        for name, one, measured, simulated in (("mean", times.mean, (7 * 324 + 306 + 276 + 246) / 10, 320), ("longest", times.longest, 324, 320),
                                               ("mean at stations", times.mean_at_stations, 309.6, (6 * 390 + 382 + 367 + 351 + 335 + 5 / 9) / 10),
                                               ("longest at stations", times.longest_at_stations, 324, 390)):
            self.check_near(f"{name} travel time, measured", one.measured, measured, 1e-6)
            self.check_near(f"{name} travel time, simulated", one.simulated, simulated, 1e-6)

    def test_bridged_speeds(self) -> None:
        """Bridge missing speeds of three stations at km 0, 1 and 3 by hand. In the first interval the second station has the 60 km/h of the first one, which
        is nearer, in the second the third one has the 60 km/h of the second one, and in the third no station has a speed. Each segment has 1 km: a car that
        departs at second 0 needs 60, 60 and 36 s. The seven cars that depart at 480 to 840 s meet the interval without speeds. The last one that arrives
        departs at second 1,080, at 108 km/h."""
        lines = ([60.0, 90.0, None, 108.0], [None, 60.0, None, 108.0], [100.0, None, None, 108.0])
        segments = [Segment(Series(Station(name, km, 1), [10.0] * 4, list(speeds)), 133 * place, 133 * place + 133, 100.0, place)
                    for place, (name, km, speeds) in enumerate(zip("abc", (0.0, 1.0, 3.0), lines))]
        day = JudgedDay([], [], [[Sums(1, 4, 1)] * 4] * 3, (), [[Passed(10, 108.0)] * 4] * 3)
        model = SimpleNamespace(window_steps=1_200, measured=SimpleNamespace(interval=300))
        found = compare_travel_times(model, segments, [day])
        bridged: dict[str, list[float | None]] = {"a": lines[0], "b": [60.0, *lines[1][1:]], "c": [100.0, 60.0, *lines[2][2:]]}
        driven = {departure: time for departure, time in drive(list("abc"), [0, 133, 266, 399], bridged, 1_200).items()
                  if departure + 3 * 133 * 7.5 / 30 <= 1_200}
        self.check("the departures", (found.number, found.last, found.bridged, found.left_out),
              (len(driven), max(driven), 2, max(driven) // 60 + 1 - len(driven)))
        self.check("the cars of that interval", (found.last, found.left_out), (1_080, 7))
        self.check_near("the mean of the times", found.mean.measured, statistics.mean(driven.values()), 0.1)
        self.check_near("the longest time", found.longest.measured, max(driven.values()), 0.11)
        shown = measured_command.Congestion.__new__(measured_command.Congestion)
        shown._times, shown._segments, shown._measured = found, segments, SimpleNamespace(clock=Clock.read("07:00"), mean="time-mean")
        self.check("what is said of it", shown._describe_times(), f"travel times by trajectories: those of {len(driven)} cars that depart 60 s apart and arrive in the "
              f"window, the last one from {Clock.read('07:00').to_text(max(driven))}, without {found.left_out} that pass where no station has a speed. In each "
              "interval a car moves at the speed of its place: that at the nearest station, or the mean of all cars there. 2 station intervals without a speed: the "
              "speed is that of the nearest station that has one")
        unseen = "estimated from station speeds: a jam between two stations, which are up to 2 km apart, is not seen"
        self.check("the estimates of time means", shown._describe_estimates(), f"{unseen}. Time-mean speeds are higher than those of all cars in a jam. So the estimates "
              "are rather too low")
        shown._measured.mean = "space-mean"
        self.check("the estimates of space means", shown._describe_estimates(), unseen)


if __name__ == "__main__":
    unittest.main()
