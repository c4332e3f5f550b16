"""Find and judge jams in states that were drawn by hand, and in simulated days by `cars` of each step."""
from __future__ import annotations

import csv
import dataclasses
import math
import re
import statistics
import unittest
from pathlib import Path
from types import SimpleNamespace

from measured_recipe import MeasuredChecks, drive, passed
from zegdrut import RoadLab
from zegdrut.commands import measured as measured_command
from zegdrut.roads import FIGURES
from zegdrut.measurements.congestion import (
    JudgedDay, Judgement, SpeedOff, average_speeds, compare_leaving, compare_time_lost, compare_travel_times,
    describe_congested_demand, describe_jams, describe_lost, find_jams, find_states, judge, list_segments,
    simulate_segments)
from zegdrut.measurements import Measured, Station, make_model, put_on_road, read_counts
from zegdrut.measurements.counts_on_road import Series
from zegdrut.measurements.goodness_of_fit import simulate_day
from zegdrut.roads import Clock
from zegdrut.roads.calibrated import Leaving, describe_leaving
from zegdrut.roads.demand import QUICK
from zegdrut.roads.road_scripts import make_base_edits, make_commands, make_plan

RECIPE = Path(__file__).resolve().parents[2] / "recipes" / "measured"


def states(*lines: str) -> list[list[bool | None]]:
    """Return the states of stations that were drawn by hand."""
    return [[{"x": True, ".": False, "?": None}[letter] for letter in line] for line in lines]


class Jams(MeasuredChecks):
    def test_jams_by_hand(self) -> None:
        """Find jams in states that were drawn by hand, and judge them. An interval lasts five minutes, so a jam lasts three."""
        def found(*lines: str) -> list[tuple[int, int, int, int, int]]:
            return [(*jam[:4], len(jam.places)) for jam in find_jams(states(*lines), 300)]

        self.check("two intervals do not make a jam", found("..xx...."), [])
        self.check("a gap ends a run", found("xx.xxx.."), [(0, 0, 3, 6, 3)])
        self.check("unknown speeds in a jam", found("xx?xx...", "........", "x??x...."), [(0, 0, 0, 5, 4), (2, 2, 0, 4, 2)])
        self.check("unknown speeds that are no part of a jam", found("xx???xx.", "........", "?xx?....", "........", "xx?.xx.."), [])
        self.check("neighbours in one jam", found("xxx.....", "..xxxx.."), [(0, 1, 0, 6, 7)])
        self.check("neighbours that only touch", found("xxx.....", "...xxx.."), [(0, 0, 0, 3, 3), (1, 1, 3, 6, 3)])
        self.check("a station between", found("xxx.....", "........", "xxx....."), [(0, 0, 0, 3, 3), (2, 2, 0, 3, 3)])
        self.check("joined by a later station", found("xxx.xxx.", "xxxxxxx."), [(0, 1, 0, 7, 13)])
        names, clock = ("7", "8", "9"), Clock.read("06:30")
        series = [Series(Station(name, float(name), 1), [1.0] * 8, [100.0] * 8) for name in ("6", *names)]
        measured = Measured(clock, 300, series, [])

        jammed = [Series(Station(name, float(name), 1), [1.0] * 8, [100.0, 59.0, 50.0, 59.0, 61.0, 50.0, 50.0, 100.0]) for name in names]
        self.check("a station that gives the demand is in the jam", describe_congested_demand(Measured(clock, 300, jammed, [])), [
            "station 7 gives the demand, and is itself congested from 06:35 to 06:50: its counts are then what the jam lets through, so the demand is "
            "too low. Use a station farther upstream, or a window that ends before"])
        self.check("a free station gives the demand", describe_congested_demand(Measured(clock, 300, [series[0], *jammed], [])), [])

        def verdicts(known: tuple[str, ...], drawn: tuple[str, ...]) -> list[str]:
            nothing = SpeedOff(0, None, None)
            return [*describe_jams(Judgement(states(*known), states(*drawn), nothing, nothing, 300), measured)]

        free = "........"
        self.check("reproduced", verdicts(("xxx.....", "xxx.....", free), ("xx......", "xx......", free)),
              ["the jam from 06:30 to 06:45 at stations 7 and 8 is reproduced: 4 of its 6 station intervals are congested in the simulation"])
        self.check("in part", verdicts(("xxx.....", free, free), ("x.......", free, free)),
              ["the jam from 06:30 to 06:45 at station 7 is reproduced in part: 1 of its 3 station intervals is congested in the simulation"])
        self.check("missed", verdicts((".xxxxxx.", ".xxx....", free), (free, ".xx.....", free)),
              ["the jam from 06:35 to 07:05 at stations 7 and 8 is missed: 2 of its 9 station intervals are congested in the simulation"])
        self.check("nothing known there", verdicts(("????????", free, free), ("xxxx....", free, free)),
              ["the simulation has a jam from 06:30 to 06:50 at station 7, where no speed was measured"])
        self.check("no congestion", verdicts((free, free, free), (free, free, free)),
              ["no jam was measured, and none is simulated: no station is congested in any interval, so these counts do not say whether the road jams as it "
               "should"])
        self.check("short congestion", verdicts(("..x..xx.", ".x......", free), (free, free, free)),
              ["no jam was measured, and none is simulated: no station is congested for 15 minutes in a row. Congested station intervals: 4 (at most 10 "
               "minutes in a row, at station 7 from 06:55 on) in the counts; none in the simulation"])
        self.check("measured with gaps", verdicts(("x.xx.xx.", free, free), ("xxxx....", free, free)),
              ["the simulation has a jam from 06:30 to 06:50 at station 7: the counts are congested in 3 of its 4 station intervals, but never for 15 minutes in "
               "a row"])
        a_minute = Judgement(states(".x"), states("xx." * 5), SpeedOff(0, None, None), SpeedOff(0, None, None), 60)
        self.check("counts of a minute", describe_jams(a_minute, measured),
              ["no jam was measured, and none is simulated: no station is congested for 15 minutes in a row. Congested station intervals: 1 (at most 1 minute in "
               "a row, at station 7 from 06:31 on) in the counts; 10 (at most 2 minutes in a row, at station 7 from 06:30 on) in the simulation"])
        self.check("no speeds", verdicts(("????????",) * 3, (free,) * 3), ["the counts have no speeds, so nothing says whether congestion is reproduced"])
        # A simulated jam of four intervals that is not in the counts: their free speed is 100, the simulated speeds fall by 20 on average (a car passes
        # in three intervals, and none does in the last: 0), and the counts must fall by 10 or more. Without the third interval both fall by more: 30, and 15.
        drawn = [[100.0] * 8, [100.0] * 8, [100.0, 100.0, 100.0, 110.0, 110.0, None, 100.0, 100.0]]
        for speeds, mean, wanted in (
                ((90.0, 90.0, 90.0, 90.1), "time-mean", "that was not measured: time-mean speeds are 90 km/h measured and 80 km/h simulated at station 9, "
                 "with a free speed of 100 km/h"),
                ((95.0, 85.0, 95.0, 85.0), "time-mean", "that the counts do not rule out: time-mean speeds are 90 km/h measured and 80 km/h simulated at "
                 "station 9, with a free speed of 100 km/h. In the model such speeds hardly show a jam"),
                ((90.0, 80.0, None, 85.0), "space-mean", "that the counts do not rule out: space-mean speeds are 85 km/h measured and 70 km/h simulated at "
                 "station 9, with a free speed of 100 km/h")):
            known = [Series(Station(name, float(name), 1), [1.0] * 8, [100.0, 100.0, *(speeds if name == "9" else [100.0] * 4), 100.0, 100.0])
                     for name in ("6", *names)]
            nothing = SpeedOff(0, None, None)
            found_jam = Judgement(states(free, free, free if speeds[2] else "....?..."), states(free, free, "..xxxx.."), nothing, nothing, 300, [drawn])
            self.check(f"only simulated {speeds}", describe_jams(found_jam, dataclasses.replace(measured, main=known, mean=mean))[0],
                  f"the simulation has a jam from 06:40 to 07:00 at station 9 {wanted}")

    def test_speeds_of_stations(self) -> None:
        """Give the speeds of a simulated jam of four intervals at two stations, on average and on two simulated days. Station 8 has two measured speeds. All
        six are 83 on average, so they fall by 17 km/h, and the simulated ones by 25."""
        clock, nothing = Clock.read("06:30"), SpeedOff(0, None, None)
        lines = [[100.0] * 8, [50.0, None, None, 60.0, *[100.0] * 4], [97.0] * 4 + [100.0] * 4]
        measured = Measured(clock, 300, [Series(Station(name, float(name), 1), [1.0] * 8, line) for name, line in zip("789", lines)], [])
        days = [[[one] * 4 + [100.0] * 4, [other] * 4 + [100.0] * 4] for one, other in ((30.0, 92.0), (60.0, 88.0))]
        found = describe_jams(Judgement(states(".??.....", "........"), states("xxxx....", "xxxx...."), nothing, nothing, 300, days), measured)[0]
        self.check("speeds by station", found, "the simulation has a jam from 06:30 to 06:50 at stations 8 and 9 that the counts do not rule out: time-mean speeds are "
              "55 km/h measured and 45 km/h simulated (30 to 60 on single days) at station 8, 97 km/h measured and 90 km/h simulated (88 to 92 on single days) "
              "at station 9, with a free speed of 100 km/h. In the model such speeds hardly show a jam")
        some = Judgement([], [], nothing, nothing, 300, [[[30.0, None, None]], [[60.0, 50.0, None]]])
        self.check("days without a car", average_speeds([(0, 0), (0, 1), (0, 2)], some, measured).by_day, [80 / 3, 110 / 3])
        # The jam that was measured at station 8 has three intervals, and the speed of the first six is 70 on average.
        measured.main[1:] = [dataclasses.replace(measured.main[1], speeds=[100.0, *[40.0] * 3, *[100.0] * 4]), dataclasses.replace(measured.main[2], speeds=[*[97.0] * 6, 100.0, 100.0])]
        days = [[[one] * 6 + [100.0] * 2, [other] * 6 + [100.0] * 2] for one, other in ((30.0, 92.0), (60.0, 88.0))]

        def judged(*drawn: str) -> list[str]:
            return describe_jams(Judgement(states(".xxx....", "........"), states(*drawn), nothing, nothing, 300, days), measured)
        reproduced = "the jam from 06:35 to 06:50 at station 8 is reproduced: 3 of its 3 station intervals are congested in the simulation"
        self.check("a larger simulated jam", judged("xxxxxx..", "xxxxxx.."), [reproduced, "the simulated jam lasts from 06:30 to 07:00 at stations 8 and 9, and the counts are "
              "congested in 3 of its 12 station intervals: time-mean speeds are 70 km/h measured and 45 km/h simulated (30 to 60 on single days) at station 8, 97 km/h "
              "measured and 90 km/h simulated (88 to 92 on single days) at station 9, with a free speed of 100 km/h. In the model such speeds hardly show a jam"])
        self.check("two thirds of the simulated jam", [len(judged(line, "........")) for line in ("xxxx....", "xxxxx...")], [1, 2])

    def test_near_jams(self) -> None:
        """Say how far the slowest interval fell if no jam is measured, and which share would find a jam of three intervals: 68, 74 and 66 of 100 km/h
        are below 0.75, and 66, 66 and 74 at another station with a gap are not a jam. Below 0.85 is too far from 0.6 to be near."""
        def hint(share: float, *lines: list[float]) -> list[str]:
            series = [Series(Station(str(name), float(name), 1), [1.0] * 8, [100.0] * 8 if name == 6 else lines[name - 7]) for name in range(6, 7 + len(lines))]
            measured = Measured(Clock.read("06:30"), 300, series, [])
            free, nothing = [[False] * 8] * len(lines), SpeedOff(0, None, None)
            return describe_jams(Judgement(find_states(measured, share), free, nothing, nothing, 300, (), share), measured)[1:]
        jam, gap = [100.0, 68.0, 74.0, 66.0, 100.0, 100.0, 100.0, 100.0], [100.0, 66.0, 65.0, 100.0, 64.0, 100.0, 100.0, 100.0]
        slowest = "the slowest station interval of the counts has {} of its free speed, at station {} from {} on"
        self.check("a jam is near", hint(0.6, jam, gap), [slowest.format("0.640", 8, "06:50") + ": with --congested 0.75 the counts have a jam"])
        self.check("congestion without a jam", hint(0.6, gap), [slowest.format("0.640", 7, "06:50")])
        self.check("a jam that is not near", hint(0.45, [one + 2 for one in jam]), [slowest.format("0.667", 7, "06:45")])
        self.check("a measured jam", hint(0.6, jam, [100.0, 50.0, 50.0, 50.0, 100.0, 100.0, 100.0, 100.0]), [])
        self.check("free traffic", hint(0.6, [85.5, 100.0, 86.0, 100.0, 100.0, 100.0, 100.0, 100.0]), [])
        self.check("a jam that is just near", hint(0.6, [100.0, 84.0, 84.0, 84.0, 100.0, 100.0, 100.0, 100.0]), [slowest.format("0.840", 7, "06:35") +
              ": with --congested 0.85 the counts have a jam"])
        self.check("a share that is too high", hint(0.8, [100.0, 94.0, 96.0, 96.0, 100.0, 100.0, 100.0, 100.0]), [slowest.format("0.940", 7, "06:35")])
        self.check("the highest share", hint(0.8, [100.0, 94.0, 94.0, 94.9, 100.0, 100.0, 100.0, 100.0]), [slowest.format("0.940", 7, "06:35") +
              ": with --congested 0.95 the counts have a jam"])

    def test_leaving_flow(self) -> None:
        """Compute the flow that leaves a jam at station 8 by hand. It is congested in the intervals 0 to 5, and station 9 after it also in the interval 1, so
        the intervals 2 to 5 of station 9 count, without the interval 4, which has no count: 120, 110 and 100 cars, 1,320 cars/h. Before it station 9 is free
        for five minutes only. One simulated day has the jam in the intervals 2 to 4, of 90, 100 and 110 cars, and one in the intervals 4 to 7, of 110 in each; on
        a third day station 9 is free in the intervals 2 and 4 only."""
        def states(slow: range | tuple[int, ...]) -> list[float]:
            return [40.0 if place in slow else 100.0 for place in range(8)]

        cars: list[float | None] = [1.0, 1.0, 120.0, 110.0, None, 100.0, 1.0, 1.0]
        main = [Series(Station("7", 0.0, 2), [1.0] * 8, [100.0] * 8), Series(Station("8", 1.0, 2), [1.0] * 8, states(range(6))),
                Series(Station("9", 2.0, 2), cars, states((1,)))]
        measured = Measured(Clock.read("06:30"), 300, main, [])

        def day(slow: range, counted: list[int], after: tuple[int, ...] = ()) -> JudgedDay:
            near = [[SimpleNamespace(cars=27.0, speeds=kmh) for kmh in line] for line in (states(slow), states(after))]
            return JudgedDay([[passed(1, 1)] * 8, [passed(one, 1) for one in counted]], near, [])
        days = [day(range(2, 5), [1, 1, 90, 100, 110, 1, 1, 1]), day(range(4, 8), [1, 1, 1, 1, 110, 110, 110, 110]), day(range(2, 5), [500] * 8, (3,))]
        found = compare_leaving(measured, days, 0.6)
        # The days have 1,200 and 1,320: 1,260 on average, and 12.7 times the standard error of 60 is 762.
        self.check("the flows", [(one.station, one.following, round(one.measured, 6), round(one.simulated or 0, 6), round(one.half or 0)) for one in found],
              [("8", "9", 1_320.0, 1_260.0, 762)])
        self.check("no simulated jam", [one[2:] for one in compare_leaving(measured, days[2:], 0.6)], [(1_320.0, None, None)])
        flicker = dataclasses.replace(measured, main=[*main[:2], dataclasses.replace(main[2], speeds=states((0, 3)))])
        self.check("a station inside the jam that seems free in single intervals", compare_leaving(flicker, days, 0.6), [])
        closed = dataclasses.replace(measured, main=[*main[:2], dataclasses.replace(main[2], cars=[0.0] * 8)])
        self.check("a closed road", compare_leaving(closed, days, 0.6), [])
        self.check("a jam at the last station", compare_leaving(dataclasses.replace(measured, main=main[:2]), days, 0.6), [])
        head = "flow that leaves the jam at station 8, counted at station 9: 1,000 cars/h per lane measured, "
        last = "simulated: queues of this road last too"
        for drawn, half, wanted in ((949.0, 20.4, f"949 ± 20 {last} long, so works cost too much on it"), (951.0, None, "951 simulated: they agree within 5 %"),
                                    (1_049.0, None, "1,049 simulated: they agree within 5 %"), (1_051.0, None, f"1,051 {last} short, so works cost too little on it"),
                                    (None, None, "and no simulated day has a jam there")):
            self.check(f"the verdict on {drawn}", describe_leaving([Leaving("8", "9", 1_000.0, drawn, half)]), [head + wanted])

    def test_congestion(self) -> None:
        """Compute the congestion of a simulated day with a jam from `cars` of each step, and the measured one from the file."""
        figures = dataclasses.replace(FIGURES.override(RECIPE / "example.json"), slowing=0.16, start=0.45)
        measured = put_on_road(read_counts(RECIPE / "example_counts.csv"), figures.clock, 10_800)
        model = make_model("example", figures, measured, effort=QUICK)
        share, cells_a_km = 0.8, 1000 / 7.5
        with open(RECIPE / "example_counts.csv", encoding="utf-8", newline="") as file:
            rows = [row for row in csv.DictReader(file) if row["type"] == "ML"]
        stations = sorted({row["station"] for row in rows})
        counts = {name: [float(row["count"]) for row in rows if row["station"] == name] for name in stations}
        speeds = {name: [float(row["speed km/h"]) for row in rows if row["station"] == name] for name in stations}
        free = {name: min(one for one in speeds[name] if sum(other <= one for other in speeds[name]) >= 0.85 * 36) for name in stations}
        places = {row["station"]: round(float(row["km"]) * cells_a_km) for row in rows}
        middles = [(places[one] + places[other]) // 2 for one, other in zip(stations, stations[1:])]
        bounds = [places[stations[0]], *middles, places[stations[-1]]]
        near = {name: [[0, 0] for _ in range(36)] for name in stations}
        segment = {name: [[0, 0] for _ in range(36)] for name in stations}
        gate = {name: [[0, 0] for _ in range(36)] for name in stations}
        with RoadLab(make_plan(model.road, model.chances, model.seed)) as lab:
            for line in make_commands([*make_base_edits(model.road, model.chances), *model.road.edits]):
                lab.ask(line)
            lab.advance("A", model.warm + model.window_steps)
            for second in range(model.window_steps):
                for _, cell, speed in lab.cars("A", model.warm + second):
                    for index, name in enumerate(stations):
                        for table, inside in ((near, places[name] - 20 <= cell < places[name] + 20), (segment, bounds[index] <= cell < bounds[index + 1])):
                            if inside:
                                table[name][second // 300][0] += 1
                                table[name][second // 300][1] += speed
                for _, cell, speed in lab.cars("A", model.warm + second + 1):
                    for name in stations:
                        if cell - speed < places[name] <= cell:
                            gate[name][second // 300][0] += 1
                            gate[name][second // 300][1] += speed
        segments = list_segments(model)
        days = simulate_segments(model, segments, 1)
        found = judge(measured, days, share)
        state = {name: ([one < share * free[name] for one in speeds[name]],
                        [27 * moved / cars < share * free[name] for cars, moved in near[name]]) for name in stations[1:]}
        pairs = [pair for name in stations[1:] for pair in zip(*state[name])]
        self.check("congested in both, only measured, only simulated, in neither", tuple(found.count()),
              tuple(pairs.count(pair) for pair in ((True, True), (True, False), (False, True), (False, False))))
        self.check("the example has congestion", min(pairs.count((True, True)), pairs.count((False, True))) > 0, True)
        for which, off in ((True, found.congested), (False, found.free)):
            wanted = [27 * moved / cars - speeds[name][place] for name in stations[1:] for place, (cars, moved) in enumerate(gate[name])
                      if state[name][0][place] is which]
            self.check_near("RMSE of speeds", off.rmse or 0, math.sqrt(statistics.mean(one * one for one in wanted)), 1e-9)
            self.check_near("bias of speeds", off.bias or 0, statistics.mean(wanted), 1e-9)
        leaving = {}
        for one, following in zip(stations[1:], stations[2:]):
            for which, slow, cars in ((0, state, counts), (1, state, {name: [there for there, _ in gate[name]] for name in stations})):
                jammed = "".join("x" if slow[one][which][place] else "." for place in range(36))
                jam = {place for run in re.finditer("x{3,}", jammed) for place in range(*run.span())}
                heads = "".join("x" if place in jam and not slow[following][which][place] else "." for place in range(36))
                left = [cars[following][place] for run in re.finditer("x{3,}", heads) for place in range(*run.span())]
                leaving.setdefault((one, following), []).append(12 * sum(left) / len(left) if len(left) >= 3 else None)
        self.check("the flow that leaves the jams", [(one.station, one.following, round(one.measured, 9), one.simulated and round(one.simulated, 9))
                                                for one in compare_leaving(measured, days, share)],
              [(*key, round(known, 9), drawn and round(drawn, 9)) for key, (known, drawn) in leaving.items() if known])
        self.check("the example has such a flow", any(None not in both for both in leaving.values()), True)
        space_means = simulate_day(dataclasses.replace(model, measured=dataclasses.replace(measured, mean="space-mean")), model.seed)
        for name, passed_by in zip([*stations[1:], stations[0]], [*space_means.day, space_means.first]):
            self.check(f"space-mean speeds at {name}", [(one.cars, round(one.speed or 0, 9)) for one in passed_by],
                  [(cars, round(27 * moved / there, 9)) for (cars, _), (there, moved) in zip(gate[name], near[name])])
        lengths = {name: (bounds[index + 1] - bounds[index]) / cells_a_km for index, name in enumerate(stations)}
        lost = compare_time_lost(segments, days, share)
        at_stations = compare_time_lost(segments, days, share, at_stations=True)
        assert lost is not None and at_stations is not None
        shown = {name: [27 * moved / cars for cars, moved in gate[name]] for name in stations}
        self.check_near("delay simulated at stations", at_stations.simulated, sum(
            cars * lengths[name] * (1 / kmh - 1 / free[name]) for name in stations for (cars, _), kmh in zip(gate[name], shown[name])
            if kmh < share * free[name]), 1e-9)
        self.check("a delay at stations", at_stations.simulated > 1, True)
        self.check("the measured delay does not depend on the simulated one", lost.measured, at_stations.measured)
        self.check_near("measured delay", lost.measured, sum(
            counts[name][place] * lengths[name] / speeds[name][place] - counts[name][place] * lengths[name] / free[name]
            for name in stations for place in range(36) if speeds[name][place] < share * free[name]), 1e-9)
        self.check_near("simulated delay", lost.simulated, sum(
            (cars - moved * 7.5 / (free[name] / 3.6)) / 3_600 for name in stations for cars, moved in segment[name]
            if cars and moved / cars * 27 < share * free[name]), 1e-9)
        of_run = {name: [27 * moved / cars for cars, moved in segment[name]] for name in stations}
        self.check_times("the example", compare_travel_times(model, segments, days), [drive(stations, bounds, table, 10_800) for table in (speeds, of_run, shown)])

    def test_verdict_of_exact_drivers(self) -> None:
        """Judge the drivers that made the counts of the example, and drivers that make its jam on a day without one. By the space-mean speeds of the
        road, both have a jam that is not in the time-mean speeds of the counts. Only the second one was not measured."""
        figures = dataclasses.replace(FIGURES.override(RECIPE / "example.json"), slowing=0.16, start=0.45)
        measured = put_on_road(read_counts(RECIPE / "example_counts.csv"), figures.clock, 10_800)
        model = make_model("example", figures, measured, effort=QUICK)
        days = simulate_segments(model, list_segments(model), 2)
        found = [one for one in describe_jams(judge(measured, days), measured) if "has a jam" in one]
        self.check("exact drivers", ["that the counts do not rule out: time-mean" in one for one in found], [True])
        shown = measured_command.Congestion(model, days, 0.8)
        self.check("the means", shown.describe()[0], "congested: below 0.8 of the free speed of the station, measured by time-mean speeds, and simulated by space-mean "
              "speeds, which are lower in a jam")
        by_space = measured_command.Congestion(dataclasses.replace(model, measured=dataclasses.replace(measured, mean="space-mean")), days, 0.8)
        self.check("one mean", (by_space.describe()[0], by_space.format_table()[5]), (
            "congested: below 0.8 of the free speed of the station, measured and simulated by space-mean speeds",
            f"RMSE of space-mean speed in measured congestion,km/h,{judge(measured, days, 0.8).congested.rmse:.1f},"))
        table = {row[0]: row[2:] for row in csv.reader(shown.format_table())}
        times, by_cars = compare_travel_times(model, list_segments(model), days), compare_time_lost(list_segments(model), days, 0.8)
        for name, *both in (("delay of congested traffic", compare_time_lost(list_segments(model), days, 0.8, at_stations=True), by_cars),
                            ("mean travel time by trajectories", times.mean_at_stations, times.mean),
                            ("longest travel time by trajectories", times.longest_at_stations, times.longest)):
            self.check(f"the rows of the {name}", [table[f"{name}, {what}"] for what in (
                "estimated from measured station speeds", "estimated from simulated station speeds", "simulated by all cars")],
                  [[f"{both[0].measured:.1f}", ""], *([f"{one.simulated:.1f}", f"{one.half:.1f}"] for one in both)])
        free = dataclasses.replace(measured, main=[dataclasses.replace(one, speeds=[max(speed or 0.0, 125.0) for speed in one.speeds]) for one in measured.main])
        found = [one for one in describe_jams(judge(free, days), free) if "has a jam" in one]
        self.check("a jam on a day without one", ["that was not measured: time-mean" in one for one in found], [True])

    def test_lost_cars(self) -> None:
        """Find lost cars by hand. In 35 minutes and on four days 600 cars per hour are 1,400 cars. By chance 74 of them may be missing (twice the
        square root), and 30 of the 233 cars of a ramp with 100 cars per hour. Then count the entries of a small road with a jam in its rows."""
        figures = dataclasses.replace(FIGURES, length=2, begin="07:00", minutes=30, main=600, ramps=[(0.75, 100)], sections=[], detectors=[], entry=0.3)
        series = [Series(Station(name, km, 1), [50.0] * 6, [90.0] * 6) for name, km in (("1", 0), ("2", 1.5))]
        model = make_model("small", figures, Measured(figures.clock, 300, series, []), None, QUICK)
        self.check("the run begins five minutes earlier", model.road.steps, 35 * 60)
        words = "{} of {} cars cannot enter at km {} and are lost: the simulated delay and travel times leave them out. If {}"
        at_start = words.format(19, 350, 0, "a jam reaches km 0, give the road an approach")
        at_ramp = words.format(8, 58, 0.75, "no jam was measured there, calibrate the drivers; otherwise check the demand of the ramp")
        for main, ramp, wanted in ((332, 51, []), (331, 51, [at_start]), (332, 50, [at_ramp]), (331, 50, [at_start, at_ramp]), (400, 70, [])):
            self.check(f"{main} and {ramp} cars enter", describe_lost(model, [JudgedDay([], [], [], [main, ramp])] * 4), wanted)
        shut = dataclasses.replace(model, road=dataclasses.replace(model.road, edits=[("block", 60, 600, 1), ("block", 60, 1_500, 0)]))
        entered = simulate_day(shut, 3, with_entries=True).admitted
        with RoadLab(make_plan(shut.road, shut.chances, 3)) as lab:
            for line in make_commands([*make_base_edits(shut.road, shut.chances), *shut.road.edits]):
                lab.ask(line)
            lab.advance("A", 2_100)
            numbers = {car.number for step in range(0, 2_101, 5) for car in lab.cars("A", step)}
        self.check("the cars that enter", entered, [sum(number % 16 == inlet for number in numbers) for inlet in (0, 1)])
        self.check("a jam at km 0", (len(describe_lost(shut, [JudgedDay([], [], [], entered)])), entered[0] < 300), (1, True))


if __name__ == "__main__":
    unittest.main()
