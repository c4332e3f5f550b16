"""Read counts of stations, with their faults, and place them on a road."""
from __future__ import annotations

import dataclasses
import math
import tempfile
import unittest
from pathlib import Path

from checked import Checked
from zegdrut.base.errors import Fault
from zegdrut.measurements import Station, compute_geh, correct_counts, put_on_road, read_counts
from zegdrut.measurements.calibration import is_congested
from zegdrut.measurements.counts_on_road import make_rates, note_interpolated
from zegdrut.measurements.goodness_of_fit import spread_excess, with_stations
from zegdrut.roads import Clock, FIGURES


class Stations(Checked):
    def test_stations(self) -> None:
        """Read two hours of half-hour counts. Station b has a duplicate row, a row out of order, a zero between two intervals with many cars,
        and a missing interval."""
        text = ("time,station,km,lanes,count,speed mph\n07:00,a,0,2,400,60\n07:30,a,0,2,420,60\n08:00,a,0,2,440,60\n08:30,a,0,2,300,50\n"
                "07:00,b,2,1,200,60\n07:00,b,2,1,999,60\n08:00,b,2,1,0,\n07:30,b,2,1,210,30\n09:30,c,3,1,5,60\n08:30,b,2,1,150,60\n"
                "07:00,c,3,1,100,60\n07:30,c,3,1,100,60\n08:00,c,3,1,110,60\n")
        with tempfile.TemporaryDirectory() as folder:
            path = Path(folder, "counts.csv")
            path.write_text(text, encoding="utf-8")
            counts = read_counts(path)
            measured = put_on_road(counts, Clock.read("07:00"), 7_200)
            notes = [one.replace(str(path), "FILE") for one in measured.notes]
        self.check("stations", [(one.station.name, one.cars) for one in measured.main],
              [("a", [200.0, 210.0, 220.0, 150.0]), ("b", [200.0, 210.0, None, 150.0])])
        self.check_near("a speed in km/h", measured.main[1].speeds[1] or 0, 48.28, 0.01)
        self.check("the demand", measured.demand(), [(0, 400.0), (1_800, 420.0), (3_600, 440.0), (5_400, 300.0)])
        self.check("notes", notes, [
            "FILE, lines 9, 12: 2 rows are out of order in time: they are sorted",
            "FILE, line 7: 1 row has the station and time of an earlier row: only the first one counts",
            "FILE, line 8: 1 row of station b has no car between two that have many: treated as missing",
            "FILE: station c has no row for 1 interval, at 08:30 (the first after line 14)",
            "the stations have 1 and 2 lanes: the model has one lane, so it cannot show how the flow per lane changes with the number of lanes",
            "from station b (km 2) to c (km 3) the flow per lane falls from 410 to 200 cars, as at an off-ramp, which the model does not have. "
            "Only stations up to b are compared. To compare all stations use --no-ramp-check"])
        free = dataclasses.replace(measured, main=[measured.main[0], dataclasses.replace(measured.main[1], speeds=[90.0, None, 80.0, 85.0])])
        self.check("congestion", (is_congested(measured), is_congested(free)), (True, False))
        self.check("an excess", spread_excess([(0, 2_000.0), (1_800, 1_500.0), (3_600, 1_800.0)], 1_780, 5_400),
              ([(0, 1_780), (1_800, 1_720.0), (3_600, 1_780)], 2))
        with tempfile.TemporaryDirectory() as folder:
            for title, factor in (("flow veh/h", 0.5), ("flow veh/30min", 1), ("volume", 0.5), ("count", 1)):
                path = Path(folder, "counts.csv")
                path.write_text(f"time,km,{title}\n07:00,0,400\n07:30,0,420\n", encoding="utf-8")
                self.check(f"cars of {title}", put_on_road(read_counts(path), Clock.read("07:00"), 3_600).main[0].cars, [400 * factor, 420 * factor])
            for text, wanted in (("time,km\n", "no column is named count or flow: the columns are time, km; choose one with `--column count=NAME`"),
                                 ("time,km,count,speed\n07:00,0,4,60\n", "the column 'speed' has no unit: name it `speed km/h` or `speed mph`, or "
                                                                        "give --unit speed=mph"),
                                 ("time,km,count\n07:00,0,x\n", "line 2: count: 'x' is not a number"),
                                 ("time,km,count\n7 h,0,1\n", "line 2: '7 h' is not a time: write \"07:05\", \"2026-03-02 07:05\" or \"03/02/2026 07:05:00\"")):
                path.write_text(text, encoding="utf-8")
                try:
                    self.check(text, read_counts(path), wanted)
                except Fault as fault:
                    self.check(text, str(fault).replace(f"{path}: ", "").replace(f"{path}, ", ""), wanted)
        self.check_near("GEH of 1,000 and 900", compute_geh(1_000, 900), math.sqrt(2 * 10_000 / 1_900), 1e-12)

    def test_shifted_times(self) -> None:
        """Move the clock times and the dates of station b by 10 minutes, over midnight, and leave those of a. Rows of b that are missing first do not
        make the stations out of order along the road, and stations in another order do."""
        with tempfile.TemporaryDirectory() as folder:
            path = Path(folder, "counts.csv")
            for dates, moved in (("", ["23:55", "00:00", "00:05"]), ("2026-03-01 ", ["2026-03-01 23:55:00", "2026-03-02 00:00:00", "2026-03-02 00:05:00"])):
                path.write_text("time,station,km,count\n" + "".join(f"{dates}23:{minute},{name},{km},9\n" for minute in (45, 50, 55) for name, km in
                                                                   (("a", 0), ("b", 1))), encoding="utf-8")
                rows = correct_counts(read_counts(path), shifts={"b": 10}).rows
                self.check(f"moved {dates}", [str(row.time)[:len(moved[0])] for row in rows if row.station == "b"], moved)
                self.check(f"left {dates}", [str(row.time)[-8:-3] for row in rows if row.station == "a"], ["23:45", "23:50", "23:55"])
            for rows, wanted in (((("07:00", "ac"), ("07:05", "abc")), []), ((("07:00", "c"), ("07:05", "cba")), []), (
                    (("07:00", "acb"), ("07:05", "abc")), ["FILE: its stations are out of order along the road: they are sorted by km"])):
                path.write_text("time,station,km,count\n" + "".join(f"{time},{name},{'abc'.index(name)},9\n" for time, names in rows for name in names),
                                encoding="utf-8")
                self.check(f"the order of {rows}", [one.replace(str(path), "FILE") for one in read_counts(path).notes], wanted)

    def test_doubtful_values(self) -> None:
        """Read codes and impossible values, in both layouts: the notes name the line of each, and it is missing. b has two lanes, so 500 cars
        in five minutes are 3,000 per hour and lane, which is accepted; 501 are not."""
        rows = [("07:00", 300, 60), ("07:05", -999, 60), ("07:10", "nan", -1), ("07:15", 501, 60), ("07:20", 500, 250.1), ("07:25", "inf", "nan"),
                ("07:30", "", ""), ("07:35", 280, -999)]
        wanted = [150.0, None, None, None, 250.0, None, None, 140.0], [60.0, None, None, None, None, None, None, None]
        with tempfile.TemporaryDirectory() as folder:
            path = Path(folder, "counts.csv")
            path.write_text("time,station,km,lanes,count,speed km/h\n" + "".join(
                f"{time},a,0,1,100,\n{time},b,1,2,{cars},{speed}\n" for time, cars, speed in rows), encoding="utf-8")
            measured = put_on_road(read_counts(path), Clock.read("07:00"), 2_400)
            notes = [one.replace(str(path), "FILE") for one in measured.notes]
            self.check("accepted values", (measured.main[1].cars, measured.main[1].speeds), wanted)
            self.check("the notes on the others", notes, [
                "FILE, line 15: 1 row has no count: treated as missing",
                "FILE, lines 5, 7, 13: 3 rows have counts that are below 0 or not finite: treated as missing",
                "FILE, lines 7, 13, 17: 3 rows have speeds that are below 0 or not finite: the speeds are treated as missing",
                "FILE, line 11: 1 row has a speed above 250 km/h: the speed is treated as missing",
                "FILE, line 9: 1 row of station b has more than 3,000 cars per hour and lane: treated as missing",
                "the stations have 1 and 2 lanes: the model has one lane, so it cannot show how the flow per lane changes with the number of lanes",
                "from station a (km 0) to b (km 1) the flow per lane rises from 300 to 540 cars, more than the on-ramp stations count. If the road has no "
                "other on-ramp there, a under-counts: then use --leave-out a or --scale a=1.800, or b over-counts: then use --leave-out b or --scale b=0.556"])
            path.write_text("".join(f"03/02/2026 {time}:00,{name},7,10,E,ML,.5,10,100,{cars},.1,{speed}\n" for time, cars, speed in rows
                                    for name, cars, speed in (("1", 100, ""), ("2", cars, speed))), encoding="utf-8")
            table = {name: Station(name, km, lanes) for name, km, lanes in (("1", 0.0, 1), ("2", 1.0, 2))}
            measured = put_on_road(read_counts(path, table), Clock.read("07:00", "2026-03-02"), 2_400)
            self.check("accepted values without a header", measured.main[1].cars, wanted[0])
            self.check("speeds without a header", [one is not None for one in measured.main[1].speeds], [True, False, False, False, False, False, False, False])
            path.write_text("time,station,km,flow\n07:00,a,0,-1\n07:05,a,0,600\n07:10,a,0,1200\n07:00,b,1,600\n07:05,b,1,600\n07:10,b,1,60\n",
                            encoding="utf-8")
            measured = put_on_road(read_counts(path), Clock.read("07:00"), 900)
            self.check("a demand is never below 0", measured.demand(), [(0, 600.0), (300, 600.0), (600, 1_200.0)])
            try:
                self.check("a single station", with_stations(FIGURES, measured), "a refusal")
            except Fault as fault:
                self.check("a single station", str(fault), "only the main-line station a (km 0) is left: it gives the demand, and none is left to compare: from "
                      "station a (km 0) to b (km 1) the flow per lane falls from 150 to 55 cars, as at an off-ramp, which the model does not have. "
                      "Only stations up to a are compared. To compare all stations use --no-ramp-check. Check the counts of both stations, or give more stations")
            for text, said in (("time,station,km,lanes,count\n07:00,a,0,0,5\n", "line 2: lanes must be 1 or more, not 0"),
                               ("time,station,km,lanes,count\n07:00,a,nan,1,5\n", "line 2: km: 'nan' is not a number"),
                               ("time;station;km;count\n07:00;a;0,1;5\n", "line 2: km: '0,1' is not a number: write 0.1, with a decimal point"),
                               ("time;station;km;count\n07:00;a;0;-5,5\n", "line 2: count: '-5,5' is not a number: write -5.5, with a decimal point"),
                               ("time;station;km;count\n07:00;a;1,2,3;5\n", "line 2: km: '1,2,3' is not a number"),
                               ("time,station,km,count\n07:00\n", "line 2: km: '' is not a number")):
                path.write_text(text, encoding="utf-8")
                try:
                    self.check(text, read_counts(path), said)
                except Fault as fault:
                    self.check(text, str(fault).replace(f"{path}, ", ""), said)

    def test_rows_outside(self) -> None:
        """Interpolate a demand with the rows just before and after the window of 07:00 to 07:20. a has 50 cars at 06:50 and 120 at 07:05, so 96.7 in
        between; two lanes and twelve intervals an hour make 580 cars/h. It has 100 at 07:10, and 40 at 07:25: 80 and 60 in between. The zero at 06:55,
        990 cars and the count of 05:55 are not used, nor is b's count at 05:55, more than an hour before. Clock times without a date are the same ones."""
        counts = {"05:55": (10, 10), "06:45": (30, ""), "06:50": (50, ""), "06:55": (0, ""), "07:05": (120, 100), "07:10": (100, 100), "07:15": ("", 100), "07:20": (990, 100),
                  "07:25": (40, 100), "07:30": (990, 100), "07:35": (20, 100)}
        with tempfile.TemporaryDirectory() as folder:
            path = Path(folder, "counts.csv")
            for date in ("", "2026-03-02"):
                path.write_text("time,station,km,lanes,count\n" + "".join(f"{f'{date} {time}'.strip()},{name},{place},2,{cars}\n" for time, both in counts.items()
                                                                          for place, (name, cars) in enumerate(zip("ba", both[::-1]))), encoding="utf-8")
                clock = Clock.read("07:00", date or None)
                measured = put_on_road(read_counts(path), clock, 1_200, checks_ramps=False)
                self.check(f"demand of a {date}", [(step, round(cars, 6)) for step, cars in make_rates(measured.main[1], 300)],
                      [(0, round((50 + 70 * 2 / 3) * 6, 6)), (300, 720.0), (600, 600.0), (900, 480.0)])
                notes: list[str] = []
                for series in measured.main:
                    note_interpolated(series, clock, 300, notes)
                self.check(f"notes {date}", notes, [
                    "the demand of station b is unknown in 1 interval, 07:00 to 07:05: it is assumed to be that of its first count. Begin the window at 07:05, or "
                    "give its counts of 07:00 to 07:05", "the demand of station a is interpolated in 2 intervals without a count, at 07:00, 07:15"])


if __name__ == "__main__":
    unittest.main()
