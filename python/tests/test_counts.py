"""Put counts on a road, and compute what each interval has in a second way."""
from __future__ import annotations

import tempfile
import unittest
from pathlib import Path

from zegdrut.measurements import Measured, put_on_road, read_counts
from zegdrut.roads import Clock

STATIONS = {"up": (9.0, 3, "ML"), "middle": (6.5, 2, "ML"), "down": (2.0, 4, "ML"), "ramp": (7.0, 1, "OR"), "low ramp": (5.0, 1, "OR"), "last ramp": (1.5, 1, "OR")}
"""By the name: km, lanes and type. The road is driven from km 9 to km 2."""
COUNTS = {"up": 300, "middle": 230, "down": 470, "ramp": 33, "low ramp": 17, "last ramp": 20}


def read(text: str, seconds: int, **options: bool) -> Measured:
    """Put the counts of a file on a road that begins at 07:00."""
    with tempfile.TemporaryDirectory() as name:
        path = Path(name, "counts.csv")
        path.write_text(text, encoding="utf-8")
        return put_on_road(read_counts(path), Clock.read("07:00"), seconds, **options)


class Lanes(unittest.TestCase):
    def test_ramps_of_a_road_with_decreasing_km(self) -> None:
        """The cars of a ramp are divided by the lanes of the next station in the direction of travel: 2 behind the ramp at km 7, 4 behind that at
        km 5. The places count from the first station."""
        lines = ["time,station,km,lanes,type,count"] + [
            f"07:{minute:02},{name},{km},{lanes},{kind},{COUNTS[name] + minute}" for minute in (0, 5, 10) for name, (km, lanes, kind) in STATIONS.items()]
        found = read("\n".join(lines) + "\n", 900, is_reversed=True, checks_ramps=False)
        self.assertEqual([(one.station.name, one.station.km, one.cars) for one in found.main],
                         [(name, 9.0 - STATIONS[name][0], [(COUNTS[name] + minute) / STATIONS[name][1] for minute in (0, 5, 10)])
                          for name in ("up", "middle", "down")])
        self.assertEqual([(one.station.name, one.station.km, one.cars) for one in found.ramps],
                         [("ramp", 2.0, [33 / 2, 38 / 2, 43 / 2]), ("low ramp", 4.0, [17 / 4, 22 / 4, 27 / 4])])

    def test_ramps_of_a_road_with_increasing_km(self) -> None:
        """On the same stations driven from km 2 to km 9 the lanes are those of the stations at higher km."""
        lines = ["time,station,km,lanes,type,count"] + [
            f"07:{minute:02},{name},{km},{lanes},{kind},{COUNTS[name]}" for minute in (0, 10) for name, (km, lanes, kind) in STATIONS.items()]
        found = read("\n".join(lines) + "\n", 1_200, checks_ramps=False)
        self.assertEqual([(one.station.name, one.cars) for one in found.ramps], [("last ramp", [20 / 4] * 2), ("low ramp", [17 / 2] * 2), ("ramp", [33 / 3] * 2)])


class Faults(unittest.TestCase):
    def test_a_fault_of_a_detector_has_no_speed(self) -> None:
        """A zero between two intervals with many cars is missing, and so is its speed. A zero at night has a speed if the file has one."""
        counts, speeds = [60, 0, 62, 4, 0, 3], [95, 88, 96, 101, 99, 103]
        lines = ["time,station,km,lanes,count,speed km/h"] + [
            f"07:{5 * place:02},{name},{km},2,{count if name == 'b' else 50},{speed}" for place, (count, speed) in enumerate(zip(counts, speeds))
            for name, km in (("a", 0), ("b", 1.5))]
        found = read("\n".join(lines) + "\n", 1_800, checks_ramps=False).main[1]
        self.assertEqual(found.cars, [30.0, None, 31.0, 2.0, 0.0, 1.5])
        self.assertEqual(found.speeds, [95.0, None, 96.0, 101.0, 99.0, 103.0])

    def test_half_of_the_rows_are_missing(self) -> None:
        """Without every second row the demand is that of the rows, and half-way between two of them in between. Cars per hour stand for 1/12."""
        flows = [1_200, 1_320, 1_440, 1_080, 960, 1_200, 1_500]
        rows = [f"07:{5 * place:02},{name},{km},2,{flow}" for place, flow in enumerate(flows) for name, km in (("a", 0), ("b", 1.5))
                if place % 2 == 0 or name == "b"]
        found = read("\n".join(["time,station,km,lanes,flow", *rows]) + "\n", 2_100)
        self.assertEqual([one and round(one, 9) for one in found.main[0].cars], [50.0, None, 60.0, None, 40.0, None, 62.5])
        self.assertEqual([(step, round(cars, 6)) for step, cars in found.demand()],
                         [(0, 600.0), (300, 660.0), (600, 720.0), (900, 600.0), (1_200, 480.0), (1_500, 615.0), (1_800, 750.0)])


if __name__ == "__main__":
    unittest.main()
