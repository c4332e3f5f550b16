"""Find stations that count too many cars or too few, and clocks that are wrong."""
from __future__ import annotations

import math
import random
import tempfile
import unittest
from pathlib import Path

from checked import Checked
from zegdrut.base.errors import Fault
from zegdrut.commands import measured as measured_command
from zegdrut.measurements import Station
from zegdrut.measurements.counts_on_road import Series, cut_at_exit


class Doubts(Checked):
    def test_suspected_ramps(self) -> None:
        """Name a ramp station that counts 30 % too many cars. 20 intervals have 100 cars before it, 40 join, and 140 are counted after it, where
        152 are expected: a fall of 240 cars, more than 5 % of 3,040 and three times its root. 40 / 52 of its counts are right. If the main line is
        counted right, nothing is said; if two ramps join, neither is named."""
        def said(*joining: float) -> str:
            main = [Series(Station(name, km, 1), [cars] * 20, [None] * 20) for name, km, cars in (("a", 0.0, 100.0), ("b", 1.0, 100.0), ("c", 2.0, 140.0),
                                                                                               ("d", 3.0, 140.0))]
            ramps = [Series(Station(f"r{place}", 1.5, 1, True), [cars] * 20, [None] * 20) for place, cars in enumerate(joining)]
            _, fall, doubts = cut_at_exit(main, ramps)
            return " ".join([*doubts, fall])
        self.check("a ramp that over-counts", "the ramp station r0 over-counts: then use --scale r0=0.769" in said(52.0), True)
        self.check("a ramp that under-counts", said(28.0).strip().endswith(
            "the stations up to b under-count, or those from c on over-count, or perhaps the ramp station r0 under-counts: then use --scale r0=1.429"), True)
        self.check("far too few", "the ramp station" in said(18.0), False)
        self.check("right counts and two ramps", (said(40.0).strip(), "the ramp station" in said(26.0, 26.0)), ("", False))

    def test_common_intervals(self) -> None:
        """Compare a station with both neighbours in the same intervals. In 18 intervals 101 to 104 have 102.5, 108, 100 and 150 cars, and 50 join before 104:
        102 counts 8 % too many. 104 lacks one interval, and the ramp another one. If its 50 cars count as 0 there, 102 and 104 fit, and the innocent 103 counts
        too few. Of 102, 101 and 103 have all intervals: 1,944 cars are not more than 1,845 by three times their root, so the fall may be an off-ramp. Without 102
        it is 45 cars, so that 102 may also over-count. If 101 has 100, it is named."""
        def said(first: float, ramp: list[float | None], fourth: list[float | None], third: float = 100.0) -> list[str]:
            main = [Series(Station(name, km, 1), cars, [None] * 18) for name, km, cars in (
                ("101", 0.0, [first] * 18), ("102", 1.0, [108.0] * 18), ("103", 2.0, [third] * 18), ("104", 3.0, fourth), ("105", 4.0, fourth))]
            _, fall, doubts = cut_at_exit(main, [Series(Station("201", 2.5, 1, True), ramp, [None] * 18)])
            return [*doubts, *([fall] if fall else [])]
        fall = ["from station 102 (km 1) to 103 (km 2) the flow per lane falls from 1944 to 1800 cars, as at an off-ramp, which the model does not have. Only "
                "stations up to 102 are compared. If there is no off-ramp, 102 over-counts: then use --leave-out 102 or --scale 102=0.926. To compare all "
                "stations use --no-ramp-check"]
        ramp, fourth = [50.0] * 18, [150.0] * 18
        lacking = [[None if place == missing else cars for place, cars in enumerate(each)] for missing, each in ((6, ramp), (9, fourth))]
        self.check("no missing rows", said(102.5, ramp, fourth), fall)
        self.check("missing rows of the ramp and of 104", said(102.5, *lacking), fall)
        self.check("a station between that is named", [one[:72] for one in said(100.0, *lacking)],
              ["station 102 (km 1) counts 8 % more than the stations before and after it"])
        # A morning rises by 40 cars in each interval, and 101 lacks the last six. All three stations fit in the other ones.
        rising = [500.0 + 40 * place for place in range(18)]
        early = [Series(Station(str(name), float(name), 1), [None if name == 0 and place > 11 else cars * (1.08 if name == 1 else 1.0) for place, cars in
                                                           enumerate(rising)], [None] * 18) for name in range(4)]
        part, late, low, raised = [None] * 6 + [1_080.0] * 12, [None] * 12 + [1_000.0] * 6, [600.0] * 6 + [1_000.0] * 12, [1_000.0] * 12 + [1_100.0] * 6
        for cars, wanted in (([[1_000.0] * 18, part, low, low], "station 1 (km 1) counts 8 % more "), ([[1_000.0] * 18, raised, late, [1_000.0] * 18],
                                                                                                  "station 1 (km 1) counts 10 % more ")):
            series = [Series(Station(str(name), float(name), 1), each, [None] * 18) for name, each in enumerate(cars)]
            self.check(f"the intervals of all three: {wanted}", [one[:len(wanted)] for one in cut_at_exit(series, [])[2]], [wanted])
        self.check("a station that ends early", [one[:67] for one in cut_at_exit(early, [])[2]], ["station 1 (km 1) counts 8 % more than the stations before and after"])

    def test_doubted_ramps(self) -> None:
        """Name a ramp station whose counts do not fit the rise of the flow, although they hardly change the flow of the main line: 20 intervals of 400 cars on
        two lanes and 440 after the ramp, 800 more. The ramp counts 1,040 of them, 2.7 % of 8,800 more. 1,000 are no more than 20 % of themselves above 800.
        With 4,000 cars in each interval, 240 are less than 2 % of the main line; with 80 and 84 (80 more in all), 122 are within three times the root of 202."""
        def said(ramp: float, before: float = 200.0, after: float = 220.0, *others: Series, lost: int = 20) -> list[str]:
            main = [Series(Station(name, km, 2), [cars] * 20, [None] * 20) for name, km, cars in (("a", 0.0, before), ("b", 1.0, before), ("c", 2.0, after),
                                                                                               ("d", 3.0, after))]
            ramps = [Series(Station("r", 1.5, 1, True), [None if place == lost else ramp / 40 for place in range(20)], [None] * 20), *others]
            return cut_at_exit(main, ramps)[2]
        words = ("the ramp station r (km 1.5) counts {} cars, but from station b to c the flow rises by 800 cars in the same intervals. r {}-counts: then use --scale "
                 "r={}, or b {}-counts or c {}-counts by {} %")
        self.check("a ramp that over-counts", said(1_040.0), [words.format("1,040", "over", "0.769", "over", "under", "2.7")])
        self.check("a ramp that under-counts", said(560.0), [words.format("560", "under", "1.429", "under", "over", "2.7")])
        self.check("within a fifth", (said(1_000.0), said(990.0), said(1_001.0) != []), ([], [], True))
        self.check("a small part of the main line", said(1_040.0, 2_000.0, 2_020.0), [])
        self.check("by chance", (said(122.0, 40.0, 42.0), said(124.0, 40.0, 42.0) != []), ([], True))
        self.check("two ramps", said(1_040.0, 200.0, 220.0, Series(Station("q", 1.7, 1, True), [0.0] * 20, [None] * 20)), [])
        self.check("far too many", said(1_700.0, 1_000.0, 1_020.0)[0].split(". ")[1], "r over-counts, or b over-counts or c under-counts by 2.2 %")
        self.check("an interval without a count", said(1_040.0, lost=3)[0][:102], "the ramp station r (km 1.5) counts 988 cars, but from station b to c the flow rises by 760 cars in the")

    def test_counting_faults(self) -> None:
        """Read four stations of 1,000 cars each in two hours; the third counts 8 % too many. It is named with both readings, and no
        station is dropped. If the last two stations count less, there is an exit. A clock that is 30 minutes fast is found from both sides."""
        def read(cars: dict[str, list[float]], *words: str, shift: dict[str, int] = {}) -> tuple[list[str], list[str]]:
            with tempfile.TemporaryDirectory() as folder:
                path, road = Path(folder, "counts.csv"), Path(folder, "road.json")
                rows = [f"{7 + (5 * (place + shift.get(name, 0))) // 60:02}:{5 * (place + shift.get(name, 0)) % 60:02},{name},{km},{count}"
                        for km, (name, counts) in enumerate(cars.items()) for place, count in enumerate(counts)]
                path.write_text("time,station,km,count\n" + "\n".join(rows) + "\n", encoding="utf-8")
                road.write_text('{"length": 4, "begin": "07:00", "minutes": 120, "main": 500, "ramps": [], "sections": [], "stalled": []}', encoding="utf-8")
                given = measured_command.read_arguments([str(road), str(path), *words])
                _, measured = measured_command.read_data(given)
            return [one.station.name for one in measured.main], [one for one in measured.notes if "has no row" not in one]

        flat = {name: [1_000 / 24] * 24 for name in ("101", "102", "103", "104")}
        self.check("nothing to say", read(flat), (list(flat), []))
        high = {**flat, "103": [1_080 / 24] * 24}
        self.check("one over-counts", read({name: [one * 3 for one in cars] for name, cars in high.items()}), (list(flat), [
            "station 103 (km 2) counts 8 % more than the stations before and after it, 102 and 104: cars join before it and leave after it, which the "
            "counts do not show, or 103 over-counts. In the second case use --leave-out 103 or --scale 103=0.926"]))
        low = {name: [one * 3 * (0.92 if name == "103" else 1) for one in cars] for name, cars in flat.items()}
        self.check("one under-counts", read(low), (list(flat), [
            "station 103 (km 2) counts 8 % less than the stations before and after it, 102 and 104: cars leave before it and join after it, which the "
            "counts do not show, or 103 under-counts. In the second case use --leave-out 103 or --scale 103=1.087"]))
        exit_after = {name: [3 * one * (0.9 if name > "102" else 1) for one in cars] for name, cars in flat.items()}
        fall = ("from station 10{} (km {}) to 10{} (km {}) the flow per lane falls from 3000 to {} cars, as at an off-ramp, which the model does not have. "
                "Only stations up to 10{} are compared.{} To compare all stations use --no-ramp-check")
        self.check("an exit", read(exit_after), (["101", "102"], [fall.format(2, 1, 3, 2, 2700, 2, "")]))
        last = {name: [3 * one * (0.92 if name == "104" else 1) for one in cars] for name, cars in flat.items()}
        self.check("the last one under-counts", read(last), (["101", "102", "103"], [fall.format(
            3, 2, 4, 3, 2760, 3, " If there is no off-ramp, 104 under-counts: then use --leave-out 104 or --scale 104=1.087.")]))
        rise = ("from station 10{} (km {}) to 10{} (km {}) the flow per lane rises from {} to {} cars, more than the on-ramp stations count. If the road "
                "has no other on-ramp there, {}")
        first = {name: [3 * one * (0.92 if name == "101" else 1) for one in cars] for name, cars in flat.items()}
        self.check("the first one under-counts", read(first), (list(flat), [rise.format(
            1, 0, 2, 1, 2760, 3000, "101 under-counts: then use --leave-out 101 or --scale 101=1.087")]))
        last = {name: [3 * one * (1.08 if name == "104" else 1) for one in cars] for name, cars in flat.items()}
        self.check("the last one over-counts", read(last), (list(flat), [rise.format(
            3, 2, 4, 3, 3000, 3240, "104 over-counts: then use --leave-out 104 or --scale 104=0.926")]))
        ramp = {name: [3 * one * (1.1 if name > "102" else 1) for one in cars] for name, cars in flat.items()}
        self.check("a ramp without a station", read(ramp), (list(flat), [rise.format(
            2, 1, 3, 2, 3000, 3300, "the stations up to 102 under-count, or those from 103 on over-count")]))
        self.check("all stations", read(exit_after, "--no-ramp-check"), (list(flat), []))
        self.check("a station left out", read(high, "--leave-out", "103"), (["101", "102", "104"], ["station 103 is left out"]))
        self.check("a station scaled", read({name: [3 * one for one in cars] for name, cars in high.items()}, "--scale", "103=0.926"),
              (list(flat), ["the counts of station 103 are multiplied by 0.926"]))
        try:
            read({name: [3 * one * (1.08 if name == "101" else 1) for one in cars] for name, cars in flat.items()})
            self.check("the first one over-counts", "", "a refusal")
        except Fault as fault:
            self.check("the first one over-counts", ("only the main-line station 101 (km 0) is left" in str(fault), "use --leave-out 101 or --scale 101=0.926" in str(fault)),
                  (True, True))
        for words, wanted in ((("--leave-out", "9"), "has no station 9: the stations are 101, 102, 103, 104"),
                              (("--scale", "103=3"), "--scale 103=3: the factor must be 0.5 to 2"),
                              (("--scale", "103"), "--scale must be STATION=FACTOR, such as 103=0.926, not 103"),
                              (("--shift", "103"), "--shift must be STATION=MINUTES, such as 103=-10, not 103"),
                              (("--shift", "103=-721"), "--shift 103=-721: the minutes must be -720 to 720")):
            try:
                self.check(wanted, read(flat, *words), "a refusal")
            except Fault as fault:
                self.check(wanted, str(fault).endswith(wanted), True)
        rng = random.Random(3)

        def draw(profile: list[float]) -> dict[str, list[float]]:
            return {name: [float(round(rng.gauss(cars, math.sqrt(cars)))) for cars in profile] for name in flat}

        for _ in range(5):
            self.check("a flow that hardly changes", [one for one in read(draw([60.0] * 24), "--no-ramp-check")[1] if "clock" in one], [])
        noisy = draw([rng.uniform(30, 90) for _ in range(24)])
        self.check("clocks that agree", read(noisy, "--no-ramp-check")[1], [])
        for name, beside in (("101", "102 and 103"), ("103", "102 and 104"), ("104", "102 and 103")):
            said = [one for one in read(noisy, "--no-ramp-check", shift={name: 6})[1] if "clock" in one]
            self.check(f"the clock of {name}", said, [
                f"the clock of station {name} seems to be about 30 minutes fast: its counts fit those of {beside} best 30 minutes earlier. Check it, and "
                f"use --shift {name}=-30 or --leave-out {name}"])
        # The option that the note names gives the counts of the right clock back.
        self.check("a shifted clock", read(noisy, "--no-ramp-check", "--shift", "103=-30", shift={"103": 6}),
              (list(flat), ["the times of station 103 are moved by -30 minutes"]))
        # Beside the first station, the nearer neighbour shows the lag, even if a jam blurs the counts of the other one.
        blurred = {**noisy, "103": [one * rng.uniform(0.4, 1.6) for one in noisy["103"]]}
        said = [one[:60] for one in read(blurred, "--no-ramp-check", shift={"101": 6})[1] if "clock" in one]
        self.check("the first clock beside a blurred station", said, ["the clock of station 101 seems to be about 30 minutes fast: "])
        # A clock that is fast is not taken for a station that counts too few.
        rising = draw([30.0] * 6 + [60.0] * 4 + [90.0] * 8 + [50.0] * 6)
        self.check("a clock alone", [one[:60] for one in read(rising, shift={"103": 6})[1]], ["the clock of station 103 seems to be about 30 minutes fast: "])


if __name__ == "__main__":
    unittest.main()
