"""Check clock times, and nights in which the clock changes."""
from __future__ import annotations

import tempfile
import unittest
from pathlib import Path

from checked import Checked
from zegdrut.measurements import put_on_road, read_counts
from zegdrut.roads import Clock, InvalidTime


class Clocks(Checked):
    def test_clocks(self) -> None:
        night = Clock.read("22:00")
        self.check("the next day", (night.to_step("00:30"), night.to_text(9_000), night.to_date_text(9_000)), (9_000, "00:30", "00:30 (day 2)"))
        spring = Clock.read("01:30", "2026-03-29", "Europe/Berlin")
        self.check("an hour that is skipped", (spring.to_step("03:00"), spring.to_text(1_800)), (1_800, "03:00"))
        autumn = Clock.read("01:30", "2026-10-25", "Europe/Berlin")
        self.check("an hour that comes twice", (autumn.to_step("02:30"), autumn.to_step("02:30+01:00"), autumn.to_step("03:00"), autumn.to_text(7_200)),
              (3_600, 7_200, 9_000, "02:30"))
        for make, wanted in ((lambda: spring.to_step("02:30", "end"), "end: '02:30' does not exist on 2026-03-29 in Europe/Berlin: the clock "
                              "change skips it"), (lambda: night.to_step("7.00"), "time: '7.00' is not a time: write \"7:00\", \"07:00\", "
                              "\"07:00:30\", or a number of minutes after the beginning")):
            try:
                self.check("a bad time", make(), wanted)
            except InvalidTime as fault:
                self.check("a bad time", str(fault), wanted)

    def test_clock_changes(self) -> None:
        """Place half-hour rows in nights in which the clock changes. On 25 October 2026 02:00 and 02:30 come twice in Berlin. On 29 March
        02:00 to 03:00 do not exist, so that 03:00 follows 01:30."""
        with tempfile.TemporaryDirectory() as folder:
            path = Path(folder, "counts.csv")
            for date, times, minutes, wanted, note in (
                    ("", ("01:30", "02:00", "02:30", "02:00", "02:30", "03:00"), 180, [0, 1, 2, 3, 4, 5], "an hour comes twice"),
                    ("2026-10-25", ("01:30", "02:00", "02:30", "02:00", "02:30", "03:00"), 180, [0, 1, 2, 3, 4, 5],
                     "an hour comes twice; without an offset from UTC the first row of a time belongs to the first hour"),
                    ("2026-10-25", ("01:30+02:00", "02:00+02:00", "02:30+02:00", "02:00+01:00", "02:30+01:00", "03:00+01:00"), 180,
                     [0, 1, 2, 3, 4, 5], "an hour comes twice"),
                    ("2026-03-29", ("01:30", "02:30", "03:00", "03:30"), 90, [0, 2, 3],
                     "line 4, 5: 2 rows are at a time that the clock change in Europe/Berlin skips: ignored".replace("line", "lines"))):
                path.write_text("time,station,km,count\n" + "".join(
                    f"{f'{date} {time}'.strip()},{name},{km},{100 + place}\n" for place, time in enumerate(times) for name, km in (("a", 0), ("b", 1))),
                                encoding="utf-8")
                measured = put_on_road(read_counts(path), Clock.read("01:30", date or "2026-10-25", "Europe/Berlin"), minutes * 60)
                self.check(f"counts of {date or 'clock times'}", [one.cars for one in measured.main], [[100.0 + one for one in wanted]] * 2)
                self.check(f"notes of {date}", any(note in one for one in measured.notes), True)
        earlier = Clock.read("03:00", "2026-10-25", "Europe/Berlin").shift(-1_800)
        self.check("half an hour before 03:00", earlier.to_date_text(0), "2026-10-25 02:30+01:00")
        self.check("from then on", [earlier.to_step(time) for time in ("03:00", "02:45+01:00")], [1_800, 900])
        self.check("midnight", Clock.read("00:10", "2026-03-01").shift(-1_200).to_date_text(0), "2026-02-28 23:50")


if __name__ == "__main__":
    unittest.main()
