"""Read files of freeways, with clock times and profiles of demand."""
from __future__ import annotations

import dataclasses
import json
import tempfile
import unittest
from pathlib import Path

from freeway_recipe import FreewayChecks, PLAIN
from zegdrut.roads import Figures, Section, Stalled, count_demand, make_road
from zegdrut.roads.road_in_cells import Fault, describe_changes

NONE = '"ramps": [], "sections": []'
FIELDS = ("length limit slowing main ramps sections stalled detectors stretch piece minutes seed zone begin date timezone start entry "
          "approach calibration")
A_TIME = '"7:00", "07:00", "07:00:30", or a number of minutes after the beginning'
A_DEMAND = 'cars per hour; or [["06:30", 900], ["07:00", 1400], ..]; or {"csv": "FILE", "column": "NAME"}'


def read_file(text: str) -> object:
    with tempfile.NamedTemporaryFile("w", suffix=".json") as file:
        file.write(text)
        file.flush()
        try:
            return PLAIN.override(Path(file.name))
        except Fault as fault:
            return str(fault).replace(file.name, "FILE")


class Files(FreewayChecks):
    def test_files(self) -> None:
        self.check("a file", read_file('{"main": 900, "ramps": [], "stalled": [[1, 2, 3]], "sections": [{"first": 1, "last": 2, "begin": 3, "end": 4}]}'),
              dataclasses.replace(PLAIN, main=900, ramps=[], stalled=[Stalled(1, 2, 3)], sections=[Section(1, 2, 3, 4)]))
        self.check("a road without sections", read_file("{" + NONE + "}"), dataclasses.replace(PLAIN, ramps=[], sections=[]))
        for text, wanted in (
                ('{"mian": 900}', f"FILE: unknown field 'mian': the fields are {FIELDS}"),
                ('{"sections": [{"km": 1}]}', "FILE: sections[0]: unknown field 'km': the fields are first last begin end limit slowing start capacity"),
                ('{"length": "3"}', 'FILE: length: "3" is not a number of km'),
                ('{"ramps": [[1, 2, 3]]}', "FILE: ramps: [[1, 2, 3]] is not a list of [km, demand]"),
                ('{"detectors": 1.5}', "FILE: detectors: 1.5 is not a list of km"),
                ('{"stretch": [1]}', "FILE: stretch: [1] is not [from km, to km]"),
                ('{"sections": null}', "FILE: sections: null is not a list of sections"),
                ('{"slowing": 10}', "FILE: slowing: 10 is not a chance from 0 to 1"),
                ('{"sections": [[1, 2, 3, "4"]]}', f"FILE: sections[0].end: '4' is not a time: write {A_TIME}"),
                ('{"sections": [[1, 2, 3, 4, "54"]]}', 'FILE: sections[0].limit: "54" is not a number'),
                ('{"sections": [[1, 2, 3]]}', "FILE: sections[0]: [1, 2, 3] is not complete: end is missing; the fields are first last begin end limit slowing start capacity"),
                ('{"main": 900}', 'FILE has no sections: if no part of the road has its own limit or drivers, write "sections": []'),
                ('{"sections": []}', 'FILE has no ramps: if there is no on-ramp, write "ramps": []'),
                ('{"stalled": [[1, 2]]}', "FILE: stalled[0]: [1, 2] is not complete: end is missing; the fields are at begin end"),
                ('{"begin": "6.30"}', """FILE: begin: '6.30' is not a clock time: write "7:00", "07:00" or "07:00:30\""""),
                ('{"calibration": {"delay": 5}}', 'FILE: calibration: {"delay": 5} is not what `calibrate` wrote: leave the field out, or calibrate the road '
                                                  "again"),
                ('{"entry": -1}', "FILE: entry: -1 is not a number of km, or null"),
                ('{"date": "2 March"}', """FILE: date: '2 March' is not a date: write year, month and day like "2026-03-02\""""),
                ('{"main": "900"}', f'FILE: main: "900" is not {A_DEMAND}'),
                ('{"main": [["0:10", 900], ["0:05", 800]]}', 'FILE: main: [["0:10", 900], ["0:05", 800]] is not in rising order of '
                                                             'time: 00:05 appears twice or is out of order'),
                ('{"main": [["1:10", 900]]}', 'FILE: main: "1:10" is not in the run, which lasts from 00:00 to 01:00 (is "begin" missing?)'),
                ('{"main": [["0:10", -1]]}', "FILE: main: -1 is not cars per hour, 0 or more"),
                ("main: 900", "FILE is not JSON: Expecting value: line 1 column 1 (char 0)")):
            self.check(text, read_file(text), wanted)

    def test_clock_of_the_day(self) -> None:
        """Read clock times: 06:30 is step 0, so 07:00 is step 1,800. Works from 07:00 to 7:30 last from step 1,800 to 3,600. The demand is
        900 cars per hour from 06:30 to 07:00, and 1,400 after that."""
        text = json.dumps({"begin": "06:30", "ramps": [[0.75, [[0, 100], [30, 200]]]], "main": [["6:30", 900], ["07:00", 1_400]],
                           "sections": [[2.25, 2.625, "07:00", "7:30", 54]], "stalled": [[2.4, "06:40", 12]]})
        figures = read_file(text)
        assert isinstance(figures, Figures), figures
        road = make_road(figures)
        self.check("demands by the clock", road.inlets, [(0, [(0, 900), (1_800, 1_400)]), (100, [(0, 100), (1_800, 200)])])
        self.check("works by the clock", road.edits, [("limit", 6, 1_800, 2), ("block", 320, 600, 1), ("block", 320, 720, 0)])
        self.check("changes by the clock", describe_changes(road, [("block", 320, 600, 1)]), ["km 2.4 (cell 320): closed from 06:40 (step 600) on"])
        self.check_refused("a section that ends first, by the clock", "the section from km 1 to 2, 06:39 to 06:39: it must begin before it ends, on the road and in the run",
                begin="06:30", sections=[Section(1, 2, 9, 9)])
        # A profile may be longer than the run: the demand before the run is that of its beginning. The last demand lasts as long as the one
        # before it, until 08:40.
        profile = [["6:30", 900], ["07:00", 1_400], ["07:20", 1_100], ["08:00", 500]]
        for begin, minutes, wanted in (("07:10", 30, [(0, 1_400), (10, 1_100)]), ("07:00", 60, [(0, 1_400), (20, 1_100)]),
                                       ("06:30", 40, [(0, 900), (30, 1_400)]), ("06:00", 60, [(30, 900)]), ("07:20", 60, [(0, 1_100), (40, 500)]),
                                       ("07:30", 10, [(0, 1_100)]), ("08:00", 5, [(0, 500)]), ("08:39", 60, [(0, 500)])):
            cut = read_file(json.dumps({"begin": begin, "minutes": minutes, "main": profile, "ramps": [[0.75, profile]], "sections": []}))
            self.check(f"cut to {begin}, {minutes} minutes", cut if isinstance(cut, str) else (cut.main, cut.ramps), (wanted, [(0.75, wanted)]))
        for begin, end in (("08:40", "09:40"), ("09:00", "10:00"), ("03:00", "04:00")):
            self.check(f"no time in the run from {begin}", read_file(json.dumps({"begin": begin, "main": profile, "ramps": [], "sections": []})),
                  f'FILE: main: "6:30" is not in the run, which lasts from {begin} to {end}')
        self.check("the demand from 06:45 to 07:15", count_demand([(0, 900), (1_800, 1_400)], 900, 2_700), 225 + 350.0)
        # The slowing chance of standing cars is 0.25 on the whole road, and 0.5 in a section while it lasts.
        slow = make_road(dataclasses.replace(PLAIN, start=0.25, sections=[Section(0, 1.5, 10, 20, start=0.5)]))
        self.check("slow to start everywhere", (slow.base_edits, slow.edits),
              ([("start", 0, 0, 16_384), ("start", 1, 0, 16_384)], [("start", 0, 600, 32_768), ("start", 0, 1_200, 16_384)]))
        with tempfile.TemporaryDirectory() as folder:
            Path(folder, "demand.csv").write_text("time,main,ramp\n2026-03-02 06:00,800,80\n2026-03-02 06:45,900,90\n2026-03-02 08:00,1,1\n")
            Path(folder, "road.json").write_text(json.dumps(
                {"begin": "06:30", "date": "2026-03-02", "main": {"csv": "demand.csv", "column": "main"}, "sections": [],
                 "ramps": [[1, {"csv": "demand.csv", "column": "ramp"}]]}))
            figures = PLAIN.override(Path(folder, "road.json"))
            self.check("a demand of a CSV file", (figures.main, figures.ramps), ([(0, 800), (15, 900)], [(1, [(0, 80), (15, 90)])]))


if __name__ == "__main__":
    unittest.main()
