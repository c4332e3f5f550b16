"""Make roads in cells and steps that were worked out by hand."""
from __future__ import annotations

import dataclasses
import random
import tempfile
import unittest
from pathlib import Path

from freeway_recipe import FreewayChecks, PLAIN
from zegdrut.base.units import CELLS_A_KM
from zegdrut.roads.road_in_cells import (
    Section, Stalled, describe_changes, find_changes, make_all_roads, make_road, with_warm_up)


class Roads(FreewayChecks):
    def test_exact(self) -> None:
        """Read figures in whole cells and steps: they give no notes. 0.75 km are 100 cells; zones of 50 cells fit bounds at 250, 300 and 350."""
        road = make_road(dataclasses.replace(
            PLAIN, detectors=[0.375, 1.5], stalled=[Stalled(2.4, 10, 12)],
            sections=[Section(2.25, 2.625, 20, 30, limit=54, slowing=0.5), Section(1.875, 2.25, 18, 30, limit=81)]))
        self.check("no notes", road.notes, [])
        self.check("cells", (road.length, road.zone, road.zones, road.limit, road.slowing, road.detectors),
              (400, 50, 8, 5, 16_384, [50, 200]))
        self.check("inlets", road.inlets, [(0, [(0, 500)]), (100, [(0, 100)])])
        self.check("edits", road.edits,
              [("limit", 5, 1_080, 3), ("limit", 5, 1_800, 5), ("limit", 6, 1_200, 2), ("limit", 6, 1_800, 5),
               ("slow", 6, 1_200, 32_768), ("slow", 6, 1_800, 16_384), ("block", 320, 600, 1), ("block", 320, 720, 0)])

    def test_entry(self) -> None:
        """Make an entry of 0.3 km, which are 40 cells: zones have 40 cells, and nobody is slowed in the first one. Standing cars are slowed
        after it, and a section over it slows its cars while it lasts."""
        road = make_road(dataclasses.replace(PLAIN, entry=0.3, start=0.5, sections=[Section(0, 0.6, 10, 20, slowing=0.75)]))
        self.check("the entry", (road.zone, road.zones, road.entry, [road.find_slowing(zone) for zone in (0, 1, 9)]), (40, 10, 1, [0, 16_384, 16_384]))
        self.check("its drivers", tuple(road.drivers), (5, 16_384, 32_768, 40))
        self.check("its edits", (road.base_edits[0], len(road.base_edits), road.edits), (("start", 1, 0, 32_768), 9, [
            ("slow", 0, 600, 49_152), ("slow", 0, 1_200, 0), ("slow", 1, 600, 49_152), ("slow", 1, 1_200, 16_384)]))
        self.check("its note", road.notes, ["nobody is slowed on the first 0.3 km (`entry`), so that the inlet admits up to 1,800 cars per hour"])
        self.check_refused("an entry beyond the road", "entry 4 km is longer than the road of 3 km", entry=4)

    def test_warm_up(self) -> None:
        """Begin a run of 00:05 ten minutes earlier. It has its first demand and the works of its beginning from then on, and later works at
        their times."""
        figures = with_warm_up(dataclasses.replace(
            PLAIN, begin="00:05", date="2026-03-02", main=[(0, 500), (5, 600)], ramps=[(0.75, 100)], stalled=[Stalled(2, 0, 4)],
            sections=[Section(0, 1, 0, 30, limit=54), Section(1, 2, 5, 30, limit=54)]), 10)
        self.check("a run that begins earlier", (figures.clock.to_date_text(0), figures.minutes, figures.main, figures.ramps), (
            "2026-03-01 23:55", 70, [(0, 500), (15, 600)], [(0.75, 100)]))
        self.check("its works", ([one[2:4] for one in figures.sections], figures.stalled), ([(0, 40), (15, 40)], [Stalled(2, 10, 14)]))

    def test_ten_kilometres(self) -> None:
        """Make a road of 10 km, which are 1,333.33 cells, so zones have at least 21 cells. The works are on the cells 800 to 866.67. Zones of
        32 cells begin at 800 and at 864, which is 2.67 off; zones of 62 cells at 806 and 868, which is 7.33 off; zones of 21 cells at 798 and
        861, which is 7.67 off; no other width fits better."""
        road = make_road(dataclasses.replace(
            PLAIN, length=10, limit=130, ramps=[(4, 300)], detectors=[7], stalled=[Stalled(8.2, 1.001, 2)],
            sections=[Section(6, 6.5, 30, 70, limit=54)]))
        self.check("ten kilometres", (road.length, road.zone, road.edits),
              (1_333, 32, [("limit", 25, 1_800, 2), ("limit", 26, 1_800, 2), ("block", 1_093, 60, 1), ("block", 1_093, 120, 0)]))
        self.check("notes", road.notes, [
            "a road of 10 km: rounded to 9.998 km",
            "the limit of 130 km/h: rounded to 135 km/h",
            "the ramp at 4 km: rounded to 3.998 km",
            "the detector at 7 km: rounded to 6.998 km",
            "the section from km 6 to 6.5: rounded to km 6 to 6.48, because zones are 0.24 km wide",
            "the stalled car at 8.2 km: rounded to 8.198 km",
            "the stalled car at km 8.2, minute 1.001 min: rounded to 1 min"])

    def test_short_works(self) -> None:
        """Lay out works of 100 m at km 10 of a road of 20 km, from cell 1,333.33 to 1,346.67. 64 zones have at least 42 cells each. A road of
        two zones has a bound at 1,346, but the works would then last to the road's end. On random roads no other width covers the sections
        with a smaller sum of distances of their ends."""
        road = make_road(dataclasses.replace(PLAIN, length=20, sections=[Section(10, 10.1, 0, 60, limit=60)], ramps=[], detectors=[]))
        zones = sorted({index for kind, index, _, _ in road.edits})
        self.check("short works stay short", (len(zones), road.zone <= 50, abs(zones[0] * road.zone - 1_333) < 50), (1, True, True))
        random.seed(11)
        for _ in range(20):
            length = random.randrange(300, 2_000)
            begins = [random.uniform(0, length - 20) for _ in range(random.randrange(1, 4))]
            ends = [(begin, begin + random.uniform(1, 20 if random.random() < 0.5 else length - begin)) for begin in begins]
            sections = [Section(one / CELLS_A_KM, other / CELLS_A_KM, 0, 60, limit=60) for one, other in ends]
            road = make_road(dataclasses.replace(PLAIN, length=length / CELLS_A_KM, sections=sections, ramps=[], detectors=[], stretch=(0, 1)))

            def misfit(width: int) -> float:
                bounds = [*range(0, length, width), length]
                total = 0.0
                for first, last in ends:
                    begin = min(bounds, key=lambda bound: abs(bound - first))
                    begin = bounds[-2] if begin == length else begin
                    end = min(bounds, key=lambda bound: abs(bound - last))
                    end = end if end > begin else bounds[bounds.index(begin) + 1]
                    total += abs(begin - first) + abs(end - last)
                return total

            best = min(misfit(width) for width in range(-(-length // 64), length + 1))
            self.check("the best width of all", misfit(road.zone) <= best + 1e-6, True)

    def test_given_zone(self) -> None:
        """Give the width of a zone: 0.5 km are 66.67 cells, so zones have 67. The works, from cell 200 to 240, are nearest to 201 and 268. 60
        km/h is nearer to 54 (2 cells per step) than to 81."""
        road = make_road(dataclasses.replace(PLAIN, zone=0.5, sections=[Section(1.5, 1.8, 0, 60, limit=60)]))
        self.check("a given zone", (road.zone, road.edits), (67, [("limit", 3, 0, 2)]))
        self.check("notes on it", road.notes, [
            "a zone of 0.5 km: rounded to 0.503 km",
            "the section from km 1.5 to 1.8: rounded to km 1.508 to 2.01, because zones are 0.503 km wide",
            "the section from km 1.5 to 1.8: the limit of 60 km/h: rounded to 54 km/h"])

    def test_narrow(self) -> None:
        """Read a section narrower than a zone: both ends of 202.67 to 213.33 are nearest to 200, where a zone of 50 cells begins, so the
        section becomes that zone."""
        road = make_road(dataclasses.replace(PLAIN, zone=0.375, sections=[Section(1.52, 1.6, 5, 60, limit=81)]))
        self.check("a narrow section", (road.edits, road.notes), (
            [("limit", 4, 300, 3)], ["the section from km 1.52 to 1.6: rounded to km 1.5 to 1.875, because zones are 0.375 km wide"]))

    def test_to_the_end(self) -> None:
        """Read sections at the end of the road: zones of 90 cells have their bounds at 0, 90, 180, 270, 360 and at the end of the road, 400,
        so a section from 180 to 400 fits."""
        road = make_road(dataclasses.replace(PLAIN, zone=0.675, sections=[Section(1.35, 3, 0, 60, limit=27)]))
        self.check("to the road's end", (road.zones, road.edits, road.notes), (5, [("limit", zone, 0, 1) for zone in (2, 3, 4)], []))
        road = make_road(dataclasses.replace(PLAIN, zone=0.675, sections=[Section(2.9, 3, 0, 60, limit=27)]))
        self.check("the last zone", (road.edits, road.notes), (
            [("limit", 4, 0, 1)], ["the section from km 2.9 to 3: rounded to km 2.7 to 3, because zones are 0.675 km wide"]))

    def test_one_over_the_other(self) -> None:
        """Put one section over another: the later one applies while it lasts, then the one below it. Standing cars are slowed like the others unless a section
        says otherwise, and again when it ends."""
        road = make_road(dataclasses.replace(
            PLAIN, sections=[Section(0, 1.5, 10, 40, limit=108, slowing=0.5), Section(0, 1.5, 20, 30, limit=27, start=0.75)]))
        self.check("one over the other", (road.zone, road.edits), (200, [
            ("limit", 0, 600, 4), ("limit", 0, 1_200, 1), ("limit", 0, 1_800, 4), ("limit", 0, 2_400, 5),
            ("slow", 0, 600, 32_768), ("slow", 0, 2_400, 16_384),
            ("start", 0, 600, 32_768), ("start", 0, 1_200, 49_152), ("start", 0, 1_800, 32_768), ("start", 0, 2_400, 16_384)]))

    def test_afterwards(self) -> None:
        """Change works afterwards: works that were planned for the minutes 30 to 60 begin at 20. Their limit is set at step 1,200, and the
        edit of step 1,800 is withdrawn; their end stays. A car stalls in the minutes 70 to 80, at cell 1,093.33."""
        works = Section(6, 6.5, 30, 60, limit=54)
        planned = dataclasses.replace(PLAIN, length=10, minutes=120, sections=[works])
        with tempfile.NamedTemporaryFile("w", suffix=".json") as file:
            file.write('{"sections": [[6, 6.5, 20, 60, 54]], "stalled": [[8.2, 70, 80]]}')
            file.flush()
            turned = planned.override_works(Path(file.name))
        road, then = make_all_roads([planned, turned])
        found = find_changes(road, then)
        self.check("changes", found, [
            ("block", 1_093, 4_200, 1), ("block", 1_093, 4_800, 0), ("limit", 25, 1_200, 2), ("limit", 25, 1_800, None),
            ("limit", 26, 1_200, 2), ("limit", 26, 1_800, None)])
        self.check("sentences on changes", describe_changes(then, found), [
            "km 8.198 (cell 1093): closed from minute 70 (step 4200) on",
            "km 8.198 (cell 1093): open from minute 80 (step 4800) on",
            "km 6 to 6.48 (zones 25-26, cells 800 to 863): limit 54 km/h from minute 20 (step 1200) on",
            "km 6 to 6.48 (zones 25-26, cells 800 to 863): limit from minute 30 (step 1800) on withdrawn"])
        self.check("sentences on one zone and two", describe_changes(then, [("slow", 3, 0, 32_768), ("slow", 41, 60, 9), ("start", 40, 60, 16_384),
                                                            ("start", 41, 60, 16_384)]), [
            "km 0.72 to 0.96 (zone 3, cells 96 to 127): slowing 0.5 from minute 0 (step 0) on",
            "km 9.84 to 9.998 (zone 41, cells 1312 to 1332): slowing 0.000137 from minute 1 (step 60) on",
            "km 9.6 to 9.998 (zones 40-41, cells 1280 to 1332): slowing of standing cars 0.25 from minute 1 (step 60) on"])
        # The works from cell 200 to 240 turn out to reach cell 300: zones of 40 cells fit the first section, zones of 100 the second, zones
        # of 20 both.
        one, other = (dataclasses.replace(PLAIN, sections=[Section(1.5, end, 0, 60, limit=54)]) for end in (1.8, 2.25))
        self.check("a zone for each", [make_road(one).zone, make_road(other).zone], [40, 100])
        self.check("a zone for both", [road.zone for road in make_all_roads([one, other])], [20, 20])
        self.check("nothing changes", find_changes(road, road), [])

    def test_no_road(self) -> None:
        self.check_refused("a long road", "length 70 km is out of range: 0.06 to 61.44 km (8 to 8,192 cells)", length=70, stretch=(60, 69))
        self.check_refused("a short road", "length 0.05 km is out of range: 0.06 to 61.44 km (8 to 8,192 cells)", length=0.05)
        self.check_refused("a long run", "minutes 20000 is out of range: at most 17,476", minutes=20_000)
        self.check_refused("a detector at the end", "the detector at 3 km is not on the road: 0.0075 to 2.985 km", detectors=[3])
        self.check_refused("a ramp before it", "the ramp at 0 km is not on the road: 0.0075 to 2.985 km", ramps=[(0, 100)])
        self.check_refused("a fast limit", "the limit of 300 km/h is out of range: 0 to 243 km/h", limit=300)
        self.check_refused("narrow zones", "zones of 0.045 km are more than 64: use at least 0.0525 km", zone=0.045)
        self.check_refused("a section past the end", "the section from km 2 to 4, minute 0 to 9: it must begin before it ends, on the road and in the run",
                sections=[Section(2, 4, 0, 9)])
        self.check_refused("a section that ends first", "the section from km 1 to 2, minute 9 to 9: it must begin before it ends, on the road and in the run",
                sections=[Section(1, 2, 9, 9)])
        self.check_refused("a stretch past the end", "the stretch from km 2 to 4 is not on the road of 3 km", stretch=(2, 4))
        self.check_refused("no pieces", "minutes and piece: both must be at least one step (1 second)", piece=0)
        self.check_refused("a stop that ends first", "the stalled car at km 1.5, minute 9 to 8: it must begin before it ends, in the run", stalled=[Stalled(1.5, 9, 8)])


if __name__ == "__main__":
    unittest.main()
