"""Count the cars behind works with a capacity, in files of freeways."""
from __future__ import annotations

import json
import random
import statistics
import tempfile
import unittest
from pathlib import Path

from zegdrut import Fault, RoadLab
from zegdrut.roads import Drivers, FIGURES, Figures, find_capacity, make_road, make_script
from zegdrut.roads.capacity import describe_capacity, measure_outflow
from zegdrut.roads.road_in_cells import make_shapes

SEEDS = range(1, 7)
T_OF_FIVE = 2.570582
"""Student's t for five degrees of freedom, from printed tables."""
PLAIN = {"length": 2.4, "main": 1_700, "entry": 0.3, "limit": 135, "slowing": 0.16, "start": 0.45, "ramps": [], "minutes": 40, "detectors": [2.1],
         "stretch": [0.3, 0.6]}


def read_figures(**fields: object) -> Figures:
    """Read a file with these fields beside those of PLAIN."""
    with tempfile.TemporaryDirectory() as name:
        path = Path(name, "road.json")
        path.write_text(json.dumps({**PLAIN, **fields}), encoding="utf-8")
        return FIGURES.override(path)


def count_flows(figures: Figures, first: int, last: int) -> list[float]:
    """Return the cars per hour that pass the detector in some steps, for each seed: the cars that are before it and then behind it."""
    road, flows = make_road(figures), []
    for seed in SEEDS:
        script = make_script(road, [[(0, 65_536)]], seed)
        with RoadLab(script.plan) as lab:
            for line in script.commands:
                lab.ask(line)
            # No car drives from the inlet to the detector in ten steps.
            upstream = [{car.number for car in lab.cars("A", step) if car.cell < road.detectors[0]} for step in range(first, last + 1, 10)]
            flows.append(sum(len(before - after) for before, after in zip(upstream, upstream[1:])) * 3_600 / (last - first))
    return flows


def count_outflow(drivers: Drivers, seed: int, cars: int = 480, last: int = 800) -> float:
    """Return the cars per hour that pass a place 100 cells in front of a queue of standing cars, in a loop of its own over the rules of the model."""
    chance = random.Random(seed)
    slowing, start = drivers.slowing / 65_536, (drivers.start or 0) / 65_536
    places, speeds, passed = [-car for car in range(cars)], [0] * cars, 0
    for step in range(last):
        gaps = [10_000, *(ahead - place - 1 for ahead, place in zip(places, places[1:]))]
        wanted = [min(speed + 1, drivers.limit, gap) for speed, gap in zip(speeds, gaps)]
        slowed = [chance.random() < (start if speed == 0 else slowing) for speed in speeds]
        speeds = [max(speed - slow, 0) for speed, slow in zip(wanted, slowed)]
        moved = [place + speed for place, speed in zip(places, speeds)]
        passed += sum(before < 100 <= after for before, after in zip(places, moved)) if step >= 300 else 0
        places = moved
    return passed * 3_600 / (last - 300)


class Outflow(unittest.TestCase):
    def test_drivers_that_are_slow_to_start(self) -> None:
        """The flow out of a queue of standing cars equals that of a loop of its own. Without slow-to-start these queues would let out far more."""
        for drivers in (Drivers(4, 9_830, 36_000), Drivers(5, 6_554, 24_000)):
            wanted = statistics.mean(count_outflow(drivers, seed) for seed in (1, 2))
            self.assertLess(abs(measure_outflow(drivers).mean - wanted), 0.08 * wanted, (drivers, wanted))
            self.assertGreater(measure_outflow(drivers._replace(start=None)).mean, 1.15 * wanted)


class Capacity(unittest.TestCase):
    def test_the_flow_behind_works(self) -> None:
        """Works that leave 600, 900 or 1,200 cars an hour: as many cars pass a detector behind them, within the interval of six seeds. Before
        they begin, more pass."""
        for cars, length, limit in ((600, 0.6, None), (900, 0.15, None), (1_200, 0.6, None)):
            section = {"first": 0.9, "last": 0.9 + length, "begin": 10, "end": 40, "capacity": cars, **({} if limit is None else {"limit": limit})}
            figures = read_figures(sections=[section], zone=0.15)
            flows = count_flows(figures, 1_000, 2_400)
            half = T_OF_FIVE * statistics.stdev(flows) / 6 ** 0.5
            self.assertLess(abs(statistics.mean(flows) - cars), half + 0.003 * cars, (cars, flows))
            self.assertLess(half, 25)
            self.assertGreater(statistics.mean(count_flows(figures, 300, 600)), 1_350)

    def test_the_flow_behind_long_works(self) -> None:
        """Works of 2.4 km hinder cars more than works of half a km with the same drivers do: behind them 800 cars an hour pass, too."""
        section = {"first": 0.9, "last": 3.3, "begin": 10, "end": 60, "capacity": 800, "limit": 81}
        flows = count_flows(read_figures(length=4.2, detectors=[3.9], sections=[section], zone=0.15, minutes=60), 1_500, 3_600)
        self.assertLess(abs(statistics.mean(flows) - 800), 22, flows)

    def test_what_it_becomes(self) -> None:
        """A capacity is a limit (54 km/h by default), a slowing chance, and the same chance for standing cars, in the zones of its section. The
        note and the shape have the same values."""
        figures = read_figures(sections=[[0.9, 1.2, 10, 30, None, None, None, 900]], zone=0.3)
        road = make_road(figures)
        found = find_capacity(900, 54, Drivers(5, 10_486, 29_491), 40)
        self.assertEqual(road.edits, [("limit", 3, 600, 2), ("limit", 3, 1_800, 5), ("slow", 3, 600, found.slowing), ("slow", 3, 1_800, 10_486),
                                      ("start", 3, 600, found.slowing), ("start", 3, 1_800, 29_491)])
        self.assertEqual([note for note in road.notes if "cars/h" in note],
                         [f"the section from km 0.9 to 1.2: 900 cars/h: limit 54 km/h, slowing {found.slowing / 65_536:.2f}"])
        self.assertEqual(describe_capacity(found), f"900 cars/h: limit 54 km/h, slowing {found.slowing / 65_536:.2f}")
        self.assertEqual([shape for shape in make_shapes(figures, road, [[(0, 60_000)]]) if shape[3]],
                         [("capacity", 3, 3, 600, 1_800, (900, 2, found.slowing, found.slowing))])

    def test_the_last_zone_is_narrower(self) -> None:
        """Zones of 120 cells leave 80 for the last one of a road of 320: its works have the drivers of 80 cells."""
        road = make_road(read_figures(sections=[{"first": 1.8, "last": 2.4, "begin": 10, "end": 30, "capacity": 900}], zone=0.9))
        found, other = (find_capacity(900, 54, Drivers(5, 10_486, 29_491), cells) for cells in (80, 120))
        self.assertEqual([value for kind, zone, step, value in road.edits if (kind, zone, step) == ("slow", 2, 600)], [found.slowing])
        self.assertNotEqual(found.slowing, other.slowing)

    def test_refusals(self) -> None:
        """Each refusal says what to do."""
        place = "the section from km 0.9 to 1.2: "
        for fields, said in (
                ({"capacity": 900, "slowing": 0.3}, "a capacity stands for a slowing chance and a slow-to-start chance: leave these out, or the capacity"),
                ({"capacity": 2_500}, "a capacity of 2,500 cars per hour is out of range: works of 0.3 km with a limit of 54 km/h leave "),
                ({"capacity": 0}, "a capacity of 0 cars per hour is out of range"),
                ({"capacity": 1_700, "limit": 5}, "a capacity of 1,700 cars per hour is out of range: works of 0.3 km with a limit of 27 km/h leave "),
                ({"capacity": 900, "limit": 0}, "a capacity needs a limit above 0 km/h, not 0: works that leave no car are a closure")):
            with self.assertRaises(Fault) as caught:
                make_road(read_figures(sections=[{"first": 0.9, "last": 1.2, "begin": 10, "end": 30, **fields}], zone=0.3))
            self.assertIn(place + said, str(caught.exception))
        with self.assertRaises(Fault) as caught:
            read_figures(sections=[{"first": 0.9, "last": 1.2, "begin": 10, "end": 30, "capacity": "900"}])
        self.assertIn('sections[0].capacity: "900" is not a number', str(caught.exception))

    def test_works_that_make_a_jam_or_none(self) -> None:
        """If nearly all standing cars are slow to start, works leave the flow of free traffic or that of a jam, and nothing between."""
        with self.assertRaisesRegex(Fault, "works of 0.45 km with a limit of 81 km/h leave .* or, once cars stand before them, at most 4[0-9]{2}$"):
            find_capacity(900, 81, Drivers(5, 6_554, 60_000), 60)


if __name__ == "__main__":
    unittest.main()
