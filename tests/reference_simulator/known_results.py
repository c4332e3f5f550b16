#!/usr/bin/python3
"""Compute the tables of recipes/known_results over 100,000 steps with a different program: many roads at once, and Python's `statistics`.

    tests/reference_simulator/known_results.py > recipes/known_results/expected

The known results are computed here with differently written formulas of the same theories. It takes some minutes.
"""
import math
import statistics
import sys
from pathlib import Path

import numpy

sys.dont_write_bytecode = True
from many_roads import Roads  # noqa: E402

STUDENT = {4: 3.182446, 16: 2.131450}
"""The value that Student's t exceeds with a probability of 2.5 %, by number of seeds."""


def heading(title, names):
    print(title)
    print("".join(f"{name:>8} " for name in names) + "  counted      ±     known      off  allowed")


def read_ring():
    """Return the table of recipes/known_results/ring.csv."""
    path = Path(__file__).resolve().parents[2] / "recipes" / "known_results" / "ring.csv"
    return numpy.loadtxt(path, delimiter=",", skiprows=1, encoding="utf-8").T


def line(point, counted, known, allowed):
    seeds, mean = len(counted), statistics.mean(map(float, counted))
    half = "" if seeds == 1 else f"{STUDENT[seeds] * statistics.stdev(map(float, counted)) / math.sqrt(seeds):.1f}"
    print("".join(f"{one:>8} " for one in point) + f"{mean:9.1f} {half:>6} {known:9.1f} {mean - known:8.1f} {allowed:8.1f}", flush=True)


def by_point(points, seeds):
    return [(*point, seed) for point in points for seed in range(1, seeds + 1)]


def flows():
    points = [(1, 0, 0.5), (2, 0, 0.5), (5, 0, 0.5), (9, 0, 0.5), (1, 4_096, 0.375), (1, 16_384, 0.25), (1, 36_864, 0.125)]
    shape = (len(points), 512)
    lab = Roads([7] * len(points), [65_536] * len(points), numpy.full(shape, [[limit] for limit, *_ in points]),
                numpy.full(shape, [[slowing] for _, slowing, _ in points]))
    ((cars, _),), _ = lab.run(120_000, [(256, 20_000, 120_000)])
    heading("cars that pass the middle of a road", ("limit", "slowing", "steps"))
    for (limit, slowing, part), one in zip(points, cars):
        known = part * 100_000
        line((limit, slowing, 100_000), [one], known, 3 * (known * (1 - part)) ** 0.5 + known * 3 / 1_024 if slowing else 0)


def open_jams(roads, limit, cells, behind):
    """Simulate roads with (slowing, start, seed) in which a jam upstream of a cell is released. Return them and the step of the release."""
    length, step = cells + behind + 2, 2 * cells + cells // limit + 100
    shape = (len(roads), length)
    lab = Roads([seed for *_, seed in roads], [65_536] * len(roads), numpy.full(shape, limit), numpy.zeros(shape, int))
    lab.blocked = {cells}
    lab.run(step)
    lab.blocked = set()
    lab.slowings = numpy.full(shape, [[slowing] for slowing, _, _ in roads])
    lab.starts = numpy.full(shape, [[start] for _, start, _ in roads])
    lab.draw_all()
    return lab, step


def fronts():
    points = [(1, 16_384, 16_384), (5, 0, 0), (5, 16_384, 16_384), (5, 32_768, 32_768), (5, 6_554, 32_768), (5, 0, 49_152)]
    found = {}
    for limit in (1, 5):
        some = [point for point in points if point[0] == limit]
        roads = by_point([point[1:] for point in some], 4)
        lab, step = open_jams(roads, limit, 2_400, 10)
        before = lab.number[:, :2_400].copy()
        lab.run(step + 2_000)
        stands = ((lab.speed[:, :2_400] >= 0) & (lab.number[:, :2_400] == before)).sum(axis=1)
        found.update({point: 2_400 - stands[4 * number:4 * number + 4] for number, point in enumerate(some)})
    heading("cells that the front of a jam moves back", ("limit", "slowing", "start"))
    for point in points:
        slow = point[2] / 65_536
        line(point, found[point], 2_000 - 2_000 * slow, 3 * (2_000 * slow * (1 - slow)) ** 0.5 / 2)


def times():
    points = [4_096, 16_384, 36_864]
    roads = by_point([(slowing, slowing) for slowing in points], 16)
    lab, step = open_jams(roads, 1, 500, 100)
    left, took = numpy.zeros(len(roads), int), numpy.zeros(len(roads), int)
    while not took.all():
        moved = lab.simulate_step()
        left += moved[:, 499]
        took[(left == 400) & (took == 0)] = lab.step - step
    heading("steps until 400 cars have left a jam, at limit 1", ("slowing",))
    for number, slowing in enumerate(points):
        q = slowing / 65_536
        scale = q ** (1 / 6) * (1 + q ** 0.5) ** (4 / 3) / (1 - q) * 400 ** (1 / 3)
        line((slowing,), took[16 * number:16 * number + 16], 800 / (1 - q ** 0.5) - 1.7711 * scale, 3 * 0.9018 * scale / 4 + 2)


def outflows():
    points = [(2, 0), (5, 0), (5, 6_554), (5, 16_384), (5, 32_768), (5, 49_152)]
    found = {}
    for limit in (2, 5):
        some = [start for one, start in points if one == limit]
        lab, step = open_jams(by_point([(0, start) for start in some], 4), limit, 2_400, 200)
        ((cars, _),), _ = lab.run(step + 400 + 1_500, [(2_600, step + 400, step + 1_900)])
        found.update({(limit, start): cars[4 * number:4 * number + 4] for number, start in enumerate(some)})
    heading("cars that leave a jam", ("limit", "start"))
    for (limit, start), counted in found.items():
        slow = start / 65_536
        headway = (limit + 1 - slow) / (limit * (1 - slow))
        deviation = (1_500 * slow / (1 - slow) ** 2 / headway ** 3) ** 0.5
        line((limit, start), counted, 1_500 / headway, 3 * deviation / 2 + 1)


def wide_jams():
    points = [16_384, 26_214, 32_768, 39_322, 49_152]
    roads = by_point([(start,) for start in points], 4)
    shape = (len(roads), 3_600)
    lab = Roads([seed for _, seed in roads], [65_536] * len(roads), numpy.full(shape, 5), numpy.zeros(shape, int))
    lab.run(1_000)
    lab.blocked = {3_000}
    lab.run(1_900)
    lab.blocked = set()
    lab.starts = numpy.where(numpy.arange(3_600) < 100, 0, numpy.array([start for start, _ in roads])[:, None])
    lab.draw_all()
    first = (lab.speed[:, 100:] == 0).sum(axis=1)
    lab.run(3_900)
    grown = (lab.speed[:, 100:] == 0).sum(axis=1) - first
    heading("cars that a wide jam gains", ("start",))
    for number, start in enumerate(points):
        slow = start / 65_536
        line((start,), grown[4 * number:4 * number + 4], 2_000 * (5 / 9 - 1 + slow), 3 * (2_000 * slow * (1 - slow)) ** 0.5 / 2 + 2)


def diagrams():
    points = [(8_192, 0, 16_384), (16_384, 0, 16_384), (32_768, 0, 16_384), (65_536, 0, 16_384), (65_536, 2_048, 16_384)]
    points += [(65_536, 8_192, slowing) for slowing in (16_384, 24_576, 28_672, 32_768, 40_960, 49_152, 57_344)]
    roads = by_point(points, 4)
    cells = numpy.arange(1_000)
    slowings = numpy.where(cells < 900, 16_384, numpy.array([slowing for _, _, slowing, _ in roads])[:, None])
    lab = Roads([seed for *_, seed in roads], [inflow for inflow, *_ in roads], numpy.full((len(roads), 1_000), 5), slowings,
                ramp=(50, [ramp for _, ramp, _, _ in roads]))
    middle = numpy.broadcast_to((cells >= 400) & (cells < 600), (len(roads), 1_000))
    _, (there, moved) = lab.run(12_000, (), (6_000, 12_000, middle))
    densities, flows, halves = read_ring()
    heading("cars on an open road in 10,000 steps, beside a ring", ("inflow", "ramp", "slowing", "density"))
    for number, point in enumerate(points):
        some = slice(4 * number, 4 * number + 4)
        density, counted = there[some] / 1_200_000, moved[some] / 120
        known = numpy.interp(density, densities, flows) * 10_000
        after = min(max(int(numpy.searchsorted(densities, density.mean(), "right")), 1), len(densities) - 1)
        half_of_ring = max(halves[after - 1:after + 1]) * 10_000
        spread = statistics.stdev(map(float, counted)) + statistics.stdev(map(float, known))
        line((*point, f"{density.mean() * 1_000:8.1f}"), counted, known.mean(), STUDENT[4] * spread / 2 + half_of_ring)


def main():
    for number, table in enumerate((flows, fronts, times, outflows, wide_jams, diagrams)):
        print("\n" * bool(number), end="")
        table()


if __name__ == "__main__":
    sys.exit(main())
