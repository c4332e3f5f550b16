#!/usr/bin/python3
"""Compute the tables of recipes/sweep with a different program: many roads at once as arrays of numpy, and Python's `statistics`.

    tests/reference_simulator/sweeps.py > recipes/sweep/expected

It takes some minutes.
"""
import itertools
import math
import statistics
import sys

import numpy

sys.dont_write_bytecode = True
from many_roads import Roads  # noqa: E402

STUDENT = 3.182446
"""The value that Student's t exceeds with a probability of 2.5 %, for three degrees of freedom (four seeds)."""
SEEDS = (1, 2, 3, 4)


def mean(values):
    """Return the mean over four seeds, and half the width of its 95 % interval."""
    return statistics.mean(values), STUDENT * statistics.stdev(values) / math.sqrt(len(SEEDS))


def line(*words):
    print("\t".join(map(str, words)), flush=True)


def by_point(points, figures, formats):
    """Yield each point, its figures (means over four roads, with their intervals), and these as text."""
    for number, point in enumerate(points):
        found = [mean([float(values[4 * number + seed]) for seed in range(4)]) for values in figures]
        yield point, found, [format(one, how) for pair, how in zip(found, formats) for one in pair]


def zones(points):
    roads = [(*point, seed) for point in points for seed in SEEDS]
    slowings = [[16_384] * 300 + [slowing] * 100 for slowing, _, _ in roads]
    area = numpy.zeros((len(roads), 400), bool)
    area[:, 200:300] = True
    lab = Roads([seed for *_, seed in roads], [inflow for _, inflow, _ in roads], numpy.full((len(roads), 400), 5), slowings)
    ((cars, speeds),), (there, moved) = lab.run(12_000, [(250, 6_000, 12_000)], (6_000, 12_000, area))
    return [cars / 6_000, speeds / cars, there / 600_000, moved / there]


def works(points):
    roads = [(*point, seed) for point in points for seed in SEEDS]
    cells = numpy.arange(2_500)
    area = numpy.array([(cells >= 2_150) & (cells < 2_150 + length) for length, *_ in roads])
    limits = numpy.where(area, numpy.array([limit for _, limit, _, _ in roads])[:, None], 5)
    slowings = numpy.where(area, numpy.array([slowing for _, _, slowing, _ in roads])[:, None], 16_384)
    lab = Roads([seed for *_, seed in roads], [65_536] * len(roads), limits, slowings)
    lab.blocked = {2_000}
    lab.run(8_000)
    lab.blocked = set()
    ((cars, _),), (there, moved) = lab.run(9_500, [(2_350, 8_600, 9_500)], (8_600, 9_500, area))
    return [cars / 900, cars * 4.0, moved / there]


def drops(points):
    roads = [(*point, seed) for point in points for seed in SEEDS]
    slowings = numpy.repeat(numpy.array([slowing for slowing, *_ in roads])[:, None], 1_700, axis=1)
    starts = numpy.where(numpy.arange(1_700) < 1_250, slowings, numpy.array([start for _, start, _ in roads])[:, None])
    lab = Roads([seed for *_, seed in roads], [65_536] * len(roads), numpy.full((len(roads), 1_700), 5), slowings, starts)
    watch = [(1_690, 5_200, 5_500), (1_690, 5_650, 5_950)]
    found = [numpy.zeros(len(roads), int), numpy.zeros(len(roads), int)]
    for to, blocked in ((5_000, {1_200}), (5_500, set()), (5_600, {1_650}), (5_950, set())):
        lab.blocked = blocked
        passed, _ = lab.run(to, watch)
        for total, (cars, _) in zip(found, passed):
            total += cars
    before, after = (total / 300 for total in found)
    return [before, after, 1 - after / before]


def main():
    points = list(itertools.product((16_384, 26_624, 28_672, 30_720, 32_768, 36_864, 40_960, 45_056, 49_152, 53_248, 57_344, 61_440),
                                    (6_144, 12_288, 20_480, 32_768, 65_536)))
    line("slowing", "inflow", "flow", "±", "time-mean speed", "±", "density", "±", "space-mean speed", "±", "limited by")
    for point, found, shown in by_point(points, zones(points), (".4f", ".3f", ".4f", ".3f")):
        speed = found[1][0]
        line(*point, *shown, "inlet" if speed > 4.7 else "zone" if speed < 3.2 else "front")
    print()
    points = list(itertools.product((50, 100, 150), range(1, 6), (16_384, 32_768)))
    line("length", "limit", "slowing", "flow", "±", "cars an hour", "±", "space-mean speed", "±")
    for point, _, shown in by_point(points, works(points), (".4f", ".0f", ".3f")):
        line(*point, *shown)
    print()
    points = list(itertools.product((0, 6_554, 16_384), (16_384, 32_768, 49_152)))
    line("slowing", "start", "before", "±", "out of the jam", "±", "drop", "±", "exactly")
    for point, _, shown in by_point(points, drops(points), (".4f", ".4f", ".3f")):
        slowing, start = point
        line(*point, *shown, "" if slowing else f"{5 * (65_536 - start) / (5 * 65_536 + 65_536 - start):.4f}")


if __name__ == "__main__":
    sys.exit(main())
