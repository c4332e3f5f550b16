#!/usr/bin/python3
"""Compute the flow on a ring at many densities by the rules of Nagel and Schreckenberg (1992), with limit 5 and slowing chance 1/4.

    tests/reference_simulator/ring.py > recipes/known_results/ring.csv

Each line has a density in cars per cell, the flow in cars per step, and half the 95 % interval of its mean over four rings of
4,000 cells, or of 1,000 above a density of 0.66. The cars of a ring begin at random cells, and 4,000 steps pass before 10,000 steps
are measured. It takes some minutes.
"""
import math
import statistics
import sys

import numpy

CELLS, WARM_UP, STEPS, RINGS = 4_000, 4_000, 10_000, 4
DENSE, DENSE_CELLS = 0.66, 1_000
"""The density above which shorter rings will do, and their cells."""
STUDENT = 3.182446
"""The value that Student's t exceeds with a probability of 2.5 %, for three degrees of freedom (four rings)."""
DENSITIES = [*numpy.arange(0.02, 0.07, 0.01), *numpy.arange(0.07, 0.15, 0.0025), *numpy.arange(0.15, 0.3, 0.01), *numpy.arange(0.3, 0.951, 0.05)]


def measure_ring(cars, cells, limit, slowing, warm_up, steps, random):
    """Return the flow of a ring in cars per step: the mean speed times the density."""
    place = numpy.sort(random.choice(cells, cars, replace=False))
    speed, moved = numpy.zeros(cars, int), 0
    for step in range(warm_up + steps):
        gap = (numpy.roll(place, -1) - place - 1) % cells
        speed = numpy.minimum(numpy.minimum(speed + 1, limit), gap)
        speed = numpy.maximum(speed - (random.random(cars) < slowing), 0)
        place = (place + speed) % cells
        moved += int(speed.sum()) if step >= warm_up else 0
    return moved / cells / steps


def main():
    print("density,flow,±")
    for number, density in enumerate(DENSITIES):
        random, cells = numpy.random.default_rng(number), CELLS if density < DENSE else DENSE_CELLS
        flows = [measure_ring(round(density * cells), cells, 5, 0.25, WARM_UP, STEPS, random) for _ in range(RINGS)]
        half = STUDENT * statistics.stdev(flows) / math.sqrt(RINGS)
        print(f"{density:.4f},{statistics.mean(flows):.6f},{half:.6f}", flush=True)


if __name__ == "__main__":
    sys.exit(main())
