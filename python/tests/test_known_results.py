"""Check the ring of the known results by a plain loop over its cars, which is checked by exact flows."""
from __future__ import annotations

import csv
import math
import random
import unittest
from pathlib import Path

from checked import Checked

RECIPE = Path(__file__).resolve().parents[2] / "recipes" / "known_results"
WARM_UP, STEPS = 2_000, 4_000


def measure_ring(cars: int, cells: int, limit: int, slowing: float, seed: int) -> float:
    """Return the flow in cars per step on a ring by the four rules of Nagel and Schreckenberg, a car at a time."""
    drawn = random.Random(seed)
    places, speeds = sorted(drawn.sample(range(cells), cars)), [0] * cars
    moved = 0
    for step in range(WARM_UP + STEPS):
        gaps = [(place - behind - 1) % cells for behind, place in zip(places, places[1:] + places[:1])]
        speeds = [max(min(speed + 1, limit, gap) - (drawn.random() < slowing), 0) for speed, gap in zip(speeds, gaps)]
        places = [(place + speed) % cells for place, speed in zip(places, speeds)]
        moved += sum(speeds) if step >= WARM_UP else 0
    return moved / cells / STEPS


def compute_exact_flow(density: float, slowing: float) -> float:
    """Return the exact flow on a long ring at limit 1 (Schreckenberg and others, Phys. Rev. E 51 (1995) 2939)."""
    return (1 - math.sqrt(1 - 4 * (1 - slowing) * density * (1 - density))) / 2


class Ring(Checked):
    def test_exact_flows(self) -> None:
        for density, slowing in ((0.3, 0.25), (0.5, 0.5)):
            self.check_near(f"limit 1, slowing {slowing}, density {density}", measure_ring(round(density * 400), 400, 1, slowing, 1),
                            compute_exact_flow(density, slowing), 0.004)

    def test_the_table(self) -> None:
        with open(RECIPE / "ring.csv", encoding="utf-8", newline="") as file:
            kept = {row["density"]: float(row["flow"]) for row in csv.DictReader(file)}
        for density, allowed in (("0.0500", 0.0005), ("0.1000", 0.002), ("0.1500", 0.006), ("0.3000", 0.006), ("0.6000", 0.006)):
            self.check_near(f"density {density}", measure_ring(round(float(density) * 1_000), 1_000, 5, 0.25, 1), kept[density], allowed)


if __name__ == "__main__":
    unittest.main()
