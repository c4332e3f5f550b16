"""Print a jam in numbers: read a diagram into a numpy array, and list where cars stand in every fourth step.

    python/jam.py
"""
import sys

from zegdrut import Plan, RoadLab, to_array
from zegdrut.program.road_rows import NO_NUMPY

try:
    import numpy
except ImportError:
    print(f"left out: the jam in an array ({NO_NUMPY})")
    sys.exit(0)


def main() -> None:
    plan = Plan(length=40, inlets=[(0, 65_536)], zones=[(3, 0)], words="steady")
    with RoadLab(plan) as lab:
        lab.advance("A", 40)
        lab.edit("A", ("block", 24), step=12, value=1)
        lab.edit("A", ("block", 24), step=24, value=0)
        road = to_array(lab.diagram("A", 24, 40))
    cells = numpy.arange(road.shape[1])
    print(f"{road.shape[0]} steps of {road.shape[1]} cells, {(road >= 0).sum()} cars in all")
    print("step  density  mean speed  standing cars, from cell to cell")
    for step, row in zip(range(24, 41, 4), road[::4]):
        # The car that waits at the inlet does not belong to the jam.
        jam = cells[(row == 0) & (cells > 0)]
        place = f"{jam.size:2}: {jam.min()} to {jam.max()}" if jam.size else " 0"
        print(f"{step:4}  {(row >= 0).mean():7.3f}  {row[row >= 0].mean():10.3f}  {place}")


if __name__ == "__main__":
    main()
