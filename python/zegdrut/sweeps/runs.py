"""Runs of a model: a point and a seed each. Run one, or list all of a sweep, to distribute them yourself.

    from zegdrut.sweeps import Flows, run_one, runs

    for run in runs({"inflow": [10_000, 30_000]}, seeds=range(1, 5)):
        figures = run_one(road, run, measure=Flows(2_000, 6_000))
"""
from __future__ import annotations

import dataclasses
import itertools
from dataclasses import dataclass
from pathlib import Path
from typing import Any, Callable, Iterable, Mapping, NamedTuple, Sequence, Union, cast

from ..base.errors import Fault
from ..program.lab import RoadLab
from ..program.plan import Plan
from ..program.programs import using_program
from .results import Row, Series, Value, to_plain

Model = Callable[..., Any]
"""A function of a point's parameters, by name. It returns a `Plan`, or figures by name. Without `measure` it also gets the seed, as
`seed`."""
Measure = Callable[[RoadLab], Mapping[str, Any]]
"""A function that runs a road and returns its figures by name. Its method `unit(column)`, if it has one, returns the units of figures."""
Points = Union[Mapping[str, Iterable[Any]], Iterable[Mapping[str, Any]]]
"""A grid, with the values of each parameter; or a list of points, with one value of each parameter."""


class Run(NamedTuple):
    """A run of a sweep: the parameters by name, and the seed."""

    point: Row
    seed: int


@dataclass(frozen=True)
class Flows:
    """A measurement of a road over the steps `first` to `to` - 1.

    For each detector (with its index in the name if there are several): `flow` in cars per step, and `time-mean speed`, the mean speed
    of the cars that pass, in cells per step. For all cells, or for `cells` (the first, and the one after the last), from all rows:
    `density` in cars per cell, and `space-mean speed`, the mean speed of the cars on them, in cells per step.
    """

    first: int
    to: int
    cells: tuple[int, int] | None = None

    def __call__(self, lab: RoadLab) -> Row:
        at = lab.plan["replicas"][0]
        lab.advance(at, self.to, self.to)
        found = Row()
        for index in range(len(lab.plan["detectors"])):
            which = f" {index}" if len(lab.plan["detectors"]) > 1 else ""
            count = lab.count(at, index, self.first, self.to)
            found.update({f"flow{which}": count.flow(self.to - self.first), f"time-mean speed{which}": count.mean_speed()})
        traffic = lab.traffic(at, self.first, self.to, self.cells)
        found.update({"density": traffic.density, "space-mean speed": traffic.speed})
        return found

    @staticmethod
    def unit(column: str) -> str:
        """Return the unit of a figure."""
        return "cars/step" if column.startswith("flow") else "cars/cell" if column == "density" else "cells/step"


def make_grid(parameters: Mapping[str, Iterable[object]]) -> list[dict[str, object]]:
    """Return all points of a grid. The last parameter varies fastest."""
    return [dict(zip(parameters, values)) for values in itertools.product(*parameters.values())]


def list_points(points: Points) -> list[Row]:
    """Return the points of a grid or a list, with values of Python's own types. Fault: the list is empty, or the parameters differ."""
    listed = make_grid(points) if isinstance(points, Mapping) else [dict(point) for point in points]
    if not listed:
        raise Fault("there are no points: give at least one value of each parameter")
    names = list(listed[0])
    for number, point in enumerate(listed):
        if set(point) != set(names):
            raise Fault(f"point {number} has the parameters {' '.join(point)}, and the first one {' '.join(names)}")
    wrong = {"seed", "model"}.intersection(names)
    if wrong:
        raise Fault(f"a parameter cannot be named {wrong.pop()}: this is a column of the results")
    found = [Row((name, to_plain(point[name])) for name in names) for point in listed]
    lists = next((name for point in found for name, value in point.items() if isinstance(value, Series)), None)
    if lists:
        raise Fault(f"the parameter {lists} is a list: give each list a name or a number, and look it up in the model")
    return found


def list_run_points(listed: Sequence[Run]) -> list[Row]:
    """Return the points of runs, each once."""
    return list({id(run.point): run.point for run in listed}.values())


def join_runs(first: Sequence[Run], more: Sequence[Run]) -> list[Run]:
    """Return the runs of both, each once, point by point: the points and seeds of `first`, and then those of `more`."""
    points: dict[tuple[Value, ...], Row] = {}
    seeds: dict[tuple[Value, ...], dict[int, None]] = {}
    for run in (*first, *more):
        values = tuple(run.point.values())
        points.setdefault(values, run.point)
        seeds.setdefault(values, {})[run.seed] = None
    return [Run(point, seed) for values, point in points.items() for seed in seeds[values]]


def runs(points: Points | Sequence[Run], seeds: Iterable[int] = (1,)) -> list[Run]:
    """Return the runs of a sweep, in its order. A list of runs has its own seeds. Fault: there are no points or no seeds."""
    given = list(points)
    own = [run for run in given if isinstance(run, Run)]
    if own and len(own) == len(given):
        return [Run(point, run.seed) for point, run in zip(list_points([run.point for run in own]), own)]
    drawn = [int(seed) for seed in seeds]
    found = [Run(point, seed) for point in list_points(cast(Points, points if isinstance(points, Mapping) else given)) for seed in drawn]
    if not found:
        raise Fault("there are no seeds: give at least one")
    return found


def run_one(model: Model, run: Run, measure: Measure | None = None, *, program: Path | str | None = None, timeout: float | None = None) -> Row:
    """Run a point with a seed. Return its figures.

    program: the program of its labs, by default the one that is found everywhere. timeout: the seconds for all calls of its labs.
    Fault: the model returns something else than a `Plan` (with `measure`) or figures. LabTimeout: it takes longer.
    """
    with using_program(program, timeout):
        return run_job(model, measure, run)


def run_job(model: Model, measure: Measure | None, run: Run) -> Row:
    """Run a point with a seed, with the program that is used everywhere. Return its figures."""
    return run_point(model, measure, run.point, run.seed)


def run_point(model: Model, measure: Measure | None, point: Mapping[str, Value], seed: int) -> Row:
    """Run a point with a seed. Return its figures. Fault: the model returns something else."""
    if measure is None:
        found = model(**point, seed=seed)
        if isinstance(found, Plan):
            raise Fault("the model returns a plan: give `measure` (--measure) to measure it")
    else:
        plan = model(**point)
        if not isinstance(plan, Plan):
            raise Fault(f"the model returns {type(plan).__name__}, not a Plan, which `measure` needs")
        with RoadLab(dataclasses.replace(plan, words=seed)) as lab:
            found = measure(lab)
    if not isinstance(found, Mapping) or not found:
        raise Fault(f"it returns {found!r}, but a run must return a dictionary with at least one figure")
    return Row((str(name), to_plain(value)) for name, value in found.items())
