"""Simulate the days of roads in parallel, and keep of each run what figures need.

    def make_run(seed):
        with open_edited("works.jsonl", script.with_seed(seed)) as lab:
            return read_run(lab, "A", Window(0, 3_600))

    runs = simulate_days(make_run, seeds=range(1, 21))
"""
from __future__ import annotations

import contextlib
import functools
from concurrent.futures import Executor
from dataclasses import dataclass, field
from typing import Callable, Generator, Mapping, Sequence, TypeVar, cast

from ..base.errors import Fault, LabError
from ..base.units import HOUR
from ..program.lab import RoadLab
from ..program.programs import NoProgram
from ..roads.demand import Rates
from ..sweeps.engine import run_jobs
from .trips import DetectorCount, Trips, Window, count_seconds_on

Job = TypeVar("Job")
R = TypeVar("R")


@dataclass(frozen=True, eq=False)
class RoadRun:
    """A run of a road, as far as figures need it."""

    trips: Trips
    """Its cars. The sites are the detectors, for the figures of travel times to detectors."""
    window: Window
    """The steps of all figures."""
    counts: list[list[DetectorCount]]
    """What each detector counted in each period of the window."""
    demands: Sequence[Rates] = ()
    """The demand of each inlet in cars per hour, for the figures of demand."""
    rows: Sequence[str] = ()
    """The rows of the window, if they are kept."""
    seconds: float = 1.0
    """The length of a step."""
    arrived: Trips | None = None
    """Its cars by their arrivals, if cars waited before the road."""
    arrivals: Mapping[int, Sequence[int]] = field(default_factory=dict)
    """By the inlet's index: the steps in which cars arrive, if those that cannot enter are lost. An inlet that is left out loses none."""
    waiting: Mapping[int, Sequence[int]] = field(default_factory=dict)
    """By the inlet's index: the cars that wait before it after each step."""

    @property
    def by_arrival(self) -> Trips:
        """Return the cars with the numbers of their arrivals, so that those that waited can be compared with those of another road."""
        return self.arrived or self.trips

    def list_waiting(self, inlet: int) -> Sequence[int]:
        """Return the cars that wait before an inlet after each step of the window."""
        return self.waiting.get(inlet, ())[self.window.first:self.window.last]

    def hours(self, steps: int) -> float:
        """Convert steps of cars to vehicle hours."""
        return steps * self.seconds / HOUR

    def count(self, detector: int) -> DetectorCount:
        """Return what a detector counted in the whole window."""
        return sum_counts(self.counts[detector])


def sum_counts(counts: Sequence[DetectorCount]) -> DetectorCount:
    """Return what detectors counted together."""
    return DetectorCount(*(sum(one[place] for one in counts) for place in range(len(DetectorCount._fields))))


def split_window(window: Window, period: int) -> list[Window]:
    """Return the periods of a window. The last one may be shorter."""
    return [Window(first, min(first + period, window.last)) for first in range(window.first, window.last, period)]


def read_counts(lab: RoadLab, at: str, detectors: Sequence[int], periods: Sequence[Window]) -> list[list[DetectorCount]]:
    """Return what detectors, by their indexes, counted in each period at the replica `at`."""
    watched = [edit for edit in lab.scenario(at) if edit.object[0] == "watch"]
    return [[DetectorCount(*lab.count(at, detector, *part), count_seconds_on(watched, detector, part), part.steps) for part in periods]
            for detector in detectors]


def read_run(lab: RoadLab, at: str, window: Window, demands: Sequence[Rates] = (), detectors: Sequence[int] | None = None,
             period: int | None = None, with_passings: bool = True, with_rows: bool = False, seconds: float = 1.0, origin: int = 0) -> RoadRun:
    """Read a run of the replica `at`, which it has simulated up to the window's end.

    detectors: the indexes of the detectors that are counted; by default all of them.
    period: the steps of each count; by default one count of the whole window.
    with_passings: read when each car passes each detector, for travel times to detectors. Such a run takes twice as long.
    origin: the cell at km 0.
    """
    cells: Sequence[int] = lab.plan["detectors"]
    counted = range(len(cells)) if detectors is None else detectors
    trips = Trips(lab.plan, [cells[detector] for detector in counted] if with_passings else [], origin=origin)
    trips.follow(lab, at, window.last)
    return RoadRun(trips, window, read_counts(lab, at, counted, split_window(window, period or max(window.steps, 1))), demands,
                   lab.diagram(at, window.first, window.last - 1) if with_rows else (), seconds)


def iterate_days(make_run: Callable[[Job], R], seeds: Sequence[Job], name: Callable[[Job], object] = lambda seed: seed,
                 executor: Executor | None = None, ship: bool = False, jobs: int | None = None) -> Generator[tuple[int, R], None, None]:
    """Yield the index of each seed with what `make_run` returns for it, as the days end. They run in parallel processes, one per processor.

    name: the seed of a job, for messages. (A job may be more than a seed, such as a seed and a road.)
    executor: runs the days, in the form of `concurrent.futures`. ship: send this package and the program to its workers.
    jobs: the number of processes.

    Fault: a day failed. The message begins with its seed. NoWorker: a worker of the executor cannot run the days.
    """
    with contextlib.closing(run_jobs(functools.partial(attempt, make_run), seeds, jobs, executor, ship)) as running:
        for done in running:
            if done.error is not None or isinstance(done.value, Fault):
                raise Fault(f"seed {name(seeds[done.job])}: {done.error or done.value}")
            yield done.job, cast(R, done.value)


def simulate_days(make_run: Callable[[Job], R], seeds: Sequence[Job], progress: Callable[[int, int], None] | None = None,
                  name: Callable[[Job], object] = lambda seed: seed, executor: Executor | None = None, ship: bool = False,
                  jobs: int | None = None) -> list[R]:
    """Return what `make_run` returns for each seed, in their order. `iterate_days` describes the other arguments, and the errors.

    progress: called after each day with the number of days done and of all days.
    """
    found: dict[int, R] = {}
    with contextlib.closing(iterate_days(make_run, seeds, name, executor, ship, jobs)) as days:
        for place, run in days:
            found[place] = run
            if progress:
                progress(len(found), len(seeds))
    return [found[place] for place in range(len(seeds))]


def attempt(make_run: Callable[[Job], R], job: Job) -> R | Fault:
    """Return what `make_run` returns for a job, or why it failed. NoProgram: there is no program."""
    try:
        return make_run(job)
    except NoProgram:
        raise
    except (LabError, ValueError, ArithmeticError) as fault:
        return Fault(str(fault))
