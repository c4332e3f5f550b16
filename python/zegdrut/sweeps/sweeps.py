"""Run a model over many points and seeds, on all processors or by an executor.

    from zegdrut.sweeps import Flows, sweep

    def road(inflow: int, slowing: int) -> Plan:
        return Plan(length=400, inlets=[(0, inflow)], zones=[(5, slowing)], detectors=[250])

    found = sweep(road, {"inflow": [10_000, 30_000], "slowing": range(0, 40_000, 8_192)}, seeds=range(1, 5),
                  measure=Flows(2_000, 6_000), out="flows.csv")
    for row in found.means():
        print(row["inflow"], row["slowing"], row["flow"], "+-", row["flow ±"])
"""
from __future__ import annotations

import contextlib
import functools
import time
from concurrent.futures import Executor
from dataclasses import dataclass
from pathlib import Path
from typing import TYPE_CHECKING, Callable, Iterable, Iterator, Mapping, NamedTuple, Sequence, cast

from ..base.errors import Fault
from ..base.intervals import estimate_mean
from ..base.wire import PlanLine
from ..program.plan import Plan
from ..program.programs import program_path
from .about import About, Named, beside, describe_sweep, explain_change, find_kinds, find_name, now, read_about
from .data_frames import make_dataset, make_frame, write_netcdf
from .engine import run_by_executor
from .marks import Mark, OtherMark, Unknown, make_mark
from .pool import Outcome, run_in_parallel
from .results import Column, Results, Row, Series, Value, format_cell, format_row, parse_cell, parse_table, read_rows, replace_file
from .runs import Flows, Measure, Model, Points, Run, join_runs, list_run_points, run_job, run_one, runs

if TYPE_CHECKING:
    import pandas
    import xarray

Progress = Callable[[int, int, int, float | None], None]
"""A function that gets the number of runs done, of all runs and of failed runs, and the seconds left (None after the first run)."""


class Failure(NamedTuple):
    """A run that failed."""

    point: Row
    seed: int
    error: str

    def __str__(self) -> str:
        return f"{' '.join(f'{name}={value}' for name, value in self.point.items())} seed={self.seed}: {self.error}"


@dataclass(frozen=True)
class Sweep:
    """The rows of a sweep, in the order of its points and seeds, and the runs that failed.

    A row has the parameters of its point, `seed`, `model` and the figures. `about`: what made the table; None for a sweep in memory.
    """

    names: list[str]
    rows: list[Row]
    failures: list[Failure]
    about: About | None = None

    def means(self) -> list[Row]:
        """Return the mean of each figure over the seeds of a point, and as ± half its 95 % interval, for each point.

        The interval is by Student's t; it is None for one seed. A figure that is None for some seed has no mean. A point with a
        failed run is left out, so all means are over the same seeds.
        """
        failed = {tuple(failure.point.items()) for failure in self.failures}
        groups: dict[tuple[tuple[str, Value], ...], list[Row]] = {}
        for row in self.rows:
            groups.setdefault(tuple((name, row[name]) for name in self.names), []).append(row)
        return [Row([*point, ("seeds", len(rows)), *compute_means(rows, {*self.names, "seed", "model"}).items()])
                for point, rows in groups.items() if point not in failed]

    def to_pandas(self) -> pandas.DataFrame:
        """Return the rows as a data frame. Its columns have identifiers as names, and `attrs["units"]` has their units."""
        return make_frame(self.rows, self.about.columns if self.about else {})

    def to_xarray(self) -> xarray.Dataset:
        """Return the figures as arrays over the parameters and `seed`, with units, and with what made them as attributes."""
        return make_dataset(self.names, self.rows, self.about)

    def to_netcdf(self, path: Path | str) -> None:
        """Write the arrays of `to_xarray` to a netCDF file."""
        write_netcdf(self.to_xarray(), path)


def compute_means(rows: Sequence[Row], excluded: set[str]) -> Row:
    """Return the means of all columns of numbers except those in `excluded`, with half their intervals."""
    found = Row()
    for name in rows[0]:
        values = [row[name] for row in rows]
        if name in excluded or any(isinstance(value, (str, Series)) for value in values):
            continue
        mean: Value = None
        half: Value = None
        if None not in values:
            numbers = cast(Sequence[float], values)
            mean, half = estimate_mean(numbers) if len(numbers) > 1 else (numbers[0], None)
        found.update({name: mean, f"{name} ±": half})
    return found


def load(path: Path | str) -> Sweep:
    """Return the sweep of a table, or of the file beside it. Fault: the file beside it is missing, or it is not a table."""
    table = Path(path)
    table = table.with_name(table.name[:-len(".json")]) if table.name.endswith(".csv.json") else table
    if not beside(table).exists():
        raise Fault(f"{beside(table)} is missing: it says what made {table}, and lies beside it")
    about = read_about(beside(table))
    rows = read_rows(table, about.columns)
    names = list(about.points[0])
    failed = table.with_name(table.name + ".failed")
    failures = [Failure(Row((name, row[name]) for name in names), cast(int, row["seed"]), str(row["error"]))
                for row in (read_rows(failed, about.columns) if failed.exists() else [])]
    return Sweep(names, rows, failures, about)


def sweep(model: Model, points: Points | Sequence[Run], seeds: Iterable[int] = (1,), *, measure: Measure | None = None,
          out: Path | str | None = None, jobs: int | None = None, part: tuple[int, int] = (1, 1), take: Iterable[Path | str] = (), version: str | None = None,
          program: Path | str | None = None, timeout: float | None = None, units: Mapping[str, str] | None = None,
          executor: Executor | None = None, ship: bool = False, named: tuple[str, Named] | None = None,
          progress: Progress | None = None) -> Sweep:
    """Run a model for each point and each seed, in `jobs` processes, by default one per processor, or by an executor.

    points: a grid, a list of points, or a list of runs, which have their own seeds. With `measure`, `model(**point)` returns a `Plan`, whose seed is replaced, and `measure(lab)` returns the figures of its road.
    Without it, `model(seed=seed, **point)` returns the figures. A run that raises an exception or dies becomes a `Failure`; the
    other runs continue.

    out: a CSV file that gets a row for each run as it ends; OUT.json beside it says what made it. Runs that it already has are not
    repeated, so after Ctrl-C or a crash the same call continues. Failed runs are tried again, and are listed in the file OUT.failed in
    the same folder. part: (k, n): run only the k-th of n parts, to share a sweep among machines. take: files of other parts, whose rows
    are copied first. version: a string that stands for the source of the model; without it, `marks` finds what the model reaches.
    program: the program of the runs' labs. timeout: the seconds after which a run is ended and counts as failed. units: the unit of
    each parameter or figure; `measure.unit` gives those that are not named. executor: runs the runs, in the form of
    `concurrent.futures`; then `timeout` holds for the calls of labs. ship: send this package and the program to its workers. named: the
    model and the measurement as a command names them.

    Fault: there are no points or seeds, or a file has different columns. OtherMark: a file has results of another model, measurement or
    program. Unknown: `version` is needed for a file. Nothing has been written then. NoProgram: a run needs a program, which is missing.
    NoWorker: a worker of the executor cannot run the sweep.
    """
    listed = runs(points, seeds)
    if not 1 <= part[0] <= part[1]:
        raise Fault(f"part {part[0]} of {part[1]} does not exist")
    if jobs is not None and jobs < 1:
        raise Fault(f"jobs must be 1 or more, not {jobs}")
    names, mark = list(listed[0].point), find_mark(model, measure, version, program, out)
    keys = [make_key(run, mark) for run in listed]
    if len({tuple(key) for key in keys}) < len(keys):
        raise Fault("a point or a seed appears twice: remove one")
    mine = range(part[0] - 1, len(listed), part[1])
    program_path()  # (prints the note about the program once)
    table = Table(out, listed, measure, units or {}, mark, [Path(path) for path in take])
    try:
        held = table.list_runs([listed[number] for number in mine])
        table.describe(named or (find_name(model) or "", name_measure(measure)), held, list_plans(model, held) if measure else [], version)
        missing = [number for number in mine if tuple(keys[number]) not in table.results.rows]
        with contextlib.closing(
                run_in_parallel(lambda number: run_one(model, listed[number], measure, program=program), missing, jobs, timeout)
                if executor is None else
                run_by_executor(executor, functools.partial(run_job, model, measure), [listed[number] for number in missing], program, timeout,
                                ship)) as outcomes:
            table.end([make_key(run, mark) for run in held], table.run(outcomes, keys, missing, len(mine), progress))
    finally:
        table.results.close()
    failures = table.failures
    rows = [Row({**listed[number].point, "seed": listed[number].seed, "model": mark.text, **figures})
            for number in mine if (figures := table.results.figures(keys[number])) is not None]
    return Sweep(names, rows, failures, table.about)


def make_key(run: Run, mark: Mark) -> list[str]:
    """Return the cells of a run's row before its figures."""
    return [*map(format_cell, run.point.values()), str(run.seed), mark.text]


class Table:
    """The table of a sweep while it runs, in memory or in a file with what made it beside it."""

    def __init__(self, out: Path | str | None, listed: Sequence[Run], measure: Measure | None, units: Mapping[str, str], mark: Mark,
                 parts: Sequence[Path]) -> None:
        """Open a file, and copy the rows of other parts. OtherMark, Fault: one of them does not fit; then nothing is written."""
        self._out, self._listed, self._mark = None if out is None else Path(out), listed, mark
        self._units, self._measure = units, measure
        self.failures: list[Failure] = []
        self._names = names = list(listed[0].point)
        self._parameters = find_kinds([run.point for run in listed])
        for path in parts:
            self._check_marks(parse_table(path.read_bytes(), path)[1], len(names) + 1, path)
        self._known = [run for path in (*parts, self._out) if path and beside(path).exists() for run in read_about(beside(path)).runs()]
        self.about: About | None = None
        self.results = Results(out, [*names, "seed", "model"], self._kinds_of(self._out), self._write)
        try:
            self._check_marks(self.results.rows.values(), len(names) + 1, self._out or Path())
            for path in parts:
                self.results.note_kinds(self._kinds_of(path))
            self.results.take(parts)
        except BaseException:
            self.results.close()
            raise

    def _check_marks(self, rows: Iterable[Sequence[str]], place: int, path: Path) -> None:
        other = next((row[place] for row in rows if row[place] != self._mark.text), None)
        if other is not None:
            raise OtherMark(f"{path} has results of {other}, but the model is now {self._mark.text}{explain_change(path, self._mark)}: "
                            "name a different file")

    def _kinds_of(self, path: Path | None) -> dict[str, Column]:
        """Return what the figures of a file hold, by the file beside it."""
        if path is None or not beside(path).exists():
            return {}
        return {name: column for name, column in read_about(beside(path)).columns.items() if name not in {*self._parameters, "seed", "model"}}

    def list_runs(self, mine: Sequence[Run]) -> list[Run]:
        """Return the runs that the table will hold, in the order of its rows: `mine`, and then those of other calls that it has."""
        known = {tuple(make_key(run, self._mark)): run for run in self._known}
        held = [known.get(key) or Run(Row(zip(self._names, map(parse_cell, key))), int(key[len(self._names)])) for key in self.results.rows]
        return join_runs(mine, held)

    def describe(self, named: tuple[str, Named], held: Sequence[Run], plans: list[PlanLine | None], version: str | None) -> None:
        """Write what makes the table of the runs `held`."""
        self._parameters = find_kinds(list_run_points(held))
        if self._out is not None:
            self.about = describe_sweep(self._out, named[0] or None, named[1], held, self._mark, version)
            self.about.plans = plans
            self._write()

    def _write(self) -> None:
        if self.about is not None and self._out is not None:
            columns = {**self._parameters, "seed": Column("number"), "model": Column("text"), **self.results.kinds}
            self.about.columns = {name: column._replace(unit=self._unit(name)) for name, column in columns.items()}
            self.about.write(self._out)

    def _unit(self, column: str) -> str:
        of_measure = getattr(self._measure, "unit", None)
        known = column in {*self._parameters, "seed", "model"} or of_measure is None
        return str(self._units.get(column, "" if known or of_measure is None else of_measure(column)))

    def run(self, outcomes: Iterator[Outcome], keys: Sequence[Sequence[str]], missing: Sequence[int], whole: int,
            progress: Progress | None) -> list[Failure]:
        """Add the outcomes of the missing runs as they come. Return the failures, in the order of the runs."""
        failures: dict[int, Failure] = {}
        first = 0.0  # the time of the first outcome: until then, there may be no worker
        for ended, done in enumerate(outcomes, 1):
            first = first or time.monotonic()
            number = missing[done.job]
            error = done.error or add_result(self.results, keys[number], cast(Row, done.value))
            if error:
                failures[number] = Failure(*self._listed[number], error)
            if progress:
                left = (time.monotonic() - first) / (ended - 1) * (len(missing) - ended) if ended > 1 else None
                progress(whole - len(missing) + ended, whole, len(failures), left)
        self.failures = [failures[number] for number in sorted(failures)]
        return self.failures

    def end(self, keys: Sequence[Sequence[str]], failures: Sequence[Failure]) -> None:
        """Sort the rows, list the failures, and note the end."""
        self.results.sort(keys)
        if self._out is not None and self.about is not None:
            list_failures(self._out, list(self._parameters), failures)
            self.about.ended = now()
            self._write()


def name_measure(measure: Measure | None) -> Named:
    """Return how the file beside a table names a measurement; None if it has no name."""
    if isinstance(measure, Flows):
        return {"flows": [measure.first, measure.to, None if measure.cells is None else list(measure.cells)]}
    return find_name(measure)


def list_plans(model: Model, listed: Sequence[Run]) -> list[PlanLine | None]:
    """Return the plan of each point, or None for a point whose model fails."""
    found: list[PlanLine | None] = []
    for point in list_run_points(listed):
        try:
            plan = model(**point)
            found.append(plan.to_line() if isinstance(plan, Plan) else None)
        except Exception:  # (its run then fails, too, and says why)
            found.append(None)
    return found


def find_mark(model: Model, measure: Measure | None, version: str | None, program: Path | str | None, out: Path | str | None) -> Mark:
    """Return the mark of a sweep. Without a table, a model that cannot be recognised has one, too. Unknown: `version` is needed."""
    try:
        return make_mark(model, measure, version, program)
    except Unknown:
        if out is not None:
            raise
        return Mark(f"{getattr(model, '__name__', type(model).__name__)}-unknown", {})


def add_result(results: Results, key: Sequence[str], figures: Row) -> str | None:
    """Add a row. Return an error message if it is invalid, or None."""
    try:
        results.add(key, figures)
        return None
    except (Fault, TypeError) as fault:
        return f"{type(fault).__name__}: {fault}"


def list_failures(out: Path, names: Sequence[str], failures: Sequence[Failure]) -> None:
    """List the failed runs in OUT.failed, or remove that file if no run failed."""
    path = out.with_name(out.name + ".failed")
    if failures:
        rows = [[*map(format_cell, failure.point.values()), str(failure.seed), failure.error] for failure in failures]
        replace_file(path, b"".join(map(format_row, [[*names, "seed", "error"], *rows])))
    else:
        path.unlink(missing_ok=True)
