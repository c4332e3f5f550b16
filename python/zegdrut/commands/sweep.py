"""Run a model over a grid or a list of points and over seeds, on all processors.

    python3 -m zegdrut sweep FILE.py:FUNCTION --grid NAME=VALUES [--grid ..] [OPTIONS]
    python3 -m zegdrut sweep FILE.py:FUNCTION --points POINTS.csv [OPTIONS]
    python3 -m zegdrut sweep --again TABLE.csv.json

    --grid NAME=VALUES   values of a parameter: 1,2,5 or from:to:step (both ends included); once for each parameter
    --points FILE        a point per line, with the names of the parameters in the first line
    --seeds SEEDS        1-4 or 1,5,9 (default: 1)
    --measure FROM:TO    the function returns a Plan: measure flow, density and both mean speeds over these steps
    --measure FILE:NAME  the function returns a Plan: this function gets its lab, and returns the figures
    --out FILE           the results, a row for each run as it ends (default: sweep.csv); FILE.json beside it says what made them
    --means FILE         means over the seeds with their 95 % intervals, a row for each point
    --jobs N             the number of processes (default: one per processor)
    --part K/N           run only the K-th of N parts, to share a sweep among machines
    --take FILE ..       first copy the results of other parts
    --version TEXT       stands for the source of the model in the column `model`: give another one whenever the model changes
    --unit NAME=UNIT     the unit of a parameter or a figure; once for each
    --program PATH       the program of the runs, by default the one that `python3 -m zegdrut program` prints
    --timeout SECONDS    end a run that takes longer; it counts as failed
    --dask ADDRESS       run by the Dask workers of a scheduler, tcp://HOST:8786
    --ship               send the program and this package to workers that lack them
    --again FILE.json    make the table again that lies beside FILE.json, in --out (default: NAME.again.csv), and compare both

The function is called with the parameters of a point by name. Without --measure it also gets `seed`, and returns figures by name. The
same command continues after an interrupt: runs that --out already has are not repeated. Failed runs are named at the end and in
FILE.failed. Status 1: a run failed, or a table has results of another model, measurement or program; 2: the arguments are wrong.
"""
from __future__ import annotations

import argparse
import contextlib
import importlib
import importlib.util
import signal
import sys
from concurrent.futures import Executor
from pathlib import Path
from types import FrameType
from typing import Iterator, Sequence, cast

from ..base.errors import Fault, LabError, describe_error
from ..base.progress_bars import Bar
from ..reports.outputs import prepare_file
from ..sweeps.about import About, Named, explain_change, read_about
from ..sweeps.marks import OtherMark
from ..sweeps.results import DiskFull, Row, format_row, replace_file, read_rows, parse_cell, format_cell
from ..sweeps.runs import Flows, Measure, Model, Run, list_points, make_grid, runs
from ..sweeps.sweeps import Progress, Sweep, find_mark, sweep

NAMED = 10
"""The number of failed runs that are named on standard error."""


def find_function(where: str) -> Model:
    """Return the function at FILE.py:NAME or MODULE:NAME. Fault: it does not exist."""
    place, _, name = where.rpartition(":")
    if not place or not name:
        raise Fault(f"{where}: write FILE.py:FUNCTION")
    try:
        if place.endswith(".py"):
            path = Path(place).resolve()
            sys.path.insert(0, str(path.parent))
            found = importlib.util.spec_from_file_location(path.stem, path)
            if found is None or found.loader is None or not path.exists():
                raise Fault(f"there is no file {place}")
            module = importlib.util.module_from_spec(found)
            sys.modules[path.stem] = module
            found.loader.exec_module(module)
        else:
            sys.path.insert(0, "")
            module = importlib.import_module(place)
    except ImportError as fault:
        raise Fault(f"{place}: {fault}") from None
    function = getattr(module, name, None)
    if not callable(function):
        raise Fault(f"{place} has no function {name}")
    return cast(Model, function)


def read_values(text: str) -> list[int | float | str | None]:
    """Read the values of a parameter: 1,2,5 or from:to:step. Fault: the text has a different form."""
    if ":" not in text:
        return [parse_cell(one) for one in text.split(",")]
    ends = [parse_cell(one) for one in text.split(":")]
    first, last, step = ends if len(ends) == 3 else (None, None, None)
    if not (isinstance(first, (int, float)) and isinstance(last, (int, float)) and isinstance(step, (int, float)) and step > 0):
        raise Fault(f"{text}: write from:to:step, with a step above 0")
    count = int((last - first) / step + 1e-9) + 1
    found = [first + number * step for number in range(count)]
    return [one if isinstance(one, int) else float(f"{one:.12g}") for one in found]


def read_seeds(text: str) -> list[int]:
    """Read seeds: 1-4 or 1,5,9. ValueError: the text has a different form."""
    found: list[int] = []
    for part in text.split(","):
        first, _, last = part.partition("-")
        found += range(int(first), int(last or first) + 1)
    return found


def read_pair(text: str, between: str) -> tuple[int, int]:
    """Read two whole numbers, such as 3/40. ValueError: the text has a different form."""
    first, _, last = text.partition(between)
    return int(first), int(last)


def find_measure(named: Named) -> Measure | None:
    """Return the measurement of a lab: flows over FROM:TO, or the function FILE:NAME; None for none."""
    if isinstance(named, dict):
        first, to, cells = named["flows"]
        return Flows(cast(int, first), cast(int, to), (cells[0], cells[1]) if isinstance(cells, list) else None)
    if named is None:
        return None
    try:
        return Flows(*read_pair(named, ":"))
    except ValueError:
        return find_function(named)


def write_means(path: Path, found: Sweep) -> None:
    """Write the table of means, to standard output if the path is -."""
    rows = found.means()
    data = b"".join(map(format_row, [list(rows[0]), *(map(format_cell, row.values()) for row in rows)])) if rows else b""
    if str(path) == "-":
        sys.stdout.write(data.decode())
    else:
        replace_file(path, data)


def read_arguments(words: Sequence[str] | None) -> argparse.Namespace:
    """Read the command line."""
    parser = argparse.ArgumentParser("zegdrut sweep", description=__doc__, formatter_class=argparse.RawDescriptionHelpFormatter)
    parser.add_argument("model", metavar="FILE.py:FUNCTION", nargs="?")
    parser.add_argument("--grid", action="append", default=[], metavar="NAME=VALUES")
    parser.add_argument("--points", metavar="FILE")
    parser.add_argument("--seeds", default="1")
    parser.add_argument("--measure", metavar="FROM:TO")
    parser.add_argument("--out", type=Path, metavar="FILE")
    parser.add_argument("--means", type=Path, metavar="FILE")
    parser.add_argument("--jobs", type=int, metavar="N")
    parser.add_argument("--part", default="1/1", metavar="K/N")
    parser.add_argument("--take", nargs="+", default=[], metavar="FILE")
    parser.add_argument("--version", metavar="TEXT")
    parser.add_argument("--unit", action="append", default=[], metavar="NAME=UNIT")
    parser.add_argument("--program", metavar="PATH")
    parser.add_argument("--timeout", type=float, metavar="SECONDS")
    add_dask_options(parser)
    parser.add_argument("--again", type=Path, metavar="FILE.json")
    given = parser.parse_args(words)
    if (given.model is None) == (given.again is None):
        parser.error("name a model, FILE.py:FUNCTION, or a table with --again")
    return given


def add_dask_options(parser: argparse.ArgumentParser) -> None:
    """Add the options of commands whose runs Dask may do."""
    parser.add_argument("--dask", metavar="ADDRESS", help="run by the Dask workers of a scheduler, tcp://HOST:8786")
    parser.add_argument("--ship", action="store_true", help="send the program and this package to workers that lack them")


def split_options(name: str, given: Sequence[str]) -> dict[str, str]:
    """Return the names and values of an option that is given several times. Fault: one has no `=`."""
    wrong = next((one for one in given if "=" not in one), None)
    if wrong:
        raise Fault(f"--{name} {wrong}: write NAME={'VALUES' if name == 'grid' else 'UNIT'}")
    return {one: value for one, _, value in (text.partition("=") for text in given)}


def read_points(given: argparse.Namespace) -> list[Row]:
    """Return the points of --grid and --points. Fault: they are missing or malformed."""
    parameters = {name: read_values(values) for name, values in split_options("grid", given.grid).items()}
    listed = read_rows(given.points) if given.points else [Row()]
    points: list[dict[str, object]] = [{**point, **other} for point in listed for other in make_grid(parameters)]
    if points == [{}]:
        raise Fault("name the points: --grid NAME=VALUES or --points FILE")
    return list_points(points)


def raise_interrupt(_: int, __: FrameType | None) -> None:
    """Raise KeyboardInterrupt, for SIGTERM."""
    raise KeyboardInterrupt


def read_request(given: argparse.Namespace) -> tuple[str, Named, list[Run]]:
    """Return the names of the model and the measurement, and the runs of a command."""
    try:
        return given.model, given.measure, runs(read_points(given), read_seeds(given.seeds))
    except ValueError:
        raise Fault("write --seeds as 1-4 or 1,5,9") from None


def find_again(given: argparse.Namespace, about: About) -> tuple[str, Named, list[Run]]:
    """Return the same of a table, and print what has changed since. Fault: its model has no name."""
    if about.model is None or about.measure is None and about.plans:
        raise Fault(f"{given.again} names no {'measurement' if about.model else 'model'} that can be imported, such as MODULE:FUNCTION: make the "
                    "table with the script that made it")
    given.version = about.version
    mark = find_mark(find_function(about.model), find_measure(about.measure), about.version, given.program, given.again)
    table = given.again.with_name(about.table)
    if mark.text != about.mark:
        print(f"{table} was made by {about.mark}, and this run is {mark.text}{explain_change(table, mark)}", file=sys.stderr)
    return about.model, about.measure, about.runs()


def show_on(bar: Bar) -> Progress:
    """Return a function that shows the progress of a sweep on a bar."""
    return lambda done, whole, failed, left: bar.show(done, whole, f", {failed} failed" * bool(failed), left)


@contextlib.contextmanager
def open_executor(dask: str | None) -> Iterator[Executor | None]:
    """Yield the executor of a Dask scheduler, or None. Fault: the package is missing, or there is no scheduler."""
    if dask is None:
        yield None
        return
    try:
        distributed = importlib.import_module("distributed")
    except ImportError:
        raise Fault("dask.distributed is not installed: on Debian run `apt install python3-distributed`") from None
    try:
        client = distributed.Client(dask)
    except (OSError, ValueError) as fault:
        raise Fault(f"there is no Dask scheduler at {dask}: {fault}") from None
    with client:
        yield client.get_executor(pure=False)


def compare_tables(one: Path, other: Path) -> bool:
    """Say whether two tables are the same. Return it."""
    if not one.exists():
        print(f"{one} is not there, so nothing was compared with {other}", file=sys.stderr)
        return False
    is_same = one.read_bytes() == other.read_bytes()
    print(f"{other} is {'the same as' if is_same else 'different from'} {one}" + ", byte for byte" * is_same, file=sys.stderr)
    return is_same


def run_sweep(given: argparse.Namespace) -> int:
    """Run the sweep. Return the exit status."""
    about = read_about(given.again) if given.again else None
    try:
        part = read_pair(given.part, "/")
    except ValueError:
        raise Fault("write --part as K/N") from None
    model, measure, listed = find_again(given, about) if about else read_request(given)
    first = given.again.with_name(about.table) if about else None
    out = given.out or (first.with_name(f"{first.stem}.again.csv") if first else Path("sweep.csv"))
    prepare_file(out)
    if given.means and str(given.means) != "-":
        prepare_file(given.means, "--means FILE")
    bar = Bar("runs", in_log=True)
    signal.signal(signal.SIGTERM, raise_interrupt)
    try:
        with open_executor(given.dask) as executor:
            found = sweep(find_function(model), listed, out=out, jobs=given.jobs, part=part, take=given.take, version=given.version,
                          program=given.program, timeout=given.timeout, units=split_options("unit", given.unit), measure=find_measure(measure),
                          named=(model, measure), progress=show_on(bar), executor=executor, ship=given.ship)
    except (KeyboardInterrupt, DiskFull):
        bar.end()
        print(f"the finished runs are in {out}: the same command continues from there", file=sys.stderr)
        raise
    finally:
        bar.end()
    if given.means:
        write_means(given.means, found)
    for failure in found.failures[:NAMED]:
        print(f"failed: {failure}", file=sys.stderr)
    if len(found.failures) > NAMED:
        print(f"and {len(found.failures) - NAMED} more: see {out}.failed", file=sys.stderr)
    print(f"{len(found.rows)} runs are in {out}" + f", and {len(found.failures)} failed" * bool(found.failures), file=sys.stderr)
    is_same = first is None or compare_tables(first, out)
    return 1 if found.failures or not is_same else 0


def main(words: Sequence[str] | None = None) -> int:
    """Run the command. Return the exit status."""
    given = read_arguments(words)
    try:
        return run_sweep(given)
    except (LabError, OSError) as fault:
        print(describe_error(fault), file=sys.stderr)
        return 1 if isinstance(fault, OtherMark) else 2
