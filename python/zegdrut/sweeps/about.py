"""Write beside a table what made it, and read it. For `roads.csv` this is `roads.csv.json`.

Its fields: the model and the measurement as a command names them (null if it cannot); all points of the table with their plans and the
seeds of each, in the order of the rows; for each column its kind, unit and identifier; the mark with all its parts; the program, this
package, Python, the host, and the times.
"""
from __future__ import annotations

import importlib.metadata
import itertools
import json
import platform
import socket
import sys
from dataclasses import asdict, dataclass, field
from datetime import datetime, timezone
from pathlib import Path
from typing import Dict, List, Mapping, Sequence, Union

from ..base.errors import Fault
from ..base.wire import Json, PlanLine
from ..program.programs import find_program, read_record
from .marks import Mark
from .results import Column, Value, make_identifier, replace_file
from .runs import Run, list_points, list_run_points

FORM = 2
Named = Union[None, str, Dict[str, List[Union[int, List[int], None]]]]
"""A measurement: FROM:TO or FILE:NAME as in a command; {"flows": [first, to, cells]}; or null for one without a name."""


@dataclass
class About:
    """The record of what made a table."""

    table: str
    model: str | None
    measure: Named
    points: list[dict[str, Value]]
    seeds: list[list[int]]
    mark: str
    parts: dict[str, str]
    plans: list[PlanLine | None] = field(default_factory=list)
    version: str | None = None
    command: list[str] = field(default_factory=list)
    columns: dict[str, Column] = field(default_factory=dict)
    program: dict[str, Json] = field(default_factory=dict)
    zegdrut: str = ""
    python: str = ""
    host: str = ""
    begun: str = ""
    ended: str | None = None
    form: int = FORM

    def runs(self) -> list[Run]:
        """Return the runs of the table, in the order of its rows."""
        return [Run(point, seed) for point, seeds in zip(list_points(self.points), self.seeds) for seed in seeds]

    def write(self, out: Path) -> None:
        """Write the file beside a table."""
        columns: dict[str, dict[str, object]] = {
            name: {"kind": column.kind, "unit": column.unit, "identifier": make_identifier(name),
                   **({"axes": list(column.axes)} if column.axes else {})} for name, column in self.columns.items()}
        replace_file(beside(out), (json.dumps({**asdict(self), "columns": columns}, ensure_ascii=False, indent=1) + "\n").encode())


def beside(out: Path) -> Path:
    """Return the path of the file beside a table."""
    return out.with_name(out.name + ".json")


def read_about(path: Path) -> About:
    """Read the file beside a table. Fault: it is not one. OSError: it cannot be read."""
    try:
        read = json.loads(path.read_text(encoding="utf-8"))
        if read["form"] != FORM:
            other = "a later" if read["form"] > FORM else "an earlier"
            raise Fault(f"{path} has form {read['form']}, and this version of zegdrut reads form {FORM}: use {other} version")
        read["columns"] = {name: Column(one["kind"], tuple(one.get("axes", ())), one["unit"]) for name, one in read["columns"].items()}
        return About(**read)
    except (ValueError, TypeError, KeyError):
        raise Fault(f"{path} does not say what made a table: name the file that a sweep wrote beside it") from None


def describe_sweep(out: Path, model: str | None, measure: Named, listed: Sequence[Run], mark: Mark, version: str | None) -> About:
    """Return what makes a table of these runs, which begins now. The runs of a point follow each other."""
    program = find_program()
    made = read_record(program)
    points = list_run_points(listed)
    seeds = [[run.seed for run in runs] for _, runs in itertools.groupby(listed, lambda run: id(run.point))]
    return About(out.name, model, measure, [dict(point) for point in points], seeds, mark.text, mark.parts, version=version,
                 command=list(sys.argv), program={} if made is None else dict(asdict(made)), zegdrut=package_version(),
                 python=platform.python_version(), host=socket.gethostname(), begun=now())


def now() -> str:
    """Return the time in UTC, to the second."""
    return datetime.now(timezone.utc).isoformat(timespec="seconds")


def package_version() -> str:
    """Return the version of this package, or "not installed" if it is used by its path."""
    try:
        return importlib.metadata.version("zegdrut")
    except importlib.metadata.PackageNotFoundError:
        return "not installed"


def find_name(function: object) -> str | None:
    """Return MODULE:FUNCTION for a function that can be imported by this name; None for a function of a script, or one without a name."""
    module, name = str(getattr(function, "__module__", "")), str(getattr(function, "__qualname__", ""))
    if module in ("", "__main__") or not name.isidentifier():
        return None
    return f"{module}:{name}" if getattr(sys.modules.get(module), name, None) is function else None


def find_kinds(points: Sequence[Mapping[str, Value]]) -> dict[str, Column]:
    """Return the columns of parameters."""
    kinds = {name: {isinstance(point[name], str) for point in points if point[name] is not None} for name in points[0]}
    return {name: Column("mixed" if len(found) > 1 else "text" if True in found else "number") for name, found in kinds.items()}


def explain_change(out: Path, mark: Mark) -> str:
    """Return in words what differs between the mark of a table and this one, if the file beside it is there."""
    try:
        changed = mark.changes(read_about(beside(out)).parts)
    except (Fault, OSError):
        return ""
    return f"; changed: {', '.join(changed)}" if changed else ""


