"""Read the road of a new folder: a plan line, or a freeway in km, which recipes/freeway converts to a plan line and shapes."""
from __future__ import annotations

import hashlib
import json
import os
import subprocess
import sys
from dataclasses import dataclass, field
from pathlib import Path
from typing import Iterator, Mapping, NotRequired, Sequence, TypedDict, cast

from zegdrut.base import to_steps
from zegdrut.base.wire import PlanLine
from zegdrut.roads import Clock, FIGURES
from zegdrut.roads.demand import find_rate

from ..base.journal_lines import CannotStart
from ..base.json_values import to_json, Json
from ..journal.entries import Works
from ..model.demands import INFLOW, written_demand
from ..model.operations import END, About, Shape, put
from ..model.reading import LONGEST_NAME, Malformed, clean_text, read_shape
from .gestures import Lab
from .keeper import wait_until_written

FREEWAY_FILE = "freeway.json"  # the file of a folder with the freeway in km that it began with
WHO = "road file"  # who made the operations of a freeway's file
NAME = "road.name"  # the file of a folder with the name of the file that it began with
FREEWAY = Path(__file__).resolve().parents[3] / "recipes" / "freeway" / "run"
OF_A_PLAN = {"zones", "inlets"}  # fields of a plan line that no freeway in km has
DOING = " .."  # the end of a line that reports progress


@dataclass(frozen=True)
class NewRoad:
    """A plan line, and the shapes that are shared from the start; each has the demand that its chance stands for, or None. `name` is that
    of a freeway's file. `origin` is the cell at km 0, and `lead` the step at minute 0 of that file: 0 without an approach."""

    plan: Mapping[str, Json]
    shapes: Sequence[tuple[Shape, float | None]] = field(default_factory=list)
    name: str = ""
    origin: int = 0
    lead: int = 0


def clock_of(folder: Path) -> Clock | None:
    """Return the time of day of minute 0 of a folder's road, if its file is a freeway with a `begin`. None: times count from 0:00."""
    try:
        value = json.loads((folder / FREEWAY_FILE).read_bytes())
        return Clock.read(*(value.get(name) for name in ("begin", "date", "timezone"))) if value.get("begin") is not None else None
    except (OSError, ValueError, AttributeError):  # (an InvalidTime is a ValueError)
        return None


def find_profile_end(folder: Path, lead: int) -> int | None:
    """Return the step at which the demand profile of a folder's file ends, whose minute 0 is the step `lead`. None: its file has no demand
    that changes over time, or is not a freeway file."""
    try:
        value = json.loads((folder / FREEWAY_FILE).read_bytes())
        # (The folder does not have the table of a demand in a CSV file, so only its name is read.)
        demands = [value.get("main", FIGURES.main), *(demand for _, demand in value.get("ramps", FIGURES.ramps))]
        end = lead + to_steps(value.get("minutes", FIGURES.minutes))
    except (OSError, ValueError, TypeError, AttributeError):
        return None
    return end if any(isinstance(demand, (list, dict)) for demand in demands) else None


def calibration_of(folder: Path) -> Json:
    """Return what `calibrate` wrote into the file of a folder's road: how sure its drivers are. None: it wrote nothing."""
    try:
        value: Json = json.loads((folder / FREEWAY_FILE).read_bytes()).get("calibration")
    except (OSError, ValueError, AttributeError):
        return None
    return value


def name_of(folder: Path) -> str:
    """Return the name of the file of a folder's road; empty if it is not known."""
    try:
        return clean_text((folder / NAME).read_text(encoding="utf-8", errors="replace"), LONGEST_NAME)
    except OSError:
        return ""


def read_plan(path: Path) -> dict[str, Json]:
    try:
        text = path.read_bytes()
    except OSError as fault:
        raise CannotStart(f"cannot read the road from {path}: {fault.strerror}") from None
    try:
        value: Json = json.loads(text)
        to_json(value).encode()  # lone surrogates and NaN can be read, but not written
    except (ValueError, RecursionError) as fault:
        raise CannotStart(f"{path} is neither a plan line nor a freeway in km: {fault}") from None
    if not isinstance(value, dict):
        raise CannotStart(f"{path} is neither a plan line nor a freeway in km: it is not a JSON object")
    return value


def is_freeway(value: Mapping[str, Json]) -> bool:
    return not OF_A_PLAN & value.keys()


def read_road(path: Path, program: str) -> NewRoad:
    """Return the road in a file. Raise `CannotStart` if it cannot be read. For a freeway, measure the inflow chances that admit its
    demand, which takes some seconds. `program` is the path of road_lab."""
    value = read_plan(path)
    if not is_freeway(value):
        return NewRoad(value)
    said = convert_freeway(path, program)
    try:
        shapes = [read_shape(one) for one in said["shapes"]]
        works: list[tuple[Shape, float | None]] = [(shape, None) for shape in shapes if shape.kind != INFLOW]
        chances = [int(chance) for _, chance in cast("list[list[int]]", said["plan"]["inlets"])]
        return NewRoad(said["plan"], [*demand_shapes(chances, shapes, said["demands"]), *works],
                       clean_text(path.name, LONGEST_NAME) or "freeway", said.get("origin", 0), said.get("lead", 0))
    except Malformed as fault:
        raise CannotStart(f"{path}: {fault}") from None


class ConvertedFreeway(TypedDict):
    """The fields that the recipe prints for a freeway. `demands` has for each inlet its (step, cars per hour), each in force until the next.
    Only a road with an approach has `origin` and `lead`, as in `NewRoad`."""

    plan: Mapping[str, Json]
    shapes: Sequence[Json]
    demands: Sequence[Sequence[tuple[int, float]]]
    origin: NotRequired[int]
    lead: NotRequired[int]


def demand_shapes(chances: Sequence[int], shapes: Sequence[Shape],
                  demands: Sequence[Sequence[tuple[int, float]]]) -> Iterator[tuple[Shape, float | None]]:
    """Yield the demand of each inlet as shapes, each with its cars per hour. First comes the demand of the plan's chance: its shape lies
    below all others and has no end. A shape whose chance stands for several demands is split where the demand changes."""
    for inlet, (chance, rates) in enumerate(zip(chances, demands)):
        yield Shape(INFLOW, inlet, inlet, 0, None, chance), find_rate(rates, 0)
        own = [one for one in shapes if one.kind == INFLOW and one.first == inlet]
        for shape in [*(Shape(INFLOW, inlet, inlet, 0, one.begin, chance) for one in own[:1]), *own]:
            dates = [shape.begin, *(step for step, _ in rates if shape.begin < step < (shape.end or END))]
            for begin, end in zip(dates, [*dates[1:], shape.end]):
                if begin:
                    yield shape._replace(begin=begin, end=end), find_rate(rates, begin)


def convert_freeway(path: Path, program: str) -> ConvertedFreeway:
    """Return the plan and the shapes of a freeway in km. Print how they differ from the file, as the recipe reports it."""
    said: list[str] = []
    command = [sys.executable, str(FREEWAY), "--plan", str(path.resolve())]
    with subprocess.Popen(command, stdout=subprocess.PIPE, stderr=subprocess.PIPE, text=True,
                          env={**os.environ, "ROAD_LAB": os.path.abspath(program)}) as process:
        assert process.stdout is not None and process.stderr is not None
        for line in process.stderr:
            if line.rstrip().endswith(DOING):
                print(line, end="", file=sys.stderr, flush=True)
            else:
                said.append(line.strip())
        found = process.stdout.read()
    if process.returncode:
        raise CannotStart(f"{path} is neither a plan line nor a freeway in km: {' '.join(said[-1:])}")
    for line in said:
        print(line, file=sys.stderr, flush=True)
    converted: ConvertedFreeway = json.loads(found)
    return converted


def is_another(path: Path, plan: PlanLine, kept: Path) -> bool:
    """Return whether a file has another road than a folder. `kept` is the folder's copy of a freeway in km."""
    value = read_plan(path)
    if is_freeway(value):
        return not kept.exists() or read_plan(kept) != value
    file_plan: dict[str, object] = {**value, "replicas": 0}
    other: dict[str, object] = {**plan, "replicas": 0}
    return file_plan != other


async def share_works(lab: Lab, road: NewRoad) -> None:
    """Put the shapes of a freeway's file on the shared road. Their operations are the same at all sites that begin with this file, so a
    site that joins adds nothing."""
    if not road.shapes:
        return
    site = f"plan-{hashlib.sha256(json.dumps(road.plan, sort_keys=True).encode()).hexdigest()[:8]}"
    try:
        works = [lab.read(put(count, shape, About(WHO, site=site, more=written_demand(demand, is_planned=demand is not None))).written())
                 for count, (shape, demand) in enumerate(road.shapes, 1)]
    except Malformed as fault:
        raise CannotStart(f"{road.name}: {fault}") from None
    await lab.receive(works, "", {})
    await wait_until_written(lab.keeper.record(Works(lab.keeper.confirmed)), {})  # every new seat starts with what is shared so far
