"""Read a change as an engineer writes it, in km, km/h, cars per hour and clock times, as the page's form does.

    what = read_change(["limit", "54", "1.5", "2.25", "07:00", "07:10"], plan, units, clock)
    what.shape                          ["limit", 4, 5, 1800, 2400, 2]

The words are those of `live/road NAME put`. `units` has the cell at km 0 and the step at minute 0, and `clock` is the time of day then. A
demand has no chance yet: `find_chance` finds it in the curve of its inlet.
"""
from __future__ import annotations

import math
from dataclasses import dataclass
from typing import TYPE_CHECKING, Sequence, TypedDict

from zegdrut.base import KMH, Units, to_cells, to_chance, to_limit, to_steps
from zegdrut.base.wire import PlanLine, WrittenEdit
from zegdrut.roads import Clock, InvalidTime

from ..model.operations import CAPACITY, Shape

if TYPE_CHECKING:
    from ..figures.admission import Curve

HOW = {"close": "FROM_KM TO_KM BEGIN [END]", "capacity": "CARS_PER_HOUR KMH FROM_KM TO_KM BEGIN [END]",
       "limit": "KMH FROM_KM TO_KM BEGIN [END]", "slowing": "PERCENT FROM_KM TO_KM BEGIN [END]",
       "slow-to-start": "PERCENT FROM_KM TO_KM BEGIN [END]", "demand": "CARS_PER_HOUR INLET_KM BEGIN [END]",
       "detector": "on|off KM BEGIN [END]"}
KIND_OF_WORD = {"close": "block", "capacity": CAPACITY, "limit": "limit", "slowing": "slow", "slow-to-start": "start", "demand": "inflow", "detector": "watch"}
LONGEST_NUMBER = 18  # characters of a number of minutes


class InvalidWords(ValueError):
    """The words of a change cannot be read. The sentence says which words, and what is accepted."""


@dataclass(frozen=True)
class WrittenChange:
    """A change: its shape, the demand in cars per hour or None, and a sentence that describes it. The shape of a demand has the value 0. That
    of a capacity has no chances yet: the server finds them."""

    shape: Shape
    demand: float | None
    sentence: str


InletState = TypedDict("InletState", {"inlet": int, "start": "int | None", "before": Sequence["tuple[int, int]"]})
"""What the curve of an inlet depends on: the slow-to-start chance there, and the indexes and chances of the inlets upstream. Chances are
in 1/65,536."""


def read_change(words: Sequence[str], plan: PlanLine, units: Units, clock: Clock) -> WrittenChange:
    """Return the change that these words describe. Raise `InvalidWords` if they cannot be read, or if the road has no such place."""
    kind = words[0] if words else ""
    if kind not in HOW:
        raise InvalidWords(f"{kind!r} is not a kind of change: write one of {', '.join(HOW)}")
    most = HOW[kind].count(" ") + 1
    given = list(words[1:])
    if not most - 1 <= len(given) <= most:
        raise InvalidWords(f"too few or too many words: write {kind} {HOW[kind]}")
    value = None if kind == "close" else given.pop(0)
    cars = int(parse_number(value or "", "a number of cars per hour")) if kind == "capacity" else None
    value = value if cars is None else given.pop(0)
    places = [given.pop(0) for _ in range(1 if kind in ("demand", "detector") else 2)]
    begin, end = read_times(given, units, clock)
    number, said = read_value("limit" if kind == "capacity" else kind, value)
    first, last, where = find_places(kind, [parse_number(one, "a number of km", -math.inf) for one in places], plan, units)
    since = clock.to_text(begin - units.begin)
    times = f"from {since} on" if end is None else f"{since} to {clock.to_text(end - units.begin)}"
    shape = Shape(KIND_OF_WORD[kind], first, last, begin, end, number if cars is None else (cars, number, 0, 0))
    return WrittenChange(shape, float(value or 0) if kind == "demand" else None,
                         f"{'' if cars is None else f'capacity {cars:,} cars/h, '}{said}, {where}, {times}")


def parse_number(text: str, accepted: str, least: float = 0.0) -> float:
    """Return a number of at least `least`. Raise `InvalidWords` if the text is not one; `accepted` says what is accepted."""
    try:
        number = float(text.replace(",", "."))
    except ValueError:
        number = math.nan
    if not (number >= least and math.isfinite(number)):
        raise InvalidWords(f"{text!r} is not {accepted}")
    return number


def read_times(given: Sequence[str], units: Units, clock: Clock) -> tuple[int, int | None]:
    """Return the steps of a beginning and of an end, which may be missing. Raise `InvalidWords` if they are not times, or if the end is
    not later than the beginning."""
    try:
        steps = [read_time(one, name, units.begin, clock) for one, name in zip(given, ("BEGIN", "END"))]
    except InvalidTime as fault:
        raise InvalidWords(str(fault)) from None
    begin, end = steps[0], steps[1] if len(steps) > 1 else None
    if end is not None and end <= begin:
        raise InvalidWords(f"END: {given[1]} is not later than {given[0]}")
    return begin, end


def read_time(text: str, name: str, lead: int, clock: Clock) -> int:
    """Return the step of a clock time, or of minutes after minute 0, which is the step `lead`. Raise `InvalidTime` if the text is neither, or
    before the run."""
    if not text.removeprefix("-").replace(".", "", 1).isdecimal():
        return clock.shift(-lead).to_step(text, name)
    if len(text) > LONGEST_NUMBER:
        raise InvalidTime(f"{name}: {text[:LONGEST_NUMBER]}.. is not a number of minutes")
    step = lead + to_steps(float(text))
    if step < 0:
        raise InvalidTime(f"{name}: minute {text} is before the run, which begins at minute {0 - lead / 60:g}")
    return step


def read_value(kind: str, text: str | None) -> tuple[int, str]:
    """Return a value in the program's units, and a description. A demand gives 0, since its chance is found later; the text None means
    closed. Raise `InvalidWords` if the value is out of range."""
    if text is None:
        return 1, "closed"
    if kind == "detector":
        if text not in ("on", "off"):
            raise InvalidWords(f"a detector must be on or off, not {text!r}")
        return int(text == "on"), f"detector {text}"
    if kind == "demand":
        return 0, f"{parse_number(text, 'a number of cars per hour'):g} cars/h"
    number = parse_number(text, "a speed in km/h" if kind == "limit" else "a percentage")
    if kind == "limit":
        limit = to_limit(number)
        if limit > 9:
            raise InvalidWords(f"a limit must be 0 to {9 * KMH:g} km/h, not {text}")
        return limit, f"limit {limit * KMH:g} km/h"
    if number > 100:
        raise InvalidWords(f"a chance must be 0 to 100 %, not {text}")
    return to_chance(number / 100), f"{kind} {number:g} %"


def find_places(kind: str, places: Sequence[float], plan: PlanLine, units: Units) -> tuple[int, int, str]:
    """Return the first and the last object at places in km, and a text that says where these are. Raise `InvalidWords` if a place is not
    on the road."""
    start, end = units.to_km(0), units.to_km(plan["length"])
    if min(places) < start - 1e-9 or max(places) > end + 1e-9 or len(places) == 2 and places[0] > places[1]:
        raise InvalidWords(f"{' to '.join(f'{one:g}' for one in places)} km: give two places from {start:g} to {end:g} km, the smaller first"
                           if len(places) == 2 else f"{places[0]:g} km is not on the road: give a place from {start:g} to {end:g} km")
    if kind in ("demand", "detector"):
        cells = [cell for cell, _ in plan["inlets"]] if kind == "demand" else plan["detectors"]
        if not cells:
            raise InvalidWords("the road has no " + ("inlet" if kind == "demand" else "detector"))
        index = min(range(len(cells)), key=lambda one: abs(cells[one] - units.origin - to_cells(places[0])))
        return index, index, f"at {units.place(cells[index])}"
    low, high = (to_cells(one) + units.origin for one in places)
    if kind == "close":
        first = min(low, plan["length"] - 1)
        last = max(first, min(high, plan["length"]) - 1)
        return first, last, f"{units.place(first)} to {units.place_value(last + 1)}"
    zones, zone = len(plan["zones"]), plan["zone"]
    first = min(round(low / zone), zones - 1)
    last = max(first, min(round(high / zone), zones) - 1)
    return first, last, f"{units.place(first * zone)} to {units.place_value(min((last + 1) * zone, plan['length']))}"


def find_state(plan: PlanLine, edits: Sequence[WrittenEdit], inlet: int, step: int) -> InletState:
    """Return what the curve of an inlet depends on at a step, as fields of the command `admission`. `edits` are those of a scenario."""
    cell = plan["inlets"][inlet][0]

    def find_value(kind: str, index: int, at: int, planned: int | None) -> int | None:
        puts = sorted((since, value) for of, thing, since, _, _, value in edits if (of, thing) == (kind, index) and value is not None
                      and since <= at)
        return puts[-1][1] if puts else planned
    before = [(index, find_value("inflow", index, step, chance)) for index, (at, chance) in enumerate(plan["inlets"]) if at < cell]
    return {"inlet": inlet, "start": find_value("start", cell // plan["zone"], 0, None),
            "before": [(index, chance) for index, chance in before if chance]}


def find_chance(curve: Curve, demand: float) -> int:
    """Return the inflow chance in 1/65,536 that admits a demand in cars per hour. Raise `InvalidWords` if the inlet admits less."""
    if demand > curve["capacity"]:
        raise InvalidWords(f"this inlet admits 0 to {curve['capacity']:,.0f} cars per hour per lane here, not {demand:,.0f}")
    points = curve["points"]
    for (low, less), (high, more) in zip(points, points[1:]):
        if demand <= more:
            return int(round(low + (high - low) * (demand - less) / (more - less))) if more > less else int(low)
    return int(points[-1][0])
