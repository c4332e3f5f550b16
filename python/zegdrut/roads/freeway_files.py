"""Read a freeway from a JSON file in km, minutes or clock times, km/h and cars per hour."""
from __future__ import annotations

import csv
import dataclasses
import datetime
import json
from dataclasses import dataclass, field
from pathlib import Path
from typing import NamedTuple, Sequence, TypeVar, Union, cast

from ..base.argument_checks import is_number
from ..base.errors import Fault
from ..base.units import to_steps
from ..base.wire import Json
from .calibrated import Calibrated, read_calibration, write_calibration
from .clock import DAY, InvalidTime, Clock


class Section(NamedTuple):
    """A part of the road with its own limit or drivers, from `first` to `last` km and from minute `begin` to `end`.

    limit: km/h. slowing: the slowing chance, from 0 to 1. start: the slowing chance of standing cars. capacity: the cars per hour that works
    leave; drivers that leave them replace `slowing` and `start` (`capacity.find_capacity`). None leaves a value as it is. If two sections
    overlap, the later one in the list applies."""

    first: float
    last: float
    begin: float
    end: float
    limit: float | None = None
    slowing: float | None = None
    start: float | None = None
    capacity: float | None = None


class Stalled(NamedTuple):
    """A car that stands at km `at` from minute `begin` to `end`."""

    at: float
    begin: float
    end: float


Demand = Union[float, "list[tuple[float, float]]"]
"""Cars per hour: one number, or a list of (minute, cars per hour), each in force until the next."""


@dataclass(frozen=True)
class Figures:
    """A freeway: km, km/h, minutes, cars per hour, and chances from 0 to 1."""

    length: float
    limit: float
    slowing: float
    main: Demand
    """The demand at km 0."""
    ramps: list[tuple[float, Demand]]
    """A (km, demand) for each on-ramp."""
    sections: list[Section]
    stalled: list[Stalled]
    detectors: list[float]
    stretch: tuple[float, float]
    """The km between which density, flow and speed are measured, in periods of `piece` minutes."""
    piece: float
    minutes: float
    seed: int
    zone: float | None = None
    """The km of a zone; None: the width that fits the sections best."""
    begin: str | None = None
    """The clock time of minute 0, such as "06:30"; None: 0:00, and times are shown as minutes."""
    date: str | None = None
    timezone: str | None = None
    start: float | None = None
    """The slowing chance of standing cars (slow-to-start); None: the same as for all cars."""
    entry: float | None = None
    """The km at the beginning of the road where nobody is slowed; None: 0, or ENTRY if the inlet needs it (`freeway.widen_inlet`)."""
    approach: float = 0.0
    """The km of road before km 0, on which a queue has room."""
    calibration: Calibrated | None = None
    """How sure the drivers are, if `calibrate` wrote the file."""
    lead: float = 0.0
    """The minutes of the run before the minute 0 of the file. A file cannot set it."""
    source: Path | None = field(default=None, compare=False)
    """The file that these figures come from. A file cannot set it."""

    @property
    def clock(self) -> Clock:
        """Return the clock of the run. Fault: begin, date or time zone is invalid."""
        try:
            return Clock.read(self.begin, self.date, self.timezone).shift(-to_steps(self.lead))
        except InvalidTime as fault:
            raise Fault(str(fault)) from None

    def format_time(self, minute: float) -> str:
        """Return a time of the run: a clock time, or a minute if the file has no begin."""
        return f"minute {minute - self.lead:g}" if self.begin is None else self.clock.to_text(to_steps(minute))

    def override_works(self, path: Path) -> Figures:
        """Replace sections and stalled cars by those of a file. Fault: the file is invalid."""
        return self.override(path, ["sections", "stalled"])

    def override(self, path: Path, known: list[str] | None = None) -> Figures:
        """Replace these figures by those of a file, a JSON object. Fault: the file is invalid.

        known: the fields that the file may have. By default it may have all fields, and must have sections and ramps."""
        try:
            given = json.loads(path.read_text(encoding="utf-8"))
        except ValueError as fault:
            raise Fault(f"{path} is not JSON: {fault}") from None
        check_names(given, known or [one.name for one in dataclasses.fields(self) if one.name not in ("source", "lead")], str(path))
        try:
            found = Reader(path, given, self).figures()
        except InvalidTime as fault:
            raise Fault(f"{path}: {fault}") from None
        if known is None:
            for name, missing in (("sections", "no part of the road has its own limit or drivers"),
                                  ("ramps", "there is no on-ramp")):
                if name not in given:
                    raise Fault(f'{path} has no {name}: if {missing}, write "{name}": []')
        return found


NUMBERS = {"length": "a number of km", "limit": "a number of km/h", "slowing": "a chance from 0 to 1", "minutes": "a number of minutes",
           "piece": "a number of minutes", "seed": "a whole number, 0 or more", "zone": "a number of km, or null",
           "start": "a chance from 0 to 1, or null", "entry": "a number of km, or null",
           "approach": "a number of km, 0 or more"}
LISTS = {"ramps": "a list of [km, demand]", "detectors": "a list of km", "stretch": "[from km, to km]", "sections": "a list of sections",
         "stalled": "a list of stalled cars"}
DEMAND = 'cars per hour; or [["06:30", 900], ["07:00", 1400], ..]; or {"csv": "FILE", "column": "NAME"}'


Placed = TypeVar("Placed", Section, Stalled)


class Reader:
    """Reads the fields of a file. Each error message names the field, the value, and what is accepted."""

    def __init__(self, path: Path, given: dict[str, Json], base: Figures) -> None:
        self.path, self.given = path, given
        # Times are read with the clock and the length of the run, so these come first.
        plain = {name: given.get(name, getattr(base, name)) for name in ("begin", "date", "timezone")}
        self.clock = Clock.read(**plain)
        self.minutes = self.number("minutes", given["minutes"]) if "minutes" in given else base.minutes
        self.base = dataclasses.replace(base, **plain, source=path)

    def fault(self, name: str, value: object, accepted: str) -> Fault:
        """Return an error with the field, the value, and what is accepted."""
        return Fault(f"{self.path}: {name}: {json.dumps(value, ensure_ascii=False)} is not {accepted}")

    def figures(self) -> Figures:
        """Read all fields. Fault: one of them is invalid."""
        found = {name: self.field(name, value) for name, value in self.given.items() if name not in ("begin", "date", "timezone")}
        return dataclasses.replace(self.base, **found)

    def field(self, name: str, value: Json) -> object:
        """Read a field. Fault: it is invalid."""
        if name in ("zone", "start", "entry") and value is None:
            return None
        if name == "calibration":
            return self.calibration(value)
        if name in NUMBERS:
            return self.number(name, value)
        if name == "main":
            return self.demand("main", value)
        if not isinstance(value, list):
            raise self.fault(name, value, LISTS[name])
        if name == "sections":
            return [self.read_record(Section, one, f"sections[{index}]") for index, one in enumerate(value)]
        if name == "stalled":
            return [self.read_record(Stalled, one, f"stalled[{index}]") for index, one in enumerate(value)]
        if name == "ramps":
            pairs = [one for one in value if isinstance(one, list) and len(one) == 2 and is_number(one[0])]
            if len(pairs) != len(value):
                raise self.fault(name, value, LISTS[name])
            return [(km, self.demand(f"ramps[{index}]", demand)) for index, (km, demand) in enumerate(pairs)]
        if not all(map(is_number, value)) or name == "stretch" and len(value) != 2:
            raise self.fault(name, value, LISTS[name])
        return value

    def number(self, name: str, value: Json) -> float:
        """Read a number. Fault: it is something else, or out of range."""
        if not is_number(value) or name == "seed" and (not isinstance(value, int) or value < 0) \
                or name in ("slowing", "start") and not 0 <= value <= 1 or name in ("entry", "approach") and value < 0:
            raise self.fault(name, value, NUMBERS[name])
        return value

    def calibration(self, value: Json) -> Calibrated:
        """Read what `calibrate` wrote. Fault: it is something else."""
        found = read_calibration(value)
        if found is None:
            raise self.fault("calibration", value, "what `calibrate` wrote: leave the field out, or calibrate the road again")
        return found

    def read_record(self, kind: type[Placed], given: Json, name: str) -> Placed:
        """Read a section or a stalled car, from a list or an object. Times become minutes."""
        fields = kind._fields
        if isinstance(given, dict):
            check_names(given, list(fields), f"{self.path}: {name}")
        elif not isinstance(given, list) or len(given) > len(fields):
            raise self.fault(name, given, f"a list or an object of {' '.join(fields)}")
        values: dict[str, Json] = given if isinstance(given, dict) else dict(zip(fields, given))
        missing = [one for one in fields if one not in values and one not in kind._field_defaults]
        if missing:
            raise self.fault(name, given, f"complete: {' and '.join(missing)} {'is' if len(missing) == 1 else 'are'} missing; the fields are "
                             f"{' '.join(fields)}")
        for one, value in values.items():
            if one in ("begin", "end"):
                values = {**values, one: self.clock.to_step(value, f"{name}.{one}") / 60}
            elif not is_number(value) and not (value is None and one in kind._field_defaults):
                raise self.fault(f"{name}.{one}", value, "a number")
        return kind(**cast("dict[str, float]", values))

    def demand(self, name: str, value: Json) -> Demand:
        """Read a demand: a number, a profile, or a column of a CSV file."""
        if is_number(value):
            return self.rate(name, value)
        elif isinstance(value, dict):
            pairs = self.read_profile(name, value)
        elif isinstance(value, list) and value:
            given = [pair for pair in value if isinstance(pair, list) and len(pair) == 2]
            if len(given) < len(value):
                raise self.fault(name, value, DEMAND)
            minutes = self.read_minutes(name, [time for time, _ in given])
            pairs = [(minute, self.rate(name, cars)) for minute, (_, cars) in zip(minutes, given)]
        else:
            raise self.fault(name, value, DEMAND)
        for place, (minute, cars_per_hour) in enumerate(pairs):
            self.rate(name, cars_per_hour)
            if place and minute <= pairs[place - 1][0]:
                raise self.fault(name, value, f"in rising order of time: {self.clock.to_text(to_steps(minute))} appears twice or is out of order")
        return cut_profile(pairs, self.minutes)

    def read_minutes(self, name: str, times: Sequence[Json]) -> list[float]:
        """Read the times of a profile. They may be before the run or after it. Fault: the profile has no demand for the run."""
        minutes = [self.clock.to_step(time, name) / 60 for time in times]
        # The clock puts a time before the beginning on the next day, after the times that follow it.
        before = max((place for place, (one, following) in enumerate(zip(minutes, minutes[1:]), 1) if one >= self.minutes and following < one), default=0)
        if not before and min(minutes) >= self.minutes:
            if not self.lasts_into_run(times, minutes):
                raise self.fault(name, times[0], f"in the run, which lasts from {self.clock.to_text(0)} to {self.clock.to_text(to_steps(self.minutes))}"
                                 + ' (is "begin" missing?)' * (self.base.begin is None))
            before = len(minutes)
        return [minute - DAY / 60 if place < before else minute for place, minute in enumerate(minutes)]

    @staticmethod
    def lasts_into_run(times: Sequence[Json], minutes: Sequence[float]) -> bool:
        """Return whether the run begins in the last interval of a profile of clock times, which is as long as the one before it."""
        return len(times) > 1 and all(isinstance(time, str) for time in times) and 2 * minutes[-1] - minutes[-2] > DAY / 60

    def rate(self, name: str, value: Json) -> float:
        """Read cars per hour. Fault: it is not a number, or negative."""
        if not is_number(value) or value < 0:
            raise self.fault(name, value, "cars per hour, 0 or more")
        return float(value)

    def read_profile(self, name: str, value: dict[str, Json]) -> list[tuple[float, float]]:
        """Read a column of a CSV file. The first column, or the one named by `time`, has the times at which each demand begins."""
        check_names(value, ["csv", "column", "time"], f"{self.path}: {name}")
        file_name, title = value.get("csv"), value.get("column")
        if not isinstance(file_name, str) or not isinstance(title, str):
            raise self.fault(name, value, DEMAND)
        path = self.path.parent / file_name
        try:
            with open(path, newline="", encoding="utf-8") as file:
                rows = list(csv.DictReader(file))
        except OSError as fault:
            raise Fault(f"{self.path}: {name}: {path}: {fault.strerror}: check the path") from None
        header = list(rows[0]) if rows else []
        times = value.get("time", header[0] if header else "")
        for column in (times, title):
            if not isinstance(column, str) or column not in header:
                raise self.fault(name, column, f"a column of {path}: {', '.join(header) or 'the file has no rows'}")
        pairs: list[tuple[float, float]] = []
        for line, row in enumerate(rows, 2):
            try:
                cars = float(row[title])
            except (TypeError, ValueError):
                raise Fault(f"{path}, line {line}: {title}: {row[title]!r} is not a number") from None
            minute = self.read_minute(row[str(times)], f"{path}, line {line}: {times}")
            if minute <= 0:
                pairs = [(0.0, cars)]
            elif minute < self.minutes:
                pairs.append((minute, cars))
        if not pairs:
            raise Fault(f"{self.path}: {name}: no row of {path} is within the run")
        return pairs

    def read_minute(self, text: str, name: str) -> float:
        """Return the minute of a clock time, or of a date and time such as "2026-03-02 06:30"."""
        try:
            moment = datetime.datetime.fromisoformat(text.strip())
        except ValueError:
            return self.clock.to_step(float(text) if text.replace(".", "", 1).isdigit() else text, name) / 60
        return self.clock.find_step(moment) / 60


FIGURES = Figures(
    length=3, limit=130,            # km; km/h, rounded to 27, 54, 81, 108 or 135
    slowing=0.1,                    # the share of drivers who slow down in a step
    main=1_200,                     # cars per hour at km 0
    ramps=[(0.75, 250)],            # for each ramp its km and cars per hour
    # The works, and a lower limit before them: from km to km, from minute to minute.
    sections=[Section(2.25, 2.625, 20, 30, limit=54, slowing=0.5), Section(1.875, 2.25, 18, 30, limit=80)],
    stalled=[],                     # Stalled(km, from minute, to minute) for each car
    detectors=[0.375, 1.5, 2.1, 2.7],
    stretch=(1.2, 1.8), piece=5,    # from km to km; the period in minutes
    minutes=60, seed=1,             # a different seed gives different drivers
    zone=None,                      # km of a zone; None: the width that fits the sections best
)
"""The road of the example, whose figures a file may leave out."""


def cut_profile(pairs: list[tuple[float, float]], minutes: float) -> list[tuple[float, float]]:
    """Return what a profile has in a run of some minutes. The last demand before the run is that of its beginning."""
    early = [cars for minute, cars in pairs if minute <= 0]
    return [*([(0.0, early[-1])] if early else []), *((minute, cars) for minute, cars in pairs if 0 < minute < minutes)]


def write_road(path: Path, source: Path, figures: Figures) -> None:
    """Write the file of a road: the one of `source`, with the limit, demand, drivers, entry, date and detectors of some figures."""
    clock = figures.clock

    def write_demand(demand: Demand) -> Json:
        if not isinstance(demand, list):
            return demand
        return [[write_time(clock, to_steps(minute)), round(cars, 2)] for minute, cars in demand]
    found: dict[str, Json] = {
        **json.loads(source.read_text(encoding="utf-8")), "limit": figures.limit, "main": write_demand(figures.main), "slowing": figures.slowing,
        "ramps": [[km, write_demand(demand)] for km, demand in figures.ramps], "detectors": [*figures.detectors]}
    found.pop("calibration", None)  # (that of other drivers)
    sure = None if figures.calibration is None else write_calibration(figures.calibration)
    more: tuple[tuple[str, Json], ...] = (("start", figures.start), ("entry", figures.entry), ("date", figures.date), ("calibration", sure))
    found.update({name: value for name, value in more if value is not None})
    path.parent.mkdir(parents=True, exist_ok=True)
    path.write_text("{" + ",\n ".join(f"{json.dumps(name)}: {json.dumps(value, ensure_ascii=False)}" for name, value in found.items())
                    + "}\n", encoding="utf-8")


def write_time(clock: Clock, step: int) -> Json:
    """Return the time of a step for a file: a clock time, or minutes after the beginning if the clock has that time twice."""
    text = clock.to_text(step)
    try:
        is_unique = clock.to_step(text) == step
    except InvalidTime:
        is_unique = False
    return text if is_unique else step / 60


def check_names(given: object, known: list[str], where: str) -> None:
    """Check the fields of a JSON object. Fault: a field is unknown, or the value is not an object."""
    unknown = [name for name in given if name not in known] if isinstance(given, dict) else [given]
    if unknown:
        raise Fault(f"{where}: unknown field {unknown[0]!r}: the fields are {' '.join(known)}")
