"""Read measured counts of detector stations from CSV files, and check them.

    counts = read_counts(Path("counts.csv"))                           # a header names the columns
    counts = read_counts(Path("d07.txt"), read_stations(Path("stations.csv")))      # five-minute station data without a header
    for sentence in counts.notes: ..                                   # faults of the data, with line numbers

A header has `time` (when the interval begins), `km` or `station`, and `count` (cars in the interval) or `flow` (cars per hour, or
per interval if the title says so: `flow veh/5min`). It may have `speed`, `lanes` and `type` (ML main line, OR on-ramp). The title of
a column may contain its unit: `speed mph`, `speed_kmh`, `flow veh/h`, `miles`.

Five-minute station data without a header has the columns: beginning of the interval, station, district, freeway, direction, lane type,
length, samples, percent observed, total flow (cars in the five minutes), occupancy, speed in mph, and then lanes. Its station table has a
header with station, km or miles (postmiles), lanes, and perhaps type.
"""
from __future__ import annotations

import csv
import datetime
import math
import re
from collections import Counter
from dataclasses import dataclass, field, replace
from pathlib import Path
from types import MappingProxyType
from typing import Container, Iterable, Mapping, NamedTuple, Sequence

from ..base.errors import Fault
from ..base.units import count_things

MILE = 1.609344
"""Kilometres."""
ON_RAMP = ("OR", "ONRAMP", "RAMP")
MAIN_LINE = ("ML", "MAIN", "MAINLINE", "")
FIVE_MINUTES = ("time", "station", "district", "freeway", "direction", "type", "length", "samples", "percent observed", "count",
                "occupancy", "speed mph")
"""The first columns of station data without a header."""
MOST_LISTED = 5
"""The number of lines of one kind that a note names."""
MOST_SPEED = 250.0
"""The highest plausible mean speed in km/h. Higher speeds count as missing."""
LEAST_FACTOR = 0.5
"""The least factor that corrects the counts of a station. The greatest is its inverse."""
MOST_SHIFT = 720
"""The most minutes that a clock is corrected."""
HEADERS = {
    "time": ("time", "timestamp", "datetime", "begin", "start", "interval"),
    "km": ("km", "kilometre", "kilometer", "position"),
    "miles": ("mile", "miles", "postmile", "abs_pm", "abspm", "pm", "mp"),
    "station": ("station", "id", "detector", "vds"),
    "count": ("count", "counts", "cars", "vehicles", "total"),
    "flow": ("flow", "volume", "rate"),
    "speed": ("speed", "v"),
    "lanes": ("lanes",),
    "type": ("type", "kind", "lane_type"),
    "direction": ("direction", "dir")}
SPEED_UNITS = {"kmh": 1.0, "km/h": 1.0, "kph": 1.0, "mph": MILE, "m/s": 3.6, "ms": 3.6}


class Station(NamedTuple):
    """The place of a station: its km in the table (not yet on the road), its lanes, and whether it is on an on-ramp."""

    name: str
    km: float
    lanes: int
    is_ramp: bool = False
    is_mile: bool = False
    """Whether its place was given in miles. The zero of such a table is far away."""


class Row(NamedTuple):
    """The count of a station in an interval: cars on all lanes, and their mean speed in km/h. `time` is the beginning of the interval.
    None is a missing value."""

    line: int
    station: str
    time: datetime.datetime | datetime.time
    cars: float | None
    speed: float | None


@dataclass
class Counts:
    """Rows of stations, and notes on their faults."""

    stations: dict[str, Station]
    rows: list[Row]
    path: str
    are_per_hour: bool = False
    """Whether `cars` of the rows are cars per hour."""
    notes: list[str] = field(default_factory=list)
    repeated: list[Row] = field(default_factory=list)
    """Rows with the station and time of an earlier row. They count only in the second hour of two, when the clock is put back."""


# Reading

def read_stations(path: Path, units: Mapping[str, str] | None = None) -> dict[str, Station]:
    """Read a station table. Fault: a column is missing, or a value is invalid."""
    lines, header = read_table(path)
    columns = find_columns(path, header, ("station", "lanes"), units or {})
    place = next((name for name in ("km", "miles") if name in columns), None)
    if place is None:
        raise Fault(f"{path}: no column is named km or miles: the columns are {', '.join(header)}")
    found: dict[str, Station] = {}
    for number, line in lines:
        name = read_cell(line, columns["station"])
        kilometres = read_number(path, number, header, line, columns[place]) * (MILE if place == "miles" else 1)
        lanes = read_lanes(path, number, header, line, columns["lanes"])
        if name in found:
            raise Fault(f"{path}, line {number}: station {name} appears twice: remove one line")
        found[name] = Station(name, kilometres, lanes, is_ramp(read_cell(line, columns["type"]) if "type" in columns else ""),
                              place == "miles")
    return found


def is_ramp(text: str) -> bool:
    """Return whether a lane type is an on-ramp."""
    return re.sub("[^A-Z]", "", text.upper()) in ON_RAMP


def is_used(text: str) -> bool:
    """Return whether a lane type is the main line or an on-ramp. Other types are ignored."""
    return is_ramp(text) or re.sub("[^A-Z]", "", text.upper()) in MAIN_LINE


def read_table(path: Path) -> tuple[list[tuple[int, list[str]]], list[str]]:
    """Return the lines of a table with their numbers, and its header. Columns are separated by commas, semicolons or tabs."""
    try:
        text = path.read_text(encoding="utf-8-sig")
    except OSError as fault:
        raise Fault(f"{path}: {fault.strerror}: check the path") from None
    except UnicodeDecodeError:
        raise Fault(f"{path} is not text in UTF-8") from None
    first = text.split("\n", 1)[0]
    cut = max(",;\t", key=first.count)
    lines = [(number, line) for number, line in enumerate(csv.reader(text.splitlines(), delimiter=cut), 1)
             if any(cell.strip() for cell in line) and not line[0].startswith("#")]
    if not lines:
        raise Fault(f"{path} is empty")
    return lines[1:], [cell.strip() for cell in lines[0][1]]


def find_columns(path: Path, header: list[str], needed: Iterable[str], named: Mapping[str, str]) -> dict[str, int]:
    """Return the index of each known column. `named` has titles that the user gives, such as {"speed": "v_mean"}."""
    found: dict[str, int] = {}
    for column, words in HEADERS.items():
        if column in named:
            if named[column] not in header:
                raise Fault(f"{path}: no column {named[column]!r}: the columns are {', '.join(header)}")
            found[column] = header.index(named[column])
            continue
        for place, title in enumerate(header):
            plain = re.sub(r"[\[(].*", "", title.lower()).strip()
            if place not in found.values() and (plain in words or plain.replace(" ", "_").split("_")[0] in words):
                found[column] = place
                break
    missing = [column for column in needed if column not in found]
    if missing:
        raise Fault(f"{path}: no column is named {missing[0]}: the columns are {', '.join(header)}; choose one with `--column {missing[0]}=NAME`")
    return found


def read_cell(line: list[str], place: int) -> str:
    """Return the text in a column of a line. It is empty if the line is too short."""
    return line[place].strip() if place < len(line) else ""


def read_number(path: Path, number: int, header: list[str], line: list[str], place: int) -> float:
    """Return the number in a column of a line. Fault: it is not a finite number."""
    text = read_cell(line, place)
    try:
        found = float(text)
    except ValueError:
        found = math.nan
    if not math.isfinite(found):
        raise make_number_fault(path, number, header[place], text)
    return found


def make_number_fault(path: Path, number: int, title: str, text: str) -> Fault:
    """Make the fault of a text in a line that is not a number."""
    advice = f": write {text.replace(',', '.')}, with a decimal point" if re.fullmatch(r"[-+]?\d*,\d+", text) else ""
    return Fault(f"{path}, line {number}: {title}: {text!r} is not a number{advice}")


def read_lanes(path: Path, number: int, header: list[str], line: list[str], place: int) -> int:
    """Return the number of lanes in a column of a line. Fault: it is not a number of 1 or more."""
    lanes = int(read_number(path, number, header, line, place))
    if lanes < 1:
        raise Fault(f"{path}, line {number}: lanes must be 1 or more, not {lanes}")
    return lanes


@dataclass
class Doubts:
    """The lines whose count or speed is missing, because such a value does not exist. Codes such as -1 and -999 are among them."""

    counts: list[int] = field(default_factory=list)
    no_speeds: list[int] = field(default_factory=list)
    high_speeds: list[int] = field(default_factory=list)

    def read_count(self, path: Path, number: int, header: list[str], line: list[str], place: int) -> float | None:
        """Return the count or flow of a line, or None if it is missing. Fault: it is not a number."""
        found = read_value(path, number, header, line, place)
        if found is None or 0 <= found < math.inf:
            return found
        self.counts.append(number)
        return None

    def read_speed(self, path: Path, number: int, header: list[str], line: list[str], place: int, unit: float) -> float | None:
        """Return the speed of a line in km/h, or None if it is missing. Fault: it is not a number."""
        found = read_value(path, number, header, line, place)
        if found is None:
            return None
        speed = found * unit
        if 0 <= speed <= MOST_SPEED:
            return speed
        (self.high_speeds if speed > MOST_SPEED else self.no_speeds).append(number)
        return None

    def tell(self, counts: Counts) -> None:
        """Add notes on these lines."""
        what = "flow" if counts.are_per_hour else "count"
        note_lines(counts, self.counts, f"row has a {what} that is below 0 or not finite: treated as missing",
                   f"rows have {what}s that are below 0 or not finite: treated as missing")
        note_lines(counts, self.no_speeds, "row has a speed that is below 0 or not finite: the speed is treated as missing",
                   "rows have speeds that are below 0 or not finite: the speeds are treated as missing")
        note_lines(counts, self.high_speeds, f"row has a speed above {MOST_SPEED:g} km/h: the speed is treated as missing",
                   f"rows have speeds above {MOST_SPEED:g} km/h: the speeds are treated as missing")


def read_value(path: Path, number: int, header: list[str], line: list[str], place: int) -> float | None:
    """Return the number in a column of a line, or None if the column is empty. It may be nan or infinite. Fault: it is not a number."""
    text = read_cell(line, place)
    if not text:
        return None
    try:
        return float(text)
    except ValueError:
        raise make_number_fault(path, number, header[place], text) from None


def read_counts(path: Path, stations: Mapping[str, Station] | None = None, columns: Mapping[str, str] | None = None,
                units: Mapping[str, str] | None = None, dates: Container[datetime.date] | None = None) -> Counts:
    """Read the counts of stations. With `dates`, rows of other dates are not read. Fault: the file is not such a table, or the place of a
    station is unknown."""
    lines, header = read_table(path)
    if is_five_minutes(header):
        if stations is None:
            raise Fault(f"{path} is station data without a header: give a table of its stations with km or miles, and lanes "
                        "(--stations TABLE.csv)")
        if columns or units:
            raise Fault(f"{path} is station data without a header, whose columns and units are known: leave out --column and --unit")
        return check_rows(read_five_minutes(path, [(1, header), *lines], stations, dates))
    return check_rows(read_with_header(path, header, lines, stations, columns or {}, units or {}, dates))


def is_five_minutes(first: list[str]) -> bool:
    """Return whether the first line of a file belongs to station data without a header."""
    return len(first) >= 12 and re.fullmatch(r"\d\d/\d\d/\d{4} \d\d:\d\d:\d\d", first[0]) is not None and first[1].isdigit()


def read_five_minutes(path: Path, lines: list[tuple[int, list[str]]], stations: Mapping[str, Station],
                      dates: Container[datetime.date] | None) -> Counts:
    """Read station data without a header."""
    counts, used, left_out, unseen = Counts({}, [], str(path)), dict[str, Station](), Counter[str](), list[int]()
    doubts, header = Doubts(), list(FIVE_MINUTES)
    for number, line in lines:
        if len(line) < len(FIVE_MINUTES):
            raise Fault(f"{path}, line {number}: station data without a header have {len(FIVE_MINUTES)} columns or more, not {len(line)}")
        values = dict(zip(FIVE_MINUTES, line))
        name, kind = values["station"], values["type"]
        if name not in stations or not is_used(kind):
            left_out[f"station {name}, type {kind}" + ("" if name in stations else ", which is not in the station table")] += 1
            continue
        try:
            time = datetime.datetime.strptime(values["time"], "%m/%d/%Y %H:%M:%S")
        except ValueError:
            raise Fault(f"{path}, line {number}: time: {values['time']!r} is not month/day/year and a clock time") from None
        if is_of_another_day(time, dates):
            continue
        used[name] = stations[name]._replace(is_ramp=is_ramp(kind))
        if not values["count"].strip():
            unseen.append(number)
            continue
        if not read_value(path, number, header, line, header.index("percent observed")):
            unseen.append(number)  # (estimated by the keeper of the data, not counted)
        counts.rows.append(Row(number, name, time, doubts.read_count(path, number, header, line, header.index("count")),
                               doubts.read_speed(path, number, header, line, header.index("speed mph"), MILE)))
    counts.stations = used
    counts.notes += [f"{path}: {count_things(times, 'row')} of {name}: ignored" for name, times in sorted(left_out.items())]
    note_lines(counts, unseen, "row has 0 % observed or no count: its count is an estimate or empty",
               "rows have 0 % observed or no count: their counts are estimates or empty")
    doubts.tell(counts)
    return counts


def read_with_header(path: Path, header: list[str], lines: list[tuple[int, list[str]]], stations: Mapping[str, Station] | None,
                     named: Mapping[str, str], units: Mapping[str, str], dates: Container[datetime.date] | None) -> Counts:
    """Read counts with a header."""
    columns = find_columns(path, header, ("time",), named)
    what = "count" if "count" in columns else "flow"
    place = next((name for name in ("station", "km", "miles") if name in columns), None)
    if what not in columns or place is None:
        raise Fault(f"{path}: no column is named {'count or flow' if what not in columns else 'km or station'}: the columns are "
                    f"{', '.join(header)}; choose one with `--column count=NAME`")
    if place == "station" and stations is None and "km" not in columns and "miles" not in columns:
        raise Fault(f"{path} does not contain the km of its stations: give a table with km or miles, and lanes (--stations TABLE.csv)")
    if "speed" in units and "speed" not in columns:
        raise Fault(f"{path}: no column is named speed, so --unit speed={units['speed']} has no effect: choose one with `--column speed=NAME`")
    speeds = find_speed_unit(path, header[columns["speed"]], units) if "speed" in columns else 1.0
    is_of_interval = re.search(r"min|interval", header[columns[what]].lower()) is not None  # ("flow veh/5min")
    counts = Counts({}, [], str(path), are_per_hour=what == "flow" and not is_of_interval)
    doubts, empty = Doubts(), list[int]()
    for number, line in lines:
        time = read_time(path, number, read_cell(line, columns["time"]))
        if is_of_another_day(time, dates):
            continue
        name = read_cell(line, columns[place])
        if name not in counts.stations:
            counts.stations[name] = find_station(path, number, header, line, columns, name, stations)
        if not read_cell(line, columns[what]):
            empty.append(number)
        counts.rows.append(Row(number, name, time, doubts.read_count(path, number, header, line, columns[what]),
                               doubts.read_speed(path, number, header, line, columns["speed"], speeds) if "speed" in columns else None))
    note_lines(counts, empty, f"row has no {what}: treated as missing", f"rows have no {what}: treated as missing")
    doubts.tell(counts)
    return counts


def is_of_another_day(time: datetime.datetime | datetime.time, dates: Container[datetime.date] | None) -> bool:
    """Return whether a time has a date that is not one of some dates."""
    return dates is not None and isinstance(time, datetime.datetime) and time.date() not in dates


def find_station(path: Path, number: int, header: list[str], line: list[str], columns: Mapping[str, int], name: str,
               stations: Mapping[str, Station] | None) -> Station:
    """Return the station of a line, from the station table or from the line itself."""
    if stations is not None:
        if name not in stations:
            raise Fault(f"{path}, line {number}: station {name} is not in the station table")
        return stations[name]
    place = "km" if "km" in columns else "miles"
    kilometres = read_number(path, number, header, line, columns[place]) * (1 if place == "km" else MILE)
    lanes = read_lanes(path, number, header, line, columns["lanes"]) if "lanes" in columns else 1
    return Station(name, kilometres, lanes, is_ramp(read_cell(line, columns["type"])) if "type" in columns else False, place == "miles")


def find_speed_unit(path: Path, title: str, units: Mapping[str, str]) -> float:
    """Return the factor that converts a column of speeds to km/h. Fault: the unit is unknown."""
    given = units.get("speed")
    if given is not None and given not in SPEED_UNITS:
        raise Fault(f"--unit speed={given}: unknown unit; the units are {', '.join(SPEED_UNITS)}")
    known = [unit for unit in sorted(SPEED_UNITS, key=len, reverse=True) if re.search(rf"(?<![a-z]){unit}(?![a-z])", title.lower())]
    if given is None and not known:
        raise Fault(f"{path}: the column {title!r} has no unit: name it `speed km/h` or `speed mph`, or give --unit speed=mph")
    return SPEED_UNITS[given or known[0]]


def read_time(path: Path, number: int, text: str) -> datetime.datetime | datetime.time:
    """Read a date and time, or a clock time. Fault: it is neither."""
    text = text.strip()
    for form in ("%H:%M", "%H:%M:%S", "%m/%d/%Y %H:%M:%S"):
        try:
            found = datetime.datetime.strptime(text, form)
            return found if "%Y" in form else found.time()
        except ValueError:
            continue
    try:
        return datetime.datetime.fromisoformat(text)
    except ValueError:
        pass
    raise Fault(f'{path}, line {number}: {text!r} is not a time: write "07:05", "2026-03-02 07:05" or "03/02/2026 07:05:00"')


def correct_counts(counts: Counts, leave_out: Sequence[str] = (), factors: Mapping[str, float] = MappingProxyType({}),
                   shifts: Mapping[str, float] = MappingProxyType({})) -> Counts:
    """Return counts without some stations, with the counts of some stations times a factor, and with the times of some stations moved by some
    minutes. Fault: a station is unknown, or a factor or a shift is out of range."""
    for name in (*leave_out, *factors, *shifts):
        if name not in counts.stations:
            raise Fault(f"{counts.path} has no station {name}: the stations are {', '.join(counts.stations)}")
    for name, factor in factors.items():
        if not LEAST_FACTOR <= factor <= 1 / LEAST_FACTOR:
            raise Fault(f"--scale {name}={factor:g}: the factor must be {LEAST_FACTOR:g} to {1 / LEAST_FACTOR:g}")
    for name, minutes in shifts.items():
        if not abs(minutes) <= MOST_SHIFT:
            raise Fault(f"--shift {name}={minutes:g}: the minutes must be {-MOST_SHIFT} to {MOST_SHIFT}")
    rows, repeated = ([row._replace(cars=None if row.cars is None else row.cars * factors.get(row.station, 1.0),
                                    time=move_time(row.time, shifts.get(row.station, 0.0))) for row in each if row.station not in leave_out]
                      for each in (counts.rows, counts.repeated))
    notes = [*counts.notes, *(f"station {name} is left out" for name in leave_out),
             *(f"the counts of station {name} are multiplied by {factor:g}" for name, factor in factors.items() if name not in leave_out),
             *(f"the times of station {name} are moved by {minutes:g} minutes" for name, minutes in shifts.items() if name not in leave_out)]
    return replace(counts, stations={name: one for name, one in counts.stations.items() if name not in leave_out}, rows=rows, repeated=repeated,
                   notes=notes)


def move_time(time: datetime.datetime | datetime.time, minutes: float) -> datetime.datetime | datetime.time:
    """Return a time some minutes later. A clock time may become one of the next day or of the day before."""
    moved = datetime.timedelta(minutes=minutes)
    return time + moved if isinstance(time, datetime.datetime) else (datetime.datetime.combine(datetime.date(2000, 1, 2), time) + moved).time()


# Checks

def check_rows(counts: Counts) -> Counts:
    """Add notes on rows out of order and stations out of order. Keep the first of duplicate rows."""
    seen: dict[tuple[str, object], Row] = {}
    late, last = [], dict[str, Row]()
    for row in counts.rows:
        key = row.station, row.time
        if key in seen:
            counts.repeated.append(row)
            continue
        seen[key] = row
        before = last.get(row.station)
        if before is not None and type(before.time) is type(row.time) and row.time < before.time:  # type: ignore[operator]
            late.append(row.line)
        last[row.station] = row
    counts.rows = list(seen.values())
    note_lines(counts, late, "row is out of order in time: it is sorted", "rows are out of order in time: they are sorted")
    orders: dict[object, list[float]] = {}
    for row in counts.rows:
        if not (station := counts.stations[row.station]).is_ramp:
            orders.setdefault(row.time, []).append(station.km)
    if any(order not in (sorted(order), sorted(order, reverse=True)) for order in orders.values()):
        counts.notes.append(f"{counts.path}: its stations are out of order along the road: they are sorted by km")
    return counts


def note_lines(counts: Counts, lines: list[int], one: str, many: str) -> None:
    """Add a note that names some lines: `one` is said of a single row, `many` of several."""
    if lines:
        shown = ", ".join(map(str, lines[:MOST_LISTED])) + (", .." if len(lines) > MOST_LISTED else "")
        counts.notes.append(f"{counts.path}, line{'s' if len(lines) > 1 else ''} {shown}: {len(lines)} {many if len(lines) > 1 else one}")
