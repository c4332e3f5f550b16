"""Write the page of a report: one self-contained HTML file that prints on A4.

    html = format_page(Contents(title="..", facts=[..], works=[..], sides=sides, days=days, rows=rows, ..))
"""
from __future__ import annotations

import re
from dataclasses import dataclass, field
from html import escape
from pathlib import Path
from typing import Sequence

from ..base.intervals import CHANCE, FEW_DAYS, warn_few_days
from ..base.units import Units, count_things, format_distance, format_fixed, to_km
from ..figures.simulation import RoadRun
from ..figures.table import PER_LANE, Figure, FigureRow, list_means
from ..figures.trips import Window
from ..program.programs import program_path, read_record, sum_file
from ..roads.clock import Clock
from ..roads.demand import Rates
from .pictures import AFTER, INLETS, ROADS, Chart, Line, draw_field, draw_scale, make_speed_field
from .report_tables import PERIOD, Range, RangeRow, Side, make_flow_series, make_speed_series

CELLS_A_PIECE, STEPS_A_PIECE = 7, 30
NO_SPEED_BANDS = ('<p class="note">The charts of speeds have no intervals: on some days no car may pass in a period, and such a day has no '
                  'speed.</p>')
NO_BANDS = f'<p class="note">With fewer than {FEW_DAYS} days the charts have no intervals.</p>'
MISSING = ("more than one lane: there is no overtaking", "off-ramps, junctions and trucks: all cars behave "
           "as their zone says", "a road before its inlets: demand that finds no place is lost, unless the table says that it waits",
           "speeds between whole cells per second, which are 27 km/h apart (a cell is 7.5 m)")
ALL_LANES = f"All figures are {PER_LANE}: for the whole road multiply cars, flows and vehicle hours by the number of lanes."
STYLE = """
@page { size: A4; margin: 12mm }
body { font: 10.5pt/1.35 sans-serif; color: #111; max-width: 1000px; margin: 1.5em auto; padding: 0 1em }
h1 { font-size: 17pt; margin: 0 0 .2em } h2 { font-size: 12.5pt; margin: 1em 0 .3em; break-after: avoid }
p, ul { margin: .3em 0 } ul { padding-left: 1.3em }
table { border-collapse: collapse; width: 100%; font-size: 9pt; break-inside: avoid; margin-bottom: .8em } thead { display: table-header-group }
th, td { text-align: right; padding: .12em .5em; border-bottom: 1px solid #ccc } th:first-child, td:first-child { text-align: left }
td { white-space: nowrap } tr { break-inside: avoid }
svg { max-width: 100%; height: auto; display: block; break-inside: avoid }
.pairs { display: grid; grid-template-columns: 1fr 1fr; gap: 0 10px } .pairs > div { break-inside: avoid }
.note { color: #555; font-size: 9pt } .window { font-size: 12pt; margin: 0 0 .5em } .warning { font-weight: bold }
@media print { body { margin: 0; padding: 0; max-width: none } * { print-color-adjust: exact; -webkit-print-color-adjust: exact } }
"""


@dataclass(frozen=True)
class Contents:
    """The contents of a report. `days` has for each day the runs of all sides."""

    title: str
    facts: Sequence[str]
    """Length, drivers and demand of the road, a sentence each."""
    works: Sequence[str]
    notes: Sequence[str]
    """What was rounded to the model."""
    clock: Clock
    window: Window
    length: int
    """The length of the road in cells."""
    detectors: Sequence[int]
    sides: Sequence[Side]
    days: Sequence[Sequence[RoadRun]]
    rows: Sequence[FigureRow]
    seed: int | str
    closed: Sequence[Sequence[tuple[int, int, float, float]]] = field(default_factory=list)
    """For each side its closures, as (from step, to step, from km, to km)."""
    more: str = ""
    """HTML that follows the charts."""
    demand: str = ""
    """A chart of the demand over time as SVG."""
    others: Sequence[Sequence[FigureRow]] = ()
    """The rows of further roads. `rows` compares the second road with the first, and each of these a further road with the first."""
    remarks: Sequence[str] = ()
    """Sentences that the table of figures needs."""
    ranges: Sequence[RangeRow] = ()
    """How far the figures move with drivers that fit measured counts as well, if the road was calibrated."""
    sure: Sequence[str] = ()
    """Sentences that say how sure the drivers are."""
    has_approach: bool = False
    """Whether the space-time diagrams show the approach, too."""

    @property
    def units(self) -> Units:
        """Return the units of places, with the cell at km 0."""
        return self.sides[0].units


def make_table_html(sides: Sequence[Side], tables: Sequence[Sequence[FigureRow]], days: int, begin: Clock, remarks: Sequence[str] = (),
                    has_ranges: bool = False) -> str:
    """Return the tables of figures as HTML, with remarks below them: one table for two roads, or one of several roads and one of their
    differences. begin: the clock at the beginning of the window. has_ranges: the table of calibration follows."""
    has_own_table = len(sides) > 2
    heads = [[side.name, "±"] for side in sides]
    differences = [[side.name if has_own_table else "difference", "±", ""] for side in sides[1:]]
    lines, others = [], []
    for place, row in enumerate(tables[0]):
        means = list_means(tables, place, len(sides))
        if row.figure.key in ("lost", "lost at"):
            # By chance more cars may enter than the demand: none is lost then.
            means = [mean._replace(mean=max(mean.mean, 0.0)) if mean.mean is not None else mean for mean in means]
        cells = [cell for mean in means for cell in (format_mean(mean.mean, row.figure, begin), format_fixed(mean.half, row.figure.digits, ","))]
        more = [cell for rows in tables[:len(sides) - 1] for one in [rows[place]] for cell in (
            *(format_fixed(value, row.figure.digits, ",") for value in one.difference), mark_row(one, has_own_table))]
        if has_own_table:
            others.append([title_figure(row.figure), *more])
        if not has_own_table or any(mean.mean is not None for mean in means):
            lines.append([title_figure(row.figure, "" if has_own_table else row.bound), *cells, *([] if has_own_table else more)])
    said = ("± is half the 95 % interval of the mean (Student's t), in the unit of its row; for the difference it is paired by day. "
            "All days have the same demand and kind of drivers, so ± does not include how demand differs from day to day, nor how well the drivers "
            f"are known{': the table of calibration shows that' * has_ranges}. "
            f"“{CHANCE}”: the interval of the difference contains 0; a figure that does not differ on any day has no remark. A speed is the mean of the days' time-mean speeds." if days > 1
            else "One day has no interval.")
    words = [escape_text(one) for one in [ALL_LANES, *sorted({one for rows in tables for row in rows for one in row.words}), *remarks]]
    head = [f"{describe_mean(days)}, {PER_LANE}", *(cell for one in heads for cell in one), *([] if has_own_table else [cell for one in differences for cell in one])]
    second = make_grid_html([f"difference from {sides[0].name}, {PER_LANE}", *(cell for one in differences for cell in one)], others) if has_own_table else ""
    return f'{make_grid_html(head, lines)}{second}<p class="note">{" ".join([said, *words])}</p>'


def describe_mean(days: int) -> str:
    """Return what the figures of some days are."""
    return f"mean of {days} days" if days > 1 else "one day"


def make_ranges_html(sides: Sequence[Side], ranges: Sequence[RangeRow], days: int, begin: Clock, sentences: Sequence[str]) -> str:
    """Return the table of how far figures move with drivers that fit as well, and sentences on these drivers, as HTML."""
    head = [f"calibration: from .. to, {PER_LANE}", *(side.name for side in sides),
            *(f"difference of {side.name}" if len(sides) > 2 else "difference" for side in sides[1:])]
    lines = [[title_figure(row.figure, row.bound), *(format_range(one, row.figure, begin) for one in row.roads),
              *(format_range(one, row.figure, None) for one in row.differences)] for row in ranges]
    said = [f"From the least to the greatest mean of {count_things(days, 'day')} with the drivers of the file and with two others that fit the counts as "
            "well within chance: those with the least and the most delay."] * bool(ranges) + [f"{one[0].upper()}{one[1:]}." for one in sentences]
    return (make_grid_html(head, lines) if ranges else "") + f'<p class="note">{" ".join(map(escape_text, said))}</p>' * bool(said)


def format_mean(value: float | None, figure: Figure, begin: Clock | None) -> str:
    """Return a value of a figure for a table: the end of a queue as a clock time, if the clock at the beginning of the window is given; an empty
    string if it is unknown."""
    if figure.key == "wait end" and begin is not None and value is not None:
        return begin.to_text(60 * round(value))
    return format_fixed(value, figure.digits, ",")


def format_range(found: Range, figure: Figure, begin: Clock | None) -> str:
    """Return a range of a figure for a table; an empty string if it is unknown."""
    return "" if found.low is None else f"{format_mean(found.low, figure, begin)} to {format_mean(found.high, figure, begin)}"


def title_figure(figure: Figure, bound: str = "") -> str:
    """Return the title of a figure in a table with clock times, with the remark that it is a bound."""
    title = f"{figure.label}, time; ± and difference in min" if figure.key == "wait end" else figure.title
    return f"{title} ({bound})" if bound else title


def mark_row(row: FigureRow, has_bound: bool) -> str:
    """Return the remarks on a difference: that it may be chance, and with `has_bound`, that it is a bound."""
    return ", ".join(filter(None, [row.bound if has_bound else "", CHANCE * bool(row.may_be_chance)]))


def make_grid_html(head: Sequence[str], lines: Sequence[Sequence[str]]) -> str:
    """Return a table as HTML."""
    return ("<table><thead><tr>" + "".join(f"<th>{escape(cell)}</th>" for cell in head) + "</tr></thead><tbody>"
            + "".join("<tr>" + "".join(f"<td>{escape(cell)}</td>" for cell in line) + "</tr>" for line in lines) + "</tbody></table>")


def make_fields_html(contents: Contents) -> str:
    """Return the space-time diagrams of the first day, with one scale."""
    first, last = contents.window
    origin = contents.units.origin
    begin = 0 if contents.has_approach else origin
    ramps = [to_km(int(cell) - origin) for cell, _ in contents.sides[0].script.plan["inlets"] if cell]
    drawn = []
    for place, (side, day) in enumerate(zip(contents.sides, contents.days[0])):
        closed = contents.closed[place] if place < len(contents.closed) else []
        speeds = make_speed_field([row[begin:] for row in day.rows], STEPS_A_PIECE, CELLS_A_PIECE)
        drawn.append(draw_field(speeds, f"Space-mean speed: {side.name} (seed {contents.seed})", contents.clock, first, last,
                                to_km(contents.length - origin), width=900, height=210, closed=closed, ramps=ramps,
                                detectors=[to_km(cell - origin) for cell in contents.detectors], begin=to_km(begin - origin)))
    return "".join([*drawn, draw_scale(900, has_ramps=bool(ramps), has_detectors=bool(contents.detectors))])


def make_charts_html(contents: Contents) -> str:
    """Return flow and speed by time at each detector."""
    (first, last), parts = contents.window, []
    colours = ROADS if len(contents.sides) > 1 else [AFTER]
    for detector, cell in enumerate(contents.detectors):
        flow = Chart(f"Flow, {contents.units.place(cell)}", "cars/h", contents.clock, first, last)
        speed = Chart(f"Time-mean speed, {contents.units.place(cell)}", "km/h", contents.clock, first, last, top=135.0)
        for place, (side, colour) in enumerate(zip(contents.sides, colours)):
            of_side = [both[place] for both in contents.days]
            series = make_flow_series(of_side, detector, contents.window)
            has_band = len(contents.days) >= FEW_DAYS and all(half is not None for *_, half in series)
            flow.add(Line(side.name, [(date, mean) for date, mean, _ in series], colour,
                          [(mean or 0) - (half or 0) for _, mean, half in series] if has_band else None,
                          [(mean or 0) + (half or 0) for _, mean, half in series] if has_band else None))
            speed.add(Line(side.name, make_speed_series(of_side, detector, contents.window), colour))
        parts += [f"<div>{chart.draw(470, 175)}</div>" for chart in (flow, speed)]
    return f'<div class="pairs">{"".join(parts)}</div>'


def describe_program() -> str:
    """Return the name of the program, whether it is proved, and the beginning of its SHA-256."""
    path = Path(program_path())
    made = read_record(path)
    proved = "proved" if made is not None and made.proved else "unproved"
    return f"{path.name}, {proved}, SHA-256 {sum_file(path)[:16]}"


def draw_demands(sides: Sequence[tuple[str, Sequence[tuple[str, Rates]]]], clock: Clock, window: Window) -> str:
    """Return the demand of each inlet of some roads in a window as a chart; an empty string if none changes there.

    `sides` has the name of each road, with the name and the demand of each of its inlets."""
    chart, changes = Chart(f"Demand {PER_LANE}", "cars/h", clock, window.first, window.last), False
    for place, (side, inlets) in enumerate(sides):
        for inlet, (name, rates) in enumerate(inlets):
            points: list[tuple[float, float | None]] = []
            for (step, cars), end in zip(rates, [*(step for step, _ in rates[1:]), window.last]):
                begin, until = max(step, window.first), min(end, window.last)
                points += [(begin, cars), (until, cars)] if begin < until else []
            changes = changes or len({cars for _, cars in points}) > 1
            colour = INLETS[(inlet + (place * len(inlets) if len(sides) > 2 else 0)) % len(INLETS)]
            chart.add(Line(f"{side}: {name}" if side else name, points, colour, is_dashed=place < len(sides) - 1))
    return chart.draw(900, 160) if changes else ""


def format_page(contents: Contents) -> str:
    """Return the report as HTML."""
    days, clock, (first, last) = len(contents.days), contents.clock, contents.window
    seeds = f"{contents.seed}" if days == 1 or isinstance(contents.seed, str) else f"{contents.seed} to {contents.seed + days - 1}"
    times = f"{clock.to_text(first)} to {clock.to_text(last)}"
    few = "".join(f'<p class="warning">{escape(one)}.</p>' for one in warn_few_days(days))
    parts = [
        f"<h1>{escape(contents.title)}</h1>", f'<p class="window">{escape(describe_window(contents))}</p>', few, make_list_html(contents.facts),
        contents.demand,
        "<h2>Works</h2>" + make_list_html(contents.works or ["none"]),
        f'<p class="note">Rounded to the model: {escape_text("; ".join(contents.notes))}.</p>' if contents.notes else "",
        f"<h2>Space-time diagrams</h2>{make_fields_html(contents)}",
        f"<h2>Flow {PER_LANE} and speed, each {PERIOD // 60} minutes, {describe_mean(days)}</h2>"
        + (NO_BANDS if 1 < days < FEW_DAYS else NO_SPEED_BANDS if days >= FEW_DAYS else "") + make_charts_html(contents)
        if contents.detectors else "",
        f"<h2>Figures, {times}</h2>{make_table_html(contents.sides, [contents.rows, *contents.others], days, clock.shift(first), contents.remarks, bool(contents.ranges))}"
        + make_ranges_html(contents.sides, contents.ranges, days, clock.shift(first), contents.sure),
        contents.more, "<h2>What the model does not have</h2>" + make_list_html(MISSING),
        f'<p class="note">Seeds {seeds}; program {escape(describe_program())}. Delay is the time that the cars of both roads spend on the road, '
        "and before it if the table says that they wait, in this window, after minus before; lost demand is demand minus admitted cars, and varies by chance by "
        "about twice the square root of the demand.</p>"]
    return (f'<!DOCTYPE html>\n<html lang="en"><head><meta charset="utf-8"><title>{escape(contents.title)}</title><style>{STYLE}</style></head>'
            f'<body>{"".join(parts)}</body></html>\n')


def describe_capacities(capacities: Sequence[float]) -> list[str]:
    """Return a sentence that says that no figure shows how sure the capacities of works are, in cars per hour."""
    cars = " and ".join(f"{one:,.0f}" for one in sorted(set(capacities)))
    plural = len(set(capacities)) > 1
    return [f"No interval and no range shows how sure the {'capacities' if plural else 'capacity'} of {cars} cars/h {'are' if plural else 'is'}: try "
            "others."] * bool(cars)


def describe_approach(units: Units) -> list[str]:
    """Describe the approach, if the road has one."""
    return [f"approach of {format_distance(to_km(units.origin))} km before km 0, where cars enter"] if units.origin else []


def describe_window(contents: Contents) -> str:
    """Return the date, the window and the number of days, and when the run began with an empty road."""
    clock, (first, last), days = contents.clock, contents.window, len(contents.days)
    date = f"{clock.to_datetime(first).date()}, " if clock.date else ""
    begin = (f"The road is empty at {clock.to_text(0)}: the figures include the time in which it fills" if first == 0 else
             f"The run begins at {clock.to_text(0)} with an empty road, before these figures")
    return f"{date}{clock.to_text(first)} to {clock.to_text(last)}, {count_things(days, 'simulated day')}. {begin}."


def make_list_html(sentences: Sequence[str]) -> str:
    """Return sentences as a list."""
    return "<ul>" + "".join(f"<li>{escape_text(one)}</li>" for one in sentences) + "</ul>"


def escape_text(sentence: str) -> str:
    """Return a sentence as HTML. Names between backticks are shown as code."""
    return re.sub("`([^`]+)`", r"<code>\1</code>", escape(sentence))
