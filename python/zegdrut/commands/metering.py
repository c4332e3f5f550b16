"""Meter an on-ramp by ALINEA in a closed loop, and compare it with no control over some days.

    python3 -m zegdrut metering ROAD.json CONTROL.json [--days N] [--as-if-from TIME] [--out FOLDER]

ROAD.json is a freeway with a ramp, as `zegdrut freeway` reads it. CONTROL.json has

    {"ramp": 3.6, "detector": 3.9, "setpoint": 9, "gain": 70, "least": 240, "most": 1200, "begin": "06:30"}

ramp and detector are the km of the ramp and of a detector downstream of it. setpoint is in per cent of occupancy (the share of steps in
which a car is in the cell of the detector). gain is in cars per hour and per cent. least and most are the bounds of the rate in cars per
hour. begin is the time when metering starts. Only ramp, detector and setpoint are required.

Cars wait before the ramp in a vertical queue (arrivals minus admitted cars), whether the ramp is metered or not. The waiting time is
the sum of the queue over all seconds, in vehicle hours, listed next to the hours on the road. Cars that cannot enter at km 0 or at another
ramp wait, too. With --as-if-from TIME the first day is simulated without control, and then again as if metering had started at TIME, by
edits in the past. Both runs are compared.
The command prints a table of means and 95 % intervals (Student's t, paired by day), and writes it to metering-NAME-0630-0930.csv, with
the window in the name. It writes the first day to minutes-NAME-0630-0930.csv. With --as-if-from it writes as-if-NAME-0630-0930.csv and
as-if-minutes-NAME-0630-0930.csv.
"""
from __future__ import annotations

import argparse
import dataclasses
import functools
import json
import math
import sys
from concurrent.futures import Executor
from dataclasses import dataclass
from pathlib import Path
from typing import Callable, NamedTuple, Sequence

from ..base.argument_checks import is_number
from ..base.errors import Fault, LabError, describe_error
from ..base.intervals import CHANCE, warn_few_days
from ..base.progress_bars import Bar
from ..base.units import format_fixed, to_steps
from ..figures.queues import (WAITING_KEYS, Ends, Waits, average_lost, explain_end, explain_lost, explain_outflow, find_inlets,
                              is_shown, list_last_cars, with_bounds, with_lost)
from ..figures.simulation import RoadRun, read_run, simulate_days
from ..figures.table import PER_LANE, Figure, FigureRow, choose, compare as compare_figures, list_figures, measure_day
from ..figures.trips import Window, entry_inlet, entry_step
from ..figures.waiting import Queues, ask_edits, can_wait, explain_wide_zone, find_arrivals, make_waiting_roads
from ..program.lab import RoadLab
from ..reports.outputs import format_window, make_title, prepare_folder, write_csv
from ..roads.clock import InvalidTime
from ..roads.control import PERIOD, RampMeter, run_control
from ..roads.demand import Admission, AdmissionByFlow, BeyondCapacity, count_demand, measure_by_flow, find_rate
from ..roads.freeway_files import FIGURES, check_names
from ..roads.road_in_cells import Figures, Road, list_free_cells, measure_chances, widen_inlet, with_lead
from ..roads.road_scripts import Chances, make_plan, make_script
from .freeway import report_progress
from .measured import check_days
from .sweep import add_dask_options, open_executor

DAYS = 20


@dataclass(frozen=True)
class Control:
    """The parameters of ALINEA."""

    ramp: float
    """The km of the ramp."""
    detector: float
    """The km of the detector downstream of it."""
    setpoint: float
    """The occupancy to keep, in per cent."""
    gain: float = 70.0
    """Cars per hour and per cent."""
    least: float = 240.0
    """The lowest rate in cars per hour."""
    most: float = 1_200.0
    """The highest rate in cars per hour."""
    begin: int = 0
    """The step at which metering starts."""


@dataclass(frozen=True)
class Site:
    """A road with a metered ramp, and the parameters of the control."""

    name: str
    figures: Figures
    road: Road
    chances: Chances
    inlet: int
    cell: int
    control: Control
    admissions: AdmissionByFlow

    def admission(self, step: int) -> Admission:
        """Return the admission of the ramp at the main demand of a step."""
        return self.admissions.at_flow(sum(find_rate(demand, step) for demand in self.road.demands[:self.inlet]))

    def list_figures(self) -> list[Figure]:
        """Return the figures of a day: of the road, of the queue at the ramp, and the lost demand of the main road."""
        figures = list_figures(make_plan(self.road, self.chances, self.figures.seed), self.road.units)
        waits = [figure for figure in figures if figure.key in WAITING_KEYS and figure.of.inlet not in (None, self.inlet)]
        first, *others = choose(figures, "hours", "approach hours", "waiting", "together", "queue", "left", inlet=self.inlet)
        return [first, *waits, *others, *choose(figures, "lost at", inlet=0)]

    def meter(self, start: float) -> RampMeter:
        """Return a ramp meter that starts at a step (infinity: never)."""
        gates = (len(self.road.detectors) - 1, len(self.road.detectors) - 2, self.road.inlets[self.inlet][0])
        control = self.control
        return RampMeter(self.inlet, gates, self.cell, self.road.inlets[self.inlet][1], self.admission, control.setpoint, control.gain,
                         control.least, control.most, start)


MOST_RATE = 1_800.0
"""The largest flow that an inlet admits, in cars per hour: one car in two seconds."""
TINY = 1e-9
ACCEPTED = {"ramp": ("a number of km", 0.0, math.inf), "detector": ("a number of km", 0.0, math.inf),
            "setpoint": ("an occupancy from 0 to 100 per cent", 0.0, 100.0),
            "gain": ("a number above 0, in cars per hour and per cent of occupancy", TINY, math.inf),
            **{name: (f"a number above 0 and up to {MOST_RATE:,.0f} cars per hour, which is the most that an inlet admits", TINY, MOST_RATE)
               for name in ("least", "most")}}
"""What is accepted for each field of a control, with the lowest and the highest value."""


def read_control(path: Path, figures: Figures) -> Control:
    """Read the parameters of the control. Fault: a field is missing or invalid."""
    try:
        given = json.loads(path.read_text(encoding="utf-8"))
    except ValueError as fault:
        raise Fault(f"{path} is not JSON: {fault}") from None
    check_names(given, [field.name for field in dataclasses.fields(Control)], str(path))
    missing = [name for name in ("ramp", "detector", "setpoint") if name not in given]
    if missing:
        raise Fault(f"{path} has no {missing[0]}: add it")
    for name, value in given.items():
        if name != "begin":
            accepted, least, most = ACCEPTED[name]
            if not is_number(value) or not least <= value <= most:
                raise Fault(f"{path}: {name}: {json.dumps(value)} is not {accepted}")
    try:
        control = Control(**{**given, "begin": figures.clock.to_step(given.get("begin", 0), "begin")})
    except InvalidTime as fault:
        raise Fault(f"{path}: {fault}") from None
    if control.least > control.most:
        raise Fault(f"{path}: least: {control.least:g} is above most, which is {control.most:g} cars per hour")
    if not 0 <= control.begin < to_steps(figures.minutes):
        raise Fault(f"{path}: begin: {json.dumps(given.get('begin', 0))} is not in the run, which lasts from {figures.clock.to_text(0)} to "
                    f"{figures.clock.to_text(to_steps(figures.minutes))}")
    return control


def make_site(name: str, figures: Figures, control: Control) -> Site:
    """Make the road with detectors at and after the ramp, and measure the admission of the ramp at several main demands."""
    wide = with_lead(widen_inlet(figures))
    (road,) = make_waiting_roads([wide])
    wanted, cell = road.to_cell(control.ramp), road.to_cell(control.detector)
    inlet = next((index for index, (place, _) in enumerate(road.inlets) if index and place == wanted), None)
    if inlet is None:
        ramps = ", ".join(f"{km:g}" for km, _ in figures.ramps)
        raise Fault(f"ramp: the road has no ramp at km {control.ramp:g}: " + (f"its ramps are at km {ramps}" if ramps else "it has no ramps"))
    if not wanted < cell < road.length - 1:
        raise Fault(f"detector: km {control.detector:g} must be downstream of the ramp at km {control.ramp:g}, and on the road")
    road.detectors += [wanted, wanted + 1]
    report_progress("measuring the inflow chances for the demand")
    chances = measure_chances(road)
    *before, place = list_free_cells(road)[:inlet + 1]
    demands = road.demands[:inlet]
    states = [tuple(find_rate(demand, step) for demand in demands) for step in sorted({step for demand in demands for step, _ in demand})]
    # All chances are measured, so that a day without control does not depend on the control.
    admissions = measure_by_flow(before, place, states, road.drivers)
    return Site(name, figures, road, chances, inlet, cell, control, admissions)


# Days

class Metered(NamedTuple):
    """A run, and the rates of its ramp meter."""

    run: RoadRun
    rates: list[tuple[int, float, float, float]]


def run_metered(site: Site, lab: RoadLab, start: float) -> Metered:
    """Run a day with metering from step `start` on (infinity: never)."""
    return run_with_queues(site, lab, start)[0]


def run_with_queues(site: Site, lab: RoadLab, start: float) -> tuple[Metered, Queues]:
    """Run a day with metering from step `start` on. Return it with the queues before the inlets that are not metered."""
    meter, steps = site.meter(start), site.road.steps
    arrivals = find_other_arrivals(site, lab.plan["words"])
    waits = can_wait(make_script(site.road, site.chances, site.figures.seed))
    queues = Queues(lab, "A", arrivals if waits else {})
    run_control(lab, "A", [meter], 0, steps, advance=queues.advance)
    run = read_run(lab, "A", Window(site.road.lead, steps), [demand for _, demand in site.road.inlets], detectors=[], origin=site.road.approach)
    waiting = {inlet: queue.waiting for inlet, queue in queues.of_inlet.items()}
    return Metered(dataclasses.replace(run, waiting=waiting, arrivals={} if waits else arrivals), meter.rates), queues


def find_other_arrivals(site: Site, seed: int | str) -> dict[int, list[int]]:
    """Return the arrivals at the inlets that are not metered."""
    script, free = (make_script(site.road, site.chances, site.figures.seed, with_works).with_seed(seed) for with_works in (True, False))
    return {inlet: steps for inlet, steps in find_arrivals(script, free, site.road.steps).items() if inlet != site.inlet}


def open_day(site: Site, seed: int) -> RoadLab:
    """Start a day with its demand and works."""
    lab = RoadLab(make_plan(site.road, site.chances, seed))
    ask_edits(lab, make_script(site.road, site.chances, seed).commands)
    return lab


def run_day(site: Site, seed: int) -> list[Metered]:
    """Run a day without control and with it."""
    found = []
    for start in (math.inf, site.road.lead + site.control.begin):
        with open_day(site, seed) as lab:
            found.append(run_metered(site, lab, start))
    return found


def run_days(site: Site, seeds: Sequence[int], progress: Callable[[int, int], None] | None = None, executor: Executor | None = None,
             ship: bool = False) -> list[list[Metered]]:
    """Run days without control and with it, as `simulate_days` does."""
    return simulate_days(functools.partial(run_day, site), seeds, progress, executor=executor, ship=ship)


def run_again(site: Site, seed: int, start: int) -> list[Metered]:
    """Run a day without metering, and again with metering from `start` steps after minute 0 on, by edits in its past."""
    with open_day(site, seed) as lab:
        plain, queues = run_with_queues(site, lab, math.inf)
        queues.withdraw()
        return [plain, run_metered(site, lab, site.road.lead + start)]


# Tables

SIDES = ("without control", "with ALINEA")
Table = list[list[str]]
"""The rows of a table, the titles first."""


def compare_runs(site: Site, days: Sequence[Sequence[Metered]]) -> list[FigureRow]:
    """Return the figures over the days, without control and with it."""
    waits = list_waits(days)
    figures = [figure for figure in site.list_figures() if is_shown(figure, find_inlets(waits))]
    rows = compare_figures(figures, [measure_day(figures, *(one.run for one in day)) for day in days])
    return with_lost([with_bounds(rows, SIDES, waits, compare_ends(site, days))], SIDES, list_lost(site, days), find_cause(site))[0]


def list_waits(days: Sequence[Sequence[Metered]]) -> list[list[Waits]]:
    """Return the queues of each day before the inlets that are not metered."""
    return [[Waits.of(one.run) for one in day] for day in days]


def compare_ends(site: Site, days: Sequence[Sequence[Metered]]) -> Ends:
    """Return the mean number of cars that are on the road or wait before it at the end of a day, without control and with it. A car does not have
    the same number on both, so all are counted."""
    before, after = (math.fsum(count_last_cars(site, one.run) for one in side) / len(days) for side in zip(*days))
    return Ends(before, after, after - before)


def count_last_cars(site: Site, run: RoadRun) -> float:
    """Return the cars that are on a road or wait before it, also at the metered ramp, at the end of a run. By chance more cars may have entered at the ramp
    than its demand: nobody waits there then."""
    last = run.window.last
    admitted = sum(entry_inlet(number) == site.inlet and entry_step(number) < last for number in run.trips.left)
    return (len(list_last_cars(run)) + max(count_demand(run.demands[site.inlet], 0, last) - admitted, 0.0)
            + sum(sum(run.list_waiting(inlet)[-1:]) for inlet in run.waiting))


def find_cause(site: Site) -> str:
    """Return why cars of the road are lost; an empty string if they can wait."""
    return explain_wide_zone(make_script(site.road, site.chances, site.figures.seed))


def list_lost(site: Site, days: Sequence[Sequence[Metered]]) -> list[dict[str, float]]:
    """Return the mean number of cars that each inlet loses on a day, by its place, without control and with it."""
    return [average_lost([one.run for one in side], site.road.units) for side in zip(*days)]


def explain_queues(site: Site, days: Sequence[Sequence[Metered]]) -> list[str]:
    """Return the sentences that the figures of queues need."""
    waits = list_waits(days)
    return [one for one in (explain_end(SIDES, waits, compare_ends(site, days)), *explain_outflow(site.road.drivers, waits),
                            explain_lost(SIDES, list_lost(site, days), find_cause(site))) if one]


def make_table(rows: Sequence[FigureRow]) -> Table:
    """Return the table of means over the days with 95 % intervals: without control, with it, and the difference, paired by day."""
    return [["mean of a day", "no control", "±", "ALINEA", "±", "difference", "±", "remark"],
            *([row.figure.title, *(format_fixed(number, 2) for mean in (row.before, row.after, row.difference) for number in mean),
               ", ".join(filter(None, [row.bound, CHANCE * bool(row.may_be_chance)]))] for row in rows)]


def make_day_table(rows: Sequence[FigureRow], titles: Sequence[str]) -> Table:
    """Return the table of a day without control and with it."""
    return [[*titles], *([row.figure.title, *(format_fixed(one.mean, 2) for one in (row.before, row.after))] for row in rows)]


def make_minute_table(site: Site, runs: Sequence[Metered]) -> Table:
    """Return the table of occupancy, rate and queue by minute, without control and with it. The rate is empty if the ramp is not metered."""
    rows = [["time", "no control: occupancy %", "no control: queue cars", "ALINEA: occupancy %", "ALINEA: rate cars/h", "ALINEA: queue cars"]]
    clock, lead = site.figures.clock, site.road.lead
    for (step, plain, _, waiting), (_, occupancy, rate, queue) in zip(*(run.rates[lead // PERIOD:] for run in runs)):
        rows.append([clock.to_text(step - lead), f"{plain:.1f}", f"{waiting:.1f}", f"{occupancy:.1f}", "" if math.isinf(rate) else f"{rate:.0f}",
                     f"{queue:.1f}"])
    return rows


def compare(given: argparse.Namespace, out: Path) -> None:
    """Read the files, simulate, and write the tables."""
    check_days(given.days, 2)
    figures = FIGURES.override(given.road)
    control = read_control(given.control, figures)
    start = None if given.as_if_from is None else figures.clock.to_step(given.as_if_from, "--as-if-from")
    if start is not None and not 0 <= start < figures.minutes * 60:
        raise Fault(f"--as-if-from: {given.as_if_from} is not in the run, which lasts from {figures.clock.to_text(0)} to "
                    f"{figures.clock.to_text(round(figures.minutes * 60))}")
    folder = given.out or out / given.road.stem
    prepare_folder(folder)
    site = make_site(given.road.stem, figures, control)
    print("".join(f"{note}\n" for note in site.road.notes), end="", file=sys.stderr, flush=True)
    if start is not None:
        report_progress("simulating a day, and the same day again")
        both = run_again(site, figures.seed, start)
        titles = [f"seed {figures.seed}", "as it was", f"with metering from {figures.clock.to_text(start)} on"]
        write_tables(folder, site, f"seed {figures.seed}",
                     {"as-if": make_day_table(compare_runs(site, [both]), titles), "as-if-minutes": make_minute_table(site, both)}, explain_queues(site, [both]))
        print(f"The tables are in {folder}", file=sys.stderr)
        return
    print("".join(f"{one}\n" for one in warn_few_days(given.days)), end="", file=sys.stderr, flush=True)
    bar = Bar("days", in_log=True)
    report_progress(f"simulating {given.days} days without control and with it")
    with open_executor(given.dask) as executor:
        days = run_days(site, range(figures.seed, figures.seed + given.days), bar.show, executor, given.ship)
    bar.end()
    write_tables(folder, site, f"mean of {given.days} days", {"metering": make_table(compare_runs(site, days))}, explain_queues(site, days))
    write_tables(folder, site, f"seed {figures.seed}", {"minutes": make_minute_table(site, days[0])})
    print(f"The tables are in {folder}", file=sys.stderr)


def write_tables(folder: Path, site: Site, days: str, tables: dict[str, Table], said: Sequence[str] | None = None) -> None:
    """Write tables. Their first lines have the road, the window, the date and the days. Print the first one with the sentences `said`, if they
    are given."""
    clock, steps = site.figures.clock, site.road.steps - site.road.lead
    title = f"{make_title(site.name, clock, steps)}, {PER_LANE}, {days}"
    first, *_ = [write_csv(folder / f"{name}-{site.name}-{format_window(clock, steps)}.csv", title, rows) for name, rows in tables.items()]
    if said is not None:
        print("\n".join([*first, *said]))


def read_arguments(words: Sequence[str] | None) -> argparse.Namespace:
    """Read the command line."""
    parser = argparse.ArgumentParser("zegdrut metering", description=__doc__, formatter_class=argparse.RawDescriptionHelpFormatter)
    parser.add_argument("road", type=Path, metavar="ROAD.json")
    parser.add_argument("control", type=Path, metavar="CONTROL.json")
    parser.add_argument("--days", type=int, default=DAYS, metavar="N", help="number of days to compare (default: %(default)s)")
    parser.add_argument("--as-if-from", metavar="TIME", help='rerun one day as if metering had started at TIME, such as "07:10"')
    parser.add_argument("--out", type=Path, metavar="FOLDER", help="folder of the tables")
    add_dask_options(parser)
    return parser.parse_args(words)


def main(words: Sequence[str] | None = None, out: Path = Path("out")) -> int:
    """Compare metering with no control. Return the exit status."""
    given = read_arguments(words)
    try:
        compare(given, out)
    except (LabError, BeyondCapacity, InvalidTime, OSError) as fault:
        print(describe_error(fault), file=sys.stderr)
        return 1
    return 0
