"""Convert demands in cars per hour to inflow chances, and compute lost demand.

    drivers = Drivers(limit=5, slowing=6_554)
    admission = measure_admission(drivers)                # a single inlet
    admission.chance(1_200), admission.capacity           # 1/65,536; cars per hour

    ramp = measure_admission(drivers, cell=100, before=[Inlet(0, admission.chance(1_200))])
    ramp.chance(250)                                      # with the passing flow

Definitions
- *Demand* is what the user requests: cars per hour at an inlet, over time. Nobody waits before an inlet.
- *Admitted* cars are those that enter.
- *Lost demand* is the demand of a window in cars, minus the cars admitted in it. It depends on nothing else. Arrivals are random, so even
  a free road has a small lost demand of either sign: `scatter` says how large it may be by chance.
- *Capacity* of an inlet is the flow that it admits at chance 1, with the passing flow, on a road that is free downstream.

How the conversion works. The program itself simulates the inlets on a road that is free downstream, for several chances and seeds.
Let q be the chance and f the admitted cars per step. q / f is 1 if nothing hinders a car, and a smooth function of q. It is interpolated
by a monotone cubic. More chances are simulated if the interpolation is not accurate. Without slowing, q / f = 1 + q q exactly.

How accurate it is. The chance for a demand admits that demand to 0.5 %, or to two standard errors of a run of 100,000 seconds if
these are more. With `QUICK` that is 1 %, or two standard errors. Tests check both with runs of other seeds.

What QUICK leaves out. It counts the steps in which the cell of the inlet is free: f is q times their share. Their number varies less than
that of the cars that enter, so fewer steps suffice. It also leaves out the road between two inlets where it changes nothing. A car that is
never slowed keeps the rhythm in which it entered: with limit 5 it occupies every fifth cell only. After four slowings that is forgotten.
"""
from __future__ import annotations

import contextvars
import dataclasses
import functools
import math
import os
from bisect import bisect_right
from concurrent.futures import ThreadPoolExecutor
from dataclasses import dataclass
from typing import Callable, Iterable, NamedTuple, Sequence

from ..base.units import ALWAYS, HOUR, KMH
from ..program.lab import RoadLab
from ..program.plan import Plan

WARM_UP = 1_000
"""The steps before cars are counted."""
DOWNSTREAM = 50
"""The cells after an inlet where its cars are counted, or fewer if there is another inlet before that."""
SHORT_ROAD, LONG_ROAD = 100, 250
"""The cells of free road after the last inlet. A slow road has less capacity than its inlet, and needs the long road."""
NEAR, SLOWINGS = 100, 4
"""A quick measurement simulates at least NEAR cells before an inlet, and as many as those in which a car is slowed SLOWINGS times."""
FIRST_SEED = 1_000
FIRST_CHANCES = (0.125, 0.25, 0.4, 0.55, 0.7, 0.85, 1.0)
FINE_CHANCES = (0.06, 0.19, 0.32, 0.475, 0.625)
SMALL_CHANCES = (0.0, 0.06)
"""Chances that are simulated only if there is a passing flow."""
SMALL = 0.1
TOLERANCE = 0.003
"""The share by which an interpolated flow may differ from a simulated one."""
NARROWEST = 0.03
MOST_ROUNDS = 4
MOST_REFINED = 12
"""The number of demands at which the curve of an inlet is refined. Between them it is interpolated."""
MOST_ZONES = 64


class Inlet(NamedTuple):
    """An inlet as a plan has it: its cell and its inflow chance in 1/65,536."""

    cell: int
    chance: int


class Drivers(NamedTuple):
    """The limit of a zone in cells per step, its slowing chance, and that of standing cars (slow-to-start), in 1/65,536.

    start: None means that standing cars have the slowing chance of all cars.
    entry: the number of cells at the beginning of the road where nobody is slowed. An inlet there admits up to 1,800 cars per hour,
    whatever the drivers are after it."""

    limit: int
    slowing: int
    start: int | None = None
    entry: int = 0

    def __str__(self) -> str:
        slow_start = "" if self.start is None else f", slow-to-start {self.start / ALWAYS:.3g}"
        return f"limit {self.limit * KMH:g} km/h, slowing {self.slowing / ALWAYS:.3g}{slow_start}"


class BeyondCapacity(ValueError):
    """A demand exceeds the capacity of its inlet. `demand` and `capacity` are in cars per hour; `inlet` is the index."""

    def __init__(self, demand: float, capacity: float, drivers: Drivers) -> None:
        super().__init__(f"a demand of {demand:,.0f} cars per hour exceeds the inlet's capacity of {capacity:,.0f} "
                         f"({drivers}): ask for less, or change the limit or the slowing chances there")
        self.demand, self.capacity, self.drivers = demand, capacity, drivers
        self.inlet = 0


@dataclass(frozen=True)
class Effort:
    """The length of the simulation for one chance: steps of each seed, and number of seeds. More of both means less scatter."""

    steps: int = 100_000
    seeds: int = 4
    may_refine: bool = True
    is_fine: bool = False
    """Simulate twice as many chances from the start, always the same ones."""
    is_quick: bool = False
    """Count free steps for all chances, and leave out the road between two inlets where it changes nothing."""


QUICK = Effort(steps=60_000, seeds=1, may_refine=False, is_quick=True)
"""An effort for searches that convert hundreds of demands: accurate to 1 % instead of 0.5 %, in a twentieth of the time. (One long run
starts fewer programs than several short ones.)"""


# Simulated flows

def count_admitted(inlets: Sequence[Inlet], drivers: Drivers, bounds: Sequence[int],
                   seed: int) -> list[list[int]]:
    """Return the cars that each inlet admits, for each period between two of the steps `bounds`.

    The road has one limit and one kind of drivers, and is free downstream. The cars of an inlet are those that pass a cell after it,
    minus those that pass its own cell."""
    downstream = [inlet.cell + DOWNSTREAM for inlet in inlets]
    downstream = [min(cell, inlet.cell) for cell, inlet in zip(downstream, inlets[1:])] + downstream[-1:]
    sites = sorted({inlet.cell for inlet in inlets if inlet.cell} | set(downstream))
    pieces = []
    with open_road(inlets, drivers, sites, seed) as lab:
        lab.command("advance", "A", to=bounds[-1])
        for first, to in zip(bounds, bounds[1:]):
            passed = {0: 0, **{site: lab.count("A", index, first, to).cars for index, site in enumerate(sites)}}
            pieces.append([passed[site] - passed[inlet.cell] for site, inlet in zip(downstream, inlets)])
    return pieces


def open_road(inlets: Sequence[Inlet], drivers: Drivers, detectors: list[int], seed: int) -> RoadLab:
    """Start a road with one limit and one kind of drivers that is free after its last inlet."""
    is_slow = drivers.limit <= 2 or drivers.slowing > 0.4 * ALWAYS
    length = inlets[-1].cell + (LONG_ROAD if is_slow else SHORT_ROAD)
    zone = max(drivers.entry, -(-length // MOST_ZONES)) if drivers.entry else length
    zones = [(drivers.limit, 0 if drivers.entry and index == 0 else drivers.slowing) for index in range(-(-length // zone))]
    lab = RoadLab(Plan(length=length, zone=zone, inlets=list(inlets), zones=zones, detectors=detectors, words=seed))
    if drivers.start is not None and drivers.start != drivers.slowing:
        for index in range(1 if drivers.entry else 0, len(zones)):
            lab.edit("A", ("start", index), 0, drivers.start)
    return lab


@functools.lru_cache(maxsize=100_000)
def simulate_flow(inlets: tuple[Inlet, ...], drivers: Drivers, effort: Effort) -> float:
    """Return the cars per step that the last of some inlets admits, averaged over several seeds."""
    bounds = [WARM_UP, WARM_UP + effort.steps]

    def of_seed(seed: int) -> int:
        return count_admitted(inlets, drivers, bounds, seed)[0][-1]
    cars = run_in_threads(of_seed, range(FIRST_SEED, FIRST_SEED + effort.seeds))
    return sum(cars) / len(cars) / effort.steps


@functools.lru_cache(maxsize=100_000)
def simulate_hindrance(inlets: tuple[Inlet, ...], drivers: Drivers, effort: Effort) -> float:
    """Return the ratio of all steps to the steps in which the cell of the last inlet is free.

    The number of cars that enter varies more than the number of steps in which a car could enter, above all with a small chance."""
    steps, cell = effort.steps // 4, inlets[-1].cell

    def of_seed(seed: int) -> int:
        with open_road(inlets, drivers, [], seed) as lab:
            lab.command("advance", "A", to=WARM_UP + steps)
            return round(steps * (1 - lab.traffic("A", WARM_UP, WARM_UP + steps, cells=(cell, cell + 1)).density))
    free = sum(run_in_threads(of_seed, range(FIRST_SEED, FIRST_SEED + effort.seeds)))
    return steps * effort.seeds / free if free else math.inf


def simulate_admitted(chance: int, drivers: Drivers, cell: int = 0, before: Sequence[Inlet] = (), effort: Effort = Effort()) -> float:
    """Return the cars per hour that one chance in 1/65,536 admits, with the inlets before it. This is cheaper than a whole `Admission`."""
    if chance == 0 or drivers.limit == 0:
        return 0.0
    part = chance / ALWAYS
    if not before and drivers.slowing == 0 and not drivers.start:
        return HOUR * part / (1 + part * part)
    inlets = (*(Inlet(*inlet) for inlet in before), Inlet(cell if before else 0, chance))
    return HOUR * (part / simulate_hindrance(inlets, drivers, effort) if part < SMALL else simulate_flow(inlets, drivers, effort))


MOST_THREADS = 64
"""The most threads that simulate at a time. A process that is one of many sets it to 1."""


def thread_count() -> int:
    """Return the number of processors that this process may use, at most MOST_THREADS."""
    return min(len(os.sched_getaffinity(0)), MOST_THREADS)


def run_in_threads(function: Callable[[int], int], seeds: Sequence[int]) -> list[int]:
    """Return what a function returns for each seed. The threads use the same program as this one."""
    context = contextvars.copy_context()
    with ThreadPoolExecutor(thread_count()) as pool:
        return list(pool.map(lambda seed: context.copy().run(function, seed), seeds))


# Interpolation

class Monotone:
    """A monotone cubic through points (Fritsch and Carlson, SIAM J. Numer. Anal. 17 (1980) 238); linear below the first point."""

    def __init__(self, xs: Sequence[float], ys: Sequence[float]) -> None:
        self.xs, self.ys = list(xs), list(ys)
        steps = [b - a for a, b in zip(self.xs, self.xs[1:])]
        slopes = [(b - a) / step for a, b, step in zip(self.ys, self.ys[1:], steps)]
        inner = []
        for before, after, left, right in zip(slopes, slopes[1:], steps, steps[1:]):
            if before * after <= 0:
                inner.append(0.0)
            else:
                first, second = 2 * right + left, right + 2 * left
                inner.append((first + second) / (first / before + second / after))
        self.slopes = [slopes[0], *inner, slopes[-1]]

    def __call__(self, x: float) -> float:
        """Return the value at x."""
        index = min(max(bisect_right(self.xs, x) - 1, 0), len(self.xs) - 2)
        if x < self.xs[0]:
            return self.ys[0] + (x - self.xs[0]) * self.slopes[0]
        step = self.xs[index + 1] - self.xs[index]
        part = (x - self.xs[index]) / step
        low, high = self.ys[index], self.ys[index + 1]
        return (low * (1 + 2 * part) * (1 - part) ** 2 + high * part ** 2 * (3 - 2 * part)
                + step * part * (1 - part) * (self.slopes[index] * (1 - part) - self.slopes[index + 1] * part))


@dataclass(frozen=True)
class Admission:
    """The flow that an inlet admits at each chance. `hindrances` are q / f at the chances q (0 to 1), with f in cars per step."""

    drivers: Drivers
    chances: tuple[float, ...]
    hindrances: tuple[float, ...]

    @functools.cached_property
    def _curve(self) -> Monotone:
        return Monotone(self.chances, self.hindrances)

    def hindrance(self, chance: float) -> float:
        """Return q / f at a chance q from 0 to 1, by interpolation."""
        return self._curve(chance)

    def flow(self, chance: float) -> float:
        """Return the cars per hour at a chance from 0 to 1."""
        return HOUR * chance / max(self._curve(chance), 1.0) if chance > 0 else 0.0

    def admitted(self, chance: int) -> float:
        """Return the cars per hour that a chance in 1/65,536 admits in the long run."""
        return self.flow(chance / ALWAYS)

    @property
    def capacity(self) -> float:
        """Return the cars per hour at chance 1. ValueError: no demand up to the capacity was measured."""
        if self.chances[-1] < 1:
            raise ValueError(f"the capacity is unknown: only up to {self.flow(self.chances[-1]):,.0f} cars per hour were measured")
        return self.flow(1.0)

    def chance(self, demand: float) -> int:
        """Return the chance in 1/65,536 that admits a demand in cars per hour. BeyondCapacity: no chance admits it."""
        if demand < 0 or math.isnan(demand):
            raise ValueError(f"a demand must be 0 or more cars per hour, not {demand:g}")
        if demand == 0:
            return 0
        if demand > self.flow(self.chances[-1]):
            if self.chances[-1] < 1:
                return round(self.chances[-1] * ALWAYS)  # (only smaller demands were measured)
            raise BeyondCapacity(demand, self.capacity, self.drivers)
        low, high = 0, round(self.chances[-1] * ALWAYS)
        while high - low > 1:
            middle = (low + high) // 2
            low, high = (middle, high) if self.admitted(middle) < demand else (low, middle)
        return high if self.admitted(high) - demand < demand - self.admitted(low) else low


def measure_admission(drivers: Drivers, cell: int = 0, before: Sequence[Inlet] = (), effort: Effort = Effort(),
                      demands: Iterable[float] = ()) -> Admission:
    """Simulate what an inlet at a cell admits by each chance, with the inlets before it, each with its chance.

    With `demands` in cars per hour the result is accurate for these only, and takes half the time. It takes one to four seconds on four
    processors, and is cached in the process."""
    inlets = [*(Inlet(*inlet) for inlet in before), Inlet(cell, 0)]
    *others, last = bring_closer(inlets, drivers) if effort.is_quick else inlets
    return _measure(drivers, last.cell, tuple(others), effort, tuple(sorted(set(demands))))


def bring_closer(inlets: Sequence[Inlet], drivers: Drivers) -> list[Inlet]:
    """Return the inlets, each at most as far from the one before it, or from the entry, as a quick measurement simulates."""
    found, left_out, last = list[Inlet](), 0, 0
    most = max(NEAR, math.ceil(SLOWINGS * drivers.limit * ALWAYS / max(drivers.slowing, 1)))
    for inlet in inlets:
        left_out += max(inlet.cell - max(last, drivers.entry) - most, 0)
        found.append(Inlet(inlet.cell - left_out, inlet.chance))
        last = inlet.cell
    return found


@functools.lru_cache(maxsize=10_000)
def _measure(drivers: Drivers, cell: int, before: tuple[Inlet, ...], effort: Effort, demands: tuple[float, ...]) -> Admission:
    if drivers.limit == 0:
        return Admission(drivers, (0.0, 1.0), (math.inf, math.inf))
    if not before and (drivers.entry > cell or drivers.slowing == 0 and not drivers.start):
        chances = tuple(part / 64 for part in range(65))
        return Admission(drivers, chances, tuple(1 + chance * chance for chance in chances))  # (exact without slowing)
    found = {} if before else {0.0: 1.0}  # (nothing hinders a lone car)

    def admission() -> Admission:
        return Admission(drivers, tuple(sorted(found)), tuple(found[chance] for chance in sorted(found)))

    def simulate(chance: float) -> float:
        inlets = (*before, Inlet(cell, round(chance * ALWAYS)))
        if chance < SMALL or effort.is_quick:
            found[chance] = simulate_hindrance(inlets, drivers, effort)
        else:
            flow = simulate_flow(inlets, drivers, effort)
            found[chance] = chance / flow if flow > 0 else math.inf
        return found[chance]
    first = sorted({*FIRST_CHANCES, *(FINE_CHANCES if effort.is_fine else ()), *(SMALL_CHANCES if before else ())})
    for place, chance in enumerate(first):
        simulate(chance)
        if demands and place >= 3 and HOUR * chance / found[chance] > 1.25 * demands[-1]:
            break  # (greater chances are not needed)
    if demands:
        every = -(-len(demands) // MOST_REFINED)
        for demand in demands[::-every] if effort.may_refine else ():
            _refine_at(demand, admission, simulate, found)
        return admission()
    parts = list(zip(first, first[1:])) if effort.may_refine else []
    while parts:
        low, high = parts.pop()
        middle = (low + high) / 2
        guess = admission().hindrance(middle)
        if abs(guess / simulate(middle) - 1) > TOLERANCE and high - low > NARROWEST:
            parts += [(low, middle), (middle, high)]
    return admission()


def _refine_at(demand: float, admission: Callable[[], Admission], simulate: Callable[[float], float],
               found: dict[float, float]) -> None:
    """Simulate the chance that the curve gives for a demand, until the curve agrees with the simulation there."""
    for _ in range(MOST_ROUNDS):
        now = admission()
        if not 0 < demand <= now.flow(now.chances[-1]):
            return
        chance = now.chance(demand) / ALWAYS
        if chance in found or abs(now.hindrance(chance) / simulate(chance) - 1) < TOLERANCE:
            return


@dataclass(frozen=True)
class AdmissionByFlow:
    """The admission of an inlet as a function of the passing flow: measured at some flows in cars per hour, and interpolated."""

    nodes: tuple[tuple[float, Admission], ...]

    def at_flow(self, passing: float) -> Admission:
        """Return the admission at a passing flow, by a quadratic through the three nearest measured flows."""
        nearest = sorted(self.nodes, key=lambda node: abs(node[0] - passing))[:3]
        chances = tuple(sorted(set.intersection(*(set(admission.chances) for _, admission in nearest))))
        hindrances = []
        for chance in chances:
            values = [admission.hindrances[admission.chances.index(chance)] for _, admission in nearest]
            hindrances.append(interpolate_polynomial([flow for flow, _ in nearest], values, passing))
        return Admission(nearest[0][1].drivers, chances, tuple(hindrances))


def interpolate_polynomial(xs: Sequence[float], ys: Sequence[float], x: float) -> float:
    """Return the value at x of the polynomial through some points."""
    return sum(y * math.prod((x - other) / (one - other) for other in xs if other != one) for one, y in zip(xs, ys))


Rates = list[tuple[int, float]]
"""A demand over time: (step, cars per hour), in rising steps, each in force until the next."""
MOST_MEASURED, NODES = 2, 3
"""If there are more than MOST_MEASURED passing flows, they are interpolated between NODES flows."""


def find_rate(rates: Sequence[tuple[int, float]], step: int) -> float:
    """Return the demand in cars per hour at a step; 0 before the first one."""
    return next((rate for begin, rate in reversed(rates) if begin <= step), 0.0)


def convert_demands(cells: Sequence[int], demands: Sequence[Rates], drivers: Drivers, effort: Effort = Effort(),
                    progress: Callable[[int], None] = lambda inlet: None) -> list[list[tuple[int, int]]]:
    """Convert the demands of some inlets, in the order of the road, to inflow chances over time, as (step, 1/65,536).

    Each inlet is measured with the flow of the inlets before it. `progress` is called with the index of an inlet before it is measured.
    BeyondCapacity: a demand exceeds the capacity of its inlet."""
    found: list[list[tuple[int, int]]] = []
    for index, (cell, rates) in enumerate(zip(cells, demands)):
        progress(index)
        dates = sorted({step for one in demands[:index + 1] for step, _ in one})
        states = {step: tuple(find_rate(one, step) for one in demands[:index]) for step in dates}
        try:
            wanted: dict[tuple[float, ...], set[float]] = {}
            for step, state in states.items():
                wanted.setdefault(state, set()).add(find_rate(rates, step))
            of_state = _admissions(cells[:index], cell, wanted, drivers, effort)
            chances = [(step, of_state[states[step]].chance(find_rate(rates, step))) for step in dates]
        except BeyondCapacity as fault:
            fault.inlet = index
            raise
        found.append([one for place, one in enumerate(chances) if place == 0 or one[1] != chances[place - 1][1]])
    return found


def _admissions(cells: Sequence[int], cell: int, wanted: dict[tuple[float, ...], set[float]], drivers: Drivers,
                effort: Effort) -> dict[tuple[float, ...], Admission]:
    """Measure an inlet in each state of the demands before it, for the demands that it has then.

    If there are many states, it is measured in a few states for all demands, and interpolated."""
    if len(wanted) <= MOST_MEASURED:
        return {state: _measure_in(state, cells, cell, drivers, effort, demands) for state, demands in wanted.items()}
    by_flow = measure_by_flow(cells, cell, list(wanted), drivers, effort, set().union(*wanted.values()))
    return {state: by_flow.at_flow(sum(state)) for state in wanted}


def measure_by_flow(cells: Sequence[int], cell: int, states: Sequence[tuple[float, ...]], drivers: Drivers, effort: Effort = Effort(),
                    demands: Iterable[float] = ()) -> AdmissionByFlow:
    """Measure an inlet between the states with the lowest and the highest flow of the inlets before it.

    A state has the cars per hour of each of those inlets, which are at `cells`. Without `demands` all chances are measured."""
    least, most = min(states, key=sum), max(states, key=sum)
    fixed = dataclasses.replace(effort, may_refine=False, is_fine=effort.may_refine)
    nodes = [part / (NODES - 1) for part in range(NODES)] if sum(least) < sum(most) else [0.0]
    measured = [tuple(low + part * (high - low) for low, high in zip(least, most)) for part in nodes]
    return AdmissionByFlow(tuple((sum(state), _measure_in(state, cells, cell, drivers, fixed, demands)) for state in measured))


def _measure_in(state: tuple[float, ...], cells: Sequence[int], cell: int, drivers: Drivers, effort: Effort,
                demands: Iterable[float]) -> Admission:
    chances = convert_demands(cells, [[(0, rate)] for rate in state], drivers, effort)
    before = [Inlet(one, chance[0][1]) for one, chance in zip(cells, chances)]
    return measure_admission(drivers, cell, [inlet for inlet in before if inlet.chance], effort, demands)


# Lost demand

class Supply(NamedTuple):
    """The demand of an inlet in a window, in cars, and the cars that it admitted."""

    demand: float
    admitted: int

    @property
    def lost(self) -> float:
        """Return the lost demand in cars, which is demand minus admitted. It is negative if more cars entered than the demand."""
        return self.demand - self.admitted

    @property
    def scatter(self) -> float:
        """Return two standard deviations of the cars that a free road admits (at most), because arrivals are random."""
        return 2 * math.sqrt(max(self.demand, 0.0))


def count_demand(rates: Sequence[tuple[int, float]], first: int, last: int) -> float:
    """Return the demand in cars in the steps `first` to `last` - 1.

    `rates` are (step, cars per hour) in rising steps, each in force until the next. Before the first one the demand is 0."""
    ends = [step for step, _ in rates[1:]] + [last]
    return sum(rate * max(0, min(end, last) - max(step, first)) for (step, rate), end in zip(rates, ends)) / HOUR
