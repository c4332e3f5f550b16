"""Control a road in a closed loop: each minute a controller measures the last minute, and sets limits, inflows or other objects.

    class SlowBeforeJam(Controller):
        def decide(self, view):                                    # called once a minute
            speed = view.speed(detector=1)                         # km/h, None without a car
            limit = 3 if speed is not None and speed < 70 else 5   # 81 or 135 km/h
            return [("limit", zone, limit) for zone in range(4, 8)]

    run_control(lab, "A", [SlowBeforeJam()], first=1_800, last=7_200)

The loop may also run in the past of a road. Its settings are then edits in the past, and the steps after them are simulated again.
Later edits of an object that a controller sets are withdrawn first.
"""
from __future__ import annotations

import math
from dataclasses import dataclass
from typing import Callable, Iterable, Sequence

from ..base.units import HOUR, KMH
from ..program.lab import RoadLab
from ..program.records import Kind, Object
from .demand import Admission, Rates, count_demand, find_rate

PERIOD = 60
"""Steps from one decision to the next."""

Setting = tuple[Kind, int, int]
"""A setting from the step of the decision on: kind, index and value, such as ("inflow", 1, 4_000)."""


@dataclass(frozen=True)
class View:
    """The measurements of a controller: the steps `first` to `last` - 1 of the replica `at`, which have just been simulated."""

    lab: RoadLab
    at: str
    first: int
    last: int

    def occupancy(self, cell: int) -> float:
        """Return the occupancy of a cell: the percentage of steps in which a car is in it."""
        if self.first == self.last:
            return 0.0
        rows = self.lab.diagram(self.at, self.first, self.last - 1)
        return 100 * sum(row[cell].isdigit() for row in rows) / len(rows)

    def cars(self, detector: int) -> int:
        """Return the number of cars that passed a detector."""
        return self.lab.count(self.at, detector, self.first, self.last).cars

    def flow(self, detector: int) -> float:
        """Return the flow at a detector in cars per hour."""
        return self.cars(detector) * HOUR / max(self.last - self.first, 1)

    def speed(self, detector: int) -> float | None:
        """Return the time-mean speed at a detector in km/h, or None if no car passed."""
        found = self.lab.count(self.at, detector, self.first, self.last)
        return found.speeds / found.cars * KMH if found.cars else None


class Controller:
    """Base class of controllers. Override `decide`."""

    def decide(self, view: View) -> Iterable[Setting]:
        """Return the settings from step `view.last` on. Called once a minute; the first view is empty."""
        raise NotImplementedError


def run_control(lab: RoadLab, at: str, controllers: Sequence[Controller], first: int, last: int, period: int = PERIOD,
                advance: Callable[[int], object] | None = None) -> None:
    """Let controllers decide in the steps `first` to `last`, and simulate the replica up to there. The steps may be in the past.

    advance: simulates the replica up to a step; by default the lab does."""
    advance = advance or (lambda step: lab.advance(at, step))
    owned: dict[Object, int] = {}
    scenario = lab.scenario(at)
    advance(first)
    for step in range(first, last, period):
        advance(step)
        view = View(lab, at, max(step - period, first), step)
        for controller in controllers:
            for kind, index, value in controller.decide(view):
                thing: Object = (kind, index)
                if thing not in owned:
                    for edit in scenario:
                        if tuple(edit.object) == thing and first < edit.step <= last and edit.value is not None:
                            lab.withdraw(at, thing, edit.step)
                if owned.get(thing) != value:
                    lab.edit(at, thing, step, value)
                    owned[thing] = value
    advance(last)


class RampMeter(Controller):
    """ALINEA at an on-ramp (Papageorgiou, Hadj-Salem and Blosseville, Transportation Research Record 1320 (1991) 58).

    Each minute the rate becomes rate + gain * (setpoint - occupancy), within [least, most]. Rates are in cars per hour, occupancies in
    per cent, measured at a cell downstream of the ramp. Cars wait before the ramp in a vertical queue: `queue` is arrivals minus
    admitted cars at the last decision (`measure_queue` computes it for each second). Before step `start` the ramp is not metered: each
    minute it admits the queue and the arrivals, up to its capacity, whatever the parameters are.

    gates: the detector after the inlet, the detector at it, and its cell. They show which cars have entered.
    """

    def __init__(self, inlet: int, gates: tuple[int, int, int], cell: int, arrivals: Rates, admission: Callable[[int], Admission],
                 setpoint: float, gain: float = 70.0, least: float = 240.0, most: float = 1_200.0, start: float = 0) -> None:
        self.inlet, self.gates, self.cell, self.arrivals, self.admission = inlet, gates, cell, arrivals, admission
        self.setpoint, self.gain, self.least, self.most, self.start = setpoint, gain, least, most, start
        self.rate = most
        self.queue, self.in_inlet_cell = 0.0, False
        self.rates: list[tuple[int, float, float, float]] = []
        """For each minute: the step, the occupancy in per cent, the rate in cars per hour (infinite if the ramp is not metered), and the
        queue in cars."""

    def decide(self, view: View) -> list[Setting]:
        """Set the ramp's inflow chance for the next minute."""
        after, at, cell = self.gates
        in_inlet_cell = view.lab.cells(view.at, view.last)[cell].isdigit()  # this car has entered, but `after` has not counted it yet
        admitted = view.cars(after) - view.cars(at) + in_inlet_cell - self.in_inlet_cell
        self.in_inlet_cell = in_inlet_cell
        self.queue += count_demand(self.arrivals, view.first, view.last) - admitted
        occupancy = view.occupancy(self.cell)
        rate = math.inf
        if view.last >= self.start:
            rate = self.rate = min(max(self.rate + self.gain * (self.setpoint - occupancy), self.least), self.most)
        self.rates.append((view.last, occupancy, rate, self.queue))
        wanted = max(find_rate(self.arrivals, view.last) + self.queue * HOUR / PERIOD, 0.0)
        admission = self.admission(view.last)
        return [("inflow", self.inlet, admission.chance(min(rate, wanted, admission.flow(admission.chances[-1]))))]
