"""Compare roads over many days, to find out whether a difference is due to the change or to chance.

A day is a seed: it has drivers of its own. As a child, this module answers a `DaysQuestion` with a `DaysAnswer` after each day: the
figures of the first days, over the steps `first` to `last` - 1, as means with 95 % intervals.
"""
from __future__ import annotations

import contextlib
import os
from typing import Awaitable, Callable, Iterator, NamedTuple, Sequence, TypedDict

from zegdrut.base.child_processes import end_with_parent
from zegdrut.base.intervals import warn_few_days
from zegdrut.figures import Value, Window, compare_roads, measure_roads
from zegdrut.figures.days import SEEDS
from zegdrut.figures.queues import Ends, Waits, explain_cause, find_inlets, is_shown
from zegdrut.figures.simulation import iterate_days
from zegdrut.figures.table import list_known
from zegdrut.reports.report_tables import run_side

from ..base.refusals import Refused
from . import child
from .figures import ComparedRoads, Row, compare_all_ends, list_figures, sides_of, units_of, write_rows

NICE = 10
DaysQuestion = TypedDict("DaysQuestion", {"compared": ComparedRoads, "days": int})
DaysAnswer = TypedDict("DaysAnswer", {"done": int, "figures": Sequence[Row]})


class Comparison:
    """A comparison of a seat, and the answer so far."""

    def __init__(self, index: int, days: int) -> None:
        self.index, self.days = index, days
        self.answer: DaysAnswer = {"done": 0, "figures": []}


class Comparisons:
    """Works out one comparison at a time, for all seats."""

    def __init__(self) -> None:
        self._now: Comparison | None = None
        self._child: child.Child[DaysQuestion, DaysAnswer] = child.Child(__name__, NICE, None)

    async def compare(self, mine: Comparison, name: Callable[[int], str], find_roads: Callable[[], Awaitable[ComparedRoads]],
                      progress: Callable[[int], None]) -> dict[str, object]:
        """Return the figures of all days, with warnings; if the comparison is stopped, of those that are done. Stop the seat's former comparison. Call
        `progress` with the number of days that are done. Raise `Refused` if a comparison of another seat is running; `name` returns its
        name."""
        now = self._now
        if now is not None and now.index != mine.index:
            raise Refused("Busy", f"{now.days} days are being simulated for {name(now.index)} ({now.answer['done']} done): try again when "
                          "that is done")

        def hear(answer: DaysAnswer) -> None:
            mine.answer = answer
            progress(answer["done"])
        self.stop()
        self._now = mine
        try:
            compared = await find_roads()
            if self._now is mine:
                await self._child.ask({"compared": compared, "days": mine.days}, compared["program"], hear)
        except Refused:
            if self._now is mine:
                raise
        finally:
            if self._now is mine:
                self.stop()
        done = mine.answer["done"]
        if not done:
            raise Refused("Stopped", "the request was stopped before the first day was simulated")
        return {"days": done, "stopped": done < mine.days, "figures": mine.answer["figures"], "warnings": warn_few_days(done)}

    def stop(self, index: int | None = None) -> bool:
        """Stop the comparison of a seat, or of any seat if none is given. Return whether there was one."""
        if self._now is None or index not in (None, self._now.index):
            return False
        self._now = None
        self._child.close()
        return True


# In the child

class Day(NamedTuple):
    """The figures of a day, and the cars at its end, of the first road with each later one; and the queues before each road."""

    figures: Sequence[Sequence[Value]]
    ends: Sequence[Ends]
    waits: Sequence[Waits]


def simulate_days(asked: DaysQuestion) -> Iterator[DaysAnswer]:
    """Simulate all roads with each seed, on all processors but one. Yield the figures after each day, in the order of the seeds, so that the
    days of a comparison that was stopped are the first ones."""
    compared, days = asked["compared"], list[Day]()
    early: dict[int, Day] = {}  # days that ended before an earlier one, by their places
    window, sides = Window(compared["first"], compared["last"]), sides_of(compared)
    plan, units = compared["plan"], units_of(compared)
    figures, parent = list_figures(plan, units, frozenset(range(len(plan["inlets"])))), os.getpid()

    def make_day(seed: int) -> Day:
        end_with_parent(parent)
        runs = [run_side(side, seed, window, with_rows=False) for side in sides]
        return Day(measure_roads(figures, runs), compare_all_ends(runs), list(map(Waits.of, runs)))
    first = int(compared["plan"]["words"])
    with contextlib.closing(iterate_days(make_day, [(first + one) % SEEDS for one in range(asked["days"])])) as running:
        for place, day in running:
            early[place] = day
            while len(days) in early:
                days.append(early.pop(len(days)))
                inlets = find_inlets([one.waits for one in days])
                tables = list_known([[row for row in rows if is_shown(row.figure, inlets, units)]
                                     for rows in compare_roads(figures, [one.figures for one in days])])
                yield {"done": len(days), "figures": write_rows(tables, [one.ends for one in days], [one.waits for one in days], compared,
                                                                explain_cause([side.script for side in sides]))}


if __name__ == "__main__":
    child.serve(simulate_days)
