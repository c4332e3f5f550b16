"""Answer the queries of tabs. A query changes no road."""
from __future__ import annotations

import asyncio
import json
import time
from typing import Mapping, Sequence, TypeVar, Union

from zegdrut import Edit
from zegdrut.base import Units
from zegdrut.base.wire import WrittenEdit
from zegdrut.figures import Window
from zegdrut.figures.lost_demand import find_entry
from zegdrut.figures.table import PER_LANE
from zegdrut.program import count_cars
from zegdrut.program.grammar import LAST_HORIZON
from zegdrut.roads import Clock
from zegdrut.roads.road_in_cells import leave_out_approach

from ..base.json_values import to_json, Json
from ..base.refusals import Refused
from ..figures import admission, comparison, figures, files, report
from ..figures.child import Child, wait_for_slot
from ..figures.figures import ComparedRoads, DetectorFigures, FiguresAnswer, FiguresQuestion
from ..figures.report import ReportAnswer, ReportQuestion
from ..journal.state import Replica
from ..lab.change_list import Line, Lister
from ..lab.fixed_roads import FILE, VARIANT, FixedRoad
from ..lab.gestures import LIST_AT_ONCE, Lab
from ..lab.gestures import ReplyFields as Fields
from ..lab.keeper import SHARED
from ..lab.new_road import calibration_of, clock_of, name_of
from ..lab.road_clock import STEPS_AHEAD
from ..lab.roads import QueryRoad
from ..model.choices import sendable
from ..model.lines import all_lines, find_altered_lines
from ..model.operations import Operation, Stamp
from ..model.projection import value_of
from ..model.road import Road
from ..model.visibility import visible_rectangles
from ..program import rows
from ..program.program import LONG_ROAD, Times
from ..program.turns import MORE, Job, More
from .seat_roads import SeatRoads

MOST_ROWS, MOST_BYTES = 1_024, 1_100_000  # rows in a reply, and their bytes
MOST_COUNTS = 4_096
MINUTE = 60  # steps
MOST_MINUTES = 120  # in a query of sums
ASKED_AT_ONCE = 128
MOST_AGAIN = 16  # times that a query begins again because its road has changed
PIECE_OF_LIST = 1_000_000  # bytes, approximately, of operations in a reply
LINES_FOR = 0.02  # seconds for making lines until others get their turn

Reply = Union[bytes, Fields]
T = TypeVar("T")


class Questions:
    """Answers the queries of seats, each in the turn of its seat."""

    def __init__(self, lab: Lab) -> None:
        self._lab, self._keeper = lab, lab.keeper
        self.roads, self._comparisons = SeatRoads(lab.keeper), comparison.Comparisons()
        self._figures: Child[FiguresQuestion, FiguresAnswer] = Child("server.figures.figures", figures.NICE)
        self._reports: Child[ReportQuestion, ReportAnswer] = Child("server.figures.report", report.NICE)
        self._saved, self._curves = files.Transcripts(), admission.Curves(lab.keeper.folder)

    def close(self) -> None:
        self.roads.close()
        self._comparisons.stop()
        self._figures.close()
        self._reports.close()
        self._curves.child.close()

    def drop_seat(self, index: int) -> None:
        """Drop fixed roads, questions and transcripts of a seat whose tab has gone."""
        self.roads.drop_seat(index)
        self._comparisons.stop(index)
        self._saved.drop(index)

    async def ask_program(self, road: QueryRoad, times: Times, verb: str, fields: Mapping[str, Json]) -> bytes:
        """Forward a command to the program, and return its reply."""
        asked: Fields = {"at": road.name, **fields}
        line = to_json({verb: asked}).encode()

        async def body() -> bytes:
            return (await road.say_all([line], times))[0]
        return await road.run_job(body)

    async def advance(self, road: QueryRoad, to: int) -> Reply:
        """Simulate a road up to a step, which may be some hours ahead of the clock."""
        self._require_reachable(to)
        return {"horizon": await road.advance(to)}

    def _require_reachable(self, to: int) -> None:
        """Raise `Refused` if a road would run further than the clock may be set."""
        now = self._keeper.now()
        if to > LAST_HORIZON:
            raise Refused("Horizon", f"`to` must be at most {LAST_HORIZON}, not {to}")
        if to > now + STEPS_AHEAD:
            raise Refused("TooFarAhead", f"a road runs at most {STEPS_AHEAD} steps ahead of the clock, which is at {now}: `to` must be "
                          f"at most {now + STEPS_AHEAD}, not {to}")

    # Rows

    async def diagram(self, road: QueryRoad, times: Times, *, first: int, last: int, every: int,
                      cells: tuple[int, int] | None) -> Reply:
        """Return every n-th row from the step `first` to `last`, with all cells or with the cells from one to another."""
        left, right = cells or (0, self._length - 1)
        if not left <= right < self._length:
            raise Refused("Range", f"`cells` must be two cells from 0 to {self._length - 1}, the smaller first")
        count = (last - first) // every + 1
        if first > last or count > MOST_ROWS:
            raise Refused("Range", f"`from` must be at most `to`, and a reply has at most {MOST_ROWS} rows, not {count}")
        if count * (right - left + 4) > MOST_BYTES:
            raise Refused("Range", f"{count} rows of {right - left + 1} cells are too many bytes: ask for at most "
                          f"{MOST_BYTES // (right - left + 4)} rows")
        found = await self._rows(road, list(range(first, last + 1, every)), times)
        return rows.diagram_of([row[left:right + 1] for row in found])

    async def _rows(self, road: QueryRoad, steps: list[int], times: Times) -> list[bytes]:
        """Return the rows of these steps, which are equally spaced. In each turn of the seat get as many as a reply may have."""
        found: list[bytes] = []

        async def body() -> More | None:
            part = steps[len(found):len(found) + self._rows_at_once()]
            found.extend(await self._ask_rows(road, part, times))
            return MORE if len(found) < len(steps) else None
        await road.run_job(body)
        return found

    @property
    def _length(self) -> int:
        return self._keeper.state.plan["length"]

    @property
    def _units(self) -> Units:
        return self._keeper.state.units

    def _rows_at_once(self) -> int:
        return min(MOST_ROWS, MOST_BYTES // (self._length + 3))

    async def _ask_rows(self, road: QueryRoad, steps: list[int], times: Times) -> list[bytes]:
        every = steps[1] - steps[0] if len(steps) > 1 else 1
        if every >= 8 or every >= 2 and self._length >= LONG_ROAD:
            at = to_json(road.name)
            lines = [f'{{"cells":{{"at":{at},"step":{step}}}}}'.encode() for step in steps]
            return [rows.of_cells(reply) for reply in await road.say_all(lines, times)]
        found: list[bytes] = []
        for first, last in rows.split_steps(steps[0], steps[-1], MOST_ROWS // every * every):
            line = to_json({"diagram": {"at": road.name, "from": first, "to": last}})
            found += rows.of_diagram((await road.say_all([line.encode()], times))[0])[::every]
        return found

    async def sums(self, road: QueryRoad, times: Times, first: int, last: int) -> Reply:
        """Return for each whole minute the time that cars spend on the road, in car-seconds: the sum of the cars in its 60 rows. If the road
        has an approach, also return the time that they spend there."""
        if first % MINUTE or last % MINUTE or not 0 < last - first <= MOST_MINUTES * MINUTE:
            raise Refused("Range", f"`from` and `to` must be multiples of {MINUTE}, and 1 to {MOST_MINUTES} minutes apart")
        cars, origin = list[tuple[int, int]](), self._units.origin

        async def body() -> More | None:
            start = first + 1 + len(cars)
            part = await self._ask_rows(road, list(range(start, min(last + 1, start + self._rows_at_once()))), times)
            cars.extend((count_cars(row), count_cars(row[:origin])) for row in (one.decode("ascii") for one in part))
            return MORE if len(cars) < last - first else None
        await self._of_one_road(road, cars, body)
        all_cars, on_approach = ([sum(each[begin:begin + MINUTE]) for begin in range(0, len(cars), MINUTE)] for each in zip(*cars))
        return {"sums": all_cars, **({"approach": on_approach} if origin else {})}

    async def counts(self, road: QueryRoad, times: Times, *, first: int, last: int, each: int | None) -> Reply:
        """Return what all detectors count, in spans of `each` steps or as a whole."""
        spans = await self._count_spans(road, times, first, last, each)
        pairs = [[[one["cars"], one["speeds"]] for one in span] for span in spans]
        return {"counts": pairs[0], "flows": spans[0]} if each is None else {"counts": pairs, "flows": spans}

    async def _count_spans(self, road: QueryRoad, times: Times, first: int, last: int,
                       each: int | None) -> list[list[DetectorFigures]]:
        """Return what each detector counts, for each span of `each` steps."""
        if first > last:
            raise Refused("Range", f"`from` {first} is above `to` {last}")
        starts = range(first, last, each) if each else range(first, first + 1)
        detectors = len(self._keeper.state.plan["detectors"])
        if len(starts) * detectors > MOST_COUNTS:
            raise Refused("Range", f"{len(starts) * detectors} counts are too many: a reply has at most {MOST_COUNTS}")
        lines = [to_json({"count": {"at": road.name, "detector": detector, "from": start,
                                   "to": min(last, start + each) if each else last}}).encode()
                 for start in starts for detector in range(detectors)]
        replies, edits = await self._lines(road, lines, times)
        watched = [Edit.read(edit) for edit in edits if edit[0] == "watch"]
        windows = [Window(start, min(last, start + each) if each else last) for start in starts]
        return [[figures.detector_figures(json.loads(replies[place * detectors + detector]), watched, detector, window)
                 for detector in range(detectors)] for place, window in enumerate(windows)]

    async def _lines(self, road: QueryRoad, lines: list[bytes], times: Times) -> tuple[list[bytes], Sequence[WrittenEdit]]:
        """Return the program's replies to lines, and all edits of the road as rows of an import; both are of the same state of the road."""
        found: list[bytes] = []

        async def body() -> More | None:
            if len(found) < len(lines):
                found.extend(await road.say_all(lines[len(found):len(found) + ASKED_AT_ONCE], times))
            return MORE if len(found) < len(lines) else None
        mark = await self._of_one_road(road, found, body)
        if isinstance(road, FixedRoad):
            return found, (await road.know()).edits
        assert mark is not None  # (only fixed roads never change)
        return found, await self.roads.edits_of(mark)

    async def _of_one_road(self, road: QueryRoad, found: list[T], body: Job[None]) -> Road | None:
        """Call `body`, which appends to `found`, until it is done. If the road changes meanwhile, empty `found` and begin again. Return
        the road's mark."""
        marks: list[Road | None] = []

        async def part() -> More | None:
            if marks[-1:] != [road.mark()]:
                if len(marks) > MOST_AGAIN:
                    raise Refused("Busy", "the road keeps changing: try again later")
                marks.append(road.mark())
                found.clear()
            return await body()
        await road.run_job(part, at_leisure=True)
        return marks[-1]

    # Lists

    async def layers(self, index: int, replica: Replica, version: int) -> Reply:
        """Return the lines of a list that have changed since a version, and what undo and redo would do. If the version is not one of
        this list (since the server was restarted or a write failed), return all lines."""
        async def body() -> Reply:
            return self._lab.list_of(replica, version if replica.begun <= version <= replica.version else 0)
        return await self._keeper.ask(index, (replica.index,), body)

    async def operations(self, index: int, replica: Replica, first: int) -> Reply:
        """Return a part of the operations of a replica in order of arrival, from the place `first` on."""
        async def body() -> Reply:
            state, texts, size, shared, makers = self._keeper.state, list[str](), 0, list[bool](), list[Union[int, None]]()
            after, more, began = replica.size, False, time.perf_counter()
            for operation, place in [*replica.places.items()]:
                if place < first:
                    continue
                if time.perf_counter() > began + LINES_FOR:
                    await asyncio.sleep(0)
                    began = time.perf_counter()
                if size > PIECE_OF_LIST:
                    after, more = place, True
                    break
                texts.append(to_json(operation.written()))
                shared.append(operation in state.shared.places)
                makers.append(state.makers.get(operation))
                size += len(texts[-1])
            return (f'{{"operations":[{",".join(texts)}],"shared":{to_json(shared)},"makers":{to_json(makers)},"next":{after},'
                    f'"more":{to_json(more)}}}').encode()
        return await self._keeper.ask(index, (), body)

    # Demand

    async def admission(self, index: int, inlet: int, start: int | None, before: list[tuple[int, int]]) -> Reply:
        """Return how many cars an inlet admits at each inflow chance, with the plan's drivers and the traffic from inlets upstream, whose
        indexes and chances are `before`. `start` is the slow-to-start chance of the inlet's zone at step 0, or None. An approach changes
        no flow, so it is left out."""
        plan = self._keeper.state.plan
        cell = plan["inlets"][inlet][0]
        limit, slowing = plan["zones"][cell // plan["zone"]]
        free = leave_out_approach([place for place, _ in plan["inlets"]], self._units.origin)
        beside = sorted((free[one], chance_of) for one, chance_of in before if chance_of)
        entry = find_entry(plan, cell) if beside else 0
        return await self._curves.find_curve(index, {"limit": limit, "slowing": slowing, "start": start, "entry": entry,
                                              "cell": free[inlet] if beside else 0, "before": beside}, self._keeper.path)

    async def capacity(self, index: int, road: Road, first: int, last: int, cars: int, limit: int) -> Reply:
        """Return the value of a shape of kind `capacity` on the zones `first` to `last`: works with a limit that leave some cars per hour
        of the plan's drivers."""
        plan = self._keeper.state.plan
        if not first <= last < len(plan["zones"]):
            raise Refused("Range", f"`first` and `last` must be 0 to {len(plan['zones']) - 1}, the smaller first")
        starts = [value_of(one) for one in road.on_object("start", first) if one.begin == 0 and road.layers[one.name].kind == "start"]
        speed, slowing = plan["zones"][first]
        cells = min((last + 1) * plan["zone"], plan["length"]) - first * plan["zone"]
        found = await self._curves.find_works(index, {"cars": cars, "limit": limit, "drivers": (speed, slowing, next(iter(starts), None)),
                                               "cells": cells}, self._keeper.path)
        if "why" in found:
            raise Refused("Range", found["why"])
        return found

    # What would be

    async def preview(self, index: int, what: Json, stamps: set[Stamp] | None) -> Reply:
        """Return the lines that sharing or taking would change, and keep the roads before and after for queries. `what` is "share",
        "take", or None, which drops the last preview. The reply waits until all that it shows is on the disk."""
        if what is None:
            self.roads.put_preview(index)
            return {}

        async def body() -> tuple[tuple[Road, Road], Reply]:
            state = self._keeper.state
            own = state.seats[index]
            if what == "take":
                return await self._make_preview("take", own, state.unseen(own))
            return await self._make_preview("share", state.shared, own.shareable() if stamps is None else sendable(
                own.road, state.shared.road, own.own, stamps))
        fed = SHARED if what == "share" else index
        sides, reply = await self._keeper.read_committed(lambda: self._keeper.ask(index, (fed,), body), "shared")
        self.roads.put_preview(index, *sides)
        return reply

    async def _make_preview(self, what: str, replica: Replica, added: list[Operation]) -> tuple[tuple[Road, Road], Reply]:
        """Return the roads of a replica without and with some operations, and the lines of its list that they change."""
        before = replica.road
        after = before.adding(added)
        touched = await self._keeper.differences.first_change(before, after)
        lines = await self._lines_of(replica, before, after, {one.stamp for one in added})
        return (before, after), {"what": what, "size": len(added), "layers": lines, "touched": touched}

    async def _lines_of(self, replica: Replica, before: Road, after: Road,
                        added: set[Stamp]) -> list[Line]:
        """Return the lines that look different on the road `after`, or on which an added operation has lost, each with what it shows on
        the road `before`."""
        then = Lister(self._keeper.state, replica, after)
        listed = all_lines(before)
        found: list[Line] = []
        began = time.perf_counter()
        for line in sorted(find_altered_lines(before, after)):
            said, was = then.line(line), visible_rectangles(before, line)
            if "gone" not in said and (said["shown"] != was or any(
                    one["lost"] and one["stamp"] in added for one in said["operations"])):
                said["was"] = was if line in listed else None
                found.append(said)
            if time.perf_counter() > began + LINES_FOR:
                await asyncio.sleep(0)
                began = time.perf_counter()
        return found

    async def list_fixed(self, road: FixedRoad, index: int, version: int) -> Reply:
        """Return the lines of the list of a road that does not change, behind a version of it."""
        state, known = self._keeper.state, (await road.know()).road
        marks = {line: place for place, line in enumerate(sorted(all_lines(known)), 1)}
        lines, after = Lister(state, state.seats[index], known).lines_since(marks, version, LIST_AT_ONCE)
        return {"layers": lines, "since": version, "next": len(marks) if after is None else after, "more": after is not None}

    async def figures(self, index: int, of: Sequence[str], first: int, last: int) -> Reply:
        """Return the figures of some roads, each compared with the first."""
        compared = await self._find_roads(index, of, first, last)
        slots = [at if at in ("shared", FILE) else f"{index} {at}" for at in of]
        said = await self._figures.ask_in_turn(index, {"compared": compared, "slots": slots, "seconds": figures.SECONDS}, compared["program"])
        if "done" in said:
            raise Refused("Busy", f"the figures are computed up to step {said['done']} of {last} so far: ask again")
        return {"from": first, "to": last, **said}

    async def _find_roads(self, index: int, of: Sequence[str], first: int, last: int) -> ComparedRoads:
        """Return roads and a window, for a program that simulates them."""
        if first >= last:
            raise Refused("Range", f"`from` {first} must be below `to` {last}")
        self._require_reachable(last)
        plan = self._keeper.state.plan.copy()
        plan["replicas"] = ["road"]
        return {"plan": plan, "first": first, "last": last, "program": self._keeper.path, "roads": await self.roads.compare(index, of),
                "origin": self._units.origin}

    async def stop_days(self, index: int) -> Reply:
        """Stop the comparison of a seat over many days."""
        return {"stopped": self._comparisons.stop(index)}

    async def days(self, index: int, of: Sequence[str], first: int, last: int) -> Reply:
        """Return the figures of some roads over many days, each with its mean and interval."""
        number = self._keeper.settings.days
        self._require_days(number)
        return {"from": first, "to": last, **await self._comparisons.compare(
            comparison.Comparison(index, number), lambda other: self._keeper.state.seats[other].name,
            lambda: self._find_roads(index, of, first, last),
            lambda done: self._keeper.listeners.days.notify(index, done, number))}

    def _require_days(self, number: int) -> None:
        """Raise `Refused` if roads cannot be compared over a number of days."""
        most = self._keeper.settings.days
        if not 1 <= number <= most:
            raise Refused("Range", f"`days` must be 1 to {most}, not {number}")
        if number > 1 and not isinstance(self._keeper.state.plan["words"], int):
            raise Refused("OneDay", "this road has fixed random numbers (no seed), so all days are the same: look at the figures of "
                          "this day")

    # What is saved

    async def transcript(self, index: int, replica: Replica, first: int, last: int, piece: int) -> Reply:
        """Return a piece of a transcript for the viewer. Piece 0 makes the transcript."""
        if first > last:
            raise Refused("Range", f"`from` {first} is above `to` {last}")
        self._require_reachable(last)
        if piece == 0:
            self._saved.make_room(index)
            async with wait_for_slot(index):
                name = self._keeper.state.seats[replica.index].name or replica.at
                lines = files.script(self._keeper.state.plan, name, await self.roads.edits_of(replica.road), first, last)
                self._saved.put(index, await files.transcript(self._keeper.path, self._keeper.state.plan, lines))
        text, following = self._saved.take(index, piece)
        return {"lines": text, "next": following}

    async def report(self, index: int, of: Sequence[str], first: int, last: int, title: str, works: list[str], approach: bool,
                     number: int | None) -> Reply:
        """Return the report on some roads over a number of days, each road compared with the first. The seat's own road is called by the
        seat's name. Its diagrams show the approach, too, if `approach` says so."""
        if number is not None:
            self._require_days(number)
        compared = await self._find_roads(index, of, first, last)
        day, seat = clock_of(self._keeper.folder) or Clock(), self._keeper.state.seats[index]
        for road, at in zip(compared["roads"], of):
            road["name"] = seat.name or seat.at if at == "own" else road["name"]
        begin = day.shift(-self._units.begin)
        clock = (begin.to_text(0), *(None if one is None else str(one) for one in (begin.date, begin.zone)))
        asked: ReportQuestion = {"compared": compared, "title": title, "works": works, "clock": clock, "days": number or report.DAYS,
                                 "approach": approach, "calibration": calibration_of(self._keeper.folder)}
        said = await self._reports.ask_in_turn(index, asked, compared["program"])
        if "why" in said:
            raise Refused("TooLong", said["why"])
        return {"from": first, "to": last, **said}

    async def table_of_counts(self, road: QueryRoad, times: Times, first: int, last: int, each: int) -> Reply:
        """Return a table of what detectors count, as CSV, for each span of `each` steps."""
        spans = await self._count_spans(road, times, first, last, each)
        say_time = files.time_writer(clock_of(self._keeper.folder), self._units.begin)
        title = f"counts of {self._road_name(road.name)}{self._file_and_date()}, {say_time(first)} to {say_time(last)}, {PER_LANE}"
        windows = [Window(start, min(last, start + each)) for start in range(first, last, each)]
        return {"csv": files.table_of_counts(self._keeper.state.plan, self._units, title, say_time, windows, spans)}

    def _road_name(self, at: str) -> str:
        """Return what a road is called in saved files."""
        if at == "shared":
            return "the shared road"
        name = next((seat.name for seat in self._keeper.state.seats if seat.at == at), "")
        return f"the road of {files.escape_formula(name) or at}"

    def _file_and_date(self) -> str:
        """Return the name of the road's file and the date of its `begin`, as far as they are known."""
        folder = self._keeper.folder
        day = clock_of(folder)
        parts = [files.escape_formula(name_of(folder)), "" if day is None or day.date is None else str(day.date)]
        return "".join(f", {one}" for one in parts if one)

    async def script(self, index: int, at: str) -> Reply:
        """Return the commands that make the same road, up to the clock."""
        to, seat = self._keeper.now(), self._keeper.state.seats[index]
        name = seat.name or seat.at if at == "own" else at.removeprefix(VARIANT)
        road, = await self.roads.compare(index, [at])
        _, lines = files.lines_to(self._keeper.state.plan, name, road["edits"], to)
        return {"lines": "".join(to_json(line) + "\n" for line in lines), "to": to}
