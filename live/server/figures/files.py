"""Write the files that a page saves: transcripts, which the viewer opens; scripts, which road_lab runs; and tables for spreadsheets."""
from __future__ import annotations

import csv
import io
import time
from typing import Callable, Iterable, Iterator, Mapping, Sequence

from zegdrut.base import Units
from zegdrut.base.wire import PlanLine, WrittenEdit
from zegdrut.figures import Window
from zegdrut.roads import Clock

from ..base.json_values import to_json
from ..base.refusals import Refused
from ..program.program import command_of, import_lines, start
from .figures import DetectorFigures

MOST = 64_000_000  # bytes of rows in a transcript
MOST_PIECE = 1_000_000  # bytes of a piece of a transcript, approximately
EACH = 60  # steps of a count
MOST_SAVED = 4  # transcripts that are kept at a time, for the tabs that fetch them
TRANSCRIPT_UNUSED = 60.0  # seconds after which a transcript that is not fetched is dropped
LONGEST_REPLICA = 64  # bytes of a replica's name


def script(plan: PlanLine, name: str, edits: Sequence[WrittenEdit], first: int, last: int) -> Iterator[Mapping[str, object]]:
    """Yield the lines of a script that shows a road from the step `first` to `last`: plan, edits, rows, and counts by the minute."""
    if (last - first + 1) * (plan["length"] + 3) > MOST:
        raise Refused("Range", f"a transcript of this road has at most {MOST // (plan['length'] + 3)} rows: choose a shorter period")
    at, lines = lines_to(plan, name, edits, last)
    yield from lines
    at_once = min(1_024, MOST_PIECE // (plan["length"] + 3))
    for begin in range(first, last + 1, at_once):
        yield {"diagram": {"at": at, "from": begin, "to": min(last, begin + at_once - 1)}}
    for begin in range(first, last, EACH):
        for detector in range(len(plan["detectors"])):
            yield {"count": {"at": at, "detector": detector, "from": begin, "to": min(last, begin + EACH)}}


def lines_to(plan: PlanLine, name: str, edits: Sequence[WrittenEdit], last: int) -> tuple[str, list[Mapping[str, object]]]:
    """Return the replica of a script, and the lines that make a road: plan, edits, and an advance to the step `last`."""
    at = name.encode()[:LONGEST_REPLICA].decode(errors="ignore")
    return at, [{**plan, "replicas": [at]}, *import_lines(at, edits), {"advance": {"at": at, "to": last}}]


async def transcript(path: str, plan: PlanLine, lines: Iterable[Mapping[str, object]]) -> list[str]:
    """Return lines and a program's replies to them, alternating, in pieces. `path` is that of road_lab."""
    first, *others = map(to_json, lines)
    program, pieces = await start(command_of(path, plan), first.encode()), [f'{first}\n{{"open":1}}\n']
    try:
        for line in others:
            reply = await program.ask(line.encode())
            if len(pieces[-1]) > MOST_PIECE:
                pieces.append("")
            pieces[-1] += f"{line}\n{reply.decode()}\n"
    finally:
        program.kill()
    return pieces


class Transcripts:
    """The transcripts that seats fetch piece by piece: at most one for each seat, and a few in all."""

    def __init__(self, clock: Callable[[], float] = time.monotonic) -> None:
        self._clock = clock
        self._of: dict[int, tuple[list[str], float]] = {}  # by seat: the pieces, and the time of the last request

    def make_room(self, index: int) -> None:
        """Make room for a new transcript of a seat. Raise `Refused` if other seats are fetching too many."""
        self.drop(index)
        before = self._clock() - TRANSCRIPT_UNUSED
        self._of = {one: (pieces, used) for one, (pieces, used) in self._of.items() if used > before}
        if len(self._of) >= MOST_SAVED:
            raise Refused("Busy", f"{MOST_SAVED} other users are saving transcripts: try again later")

    def put(self, index: int, pieces: list[str]) -> None:
        self._of[index] = pieces, self._clock()

    def take(self, index: int, piece: int) -> tuple[str, int | None]:
        """Return a piece of a seat's transcript, and the number of the next piece. After the last piece, return None and drop the
        transcript."""
        pieces, _ = self._of.pop(index, (list[str](), 0.0))
        if piece >= len(pieces):
            raise Refused("Range", f"the transcript has no piece {piece}, or is no longer kept: begin again with piece 0")
        if piece + 1 == len(pieces):
            return pieces[piece], None
        self.put(index, pieces)
        return pieces[piece], piece + 1

    def drop(self, index: int) -> None:
        self._of.pop(index, None)


def escape_formula(value: object) -> object:
    """Return a cell that no spreadsheet takes for a formula."""
    return f"'{value}" if isinstance(value, str) and value.lstrip()[:1] in ("=", "+", "-", "@") else value


def table(head: list[str], lines: Iterable[Sequence[object]]) -> str:
    """Return a table as CSV: its head, if there is one, and its lines."""
    text = io.StringIO()
    writer = csv.writer(text, lineterminator="\n")
    if head:
        writer.writerow(head)
    writer.writerows([escape_formula(cell) for cell in line] for line in lines)
    return text.getvalue()


def time_writer(day: Clock | None, lead: int) -> Callable[[int], str]:
    """Return a function that writes the time of a step: the time of day if the road has one, else the time since minute 0. `lead` is the
    step at minute 0."""
    def write(step: int) -> str:
        seconds = abs(step - lead)
        return f"{'-' * (step < lead)}{seconds // 3600}:{seconds // 60 % 60:02}:{seconds % 60:02}" if day is None else day.to_text(step - lead)
    return write


def table_of_counts(plan: PlanLine, units: Units, title: str, say_time: Callable[[int], str], windows: Sequence[Window],
                    counts: Sequence[Sequence[DetectorFigures]]) -> str:
    """Return a table of what detectors counted in each window, as CSV. The first line is the title, the second the head with units."""
    lines = [[say_time(window.first), say_time(window.last), detector, round_or_blank(units.to_km(plan["detectors"][detector]), 4),
              one["cars"], round_or_blank(one["flow"], 1), round_or_blank(one["speed"], 1), one["on"]]
             for window, span in zip(windows, counts) for detector, one in enumerate(span)]
    head = ["from", "to", "detector", "km", "cars", "flow in cars/h", "time-mean speed in km/h", "seconds on"]
    return f"# {title}\n" + table(head, lines)


def round_or_blank(value: float | None, digits: int) -> float | str:
    """Return a rounded number; an empty string for None."""
    return "" if value is None else round(value, digits)
