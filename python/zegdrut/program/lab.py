"""Start the program road_lab, send it commands, and return its replies as objects."""
from __future__ import annotations

import math
import weakref
from collections import deque
from pathlib import Path
from types import TracebackType
from typing import TYPE_CHECKING, Callable, Iterable, cast

from ..base.argument_checks import encode_line, check_text, check_object, check_whole
from ..base.progress_bars import Bar
from ..base.wire import (
    CarsReply, CellsReply, CountReply, CrowdReply, EditsReply, Fields, HeadsReply, HorizonReply, PlanLine, Reply,
    RowsReply, SizeReply, StampReply, TouchedReply)
from .conversation import Conversation, Deadline, Request
from .grammar import LAST_HORIZON, MOST_ROWS
from .plan import Plan
from .programs import program_path, seconds_left
from .records import Car, Count, Crowd, Edit, Head, Object, Stamp
from .road_rows import Rows, Sums, Traffic, check_numpy

if TYPE_CHECKING:
    from .road_rows import Bytes

FORM = 2
BYTES_AT_ONCE = 1 << 21
"""The bytes of rows that are read at a time."""


class RoadLab:
    """A running program with one road. Use it in a `with`, or `close` it.

    plan: the road, as a `Plan` or as the first line of a script.
    program: the path of the program; by default `zegdrut.programs` finds it.
    timeout: the seconds that each call may take, also one that sends several commands; by default there is no limit.

    Each method sends one command and returns its reply. Every method may raise

    - `Refused`: the program refuses the command. Nothing has changed.
    - `LabBroken`: the lab was closed, or it belongs to another process. `Ended`: the program has ended.
    - `LabTimeout`: the reply did not come in time. `LabCancelled`: another thread called `cancel`.
    - `TypeError`, `ValueError`: an argument has a wrong type, is NaN or is negative. The message begins with its name.

    Threads may share a lab: their calls are carried out one after the other. After an interrupt, a timeout or `cancel` the
    program carries out what it has begun: an edit is then made. The next call waits for that, and gets its own reply. A call that still
    waits for its turn is dropped. The program ends with this process, however the process ends.
    """

    def __init__(self, plan: Plan | PlanLine, program: Path | str | None = None, timeout: float | None = None) -> None:
        self.plan: PlanLine = plan.to_line() if isinstance(plan, Plan) else plan
        self.timeout = timeout
        self._conversation = Conversation(program or program_path())
        self._end = weakref.finalize(self, self._conversation.close)
        try:
            self.ask({**self.plan})
        except BaseException:
            self.close()
            raise

    def __enter__(self) -> RoadLab:
        return self

    def __exit__(self, kind: type[BaseException] | None, fault: BaseException | None,
                 trace: TracebackType | None) -> None:
        self.close()

    def __reduce__(self) -> str:
        raise TypeError("a lab belongs to its process and cannot be pickled: send the plan instead, and start a lab there")

    def close(self) -> None:
        """End the program and its thread, even during a call. Each later call raises `LabBroken`. After an interrupt, repeat it."""
        self._conversation.close()
        self._conversation.wait()
        self._end.detach()

    def cancel(self) -> None:
        """Cancel the calls of other threads: each raises `LabCancelled`. The lab goes on."""
        self._conversation.cancel()

    def ask(self, line: Fields) -> Reply:
        """Send any line of a script. Return the program's reply."""
        return self._ask(line, self._deadline())

    def command(self, verb: str, at: str | None = None, /, **fields: object) -> Reply:
        """Send any command, to the replica `at` or to none. Return the program's reply."""
        return self._command(self._deadline(), verb, at, **fields)

    def _deadline(self) -> Deadline:
        left = min(math.inf if self.timeout is None else self.timeout, seconds_left())
        return self._conversation.deadline(None if left == math.inf else left)

    def _command(self, deadline: Deadline, verb: str, at: str | None = None, /, **fields: object) -> Reply:
        named: Fields = {} if at is None else {"at": check_text("at", at)}
        return self._ask({verb: {**named, **fields}}, deadline)

    def _ask(self, line: Fields, deadline: Deadline) -> Reply:
        return self._conversation.ask(line, encode_line(line), deadline)

    # Edits

    def edit(self, at: str, what: Object, step: int, value: int) -> Stamp:
        """Set an object, such as ("block", 24), to a value from a step on. Return the stamp of the edit."""
        reply = self.command("edit", at, object=check_object("object", what), step=check_whole("step", step), value=check_whole("value", value))
        return Stamp(*cast(StampReply, reply)["stamp"])

    def withdraw(self, at: str, what: Object, step: int) -> Stamp:
        """Withdraw the value that was set for an object at a step. Return the stamp of the withdrawal."""
        reply = self.command("withdraw", at, object=check_object("object", what), step=check_whole("step", step))
        return Stamp(*cast(StampReply, reply)["stamp"])

    def take_in(self, at: str, edits: Iterable[Edit]) -> int | None:
        """Import edits whose stamps have numbers of 64 and above. Return the first step that changes, or None."""
        reply = self.command("import", at, edits=[edit.to_line() for edit in edits], form=FORM)
        return cast(TouchedReply, reply)["touched"]

    def scenario(self, at: str) -> list[Edit]:
        """Return the winning edits of the replica."""
        return list(map(Edit.read, cast(EditsReply, self.command("scenario", at))["edits"]))

    # Messages between replicas

    def send(self, at: str, name: str) -> int:
        """Make a message of all edits of the replica. Return the number of edits in it."""
        return cast(SizeReply, self.command("send", at, name=check_text("name", name)))["size"]

    def heads(self, at: str, name: str) -> list[Head]:
        """Make a message of the heads of all edits of the replica. Return them."""
        return list(map(Head.read, cast(HeadsReply, self.command("heads", at, name=check_text("name", name)))["heads"]))

    def beyond(self, at: str, heads: str, name: str) -> list[Edit]:
        """Make a message of the edits that the owner of the message `heads` may lack. Return them."""
        reply = self.command("beyond", at, heads=check_text("heads", heads), name=check_text("name", name))
        return list(map(Edit.read, cast(EditsReply, reply)["edits"]))

    def take(self, at: str, message: str) -> int | None:
        """Merge a message into the replica. Return the first step that changes, or None."""
        return cast(TouchedReply, self.command("take", at, message=check_text("message", message)))["touched"]

    # Queries

    def advance(self, at: str, to: int, piece: int = 10_000, progress: Callable[[int, int], None] | None = None) -> int:
        """Simulate up to step `to`, `piece` steps at a time. Return the step that the replica has then reached.

        After each piece `progress` is called with the number of finished steps and the number of all steps. By default a bar is drawn if
        standard error is a terminal. After an interrupt the replica is at the end of a piece, and the same call continues.
"""
        to, piece = check_whole("to", to), max(check_whole("piece", piece), 1)
        deadline = self._deadline()
        horizon = self._advance(at, to if to > LAST_HORIZON else 0, deadline)
        first, bar = horizon, Bar()
        try:
            while horizon < to:
                horizon = self._advance(at, min(to, horizon + piece), deadline)
                (progress or bar.show)(horizon - first, to - first)
        finally:
            bar.end()
        return horizon

    def _advance(self, at: str, to: int, deadline: Deadline) -> int:
        return cast(HorizonReply, self._command(deadline, "advance", at, to=to))["horizon"]

    def cells(self, at: str, step: int) -> str:
        """Return the row of a step: a digit is the speed of a car, "." an empty cell, "#" a blocked cell."""
        return cast(CellsReply, self.command("cells", at, step=check_whole("step", step)))["cells"]

    def cars(self, at: str, step: int) -> list[Car]:
        """Return the cars at a step, in the order of their cells."""
        return [Car(*car) for car in cast(CarsReply, self.command("cars", at, step=check_whole("step", step)))["cars"]]

    def count(self, at: str, detector: int, first: int, to: int) -> Count:
        """Return the count of a detector, by its index, in the steps `first` to `to` - 1."""
        fields = {"detector": check_whole("detector", detector), "from": check_whole("first", first), "to": check_whole("to", to)}
        return Count(**cast(CountReply, self.command("count", at, **fields)))

    def diagram(self, at: str, first: int, to: int) -> list[str]:
        """Return the rows of the steps `first` to `to`, both included."""
        deadline = self._deadline()
        return [row for fields in split_rows(at, first, to) for row in cast(RowsReply, self._ask({"diagram": fields}, deadline))["rows"]]

    def array(self, at: str, first: int, to: int) -> Bytes:
        """Return the rows of the steps `first` to `to`, both included, as `to_array` does, but without a string for each row.

        ImportError: numpy is not installed.
        """
        check_numpy()
        import numpy
        found, place = numpy.empty((max(to - first + 1, 0), self.plan["length"]), dtype=numpy.int8), 0
        for rows in self._rows(at, first, to):
            rows.fill(found[place:place + rows.size()])
            place += rows.size()
        return found

    def traffic(self, at: str, first: int, to: int, cells: tuple[int, int] | None = None) -> Traffic:
        """Return density, flow and space-mean speed over the rows of the steps `first` to `to` - 1.

        cells: the first cell, and the cell after the last one; by default the whole road.
        """
        left, right = (0, None) if cells is None else cells
        found = Sums(0, 0, 0)
        for rows in self._rows(at, first, to - 1):
            found += rows.add_up(left, right)
        return found.traffic()

    def _rows(self, at: str, first: int, to: int) -> Iterable[Rows]:
        """Yield rows as the program writes them, some at a time. The program computes the next ones meanwhile."""
        deadline, sent = self._deadline(), deque[Request]()
        try:
            for fields in split_rows(at, first, to, max(1, min(MOST_ROWS, BYTES_AT_ONCE // self.plan["length"]))):
                line: Fields = {"diagram": fields}
                sent.append(self._conversation.begin(Request(line, encode_line(line), wants_rows=True), deadline))
                if len(sent) > 1:
                    yield Rows.read(self._conversation.finish(sent.popleft(), deadline).rows)
            while sent:
                yield Rows.read(self._conversation.finish(sent.popleft(), deadline).rows)
        finally:
            self._conversation.forget(sent)

    # Apart from the replicas

    def crowd(self, shares: Iterable[Iterable[Edit]], to: int) -> Crowd:
        """Let one session per share edit a road of the plan and advance to a step, all at the same time."""
        written = [[edit.to_line() for edit in share] for share in shares]
        left = cast(CrowdReply, self.command("crowd", shares=written, form=FORM, to=check_whole("to", to)))
        return Crowd(list(map(Edit.read, left["edits"])), left["journal"], left["row"])


def split_rows(at: str, first: int, to: int, at_once: int = MOST_ROWS) -> Iterable[dict[str, object]]:
    """Yield the fields of one `diagram` after another, for the steps `first` to `to`, `at_once` steps each."""
    first, to = check_whole("first", first), check_whole("to", to)
    for start in range(first, to + 1, at_once):
        yield {"at": check_text("at", at), "from": start, "to": min(to, start + at_once - 1)}
