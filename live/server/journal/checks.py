"""Check operations against the plan, whoever made them. Every site takes an operation that passes, and no program refuses its edits."""
from __future__ import annotations

from ..base.json_values import Json
from ..model.layers import values_of
from ..model.operations import CAPACITY, SEATS, Operation
from ..model.reading import Malformed, read_operation

from zegdrut.base.wire import PlanLine
from zegdrut.program import Reasons
from zegdrut.program.grammar import KINDS, LAST_STEP


class Checks:
    """The checks of operations against one plan."""

    def __init__(self, plan: PlanLine) -> None:
        self._reasons = Reasons()
        self._reasons.accept(plan, {"open": 1})

    def read(self, written: Json) -> Operation:
        """Return the operation that a JSON value describes, whoever made it: so each site takes what is confirmed at another, and a
        start reads it. Raise `Malformed` if it is not one for this plan."""
        operation = read_operation(written)
        if operation.shape is not None:
            for kind, value in values_of(operation.shape.kind, operation.shape.value):
                self._check_edit(kind, operation.shape.last, operation.shape.begin, value)
            if operation.shape.end is not None and operation.shape.end > LAST_STEP:
                raise Malformed(f"a shape must end at step {LAST_STEP} at the latest, or have no end; not at "
                                f"{operation.shape.end}", "Step")
        return operation

    def _check_edit(self, kind: str, index: int, step: int, value: int) -> None:
        if kind not in KINDS:
            raise Malformed(f"there is no kind {kind!r}: use one of {', '.join(sorted({CAPACITY, *KINDS}))}")
        fault = self._reasons.edit_fault((kind, index, step, 1, SEATS, value))
        if fault:
            refusal, why = fault
            raise Malformed(why, refusal)
