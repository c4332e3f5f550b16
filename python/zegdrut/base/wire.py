"""The lines that the program reads and writes, as types: `docs/FORMAT.md` of the repository describes them."""
from __future__ import annotations

from typing import Dict, List, Mapping, Optional, Sequence, Tuple, TypedDict, Union

Json = Union[None, bool, int, float, str, List["Json"], Dict[str, "Json"]]
"""Any JSON value."""
Fields = Mapping[str, object]
"""The fields of a line that is sent: JSON values, or numbers of numpy."""
Reply = Dict[str, Json]
"""A reply of the program, as it was read."""


class PlanLine(TypedDict):
    """The plan, the first line of a script. Cells, steps and chances in 1/65,536."""

    length: int
    inlets: Sequence[Sequence[int]]
    """For each (cell, inflow chance)."""
    zones: Sequence[Sequence[int]]
    """For each (speed limit in cells per step, slowing chance)."""
    zone: int
    exit: int
    detectors: Sequence[int]
    words: int | str
    replicas: Sequence[str]


WrittenHead = Tuple[str, int, int, int, int]
"""A head in a line, a JSON list: [kind, index, step, count, number]."""
WrittenEdit = Tuple[str, int, int, int, int, Optional[int]]
"""An edit in a line, a JSON list: [kind, index, step, count, number, value]."""


AnyEdit = Tuple[str, int, int, Optional[int], Optional[int], Optional[int]]
"""A `WrittenEdit` whose count and number may be unknown."""
CommandFields = TypedDict("CommandFields", {
    "at": str, "object": Tuple[str, int], "step": int, "value": Optional[int], "to": int, "from": int, "detector": int, "name": str,
    "heads": str, "message": str, "edits": List[WrittenEdit], "shares": List[List[WrittenEdit]], "form": int}, total=False)
"""The fields of a command that the program has read: each command has some of them."""


class ReplyFields(TypedDict, total=False):
    """The fields of a reply that explanations use."""

    refused: str
    horizon: int
    edits: List[WrittenEdit]


Record = Dict[str, Union[None, int, float, str]]
"""A record, for `pandas.DataFrame` and CSV files."""


class StampReply(TypedDict):
    """The reply to `edit` and `withdraw`: [count, number]."""

    stamp: List[int]


class TouchedReply(TypedDict):
    """The reply to `import` and `take`: the first step that changed, or null."""

    touched: int | None


class EditsReply(TypedDict):
    """The reply to `scenario` and `beyond`."""

    edits: List[WrittenEdit]


class SizeReply(TypedDict):
    """The reply to `send`."""

    size: int


class HeadsReply(TypedDict):
    """The reply to `heads`."""

    heads: List[WrittenHead]


class HorizonReply(TypedDict):
    """The reply to `advance`."""

    horizon: int


class CellsReply(TypedDict):
    """The reply to `cells`."""

    cells: str


class CarsReply(TypedDict):
    """The reply to `cars`: for each car [number, cell, speed]."""

    cars: List[List[int]]


class CountReply(TypedDict):
    """The reply to `count`: cars, and the sum of their speeds in cells per step."""

    cars: int
    speeds: int


class RowsReply(TypedDict):
    """The reply to `diagram`."""

    rows: List[str]


class CrowdReply(TypedDict):
    """The reply to `crowd`."""

    edits: List[WrittenEdit]
    journal: int
    row: str
