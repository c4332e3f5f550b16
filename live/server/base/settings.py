"""Read the settings of a server from the environment."""
from __future__ import annotations

import os
from dataclasses import dataclass, fields
from typing import Mapping


@dataclass(frozen=True)
class Settings:
    """The settings, which tests and measurements change: the variable LIVE_MOST_LINES of the environment sets `most_lines`, and so on."""

    most_lines: int = 900_000  # lines after which the program is replaced; it ends at 1,000,000
    most_undone: int = 1_000  # undone or withdrawn operations after which the oldest are forgotten
    most_withdrawn: int = 200_000  # withdrawn edits in the program after which it is replaced
    most_journal: int = 64 << 20  # bytes at which the journal is shortened
    day: float = 86_400  # seconds after which an unused seat is freed
    days: int = 20  # days (seeds) of a comparison over many days
    watch: float = 0.2  # seconds of processor time; a piece of work that takes longer is logged
    gives_way: int = 1  # whether figures, days and curves are computed at low priority, with one processor left to the server
    milliseconds: int | None = None  # a constant clock for stamps, in milliseconds since 1970

    @classmethod
    def read(cls, environment: Mapping[str, str] = os.environ) -> Settings:
        given = {one.name: environment.get(f"LIVE_{one.name.upper()}") or None for one in fields(cls)}
        kinds = {"float": float, "int": int, "int | None": int}
        return cls(**{one.name: kinds[str(one.type)](given[one.name]) for one in fields(cls)
                      if given[one.name] is not None})
