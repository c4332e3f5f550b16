"""Give tests of reports what several of them use: a road with works, and numbers of a table."""
from __future__ import annotations

from checked import Checked

ROAD = {"length": 1.5, "main": [["07:00", 900], ["07:10", 1_300]], "ramps": [[0.6, 200]], "minutes": 20, "begin": "07:00", "slowing": 0.15,
        "date": "2026-03-02", "entry": 0, "sections": [[1.05, 1.2, "07:05", "07:12", 27, 0.4]], "stalled": [[1.3, "07:14", "07:15"]], "detectors": [0.75, 1.2],
        "stretch": [0.3, 0.6], "seed": 8}


class ReportChecks(Checked):
    """Checks that several tests share."""

    def check_number(self, name: str, found: str, wanted: float | None) -> None:
        """Compare a number in a table: an empty cell is unknown."""
        is_near = found == "" if wanted is None else found != "" and abs(float(found) - wanted) <= 1e-5 * max(abs(wanted), 1)
        self.check(name, wanted if is_near else found, wanted)
