"""Give tests of freeways what several of them use."""
from __future__ import annotations

import dataclasses

from checked import Checked
from zegdrut.roads import Figures, make_road
from zegdrut.roads.road_in_cells import Fault

# In cells: 400, and the limit 5.
PLAIN = Figures(length=3, limit=135, slowing=0.25, main=500, ramps=[(0.75, 100)], sections=[], stalled=[], detectors=[],
                stretch=(1, 2), piece=5, minutes=60, seed=1)


class FreewayChecks(Checked):
    """Checks that several tests share."""

    def check_refused(self, name: str, wanted: str, **figures: object) -> None:
        try:
            found = f"a road: {make_road(dataclasses.replace(PLAIN, **figures))}"
        except Fault as fault:
            found = str(fault)
        self.check(name, found, wanted)
