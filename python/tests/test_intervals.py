"""Check means and intervals by printed values."""
from __future__ import annotations

import unittest

from checked import Checked
from zegdrut.base.intervals import (
    Estimate, count_opposite, estimate_mean, estimate_paired, estimate_unpaired, find_quantile)


class Intervals(Checked):
    def test_intervals(self) -> None:
        """Compute intervals: Student's own example, the additional hours of sleep that two drugs gave to ten patients (Biometrika 6 (1908)
        1), with the intervals that statistics packages print for it; and values of t from printed tables."""
        first = [0.7, -1.6, -0.2, -1.2, -0.1, 3.4, 3.7, 0.8, 0.0, 2.0]
        second = [1.9, 0.8, 1.1, 0.1, -0.1, 4.4, 5.5, 1.6, 4.6, 3.4]
        ends = lambda one: (round(one.low, 4), round(one.high, 4))
        self.check("paired", ends(estimate_paired(first, second)), (0.7001, 2.4599))
        self.check("unpaired", ends(estimate_unpaired(first, second)), (-0.2039, 3.3639))
        self.check("of the other sign", [count_opposite([1, 1, -5, 0]), count_opposite([-1, 3, 0]), count_opposite([1, -1])], [2, 1, 0])
        self.check("two days", estimate_mean([1, 3]), Estimate(2, find_quantile(1)))
        self.check("t", [round(find_quantile(freedom), 3) for freedom in (1, 2, 3, 4, 5, 9, 10, 19, 29, 30, 60, 120, 999)],
              [12.706, 4.303, 3.182, 2.776, 2.571, 2.262, 2.228, 2.093, 2.045, 2.042, 2.000, 1.980, 1.962])
        try:
            self.check("one day", estimate_mean([1]), "a refusal")
        except ValueError as error:
            self.check("one day", str(error), "an interval needs two days or more, not 1")


if __name__ == "__main__":
    unittest.main()
