"""A test that goes on after a difference, and names each."""
from __future__ import annotations

import unittest


class Checked(unittest.TestCase):
    """A test with many values: each difference is a failure of its own, with its name."""

    def check(self, name: str, found: object, wanted: object) -> None:
        """Compare a value."""
        with self.subTest(name):
            self.assertEqual(found, wanted)

    def check_near(self, name: str, found: float, wanted: float, by: float) -> None:
        """Compare a number, which may differ by a little."""
        with self.subTest(name):
            self.assertLessEqual(abs(found - wanted), by, f"found {found:g}, wanted {wanted:g} to {by:g}")
