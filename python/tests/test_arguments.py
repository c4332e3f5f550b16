"""Test that wrong arguments are refused with the name of their field, and that numbers of numpy are accepted."""
from __future__ import annotations

import math
import unittest
from fractions import Fraction
from typing import Any

from zegdrut import Edit, Plan, RoadLab, Stamp
from zegdrut.base.argument_checks import encode_line

RIGHT: dict[str, Any] = {"length": 40, "inlets": [(0, 65_536)], "zones": [(3, 0)]}
NAN = math.nan


class Whole:
    """A whole number that is not an `int`, like those of numpy."""

    def __init__(self, number: int) -> None:
        self.number = number

    def __index__(self) -> int:
        return self.number


class Plans(unittest.TestCase):
    def check_refused(self, kind: type[Exception], said: str, **wrong: Any) -> None:
        with self.subTest(said), self.assertRaises(kind) as raised:
            Plan(**{**RIGHT, **wrong})
        self.assertEqual(str(raised.exception), said)

    def test_wrong_fields(self) -> None:
        self.check_refused(ValueError, "zones: a road has 1 to 64 zones, not 0: give at least one (limit, slowing chance)", zones=[])
        self.check_refused(ValueError, "length: NaN is not a number", length=NAN)
        self.check_refused(ValueError, "zones[1].slow: NaN is not a number", zones=[(3, 0), (3, NAN)])
        self.check_refused(ValueError, "inlets[0].cell: -1 is negative: it must be 0 or more", inlets=[(-1, 5)])
        self.check_refused(TypeError, "length: 40.0 must be a whole number", length=40.0)
        self.check_refused(TypeError, "length: '40' must be a whole number", length="40")
        self.check_refused(TypeError, "length: True must be a whole number", length=True)
        self.check_refused(TypeError, "exit: None must be a whole number", exit=None)
        self.check_refused(TypeError, "zone: 1.5 must be a whole number", zone=1.5)
        self.check_refused(TypeError, "zones: 5 must be a list of zones", zones=5)
        self.check_refused(TypeError, "zones[0]: 5 must be (limit, slow)", zones=[5])
        self.check_refused(TypeError, "zones[0]: (5, 0, 0) must be (limit, slow)", zones=[(5, 0, 0)])
        self.check_refused(TypeError, "inlets: 'here' must be a list of inlets", inlets="here")
        self.check_refused(TypeError, "inlets[0].inflow: 0.5 must be a whole number", inlets=[(0, 0.5)])
        self.check_refused(TypeError, "detectors[1]: 7.5 must be a whole number", detectors=[7, 7.5])
        self.check_refused(TypeError, "words: 'random' must be a whole number", words="random")
        self.check_refused(TypeError, "replicas: 'A' must be a list of names", replicas="A")
        self.check_refused(TypeError, "replicas[0]: 1 must be a string", replicas=[1])

    def test_right_fields(self) -> None:
        plan = Plan(length=Whole(40), inlets=[[Whole(0), 9]], zones=([3, Whole(0)], (5, 1)), detectors=range(3, 5))  # type: ignore
        self.assertEqual(plan.to_line(), {
            "length": 40, "exit": 1, "zone": 20, "zones": [(3, 0), (5, 1)], "inlets": [(0, 9)], "detectors": [3, 4], "words": 7,
            "replicas": ["A"]})
        self.assertTrue(all(type(value) is int for value in (plan.length, plan.zones[0][1], plan.inlets[0][0])))


class Commands(unittest.TestCase):
    def test_wrong_arguments(self) -> None:
        with RoadLab(Plan(**RIGHT, detectors=[7])) as lab:
            for said, call in (
                    ("step: 0.5 must be a whole number", lambda: lab.edit("A", ("limit", 0), 0.5, 1)),  # type: ignore
                    ("value: NaN is not a number", lambda: lab.edit("A", ("limit", 0), 0, NAN)),  # type: ignore
                    ("object: 'limit' must be (kind, index)", lambda: lab.edit("A", "limit", 0, 1)),  # type: ignore
                    ("object.index: 1.5 must be a whole number", lambda: lab.withdraw("A", ("limit", 1.5), 0)),  # type: ignore
                    ("at: 3 must be a string", lambda: lab.cells(3, 0)),  # type: ignore
                    ("to: 1000.0 must be a whole number", lambda: lab.advance("A", 1e3)),  # type: ignore
                    ("first: -1 is negative: it must be 0 or more", lambda: lab.diagram("A", -1, 5)),
                    ("detector: None must be a whole number", lambda: lab.count("A", None, 0, 5)),  # type: ignore
                    ("stamp.count: NaN is not a number",
                     lambda: lab.take_in("A", [Edit(("limit", 0), 0, Stamp(NAN, 64), 2)])),  # type: ignore
                    ("edit.value: NaN cannot be written in a script",
                     lambda: lab.command("edit", "A", object=["limit", 0], step=0, value=NAN)),
                    ("edit.object[1]: Fraction(1, 2) must be a whole number",
                     lambda: lab.command("edit", "A", object=["limit", Fraction(1, 2)], step=0, value=1))):
                with self.subTest(said), self.assertRaises((TypeError, ValueError)) as raised:
                    call()
                self.assertEqual(str(raised.exception), said)
            self.assertEqual(lab.edit("A", ("limit", Whole(0)), Whole(3), Whole(2)), (1, 0))  # type: ignore
            self.assertEqual(lab.advance("A", 5), 5)

    def test_a_line_keeps_its_characters(self) -> None:
        self.assertEqual(encode_line({"a": [Whole(3), 2 ** 63, "ü\n", None]}), '{"a":[3,9223372036854775808,"ü\\n",null]}'.encode())
        with self.assertRaisesRegex(ValueError, "half of a surrogate pair"):
            encode_line({"a": "\ud800"})


if __name__ == "__main__":
    unittest.main()
