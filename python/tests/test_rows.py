"""Test density, flow, speeds and arrays of rows, with values that were worked out by hand."""
from __future__ import annotations

import subprocess
import sys
import unittest

from test_page import TOP, find_python
from zegdrut import measure_traffic
from zegdrut.program.road_rows import Sums, to_array, add_up

ROWS = ["0..2.#", "9.1..."]


ALL_ROWS = '''
from zegdrut import Plan, RoadLab
for length, to in ((60, 2_500), (8_192, 700)):
    plan = Plan(length=length, inlets=[(0, 30_000), (length // 2, 60_000)], zones=[(9, 2_000)])
    with RoadLab(plan) as lab:
        lab.edit("A", ("block", length - 5), 100, 1)
        lab.advance("A", to)
        rows = lab.diagram("A", 3, to)
        assert len(rows) == to - 2
        for cells in (None, (20, 50), (0, length), (0, 30), (30, length), (20, 21)):
            for first, last in ((3, to + 1), (3, to), (5, 6), (257, 520)):
                left, right = cells or (0, length)
                seen = [cell for row in rows[first - 3:last - 3] for cell in row[left:right]]
                cars = [int(cell) for cell in seen if cell.isdigit()]
                found = lab.traffic("A", first, last, cells)
                assert found == (len(cars) / len(seen), sum(cars) / len(seen), sum(cars) / len(cars) if cars else None), (cells, first, last)
        for wrong in ((5, 5, None), (5, 9, (7, 7))):
            try:
                lab.traffic("A", *wrong)
                raise AssertionError("no error")
            except ValueError as fault:
                assert str(fault) == "there are no cells or no rows"
from zegdrut.program.road_rows import Rows
fast = Rows.read(b'{"rows":[' + b",".join([b'"9' + b"." * 399 + b'"'] * 20_000) + b"]}")
assert fast.add_up(0, 1) == (20_000, 180_000, 20_000) and fast.add_up(0, None) == (20_000, 180_000, 8_000_000)
print("as expected")
'''
ARRAYS = '''
import tracemalloc, numpy
from zegdrut import Plan, RoadLab, to_array
with RoadLab(Plan(length=8_192, inlets=[(0, 30_000)], zones=[(4, 9_000)])) as lab:
    lab.edit("A", ("block", 100), 100, 1)
    lab.advance("A", 4_100)
    rows = lab.diagram("A", 3, 4_002)
    for make in (lambda: lab.array("A", 3, 4_002), lambda: to_array(rows)):
        tracemalloc.start()
        found = make()
        peak = tracemalloc.get_traced_memory()[1]
        tracemalloc.stop()
        assert peak < 1.5 * found.nbytes, peak / found.nbytes
        assert found.dtype == numpy.int8 and found.shape == (4_000, 8_192)
        assert all(found[step].tolist() == [-1 if cell == "." else -2 if cell == "#" else int(cell) for cell in rows[step]] for step in range(0, 4_000, 97))
    assert lab.array("A", 9, 8).shape == (0, 8_192)
print("as expected")
'''


class Rows(unittest.TestCase):
    def test_sums(self) -> None:
        self.assertEqual(add_up(ROWS), Sums(4, 12, 12))
        self.assertEqual(add_up(ROWS, 1, 4), Sums(2, 3, 6))
        self.assertEqual(measure_traffic(ROWS, 1, 4), (2 / 6, 3 / 6, 1.5))
        self.assertEqual(measure_traffic(["...", "..#"]), (0, 0, None))
        self.assertEqual(add_up(["9" * 40_000, "#" * 30_000 + "8.", "." * 20_000 + "0"]), Sums(40_002, 360_008, 90_003))
        for rows in ([], [""]):
            with self.assertRaisesRegex(ValueError, "there are no cells or no rows"):
                measure_traffic(rows)

    def test_all_rows(self) -> None:
        """Compare the traffic of all rows with the diagram, over several pieces, with numpy and without it."""
        for first in ("", "import sys\nsys.modules['numpy'] = None\n"):
            ran = subprocess.run([find_python("numpy") or sys.executable, "-c", first + ALL_ROWS], capture_output=True, text=True, check=False, cwd=TOP)
            self.assertEqual((ran.returncode, ran.stdout), (0, "as expected\n"), ran.stderr)

    def test_arrays_of_labs(self) -> None:
        """Compare with `to_array`; the memory at the peak is at most one and a half times the array."""
        python = find_python("numpy")
        if python is None:
            self.skipTest("numpy not installed")
        ran = subprocess.run([python, "-c", ARRAYS], capture_output=True, text=True, check=False, cwd=TOP)
        self.assertEqual((ran.returncode, ran.stdout), (0, "as expected\n"), ran.stderr)

    def test_arrays(self) -> None:
        """Check the smallest type that holds all speeds and both marks, with a Python that has numpy."""
        python = find_python("numpy")
        if python is None:
            self.skipTest("numpy not installed")
        code = ("from zegdrut import to_array\n"
                f"road = to_array({ROWS!r})\n"
                "print(road.tolist(), road.dtype, road.shape, to_array([]).shape, to_array([]).dtype)\n"
                "for rows in (['0..', '.'], ['0.x'], ['0.é']):\n"
                "    try: print(to_array(rows))\n"
                "    except ValueError as fault: print(fault)\n")
        ran = subprocess.run([python, "-c", code], capture_output=True, text=True, check=True, cwd=TOP)
        said = "a row contains a character that is not a digit, \".\" or \"#\""
        self.assertEqual(ran.stdout.splitlines(), [
            "[[0, -1, -1, 2, -1, -2], [9, -1, 1, -1, -1, -1]] int8 (2, 6) (0, 0) int8", "the rows differ in length", said, said])

    def test_without_numpy(self) -> None:
        there = sys.modules.get("numpy")
        sys.modules["numpy"] = None  # type: ignore[assignment]
        try:
            with self.assertRaisesRegex(ImportError, "python3-numpy"):
                to_array(ROWS)
        finally:
            del sys.modules["numpy"]
            sys.modules.update({"numpy": there} if there else {})


if __name__ == "__main__":
    unittest.main()
