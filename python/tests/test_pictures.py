"""Test that charts and space-time diagrams are readable, and that progress reaches a log."""
from __future__ import annotations

import contextlib
import io
import re
import subprocess
import sys
import unittest
import unittest.mock

from test_page import TOP, find_python
from zegdrut.base.progress_bars import Bar
from zegdrut.base.units import format_fixed
from zegdrut.reports.pictures import Chart, Line, draw_field
from zegdrut.roads import Clock

HOUR = 3_600


def find_places(svg: str) -> dict[str, float]:
    """Return the y coordinate of each text."""
    return {re.sub("<[^>]*>", "", text): float(y) for y, text in re.findall(r'<text x="[^"]*" y="([^"]*)"[^>]*>(.*?)</text>', svg)}


class Charts(unittest.TestCase):
    def chart(self, title: str, names: list[str], has_band: bool = False, width: int = 640) -> str:
        chart = Chart(title, "km/h", Clock(), 0, HOUR)
        for name in names:
            chart.add(Line(name, [(0, 1.0), (HOUR, 2.0)], "#000", [0.0, 1.0] if has_band else None, [2.0, 3.0] if has_band else None))
        return chart.draw(width, 175)

    def test_nothing_is_above_the_frame(self) -> None:
        """A chart shows its `top`, and more if a line or a band is above it. The highest label is within the picture."""
        for top, high, least in ((135.0, 100.0, 135), (135.0, 161.0, 161), (None, 161.0, 161)):
            chart = Chart("Speed", "km/h", Clock(), 0, HOUR, top=top)
            chart.add(Line("a", [(0, 50.0), (HOUR, high)], "#000", [40.0, high - 1], [60.0, high]))
            svg = chart.draw(640, 175)
            frame = float(re.findall(r'<rect x="[^"]*" y="([^"]*)" [^>]* fill="none"', svg)[0])
            ys = [float(point.split(",")[1]) for points in re.findall(r'points="([^"]*)"', svg) for point in points.split()]
            self.assertGreaterEqual(min(ys), frame - 0.01)
            labels = {float(text): y for text, y in find_places(svg).items() if re.fullmatch(r"[0-9.]+", text)}
            self.assertGreaterEqual(max(labels), least)
            self.assertGreater(min(labels.values()), 11)

    def test_a_long_legend_has_its_own_line(self) -> None:
        for title, names, width, lines in (
                ("Flow", ["a", "b"], 640, 1), ("Time-mean speed, km 2.7975", ["without works", "with works"], 470, 2),
                ("Flow", ["a", "b"], 470, 2), ("Time-mean speed, station 402, km 2.7975", ["simulated with much more", "measured, too"], 640, 2)):
            places = find_places(self.chart(title, names, width=width))
            legend = next(y for text, y in places.items() if names[0] in text and text != title)
            self.assertEqual(len({places[title], legend}), lines)

    def test_a_band_is_in_the_legend(self) -> None:
        for has_band in (False, True):
            self.assertEqual("95 % interval of the mean" in self.chart("Flow", ["a"], has_band), has_band)

    def test_a_short_closure_is_visible(self) -> None:
        """Draw a cell of a road of 6 km, which is a fifth of a pixel high, for six minutes of three hours, which are 28 wide."""
        svg = draw_field([[90.0]], "Speed", Clock(), 0, 3 * HOUR, 6.0, width=900, height=210, closed=[(HOUR, HOUR + 360, 4.2, 4.2075)])
        found = re.search('class="closure" x="([^"]*)" y="([^"]*)" width="([^"]*)" height="([^"]*)"', svg)
        assert found
        left, top, width, height = map(float, found.groups())
        self.assertAlmostEqual(left, 58 + 830 / 3, delta=0.1)
        self.assertAlmostEqual(width, 830 / 30, delta=0.1)
        self.assertGreaterEqual(height, 6)
        self.assertAlmostEqual(top + height / 2, 26 + 150 * (1 - 4.20375 / 6), delta=0.2)


class Numbers(unittest.TestCase):
    def test_no_number_is_minus_zero(self) -> None:
        for value, digits, wanted in ((-0.04, 1, "0.0"), (-0.4, 0, "0"), (-0.06, 1, "-0.1"), (-1_234.56, 1, "-1234.6"), (0.0, 2, "0.00")):
            self.assertEqual(format_fixed(value, digits), wanted)
            self.assertEqual(format_fixed(value, digits, ","), wanted.replace("-1234", "-1,234"))


class Bars(unittest.TestCase):
    def test_a_log_has_a_line_every_ten_seconds(self) -> None:
        for in_log, wanted in ((True, "3 of 9 days; so far\n7 of 9 days; so far\n"), (False, "")):
            times = iter([0.0, 4.0, 9.9, 10.0, 10.0, 13.0, 19.0, 19.9, 25.0, 25.0, 26.0, 27.0])
            with contextlib.redirect_stderr(io.StringIO()) as said, unittest.mock.patch("time.monotonic", lambda: next(times)):
                bar = Bar("days", in_log)
                for done in range(1, 10):
                    bar.show(done, 9, "; so far")
                bar.end()
            self.assertEqual(said.getvalue(), wanted)

    def draw(self, *setup: str) -> str:
        """Return what a sweep of six runs writes to standard error, without the numbers of tqdm that depend on time."""
        code = "\n".join([*setup, "import time", "from zegdrut.sweeps import sweep", "from zegdrut.base.progress_bars import Bar",
                          "from zegdrut.commands.sweep import show_on", "bar = Bar('runs', in_log=True)",
                          "def model(x, seed):\n    time.sleep(0.2)\n    return {'y': 6 / x}",
                          "sweep(model, {'x': range(6)}, jobs=1, progress=show_on(bar)); bar.end()"])
        ran = subprocess.run([find_python("tqdm") or sys.executable, "-c", code], cwd=TOP, capture_output=True, text=True, check=False)
        self.assertEqual((ran.returncode, ran.stdout), (0, ""), ran.stderr)
        return ran.stderr

    def test_a_bar(self) -> None:
        """On a terminal and in a notebook, tqdm draws the bar; without it there are signs on a terminal, and nothing in a notebook."""
        terminal, none = "import sys; sys.stderr.isatty = lambda: True", "import sys; sys.modules['tqdm'] = None"
        notebook = "import sys, types; shell = types.SimpleNamespace(config={'IPKernelApp': {}})\n" \
                   "sys.modules['IPython'] = types.SimpleNamespace(get_ipython=lambda: shell)"
        if find_python("tqdm") is None:
            self.skipTest("tqdm not installed")
        for setup in (terminal, notebook):
            self.assertRegex(self.draw(setup), r"100%\|\S+\| 6/6 \[.*runs/s, 1 failed\]")
        self.assertRegex(self.draw(terminal, none), r"\n\[#{20}\.{20}\] 3 of 6 runs, 1 failed, \d s left"
                         r"[^\n]*\n(.*\n){2}\[#{40}\] 6 of 6 runs, 1 failed, 0 s left")
        self.assertEqual((self.draw(none, notebook), self.draw()), ("", ""))


if __name__ == "__main__":
    unittest.main()
