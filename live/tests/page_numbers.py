"""Compare the figures of two roads that the page shows and saves with those of the cars of each step, on random roads. Some are
simulated for five hours."""
from __future__ import annotations

import csv
import random
import re

from browsers import BrowserCase, Tab
from raw_figures import STEPS, Run, Wanted, figures_of, random_plan, random_shapes
from running import ALL

ROADS = 30 if ALL else 5
FIVE_HOURS = 18_000
KM = 7.5 / 1_000

SHOWN = {"delay": ("delay, vehicle hours", 2), "hours": ("vehicle hours on the road", 2), "travel": ("travel time from km {inlet} to the end, s", 1),
         "cars": ("cars at km {detector}", 0)}
"""By key: the name of a row of the page, and its decimals."""
BESIDE = {"travel": (" s", 1), "flow": ("/h", 0), "speed": (" km/h", 1)}
"""By key: the unit and the decimals of what stands beside the cars at a detector."""
SAVED = {"delay": "delay", "delay at": "mean delay to {place}", "hours": "vehicle hours on the road", "admitted": "admitted cars",
         "admitted at": "admitted cars of {name}", "travel": "travel time from km {inlet} to the end", "cars": "cars at km {detector}",
         "flow": "km {detector}: cars/h", "speed": "km {detector}: time-mean km/h", "on": "km {detector}: time on"}
"""By key: the name of a line of the saved table."""


def number(text: str) -> float | None:
    return float(re.sub(r"[^\d.+-]", "", text.replace("−", "-"))) if re.search(r"\d", text) else None


def km(cell: int) -> str:
    return f"{cell * KM:.4f}".rstrip("0").rstrip(".")


class Numbers(BrowserCase):
    """One tab, on a new road each time."""

    names = ("Ada",)

    def test_page_and_saved_figures_equal_those_of_the_cars(self) -> None:
        for case in range(ROADS):
            chance, steps = random.Random(500 + case), FIVE_HOURS if case % 3 == 1 else STEPS
            plan = random_plan(chance)
            tab, = self.open(plan)
            shapes = random_shapes(plan, chance, steps)
            tab.driver.execute_async_script("""
                const [shapes, to, done] = arguments;
                ask({clock: {to}}).then(async () => {
                  for (const [index, shape] of shapes.entries()) {
                    if (index === Math.floor(shapes.length / 2)) await ask({send: {at: store.me.at, name: "shared", title: ""}});
                    await ask({gesture: {at: store.me.at, key: `k${index}`, note: "", shape}});
                  }
                  done();
                });""", shapes, steps)
            tab.driver.refresh()
            tab.until(lambda: tab.text("line").startswith("connected"), "connected")
            tab.show(3_600 if steps < 3_600 else 36_000)
            end = f"{steps // 3600}:{steps // 60 % 60:02}:00"
            tab.until(lambda: "…" not in tab.text("figures") and tab.text("period") == f"0:00:00 to {end}", "the figures")
            edits = tab.driver.execute_async_script("""
                const [done] = arguments;
                Promise.all(["shared", store.me.at].map((at) => store.connection.ask({scenario: {at}}))).then((said) => done(said.map(({edits}) => edits)));""")
            before, after = (Run(plan, one, steps) for one in edits)
            wanted = figures_of(before, after, 0, steps)
            self.inlets, self.detectors = ([km(one) for one in cells] for cells in ([cell for cell, _ in plan["inlets"]], plan["detectors"]))
            self.shown_is(tab, wanted)
            self.saved_is(tab, end, wanted)

    def name_of(self, names: str, inlet: int | None, detector: int | None) -> str:
        """Return a name with its places."""
        return names.format(inlet=None if inlet is None else self.inlets[inlet], detector=None if detector is None else self.detectors[detector],
                            place="the end" if detector is None else f"km {self.detectors[detector]}", name="the ramp" if inlet else "the main road")

    def near(self, text: str, value: float | None, digits: int, what: object) -> None:
        found = number(text)
        self.assertEqual(found is None, value is None, (what, text, value))
        if found is not None and value is not None:
            self.assertAlmostEqual(found, value, delta=0.5001 * 10 ** -digits, msg=str((what, text)))

    def shown_is(self, tab: Tab, wanted: Wanted) -> None:
        """Check the table of the page, to the digits that it shows: mine, shared and the difference."""
        rows = {head[0]: cells for head, *cells in tab.script(
            "return [...document.querySelectorAll('#figures tbody tr')].map((line) => [...line.children].map((one) =>"
            " [one.firstChild?.data ?? '', one.querySelector('.trip')?.textContent ?? '', one.querySelector('small')?.textContent ?? '']))")}
        for (key, inlet, detector), (before, after, change) in wanted.items():
            if key in SHOWN and detector is None and not inlet or key == "cars":  # (travel times are those of the main road)
                names, digits = SHOWN[key]
                for (text, *_), value in zip(rows[self.name_of(names, inlet, detector)], (after, before, change)):
                    self.near(text, value, digits, (key, inlet, detector))
            elif key in BESIDE and not inlet:
                unit, digits = BESIDE[key]
                cells = rows[self.name_of("cars at km {detector}", None, detector)]
                for (_, trip, small), value in zip(cells if key == "travel" else cells[:2], (after, before, change)):
                    text, = (text for text in (trip if key == "travel" else small).split(", ") if re.fullmatch(rf"\s*\S+{unit}", text))
                    self.near(text, value, digits, (key, inlet, detector))

    def saved_is(self, tab: Tab, end: str, wanted: Wanted) -> None:
        """Check figures.csv to four digits."""
        with open(tab.save("Figures as CSV", "figures.csv"), encoding="utf-8", newline="") as file:
            self.assertEqual(next(file), f"# the road of Ada and the shared one, plan.json, 0:00:00 to {end}, per lane\n")
            rows = {row["figure"]: row for row in csv.DictReader(file)}
        for (key, inlet, detector), values in wanted.items():
            names = SAVED[key] if key != "travel" or detector is None else "km {detector}: travel time from km {inlet}"
            row = rows.pop(self.name_of(names, inlet, detector))
            for column, value in zip(("shared", "mine", "mine minus shared"), values):
                self.near(row[column], value, 4, (key, inlet, detector, column))
        self.assertTrue(all(re.match("lost |demand", name) for name in rows), rows.keys())
