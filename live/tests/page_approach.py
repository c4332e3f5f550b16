"""Test the page on a road with an approach: the picture begins at km 0 and minute 0 and can show the approach, and places before km 0 can be
typed, read and saved."""
from __future__ import annotations

import csv
import re
from typing import Any

from approach import KM, LEAD, ORIGIN
from browsers import FREEWAY, BrowserCase, Tab, operations_of, preview_rows, shapes_of
from raw_figures import Run, figures_of
from selenium.webdriver.common.keys import Keys

LAST = LEAD + 600
KMS = ["0", *(f"0.{tenth}" for tenth in range(1, 10)), "1", "1.1", "1.2"]
DRAWN = """
    const texts = [], {fillText} = CanvasRenderingContext2D.prototype;
    CanvasRenderingContext2D.prototype.fillText = function (...said) { texts.push(said); };
    drawDiagram();
    CanvasRenderingContext2D.prototype.fillText = fillText;
    return texts;"""


class Approach(BrowserCase):
    """One tab."""

    names = ("Ada",)

    def begin(self) -> Tab:
        """Run the clock to the file's last minute."""
        tab, = self.open(KM)
        self.assertEqual(tab.text("clock"), "07:00:00")
        self.assertFalse(tab.script("return $('emptyHint').hidden"))
        tab.driver.execute_async_script("ask({clock: {to: arguments[0]}}).then(arguments[1])", LAST)
        tab.until(lambda: tab.text("clock") == "07:10:00", "the clock")
        tab.settled()
        self.assertTrue(tab.script("return $('emptyHint').hidden"))
        return tab

    def rows(self, tab: Tab) -> list[str]:
        """Return the rows of the own road."""
        found: list[str] = tab.driver.execute_async_script(
            "ask({diagram: {at: store.me.at, from: 0, to: arguments[0]}}).then(({rows}) => arguments[1](rows))", LAST)
        return found

    def readout_equals_a_row(self, tab: Tab, cells: range) -> None:
        """Look at the first free car in these cells while the picture shows one minute, in which a step is several pixels high."""
        span = str(tab.script("return store.extent.span"))
        tab.choose("span", "60")
        tab.settled()
        first = tab.script("return store.extent.step") + 5
        step, cell = next((step, cell) for step, row in enumerate(self.rows(tab)[first:first + 50], first) for cell in cells
                          if row[cell] == "5" and cell % 4 != 2 and step % 60)  # no half of 10 m, and no full minute
        minutes, seconds = divmod(step - LEAD, 60)
        self.assertEqual(tab.point(cell + 0.5, step + 0.3),
                         f"{(cell - ORIGIN) * 0.0075:.2f} km, 07:{minutes:02}:{seconds:02}: a car at 135 km/h; limit 135 km/h")
        tab.choose("span", span)
        tab.settled()

    def km_texts(self, tab: Tab) -> list[str]:
        """Return the places that the picture's axis names."""
        return [text for text, *_ in tab.script(DRAWN) if re.fullmatch(r"-?[\d.]+", text)]

    def test_the_picture_begins_at_km_0_and_minute_0(self) -> None:
        tab = self.begin()
        self.assertEqual(tab.script("return store.extent"), {"cell": ORIGIN, "cells": 160, "step": LEAD, "span": 3_600})
        self.assertEqual(self.km_texts(tab), KMS)
        self.assertLess({"07:00", "07:10", "07:20"}, {text for text, *_ in tab.script(DRAWN)})
        tab.choose("span", "900")
        tab.settled()
        self.assertEqual(tab.script("return store.extent.step"), LEAD)
        drawn = {text: place for text, *place in tab.script(DRAWN)}
        left, top, lower = tab.script("const view = viewNow(); return [leftOf(view, 160), topOf(view, 240), topOf(view, 840)]")
        self.assertAlmostEqual(drawn["0"][0], left, 3)
        self.assertEqual([drawn[time][1] - 1 for time in ("07:00", "07:10")], [top, lower])
        self.readout_equals_a_row(tab, range(ORIGIN + 10, ORIGIN + 100))

    def test_the_approach_is_shown_by_a_button_and_by_keys(self) -> None:
        tab = self.begin()
        tab.press("With approach")
        tab.settled()
        self.assertEqual(tab.script("return [store.extent.cell, store.extent.cells]"), [0, 320])
        self.assertEqual(self.km_texts(tab), ["-1.2", "-1", "-0.8", "-0.6", "-0.4", "-0.2", *KMS[::2]])
        self.readout_equals_a_row(tab, range(20, 100))
        tab.script("$('asTable').open = true")
        tab.until(lambda: tab.script("return $('speeds').rows.length > 0"), "the table")
        heads = "return [...$('speeds').querySelectorAll('thead th')].map((one) => one.textContent)"
        self.assertEqual([tab.script(heads)[index] for index in (0, -1)], ["-1.2 to -0.96 km", "0.96–1.2 km"])
        tab.press("Whole road")
        tab.settled()
        tab.until(lambda: [tab.script(heads)[index] for index in (0, -1)] == ["0–0.12 km", "1.08–1.2 km"], "the table begins at km 0")
        self.assertEqual(tab.script("return [store.extent.cell, store.extent.cells]"), [ORIGIN, 160])
        tab.keys(*[Keys.ARROW_LEFT] * 110)  # the cursor leaves the picture to the left, and the picture follows it
        tab.settled()
        self.assertLess(tab.script("return store.extent.cell"), ORIGIN)
        self.assertRegex(tab.text("readout"), r"^-\d\.\d\d km, ")
        tab.keys(Keys.HOME)
        tab.settled()
        self.assertEqual(tab.script("return store.extent.step"), 0)
        self.assertIn("07:00", [text for text, *_ in tab.script(DRAWN)])

    def test_a_road_without_an_approach_has_no_such_button(self) -> None:
        tab, = self.open(FREEWAY)
        self.assertFalse(tab.part("withApproach").is_displayed())

    def test_places_and_times_are_typed_and_listed(self) -> None:
        tab = self.begin()
        tab.tool("block")
        tab.type_and_apply(kmFrom="-0.9", kmTo="-0.855", timeFrom="6:58", timeTo="-1")
        self.assertEqual(shapes_of(operations_of(self.server)[-1]), [["block", 40, 45, 120, 180, 1]])
        self.assertEqual(tab.lines("own"), ["Closed -0.9 to -0.855 km, 06:58–06:59 private"])
        tab.press("Change", "#own")
        self.assertEqual([tab.part(field).get_attribute("value") for field in ("kmFrom", "kmTo", "timeFrom", "timeTo")], ["-0.9", "-0.855", "06:58", "06:59"])
        tab.press_in("#dropChange")
        tab.tool("limit")
        tab.type_and_apply(kmFrom="-0.1", kmTo="0.3", timeFrom="7:00", timeTo="7:05")
        self.assertEqual(shapes_of(operations_of(self.server)[-1]), [["limit", 7, 9, LEAD, LEAD + 300, 2]])
        self.assertEqual(tab.text("said"), "54 km/h, -0.15 to 0.3 km, 07:00–07:05: done. Rounded to whole zones: -0.15 to 0.3 km.")
        for fields, said in (({"kmFrom": "-1.3", "kmTo": "0"}, "Type two places from -1.2 to 1.2 km, the smaller first."),
                             ({"kmFrom": "0", "kmTo": "0.3", "timeFrom": "-5"}, "“-5” is not a time. Type 7:00, 07:00:30 or, in minutes after 07:00, 20.")):
            tab.type_and_apply(**fields)
            self.assertEqual(tab.text("said"), said)
        tab.tool("inflow")
        self.assertEqual(tab.script("return [...$('inlet').options].map((one) => one.textContent)"), ["the inlet at -1.2 km", "the inlet at 0.45 km"])
        self.assertEqual(tab.script("return [...$('site').options].map((one) => one.textContent)"), ["the detector at 0.3 km", "the detector at 0.75 km"])
        self.assertEqual(tab.script("return [...document.querySelectorAll('#fileDemandTable tr')].map((row) => "
                                    "[...row.children].map((cell) => cell.textContent).join(' '))"),
                         ["from at -1.2 km at 0.45 km", "06:56 900 200", "07:04:27 600 200"])
        tab.driver.refresh()
        tab.until(lambda: len(tab.lines("own")) == 2, "the lists after a reload")
        self.assertIn("Closed -0.9 to -0.855 km, 06:58–06:59 private", tab.lines("own"))

    def shown(self, tab: Tab) -> dict[str, list[float | None]]:
        """Return the rows of vehicle hours: mine and shared."""
        rows = tab.script("return [...document.querySelectorAll('#figures tbody tr')].map((line) => [...line.children].map((one) => "
                          "one.firstChild?.data ?? ''))")
        return {name: [float(text.replace(",", "")) if re.search(r"\d", text) else None for text in texts[:2]] for name, *texts in rows if "hours" in name}

    def test_hours_before_km_0_and_from_there_on_are_apart(self) -> None:
        """The table has those of the cars of each step, first as sums of minutes and then with all other figures; so has the saved one."""
        tab = self.begin()
        tab.tool("block")
        tab.type_and_apply(kmFrom="-0.9", kmTo="-0.855", timeFrom="7:01", timeTo="7:04")
        tab.until(lambda: "…" not in tab.text("figures"), "the figures")
        edits = tab.driver.execute_async_script("""
            const [done] = arguments;
            Promise.all(["shared", store.me.at].map((at) => store.connection.ask({scenario: {at}}))).then((said) => done(said.map(({edits}) => edits)));""")
        plan: Any = {**tab.script("return store.plan"), "replicas": ["road"]}
        del plan["origin"]
        shared, mine = (Run(plan, one, LAST, ORIGIN) for one in edits)
        wanted = figures_of(shared, mine, LEAD, LAST)
        names = {"hours": "vehicle hours from km 0 on", "approach hours": "vehicle hours before km 0", "all hours": "vehicle hours on the road and before it"}
        self.assertEqual(tab.text("period"), "07:00 to 07:10")
        exact = self.shown(tab)
        tab.script("store.figures.exactKey = ''; notify('figures');")
        counted = self.shown(tab)
        with open(tab.save("Figures as CSV", "figures.csv"), encoding="utf-8", newline="") as file:
            self.assertEqual(next(file), "# the road of Ada and the shared one, plan.json, 2026-03-02, 07:00 to 07:10, per lane\n")
            saved = {row["figure"]: [float(row["mine"]), float(row["shared"])] for row in csv.DictReader(file) if "hours" in row["figure"] and row["mine"]}
        for key, name in names.items():
            before, after, _ = wanted[key, None, None]
            assert before is not None and after is not None
            for found, digits in ((exact[name], 2), (counted[name], 2), (saved[name], 4)):
                self.assertEqual(found, [round(after, digits), round(before, digits)], (name, digits))
        tab.press("Share…: Closed")  # all minutes from minute 0 on
        rows = preview_rows(tab)
        self.assertEqual(tab.script("return $('previewFigures').querySelector('caption').textContent"), "07:00 to 07:10")
        heads = "return ['figures', 'previewFigures'].map((ident) => $(ident).querySelector('thead td').textContent)"
        self.assertEqual(tab.script(heads), ["per lane"] * 2)
        self.assertEqual([rows[name][:2] for name in names.values()], [(exact[name][1], exact[name][0]) for name in names.values()])
        self.assertGreater(exact[names["approach hours"]][0] or 0, (exact[names["approach hours"]][1] or 0) + 0.1)

    def test_what_is_saved_counts_from_km_0_and_minute_0(self) -> None:
        """The report's diagrams show the approach if the picture does."""
        tab = self.begin()
        tab.tool("limit")
        tab.type_and_apply(kmFrom="-0.3", kmTo="0.3", timeFrom="7:00", timeTo="7:05")
        self.assertEqual(tab.script("return captionText()"), "The road of Ada, 0–1.2 km, 07:00–08:00; the clock is at 07:10")
        path = tab.save("Counts", "counts.csv")
        self.assertEqual(path.name, "counts-plan-Ada-0700-0710.csv")
        self.assertRegex(path.read_text(encoding="utf-8"), r"^# counts of the road of Ada, plan\.json, 2026-03-02, 07:00 to 07:10, per lane\n.*\n07:00,07:05,0,0\.3,")
        plain, wide = (self.report(tab, name) for name in ("", "With approach"))
        for page, marks in ((plain, ["0", "0.5", "1", "1.2"]), (wide, ["-1", "-0.5", "0", "0.5", "1", "1.2"])):
            (field, *_) = re.findall(r'<svg [^>]*class="field".*?</svg>', page)
            self.assertEqual([mark for mark in re.findall(r'text-anchor="end">([^<]*)<', field) if ":" not in mark], marks)
            self.assertIn("<li>54 km/h, -0.3 to 0.3 km, 07:00–07:05 (new)</li>", page)
            self.assertIn("The road of Ada, and the shared one: 07:00 to 07:10, 2026-03-02", page)
        self.assertEqual(tab.script("return captionText()"), "The road of Ada, -1.2 to 1.2 km, 07:00–08:00; the clock is at 07:10")
        tab.save("Transcript", "transcript.jsonl")
        tab.until(lambda: tab.text("said").endswith("The viewer counts km from the head of the approach."), "where the viewer begins")
        tab.save_both("Scripts", "script.jsonl")
        tab.until(lambda: tab.text("said").endswith(
            'minute 0 if a file units.json beside them has {"metres":7.5,"seconds":1,"origin":160,"begin":240}.'), "how to count from km 0")

    def report(self, tab: Tab, shows: str) -> str:
        if shows:
            tab.press(shows)
            tab.settled()
        path = tab.save("Report", "report.html")
        self.assertTrue(tab.text("said").endswith("It has 5 days; for 20, press “Over 20 days” first."), tab.text("said"))
        return path.read_text(encoding="utf-8")
