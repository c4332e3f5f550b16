"""Test named variants in a browser: two are named and compared with the shared road, in the table, over days, in the picture and in the
report."""
from __future__ import annotations

import re
from typing import Any

from zegdrut.figures import Window, compute_vehicle_hours

from browsers import COLOURS, BrowserCase, Tab
from figures_told import run_with_queue
from raw_figures import Run, Wanted, figures_of
from running import SMALL

STEPS = 600
CLOSED = {"night": (60, 180), "noon": (300, 420)}  # steps in which km 0.45 is closed
CELL = 60
# Records what is written on the diagram, and its distance from the left edge.
WRITTEN = """
    const found = [], {fillText} = CanvasRenderingContext2D.prototype;
    CanvasRenderingContext2D.prototype.fillText = function (text, x, ...more) {
      found.push([text, Math.round(x + this.getTransform().e)]);
      return fillText.call(this, text, x, ...more);
    };
    drawDiagram();
    CanvasRenderingContext2D.prototype.fillText = fillText;
    return found;"""


def number(text: str) -> float | None:
    return float(re.sub(r"[^\d.+-]", "", text.replace("−", "-"))) if re.search(r"\d", text) else None


class Variants(BrowserCase):
    names = ("Ada",)

    def setUp(self) -> None:
        self.tab, = self.open(SMALL, None, LIVE_DAYS="2")
        self.tab.driver.execute_async_script("const [to, done] = arguments; ask({clock: {to}}).then(() => done());", STEPS)
        self.tab.show(900)

    def close(self, begin: int, end: int) -> None:
        self.tab.tool("block")
        self.tab.type_and_apply(kmFrom="0.45", kmTo="0.4575", timeFrom=f"0:{begin // 60:02}", timeTo=f"0:{end // 60:02}")

    def name(self, name: str, more: str = "") -> None:
        if self.tab.part("roadsPart").get_attribute("open") is None:
            self.tab.open_part("roadsPart")
        self.tab.fill(variantName=name)
        self.tab.press("Keep", "#variantForm")
        self.tab.until(lambda: self.tab.text("said") == f"Your road is kept as “{name}”.{more}", "it is kept")
        self.assertEqual(self.tab.part("variantName").get_attribute("value"), "")

    def name_both(self) -> None:
        for name, (begin, end) in CLOSED.items():
            self.close(begin, end)
            self.name(name)
            self.tab.press("Undo")
            self.tab.settled()

    def choose(self, *roads: str) -> None:
        for road in roads:
            self.tab.script("""
                const one = [...document.querySelectorAll("#roadList > li")].find((li) => li.querySelector("label").textContent.trim() === arguments[0]);
                one.querySelector("input").click();""", road)
        self.tab.settled()

    def edits_of(self, name: str) -> list[Any]:
        begin, end = CLOSED.get(name, (0, 0))
        return [["block", CELL, begin, 1, 64, 1], ["block", CELL, end, 2, 64, 0]] if end else []

    def run_of(self, name: str) -> Run:
        return Run({**SMALL, "replicas": ["road"]}, self.edits_of(name), STEPS)

    def table(self, tab: Tab, ident: str) -> tuple[list[str], dict[str, list[str]]]:
        """Return the heads of a table of figures, and its rows by their names."""
        tab.until(lambda: tab.script(f"return document.querySelector('#{ident} tbody td') !== null"), "a table")
        heads: list[str] = tab.script(f"return [...document.querySelectorAll('#{ident} thead th')].map((one) => one.textContent)")
        rows = tab.script(f"return [...document.querySelectorAll('#{ident} tbody tr')].map((line) => "
                          "[...line.children].map((one) => one.firstChild?.data ?? ''))")
        return heads, {name: values for name, *values in rows}

    def test_night_and_noon_are_compared_with_the_shared_road(self) -> None:
        tab = self.tab
        self.name_both()
        self.choose("“night”", "“noon”", "shared")
        tab.until(lambda: "…" not in tab.text("figures") and "delay" in tab.text("figures"), "the figures")
        heads, rows = self.table(tab, "figures")
        self.assertEqual(heads, ["“night”", "“noon”", "shared", "“noon” −\xa0“night”", "shared −\xa0“night”"])
        runs = {name: self.run_of(name) for name in ("night", "noon", "shared")}
        tables: list[Wanted] = [figures_of(runs["night"], runs[name], 0, STEPS) for name in ("noon", "shared")]
        for key, row, digits in ((("delay", None, None), "delay, vehicle hours", 2), (("hours", None, None), "vehicle hours on the road", 2),
                                 (("cars", None, 1), "cars at km 0.525", 0)):
            (first, second, change), (_, third, other) = (one[key] for one in tables)
            for text, value in zip(rows[row], (first, second, third, change, other), strict=True):
                self.assertEqual(number(text), None if value is None else round(value, digits) + 0.0, (row, text))
        self.assertNotEqual(*(one["hours", None, None][2] for one in tables))
        self.picture_is(tab)
        tab.show(300)
        self.assertEqual(tab.text("warnings"), "1 change of “noon” lies outside 0:00:00 to 0:05:00, the period of these figures.")
        tab.show(900)
        self.assertEqual(tab.text("warnings"), "")
        self.days_are(tab)
        self.saved_is(tab)

    def picture_is(self, tab: Tab) -> None:
        """Check that each road has a picture, with its own closure, of the same places and times."""
        self.assertEqual(tab.script("return store.whose"), "beside")
        wide, apart = tab.script("return widthNow()")
        names = {text: x for text, x in tab.script(WRITTEN) if text in ("“night”", "“noon”", "shared")}
        left = tab.script("return MARGIN.left")
        self.assertEqual(list(names.values()), [round(left + wide + apart * place) for place in range(3)])
        for step in (120, 360):
            closed = [self.pixel(tab, apart * place, step) == COLOURS["#"] for place in range(3)]
            self.assertEqual(closed, [begin <= step < end for begin, end in (*CLOSED.values(), (0, 0))], step)
        for place, road in enumerate(("night", "noon", "shared")):  # the text says what each road has there
            tab.script("readPlace([arguments[0], arguments[1]], false)", CELL, 120)
            parts = tab.text("readout").partition("0:02:00: ")[2].partition("; limit")[0].split("; ")
            self.assertEqual(parts[place].partition(": ")[0].strip("“”"), road)
            self.assertEqual(parts[place].partition(": ")[2] == "closed", road == "night")
        self.assertTrue(tab.script("return captionText()").startswith("“night”, “noon” and the shared road, side by side, 0–0.9 km"))
        self.assertEqual(tab.save("Picture of the diagram", "diagram.png").name.split("-0000")[0], "diagram-plan-night-noon-shared")

    def pixel(self, tab: Tab, across: float, step: int) -> tuple[int, ...]:
        return tuple(tab.script("""
            const [cell, step, across] = arguments, view = viewNow();
            return [...$("diagram").getContext("2d").getImageData(Math.round(leftOf(view, cell + 0.5) + across),
              Math.round(topOf(view, step)), 1, 1).data].slice(0, 3);""", CELL, step, across))

    def days_are(self, tab: Tab) -> None:
        tab.press("Over 2 days", "#days")
        tab.until(lambda: tab.text("over").startswith("Over 2 days, 0:00:00 to 0:10:00"), "the days")
        heads, rows = self.table(tab, "over")
        self.assertEqual(heads, ["“night”", "“noon”", "shared", "“noon” −\xa0“night”", "shared −\xa0“night”"])
        hours = [[compute_vehicle_hours(run_with_queue({**SMALL, "words": day}, self.edits_of(name), 0, STEPS).trips, Window(0, STEPS)) for day in (1, 2)]
                 for name in ("night", "noon", "shared")]
        means = [sum(one) / 2 for one in hours]
        found = [number(text) for text in rows["vehicle hours on the road"]]
        for text, value in zip(found, [*means, means[1] - means[0], means[2] - means[0]], strict=True):
            self.assertAlmostEqual(text or 0, value, delta=0.005 + 1e-9)
        self.report_is(tab, [text for text, _ in zip(rows["vehicle hours on the road"], range(3))])
        tab.press("One day", "#days")
        self.assertNotIn("It has", tab.text("said"))

    def report_is(self, tab: Tab, hours: list[str]) -> None:
        """Check that the report has the days and the period of the table of days, though the diagram shows a later period."""
        step = tab.script("const {step} = store.extent; store.extent.step = 120; return step")
        path = tab.save("Report", "report.html")
        tab.script("store.extent.step = arguments[0]", step)
        self.assertEqual(path.name, "report-plan-night-noon-shared-0000-0010.html")
        page = path.read_text(encoding="utf-8")
        line = page.partition("<td>vehicle hours on the road</td>")[2].partition("</tr>")[0]
        self.assertEqual(re.findall("<td>([^<]*)</td>", line)[:6:2], hours)
        for wanted in ("<h1>“night”, “noon” and the shared road: 0:00:00 to 0:10:00</h1>",
                       "<th>mean of 2 days, per lane</th><th>“night”</th><th>±</th><th>“noon”</th><th>±</th><th>shared</th><th>±</th>",
                       "<th>difference from “night”, per lane</th><th>“noon”</th><th>±</th><th></th><th>shared</th>"):
            self.assertIn(wanted, page)
        self.assertEqual(page.count('class="field"'), 3)
        self.assertEqual(re.findall("<li>(Closed [^<]*)</li>", page), [
            f"Closed 0.45–0.458 km, 0:{begin // 60:02}:00–0:{end // 60:02}:00 (“{name}”)" for name, (begin, end) in CLOSED.items()])

    def saved_is(self, tab: Tab) -> None:
        table = tab.save("Figures as CSV", "figures.csv").read_text(encoding="utf-8").splitlines()
        self.assertEqual(table[0], "# “night”, “noon” and the shared road, plan.json, 0:00:00 to 0:10:00, per lane")
        self.assertTrue(table[1].startswith("figure,unit,“night”,“noon”,shared,“noon” minus “night”,shared minus “night”"), table[1])
        changes = tab.save("Changes as CSV", "changes.csv")
        self.assertTrue(changes.name.startswith("changes-plan-night-noon-shared-"), changes.name)
        said = changes.read_text(encoding="utf-8").splitlines()
        self.assertEqual([line.split(",")[0] for line in said[1:]], ["road", "“night”", "“noon”"])
        for line, (begin, end) in zip(said[2:], CLOSED.values(), strict=True):
            self.assertIn(f"Closed 0.45–0.458 km, 0:{begin // 60:02}:00–0:{end // 60:02}:00", line)
        saved = tab.save_several("Scripts", "script.jsonl", 3)
        tab.until(lambda: "road_lab runs each, and recipes/delay compares two of them" in tab.text("said"), "the scripts")
        names = sorted(path.name.removeprefix("script-plan-").partition("-0000")[0] for path in saved)
        self.assertEqual(names, ["night", "noon", "shared"])

    def lists(self, tab: Tab) -> list[list[str]]:
        """Return the lists of changes of the variants: how many there are, and the texts of those that are unfolded."""
        found: list[list[str]] = tab.script("""
            return [...document.querySelectorAll("#roadList details")].map((one) => [one.querySelector("summary").textContent,
              ...[...(one.open ? one.querySelectorAll(".note") : [])].map(({textContent}) => textContent)]);""")
        return found

    def test_a_variant_is_named_again_removed_and_there_after_a_reload(self) -> None:
        tab: Any = self.tab
        self.name_both()
        tab.until(lambda: self.lists(tab) == [["1 change"], ["1 change"]], "how many changes the variants have")
        tab.script("document.querySelector('#roadList summary').click()")
        closed = [f"Closed 0.45–0.458 km, 0:{begin // 60:02}:00–0:{end // 60:02}:00" for begin, end in ((60, 180), (480, 540))]
        tab.until(lambda: self.lists(tab) == [["1 change", closed[0]], ["1 change"]], "the change of the first")
        self.choose("“night”", "mine")
        apart = tab.script("return widthNow()")[1]
        self.assertEqual(self.pixel(tab, 0, 120), COLOURS["#"])
        self.close(480, 540)  # an own change shows on mine alone
        self.assertEqual([self.pixel(tab, apart * place, 500) == COLOURS["#"] for place in range(2)], [False, True])
        self.name("night", " The road that had this name is no longer kept.")
        tab.settled()
        tab.until(lambda: self.lists(tab) == [["1 change", closed[1]], ["1 change"]], "its new change, still unfolded")
        self.assertEqual([self.pixel(tab, apart * place, 500) == COLOURS["#"] for place in range(2)], [True, True])
        self.assertNotEqual(self.pixel(tab, 0, 120), COLOURS["#"])
        tab.press("Remove: “night”", "#roadList")
        tab.until(lambda: tab.text("said") == "“night” is no longer kept.", "it is removed")
        self.assertEqual(tab.script("return [store.whose, figureRoads()]"), ["mine", ["shared", "mine"]])
        self.assertFalse(tab.part("besideChoice").is_displayed())
        self.choose("“noon”")
        self.load_again()
        self.assertEqual(tab.script("return [store.whose, figureRoads()]"), ["beside", ["mine", "variant:noon"]])
        self.assertEqual(self.pixel(tab, tab.script("return widthNow()")[1], 360), COLOURS["#"])
        tab.open_part("roadsPart")
        self.assertEqual(self.chosen(), ["mine", "“noon”"])
        self.choose("mine", "“noon”")
        self.load_again()
        self.assertEqual(tab.script("return [store.whose, store.chosen]"), ["mine", []])
        self.assertEqual(tab.script("return [...document.querySelectorAll('#roadList label')].map((one) => one.textContent.trim())"),
                         ["shared", "mine", "the file's road", "“noon”"])
        tab.open_part("roadsPart")
        self.choose("the file's road", "“noon”", "mine", "shared")
        self.assertEqual(self.pixel(tab, tab.script("return widthNow()")[1], 360), COLOURS["#"])
        self.assertEqual(len(self.table(tab, "figures")[0]), 7)
        self.choose("mine", "shared", "“noon”")
        self.assertEqual(tab.script("return [store.whose, store.chosen, figureRoads()]"), ["mine", ["file"], ["shared", "mine"]])

    def load_again(self) -> None:
        self.tab.driver.refresh()
        self.tab.until(lambda: self.tab.text("line").startswith("connected"), "connected")
        self.tab.settled()

    def chosen(self) -> list[str]:
        """Return the roads whose boxes are checked, in the order of the list."""
        found: list[str] = self.tab.script("""
            return [...document.querySelectorAll("#roadList > li")].filter((one) => one.querySelector("input").checked)
              .map((one) => one.querySelector("label").textContent.trim());""")
        return found

    def test_a_chosen_variant_that_is_gone_is_not_chosen_after_a_reload(self) -> None:
        tab = self.tab
        self.name_both()
        self.choose("shared", "“night”", "“noon”")
        tab.driver.execute_async_script('ask({variant: {at: store.me.at, name: "night", drop: true}}).then(arguments[0])')  # unnoticed
        self.load_again()
        self.assertEqual(tab.script("return [store.whose, figureRoads()]"), ["beside", ["shared", "variant:noon"]])

    def test_at_most_four_roads_are_side_by_side(self) -> None:
        tab = self.tab
        self.name_both()
        self.choose("shared", "mine", "the file's road", "“noon”", "“night”")
        self.assertEqual(tab.text("said"), "At most 4 roads are shown side by side. Choose one less first.")
        self.assertEqual(tab.script("return store.chosen"), ["shared", "mine", "file", "variant:noon"])
        self.assertEqual(tab.script("return [...document.querySelectorAll('#roadList input')].map((one) => one.checked)"),
                         [True, True, True, False, True])
