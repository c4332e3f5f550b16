"""Test shapes that cover each other, in a browser: whose edges can be dragged, and how frames are labelled."""
from __future__ import annotations

import csv
import math
import os
import re
from pathlib import Path
from unittest import mock

from browsers import FREE_ROAD, FREEWAY, BrowserCase, Tab, operations_of
from selenium.webdriver.common.action_chains import ActionChains


class OneTab(BrowserCase):
    """One tab on a freeway."""

    names = ("Ada",)

    def limit(self, tab: Tab, value: str, begin: str, end: str) -> None:
        tab.tool("limit")
        tab.choose("limit", value)
        tab.type_and_apply(kmFrom="0.75", kmTo="4.5", timeFrom=begin, timeTo=end)

    def pointer(self, tab: Tab, cell: float, step: float) -> str:
        """Return the shape of the pointer at a place."""
        ActionChains(tab.driver, duration=0).move_to_element_with_offset(
            tab.part("diagram"), *tab.place(cell, step)).perform()
        return str(tab.script("return $('diagram').style.cursor"))

    def test_a_wholly_covered_change_has_no_edges_to_drag(self) -> None:
        tab, = self.open(FREEWAY)
        tab.run_an_hour()
        self.limit(tab, "2", "0:20", "0:30")
        self.assertEqual(self.pointer(tab, 300, 1200), "ns-resize")
        self.limit(tab, "3", "0:10", "0:40")
        self.assertNotEqual(self.pointer(tab, 300, 1200), "ns-resize")
        self.assertEqual(self.pointer(tab, 300, 2400), "ns-resize")
        tab.tool("look")
        step = tab.script("return store.extent.step")
        tab.drag((300, 1800), (300, 2000))  # (where only the covered one had an edge, at its side)
        self.assertEqual(len(tab.lines("own")), 2)
        spans = "return [...store.layers.mine.changes.values()].map(({shape: {from, to}}) => [from, to])"
        self.assertEqual(tab.script(spans), [[1200, 1800], [600, 2400]])
        self.assertEqual(tab.script("return store.extent.step"), max(0, step - 200) if step else 0)

    def test_hidden_edges_cannot_be_dragged(self) -> None:
        tab, = self.open(FREEWAY)
        tab.run_an_hour()
        tab.tool("block")
        tab.type_and_apply(kmFrom="3", kmTo="3.15", timeFrom="0:20", timeTo="0:30")
        tab.tool("look")
        self.assertEqual(self.pointer(tab, 410, 1800), "ns-resize")
        tab.script("document.querySelector('[name=whose][value=shared]').click()")  # the shared road has no closure
        tab.settled()
        self.assertEqual(self.pointer(tab, 410, 1800), "grab")
        tab.drag((410, 1800), (410, 2400))
        self.assertEqual(tab.lines("own"), ["Closed 3–3.15 km, 0:20:00–0:30:00 private"])
        tab.keys("z")
        tab.settled()
        said = "Undone: Closed 3–3.15 km, 0:20:00–0:30:00"
        self.assertEqual(tab.text("said"), f"{said}, on your own road.")  # the picture does not show the own road

    def test_rectangles_of_several_kinds_are_drawn_at_one_place(self) -> None:
        tab, = self.open(FREEWAY)
        tab.run_an_hour()
        for kind in ("limit", "slow", "block"):
            tab.tool(kind)
            tab.drag((350, 1200), (450, 1800))
        self.assertEqual(tab.lines("own"), ["Closed 2.625–3.375 km, 0:20:00–0:30:00 private",
                                            "Slowing 25 %, 2.625–3.375 km, 0:20:00–0:30:00 private",
                                            "54 km/h, 2.625–3.375 km, 0:20:00–0:30:00 private"])
        self.assertEqual(self.pointer(tab, 400, 1800), "ns-resize")

    def test_the_sides_of_an_inlet_cannot_be_dragged(self) -> None:
        tab, = self.open(FREEWAY)
        tab.run_an_hour()
        tab.tool("inflow")
        tab.type_and_apply(timeFrom="0:10", timeTo="0:30")
        self.assertEqual(self.pointer(tab, 0, 1800), "ns-resize")
        self.assertEqual(self.pointer(tab, 0, 1200), "crosshair")
        tab.tool("slow")
        tab.drag((0, 1200), (100, 2400))
        self.assertEqual(tab.lines("own"), ["Slowing 25 %, 0–0.75 km, 0:20:00–0:40:00 private",
                                            "Demand 1,000 cars/h, at 0 km, 0:10:00–0:30:00 private"])

    def test_all_of_many_lines_that_change_at_once_are_listed(self) -> None:
        """The server sends a part of the list with its answer, and the page asks for the rest, even after many gestures at
        once."""
        tab, = self.open(FREEWAY)
        tab.script("""for (let put_ = 0; put_ < 120; put_++) {
            const shape = {kind: "limit", first: 0, last: 15, from: 10 * put_, to: 7200 - 10 * put_, value: put_ % 5};
            put({shape, note: `${put_}`});
        }""")
        tab.until(lambda: tab.script("return store.pending.size") == 0, "confirmed")
        tab.settled()
        shown = """
            return [...store.layers.mine.changes.values()].sort((one, other) => byStamp(one.name, other.name))
              .map(({shown}) => shown.map(({by}) => by === null));"""
        # Each is in force before and after the next one; in between, all that follow cover it. The last one is whole.
        wanted = [[True, *[False] * (2 * (119 - count) - 1), True] for count in range(119)] + [[True]]
        self.assertEqual(tab.script(shown), wanted)
        tab.script("put({shape: {kind: 'limit', first: 0, last: 15, from: 0, to: 7200, value: 5}, note: 'above all'})")
        tab.until(lambda: tab.script("return store.pending.size") == 0, "confirmed")
        tab.settled()
        self.assertEqual([any(one) for one in tab.script(shown)], [False] * 120 + [True])

    def test_a_drag_back_to_the_start_changes_nothing(self) -> None:
        """Otherwise Z would change nothing visible, and a shared line would have something private."""
        tab, = self.open(FREEWAY)
        tab.run_an_hour()
        self.limit(tab, "2", "0:20", "0:30")
        tab.tool("look")
        tab.drag((300, 1200), (300, 1206))  # by less than half of what drags snap to
        tab.drag((100, 1500), (112, 1500))  # (by less than half of a zone)
        tab.press("Change: 54 km/h")
        tab.press_in("#apply")
        tab.settled()
        self.assertEqual(tab.text("said"), "54 km/h, 0.75–4.5 km, 0:20:00–0:30:00: it is so already, nothing was changed.")
        self.assertEqual(len(operations_of(self.server)), 1)
        tab.keys("z")
        tab.settled()
        self.assertEqual(tab.lines("own"), [])

    def written(self, tab: Tab) -> list[str]:
        """Return the labels that are drawn."""
        found = tab.script("""
            const found = [], {prototype} = CanvasRenderingContext2D, fillText = prototype.fillText;
            prototype.fillText = function (text, ...rest) {
              if (/km\\/h/.test(text)) found.push(text);
              return fillText.call(this, text, ...rest);
            };
            drawDiagram();
            prototype.fillText = fillText;
            return found;""")
        return sorted(map(str, found))

    def test_pieces_of_one_limit_are_labelled_once(self) -> None:
        tab, = self.open(FREEWAY)
        tab.run_an_hour()
        self.limit(tab, "2", "0:10", "0:50")
        for begin in ("0:20", "0:30"):  # the limit of 54 is in force in three pieces
            self.limit(tab, "1", begin, f"{begin}:30")
        self.assertEqual(tab.script("return framesShown().length"), 5)
        self.assertEqual(self.written(tab), ["27 km/h", "27 km/h", "54 km/h"])
        for first, last in (("0.75", "1.125"), ("1.125", "1.5"), ("1.5", "1.875")):  # three changes, zone by zone
            tab.choose("limit", "4")
            tab.type_and_apply(kmFrom=first, kmTo=last, timeFrom="0:40", timeTo="0:45")
        self.assertEqual(self.written(tab), ["108 km/h", "27 km/h", "27 km/h", "54 km/h"])


class OneForm(BrowserCase):
    """One tab on a freeway: what the form shows while a line is changed."""

    names = ("Ada",)

    def closed(self, tab: Tab) -> None:
        """Put a closure from 0:20 to 0:30, and begin to change it."""
        tab.tool("block")
        tab.type_and_apply(kmFrom="3", kmTo="3.15", timeFrom="0:20", timeTo="0:30")
        tab.press("Change: Closed")

    def test_a_change_in_the_form_starts_from_the_line(self) -> None:
        tab, = self.open(FREEWAY)
        tab.run_an_hour()
        self.closed(tab)
        tab.fill(kmTo="3.3")
        tab.drag((410, 1800), (410, 2400))  # this changes an end that the form shows
        values = [tab.part(name).get_attribute("value") for name in ("kmFrom", "kmTo", "timeFrom", "timeTo")]
        self.assertEqual(values, ["3", "3.3", "0:20:00", "0:40:00"])
        tab.press_in("#apply")
        tab.settled()
        self.assertEqual(tab.lines("own"), ["Closed 3–3.3 km, 0:20:00–0:40:00 private"])

    def test_the_chance_of_a_demand_is_shown_for_its_beginning(self) -> None:
        tab, = self.open(FREEWAY)
        tab.run_an_hour()
        tab.tool("inflow")
        tab.type_and_apply(demand="0", timeFrom="0:50", timeTo="")
        tab.fill(inlet="1", demand="300")
        found = []
        for begin in ("0:49:59", "0:50", ""):
            tab.fill(timeFrom=begin)
            tab.until(lambda: tab.text("toolHint").startswith("inflow chance"), "it is measured")
            said = re.fullmatch(r"inflow chance (0\.\d+); this inlet then admits up to [\d,]+ cars/h per lane", tab.text("toolHint"))
            found.append(float(said[1]) if said else math.nan)
        merging, alone, now = found
        # If nobody passes the inlet, a chance q admits some q / (1 + q q) cars a step; next to the cars of the main road it
        # admits fewer.
        self.assertAlmostEqual(alone / (1 + alone ** 2), 300 / 3_600, delta=0.002)
        self.assertGreater(merging, 1.05 * alone)
        self.assertEqual(now, alone)  # without a time the clock's time counts, 1:00

    def test_a_withdrawn_line_is_no_longer_changed_in_the_form(self) -> None:
        tab, = self.open(FREEWAY)
        self.closed(tab)
        tab.press("Withdraw: Closed")
        tab.settled()
        self.assertFalse(tab.part("dropChange").is_displayed())
        self.assertEqual(tab.text("apply"), "Close")
        tab.type_and_apply(kmFrom="1.5", kmTo="1.65", timeTo="0:35")
        self.assertEqual([line["does"] for gesture in tab.script("return [...store.layers.mine.changes.values()]")
                          for line in gesture["operations"]], ["put"])

    def test_choosing_another_tool_does_not_change_the_line(self) -> None:
        tab, = self.open(FREEWAY)
        self.closed(tab)
        tab.tool("limit")
        self.assertFalse(tab.part("dropChange").is_displayed())
        tab.type_and_apply(kmFrom="1.5", kmTo="2.25", timeFrom="0:40", timeTo="0:50")
        self.assertEqual(tab.lines("own"), ["54 km/h, 1.5–2.25 km, 0:40:00–0:50:00 private",
                                            "Closed 3–3.15 km, 0:20:00–0:30:00 private"])


class TwoTabs(BrowserCase):
    """Two tabs on a freeway."""

    def rows(self, path: Path) -> list[dict[str, str]]:
        with open(path, encoding="utf-8", newline="") as file:
            next(file)  # of what it is
            return list(csv.DictReader(file))

    def test_the_history_with_covers_is_listed_and_saved(self) -> None:
        ada, ben = self.open(FREEWAY)
        ada.run_an_hour()
        for tab, begin, end in ((ada, "0:20", "0:40"), (ben, "0:25", "0:30")):
            tab.tool("limit")
            tab.type_and_apply(kmFrom="0.75", kmTo="4.5", timeFrom=begin, timeTo=end)
        ben.share_all()
        self.assertEqual(ben.text("said"), "Shared 1 change.")  # it has ten zones, each with a beginning and an end
        ada.take()
        ada.tool("block")
        ada.type_and_apply(kmFrom="3", kmTo="3.15", timeFrom="0:50", timeTo="0:55")
        ada.press("Share…: Closed")
        ada.press("Share now")
        ada.press("Withdraw: Closed")
        ada.settled()
        ada.open_part("past")
        past = ada.text("history")
        for said in ("withdrawn", "covered 0:25:00–0:30:00 by Ben's limit of 54 km/h"):
            self.assertIn(said, past)
        for sentence in ("is withdrawn by its line", "heard or made more", "2 of 4 edits", "Withdrew: Withdrew"):
            self.assertNotIn(sentence, ada.script("return document.body.innerText"))
        rows = self.rows(ada.save("Changes as CSV", "changes.csv"))
        self.assertEqual({(row["who"], row["does"]) for row in rows},
                         {("Ada", "put"), ("Ben", "put"), ("Ada", "withdraw")})
        covered = [row["covered"] for row in rows if row["covered"]]
        self.assertEqual(len(covered), 1)
        self.assertEqual(covered[0], "0.75–4.5 km, 0:25:00–0:30:00 by Ben's limit of 54 km/h")

    def test_unchanged_lines_of_a_list_are_not_touched(self) -> None:
        """Otherwise each gesture would lay out all lines again. With a hundred lines that takes longer than the picture."""
        ada, = self.open(FREE_ROAD, ("Ada",))
        for limit, begin, end in (("2", "0:10", "0:15"), ("1", "0:20", "0:25"), ("2", "0:30", "0:35")):
            ada.limit(limit, begin, end)
        ada.script("""
            window.touched = [];
            const stays = [...$("own").children];
            new MutationObserver((records) => touched.push(...records.flatMap(({addedNodes, removedNodes}) =>
              [...addedNodes, ...removedNodes]).filter((node) => stays.includes(node)).map((node) => stays.indexOf(node))))
              .observe($("own"), {childList: true});""")
        ada.limit("0", "0:40", "0:45")
        self.assertEqual(ada.script("return touched"), [])
        ada.press("Withdraw: 54 km/h, 0–0.3 km, 0:10:00")
        ada.settled()
        self.assertEqual(ada.script("return touched"), [2])
        self.assertEqual([line[:6] for line in ada.lines("own")], ["0 km/h", "54 km/", "27 km/"])

    def test_figures_are_complete_next_to_the_picture(self) -> None:
        """Both roads have figures of four digits, a warning makes the column scroll, and the figures over many days are shown, too. On a
        small screen those of days are complete up to the lost demand; detectors are below."""
        with mock.patch.dict(os.environ, {"LIVE_DAYS": "2"}):
            ada, _ = self.open(FREEWAY)
        ada.run_an_hour()
        ada.tool("block")
        ada.type_and_apply(kmFrom="3", kmTo="3.15", timeFrom="0:20", timeTo="0:30")
        self.addCleanup(ada.driver.execute_cdp_cmd, "Emulation.clearDeviceMetricsOverride", {})
        for place in ("figures", "over"):
            if place == "over":
                ada.press("Over 2 days")
            ada.until(lambda: ada.script("return $(arguments[0]).querySelector('td') !== null", place), "figures")
            for width, height in ((1366, 768), (1920, 1080)):
                ada.driver.execute_cdp_cmd("Emulation.setDeviceMetricsOverride",
                                           {"width": width, "height": height, "deviceScaleFactor": 1, "mobile": False})
                ada.until(lambda: "…" not in ada.text("figures"), "the lost demand")
                ada.settled()
                more = ada.script("return [...document.querySelectorAll('aside .scrolled')].filter((one) => one.clientWidth)"
                                  ".map((one) => one.scrollWidth - one.clientWidth)")
                self.assertEqual(more, [0], (place, width))
                bottom = ada.script("""
                    document.querySelector("aside").scrollTo(0, 0);
                    return [...document.querySelectorAll("aside tr")].filter((one) => one.checkVisibility()
                      && (!arguments[0] || !/^(travel time|cars at)/.test(one.textContent))).at(-1).getBoundingClientRect().bottom;""",
                                    place == "over" and height < 1_000)
                self.assertLessEqual(bottom, height, (place, width))
                who = ada.script("const {scrollWidth, clientWidth} = $('who'); return scrollWidth - clientWidth")
                self.assertEqual((who, ada.text("who")), (0, "You are Ada (seat 1), with Ben Not you?"), width)

    def test_saved_figures_equal_those_shown(self) -> None:
        ada, _ = self.open(FREEWAY)
        ada.run_an_hour()
        ada.tool("block")
        ada.type_and_apply(kmFrom="0.6", kmTo="0.65", timeFrom="0:18", timeTo="0:26")
        ada.until(lambda: "…" not in ada.text("figures"), "the lost demand")
        shown = ada.script("return [...document.querySelectorAll('#figures tbody tr')].map((line) => "
                           "[...line.children].map((one) => one.firstChild?.data ?? ''))")
        rows = {row["figure"]: [row["mine"], row["shared"], row["mine minus shared"]]
                for row in self.rows(ada.save("Figures as CSV", "figures.csv"))}
        def number(text: str) -> float:
            return float(text.replace(",", "").replace("−", "-").replace("+", "") or "nan")
        for name, saved, digits in (("vehicle hours on the road", "vehicle hours on the road", 2), ("lost demand, cars", "lost demand", 0),
                                    ("delay, vehicle hours", "delay", 2), ("cars at km 2.25", "cars at km 2.25", 0)):
            wanted, = ([number(text) for text in values] for head, *values in shown if head == name)
            for one, other in zip(rows[saved], wanted):
                self.assertEqual(not one, math.isnan(other), name)  # the delay of one road is in neither of them
                self.assertFalse(one and abs(float(one) - other) > 0.51 * 10 ** -digits, (name, one, other))
            self.assertNotEqual(rows[saved][2], "")
