"""Test changes of the kind capacity in a browser: works that leave some cars per hour."""
from __future__ import annotations

from browsers import FREEWAY, BrowserCase, operations_of, shapes_of
from works import admits

# Records the lines of the list of own changes whenever one changes.
LISTED = """
    window.listed = [];
    const lines = () => [...document.querySelectorAll("#own > li > .note")].map((one) => one.textContent.trim().replace(/\\s+/g, " "));
    new MutationObserver(() => listed.push(lines())).observe($("own"), {childList: true, subtree: true, characterData: true});"""


class OneTab(BrowserCase):
    """One tab on a freeway. Its zones have 50 cells, 375 m, and its drivers a slowing chance of 0.1."""

    names = ("Ada",)

    def test_works_leave_the_cars_that_an_engineer_types(self) -> None:
        """They wait in their place in the list, once, until the server has found their slowing chance. Then they are one change with a
        limit of 54 km/h and that chance, which lets these cars out of a queue (`works.py` counts them)."""
        tab, = self.open(FREEWAY)
        tab.run_an_hour()
        tab.tool("capacity")
        tab.fill(kmFrom="3", kmTo="3.75", timeFrom="0:20", timeTo="0:40")
        self.assertEqual([tab.part(field).get_attribute("value") for field in ("capacity", "worksLimit")], ["900", "2"])
        tab.script(LISTED)
        tab.script("for (const _ of [1, 2, 3]) $('apply').click();")
        tab.until(lambda: operations_of(self.server), "measured")
        tab.settled()
        listed = tab.script("return listed")
        self.assertIn(["Capacity 900 cars/h: limit 54 km/h, 3–3.75 km, 0:20:00–0:40:00 waiting"], listed)
        self.assertLessEqual(max(map(len, listed)), 1)
        (kind, *places, value), = shapes_of(operations_of(self.server)[0])
        self.assertEqual((kind, places, value[:2]), ("capacity", [8, 9, 1200, 2400], [900, 2]))
        self.assertEqual(len(operations_of(self.server)), 1)
        admits(self, value, (5, 0.1, 0.1), 100)
        text = f"Capacity 900 cars/h: limit 54 km/h, slowing {value[2] / 65_536:.2f}, 3–3.75 km"
        self.assertEqual(tab.lines("own"), [f"{text}, 0:20:00–0:40:00 private"])
        self.assertEqual(tab.text("said"), f"{text}, 0:20:00–0:40:00: done.")
        for name, wanted in (("limit", 2), ("slow", value[2]), ("start", value[3])):
            self.assertEqual(tab.value_at(name, 9, 1_199, 1_200, 2_399)[1:], [wanted] * 2)
        labels = tab.script("return framesShown().map((frame) => labelOf(frame, false))")
        self.assertEqual(labels, ["900 cars/h"] * 3)

        tab.press("Change: Capacity")
        tab.type_and_apply(timeTo="0:50")  # the same works for longer
        tab.until(lambda: len(operations_of(self.server)) == 2, "changed")
        self.assertEqual(shapes_of(operations_of(self.server)[1]), [["capacity", 8, 9, 1200, 3000, value]])

        tab.tool("limit")
        tab.choose("limit", "3")
        tab.type_and_apply(kmFrom="3", kmTo="3.375", timeFrom="0:30", timeTo="0:35")
        self.assertEqual(tab.covers("own"), ["The capacity no longer holds: covered 3–3.375 km, 0:30:00–0:35:00 by your limit of 81 km/h."])
        self.assertNotIn("900 cars/h", tab.script("return framesShown().map((frame) => labelOf(frame, false))"))

    def test_a_capacity_that_works_cannot_leave_is_refused_with_the_largest(self) -> None:
        tab, = self.open(FREEWAY)
        tab.tool("capacity")
        tab.type_and_apply(kmFrom="3", kmTo="3.75", timeFrom="0:20", timeTo="0:40", capacity="")
        self.assertTrue(tab.text("said").startswith("The capacity must be a number of cars per hour per lane above 0."))
        tab.fill(capacity="2000")
        tab.press_in("#apply")
        tab.until(lambda: "out of range" in tab.text("said"), "refused")
        self.assertRegex(tab.text("said"), "^a capacity of 2,000 cars per hour is out of range: works of 0.75 km with a limit of 54 km/h leave "
                         "[0-9]+ to 1,[0-9]{3} cars per hour on this road$")
        self.assertEqual((tab.lines("own"), operations_of(self.server)), ([], []))
