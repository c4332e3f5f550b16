"""Test one browser on a road: what is drawn, described and dragged, and the picture that is saved.

Pixels are compared with the rows of `examples/closed_cell.out`; other values are worked out by hand.
"""
from __future__ import annotations

import base64
import re

from browsers import COLOURS, FREE_ROAD, FREEWAY, BrowserCase, Tab, example_rows, operations_of, shapes_of
from selenium.webdriver.common.action_chains import ActionChains
from selenium.webdriver.common.keys import Keys

DOUBLE_CLICK = 500  # milliseconds: two clicks within this time are a double click


class OnePicture(BrowserCase):
    """One tab: what is drawn, and what the readout says."""

    names = ("Ada",)

    def closed_by_a_drag(self) -> Tab:
        """Cell 24 closed from step 12 to 24, as the example has it."""
        tab, = self.open(FREE_ROAD)
        tab.run_an_hour()
        tab.show(60)
        tab.tool("block")
        tab.drag((24.3, 12.1), (25.2, 24.1))
        return tab

    def test_a_drag_closes_a_cell_in_the_past(self) -> None:
        tab = self.closed_by_a_drag()
        self.assertEqual(shapes_of(operations_of(self.server)[0]), [["block", 24, 24, 12, 24, 1]])
        tab.tool("look")
        tab.script("store.layers.mine.frames = []; draw()")  # the frame covers the pixels of its edges
        tab.settled()
        wanted = example_rows(0)[:12] + example_rows(1)[-17:]
        self.assertEqual(tab.characters(12, len(wanted), 40), wanted)

    def test_the_readout_describes_a_cell(self) -> None:
        tab = self.closed_by_a_drag()
        # By the example's rows: at step 20 cell 23 has a standing car, cell 24 is closed, and 25 is empty.
        for cell, said in ((23, "a car at 0 km/h"), (24, "closed"), (25, "no car")):
            self.assertEqual(tab.point(cell + 0.5, 20.3), f"{cell * 0.0075:.2f} km, 0:00:20: {said}; limit 81 km/h")

    def test_an_edge_is_dragged(self) -> None:
        tab = self.closed_by_a_drag()
        tab.tool("look")
        tab.drag((24.5, 24), (24.5, 30.1))
        first, second = operations_of(self.server)
        self.assertEqual(shapes_of(second), [["block", 24, 24, 12, 30, 1]])  # the closure ends later
        self.assertEqual(second["layer"], first["stamp"])
        self.assertEqual(tab.lines("own"), ["Closed 0.18–0.188 km, 0:00:12–0:00:30 private"])

    def test_undo_restores_the_picture(self) -> None:
        tab = self.closed_by_a_drag()
        tab.keys("z")
        tab.settled()
        self.assertEqual(tab.lines("own"), [])
        free = tab.script("return store.roads.mine.level(1).rows[30]")
        self.assertEqual(tab.characters(30, 1, 40), [free])
        self.assertNotIn("#", free)
        self.assertEqual(tab.point(24.5, 20.3), "0.18 km, 0:00:20: no car; limit 81 km/h")

    def test_z_undoes_one_drag_after_the_other(self) -> None:
        tab = self.closed_by_a_drag()
        tab.tool("look")
        tab.drag((24.5, 24), (24.5, 30.1))
        first, second = (f"Closed 0.18–0.188 km, 0:00:12–0:00:{end} private" for end in (24, 30))
        for name, lines in (("Undo", [first]), ("Undo", []), ("Redo", [first]), ("Redo", [second])):
            tab.press(name)
            tab.settled()
            self.assertEqual(tab.lines("own"), lines, name)
        tab.keys("z", "z")  # at once
        tab.settled()
        self.assertEqual(tab.lines("own"), [])

    def test_the_page_warns_of_cars_in_a_closure(self) -> None:
        tab, = self.open(FREE_ROAD)
        tab.run_an_hour()
        tab.show(60)
        tab.tool("block")
        # In the row of step 12 of the free road cars are in the cells 9, 15 and 21 and no other from 8 to 23.
        self.assertEqual(example_rows(0)[0][8:24], ".3.....3.....3..")
        tab.drag((8.1, 12.1), (24, 24.1))
        self.assertIn("3 cars are stuck in the closure at 0.06–0.18 km until it opens at 0:00:24.", tab.text("warnings"))

    def test_the_table_has_the_mean_speeds(self) -> None:
        tab = self.closed_by_a_drag()
        tab.open_part("asTable")
        tab.settled()
        cells = tab.script("return [...document.querySelectorAll('#speeds tbody tr:first-child td')].map((one) => one.textContent)")
        # Ten stretches of four cells in the first minute, from the rows of the level that is shown.
        rows = tab.script("return store.roads.mine.level(1).rows.slice(0, 60)")
        for index, cell in enumerate(cells):
            signs = "".join(row[4 * index:4 * index + 4] for row in rows)
            speeds = [int(sign) for sign in signs if sign.isdigit()]
            wanted = str(round(27 * sum(speeds) / len(speeds) + 1e-9)) + (" (closed in part)" if "#" in signs else "")
            self.assertEqual(cell, wanted)

    def test_the_diagram_is_saved_as_a_picture(self) -> None:
        tab = self.closed_by_a_drag()
        tab.keys(Keys.ARROW_LEFT)
        self.assertIsNotNone(tab.script("return store.cursor"))
        path = tab.save("Picture of the diagram", "diagram.png")
        self.assertIsNotNone(tab.script("return store.cursor"))
        # All pixels are those of the diagram without its cursor, below a caption and above the legend.
        above, below, same = tab.driver.execute_async_script("""
            const [data, done] = arguments;
            const image = new Image();
            image.onload = () => {
              store.cursor = null;
              drawDiagram();
              const {width, height} = $("diagram");
              const saved = new OffscreenCanvas(image.width, image.height).getContext("2d");
              saved.drawImage(image, 0, 0);
              const of = (context, top, high) => context.getImageData(0, top, width, high).data;
              const [one, other] = [of($("diagram").getContext("2d"), 0, height), of(saved, CAPTION_HIGH, height)];
              const colours = (data) => new Set(Array.from({length: data.length / 4}, (_, pixel) =>
                data.slice(4 * pixel, 4 * pixel + 3).join()));
              const lowest = CAPTION_HIGH + height;
              done([[...colours(of(saved, 0, CAPTION_HIGH))], [...colours(of(saved, lowest, image.height - lowest))],
                    one.every((value, at) => value === other[at])]);
            };
            image.src = "data:image/png;base64," + data;""", base64.b64encode(path.read_bytes()).decode())
        self.assertTrue(same)
        self.assertGreater(len(above), 1)
        self.assertIn("{},{},{}".format(*COLOURS["#"]), below)
        self.assertEqual(tab.script("return captionText()"), "The road of Ada, 0–0.3 km, 0:00:00–0:01:00")


class OneFreeway(BrowserCase):
    """One tab on a freeway: what is drawn and dragged."""

    names = ("Ada",)

    def test_the_readout_follows_changes_of_the_road(self) -> None:
        tab, = self.open(FREEWAY)
        tab.run_an_hour()
        self.assertNotIn("closed", tab.point(400, 1500))
        tab.tool("block")
        tab.type_and_apply(kmFrom="2.9", kmTo="3.1", timeFrom="0:20", timeTo="0:40")
        tab.settled()
        tab.until(lambda: ": closed; limit" in tab.text("readout"), "what is read")
        tab.press("Undo")
        tab.until(lambda: "closed" not in tab.text("readout"), "what is read")

    def test_a_drag_says_that_it_takes_whole_zones(self) -> None:
        tab, = self.open(FREEWAY)
        tab.run_an_hour()
        tab.tool("limit")
        self.assertTrue(tab.text("toolHint").startswith("sets whole zones of 375 m"))
        tab.begin_drag((360, 1200), (430, 1500))
        # 360 to 430 lie in the zones of the cells 350 to 449: the readout says so before the button is released.
        self.assertEqual(tab.text("readout"), "54 km/h, 2.625–3.375 km, 2 whole zones of 375 m, 0:20:00–0:25:00")
        self.assertEqual(operations_of(self.server), [])
        tab.drop()
        self.assertNotIn("zones", tab.text("readout"))  # the readout describes the drop point now
        self.assertEqual(tab.lines("own"), ["54 km/h, 2.625–3.375 km, 0:20:00–0:25:00 private"])
        # Only 18 of the first zone's 50 cells are covered, so it is taken only while Shift is held.
        ActionChains(tab.driver, duration=0).key_down(Keys.SHIFT).perform()
        tab.begin_drag((382, 2400), (442, 2700))
        self.assertIn("2.625–3.375 km, 2 whole zones of 375 m", tab.text("readout"))
        ActionChains(tab.driver, duration=0).key_up(Keys.SHIFT).perform()
        tab.drop()
        tab.begin_drag((382, 3000), (442, 3300))
        self.assertIn("3–3.375 km, 1 whole zone of 375 m", tab.text("readout"))
        tab.drop()
        tab.begin_drag((402, 3400), (420, 3500))
        self.assertIn("This covers less than half of a zone", tab.text("readout"))
        tab.drop()
        self.assertEqual(len(operations_of(self.server)), 3)
        tab.tool("block")
        self.assertNotIn("zones", tab.text("toolHint"))
        tab.begin_drag((500, 1200), (560, 1500))
        self.assertEqual(tab.text("readout"), "Closed, 3.75–4.2 km, 0:20:00–0:25:00")
        tab.drop()

    def test_a_drag_does_what_its_text_says(self) -> None:
        """It does so even if the diagram follows the clock meanwhile."""
        tab, = self.open(FREEWAY)
        tab.run_an_hour()
        tab.tool("block")
        tab.begin_drag((400, 1200), (440, 1500))
        said = "Closed, 3–3.3 km, 0:20:00–0:25:00"
        self.assertEqual(tab.text("readout"), said)
        tab.script("runAnHour()")
        tab.until(lambda: tab.script("return store.extent.step") == 3600, "an hour later")
        self.assertEqual(tab.text("readout"), said)
        tab.drop()
        self.assertEqual(tab.lines("own"), ["Closed 3–3.3 km, 0:20:00–0:25:00 private"])

    def test_the_diagram_keeps_its_size_whatever_the_text_of_a_drag(self) -> None:
        """Otherwise the end of the drag would move to another place below the same pointer."""
        tab, = self.open(FREEWAY)
        tab.run_an_hour()
        tab.tool("limit")
        self.addCleanup(tab.driver.execute_cdp_cmd, "Emulation.clearDeviceMetricsOverride", {})
        for width, height in ((1366, 768), (1500, 950), (1040, 700)):
            tab.driver.execute_cdp_cmd("Emulation.setDeviceMetricsOverride",
                                       {"width": width, "height": height, "deviceScaleFactor": 1, "mobile": False})
            tab.settled()
            size = tab.script("return store.plot")
            tab.begin_drag((350, 1200), (368, 1500))
            self.assertIn("This covers less than half of a zone", tab.text("readout"))
            self.assertEqual(tab.script("return store.plot"), size, width)
            tab.drop()

    def test_the_page_says_how_far_an_arrow_key_moves_the_cursor(self) -> None:
        tab, = self.open(FREEWAY)
        tab.run_an_hour()
        tab.keys(Keys.ARROW_UP)
        seen = set[str]()
        for seconds in (300, 3600, 36000):
            tab.show(seconds)
            said = tab.text("stride")
            (metres, time, unit), = re.findall(r"^by ([\d.]+) m and (\d+) (s|min) at this zoom$", said)
            before = tab.script("return store.cursor = [400, 600]")
            tab.keys(Keys.ARROW_RIGHT, Keys.ARROW_DOWN)
            cell, step = tab.script("return store.cursor")
            self.assertEqual((7.5 * (cell - before[0]), step - before[1]),
                             (float(metres), int(time) * (60 if unit == "min" else 1)))
            self.assertIn(said, tab.text("keysText"))
            seen.add(said)
        self.assertEqual(len(seen), 3)

    def test_the_later_of_two_overlapping_rectangles_is_on_top(self) -> None:
        tab, = self.open(FREEWAY)
        tab.tool("limit")
        for limit, begin, end in (("2", "0:10", "0:30"), ("3", "0:20", "0:40")):
            tab.choose("limit", limit)
            tab.type_and_apply(kmFrom="0", kmTo="0.3", timeFrom=begin, timeTo=end)
        self.assertEqual(shapes_of(operations_of(self.server)[1]), [["limit", 0, 0, 1200, 2400, 3]])
        self.assertEqual([tab.value_at("limit", 0, step) for step in (600, 1199, 1200, 2399, 2400)],
                         [[2], [2], [3], [3], [5]])  # the later one is in force in all of its rectangle

    def test_too_large_a_closure_is_refused_before_the_drag_ends(self) -> None:
        tab, = self.open(FREEWAY)
        tab.run_an_hour()
        tab.tool("block")
        tab.begin_drag((20, 900), (700, 1500))
        # 600 cells are 4.5 km.
        self.assertIn("This is too long: one closure is at most 4.5 km.", tab.text("readout"))
        tab.drop()
        self.assertEqual(operations_of(self.server), [])

    def test_a_look_ahead_stops_at_the_limit_of_a_road(self) -> None:
        tab, = self.open(FREEWAY)
        tab.run_an_hour()
        tab.script("store.forecastEnd = now() + 35_000; lookAhead()")
        self.assertEqual(tab.script("return store.forecastEnd"), 39_600)  # by 36,000 steps
        tab.press("Look 30 min ahead")
        self.assertEqual(tab.text("said"), "Your road is already 10 hours ahead of the clock, which is the limit.")
        self.assertEqual(tab.script("return store.forecastEnd"), 39_600)

    def test_a_look_ahead_is_private(self) -> None:
        tab, = self.open(FREEWAY)
        tab.run_an_hour()
        tab.press("Look 30 min ahead")
        tab.until(lambda: tab.script("return store.roads.mine.horizon") == 5400, "the forecast")
        tab.settled()
        self.assertEqual(tab.text("clock"), "1:00:00")
        self.assertNotIn("not computed", tab.point(400, 5000))
        tab.press("Back to the clock")
        self.assertFalse(tab.part("back").is_displayed())

    def test_a_short_closure_is_completely_visible_at_ten_hours(self) -> None:
        tab, = self.open(FREEWAY)
        tab.run_an_hour()
        tab.tool("block")
        tab.type_and_apply(kmFrom="1.5", kmTo="1.507", timeFrom="0:50:03", timeTo="0:50:23")
        tab.type_and_apply(kmFrom="3", kmTo="3.15", timeFrom="0:20", timeTo="0:30")
        tab.show(36000)
        for whose in ("mine", "both"):
            tab.script("document.querySelector(`input[name=whose][value=${arguments[0]}]`).click()", whose)
            tab.settled()
            self.assertEqual(tab.pixel(200.5, 3013), COLOURS["#"], whose)
            seen = {tab.pixel(cell, step) for cell in (404, 410, 416) for step in range(1400, 1601, 50)}
            self.assertEqual(seen, {COLOURS["#"]}, whose)

    def test_labels_avoid_closures_and_rows_that_are_not_computed(self) -> None:
        tab, = self.open(FREEWAY)
        tab.run_an_hour()
        tab.tool("block")
        for fields in (("3", "3.15", "0:20", "0:30"), ("5.9", "6", "0:10", "0:20"), ("1", "1.2", "0:58", ""),
                       ("3.2", "3.3", "0:21", "0:22"), ("0", "0.1", "0:40", "0:50")):
            tab.type_and_apply(**dict(zip(("kmFrom", "kmTo", "timeFrom", "timeTo"), fields)))
        tab.tool("limit")
        tab.type_and_apply(kmFrom="2.625", kmTo="3.375", timeFrom="0:20", timeTo="0:40")
        for seconds in (3600, 7200):
            tab.show(seconds)
            labels, closures, plot = tab.script("""
                const found = [], {prototype} = CanvasRenderingContext2D, fillText = prototype.fillText;
                prototype.fillText = function (text, left, top, ...rest) {
                  if (/closed|km\/h/.test(text)) found.push([left, top, left + this.measureText(text).width, top + 13]);
                  return fillText.call(this, text, left, top, ...rest);
                };
                drawDiagram();
                prototype.fillText = fillText;
                const closures = framesShown().filter(({kind}) => kind === "block").map((one) => cornersOf(viewNow(), one));
                const {clientWidth} = $("diagram");
                return [found, closures, [MARGIN.left, MARGIN.top, clientWidth - MARGIN.right, topOf(viewNow(), now())]];""")
            self.assertEqual(len(labels), 6)
            for left, top, right, bottom in labels:
                self.assertTrue(plot[0] <= left and plot[1] <= top and right <= plot[2] and bottom <= plot[3] + 1)
                for box in closures:
                    self.assertFalse(left < box[2] and box[0] < right and top < box[3] and box[1] < bottom)

    def test_a_span_begins_at_the_first_second(self) -> None:
        tab, = self.open(FREEWAY)
        tab.run_an_hour()
        for seconds in (36000, 3600, 14400, 7200, 3600):
            tab.choose("span", str(seconds))
            tab.settled()
            self.assertEqual(tab.text("period"), "0:00:00 to 1:00:00", seconds)

    def test_a_click_sets_a_value_from_its_step_on(self) -> None:
        tab, = self.open(FREEWAY)
        tab.run_an_hour()
        tab.tool("limit")
        tab.drag((430, 1800), (430, 1800))
        tab.tool("inflow")
        tab.drag((190, 1800), (190, 1800))
        limit, demand = (shapes_of(one) for one in operations_of(self.server))
        # Zone 8 has the cells 400 to 449; the on-ramp, at cell 200, is the inlet nearest to cell 190.
        self.assertEqual(limit, [["limit", 8, 8, 1800, None, 2]])
        self.assertEqual([shape[:4] for shape in demand], [["inflow", 1, 1, 1800]])
        tab.tool("limit")
        tab.script("window.ends = []; document.getElementById('diagram')"
                   ".addEventListener('pointerup', (event) => ends.push(event.timeStamp))")
        milliseconds, count = DOUBLE_CLICK, 2
        while milliseconds >= DOUBLE_CLICK:  # a busy machine may take longer, and then these are two clicks
            tab.script("ends.length = 0")
            ActionChains(tab.driver, duration=0).move_to_element_with_offset(
                tab.part("diagram"), *tab.place(430, 1200)).double_click().perform()
            tab.settled()
            first, second = tab.script("return ends")
            milliseconds = second - first
            more = len(operations_of(self.server)) - count
            self.assertIn(more, (1, 2) if milliseconds >= DOUBLE_CLICK else (1,))  # two equal clicks are one while the first one is pending
            count += more

    def test_a_road_of_8192_cells_is_drawn(self) -> None:
        tab, = self.open({**FREEWAY, "length": 8192, "zone": 128, "zones": [[5, 6554]] * 64, "detectors": [4000, 8000]})
        tab.run_an_hour()
        tab.tool("block")
        tab.type_and_apply(kmFrom="30", kmTo="30.2", timeFrom="0:20", timeTo="0:40")
        # Downstream of the closed cells, and of the boxes of mean speeds that contain them, the road is empty, thus white.
        tab.script("store.layers.mine.frames = []; draw()")
        tab.settled()
        self.assertEqual(tab.pixel(4013, 2100), COLOURS["#"])
        self.assertEqual(tab.pixel(4160, 2300), COLOURS["."])
        self.assertNotIn("not computed", tab.point(8000, 3500))
