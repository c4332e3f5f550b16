"""Test two browsers on one road: share, look first, take, lose to another change, put it again, undo."""
from __future__ import annotations

from browsers import FREE_ROAD, FREEWAY, BrowserCase, Tab, preview_rows, example_rows
from selenium.webdriver.common.action_chains import ActionChains
from selenium.webdriver.common.by import By
from selenium.webdriver.common.keys import Keys


class Sharing(BrowserCase):
    """Two browsers."""

    def test_a_change_is_shared_previewed_and_taken(self) -> None:
        ada, ben = self.open(FREE_ROAD)
        ada.run_an_hour()
        for tab in (ada, ben):
            tab.show(60)
        ada.tool("block")
        ada.drag((24.3, 12.1), (25.2, 24.1))
        self.assertFalse(ben.part("news").is_displayed())
        ada.press("Share all")
        ada.settled()
        self.assertIn("Nothing would be covered or uncovered.", ada.text("previewBody"))
        self.assertIn("slower afteras fastfaster after", ada.text("legend"))
        jam = ada.pixel(17.5, 22.5)
        ada.press("Share now")
        ben.until(lambda: "Ada shared 1 change." in ben.text("news"), "news")
        ben.press("Look first")
        ben.settled()
        self.assertFalse(ben.part("news").is_displayed())  # the preview asks: only *Take now* takes
        self.assertIn("Closed 0.18–0.188 km, 0:00:12–0:00:24 Ada, ", ben.text("previewBody"))
        # In the cells 15 to 19 and the steps 20 to 24, by the example's rows, Ada's cars have the speeds 3, 1, 3, 0, 3, 0, 0, 2,
        # 0, 0, 3, 0, 0, 0, and Ben's the speed 3. Hers are slower by half of the scale, a medium red, for both viewers, as the
        # legend says.
        red, green, blue = ben.pixel(17.5, 22.5)
        self.assertTrue(green < 160 and green < blue < red, (red, green, blue))
        self.assertEqual((red, green, blue), jam)
        self.assertIn("slower afteras fastfaster after", ben.text("legend"))
        ben.press("Take now")
        ben.until(lambda: ben.text("said") == "Took 1 change from Ada. They cover none of your changes.", "taken")
        ben.settled()
        ben.script("store.layers.mine.frames = []; draw()")
        ben.settled()
        wanted = example_rows(0)[:12] + example_rows(1)[-17:]
        self.assertEqual(ben.characters(12, len(wanted), 40), wanted)
        self.assertEqual(ben.lines("held"), ["Closed 0.18–0.188 km, 0:00:12–0:00:24 shared"])

    def test_a_covered_change_is_put_on_top(self) -> None:
        ada, ben = self.open(FREE_ROAD)
        ada.run_an_hour()
        ada.limit("1", "0:20", "0:40")
        ada.share_all()
        ben.take()
        ben.limit("2", "0:25", "0:30")
        ben.share_all()
        ada.take()
        self.assertEqual(ada.text("said"), "Took 1 change from Ben. They cover 1 of your changes, wholly or in part.")
        self.assertIn("27 km/h, 0–0.3 km, 0:20:00–0:40:00 shared", ada.lines("held"))
        self.assertEqual(ada.covers("held"), ["In force 0:20:00–0:25:00; covered 0:25:00–0:30:00 by Ben's limit of "
                                                    "54 km/h; in force 0:30:00–0:40:00."])
        self.assertEqual(ada.value_at("limit", 0, 1199, 1200, 1499, 1500, 1799, 1800, 2399, 2400),
                         [3, 1, 1, 2, 2, 1, 1, 3])
        ada.press("Put on top: 27 km/h")
        ada.settled()
        self.assertEqual(ada.lines("own"), ["27 km/h, 0–0.3 km, 0:20:00–0:40:00 private"])
        self.assertEqual(ada.covers("held"), ["Wholly covered by your limit of 27 km/h."])
        self.assertEqual(ada.value_at("limit", 0, 1200, 1500, 1800, 2400), [1, 1, 1, 3])
        ada.press("Share all")
        ada.until(lambda: "then: wholly covered by your limit" in ada.text("previewBody"), "who is covered")
        self.assertIn("Ben: 54 km/h, 0–0.3 km, 0:25:00–0:30:00 – then: wholly covered by your limit of 27 km/h.",
                      ada.text("previewBody"))
        ada.press("Share now")
        ada.settled()
        ben.take()
        self.assertEqual(ben.covers("held"), ["Wholly covered by Ada's limit of 27 km/h."])
        # A wholly covered change can be withdrawn all the same, which leaves the road as it was.
        ben.press("Withdraw: 54 km/h")
        ben.settled()
        self.assertEqual(ben.covers("held"), [])
        self.assertEqual(ben.lines("own"), ["Withdrew: 54 km/h, 0–0.3 km, 0:25:00–0:30:00 private"])
        self.assertEqual(ben.value_at("limit", 0, 1200, 1500, 1800, 2400), [1, 1, 1, 3])

    def test_news_is_visible_next_to_long_figures(self) -> None:
        ada, ben = self.open(FREEWAY)
        height = 480
        ben.driver.execute_cdp_cmd("Emulation.setDeviceMetricsOverride",
                                   {"width": 1366, "height": height, "deviceScaleFactor": 1, "mobile": False})
        self.addCleanup(ben.driver.execute_cdp_cmd, "Emulation.clearDeviceMetricsOverride", {})
        ada.run_an_hour()
        ada.limit("1", "0:20", "0:30")
        ada.share_all()
        ben.until(lambda: ben.text("news").startswith("Ada shared 1 change."), "news")
        ben.settled()
        self.assertGreater(ben.script("return $('figuresPart').getBoundingClientRect().bottom"), height)
        top, bottom = ben.script("const {top, bottom} = $('news').getBoundingClientRect(); return [top, bottom];")
        self.assertTrue(0 <= top < bottom <= height, (top, bottom))

    def test_a_pressed_button_stays_until_it_is_released(self) -> None:
        ada, ben = self.open(FREE_ROAD)
        ben.limit("1", "0:20", "0:30")
        ben.share_all()
        ada.until(lambda: ada.text("news").startswith("Ben shared 1 change."), "news")
        ada.settled()
        ActionChains(ada.driver, duration=0).click_and_hold(ada.part("news").find_element(By.TAG_NAME, "button")).perform()
        self.assertEqual(ada.script("return document.querySelector('#news button:active')?.textContent"), "Take")
        ben.limit("2", "0:40", "0:50")
        ben.share_all()
        ada.until(lambda: ada.script("return store.news.text") == "Ben shared 2 changes.", "more news")
        self.assertTrue(ada.text("news").startswith("Ben shared 1 change."))
        ActionChains(ada.driver, duration=0).release().perform()
        ada.until(lambda: ada.text("said") == "Took 2 changes from Ben. They cover none of your changes.", "taken")

    def test_a_double_click_does_not_press_a_button_that_appears_there(self) -> None:
        ada, _ = self.open(FREE_ROAD)
        ada.script("window.clicks = []; addEventListener('click', ({detail}) => { clicks.push(detail); }, true)")
        clicks, minute = list[int](), 0
        while clicks != [1, 2]:  # a busy machine may take too long between them, and then these are two clicks
            minute += 2
            ada.limit("1", f"0:{minute:02}", f"0:{minute + 1:02}")
            self.double_click_share_now(ada)
            pressed, clicks = ada.script("return [pressed, clicks]")
        self.assertEqual(pressed, 0)
        ActionChains(ada.driver, duration=0).move_by_offset(0, 3).pause(1).click().perform()
        self.assertEqual(ada.script("return pressed"), 1)

    def double_click_share_now(self, ada: Tab) -> None:
        """Double-click *Share now*, beneath which lies a button that counts in `pressed` how often it is pressed."""
        ada.press("Share all")
        ada.settled()
        ada.script("""
            window.beneath?.remove();
            const {left, top} = document.querySelector("#preview .buttons button").getBoundingClientRect();
            window.beneath = Object.assign(document.createElement("button"), {textContent: "what comes there"});
            Object.assign(beneath.style, {position: "fixed", left: `${left}px`, top: `${top}px`, width: "8rem",
                                          height: "3rem"});
            Object.assign($("preview").style, {position: "relative", zIndex: 1});
            [window.pressed, window.clicks] = [0, []];
            beneath.addEventListener("click", () => { pressed++; });
            document.body.append(beneath);""")
        first = ada.part("previewBody").find_element(By.TAG_NAME, "button")
        ActionChains(ada.driver, duration=0).double_click(first).perform()
        ada.until(lambda: ada.text("said") == "Shared 1 change.", "shared")

    def test_of_two_who_change_one_line_at_once_one_can_put_it_again(self) -> None:
        ada, ben = self.open(FREE_ROAD)
        ada.run_an_hour()
        ada.limit("1", "0:20", "0:30")
        ada.share_all()
        ben.take()
        ada.press("Change: 27 km/h")
        ada.type_and_apply(timeTo="0:35")
        ben.press("Withdraw: 27 km/h")
        ben.settled()
        ada.share_all()
        ben.share_all()
        ada.take()
        # Ben's operation is the later one.
        self.assertEqual(ada.value_at("limit", 0, 1200, 2000), [3, 3])
        self.assertEqual(ada.covers("held"), ["Ben withdrew it at the same time, and that takes precedence."])
        ada.press("Put mine again")
        ada.settled()
        self.assertEqual(ada.value_at("limit", 0, 1200, 2000, 2100), [1, 1, 3])
        self.assertEqual(ada.lines("own"), ["27 km/h, 0–0.3 km, 0:20:00–0:35:00 private"])

    def test_withdrawing_one_of_two_closures_opens_what_only_it_closed(self) -> None:
        ada, ben = self.open(FREE_ROAD)
        ada.run_an_hour()
        ada.tool("block")
        ada.type_and_apply(kmFrom="0.15", kmTo="0.21", timeFrom="0:20", timeTo="0:50")
        ada.share_all()
        ben.take()
        ben.tool("block")
        ben.type_and_apply(kmFrom="0.15", kmTo="0.18", timeFrom="0:10", timeTo="0:35")
        self.assertEqual(ben.value_at("block", 20, 599, 600, 1200, 2099, 2100, 2999, 3000), [0, 1, 1, 1, 1, 1, 0])
        labels = "return framesShown().map((one, _, all) => labelOf(one, areOfSeveral(all))).sort()"
        # A frame is labelled with the name of the person whose change is on top there.
        self.assertEqual(set(ben.script(labels)), {"closed, you", "closed, Ada"})
        ben.share_all()
        ada.take()
        self.assertEqual(set(ada.script(labels)), {"closed, you", "closed, Ben"})
        ada.press("Withdraw: Closed 0.15–0.21 km")
        ada.settled()
        for cell, values in ((20, [0, 1, 1, 1, 0, 0]), (27, [0, 0, 0, 0, 0, 0])):
            self.assertEqual(ada.value_at("block", cell, 599, 600, 1200, 2099, 2100, 2999), values)
        self.assertEqual(set(ada.script(labels)), {"closed"})
        ada.share_all()
        ben.take()
        for tab in (ada, ben):
            self.assertEqual(tab.value_at("block", 20, 600, 2100), [1, 0])
        rows = [tab.script("return store.roads.mine.level(everyShown()).rows.filter(Boolean)") for tab in (ada, ben)]
        self.assertEqual(*rows)

    def test_picture_sentences_and_table_show_the_same_two_roads(self) -> None:
        ada, ben = self.open(FREEWAY)
        ada.run_an_hour()
        for tab, first, last in ((ada, "4.5", "4.6"), (ben, "3", "3.1")):
            tab.tool("block")
            tab.type_and_apply(kmFrom=first, kmTo=last, timeFrom="0:20", timeTo="0:30")
        ada.tool("block")
        ada.type_and_apply(kmFrom="1.05", kmTo="1.2", timeFrom="0:20", timeTo="0:30")
        ben.share_all()
        ada.until(lambda: ada.part("news").is_displayed(), "news")
        # The queues upstream of the closures, half way down: at cell 590 of her own, at cell 390 of Ben's, at cell 125 of the one
        # that she shares.
        own, his, shared = (590, 1700), (390, 1700), (125, 1700)
        def is_jam(tab: Tab, place: tuple[float, float]) -> bool:
            red, green, _ = tab.pixel(*place)
            return green < 130 and red > 150
        for what, wanted in (("Share…: Closed 1.05", [False, False, True]), ("Look first", [False, True, False])):
            ada.press(what)
            ada.settled()
            self.assertEqual([is_jam(ada, place) for place in (own, his, shared)], wanted, what)
            rows = preview_rows(ada)
            steps = ada.driver.execute_async_script("""
                const done = arguments[0];
                Promise.all(["before", "after"].map((at) => ask({sums: {at, from: 0, to: 3600}}))).then((said) =>
                  done(said.map(({sums}) => sums.reduce((one, other) => one + other, 0))));""")
            self.assertEqual([round(one / 3600, 2) for one in steps], list(rows["vehicle hours on the road"][:2]))
            ada.press("Not now")
            ada.settled()
        self.assertEqual(ada.faults(), [])

    def test_undo_and_redo_follow_the_own_operations(self) -> None:
        ada, _ = self.open(FREE_ROAD)
        ada.limit("1", "0:20", "")
        ada.limit("2", "0:20", "")
        first, second = "27 km/h, 0–0.3 km, from 0:20:00 on", "54 km/h, 0–0.3 km, from 0:20:00 on"
        self.assertEqual(ada.lines("own"), [f"{second} private", f"{first} private"])
        for held in ([f"{first} private"], []):
            ada.keys("z")
            ada.settled()
            self.assertEqual(ada.lines("own"), held)
        ActionChains(ada.driver, duration=0).key_down(Keys.SHIFT).send_keys("z").key_up(Keys.SHIFT).perform()
        ada.settled()
        self.assertEqual(ada.lines("own"), [f"{first} private"])
        ada.press("Redo")
        ada.settled()
        self.assertEqual(sorted(ada.lines("own")), [f"{first} private", f"{second} private"])
        self.assertEqual(ada.value_at("limit", 0, 1200), [2])
        self.assertFalse(ada.part("redo").is_enabled())
        ada.keys("z", "z")
        ada.settled()
        self.assertEqual(ada.lines("own"), [])
        ada.limit("4", "0:30", "")
        self.assertFalse(ada.part("redo").is_enabled())
        # Z also undoes a change that is shared: on the own road, until the undo is shared.
        ada.share_all()
        ada.press("Withdraw", "#held")
        ada.settled()
        self.assertEqual(ada.lines("own"), ["Withdrew: 108 km/h, 0–0.3 km, from 0:30:00 on private"])
        ada.keys("z")
        ada.settled()
        self.assertEqual(ada.value_at("limit", 0, 1800), [4])
        self.assertNotIn("Withdrew: Withdrew", ada.text("own"))
        self.assertEqual(ada.faults(), [])

    def test_what_was_undone_is_not_shareable(self) -> None:
        ada, ben = self.open(FREE_ROAD)
        ada.limit("1", "0:20", "0:30")
        ada.share_all()
        ben.take()
        ben.press("Withdraw: 27 km/h")
        ben.settled()
        self.assertEqual(ben.lines("own"), ["Withdrew: 27 km/h, 0–0.3 km, 0:20:00–0:30:00 private"])
        ben.keys("z")
        ben.settled()
        self.assertEqual((ben.lines("own"), ben.lines("held")), ([], ["27 km/h, 0–0.3 km, 0:20:00–0:30:00 shared"]))
        self.assertFalse(ben.part("shareAll").is_displayed())
        for end in ("0:35", "0:30"):  # there and back
            ben.press("Change: 27 km/h")
            ben.type_and_apply(timeTo=end)
        self.assertEqual((ben.lines("own"), ben.lines("held")), ([], ["27 km/h, 0–0.3 km, 0:20:00–0:30:00 shared"]))
        ben.press("Withdraw: 27 km/h")
        ben.settled()
        self.assertEqual([text[-7:] for text in ben.lines("own")], ["private"])
        ben.share_all()
        ada.take()
        self.assertEqual((ada.text("said"), ada.lines("held"), ben.lines("own")),
                         ("Took 1 change from Ben. They cover none of your changes.", [], []))

    def test_a_part_is_previewed_before_it_is_shared(self) -> None:
        ada, _ = self.open(FREE_ROAD)
        ada.run_an_hour()
        ada.limit("1", "0:20", "0:30")
        ada.limit("2", "0:40", "0:50")
        ada.press("Share…: 27 km/h")
        rows = preview_rows(ada)
        self.assertEqual(list(rows), ["delay, vehicle hours", "mean delay to km 0.21, s", "mean delay to the end, s", "vehicle hours on the road",
                                      "admitted cars", "lost demand, cars", "travel time from km 0 to the end, s", "cars at km 0.21",
                                      "km 0.21: cars/h", "km 0.21: time-mean km/h", "km 0.21: travel time from km 0, s"])
        # A car every other step drives over the 39 cells at 3 cells a step, and in ten of sixty minutes at 1.
        self.assertAlmostEqual(rows["vehicle hours on the road"][0], 1_800 * 13 / 3_600, delta=0.5)
        self.assertAlmostEqual(rows["vehicle hours on the road"][1], 1_500 * 13 / 3_600 + 300 * 39 / 3_600, delta=0.5)
        ada.press("Share now")
        ada.settled()
        self.assertEqual([text[-7:] for text in ada.lines("own") + ada.lines("held")], ["private", " shared"])

    def test_the_preview_shows_exactly_what_is_shared(self) -> None:
        """It does so even if a change was changed or undone during the preview."""
        ada, ben = self.open(FREE_ROAD)
        ada.run_an_hour()
        ada.limit("1", "0:20", "0:30")
        ada.limit("2", "0:40", "0:50")
        ada.press("Share…: 27 km/h")
        ada.settled()
        ada.press("Change: 27 km/h")
        ada.type_and_apply(timeTo="0:35")
        self.assertEqual(self.looked_at(ada), ["Share 1 change?", "27 km/h, 0–0.3 km, 0:20:00–0:35:00"])
        self.assertEqual(ada.script("return store.layers.after.valueAt('limit', 0, 2099)"), 1)
        ada.press("Share now")
        ada.settled()
        self.assertEqual([text[-7:] for text in ada.lines("own") + ada.lines("held")], ["private", " shared"])
        self.assertEqual(ada.script("return [2099, 2100].map((step) => store.layers.shared.valueAt('limit', 0, step))"), [1, 3])
        ada.press("Share all")
        ada.settled()
        ada.limit("0", "0:52", "0:55")
        self.assertEqual(self.looked_at(ada), ["Share 2 changes?", "0 km/h, 0–0.3 km, 0:52:00–0:55:00",
                                               "54 km/h, 0–0.3 km, 0:40:00–0:50:00"])
        ada.keys("z")
        ada.settled()
        self.assertEqual(self.looked_at(ada)[0], "Share 1 change?")
        ada.press("Withdraw: 54 km/h")
        ada.settled()
        self.assertFalse(ada.part("preview").is_displayed())
        self.assertEqual(ada.script("return store.layers.shared.valueAt('limit', 0, 2400)"), 3)
        ben.take()
        self.assertEqual(ben.lines("held"), ["27 km/h, 0–0.3 km, 0:20:00–0:35:00 shared"])

    def looked_at(self, tab: Tab) -> list[str]:
        """Return what the preview lists: how many changes, and which."""
        return [tab.text("previewTitle"), *tab.script(
            "return [...document.querySelectorAll('#previewBody > ul > li')].map((one) => one.firstChild.data)")]

    def test_changes_that_arrive_during_a_preview_are_in_it(self) -> None:
        ada, ben = self.open(FREE_ROAD)
        ada.limit("1", "0:20", "0:30")
        ada.share_all()
        ben.press("Look first")
        ben.settled()
        self.assertEqual(self.looked_at(ben), ["Take 1 change?", "27 km/h, 0–0.3 km, 0:20:00–0:30:00"])
        ada.limit("2", "0:40", "0:50")
        ada.share_all()
        ben.until(lambda: ben.text("said") == "Ada shared 2 changes.", "more news")
        ben.settled()
        self.assertEqual(self.looked_at(ben), ["Take 2 changes?", "54 km/h, 0–0.3 km, 0:40:00–0:50:00",
                                               "27 km/h, 0–0.3 km, 0:20:00–0:30:00"])

    def test_the_preview_shows_what_taking_costs(self) -> None:
        ada, ben = self.open(FREE_ROAD)
        ada.run_an_hour()
        ada.limit("1", "0:20", "0:30")
        ada.share_all()
        ben.limit("2", "0:40", "0:50")
        ben.press("Look first")
        # As in the test above: ten minutes at a third of the speed, compared with ten at two thirds.
        free, slow, middle = (cars / 3_600 for cars in (300 * 13, 300 * 39, 300 * 19.5))
        now, then, _ = preview_rows(ben)["vehicle hours on the road"]
        self.assertAlmostEqual(now, 5 * free + middle, delta=0.5)
        self.assertAlmostEqual(then, 4 * free + middle + slow, delta=0.5)
        self.assertEqual(ben.faults(), [])
