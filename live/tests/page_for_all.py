"""Test the page for people who use no mouse, see little, or want less motion; roles and names; what fits on which screen."""
from __future__ import annotations

from typing import Any

from browsers import FREEWAY, BrowserCase
from selenium.webdriver.common.action_chains import ActionChains
from selenium.webdriver.common.by import By
from selenium.webdriver.common.keys import Keys


LINE = 22  # pixels of a line of text, which may be broken at another word
SHARE_NOW = """
    const {top, bottom} = [...document.querySelectorAll("#preview button")]
      .find((one) => one.textContent === "Share now").getBoundingClientRect();
    return [top, bottom];"""


class ForAll(BrowserCase):
    """One tab on a freeway."""

    names = ("Ada",)

    def test_all_elements_have_roles_and_names(self) -> None:
        tab, = self.open(FREEWAY)
        tab.run_an_hour()
        tab.tool("limit")
        tab.type_and_apply(kmFrom="0", kmTo="0.3", timeFrom="0:20", timeTo="0:30")
        nodes = tab.driver.execute_cdp_cmd("Accessibility.getFullAXTree", {})["nodes"]
        found = [(node["role"]["value"], node.get("name", {}).get("value", "").strip()) for node in nodes
                 if not node["ignored"] and "role" in node]
        nameless = [role for role, name in found if not name and role in (
            "button", "radio", "checkbox", "combobox", "textbox", "spinbutton", "application", "table", "region",
            "complementary", "group", "list", "heading", "DisclosureTriangle", "link")]
        self.assertEqual(nameless, [])
        for wanted in (("application", "Space-time diagram"), ("complementary", "Figures and changes"), ("timer", ""),
                       ("radio", "close C"), ("radio", "difference D"), ("spinbutton", None), ("list", "Not shared yet"),
                       ("button", "Withdraw: 54 km/h, 0–0.375 km, 0:20:00–0:30:00"), ("checkbox", "follow"),
                       ("textbox", "from km"), ("columnheader", "mine −\u00a0shared"), ("status", ""), ("banner", ""), ("main", "")):
            role, name = wanted
            if wanted == ("spinbutton", None):
                continue
            self.assertTrue(any(one == role and (not name or other == name) for one, other in found), wanted)
        live = [one.get_attribute("id") for one in tab.driver.find_elements(
            By.CSS_SELECTOR, "[role=status], [role=log], [role=alert], [aria-live=polite], [aria-live=assertive], output")]
        self.assertEqual(live, ["helloSaid", "said"])
        self.assertEqual(tab.part("clock").get_attribute("aria-live"), "off")

    def test_nothing_is_cut_off_at_four_times_the_size(self) -> None:
        tab, = self.open(FREEWAY)
        tab.run_an_hour()
        tab.tool("inflow")
        tab.type_and_apply(demand="1000", timeFrom="0:20", timeTo="0:30")
        self.addCleanup(tab.driver.execute_cdp_cmd, "Emulation.clearDeviceMetricsOverride", {})
        for width in (320, 700, 1000):
            tab.driver.execute_cdp_cmd("Emulation.setDeviceMetricsOverride",
                                       {"width": width, "height": 256, "deviceScaleFactor": 4, "mobile": False})
            tab.settled()
            too_wide = tab.script("""
                const wide = document.documentElement.clientWidth;
                return [...document.querySelectorAll("body *")].filter((one) => !one.closest(".scrolled, .hidden")
                  && one.getBoundingClientRect().right > wide + 1).map((one) => one.outerHTML.slice(0, 80));""")
            self.assertEqual(too_wide, [], width)
            self.assertLessEqual(tab.script("return document.documentElement.scrollWidth - innerWidth"), 0)

    def test_the_preview_of_sharing_is_visible(self) -> None:
        tab, = self.open(FREEWAY)
        tab.run_an_hour()
        tab.script("for (let zone = 0; zone < 12; zone++) applyArea(areaOfShape({kind: 'limit', first: zone, "
                   "last: zone, from: 1200, to: 1800, value: 2}))")
        self.addCleanup(tab.driver.execute_cdp_cmd, "Emulation.clearDeviceMetricsOverride", {})
        for width, height in ((1366, 768), (768, 1024), (1024, 768)):
            tab.driver.execute_cdp_cmd("Emulation.setDeviceMetricsOverride",
                                       {"width": width, "height": height, "deviceScaleFactor": 1, "mobile": False})
            tab.settled()
            tab.script("window.scrollTo(0, 0)")
            first, _ = tab.script("$('shareAll').click();" + SHARE_NOW)
            tab.until(lambda: tab.script("return document.querySelector('#preview table') !== null"), "the figures")
            tab.settled()
            top, bottom = tab.script(SHARE_NOW)
            self.assertTrue(0 <= top < bottom <= height, (width, top, bottom))
            self.assertAlmostEqual(top, first, delta=LINE)  # what arrives since then moves no button
            tab.press("Not now")

    def test_figures_move_nothing_when_they_come(self) -> None:
        tab, = self.open(FREEWAY)
        high = "return $('figuresPart').getBoundingClientRect().height"
        draws_nothing = tab.driver.execute_cdp_cmd("Page.addScriptToEvaluateOnNewDocument",
                                                   {"source": "requestAnimationFrame = () => 0"})  # and asks for no figures
        tab.driver.refresh()
        tab.until(lambda: tab.text("me") == "Ada (seat 1)", "the seat")
        before = tab.script(high)
        tab.driver.execute_cdp_cmd("Page.removeScriptToEvaluateOnNewDocument", draws_nothing)
        tab.driver.refresh()
        tab.until(lambda: tab.text("me") == "Ada (seat 1)", "the seat")
        tab.run_an_hour()
        tab.until(lambda: "…" not in tab.text("figures"), "the figures")
        self.assertAlmostEqual(tab.script(high), before, delta=LINE)

    def test_everything_is_visible_next_to_the_picture(self) -> None:
        tab, = self.open(FREEWAY)
        tab.run_an_hour()
        tab.tool("block")
        tab.type_and_apply(kmFrom="3", kmTo="3.15", timeFrom="0:20", timeTo="0:30")
        tab.script("$('others').textContent = ', with Benjamin, Cleopatra and Dorothea'")
        tab.script("$('stays').replaceChildren()")  # a note, such as that the program is not proved, takes a line of its own
        self.addCleanup(tab.driver.execute_cdp_cmd, "Emulation.clearDeviceMetricsOverride", {})
        for width, height in ((1366, 768), (1920, 1080)):
            tab.driver.execute_cdp_cmd("Emulation.setDeviceMetricsOverride",
                                       {"width": width, "height": height, "deviceScaleFactor": 1, "mobile": False})
            tab.settled()
            for kind in ("look", "block", "capacity", "limit", "inflow", "slow", "start", "watch"):
                tab.tool(kind)
                boxes = tab.script("""
                    const box = (one) => { const {left, top, right, bottom} = one.getBoundingClientRect();
                                           return [left, top, right, bottom]; };
                    const parts = (of) => [...document.querySelectorAll(of)]
                      .filter((one) => one.checkVisibility() && one.getBoundingClientRect().height > 5).map(box);
                    return {tools: parts("#tools, #values > *, #undo, #redo"), head: parts("header > *"),
                            form: parts("#exact > *:not(.hidden)"), figures: parts("#figures tr"),
                            diagram: parts("#diagram"), all: parts("html")};""")
                for name in ("tools", "head", "form"):  # each is one row: all its parts are next to each other
                    self.assertLess(max(top for _, top, _, _ in boxes[name]),
                                    min(bottom for _, _, _, bottom in boxes[name]), (name, kind, width))
                (_, top, right, _), = boxes["diagram"]
                for box in boxes["figures"]:
                    self.assertTrue(right <= box[0] < box[2] <= width and 0 <= box[1] < box[3] <= height, (kind, width, box))
            self.assertLessEqual(boxes["all"][0][3], height)  # the page itself does not scroll
            self.assertLess(top, 160)

    def test_figures_are_visible_below_a_warning(self) -> None:
        """They are on a screen of 1366 x 768 minus the browser's own bars."""
        tab, = self.open(FREEWAY)
        tab.run_an_hour()
        tab.tool("block")
        tab.type_and_apply(kmFrom="3", kmTo="3.15", timeFrom="0:20", timeTo="0:30")
        tab.script("store.programNote = arguments[0]; notify('siteFaults')", "road_lab_unproved is unproved, made without a proof, with "
                   "the compiler's checks in it, which make it slower: `tools/prove-program` proves it")
        self.addCleanup(tab.driver.execute_cdp_cmd, "Emulation.clearDeviceMetricsOverride", {})
        tab.driver.execute_cdp_cmd("Emulation.setDeviceMetricsOverride",
                                   {"width": 1366, "height": 629, "deviceScaleFactor": 1, "mobile": False})
        tab.until(lambda: "…" not in tab.text("figures"), "the lost demand")
        tab.settled()
        for ident in ("stays", "diagram", "figures", "figuresNote"):
            top, bottom = tab.script("const {top, bottom} = $(arguments[0]).getBoundingClientRect(); return [top, bottom]", ident)
            self.assertTrue(0 <= top < bottom <= 629, (ident, top, bottom))

    def test_the_note_that_the_program_is_not_proved_is_calm_and_can_be_closed(self) -> None:
        tab, = self.open(FREEWAY)
        tab.script("store.programNote = 'road_lab is not proved: it is tested, and slower'; notify('siteFaults')")
        said = "The program that computes the road is tested; its proof has not been run on this computer."
        self.assertEqual(tab.text("stays"), said + "Close")
        high = tab.script("return $('stays').getBoundingClientRect().height")
        self.assertLess(high, 2 * LINE)  # one line
        tab.press("Close: this note", "#stays")
        self.assertEqual(tab.text("stays"), "")
        tab.script("sessionStorage.clear()")
        tab.driver.get("about:blank")
        tab.driver.get(self.server.address)
        tab.until(lambda: tab.text("line").startswith("connected"), "connected")
        tab.script("store.programNote = 'road_lab is not proved: it is tested, and slower'; notify('siteFaults')")
        self.assertEqual(tab.text("stays"), "")
        tab.script("store.trouble = 'the disk is full'; notify('siteFaults')")
        self.assertEqual(tab.text("stays"), "the disk is full")

    def test_a_long_status_does_not_hide_the_names_of_who_is_here(self) -> None:
        tab, = self.open(FREEWAY)
        self.addCleanup(tab.driver.execute_cdp_cmd, "Emulation.clearDeviceMetricsOverride", {})
        for width in (1366, 1920):
            tab.driver.execute_cdp_cmd("Emulation.setDeviceMetricsOverride",
                                       {"width": width, "height": 768, "deviceScaleFactor": 1, "mobile": False})
            tab.script("store.connectionText = ['connected; ' + 'the broker is unreachable since 10:15, what is shared waits '.repeat(4), true];"
                       "notify('connectionText')")
            whole = tab.script("return $('me').getBoundingClientRect().right <= $('who').getBoundingClientRect().right + 1")
            self.assertTrue(whole, width)
            self.assertTrue(tab.part("line").get_attribute("title").startswith("connected; the broker"))

    def test_a_pressed_button_is_legible_under_the_pointer_too(self) -> None:
        tab, = self.open(FREEWAY)
        def pressed() -> list[Any]:
            return list(tab.driver.find_elements(By.CSS_SELECTOR, "#rates [aria-pressed=true]"))
        tab.until(pressed, "the rate is there")
        ActionChains(tab.driver, duration=0).move_to_element(pressed()[0]).perform()
        colours = tab.script("const style = getComputedStyle(document.querySelector('#rates [aria-pressed=true]:hover'));"
                             "return [style.color, style.backgroundColor]")
        self.assertEqual(colours, ["rgb(255, 255, 255)", "rgb(11, 61, 99)"])

    def test_the_axis_ends_with_the_roads_end(self) -> None:
        tab, = self.open(FREEWAY)
        texts = tab.script("""
            const found = [], {fillText} = CanvasRenderingContext2D.prototype;
            CanvasRenderingContext2D.prototype.fillText = function (text, ...where) {
              found.push(text);
              return fillText.call(this, text, ...where);
            };
            drawDiagram();
            CanvasRenderingContext2D.prototype.fillText = fillText;
            return found;""")
        self.assertIn("6", texts)

    def test_messages_are_visible_next_to_the_diagram(self) -> None:
        tab, = self.open(FREEWAY)
        tab.run_an_hour()
        self.addCleanup(tab.driver.execute_cdp_cmd, "Emulation.clearDeviceMetricsOverride", {})
        tab.tool("block")
        for place, width in enumerate((600, 768, 1000, 1001, 1500)):
            tab.driver.execute_cdp_cmd("Emulation.setDeviceMetricsOverride",
                                       {"width": width, "height": 768, "deviceScaleFactor": 1, "mobile": False})
            tab.settled()
            tab.type_and_apply(kmFrom=f"{3 + place / 5}", kmTo=f"{3.1 + place / 5}", timeFrom="0:20", timeTo="0:30")
            tab.script("window.scrollTo(0, 0)")
            said, diagram = tab.script("""
                return ["said", "diagram"].map((id) => $(id).getBoundingClientRect()).map(({left, top, right, bottom}) =>
                  [left, top, right, bottom]);""")
            self.assertIn(": done.", tab.text("said"))
            self.assertTrue(0 <= said[1] < said[3] <= 768, (width, said))
            self.assertTrue(said[3] <= diagram[1] or said[0] >= diagram[2], (width, said, diagram))

    def test_the_whole_menu_is_visible(self) -> None:
        tab, = self.open(FREEWAY)
        tab.script("$('others').textContent = ', with Benjamin and Cleopatra'")  # these names make the header wider
        tab.open_part("save")
        self.addCleanup(tab.driver.execute_cdp_cmd, "Emulation.clearDeviceMetricsOverride", {})
        for width in (320, 520, 600, 768, 1000, 1200, 1300, 1366, 1500):
            tab.driver.execute_cdp_cmd("Emulation.setDeviceMetricsOverride",
                                       {"width": width, "height": 768, "deviceScaleFactor": 1, "mobile": False})
            left, right = tab.script("const {left, right} = document.querySelector('#save > div').getBoundingClientRect();"
                                     "return [left, right]")
            self.assertTrue(0 <= left < right <= width, (width, left, right))

    def test_texts_have_enough_contrast(self) -> None:
        tab, = self.open(FREEWAY)
        tab.run_an_hour()
        tab.tool("block")
        tab.type_and_apply(kmFrom="0.3", kmTo="0.35", timeFrom="0:20", timeTo="0:50")
        faint = tab.script("""
            const parts = (text) => text.match(/[\\d.]+/g).map(Number);
            const light = (colour) => {
              const [r, g, b] = parts(colour).slice(0, 3).map((one) => one / 255)
                .map((one) => (one <= 0.04045 ? one / 12.92 : ((one + 0.055) / 1.055) ** 2.4));
              return 0.2126 * r + 0.7152 * g + 0.0722 * b;
            };
            const ground = (one) => {
              for (let at = one; at; at = at.parentElement) {
                const colour = getComputedStyle(at).backgroundColor;
                if ((parts(colour)[3] ?? 1) > 0.5) return colour;
              }
              return "rgb(255, 255, 255)";
            };
            const faint = [];
            for (const one of document.querySelectorAll("body *")) {
              const own = [...one.childNodes].some((node) => node.nodeType === 3 && node.data.trim());
              if (!own || !one.checkVisibility() || one.tagName === "SCRIPT") continue;
              const [text, back] = [light(getComputedStyle(one).color), light(ground(one))];
              const contrast = (Math.max(text, back) + 0.05) / (Math.min(text, back) + 0.05);
              if (contrast < 4.5) faint.push([one.outerHTML.slice(0, 80), contrast]);
            }
            return faint;""")
        self.assertEqual(faint, [])

    def test_the_focus_is_visible(self) -> None:
        tab, = self.open(FREEWAY)
        seen = []
        for _ in range(20):
            ActionChains(tab.driver, duration=0).send_keys(Keys.TAB).perform()
            seen.append(tab.script("""
                const one = document.activeElement;
                const ring = (of) => getComputedStyle(of).outlineStyle !== "none" && parseFloat(getComputedStyle(of).outlineWidth) >= 2;
                if (one === document.body) return ["document", false];
                return [one.id || one.textContent.trim(), ring(one) || (one.nextElementSibling && ring(one.nextElementSibling))];"""))
        self.assertEqual([name for name, ring in seen if not ring and name != "document"], [])
        self.assertIn("diagram", [name for name, _ in seen])

    def test_the_diagram_jumps_if_motion_is_to_be_reduced(self) -> None:
        tab, = self.open(FREEWAY)
        tab.driver.execute_cdp_cmd("Emulation.setEmulatedMedia",
                                   {"features": [{"name": "prefers-reduced-motion", "value": "reduce"}]})
        self.addCleanup(tab.driver.execute_cdp_cmd, "Emulation.setEmulatedMedia", {"features": []})
        tab.choose("span", "300")
        tab.press("60×")
        seen, now = set[int](), 0
        while now < 600:
            now, step = tab.script("return [now(), Math.round(store.extent.step)]")
            seen.add(step)
        tab.press("Pause")
        # The diagram did not move, or jumped by a quarter of its 300 seconds.
        self.assertLessEqual(len(seen), now // 75 + 1)
        self.assertGreater(max(seen), 0)

    def test_choices_and_the_legend_are_visible_with_forced_colours(self) -> None:
        tab, = self.open(FREEWAY)
        tab.driver.execute_cdp_cmd("Emulation.setEmulatedMedia", {"features": [{"name": "forced-colors", "value": "active"}]})
        self.addCleanup(tab.driver.execute_cdp_cmd, "Emulation.setEmulatedMedia", {"features": []})
        colours = tab.script("""
            return ["look", "block"].map((tool) => getComputedStyle(
              document.querySelector(`input[value=${tool}] + span`)).backgroundColor);""")
        self.assertNotEqual(colours[0], colours[1])   # what is chosen is still seen
        tab.settled()
        swatches = tab.script("return [...document.querySelectorAll('.swatch')].map((one) => getComputedStyle(one).backgroundColor)")
        self.assertIn("rgb(230, 97, 0)", swatches)    # and the legend keeps its colours
