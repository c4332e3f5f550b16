"""Test one browser on a freeway: the form for typed values, the figures that it shows, what it saves; names and tokens."""
from __future__ import annotations

import contextlib
import csv
import json
import math
import os
import re
import signal
import subprocess
from pathlib import Path
from typing import Any

from browsers import FREE_ROAD, FREEWAY, TOP, BrowserCase, Tab, preview_rows, example_rows, free_server, operations_of, shapes_of
from running import descendants, program
from selenium.webdriver.common.action_chains import ActionChains
from selenium.webdriver.common.by import By
from selenium.webdriver.common.keys import Keys


def demand_is(demand: float, chance: int, plan: dict[str, Any]) -> bool:
    """Return whether a chance at the first inlet admits a demand, in a run of 400,000 steps with another seed on a short road."""
    from zegdrut import RoadLab
    road: Any = {**plan, "length": 100, "zone": 100, "zones": [plan["zones"][0]], "inlets": [[0, chance]], "detectors": [50], "words": 77,
            "replicas": ["A"]}
    with RoadLab(road) as lab:
        lab.advance("A", 401_000)
        cars = int(lab.count("A", 0, 1_000, 401_000).cars)
    wanted = demand * 400_000 / 3_600
    return abs(cars - wanted) <= max(0.005 * wanted, 2 * math.sqrt(wanted))


class OneFreeway(BrowserCase):
    """One tab."""

    names = ("Ada",)

    def test_each_tool_puts_what_is_typed(self) -> None:
        tab, = self.open(FREEWAY)
        tab.run_an_hour()
        tab.tool("limit")
        tab.choose("limit", "2")
        tab.type_and_apply(kmFrom="1.5", kmTo="2.2", timeFrom="0:18", timeTo="0:36:30")
        tab.tool("inflow")
        tab.type_and_apply(demand="1500", timeFrom="10", timeTo="20")
        tab.tool("slow")
        tab.type_and_apply(slow="25", kmFrom="0", kmTo="0.3", timeFrom="0:05", timeTo="")
        tab.tool("start")
        tab.type_and_apply(start="50", kmFrom="0.4", kmTo="0.5", timeFrom="0:05", timeTo="0:10")
        tab.tool("watch")
        tab.choose("site", "2")
        tab.type_and_apply(timeFrom="0:30", timeTo="0:40")
        gestures = operations_of(self.server)
        # A long run with another seed admits the demand within half a per cent, or two standard errors.
        demand = shapes_of(gestures[1])[0]
        self.assertTrue(demand_is(1_500, demand[5], FREEWAY), demand)
        # Zones have 50 cells, 375 m.
        wanted = [
            [["limit", 4, 5, 1080, 2190, 2]], [["inflow", 0, 0, 600, 1200, demand[5]]], [["slow", 0, 0, 300, None, 16384]],
            [["start", 1, 1, 300, 600, 32768]], [["watch", 2, 2, 1800, 2400, 0]]]
        self.assertEqual([shapes_of(one) for one in gestures], wanted)
        # A slowing chance of 25 %, put later for that time, leaves the demand as it is: what it holds back is lost.
        notes = ["54 km/h, 1.5–2.25 km, 0:18:00–0:36:30", "Demand 1,500 cars/h, at 0 km, 0:10:00–0:20:00",
                 "Slowing 25 %, 0–0.375 km, from 0:05:00 on", "Slow to start 50 %, 0.375–0.75 km, 0:05:00–0:10:00",
                 "Detector off, at 3.75 km, 0:30:00–0:40:00"]
        self.assertEqual(tab.lines("own"), [note + " private" for note in reversed(notes)])

    def test_clicks_do_not_wait_for_measurements_of_inlets(self) -> None:
        """Join a road with thirty inflow chances that were put without a demand. Measuring what the inlets admit takes seconds
        for each; here it never ends. The clock runs at the first click all the same."""
        tab, = self.open(FREEWAY)
        tab.driver.execute_async_script("""
            const [done] = arguments;
            (async () => {
              for (let turn = 0; turn < 15; turn++) {
                for (const inlet of [0, 1]) {
                  const shape = ["inflow", inlet, inlet, 300 * turn, 300 * turn + 300, 9_000 + 500 * turn];
                  await ask({gesture: {at: store.me.at, key: `k${inlet} ${turn}`, note: "", shape}});
                }
              }
            })().then(done);""")
        tab.driver.refresh()
        tab.until(lambda: tab.text("line").startswith("connected"), "connected")
        tab.until(lambda: tab.script("return countCurves()[1]") >= 15, "it asks what inlets admit")
        tab.until(self.stop_measuring, "the server measures")
        tab.press("Run an hour")
        tab.until(lambda: tab.text("clock") == "1:00:00", "the clock")
        done, every = tab.script("return countCurves()")
        self.assertLess(done, every / 2)
        tab.tool("inflow")
        tab.choose("inlet", "1")
        tab.fill(timeFrom="1:00")
        tab.until(lambda: "is measuring" in tab.text("toolHint"), "how far it is")
        self.assertRegex(tab.text("toolHint"), r"^The server is measuring what this inlet admits, \d+ of \d+\. A demand that you put waits")
        for _ in range(3):  # the same demand three times is one
            tab.press_in("#apply")
        self.assertEqual([line for line in tab.lines("own") if "waiting" in line], ["Demand 1,000 cars/h, at 1.5 km, from 1:00:00 on waiting"])
        tab.tool("block")
        tab.fill(kmFrom="3", kmTo="3.4", timeFrom="0:20", timeTo="0:30")
        tab.press_in("#apply")
        tab.until(lambda: tab.text("said").startswith("Closed"), "another change is put meanwhile")
        self.assertRegex(tab.text("said"), r"0:20:00–0:30:00; 1 change is waiting\.")
        tab.press("Cancel", "#own")
        self.assertEqual([line for line in tab.lines("own") if "waiting" in line], [])

    def stop_measuring(self) -> bool:
        """Stop the process that measures what inlets admit. Return whether there is one."""
        for process in descendants(self.server.process.pid):
            with contextlib.suppress(OSError):  # another one has ended just now
                if b"server.figures.admission" in Path(f"/proc/{process}/cmdline").read_bytes():
                    os.kill(process, signal.SIGSTOP)
                    return True
        return False

    def test_a_demand_is_shown_as_it_was_asked_for(self) -> None:
        """The demand of the road's file is a table, and not lines of the lists and the report. A demand that a person put is
        shown as it was typed, in whole cars per hour."""
        tab, = self.tabs
        self.server = free_server({"length": 1.5, "limit": 135, "slowing": 0.2, "main": [["7:00", 900], ["7:05", 612.3]],
                                   "ramps": [[0.45, [["7:00", 200], ["7:10", 310.5]]]], "minutes": 15, "begin": "07:00",
                                   "sections": [[0.9, 1.2, 4, 8, 54]], "detectors": [0.75], "stretch": [0.3, 0.6], "stalled": []})
        self.addCleanup(self.server.kill)
        tab.join(self.server, "Ada")
        self.assertEqual(tab.text("clock"), "07:00:00")
        tab.press("Run an hour")
        tab.until(lambda: tab.text("clock") == "08:00:00", "the clock")
        tab.settled()
        self.assertEqual(tab.lines("held"), ["54 km/h, 0.9–1.2 km, 07:04–07:08 shared"])
        self.assertIn("The demand in the road's file ends at 07:15. From then on, its last values apply.", tab.text("warnings"))
        self.assertEqual(tab.script("return [...document.querySelectorAll('#fileDemandTable tr')].map((row) => "
                                    "[...row.children].map((cell) => cell.textContent).join(' '))"),
                         ["from at 0 km at 0.45 km", "07:00 900 200", "07:05 612 200", "07:10 612 311"])
        self.assertEqual(tab.script("return $('fileDemandTable').caption.textContent"), "Cars per hour per lane that want to enter")
        self.assertEqual(tab.script("return framesShown().map(({kind}) => kind)"), ["limit"])
        for tool in ("capacity", "inflow"):
            tab.tool(tool)
            self.assertIn("cars/h/lane", tab.text("values"))
        tab.choose("inlet", "1")
        tab.type_and_apply(demand="447.69", timeFrom="7:05", timeTo="7:10")
        self.assertEqual(tab.lines("own"), ["Demand 448 cars/h, at 0.45 km, 07:05–07:10 private"])
        self.assertEqual(operations_of(self.server)[-1]["demand"], 448)
        self.assertEqual([row["what"] for row in self.changes(tab)], ["54 km/h, 0.9–1.2 km, 07:04–07:08",
                                                                      "Demand 448 cars/h, at 0.45 km, 07:05–07:10"])
        page = tab.save("Report", "report.html").read_text(encoding="utf-8")
        self.assertEqual(re.findall("<li>([^<]*)</li>", page.split("Works")[1].split("</ul>")[0]),
                         ["54 km/h, 0.9–1.2 km, 07:04–07:08", "Demand 448 cars/h, at 0.45 km, 07:05–07:10 (new)"])
        self.assertIn("on-ramp at km 0.45: 200 from 07:00, 448 from 07:05, 311 from 07:10", page)
        table = tab.save("Figures as CSV", "figures.csv").read_text(encoding="utf-8")
        minutes = [(200 * 5 + 448 * 5 + 311 * 50) / 60, (200 * 10 + 311 * 50) / 60]
        wanted = [str(float(f"{one:.4f}")).removesuffix(".0") for one in minutes]
        self.assertIn(f"demand of the ramp,cars,{wanted[0]},{wanted[1]},", table)
        tab.press("Change", "#own")
        self.assertEqual(tab.part("demand").get_attribute("value"), "448")

    def changes(self, tab: Tab) -> list[dict[str, str]]:
        """Return the saved table of changes."""
        lines = tab.save("Changes as CSV", "changes.csv").read_text(encoding="utf-8").splitlines()
        return list(csv.DictReader(lines[1:]))

    def test_a_typed_stretch_takes_the_nearest_zones(self) -> None:
        tab, = self.open(FREEWAY)
        tab.tool("limit")
        # Zone boundaries are 0.375 km apart: 3.375 is nearer to 3.5 than 3.75 is, and 3.4 to 3.5 is within one zone.
        for first, last, zone, taken in (("3", "3.5", 8, "3–3.375"), ("3.4", "3.5", 9, "3.375–3.75"),
                                         ("3.36", "3.41", 9, "3.375–3.75"), ("5.8", "6", 15, "5.625–6")):
            tab.type_and_apply(kmFrom=first, kmTo=last, timeFrom="0:20", timeTo="")
            self.assertEqual(shapes_of(operations_of(self.server)[-1]), [["limit", zone, zone, 1200, None, 2]])
            self.assertEqual(tab.text("said"), f"54 km/h, {taken} km, from 0:20:00 on: done. Rounded to whole zones: {taken} km.")
            tab.keys("z")
            tab.settled()
        tab.type_and_apply(kmFrom="3", kmTo="3.375")
        self.assertEqual(tab.text("said"), "54 km/h, 3–3.375 km, from 0:20:00 on: done.")
        tab.tool("look")
        self.assertEqual(tab.text("apply"), "Close cells")  # what it does
        tab.tool("block")
        tab.type_and_apply(kmFrom="3.3", kmTo="3.32")
        self.assertEqual(tab.text("said"), "Closed 3.3–3.323 km, from 0:20:00 on: done. Rounded to whole cells of 7.5 m: about 3.3–3.323 km.")
        tab.keys("z")
        tab.settled()
        tab.type_and_apply(kmFrom="3.3", kmTo="3.3")
        self.assertEqual(shapes_of(operations_of(self.server)[-1]), [["block", 440, 440, 1200, None, 1]])

    def test_invalid_values_are_reported_and_change_nothing(self) -> None:
        tab, = self.open(FREEWAY)
        tab.tool("block")
        for fields, said in (
                ({"kmFrom": "3", "kmTo": "2", "timeFrom": "7", "timeTo": "9"}, "Type two places from 0 to 6 km"),
                ({"kmFrom": "3", "kmTo": "3.1", "timeFrom": "9", "timeTo": "7"}, "The end must be later"),
                ({"kmFrom": "3", "kmTo": "3.1", "timeFrom": "soon", "timeTo": "7"}, "“soon” is not a time. Type 0:20,")):
            tab.type_and_apply(**fields)
            self.assertIn(said, tab.text("said"))
        tab.tool("inflow")
        tab.type_and_apply(demand="1710", timeFrom="0:05", timeTo="0:10")
        found = re.fullmatch(r"The demand is out of range: this inlet admits 0 to (1,7\d\d) cars per hour per lane "
                             r"\(limit 135 km/h, slowing 10 %\).", tab.text("said"))
        self.assertTrue(found and demand_is(int(found[1].replace(",", "")), 65_536, FREEWAY), tab.text("said"))
        self.assertEqual(operations_of(self.server), [])

    def figures(self, tab: Tab, name: str) -> list[float]:
        """Return a row of the main figures: mine, shared, and the difference."""
        texts = tab.script("return [...document.querySelectorAll('#figures tbody tr')].filter((line) => "
                           "line.firstChild.textContent === arguments[0]).flatMap((line) => "
                           "[...line.children].slice(1).map((one) => one.firstChild?.data ?? one.textContent))", name)
        return [float(text.replace(",", "").replace("−", "-").replace("+", "") or "nan") for text in texts]

    def exact(self, tab: Tab) -> None:
        """Wait for what is counted car by car."""
        tab.until(lambda: "…" not in tab.text("figures"), "the lost demand")

    def test_lost_demand_is_counted_and_shown(self) -> None:
        tab, = self.open(FREEWAY)
        tab.run_an_hour()
        self.exact(tab)
        self.assertEqual(self.figures(tab, "lost demand, cars")[2], 0)
        tab.tool("block")
        tab.type_and_apply(kmFrom="0.3", kmTo="0.35", timeFrom="0:20", timeTo="0:50")
        self.exact(tab)
        mine, shared, more = self.figures(tab, "lost demand, cars")
        # Some 1,250 cars an hour arrive, for 30 minutes, apart from those that fill 300 m.
        self.assertTrue(480 <= more <= 640, more)
        self.assertAlmostEqual(more, mine - shared, delta=1)
        self.assertRegex(tab.text("warnings"), r"The inlet at 0 km admits [\d,]+ of [\d,]+ cars\. The other \d+ never enter")

    def test_figures_are_asked_for_after_the_picture(self) -> None:
        """While visible rows are on their way, here for a second, the page asks for nothing else."""
        tab, = self.open(FREEWAY)
        tab.run_an_hour()
        self.exact(tab)
        tab.script("""
            window.meanwhile = [];
            const {connection} = store, {socket} = connection;
            const receive = connection.receive.bind(connection), send = socket.send.bind(socket);
            connection.receive = (value) => (value.rows ? setTimeout(() => receive(value), 1000) : receive(value));
            socket.send = (text) => {
              if (store.openRowQuestions) meanwhile.push(Object.keys(JSON.parse(text))[1]);
              send(text);
            };""")
        tab.tool("block")
        tab.type_and_apply(kmFrom="3", kmTo="3.15", timeFrom="0:20", timeTo="0:30")
        self.exact(tab)
        self.assertEqual(set(tab.script("return meanwhile")) - {"gesture", "diagram"}, set())
        self.assertNotEqual(self.figures(tab, "vehicle hours on the road")[2], 0)

    def test_a_demand_that_is_lowered_is_not_lost(self) -> None:
        tab, = self.open(FREEWAY)
        tab.run_an_hour()
        tab.tool("inflow")
        tab.type_and_apply(demand="400", timeFrom="0:10", timeTo="0:50")
        self.exact(tab)
        mine, shared, _ = self.figures(tab, "lost demand, cars")
        self.assertLessEqual(mine, shared)
        self.assertEqual(tab.text("warnings"), "")
        # At the first detector, 375 m downstream of the inlet, some 560 cars fewer pass: 850 an hour for 40 minutes.
        self.assertTrue(-640 <= self.figures(tab, "cars at km 0.375")[2] <= -480)

    def test_a_change_outside_the_period_of_the_figures_is_named(self) -> None:
        tab, = self.open(FREEWAY)
        tab.run_an_hour()
        tab.press("Run an hour")
        tab.until(lambda: tab.text("clock") == "2:00:00", "the clock")
        tab.tool("limit")
        tab.choose("limit", "2")
        tab.type_and_apply(kmFrom="1.5", kmTo="2.2", timeFrom="1:10", timeTo="1:20")
        tab.show(3600)
        self.exact(tab)
        self.assertEqual(tab.text("period"), "0:00:00 to 1:00:00")
        self.assertEqual(tab.text("warnings"), "1 of your private changes lies outside 0:00:00 to 1:00:00, the period of these figures. "
                                               "Choose Show in the list of changes.")
        tab.show(86400)
        self.exact(tab)
        self.assertEqual(tab.text("period"), "0:00:00 to 2:00:00")
        self.assertEqual(tab.text("warnings"), "")

    def test_figures_are_the_same_at_each_zoom_and_before_sharing(self) -> None:
        tab, = self.open(FREEWAY)
        tab.run_an_hour()
        tab.tool("block")
        tab.type_and_apply(kmFrom="0.6", kmTo="0.65", timeFrom="0:18", timeTo="0:26")
        found = {}
        for seconds in (3600, 36000):
            tab.show(seconds)
            self.exact(tab)
            found[seconds] = tab.text("figures"), tab.text("warnings")
            self.assertEqual(tab.text("period"), "0:00:00 to 1:00:00")
        self.assertEqual(found[3600], found[36000])
        hours, lost, delay = (self.figures(tab, name) for name in
                              ("vehicle hours on the road", "lost demand, cars", "delay, vehicle hours"))
        # Some 20 cars a minute arrive, for eight minutes, apart from the four minutes or so in which 600 m fill up.
        self.assertTrue(50 <= lost[2] <= 130, lost)
        # In the rows of the steps 1 to n each car counts a second.
        cars = sum(tab.driver.execute_async_script("""
            const done = arguments[0];
            Promise.all([1, 901, 1801, 2701].map((from) =>
              ask({diagram: {at: store.me.at, from, to: from + 899}}))).then((said) =>
              done(said.map(({rows}) => rows.join("").replace(/[.#]/g, "").length)));"""))
        self.assertEqual(hours[0], round(cars / 3600, 2))
        tab.press("Share…: Closed")
        rows = preview_rows(tab)
        self.assertEqual(rows["vehicle hours on the road"], (hours[1], hours[0], hours[2]))
        self.assertEqual(rows["lost demand, cars"], (lost[1], lost[0], lost[2]))
        self.assertEqual(rows["delay, vehicle hours"][2], delay[2])
        parts = [rows[name][2] for name in ("lost main demand, cars", "lost demand of the ramp, cars")]
        self.assertEqual(sum(parts), lost[2])
        # On the free road no more is lost than may be due to chance: two standard deviations of some 1,250 arrivals.
        self.assertLess(abs(rows["lost main demand, cars"][0]), 2 * math.sqrt(1_250))

    def test_flow_and_speed_by_time_are_drawn_and_read(self) -> None:
        tab, = self.open(FREEWAY)
        tab.run_an_hour()
        tab.until(lambda: tab.text("figuresNote").endswith(
            "All figures are per lane: for the whole road multiply cars, flows and vehicle hours by the number of lanes."), "what the figures are")
        tab.tool("block")
        tab.type_and_apply(kmFrom="3", kmTo="3.15", timeFrom="0:20", timeTo="0:30")
        tab.script("$('series').open = true")
        tab.choose("seriesSite", "1")
        tab.settled()
        tab.until(lambda: tab.script("return store.series.key.endsWith('0,3600')"), "the series")
        # Rows of the table above the charts that arrive later would move the charts away from the pointer.
        tab.until(lambda: tab.script("return store.figures.exactKey.startsWith('0,3600')"), "the figures")
        counts = tab.driver.execute_async_script("""
            const done = arguments[0];
            Promise.all([store.me.at, "shared"].map((at) => ask({counts: {at, from: 0, to: 3600, each: 60}})))
              .then((said) => done(said.map(({counts}) => counts.map((span) => span[1]))));""")
        for minute in (10, 28, 45):
            self.point_at("flowChart", (minute + 0.5) / 60)
            texts = []
            for name, (cars, speeds) in zip(("mine", "shared"), (side[minute] for side in counts)):
                speed = f", {math.floor(speeds / cars * 27 + 0.5)} km/h" if cars else ""
                texts.append(f"{name} {60 * cars:,} cars/h{speed}")
            self.assertEqual(tab.text("seriesRead"), f"0:{minute}:00–0:{minute + 1}:00: " + "; ".join(texts))
        self.assertEqual(tab.script("""
            const texts = [], fill = CanvasRenderingContext2D.prototype.fillText;
            CanvasRenderingContext2D.prototype.fillText = function (text, ...place) { texts.push(text); fill.call(this, text, ...place); };
            notify("series");
            CanvasRenderingContext2D.prototype.fillText = fill;
            return texts.filter((text) => /[a-z]/.test(text));"""), ["cars/h per lane", "km/h", "s"])
        self.assertEqual(tab.script("return $('flowChart').ariaLabel"), "Flow per lane by time")
        self.assertRegex(tab.save("Travel times", "travel-times.csv").read_text(encoding="utf-8"), "^# travel times of [^\n]*, per lane\n")
        drawn = tab.script("""
            const {width, height} = $("speedChart");
            const data = $("speedChart").getContext("2d").getImageData(0, 0, width, height).data;
            let found = 0;
            for (let at = 0; at < data.length; at += 4) found += data[at] === 194 && data[at + 1] === 78 && data[at + 2] === 0;
            return found;""")
        self.assertGreater(drawn, 100)  # the line of mine

    def point_at(self, ident: str, part: float) -> None:
        """Move the pointer to a part of a chart's time."""
        tab = self.tabs[0]
        tab.script("$(arguments[0]).scrollIntoView({block: 'center'})", ident)
        wide = tab.script("return $(arguments[0]).clientWidth", ident)
        x = 44 + (wide - 50) * part - wide / 2
        ActionChains(tab.driver, duration=0).move_to_element_with_offset(tab.part(ident), round(x), 0).perform()

    def test_the_token_is_removed_from_the_address(self) -> None:
        tab, = self.open(FREEWAY)
        self.assertNotIn("#", tab.driver.current_url)
        self.assertNotIn(self.server.address.split("#")[1], tab.driver.current_url)
        tab.driver.refresh()
        tab.until(lambda: tab.text("me") == "Ada (seat 1)", "the same seat")

    def test_an_address_without_its_token_gets_a_message(self) -> None:
        tab, = self.open(FREEWAY)
        tab.script("sessionStorage.clear()")
        tab.driver.get(tab.driver.current_url)  # as if it was copied from the address bar
        said = "The server closed the connection: the address has a wrong token: open the address that live/serve printed."
        tab.until(lambda: tab.part("helloSaid").text == said, "the form that asks for a name says so")
        tab.script("$('helloSaid').textContent = ''")
        tab.part("name").send_keys("Ben", Keys.ENTER)
        tab.until(lambda: tab.part("helloSaid").text == said, "it is told to who joins")

    def test_names_are_shown_as_text_and_not_as_markup(self) -> None:
        name = "<img src=x onerror=alert(1)>=1"
        tab, = self.open(FREEWAY, (name,))
        tab.tool("limit")
        tab.type_and_apply(kmFrom="0", kmTo="0.3", timeFrom="0:20", timeTo="")
        self.assertEqual(tab.text("me"), f"{name} (seat 1)")
        self.assertEqual(tab.driver.find_elements(By.TAG_NAME, "img"), [])

    def test_no_cell_of_a_saved_table_is_a_formula(self) -> None:
        tab, = self.open(FREEWAY, ("=1+1,Ada",))
        tab.tool("limit")
        tab.type_and_apply(kmFrom="0", kmTo="0.3", timeFrom="0:20", timeTo="")
        path = tab.save("Changes as CSV", "changes.csv")
        text = path.read_text(encoding="utf-8")
        self.assertIn("'=1+1,Ada", text)
        self.assertIn("54 km/h, 0–0.375 km, from 0:20:00 on", text)
        self.assertIn("# changes of the road of =1+1,Ada, plan.json, up to 0:00:00, per lane\n", text)
        self.assertRegex(text, r",20\d\d-\d\d-\d\d \d\d:\d\d:\d\d,put,")

    def test_a_saved_transcript_can_be_run_again(self) -> None:
        tab, = self.open(FREE_ROAD)
        tab.press("Run an hour")
        tab.show(60)
        tab.tool("limit")
        for limit, begin in (("2", "0:00:20"), ("3", "0:00:10"), ("1", "0:00:20")):
            tab.choose("limit", limit)
            tab.type_and_apply(kmFrom="0", kmTo="0.3", timeFrom=begin, timeTo="0:00:40")
        tab.tool("start")
        tab.type_and_apply(kmFrom="0", kmTo="0.3", timeFrom="0:00:20", timeTo="0:00:30")
        tab.press("Withdraw")
        tab.settled()
        lines = tab.save("Transcript", "transcript.jsonl").read_text(encoding="utf-8").splitlines()
        script, _ = tab.save_both("Script", "script.jsonl")
        ran = subprocess.run([program()], input="\n".join(lines[0::2]), stdout=subprocess.PIPE, text=True, check=True)
        self.assertEqual(lines[1::2], ran.stdout.splitlines())
        commands = script.read_text(encoding="utf-8").splitlines()
        self.assertEqual(commands[:-1], lines[0:2 * len(commands) - 2:2])  # the same road
        self.assertEqual(json.loads(commands[-1]), {"advance": {"at": "Ada", "to": 3_600}})  # up to the clock

    def test_the_menu_closes_after_saving_and_on_escape(self) -> None:
        """An open menu would cover the message that says what was saved."""
        tab, = self.open(FREE_ROAD)
        tab.run_an_hour()
        names = {tab.save("Counts", "counts.csv").name for _ in range(3)}  # no file replaces another one
        self.assertEqual(len(names), 3)
        for name in names:
            self.assertRegex(name, r"^counts-plan-Ada-0000-0100(-\d)?\.csv$")
        for press in (None, Keys.ESCAPE):
            if press:
                tab.open_part("save")
                ActionChains(tab.driver, duration=0).send_keys(press).perform()
            self.assertIsNone(tab.part("save").get_attribute("open"))
            self.assertEqual(tab.script("return document.activeElement.textContent"), "Save")

    def test_a_road_with_a_beginning_shows_times_of_day(self) -> None:
        """If the file of a freeway has a `begin`, times are times of day: in the heading, the form, the lists and saved files."""
        tab, = self.tabs
        self.server = free_server(FREE_ROAD)
        self.addCleanup(self.server.kill)
        (self.server.folder / "freeway.json").write_text(json.dumps({"begin": "6:30", "date": "2026-03-02"}), encoding="utf-8")
        tab.join(self.server, "Ada")
        tab.press("Run an hour")
        tab.until(lambda: tab.text("clock") == "07:30:00", "the clock")
        tab.settled()
        self.exact(tab)
        self.assertEqual(tab.text("period"), "06:30 to 07:30")
        tab.tool("block")
        for time, wanted in (("7:00", "07:00"), ("07:05:30", "07:05:30"), ("20", "06:50")):
            tab.type_and_apply(kmFrom="0.18", kmTo="0.187", timeFrom=time, timeTo="07:10")
            self.assertEqual(tab.lines("own")[0], f"Closed 0.18–0.188 km, {wanted}–07:10 private")
        tab.type_and_apply(timeFrom="soon")
        self.assertEqual(tab.text("said"), "“soon” is not a time. Type 7:00, 07:00:30 or, in minutes after 06:30, 20.")
        path = tab.save("Counts", "counts.csv")
        self.assertEqual(path.name, "counts-plan-Ada-0630-0730.csv")
        head, names, first, *_ = path.read_text(encoding="utf-8").splitlines()
        self.assertEqual(head, "# counts of the road of Ada, plan.json, 2026-03-02, 06:30 to 07:30, per lane")
        self.assertTrue(first.startswith("06:30,06:35,0,0.21,"), first)

    def test_the_report_is_saved(self) -> None:
        tab, = self.open(FREE_ROAD)
        tab.run_an_hour()
        tab.limit("2", "0:20", "0:30")
        path = tab.save("Report", "report.html")
        self.assertEqual(path.name, "report-plan-Ada-shared-0000-0100.html")
        page = path.read_text(encoding="utf-8")
        for wanted in ("<h1>The road of Ada, and the shared one: 0:00:00 to 1:00:00</h1>",
                       "<li>54 km/h, 0–0.3 km, 0:20:00–0:30:00 (new)</li>", "delay, vehicle hours"):
            self.assertIn(wanted, page)

    def test_saving_waits_for_figures(self) -> None:
        tab, = self.open(FREE_ROAD)
        tab.run_an_hour()
        refused = tab.driver.execute_async_script("""
            const done = arguments[0];
            const asked = {at: store.me.at, of: ["shared", store.me.at], from: 0, to: 3600};
            ask({figures: asked});
            ask({figures: asked}, {quiet: ["Busy"]}).then(({refused}) => {
              $("saveTranscript").click();
              done(refused);
            });""")
        self.assertEqual(refused, "Busy")  # one at a time
        tab.until(lambda: tab.saved("transcript.jsonl"), "the transcript")

    def test_the_viewer_opens_the_transcript(self) -> None:
        tab, = self.open(FREE_ROAD)
        tab.press("Run an hour")
        tab.show(60)
        tab.tool("block")
        tab.type_and_apply(kmFrom="0.18", kmTo="0.187", timeFrom="0:00:12", timeTo="0:00:24")
        path = tab.save("Transcript", "transcript.jsonl")
        tab.driver.get((TOP / "viewer" / "index.html").as_uri())
        tab.part("files0").send_keys(str(path))
        tab.until(lambda: tab.script("return shown.pictures[0]?.rows.length") == 61, "the picture")
        self.assertEqual(tab.text("messages"), "")
        rows = tab.script("return shown.pictures[0].rows.slice(12, 41)")
        self.assertEqual(rows, example_rows(0)[:12] + example_rows(1)[-17:])
