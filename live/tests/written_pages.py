"""Compare the report of two roads with the figures of live, and with the report of the recipe."""
from __future__ import annotations

import html
import json
import re
from typing import Any
from unittest import mock

from faulty import Here, soon
from figures_told import mine, value
from running import SMALL, Case
from server.base.settings import Settings
from server.figures import report
from server.lab.new_road import FREEWAY_FILE
from server.base.refusals import Refused

SPAN: dict[str, Any] = {"from": 60, "to": 600}
ASKED: dict[str, Any] = {"of": mine(1), "title": "The road of <Ada>: 0:01:00 to 0:10:00", "works": ["Closed 0.45–0.458 km, 0:02:00–0:05:00", "a & b"]}


def rows_of(page: str) -> dict[str, list[str]]:
    """Return the lines of its table of figures, by their names without a bound."""
    found = re.findall(r"<tr>(<td>.*?)</tr>", page)
    return {re.sub(r" \((at least|at most|unknown)\)$", "", html.unescape(cells[0])): cells[1:] for cells in (re.findall(r"<td>(.*?)</td>", line) for line in found)}


class Reports(Case):
    async def test_a_report_of_one_day_has_the_figures_of_the_page(self) -> None:
        """Nobody waits before the road at first. Then a queue reaches its inlet: in the report cars wait there, and on the page they are lost."""
        async with Here(plan={**SMALL, "words": "steady"}) as here:
            seat, = await here.join("Ada")
            await here.lab.road_clock.set_clock(to=600)
            await here.ask(seat, "gesture", key="1", shape=["block", 90, 90, 120, 135, 1])
            await here.ask(seat, "gesture", key="2", shape=["watch", 2, 2, 200, 400, 0])
            page = (await soon(here.ask(seat, "report", **ASKED, **SPAN)))["html"]
            figures = await soon(here.ask(seat, "figures", of=mine(seat), **SPAN))
            rows = rows_of(page)
            for name, digits, values in (
                    ("vehicle hours on the road", 2, [value(figures, side, "hours") for side in ("before", "after")]),
                    ("lost demand, cars", 0, [value(figures, side, "lost") for side in ("before", "after")]),
                    ("km 0.825: cars/h", 0, [value(figures, side, "flow", None, 2) for side in ("before", "after")])):
                shared, _, own, _, *_ = rows[name]
                self.assertEqual([shared, own], [f"{one:,.{digits}f}" for one in values], name)
            self.assertEqual(rows["delay, vehicle hours"][4], f"{value(figures, 'difference', 'delay'):.2f}")
            self.assertEqual(value(figures, "after", "on", None, 2), 340)
            await here.ask(seat, "gesture", key="3", shape=["block", 60, 60, 120, 300, 1])
            page = (await soon(here.ask(seat, "report", **ASKED, **SPAN)))["html"]
            figures = await soon(here.ask(seat, "figures", of=mine(seat), **SPAN))
            hours, = (row for row in figures["figures"] if row["figure"]["key"] == "hours")
            self.assertRegex(hours["words"], r"^Cars that cannot enter are lost: .*; hours and delay leave them out; over days they wait\.$")
            self.assertEqual((hours["bounds"], "are lost: " in page, float(rows_of(page)["vehicle hours waiting before km 0"][2]) > 0), (["at least"], False, True))
            self.assertGreater(float(rows_of(page)["delay, vehicle hours"][4]), value(figures, "difference", "delay"))
            with self.assertRaises(Refused) as caught:
                await here.ask(seat, "report", **ASKED, **SPAN, days=2)
            self.assertEqual(caught.exception.text, "OneDay")

    def test_a_report_that_would_take_too_long_says_what_fits(self) -> None:
        """20 days of two roads are 40 runs: 14 rounds of 3 processors. In 10 minutes there are 12 rounds of 50 s, which are 36 runs. There is no
        round of 700 s."""
        with mock.patch("server.figures.report.count_processors", return_value=3):
            report.check_time(120, 8, 40, 20)
            with self.assertRaises(report.TakesTooLong) as caught:
                report.check_time(150, 8, 40, 20)
            self.assertIn("over 20 days would take about 12 minutes, and may take 10: choose a shorter period, or at most 18 days", str(caught.exception))
            with self.assertRaises(report.TakesTooLong) as caught:
                report.check_time(700, 3, 10, 5)
            self.assertIn("choose a shorter period. On the page", str(caught.exception))

    async def test_a_report_that_would_take_too_long_is_refused_at_once(self) -> None:
        asked: list[Any] = []

        async def ask(index: int, question: Any, path: str) -> Any:
            asked.append(question)
            with mock.patch("server.figures.report.MOST_SECONDS", 0.001):
                return [*report.make_page(question)][-1]
        async with Here() as here:
            seat, = await here.join("Ada")
            await here.lab.road_clock.set_clock(to=600)
            with mock.patch.object(here.questions._reports, "ask_in_turn", ask), self.assertRaises(Refused) as caught:
                await here.ask(seat, "report", **ASKED, **SPAN)
        self.assertEqual((caught.exception.text, asked[0]["days"]), ("TooLong", 5))
        self.assertIn("choose a shorter period", caught.exception.why)

    async def test_a_report_is_self_contained_and_has_the_days_of_the_comparison(self) -> None:
        async with Here() as here:
            here.keeper.settings = Settings(days=4)
            seat, = await here.join("<b>")
            await here.lab.road_clock.set_clock(to=600)
            await here.ask(seat, "gesture", key="1", shape=["block", 60, 60, 120, 300, 1])
            said = await soon(here.ask(seat, "report", **ASKED, **SPAN, days=4))
            days = await soon(here.ask(seat, "days", of=mine(seat), **SPAN))
        page = said["html"]
        self.assertEqual(said["days"], 4)
        for name, key, digits in (("vehicle hours on the road", "hours", 2), ("lost demand, cars", "lost", 0)):
            row, = (one for one in days["figures"] if one["figure"]["key"] == key)
            means = [f"{part:,.{digits}f}" for one in (*row["values"], *row["differences"]) for part in one]
            self.assertEqual(rows_of(page)[name][:6], means, name)
        few = "4 days are few: ± is then 3.2 standard errors of the mean (2.0 for many days). Use 5 days or more"  # (Student's t of a printed table)
        self.assertEqual(days["warnings"], [few])
        for wanted in (f'<p class="warning">{few}.</p>', "<h1>The road of &lt;Ada&gt;: 0:01:00 to 0:10:00</h1>", "<li>a &amp; b</li>", "@page { size: A4", "Seeds 1 to 4",
                       "main road: ", "on-ramp at km 0.3: ", "0.9 km, one lane, limit 135 km/h, slowing 10%", "off-ramps, junctions and trucks"):
            self.assertIn(wanted, page)
        self.assertNotIn("<b>", page)
        self.assertIsNone(re.search(r'(src|href)="(?!data:)|<script|<button', page))

    async def test_the_report_on_a_calibrated_road_says_how_sure_its_drivers_are(self) -> None:
        """Beside the figures of one day, which have no ±, the sentence does not name it. The next one says where the table of ranges is. Without a
        freeway file that was calibrated there is no such sentence."""
        elsewhere = (" This report has no table of how far the figures move with drivers that fit as well: the report that <code>python3 -m zegdrut report</code> "
                     "writes of the freeway file has one, for the works of that file.")
        earlier = " Calibration: the file does not say whether queues of this road last as long as real ones: calibrate the road again."
        no_jam = " Calibration: the counts do not show the flow that leaves a jam, so nothing says whether queues of this road last as long as real ones."
        jam = (" Calibration: flow that leaves the jam at station 103, counted at station 104: 1,500 cars/h per lane measured, 1,350 ± 20 simulated: queues of "
               "this road last too long, so works cost too much on it.")
        leaving = {"station": "103", "following": "104", "measured": 1_500.0, "simulated": 1_350.0, "half": 20.0}
        said = ("Calibration: 12.0 to 41.0 vehicle hours of delay per lane on the calibrated day by drivers that fit its counts equally well within chance, "
                "and 30.0 by those of the file")
        drivers = {"slowing": 0.1, "start": 0.2, "factor": 0.5}
        calibrated: dict[str, Any] = {"delay": 30.0, "less": {**drivers, "delay": 12.04}, "more": {**drivers, "delay": 41.0}}
        for words, end in (("steady", "."), (7, ": ± does not include this.")):
            async with Here(plan={**SMALL, "words": words}) as here:
                seat, = await here.join("Ada")
                await here.lab.road_clock.set_clock(to=600)
                cases: list[tuple[dict[str, Any] | None, list[str]]] = [
                    (None, []), ({}, []), ({"calibration": calibrated}, [end + earlier]), ({"calibration": {**calibrated, "leaving": []}}, [end + no_jam]),
                    ({"calibration": {**calibrated, "leaving": [leaving]}}, [end + jam])]
                for file, wanted in cases:
                    if file is not None:
                        (here.keeper.folder / FREEWAY_FILE).write_text(json.dumps(file), encoding="utf-8")
                    with mock.patch("server.figures.report.DAYS", 2):
                        page = (await soon(here.ask(seat, "report", **ASKED, **SPAN)))["html"]
                    self.assertEqual(re.findall(f"{re.escape(said)}(.*?)</p>", page), [one + elsewhere for one in wanted])
                    self.assertEqual("zegdrut report" in page, bool(wanted))
                (here.keeper.folder / FREEWAY_FILE).write_text(json.dumps({"calibration": {**calibrated, "less": None, "more": None}}), encoding="utf-8")
                with mock.patch("server.figures.report.DAYS", 2):
                    page = (await soon(here.ask(seat, "report", **ASKED, **SPAN)))["html"]
                self.assertEqual(("no range of the delay is known" in page, "zegdrut report" in page), (True, False))

    async def test_the_report_says_that_nothing_shows_how_sure_capacities_are(self) -> None:
        """It names those of all compared roads, each once, and those of no other road, nor what is withdrawn."""
        async with Here() as here:
            seat, = await here.join("Ada")
            await here.lab.road_clock.set_clock(to=600)

            async def put(key: str, cars: int) -> Any:
                return (await here.ask(seat, "gesture", key=key, shape=["capacity", 3, 3, 100, 300, [cars, 2, 20_000, 20_000]]))["stamp"]

            async def said(*of: str) -> list[str]:
                with mock.patch("server.figures.report.DAYS", 1):
                    page = (await soon(here.ask(seat, "report", **{**ASKED, "of": [*of]}, **SPAN)))["html"]
                return re.findall(r"No interval and no range shows how sure the (.*?): try others\.", page)
            self.assertEqual(await said("shared", "seat1"), [])
            await put("shared", 1_200)
            await here.share(seat)
            self.assertEqual(await said("shared", "seat1"), ["capacity of 1,200 cars/h is"])
            await put("own", 900)
            await here.ask(seat, "undo", stamp=await put("undone", 800), key="undo")
            self.assertEqual(await said("shared", "seat1"), ["capacities of 900 and 1,200 cars/h are"])
            self.assertEqual(await said("shared", "file"), ["capacity of 1,200 cars/h is"])

    async def test_an_invalid_report_is_refused(self) -> None:
        async with Here() as here:
            seat, = await here.join("Ada")
            cases: list[tuple[dict[str, Any], str]] = [
                ({"works": "a"}, "at most 200 strings"), ({"works": [1]}, "at most 200 strings"), ({"of": "all"}, "at most 4 strings"),
                ({"of": ["shared"]}, "2 to 4 different roads"), ({"of": ["shared", "file", "shared"]}, "2 to 4 different roads"),
                ({"of": ["shared", "mine"]}, "here a road must be "), ({"of": ["shared", "variant:noon"]}, "no variant of the name noon"),
                ({"to": 5}, "must be below"), ({"days": 0}, "`days` must be 1 to 20, not 0"), ({"days": 21}, "`days` must be 1 to 20, not 21"),
                ({"days": None}, "`days`")]
            for wrong, said in cases:
                with self.assertRaises(Refused) as caught:
                    await here.ask(seat, "report", **{**ASKED, **SPAN, **wrong})
                self.assertIn(said, caught.exception.why)
