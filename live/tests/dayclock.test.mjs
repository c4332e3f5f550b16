// The clock of a road: times of steps, written and read; the clock changes of summer time.

import assert from "node:assert/strict";
import {test} from "node:test";

import {DayClock} from "../page/dayclock.mjs";

const COUNTED = new DayClock();
const MORNING = new DayClock({begin: 6.5 * 3600});

test("times of a clock that counts from 0:00:00 are read as they are written", () => {
  for (const [step, text] of [[0, "0:00:00"], [59, "0:00:59"], [3661, "1:01:01"],
                              [360000, "100:00:00"]]) {
    assert.equal(COUNTED.timeText(step), text);
    assert.equal(COUNTED.readStep(text), step);
  }
  assert.equal(COUNTED.readStep("20"), 1200);
  assert.equal(COUNTED.readStep("0,5"), 30);
  assert.equal(COUNTED.readStep(" 0:20 "), 1200);
  for (const text of ["", "soon", "1:60", "1:2", "-5", "0:20:61", "1:00:00:00", "1:00 (day 2)", "1:00+01:00"]) {
    assert.ok(Number.isNaN(COUNTED.readStep(text)), text);
  }
  assert.equal(COUNTED.spanText(1200, 1800), "0:20:00\u20130:30:00");
  assert.equal(COUNTED.spanText(1200, null), "from 0:20:00 on");
});

test("times are times of day if the road's clock has a beginning", () => {
  for (const [step, text, file] of [[0, "06:30", "0630"], [1800, "07:00", "0700"], [1830, "07:00:30", "070030"],
                                    [63_000, "00:00 (day 2)", "0000"]]) {
    assert.equal(MORNING.timeText(step), text);
    assert.equal(MORNING.readStep(text), step);
    assert.equal(MORNING.fileText(step), file);
  }
  for (const [text, step] of [["7:00", 1800], ["07:00", 1800], ["20", 1200], ["6:29", 86_340]]) {
    assert.equal(MORNING.readStep(text), step);
  }
  for (const text of ["24:00", "06:29 (day 1)", "07:00+01:00"]) assert.ok(Number.isNaN(MORNING.readStep(text)), text);
  assert.equal(MORNING.runningText(1800), "07:00:00");
  assert.equal(MORNING.runningText(1801), "07:00:01");
  assert.equal(MORNING.axisText(63_000), "00:00");
  assert.equal(COUNTED.runningText(1800), "0:30:00");
  assert.equal(COUNTED.fileText(1800), "0030");
  assert.equal(COUNTED.fileText(1830), "03030");
});

test("times before minute 0 are negative, or times of day of the run", () => {
  const counted = new DayClock({}, 240);
  for (const [step, text, file] of [[0, "-0:04:00", "minus0004"], [239, "-0:00:01", "minus00001"], [240, "0:00:00", "0000"], [3900, "1:01:00", "0101"]]) {
    assert.equal(counted.timeText(step), text);
    assert.equal(counted.readStep(text), step);
    assert.equal(counted.fileText(step), file);
  }
  assert.equal(counted.spanText(0, 240), "-0:04:00 to 0:00:00");
  for (const [text, step] of [["-4", 0], ["-0,5", 210], ["20", 1440], ["\u22120:01", 180]]) assert.equal(counted.readStep(text), step);
  for (const text of ["-5", "-0:04:01"]) assert.ok(Number.isNaN(counted.readStep(text)), text);
  const morning = new DayClock({begin: 7 * 3600}, 240);
  for (const [step, text] of [[0, "06:56"], [240, "07:00"], [86_639, "06:59:59 (day 2)"]]) {
    assert.equal(morning.timeText(step), text);
    assert.equal(morning.readStep(text), step);
  }
  for (const [text, step] of [["-4", 0], ["0", 240], ["6:55", 86_340]]) assert.equal(morning.readStep(text), step);
  assert.ok(Number.isNaN(morning.readStep("-7:00")));
  const midnight = new DayClock({begin: 120}, 240);
  for (const [step, text] of [[0, "23:58 (day 0)"], [120, "00:00"], [240, "00:02"], [86_519, "23:59:59 (day 1)"], [86_520, "00:00 (day 2)"]]) {
    assert.equal(midnight.timeText(step), text);
    assert.equal(midnight.readStep(text), step);
  }
  assert.equal(midnight.readStep("23:58"), 0);
  assert.equal(midnight.axisText(0), "23:58");
});

test("a clock change before minute 0 is known", () => {
  const spring = new DayClock({begin: 3 * 3600, date: "2026-03-29", zone: "Europe/Berlin"}, 600);
  for (const [step, text] of [[0, "01:50"], [599, "01:59:59"], [600, "03:00"], [1200, "03:10"]]) {
    assert.equal(spring.timeText(step), text);
    assert.equal(spring.readStep(text), step);
  }
  assert.ok(spring.isSkipped("2:30"));
});

// In Berlin clocks go from 2:00 to 3:00 on 29 March 2026, and from 3:00 back to 2:00 on 25 October.
const SPRING = new DayClock({begin: 1.5 * 3600, date: "2026-03-29", zone: "Europe/Berlin"});
const AUTUMN = new DayClock({begin: 1.5 * 3600, date: "2026-10-25", zone: "Europe/Berlin"});

test("an hour that a clock change skips is never written, and cannot be read", () => {
  for (const [step, text] of [[0, "01:30"], [1799, "01:59:59"], [1800, "03:00"], [5400, "04:00"],
                              [79_200, "00:30 (day 2)"]]) {
    assert.equal(SPRING.timeText(step), text);
    assert.equal(SPRING.readStep(text), step);
  }
  assert.ok(Number.isNaN(SPRING.readStep("02:30")));
  assert.ok(SPRING.isSkipped("2:30"));
  for (const text of ["soon", "03:00", "25:00", ""]) assert.ok(!SPRING.isSkipped(text), text);
  assert.ok(!MORNING.isSkipped("02:30"));
});

test("an hour that occurs twice is written with its offset; without one it is read as the first", () => {
  for (const [step, text, axis] of [[0, "01:30", "01:30"], [1800, "02:00+02:00", "02:00"], [3600, "02:30+02:00", "02:30"],
                                    [5400, "02:00+01:00", "02:00"], [7200, "02:30+01:00", "02:30"], [9000, "03:00", "03:00"],
                                    [90_000, "01:30 (day 2)", "01:30"]]) {
    assert.equal(AUTUMN.timeText(step), text);
    assert.equal(AUTUMN.axisText(step), axis);
    assert.equal(AUTUMN.readStep(text), step);
  }
  assert.equal(AUTUMN.readStep("02:30"), 3600);
  assert.ok(Number.isNaN(AUTUMN.readStep("02:30+03:00")));
});

test("a clock change days after the beginning is found, too", () => {
  const before = new DayClock({begin: 0, date: "2026-10-20", zone: "Europe/Berlin"});
  const change = 5 * 86_400 + 3 * 3600;         // the step at which it is 3:00 for the first time
  assert.equal(before.timeText(change - 1), "02:59:59+02:00 (day 6)");
  assert.equal(before.timeText(change), "02:00+01:00 (day 6)");
  assert.equal(before.timeText(change + 7200), "04:00 (day 6)");
});

test("without a date there are no clock changes", () => {
  const clock = new DayClock({begin: 1.5 * 3600, zone: "Europe/Berlin"});
  assert.equal(clock.timeText(1800), "02:00");
});

test("the time of a change has its date, unless it is today", () => {
  assert.equal(COUNTED.dateText(0), "");
  const now = Math.floor(Date.now() / 1000);
  assert.match(COUNTED.dateText(now), /^\d\d[:.]\d\d$/);     // of 24 hours
  assert.ok(COUNTED.dateText(now - 3 * 86400).length > COUNTED.dateText(now).length);
});

/** Return the processor time of a function in microseconds, the smallest of three runs. */
function taken(does) {
  return Math.min(...[1, 2, 3].map(() => {
    const before = process.cpuUsage();
    does();
    return process.cpuUsage(before).user;
  }));
}

test("times of day are written quickly, by formats that are kept: a list has hundreds of them", () => {
  const now = Math.floor(Date.now() / 1000);
  const kept = new Intl.DateTimeFormat([], {hour: "2-digit", minute: "2-digit"});
  const many = (write) => taken(() => { for (let each = 0; each < 500; each++) write(); });
  const plain = many(() => [new Date().toDateString(), kept.format(new Date(now * 1000))]);
  const made = many(() => new Date(now * 1000).toLocaleTimeString([], {hour: "2-digit"}));
  const one = many(() => COUNTED.dateText(now - 60));
  assert.ok(one - plain < 0.3 * (made - plain), `${one}, kept ${plain}, made again ${made}`);
});

test("an instant is written with its date, in 24 hours", () => {
  const evening = Date.UTC(2026, 2, 2, 23, 5, 9) / 1000;
  const told = (zone) => new DayClock({zone}).instantText(evening);
  assert.deepEqual([told("UTC"), told("Europe/Berlin"), new DayClock().instantText(0)],
    ["2026-03-02 23:05:09", "2026-03-03 00:05:09", ""]);
});

test("the time of a change is written in the time zone of the road's file", () => {
  const noon = Date.UTC(2020, 0, 1, 12) / 1000;
  const told = (zone) => new DayClock({zone}).dateText(noon);
  assert.match(told("Asia/Tokyo"), /09:00|21:00/);
  assert.notEqual(told("Asia/Tokyo"), told("America/New_York"));
});
