#!/usr/bin/env python3
"""Compute the delay between two scripts with one plan, with the simulator: the expected output of recipes/delay/run.

    tests/reference_simulator/delays.py BEFORE AFTER > recipes/delay/expected
    tests/reference_simulator/delays.py BEFORE AFTER 5 > recipes/delay/days.expected

With a number N, compute means and 95 % intervals over N days, with Python's `statistics` and published values of Student's t.

Each script has a plan line, edits of one replica and an advance; both scripts advance to the same step. Only the steps in which each
car enters and leaves the road are used, not its rows. The travel time of a car is the difference of its two steps. The time that all
cars spend is the sum, over all steps, of the number of cars that have entered and not left. A car that is still on the road at the
end counts as leaving in the last step. A step is a second, a cell is 7.5 m, and cars are grouped by the minute of their entry.

Cars that cannot enter wait. The cars that arrive at inlet 0 are those that enter a free road of 250 cells; the cars that arrive at another
inlet are those that enter the road without the edits of limits, slowing and closures, where cars wait only before inlet 0. While fewer cars
have entered an inlet than have arrived, its chance is certain, and nobody is slowed in the first zone if the inlet is 0. At another inlet
this begins when three cars are missing. The n-th car that enters is the n-th that arrived, and counts from its arrival on. If more cars enter
than arrive, the last ones that nobody knows to have arrived in their step of entry count from that step on.
"""
import json
import math
import statistics
import sys

sys.dont_write_bytecode = True
from simulator import ALWAYS, Plan, one_step, settings_at, winners

MINUTE = 60
CELL = 7.5
"""The length of a cell in metres."""
STUDENT = {4: 2.776445, 8: 2.306004}
"""The value that Student's t exceeds with a probability of 2.5 %, by degrees of freedom."""


def follow(plan, edits, to, arrivals):
    """Yield for each step up to `to` the numbers of the cars on the road before it, what each detector counts in it, and how many cars wait
    before each inlet after it. `arrivals` has the steps in which cars arrive at the inlets where cars wait."""
    road, listed = [None] * plan.length, winners(edits)
    missing, waiting = dict.fromkeys(arrivals, 0), dict.fromkeys(arrivals, 0)
    for step in range(to + 1):
        numbers = settings_at(plan, listed, step)
        for inlet in [inlet for inlet, cars in waiting.items() if cars]:
            numbers["inflow", inlet] = ALWAYS
            if inlet == 0 and plan.zone_width <= 200:
                numbers["slow", 0] = numbers["start", 0] = 0
        after, counts = one_step(plan, numbers, step, road)
        there = {car[0] for car in road if car}
        entered = {car[0] for car in after if car} - there
        for inlet, steps in arrivals.items():
            missing[inlet] += (step in steps) - (step * 16 + inlet in entered)
            least = 1 if waiting[inlet] or inlet == 0 else 3
            waiting[inlet] = missing[inlet] if missing[inlet] >= least else 0
        yield there, counts, dict(waiting)
        road = after


def entries(plan, edits, to, arrivals, inlet):
    """Return the steps in which cars enter at an inlet."""
    seen = set().union(*(there for there, _, _ in follow(plan, edits, to, arrivals)))
    return {number // 16 for number in seen if number % 16 == inlet}


def find_arrivals(given, edits, to):
    """Return the steps in which cars arrive at each inlet."""
    free = [edit for edit in edits if edit[0] == "inflow" or edit[0] == "start" and edit[2] == 0]
    zones = -(-250 // given["zone"])
    short = Plan({**given, "length": 250, "zones": [given["zones"][min(zone, len(given["zones"]) - 1)] for zone in range(zones)],
                  "inlets": given["inlets"][:1], "detectors": []})
    found = {0: entries(short, [edit for edit in free if edit[1] < (1 if edit[0] == "inflow" else zones)], to, {}, 0)}
    if len(free) < len(edits):
        found.update({inlet: entries(Plan(given), free, to, {0: found[0]}, inlet) for inlet in range(1, len(given["inlets"]))})
    return found


def gates(path, days=0, counted=None):
    """Run a script. Return its plan, the step of entry and the step of leaving by car number, the last step, the number of cars on the road
    and before it, summed over all steps, for each inlet the cars that wait after each step, how many cars entered, and the number of cars on
    the road, summed over all steps. The seed is that of the plan plus `days`. Append the detectors' counts of each step to `counted`."""
    with open(path, encoding="utf-8") as script:
        given, *commands = map(json.loads, script)
    given["words"] += days
    plan, edits, to = Plan(given), [], None
    for command in commands:
        if "edit" in command:
            edit = command["edit"]
            edits.append((*edit["object"], edit["step"], len(edits) + 1, 0, edit["value"]))
        else:
            to = command["advance"]["to"]
    come, gone, before, spent, queues = {}, {}, set(), 0, []
    arrivals = find_arrivals(given, edits, to)
    for step, (now, counts, waiting) in enumerate(follow(plan, edits, to, arrivals)):
        if step < to:
            queues.append(waiting)
            if counted is not None:
                counted.append([cars for cars, _ in counts])
        come.update({number: number // 16 for number in now - before})
        gone.update({number: step - 1 for number in before - now})
        before = now
        spent += len(now)
    queues = {inlet: [one[inlet] for one in queues] for inlet in arrivals}
    entered, on_road = len(come), spent
    for inlet, steps in arrivals.items():
        if any(queues[inlet]):
            numbers = sorted(number for number in come if number % 16 == inlet)
            arrived = sorted(step * 16 + inlet for step in steps if step < to)
            for _ in range(len(numbers) - len(arrived)):
                numbers.remove(max(set(numbers) - set(arrived)))
            names = dict(zip(numbers, arrived))
            spent += sum(number // 16 - names[number] // 16 for number in numbers) + sum(to - car // 16 for car in arrived[len(numbers):])
            come = {names.get(number, number): names.get(number, number) // 16 for number in come}
            come.update({car: car // 16 for car in arrived[len(numbers):]})
            gone = {names.get(number, number): step for number, step in gone.items()}
    return plan, come, gone, to, spent, queues, entered, on_road


def head(*words):
    print("# per lane")
    comma(*words)


def comma(*words):
    print(*(f'"{word}"' if "," in str(word) else word for word in words), sep=",")


def km(cell):
    return f"{cell * CELL / 1000:.10g}"


def hours(steps):
    return f"{steps / 3600:.3f}"


def mean(total, cars):
    return f"{total / cars:.1f}" if cars else ""


def greatest(values):
    return max(values) if values else ""


def interval(values, freedom):
    """Return the mean and half the width of its 95 % interval, as text."""
    half = STUDENT[freedom] * statistics.stdev(values) / math.sqrt(len(values))
    return [f"{statistics.mean(values):.3f}", f"{half:.3f}"]


def interval_of_known(values, freedom):
    """Return the interval of values that are known on every day, or nothing."""
    return interval(values, freedom) if None not in values else ["", ""]


def wait_figures(plan, before, after, hours_before, hours_after):
    """Return the figures of the queues of a day as pairs, for all inlets."""
    found = {}
    for inlet, (cell, _) in enumerate(plan.inlets):
        queues = before.get(inlet, []), after.get(inlet, [])
        found[f"vehicle hours waiting before km {km(cell)}"] = tuple(sum(queue) / 3600 for queue in queues)
        found[f"longest queue before km {km(cell)}, cars"] = tuple(max(queue, default=0) for queue in queues)
        found[f"end of the queue before km {km(cell)}, min after the begin"] = tuple(end_of(queue) for queue in queues)
    hours = "vehicle hours on the road and before it"
    found[hours] = tuple(total + sum(sum(queue) for queue in queues.values()) / 3600
                         for total, queues in ((hours_before, before), (hours_after, after)))
    return found


def end_of(queue):
    """Return the minute after which no car waits, or None if none ever waited."""
    steps = [step + 1 for step, cars in enumerate(queue) if cars]
    return steps[-1] / 60 if steps else None


def day(paths, number):
    """Return each figure of a day as a pair: with the first script and with the second one."""
    counts = [], []
    (plan, come, gone, _, _, queues, *first), (_, other, left, _, _, queues_after, *second) = (
        gates(path, number, counted) for path, counted in zip(paths, counts))
    (entered, entered_after), on_road = zip(first, second)
    both = gone.keys() & left.keys()
    found = {"vehicle hours on the road": tuple(rows / 3600 for rows in on_road),
             **wait_figures(plan, queues, queues_after, *(rows / 3600 for rows in on_road)),
             "vehicle hours of cars through in both": (sum(gone[car] - come[car] for car in both) / 3600,
                                                       sum(left[car] - other[car] for car in both) / 3600),
             "cars that entered": (entered, entered_after)}
    sums = [[sum(cars) for cars in zip(*counted)] for counted in counts]
    return {**found, **{f"cars at km {km(cell)}": pair for cell, pair in zip(plan.detectors, zip(*sums))}}


def over_days(paths, number):
    days = [day(paths, one) for one in range(number)]
    head("mean of a day", "before", "±", "after", "±", "difference", "±", "unpaired ±", "days of opposite sign")
    waited = any(any(found["vehicle hours on the road and before it"][which] != found["vehicle hours on the road"][which] for which in (0, 1))
                 for found in days)
    for name in days[0]:
        if " before " in name and not (waited and any(found[name][which] for found in days for which in (0, 1))):
            continue
        before, after = ([found[name][which] for found in days] for which in (0, 1))
        known = None not in before and None not in after
        more = [late - early for early, late in zip(before, after)] if known else [None] * number
        pooled = math.sqrt((statistics.variance(before) + statistics.variance(after)) / number) if known else None
        positive = sum(one > 0 for one in more) if known else 0
        comma(name, *interval_of_known(before, number - 1), *interval_of_known(after, number - 1), *interval_of_known(more, number - 1),
              f"{STUDENT[2 * number - 2] * pooled:.3f}" if known else "", 0 if not known else
              number - positive - more.count(0) if statistics.mean(more) > 0 else positive if statistics.mean(more) < 0 else 0)
    print()


def run_ends_too_early(before, after, both):
    """Return a sentence if of the cars of both roads more are still on one road than on the other, by more than twice the square root of the
    cars that are on the emptier one. `before` and `after` have the cars that are on each road at the end."""
    more = len(after & both) - len(before & both)
    if abs(more) <= 2 * math.sqrt(min(len(before), len(after))):
        return ""
    there, here = ("before", "after") if more > 0 else ("after", "before")
    return (f"The run ends too early: at its end the road {here} has {abs(more)} more car{'s' * (abs(more) > 1)} than the road {there}. The figures of delay "
            "do not include what these cars lose later: let the run end later.")


def main():
    paths = sys.argv[1:]
    if len(paths) > 2:
        over_days(paths[:2], int(paths[2]))
        return
    (plan, come, gone, to, spent, *_, queues, _, _), (_, other, left, _, spent_after, *_, queues_after, _, _) = (
        gates(path) for path in paths)
    all_cars = set(come) | set(other)
    took = {car: gone.get(car, to) - come[car] for car in come}
    takes = {car: left.get(car, to) - other[car] for car in other}
    late = {car: takes[car] - took[car] for car in took if car in takes}
    ended = {car for car in late if car in gone and car in left}
    queues, queues_after = ({inlet: one.get(inlet, []) for inlet in range(len(plan.inlets))} for one in (queues, queues_after))
    waiting = [inlet for inlet in queues if any(queues[inlet]) or any(queues_after[inlet])]

    head("minute of entry", "cars", "before s", "after s", "mean delay s", "greatest s", "veh·h", "only before", "only after")
    for minute in sorted({car // 16 // MINUTE for car in all_cars}):
        cars = [car for car in all_cars if car // 16 // MINUTE == minute]
        through = [car for car in cars if car in ended]
        number, delay = len(through), sum(late[car] for car in through)
        comma(minute, number, mean(sum(took[car] for car in through), number),
              mean(sum(takes[car] for car in through), number), mean(delay, number),
              greatest([late[car] for car in through]), hours(delay),
              sum(car not in other for car in cars), sum(car not in come for car in cars))
    print()

    head("inlet", "at km", "entered before", "entered after", "only before", "only after")
    for inlet, (cell, _) in enumerate(plan.inlets):
        first, second = [{car for car in cars if car % 16 == inlet} for cars in (come, other)]
        comma(inlet, km(cell), len(first), len(second), len(first - second), len(second - first))
    print()

    if waiting:
        head("inlet", "at km", *(word for side in ("before", "after") for word in (f"waiting {side} veh·h", "longest queue cars", "until minute")))
        for inlet in waiting:
            numbers = [(sum(queue), max(queue, default=0), end_of(queue)) for queue in (queues[inlet], queues_after[inlet])]
            comma(inlet, km(plan.inlets[inlet][0]), *(word for total, longest, end in numbers
                                                    for word in (hours(total), longest, "" if end is None else f"{end:.1f}")))
        print()

    head("cars", "number", "mean delay s", "greatest s", "veh·h")
    sums = sum(late.values())
    later = {car for car in ended if late[car] > 0}
    for name, cars in (("through in both runs", ended), ("of these delayed", later), ("still on the road", late.keys() - ended)):
        total = sum(late[car] for car in cars)
        comma(name, len(cars), mean(total, len(cars)), greatest([late[car] for car in cars]), hours(total))
    lost, gained = sum(took[car] for car in took.keys() - late), sum(takes[car] for car in takes.keys() - late)
    comma("only in the first run", len(took) - len(late), "", "", hours(-lost))
    comma("only in the second run", len(takes) - len(late), "", "", hours(gained))
    comma("all cars", "", "", "", hours(sums - lost + gained))
    for inlet in waiting:
        comma(f"of this waiting before km {km(plan.inlets[inlet][0])}", "", "", "", hours(sum(queues_after[inlet]) - sum(queues[inlet])))
    comma("check: cars in all rows" + (" and before the road" if waiting else ""), "", "", "", hours(spent_after - spent))
    print()

    fewer = len(come) - len(other)
    if fewer:
        print(f"{abs(fewer)} {'fewer' if fewer > 0 else 'more'} cars entered in the second run. The delay does not include them; "
              "--demand shows whether demand was lost.")
    early = run_ends_too_early(set(come) - set(gone), set(other) - set(left), set(come) & set(other))
    if early and not any(queue[-1] for one in (queues, queues_after) for queue in one.values() if queue):
        print(early)


if __name__ == "__main__":
    main()
