#!/usr/bin/env python3
"""textbook.py CASE.. or --table CASE..

Reads cases of examples/textbook, each a folder in which the program was run: for run.txt in the
folder itself, and for run_NAME.txt in its folder NAME. Prints of each case `what,by hand,dta`:
the lines that README.md has under "By hand", worked out again, and what the runs give, in their
order.
With --table it prints the rows of the table in docs/VALIDATION.md. Status 1 where a line by hand
doesn't come to its own value, or has no measure.
"""
import ast
import operator
import os
import re
import sys

sys.dont_write_bytecode = True
from textbook_run import Run

BY_HAND = re.compile(r"    (.+): (.+) = ([0-9.]+)")
SIGNS = {ast.Add: operator.add, ast.Sub: operator.sub, ast.Mult: operator.mul,
         ast.Div: operator.truediv, ast.Pow: operator.pow}
MEASURES = {}


def measure(function):
    MEASURES[function.__name__] = function
    return function


def worked_out(tree):
    """The value of an expression of numbers, + - * / ** and brackets."""
    if isinstance(tree, ast.Constant):
        return tree.value
    return SIGNS[type(tree.op)](worked_out(tree.left), worked_out(tree.right))


def same_with_decimals(value, text):
    """Whether a value is the number of a text, at as many decimals as that has."""
    return f"{value:.{len(text.partition('.')[2])}f}" == text


def mean(values):
    values = list(values)
    return sum(values) / len(values)


def held_from(run, before, link):
    """The first step in which a vehicle that is ready to enter a link is held."""
    steps = []
    for trip in run.trips:
        place = trip.links.index(link)
        ready = trip.entries[place - 1] + run.free[before] if before else trip.departure
        if trip.entries[place] > ready:
            steps.append(ready)
    return min(steps)


def gap(run, link):
    """The two entries of a link, one behind the other, between which the most steps lie."""
    steps = run.entries(str(link))
    return max(zip(steps, steps[1:]), key=lambda pair: (pair[1] - pair[0], -pair[0]))


def wave_speed(run, end, upper, lower):
    """How fast, in km/h, an end of the gap goes up a road of links of 200 metres."""
    steps = gap(run, upper)[end] - gap(run, lower)[end]
    return (lower - upper) * 0.2 / run.hours(steps)


def reach(run):
    """How far up the road, in km, the entries of links have a gap."""
    free = max(link for link in range(1, 22) if gap(run, link)[1] - gap(run, link)[0] <= 1)
    return (21 - free) * 0.2


@measure
def bottleneck(run):
    queue = max(run.queue("12", step) for step in range(400, 700))
    exits = run.exits("12")
    return [f"{run.hours(sum(run.delays())):.2f}", f"{queue}",
            f"{run.minutes(max(run.delays())):.1f}", f"{run.minutes(exits[-1] + 1 - exits[0]):.1f}"]


@measure
def discharge(run, second):
    flows = [f"{each.left(link, each.hour // 6, each.hour * 7 // 6)}"
             for each in (run, second) for link in "135"]
    waits = [each.second * mean(each.delays(origin="10")) for each in (run, second)]
    return flows + [f"{wait:.1f}" for wait in waits]


@measure
def waves(run, spatial):
    return [f"{wave_speed(run, 0, 8, 21):.1f}", f"{wave_speed(run, 1, 8, 21):.1f}",
            f"{reach(run):.1f}", f"{wave_speed(spatial, 1, 17, 21):.1f}", f"{reach(spatial):.1f}"]


@measure
def spillback(run, point, spatial):
    times = [f"{each.minutes(held_from(each, before, link)):.1f}"
             for each in (run, spatial) for before, link in (("2", "3"), ("1", "2"), ("", "1"))]
    waits = [max(trip.entries[0] - trip.departure for trip in each.trips) for each in (run, point)]
    queue = max(point.queue("3", step) for step in range(500, 700))
    return times + [f"{run.minutes(waits[0]):.1f}", f"{point.minutes(waits[1]):.1f}", f"{queue}"]


@measure
def two_routes(run):
    long = [trip for trip in run.trips if trip.links[0] == "13"]
    late = mean(trip.taken() for trip in run.trips if run.minutes(trip.departure) >= 12)
    delay = sum(trip.taken() - 60 for trip in run.trips)
    return [f"{run.minutes(long[0].departure):.1f}", f"{len(run.trips) - len(long)}",
            f"{len(long)}", f"{run.minutes(late):.2f}", f"{run.hours(delay):.2f}",
            f"{run.gaps[-1] / 10000:.2f}"]


@measure
def braess(run):
    def between(first, last):
        steps = [trip.taken() for trip in run.trips if first <= trip.departure < last]
        return f"{run.minutes(mean(steps)):.2f}"
    return [between(0, 120), between(120, 240), between(240, 600),
            f"{run.hours(sum(trip.taken() for trip in run.trips)):.2f}",
            f"{run.gaps[-1] / 10000:.2f}"]


@measure
def braess_without(run):
    steps = [trip.taken() for trip in run.trips]
    return [f"{run.minutes(mean(steps)):.2f}", f"{run.hours(sum(steps)):.2f}",
            f"{run.gaps[-1] / 10000:.2f}"]


@measure
def merge(run, second):
    def flows(each, *links):
        """Vehicles an hour that leave links in minutes 10 to 40."""
        return [f"{2 * each.left(link, each.hour // 6, each.hour * 2 // 3)}" for link in links]
    return (flows(run, "11", "12", "11", "12", "21", "22", "21", "22", "31", "32") +
            flows(second, "11", "12"))


@measure
def diverge(run):
    flows = [run.entered(link, 100, 700) for link in ("23", "24")]
    return [f"{sum(flows)}", f"{flows[1]}", f"{run.hours(sum(run.delays())):.2f}"]


@measure
def blocked_turn(run):
    queue = max(run.queue("12", step) for step in range(190, 420))
    end = min(step for step in range(300, 600) if run.queue("12", step) == 0)
    return [f"{run.entered('24', 200, 300)}", f"{queue}", f"{run.minutes(end + 1 - 300):.1f}",
            f"{run.hours(sum(run.delays())):.2f}",
            f"{run.hours(sum(run.delays(destination='4'))):.2f}"]


@measure
def storage(run, slow_wave, spatial):
    held = [f"{each.on_link(link, 500)}" for each in (run, spatial) for link in ("11", "21", "31")]
    return held + [f"{slow_wave.left('41', 90, 650) * slow_wave.hour / 560:.1f}"]


@measure
def signal_delay(run):
    return [f"{run.second * mean(run.delays(origin=zone)):.2f}" for zone in ("11", "21", "31")]


def runs_of(case):
    """The runs of a case: that of run.txt first, the others by name."""
    others = sorted(name[4:-4] for name in os.listdir(case)
                    if name.startswith("run_") and name.endswith(".txt"))
    for name in [None, *others]:
        with open(os.path.join(case, f"run_{name}.txt" if name else "run.txt")) as words:
            yield Run(os.path.join(case, name) if name else case, words.read().split())


def answers(case):
    """The answers of a case: what, by hand, by dta. Ends with 1 where they don't fit."""
    with open(os.path.join(case, "README.md")) as readme:
        lines = [line for line in map(BY_HAND.fullmatch, readme.read().splitlines()) if line]
    name = os.path.basename(os.path.normpath(case))
    measured = MEASURES[name](*runs_of(case))
    if len(lines) != len(measured):
        sys.exit(f"{name}: {len(lines)} lines by hand, {len(measured)} measures")
    for line, number in zip(lines, measured):
        what, expression, value = line.groups()
        if not same_with_decimals(worked_out(ast.parse(expression, mode="eval").body), value):
            sys.exit(f"{name}: '{expression}' is not {value}")
        yield what, value, number


def main():
    table = sys.argv[1:2] == ["--table"]
    for case in sys.argv[2 if table else 1:]:
        name = os.path.basename(os.path.normpath(case))
        for what, value, number in answers(case):
            print(f"| `{name}` | {what} | {value} | {number} |" if table
                  else f'"{what}",{value},{number}')


if __name__ == "__main__":
    main()
