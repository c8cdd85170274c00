#!/usr/bin/env python3
"""traffic_laws.py PROGRAM [--cases N] [--seed S]
traffic_laws.py --run FOLDER [WORDS..]

Checks the laws that hold in every run (docs/LAWS.md), over its tables and by arithmetic of its
own: in each step no more vehicles enter a link, leave it or take a limited turn than its
allowance, and in any steps no more than rate times time, rounded up; no link holds more than its
storage; nobody is faster than free flow; links are left in the order of entry; link times are
those of the visits, and never below free flow; the gap is that of the routes by the link times,
or with `--costs trips` by whole trips, and never negative; and waits at origins are those of the
vehicles.

The second form checks the run in FOLDER: node.csv, link.csv, movement.csv where there is one,
demand.csv, and the agent.csv, link_performance.csv, gap.csv and by trips origin_wait.csv that
`assign` wrote with these WORDS. It prints each fault with its table, line, column and law; the
status is 1 where there is one.

The first form lets PROGRAM run over all examples that assign, and over N random networks (200
where N isn't said) with each kind of queue. Then it changes single numbers of the random runs'
tables: some by which a law is broken for sure, and looks whether that law is told; and some at
random, and tells the share that is caught. The status is 1 where a run has a fault or a sure
change isn't told.
"""
import argparse
import collections
import os
import random
import shutil
import subprocess
import sys
import tempfile

sys.dont_write_bytecode = True
import law_cases  # noqa: E402
import law_changes  # noqa: E402
import law_rules  # noqa: E402
import law_run  # noqa: E402

EXAMPLES = os.path.join(os.path.dirname(os.path.abspath(__file__)), "..", "examples")
QUEUES = ("point", "spatial", "newell")
MOST_TOLD = 20
ASSIGNED = {  # the folder of an example, and the words of its README
    "audit": "--period 1 --horizon 60 --iterations 2",
    "backward_wave": "--period 96 --horizon 138 --bucket 6 --queue newell",
    "many_scenarios/scenarios/base": "--queue newell",
    "many_scenarios/scenarios/busy": "--queue newell",
    "many_scenarios/scenarios/busy_two_lanes": "--queue newell",
    "many_scenarios/scenarios/closed_arm": "--queue newell",
    "osm_columns": "--iterations 3 --queue spatial",
    "roundabout": "--queue newell",
    "signal": "--period 60 --horizon 120 --bucket 5",
    "sioux_falls": "--horizon 2400 --iterations 20",
    "turns": "--period 20 --horizon 60 --bucket 20",
    "two_links": "--period 30 --horizon 60",
    "two_roads": "--horizon 2400 --iterations 20 --costs trips",
    "two_routes": "--period 1 --horizon 60 --iterations 2",
    "warm_start": "--horizon 2400 --iterations 5 --start",
}


def check(folder, words, name):
    """Checks the run in a folder, prints its faults, the first ones where there are many, and says
    whether there are any."""
    given = law_run.Given(folder, words)
    faults = law_rules.faults_of(given, law_run.results_of(folder, given.settings))
    for fault in faults[:MOST_TOLD]:
        print(f"  {fault}")
    if len(faults) > MOST_TOLD:
        print(f"  and {len(faults) - MOST_TOLD} more")
    for note in given.notes:
        print(f"  not checked: {note}")
    print(f"{name}: {len(faults)} faults", flush=True)
    return bool(faults)


def assign(program, folder, words):
    """Lets the program assign in a folder; the status with which it ends."""
    return subprocess.run([program, "assign", *words], cwd=folder, stdin=subprocess.DEVNULL,
                          stdout=subprocess.DEVNULL).returncode


def copy_tables(example, folder):
    os.makedirs(folder)
    for name in os.listdir(example):
        if name.endswith(".csv"):
            shutil.copy(os.path.join(example, name), folder)


def try_examples(program, folder):
    """Runs the examples, each with the words of its README, and but for the largest ones also with
    each other queue; how many runs failed."""
    failed = 0
    for name, words in ASSIGNED.items():
        words = words.split()
        usual = words[words.index("--queue") + 1] if "--queue" in words else "point"
        is_large = name in ("sioux_falls", "warm_start")
        for queue in [usual] + [one for one in QUEUES if one != usual and not is_large]:
            place = os.path.join(folder, name.replace("/", "_") + "_" + queue)
            copy_tables(os.path.join(EXAMPLES, name), place)
            if "--start" in words:
                earlier = os.path.join(folder, "sioux_falls_point", "agent.csv")
                shutil.copy(earlier, os.path.join(place, "start.csv"))
            rest = [word for word in words if word not in ("--queue", usual)]
            rest += ["--queue", queue]
            status = assign(program, place, rest)
            told = f"{name} {' '.join(rest)}"
            if status:
                print(f"{told}: status {status}")
            failed += status != 0 or check(place, rest, told)
    return failed


def lay_out(case, folder):
    os.makedirs(folder)
    for name, table in case.tables.items():
        with open(os.path.join(folder, name + ".csv"), "w", encoding="ascii") as out:
            out.write(law_cases.text_of(table))


class Tally:
    """What came out of the random runs and of the changes."""

    def __init__(self):
        self.failed = self.vehicles = 0
        self.planted, self.told = collections.Counter(), collections.Counter()
        self.changed, self.caught = collections.Counter(), collections.Counter()

    def add_changes(self, r, given, results):
        """Some changes of the tables of a run."""
        for kind, is_told in law_changes.planted_outcomes(r, given, results):
            self.planted[kind] += 1
            self.told[kind] += is_told
        for place in range(8):
            by_a_step = place > 4
            change = law_changes.random_change(r, given, results, by_a_step)
            if change:
                column = "agent, a step" if by_a_step else change.name, change.column
                self.changed[column] += 1
                self.caught[column] += bool(change.faults(given, results))

    def print_changes(self):
        for kind in law_changes.KINDS:
            print(f"{kind}: {self.told[kind]} of {self.planted[kind]} told")
        for name in law_run.RESULTS:
            self.print_caught(f"{name}.csv", [(name, one) for one in law_changes.COLUMNS[name]])
        self.print_caught("steps of agent.csv, one more or less",
                          [("agent, a step", one) for one in law_changes.STEPS])

    def print_caught(self, what, columns):
        """Prints how many random changes were caught in all of these columns and in each."""
        caught, changed = (sum(some[column] for column in columns)
                           for some in (self.caught, self.changed))
        each = ", ".join(f"{one[1]} {self.caught[one]} of {self.changed[one]}" for one in columns)
        print(f"random numbers in {what}: {caught} of {changed} caught ({each})")

    def missed(self):
        """The kinds of sure changes that weren't all told, or of which there was none."""
        return [kind for kind in law_changes.KINDS
                if not self.planted[kind] or self.told[kind] < self.planted[kind]]


def try_random(program, folder, settings):
    """Runs the random cases of each queue and changes their tables."""
    tally = Tally()
    for queue in QUEUES:
        for number in range(settings.cases):
            r = random.Random(f"{settings.seed}:{queue}:{number}")
            case = law_cases.make_case(r, queue)
            place = os.path.join(folder, f"{queue}_{number}")
            lay_out(case, place)
            status = assign(program, place, case.words[1:])
            if status:
                print(f"{queue} case {number}: status {status}")
                tally.failed += 1
                continue
            given = law_run.Given(place, case.words)
            results = law_run.results_of(place, given.settings)
            tally.vehicles += len(given.trips)
            if law_rules.faults_of(given, results):
                check(place, case.words, f"{queue} case {number}: {' '.join(case.words)}")
                tally.failed += 1
            else:
                tally.add_changes(r, given, results)
            shutil.rmtree(place)
    return tally


def main():
    if sys.argv[1:2] == ["--run"] and len(sys.argv) > 2:
        try:
            sys.exit(1 if check(sys.argv[2], sys.argv[3:], sys.argv[2]) else 0)
        except (OSError, ValueError) as why:
            sys.exit(f"{sys.argv[2]} can't be checked: {why}")
    reader = argparse.ArgumentParser(usage=__doc__)
    reader.add_argument("program", type=os.path.abspath)
    reader.add_argument("--cases", type=int, default=200)
    reader.add_argument("--seed", type=int, default=1)
    settings = reader.parse_args()
    with tempfile.TemporaryDirectory() as folder:
        failed = try_examples(settings.program, folder)
        tally = try_random(settings.program, folder, settings)
    tally.print_changes()
    print(f"seed {settings.seed}: {settings.cases} random runs with each queue, "
          f"{tally.vehicles} vehicles, {tally.failed} with a fault; {failed} runs of examples "
          f"with one; sure changes that weren't told: {' '.join(tally.missed()) or 'none'}")
    sys.exit(1 if failed or tally.failed or tally.missed() else 0)


if __name__ == "__main__":
    main()
