#!/usr/bin/env python3
"""both_costs.py PROGRAM [--write]

Runs PROGRAM over some networks by both costs, link times and whole trips, and makes the table "By
both costs" of docs/VALIDATION.md from what the runs write: the gap that is told; the gap by whole
trips, which is computed here again from the routes, the link times and the waits at origins in
agent.csv; vehicle-hours, up to the horizon where a trip isn't finished; and how many vehicles
haven't arrived, have a link twice in their route, and pass the node where it begins again.

The status is 1 where a row of the table is another one, where the gap that is told by whole trips
isn't the computed one, or where origin_wait.csv isn't that of agent.csv. With --write the rows are
written to the page before that.
"""
import csv
import os
import shutil
import subprocess
import sys
import tempfile

sys.dont_write_bytecode = True
import law_run  # noqa: E402
import law_times  # noqa: E402
import law_trips  # noqa: E402

TOP = os.path.join(os.path.dirname(os.path.abspath(__file__)), "..")
PAGE = os.path.join(TOP, "docs", "VALIDATION.md")
HEAD = "| Network | `--costs` | `--iterations` |"
ONE_PATH = {
    "node.csv": "node_id,zone_id\n1,1\n2,\n3,3\n4,\n5,\n",
    "link.csv": "link_id,from_node_id,to_node_id,length,lanes,free_speed,capacity\n"
                "12,1,2,1000,1,60,1800\n25,2,5,1000,1,60,1800\n53,5,3,1000,1,60,600\n"
                "24,2,4,500,1,60,1800\n42,4,2,500,1,60,1800\n",
    "demand.csv": "o_zone_id,d_zone_id,volume\n1,3,1200\n"}
ONCE = [("links", 20), ("trips", 20)]
LONGER = ONCE + [("trips", 50)]


def copy_example(name, folder):
    for table in ("node.csv", "link.csv", "demand.csv"):
        shutil.copy(os.path.join(TOP, "examples", name, table), folder)


def two_roads(folder):
    copy_example("two_roads", folder)


def one_path(folder):
    for name, text in ONE_PATH.items():
        with open(os.path.join(folder, name), "w", encoding="ascii") as out:
            out.write(text)


def sioux_falls(folder):
    copy_example("sioux_falls", folder)


def more_demand(folder):
    """Sioux Falls with four thirds of its volumes."""
    copy_example("sioux_falls", folder)
    path = os.path.join(folder, "demand.csv")
    with open(path, newline="", encoding="ascii") as table:
        rows = list(csv.reader(table))
    place = rows[0].index("volume")
    for row in rows[1:]:
        row[place] = str(int(row[place]) * 4 / 3)
    with open(path, "w", newline="", encoding="ascii") as table:
        csv.writer(table, lineterminator="\n").writerows(rows)


# How a network is called, who lays it out, the words, and the costs with the iterations.
NETWORKS = [
    ("two roads", two_roads, ["--horizon", "2400"], ONCE),
    ("one path and a dead end", one_path, ["--horizon", "2400"], ONCE),
    ("Sioux Falls", sioux_falls, [], LONGER),
    ("Sioux Falls, a third more demand", more_demand, [], LONGER),
]


class Measures:
    """What comes out of a run, from its tables alone."""

    def __init__(self, folder, words):
        given = law_run.Given(folder, words)
        results = law_run.results_of(folder, given.settings)
        table = results["agent"]
        self.agents = [law_run.agent_of(given.net, table, row) for row in range(len(table))]
        self.given = given
        routed = [agent for agent in self.agents if agent.route]
        costs = law_trips.TripCosts(given, law_times.printed_times(given, results),
                                    law_trips.origin_waits(given, self.agents))
        self.sums = costs.sums(routed)
        last = len(results["gap"]) - 1
        self.told = [results["gap"].number(last, name) for name in (
            "route_steps", "least_steps", "gap_ppm")]
        self.faults = []
        if given.settings["costs"] == "trips":
            self.faults = [str(one) for one in law_trips.wait_faults(
                given, results["origin_wait"], self.agents)]
            if tuple(self.told[:2]) != self.sums:
                self.faults.append(f"gap.csv tells {self.told[:2]}, and by the tables it is "
                                   f"{list(self.sums)}")

    def hours(self):
        steps = sum((self.given.horizon if agent.arrival is None else agent.arrival)
                    - agent.departure for agent in self.agents if agent.route)
        return steps * self.given.settings["step"] / 3600

    def past_the_origin(self, agent):
        """Whether a route passes the node where it begins again."""
        links = self.given.net.links
        return any(links[number].end == links[agent.route[0]].begin for number in agent.route)

    def cells(self):
        """The numbers of a row of the table."""
        route, least = self.sums
        routes = [agent for agent in self.agents if agent.route]
        return [f"{self.told[2] / 10_000:.2f}",
                f"{(1_000_000 * (route - least) // least) / 10_000:.2f}", f"{self.hours():,.0f}",
                f"{sum(agent.arrival is None for agent in routes):,}",
                f"{sum(len(set(agent.route)) < len(agent.route) for agent in routes):,}",
                f"{sum(map(self.past_the_origin, routes)):,}"]


def run(program, network, words, costs, iterations):
    """The row of a run, and what is wrong with it."""
    name, lay_out = network
    words = [*words, "--iterations", str(iterations), "--costs", costs]
    with tempfile.TemporaryDirectory() as folder:
        lay_out(folder)
        subprocess.run([program, "assign", *words], cwd=folder, check=True,
                       stdout=subprocess.DEVNULL)
        measures = Measures(folder, words)
    row = "| " + " | ".join([name, costs, str(iterations), *measures.cells()]) + " |"
    print(row, flush=True)
    return row, measures.faults


def rows_of_page(lines):
    """Where the rows of the table stand among the lines of the page."""
    head = next(place for place, line in enumerate(lines) if line.startswith(HEAD))
    end = head + 2
    while lines[end].startswith("| "):
        end += 1
    return head + 2, end


def main():
    if len(sys.argv) < 2 or sys.argv[2:] not in ([], ["--write"]):
        sys.exit(__doc__)
    program, rows, failed = os.path.abspath(sys.argv[1]), [], False
    for name, lay_out, words, runs in NETWORKS:
        for costs, iterations in runs:
            row, faults = run(program, (name, lay_out), words, costs, iterations)
            rows.append(row)
            for fault in faults:
                failed = True
                print(f"  {fault}")
    with open(PAGE, encoding="utf-8") as page:
        lines = page.read().split("\n")
    begin, end = rows_of_page(lines)
    if sys.argv[2:]:
        lines[begin:end] = rows
        with open(PAGE, "w", encoding="utf-8") as page:
            page.write("\n".join(lines))
    elif lines[begin:end] != rows:
        failed = True
        print("docs/VALIDATION.md has other rows")
    sys.exit(1 if failed else 0)


if __name__ == "__main__":
    main()
