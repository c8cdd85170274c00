"""A run as traffic_laws.py takes it: what it was given, the tables that it wrote, the journeys and
the moves in them, and the faults that are told of it."""
from collections import defaultdict
from dataclasses import dataclass, field

from law_searches import Searches
from law_tables import Net, Rows, settings_of, trips_of

FIT = "the tables fit each other"
FLOW = "flow within capacity"
STORAGE = "storage"
FREE = "nobody is faster than free flow"
ORDER = "first in, first out"
TIMES = "link times"
GAP = "the gap is never negative"
WAITS = "waits at origins"
RESULTS = ("agent", "link_performance", "gap", "origin_wait")  # the last one by whole trips


@dataclass
class Fault:
    """A place of a table at which a law is broken, and what is wrong there in a sentence."""
    table: str
    line: int
    column: str
    law: str
    sentence: str

    def __str__(self):
        return f"{self.table} line {self.line} {self.column}: {self.law}: {self.sentence}"


class Given:
    """What a run was given: its words, its network and its trips; with searches over these."""

    def __init__(self, folder, words):
        self.settings = settings_of(words)
        self.horizon, self.bucket = self.settings["horizon"], self.settings["bucket"]
        self.net = Net(folder, self.settings)
        self.trips = trips_of(folder, self.settings["period"])
        self.searches = Searches(self.net)
        self.notes = []  # what wasn't checked

    def buckets(self):
        """The first step of each bucket and the step after its last one."""
        return [(first, min(first + self.bucket, self.horizon))
                for first in range(0, self.horizon, self.bucket)]


def results_of(folder, settings):
    """The tables that a run with these settings wrote, by their names."""
    return {name: Rows(folder, name + ".csv") for name in RESULTS
            if name != "origin_wait" or settings["costs"] == "trips"}


@dataclass
class Agent:
    """A row of the agent table: its line, its route as positions of links, its entries."""
    line: int
    departure: int
    origin: int
    destination: int
    arrival: int | None
    status: str
    route: list = field(default_factory=list)
    entries: list = field(default_factory=list)

    def ends(self):
        """The step in which each visit ends, or None where it hasn't ended."""
        return (self.entries[1:] + [self.arrival])[:len(self.entries)]


def agent_of(net, table, row):
    links = table.numbers(row, "link_ids")
    if any(name not in net.numbers for name in links):
        raise table.unread(row, "link_ids", "it names a link that isn't there")
    has_arrived = table.text(row, "arrival_step") != ""
    return Agent(row + 2, table.number(row, "departure_step"), table.number(row, "o_zone_id"),
                 table.number(row, "d_zone_id"),
                 table.number(row, "arrival_step") if has_arrived else None,
                 table.text(row, "status"), [net.numbers[name] for name in links],
                 table.numbers(row, "entry_steps"))


class Moves:
    """All moves, each with its step, its line and its column: those that begin on a link, that
    enter it, that leave it, that arrive from it, and that take a turn."""

    def __init__(self, agents):
        self.began, self.entered, self.left = (defaultdict(list) for _ in range(3))
        self.arrived, self.taken = defaultdict(list), defaultdict(list)
        for agent in agents:
            self.add(agent)
        for moves in (self.entered, self.left, self.taken):
            for some in moves.values():
                some.sort()

    def add(self, agent):
        for place, (link, step) in enumerate(zip(agent.route, agent.entries)):
            move = step, agent.line, "entry_steps"
            self.entered[link].append(move)
            if place == 0:
                self.began[link].append(move)
            else:
                before = agent.route[place - 1]
                self.left[before].append(move)
                self.taken[before, link].append(move)
        if agent.arrival is not None and agent.route:
            move = agent.arrival, agent.line, "arrival_step"
            self.left[agent.route[-1]].append(move)
            self.arrived[agent.route[-1]].append(move)
