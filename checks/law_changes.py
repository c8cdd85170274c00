"""Changes of one number in the tables of a run, for traffic_laws.py: those that break a law which
is known beforehand, and those at random."""
import bisect

from law_rules import faults_of
from law_run import FLOW, FREE, GAP, STORAGE, TIMES, WAITS, Moves, agent_of

COLUMNS = {"agent": ["agent_id", "o_zone_id", "d_zone_id", "departure_step", "arrival_step",
                     "link_ids", "entry_steps"],
           "link_performance": ["link_id", "from_step", "to_step", "entered", "travel_steps",
                                "free_steps"],
           "gap": ["iteration", "route_steps", "least_steps", "gap_steps", "gap_ppm"],
           "origin_wait": ["link_id", "from_step", "to_step", "departed", "wait_steps"]}
STEPS = ["arrival_step", "entry_steps"]


class Change:
    """Another number in a field of a table, where the field is a list at a place of it."""

    def __init__(self, table, row, column, place, number):
        self.name, self.row, self.column = table, row, column
        self.place, self.number = place, number

    def faults(self, given, results):
        """The faults of the run with this change, which is taken back."""
        table = results[self.name]
        record, field = table.records[self.row], table.places[self.column]
        before = record[field]
        numbers = before.split(";")
        numbers[self.place] = str(self.number)
        record[field] = ";".join(numbers)
        faults = faults_of(given, results)
        record[field] = before
        return faults


def step_change(agent, place, step):
    """Another step of a move of an agent: of an entry, or of the arrival behind the last one."""
    if place == len(agent.entries):
        return Change("agent", agent.line - 2, "arrival_step", 0, step)
    return Change("agent", agent.line - 2, "entry_steps", place, step)


class Planted:
    """For each kind the changes of a run that break a law. Each kind is a method that yields them;
    what law it breaks stands in KINDS."""

    def __init__(self, given, results):
        self.given, self.results = given, results
        table = results["agent"]
        self.agents = [agent_of(given.net, table, row) for row in range(len(table))]
        self.moves = Moves(self.agents)

    def departures_early(self):
        for agent in self.agents:
            if agent.entries and agent.entries[0] == agent.departure > 0:
                yield step_change(agent, 0, agent.departure - 1)

    def moves_early(self):
        """Of a visit that took free flow and the penalty of its turn the end, a step earlier."""
        net = self.given.net
        for agent in self.agents:
            for place, (link, entry, end) in enumerate(
                    zip(agent.route, agent.entries, agent.ends())):
                least = net.links[link].free
                if place + 1 < len(agent.entries):
                    least += net.onward[link][agent.route[place + 1]]
                if end == entry + least:
                    yield step_change(agent, place + 1, end - 1)

    def move_at(self, moves, step):
        """The first later one of these moves, in this step instead."""
        for later, line, _ in moves:
            if later > step:
                agent = self.agents[line - 2]
                return step_change(agent, (agent.entries + [agent.arrival]).index(later), step)
        return None

    def above_an_allowance(self, rates, moves):
        """One of these moves more in a step in which as many were made as the rates allow."""
        steps = [step for step, _, _ in moves]
        for step in set(steps):
            change = self.move_at(moves, step)
            if change and rates.is_limited(step) and steps.count(step) == rates.allowance(step):
                yield change

    def entries_above_an_allowance(self):
        for number, link in enumerate(self.given.net.links):
            yield from self.above_an_allowance(link.rates, self.moves.entered[number])

    def leavings_above_an_allowance(self):
        for number, link in enumerate(self.given.net.links):
            yield from self.above_an_allowance(link.rates, self.moves.left[number])

    def turns_above_a_limit(self):
        for pair, (_, rates) in self.given.net.listed.items():
            yield from self.above_an_allowance(rates, self.moves.taken[pair])

    def entries_onto_a_full_link(self):
        queue = self.given.settings["queue"]
        for number, link in enumerate(self.given.net.links if queue != "point" else []):
            steps = [step for step, _, _ in self.moves.entered[number]]
            left = [step for step, _, _ in self.moves.left[number]]
            for step in set(steps):
                back = link.wave if queue == "newell" else 1
                space = bisect.bisect_left(left, step + 1 - back) + link.storage
                change = self.move_at(self.moves.entered[number], step)
                if change and bisect.bisect_right(steps, step) == space:
                    yield change

    def rows_of_times(self):
        table = self.results["link_performance"]
        return ((row, table.number) for row in range(len(table)))

    def times_below_free_flow(self):
        for row, number in self.rows_of_times():
            if number(row, "travel_steps") == number(row, "free_steps"):
                yield Change("link_performance", row, "travel_steps", 0,
                             number(row, "free_steps") - 1)

    def counts_of_buckets(self):
        for row, number in self.rows_of_times():
            yield Change("link_performance", row, "entered", 0, number(row, "entered") + 1)

    def gaps(self):
        table = self.results["gap"]
        for row in range(len(table)):
            for column in ("gap_steps", "gap_ppm", "route_steps", "least_steps"):
                yield Change("gap", row, column, 0, table.number(row, column) + 1)

    def waits(self):
        table = self.results.get("origin_wait", ())
        for row in range(len(table)):
            for column in ("departed", "wait_steps"):
                yield Change("origin_wait", row, column, 0, table.number(row, column) + 1)


KINDS = {"departures_early": FREE, "moves_early": FREE, "entries_above_an_allowance": FLOW,
         "leavings_above_an_allowance": FLOW, "turns_above_a_limit": FLOW,
         "entries_onto_a_full_link": STORAGE, "times_below_free_flow": TIMES,
         "counts_of_buckets": TIMES, "gaps": GAP, "waits": WAITS}


def planted_outcomes(r, given, results):
    """For each kind that the run has a change of: the kind, and whether the law that one of these
    changes breaks is among the faults that are found."""
    planted = Planted(given, results)
    for kind, law in KINDS.items():
        changes = list(getattr(planted, kind)())
        if changes:
            faults = r.choice(changes).faults(given, results)
            yield kind, any(fault.law == law for fault in faults)


def random_change(r, given, results, by_a_step):
    """Another number in place of one of the tables, or a step of a move one higher or lower; none
    where the column that is drawn has no number."""
    name = "agent" if by_a_step else r.choice(list(results))
    column = r.choice(STEPS if by_a_step else COLUMNS[name])
    rows = [row for row in range(len(results[name])) if results[name].text(row, column)]
    if not rows:
        return None
    row = r.choice(rows)
    numbers = results[name].text(row, column).split(";")
    place = r.randrange(len(numbers))
    number = int(numbers[place])
    if column in ("link_ids", "link_id") and r.random() < .8:
        others = [one for one in given.net.numbers if one != number]
        return Change(name, row, column, place, r.choice(others))
    far = 1 if by_a_step else r.choice([1, 1, r.randint(1, 10), r.randint(1, 1000)])
    return Change(name, row, column, place, number + r.choice([-far, far]))
