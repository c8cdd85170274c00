"""Costs of whole trips, for traffic_laws.py and both_costs.py: the waits at origins by the agent
table, in which steps a first link is entered after them and a link is left where nobody passes on
it, the times of routes, and least times."""
import heapq
import itertools
from collections import defaultdict

from law_run import WAITS, Fault
from law_searches import MOST_STATES, NEVER
from law_tables import above


def origin_waits(given, agents):
    """For each first link and bucket of departures the vehicles that belong to it, and the mean of
    their waits, rounded up."""
    waits = defaultdict(list)
    for agent in agents:
        if agent.route:
            came = agent.entries[0] if agent.entries else given.horizon
            waits[agent.route[0], agent.departure // given.bucket].append(came - agent.departure)
    return {place: (len(some), above(sum(some), len(some))) for place, some in waits.items()}


def wait_faults(given, table, agents):
    """Where the table of origin waits isn't that of the agent table."""
    buckets, row = given.buckets(), 0
    for (link, bucket), (departed, wait) in sorted(origin_waits(given, agents).items()):
        if not 0 <= bucket < len(buckets):
            return
        if row == len(table):
            yield Fault("origin_wait", row + 2, "-", WAITS, "it ends early")
            return
        wanted = {"link_id": given.net.links[link].name, "from_step": buckets[bucket][0],
                  "to_step": buckets[bucket][1], "departed": departed, "wait_steps": wait}
        for column, value in wanted.items():
            if table.number(row, column) != value:
                yield Fault("origin_wait", row + 2, column, WAITS,
                            f"it says {table.number(row, column)}, and by the agent table it is "
                            f"{value}")
        row += 1
    if row < len(table):
        yield Fault("origin_wait", row + 2, "-", WAITS, "nobody belongs to this link and bucket")


class TripCosts:
    """When links are entered and left, by a table of link times (`printed`, for each link the steps
    of each bucket) and the waits at origins."""

    def __init__(self, given, printed, waits):
        self.net, self.horizon = given.net, given.horizon
        self.bucket, self.waits = given.bucket, waits
        self.entries, self.states = {}, 0
        self.exits = [self.latest(min(step + times[step // self.bucket],
                                      max(step + link.free, self.horizon))
                                  for step in range(self.horizon))
                      for link, times in zip(self.net.links, printed)]

    @staticmethod
    def latest(steps):
        """For each of these steps the latest one up to it."""
        return list(itertools.accumulate(steps, max))

    def enter(self, link, step):
        """The step in which who departs then enters a first link."""
        if step >= self.horizon:
            return step
        if link not in self.entries:
            self.entries[link] = self.latest(
                max(one, min(one + self.waits.get((link, one // self.bucket), (0, 0))[1],
                             self.horizon)) for one in range(self.horizon))
        return self.entries[link][step]

    def exit(self, link, step):
        """The step in which who enters a link then leaves it."""
        if step >= self.horizon:
            return step + self.net.links[link].free
        return self.exits[link][step]

    def route_time(self, agent):
        """The steps that the route of a vehicle takes from its departure."""
        step = self.enter(agent.route[0], agent.departure)
        for place, link in enumerate(agent.route):
            step = self.exit(link, step)
            if place + 1 < len(agent.route):
                step += self.net.onward[link].get(agent.route[place + 1], 0)
        return step - agent.departure

    def earliest(self, origin, departure):
        """The earliest arrival in each zone of who departs from this one then. Who enters a link
        earlier never leaves it later, so the earliest entry of each link is enough."""
        entered, arrivals = [NEVER] * len(self.net.links), {}
        heap = [(self.enter(link, departure), link) for link in self.net.first_links(origin)]
        heapq.heapify(heap)
        while heap:
            step, number = heapq.heappop(heap)
            if step >= entered[number]:
                continue
            entered[number] = step
            self.states += 1
            end = self.exit(number, step)
            zone = self.net.zones[self.net.links[number].end]
            arrivals[zone] = min(end, arrivals.get(zone, NEVER))
            for other, penalty in self.net.onward[number].items():
                if end + penalty < entered[other]:
                    heapq.heappush(heap, (end + penalty, other))
        return arrivals

    def sums(self, routed):
        """The steps of the routes of all these vehicles, and the least steps of their trips, or
        none of these where the network is too large to search them."""
        searched, route, least = {}, sum(map(self.route_time, routed)), 0
        for agent in routed:
            start = agent.origin, agent.departure
            if start not in searched:
                searched[start] = self.earliest(*start)
            if self.states > MOST_STATES:
                return route, None
            least += searched[start].get(agent.destination, NEVER) - agent.departure
        return route, least
