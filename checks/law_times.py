"""The laws of link times and of the gap, for traffic_laws.py."""
from collections import Counter, defaultdict

from law_run import FIT, GAP, TIMES, Fault
from law_tables import above
from law_trips import TripCosts, origin_waits

MILLION = 1_000_000
TOO_LARGE = "the network is too large to search the least steps of the last iteration again"


# Link times.

def visits_of(given, agents):
    """The times of the visits to each link in each bucket."""
    visits = defaultdict(list)
    for agent in agents:
        for place, (link, entry, end) in enumerate(
                zip(agent.route, agent.entries, agent.ends())):
            free = given.net.links[link].free
            penalty = 0
            if place + 1 < len(agent.entries):
                penalty = given.net.onward[link].get(agent.route[place + 1], 0)
            time = max(given.horizon - entry, free) if end is None else end - entry - penalty
            visits[link, entry // given.bucket].append(time)
    return visits


def time_faults(given, table, agents):
    """Where the table of link times isn't that of the visits in the agent table."""
    visits = visits_of(given, agents)
    buckets = given.buckets()
    if len(table) != len(buckets) * len(given.net.links):
        raise table.unread(len(table), "-", "it hasn't a row for each bucket of each link")
    for row in range(len(table)):
        number, bucket = divmod(row, len(buckets))
        link, times = given.net.links[number], visits[number, bucket]
        mean = above(sum(times), len(times)) if times else link.free
        wanted = {"link_id": link.name, "from_step": buckets[bucket][0],
                  "to_step": buckets[bucket][1], "entered": len(times), "travel_steps": mean,
                  "free_steps": link.free}
        for column, value in wanted.items():
            if table.number(row, column) != value:
                yield Fault("link_performance", row + 2, column, TIMES,
                            f"it says {table.number(row, column)}, and by the agent table, the "
                            f"link table and the words it is {value}")
        if table.number(row, "travel_steps") < link.free:
            yield Fault("link_performance", row + 2, "travel_steps", TIMES,
                        f"steps of link {link.name}: {table.number(row, 'travel_steps')}, and by "
                        f"free flow {link.free}")


def balance_faults(given, table, agents, moves):
    """Where the entries of a link, over all buckets, aren't the departures onto it and the turns
    into it; or the turns out of it and the arrivals from it aren't its leavings: the entries less
    the vehicles that are on it at the end."""
    buckets = len(given.buckets())
    turns_into, turns_out, there = defaultdict(int), defaultdict(int), defaultdict(int)
    for (first, second), taken in moves.taken.items():
        turns_into[second] += len(taken)
        turns_out[first] += len(taken)
    for agent in agents:
        if agent.status == "running" and agent.entries:
            there[agent.route[len(agent.entries) - 1]] += 1
    for number, link in enumerate(given.net.links):
        line = number * buckets + 2
        entries = sum(table.number(row, "entered") for row in range(line - 2, line - 2 + buckets))
        came = len(moves.began[number]) + turns_into[number]
        went = turns_out[number] + len(moves.arrived[number])
        if entries != came:
            yield Fault("link_performance", line, "entered", TIMES, f"{entries} entries of link "
                        f"{link.name} in all, and {came} departures onto it and turns into it")
        if entries - there[number] != went:
            yield Fault("link_performance", line, "entered", TIMES,
                        f"{entries - there[number]} leavings of link {link.name}, and {went} "
                        "turns out of it and arrivals from it")


# The gap.

def gap_faults(given, results, agents):
    """Where a line of the gap table is negative, doesn't add up or is below the free-flow times,
    or the last one isn't that of the routes in the table of link times."""
    table = results["gap"]
    routed = [agent for agent in agents if agent.route]
    free = sum(given.searches.least_free(agent.origin, agent.destination) for agent in routed)
    if len(table) != given.settings["iterations"]:
        yield Fault("gap", len(table) + 2, "-", FIT, "it hasn't a line for each iteration")
    for row in range(len(table)):
        route, least, gap = (table.number(row, name + "_steps")
                             for name in ("route", "least", "gap"))
        ppm = MILLION * gap // least if least else 0
        for column, law, is_wrong, sentence in (
                ("iteration", FIT, table.number(row, "iteration") != row + 1,
                 f"the line is that of iteration {row + 1}"),
                ("gap_steps", GAP, gap < 0, f"the gap is {gap}"),
                ("gap_steps", GAP, gap != route - least, f"route less least is {route - least}"),
                ("gap_ppm", GAP, table.number(row, "gap_ppm") != ppm,
                 f"gap over least is {ppm} parts per million"),
                ("least_steps", GAP, least < free,
                 f"the least free-flow times of all vehicles with a route add up to {free}")):
            if is_wrong:
                yield Fault("gap", row + 2, column, law, sentence)
    if len(table):
        yield from last_gap_faults(given, results, routed)


def last_gap_faults(given, results, routed):
    """The last line of the gap table beside the routes and the link times that were printed. Where
    a departure is out of range or a link time below free flow, as is told already, it isn't."""
    table, row = results["gap"], len(results["gap"]) - 1
    printed = printed_times(given, results)
    if any(min(times) < link.free for times, link in zip(printed, given.net.links)) or any(
            not 0 <= agent.departure < given.horizon for agent in routed):
        return

    if given.settings["costs"] == "trips":
        sums = TripCosts(given, printed, origin_waits(given, routed)).sums(routed)
        if sums[1] is None:
            given.notes.append(TOO_LARGE)
    else:
        sums = sums_by_links(given, printed, routed)
    for column, value in zip(("route_steps", "least_steps"), sums):
        if value is not None and table.number(row, column) != value:
            yield Fault("gap", row + 2, column, GAP,
                        f"by the routes and the times of the last iteration it is {value}")


def printed_times(given, results):
    """For each link the steps of each bucket, as they were printed."""
    count = len(given.buckets())
    return [[results["link_performance"].number(number * count + bucket, "travel_steps")
             for bucket in range(count)] for number in range(len(given.net.links))]


def sums_by_links(given, printed, routed):
    """By link times the steps of the routes of these vehicles, and the least steps of their trips,
    or none of these where the network is too large to search them."""
    def time(link, step):
        if step >= given.horizon:
            return given.net.links[link].free
        return printed[link][step // given.bucket]

    trips = Counter((agent.departure, agent.origin, agent.destination) for agent in routed)
    return (sum(route_time(given.net, agent, time) for agent in routed),
            least_sum(given, trips, time))


def least_sum(given, trips, time):
    """The least steps of all trips, each so many times; none where the network is too large to
    search them."""
    total = given.searches.states = 0
    for trip, count in trips.items():
        least = given.searches.least(trip, time)
        if least is None:
            given.notes.append(TOO_LARGE)
            return None
        total += count * least
    return total


def route_time(net, agent, time):
    """The steps that a route takes from its departure in a table of link times."""
    step = agent.departure
    for place, link in enumerate(agent.route):
        step += time(link, step)
        if place + 1 < len(agent.route):
            step += net.onward[link].get(agent.route[place + 1], 0)
    return step - agent.departure
