"""The laws that hold in every run, as traffic_laws.py checks them over its tables. Each check
tells its faults: the table, the line and the column, the law, and what is wrong in a sentence."""
import bisect
import itertools
from collections import defaultdict

from law_run import FIT, FLOW, FREE, ORDER, STORAGE, Fault, Moves, agent_of
from law_searches import NEVER
from law_tables import VEHICLE, Unread, above
from law_times import balance_faults, gap_faults, time_faults
from law_trips import wait_faults


def faults_of(given, results):
    """All faults of a run."""
    agents, faults = [], []
    for row in range(len(results["agent"])):
        try:
            agents.append(agent_of(given.net, results["agent"], row))
        except Unread as one:
            faults.append(Fault(*one.place, FIT, one.why))
    moves = Moves(agents)
    try:
        faults += agent_faults(given, results["agent"], agents)
        faults += flow_faults(given.net, moves)
        faults += storage_faults(given, moves)
        for agent in agents:
            faults += free_faults(given, agent)
        faults += order_faults(given.net, agents)
        faults += time_faults(given, results["link_performance"], agents)
        faults += balance_faults(given, results["link_performance"], agents, moves)
        if "origin_wait" in results:
            faults += wait_faults(given, results["origin_wait"], agents)
        faults += gap_faults(given, results, agents)
    except Unread as one:
        faults.append(Fault(*one.place, FIT, one.why))
    return faults


# The agent table beside the demand and the network.

def agent_faults(given, table, agents):
    """Where the agents aren't those of the demand, or a route is no path between their zones."""
    if len(table) != len(given.trips):
        yield Fault("agent", min(len(table), len(given.trips)) + 2, "-", FIT,
                    f"it has {len(table)} vehicles, and the demand releases {len(given.trips)}")
    for agent in agents:
        row = agent.line - 2
        if table.number(row, "agent_id") != row:
            yield Fault("agent", agent.line, "agent_id", FIT, f"the vehicle is number {row}")
        if row < len(given.trips):
            got = agent.departure, agent.origin, agent.destination
            columns = "departure_step", "o_zone_id", "d_zone_id"
            for column, has, wanted in zip(columns, got, given.trips[row]):
                if has != wanted:
                    yield Fault("agent", agent.line, column, FIT,
                                f"it says {has}, and the demand says {wanted}")
        yield from route_faults(given, agent)
        yield from state_faults(given, agent)


def route_faults(given, agent):
    net, route = given.net, agent.route
    what = None
    if not route:
        if given.searches.least_free(agent.origin, agent.destination) < NEVER:
            what = "it has no route, and there is a path between its zones"
    elif not net.begins_in(route[0], agent.origin):
        what = "the first link doesn't begin in the origin"
    elif [net.ends_in(link, agent.destination) for link in route] != [
            False] * (len(route) - 1) + [True]:
        what = "the last link alone has to end in the destination"
    elif any(b not in net.onward[a] for a, b in zip(route, route[1:])):
        what = "from some link there is no turn into the next one"
    if what:
        yield Fault("agent", agent.line, "link_ids", FIT, what)


def state_faults(given, agent):
    """Where entries, arrival and status don't belong together."""
    if len(agent.entries) > len(agent.route):
        yield Fault("agent", agent.line, "entry_steps", FIT, "it has more entries than links")
    if agent.arrival is not None and len(agent.entries) < len(agent.route):
        yield Fault("agent", agent.line, "arrival_step", FIT, "it arrived before its last link")
    for column, steps in (("entry_steps", agent.entries), ("arrival_step", [agent.arrival or 0])):
        if any(not 0 <= step < given.horizon for step in steps):
            yield Fault("agent", agent.line, column, FIT,
                        f"a step isn't one from 0 to {given.horizon - 1}")
    status = ("unrouted" if not agent.route else "arrived" if agent.arrival is not None
              else "running" if agent.entries else "waiting")
    if agent.status != status:
        yield Fault("agent", agent.line, "status", FIT, f"the vehicle is {status}")


# Flow within capacity.

def flow_faults(net, moves):
    for number, link in enumerate(net.links):
        for what, some in (("entries into", moves.entered), ("leavings of", moves.left)):
            yield from limit_faults(f"{what} link {link.name}", link.rates, some[number])
    for (first, second), taken in moves.taken.items():
        if (first, second) in net.listed:
            names = net.links[first].name, net.links[second].name
            yield from limit_faults("turns from link {} into link {}".format(*names),
                                    net.listed[first, second][1], taken)


def limit_faults(what, rates, moves):
    """Where more moves come in a step than its allowance, or in some steps on end than their rate
    times their time, rounded up. A step without a limit counts nothing."""
    count, lowest = 0, None
    for step, group in itertools.groupby(moves, key=lambda move: move[0]):
        group = list(group)
        if step < 0 or not rates.is_limited(step):
            continue
        allowance = rates.allowance(step)
        if len(group) > allowance:
            yield Fault("agent", *group[allowance][1:], FLOW, f"{what} in step {step}: "
                        f"{len(group)}, and the allowance is {allowance}")
        start = count * VEHICLE - rates.given(step)
        lowest = min(lowest or (start, step, count), (start, step, count))
        count += len(group)
        if count * VEHICLE - rates.given(step + 1) - lowest[0] >= VEHICLE:
            first, many = lowest[1], count - lowest[2]
            parts = rates.given(step + 1) - rates.given(first)
            yield Fault("agent", *group[-1][1:], FLOW, f"{what} in steps {first} to {step}: "
                        f"{many}, and rate times time, rounded up, is {above(parts, VEHICLE)}")


# Storage.

def storage_faults(given, moves):
    """Where a link holds more vehicles than its storage after a step, or takes in more than the
    space that has come back to its beginning: with a spatial queue that of who left before the
    step, with Newell's that of who left up to the wave's time before."""
    queue = given.settings["queue"]
    for number, link in enumerate(given.net.links if queue != "point" else []):
        back = link.wave if queue == "newell" else 1
        left = [step for step, _, _ in moves.left[number]]
        count = 0
        for step, group in itertools.groupby(moves.entered[number], key=lambda move: move[0]):
            group = list(group)
            count += len(group)
            on_it = count - bisect.bisect_right(left, step)
            came_back = bisect.bisect_left(left, step + 1 - back)
            if on_it > link.storage:
                yield Fault("agent", *group[-1][1:], STORAGE, f"link {link.name} holds {on_it} "
                            f"vehicles after step {step}, its storage is {link.storage}")
            elif count > came_back + link.storage:
                yield Fault("agent", *group[-1][1:], STORAGE, f"{count} vehicles entered link "
                            f"{link.name} up to step {step}; {came_back} left it up to step "
                            f"{step - back}, and its storage is {link.storage}")


# Nobody is faster than free flow.

def free_faults(given, agent):
    net = given.net
    if agent.entries and agent.entries[0] < agent.departure:
        yield Fault("agent", agent.line, "entry_steps", FREE, f"it enters its first link in step "
                    f"{agent.entries[0]}, before its departure in step {agent.departure}")
    moves = agent.entries + ([] if agent.arrival is None else [agent.arrival])
    if any(b <= a for a, b in zip(moves, moves[1:])):
        yield Fault("agent", agent.line, "entry_steps", FREE, "it moves twice in a step, or back")
    for place, (link, entry, end) in enumerate(zip(agent.route, agent.entries, agent.ends())):
        if end is None:
            continue
        is_turn = place + 1 < len(agent.entries)
        penalty = net.onward[link].get(agent.route[place + 1], 0) if is_turn else 0
        least = net.links[link].free + penalty
        if end - entry < least:
            yield Fault("agent", agent.line, "entry_steps" if is_turn else "arrival_step", FREE,
                        f"steps over link {net.links[link].name} and the turn behind it: "
                        f"{end - entry}, and by free flow {least}")
    if agent.arrival is not None:
        least = given.searches.least_free(agent.origin, agent.destination)
        if agent.arrival - agent.departure < least:
            yield Fault("agent", agent.line, "arrival_step", FREE,
                        f"steps of the trip: {agent.arrival - agent.departure}, and the least "
                        f"free-flow time between its zones is {least}")


# First in, first out.

def order_faults(net, agents):
    """Where of two visits to a link the one that begins in a later step ends in an earlier one."""
    visits = defaultdict(list)
    for agent in agents:
        for link, entry, end in zip(agent.route, agent.entries, agent.ends()):
            visits[link].append((entry, NEVER if end is None else end, agent.line))
    for number, some in visits.items():
        last = before = 0  # the latest end of the visits up to now, and of those of earlier steps
        some.sort()
        for (entry, end, line), (earlier, _, _) in zip(some, some[:1] + some):
            before = last if entry > earlier else before
            last = max(last, end)
            if end < before:
                yield Fault("agent", line, "entry_steps", ORDER, f"it leaves link "
                            f"{net.links[number].name} in step {end}, before a vehicle that "
                            f"entered it before step {entry}")
