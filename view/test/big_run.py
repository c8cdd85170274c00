"""Tables of a made run as large as a country's: 40,000 links, 200,000 vehicles, 60 MB of agents.

Nodes stand on a grid, and every vehicle goes along a row and then a column; between the zones of
PAIR there are many ways. A link's time grows and falls again over the run, slowly enough that
links are left in the order of entry, as in the program's own runs. In a thousand vehicles one has
no route, one never enters and one departs late; in a thousand links one is a stub.
"""
import os
import random

ROWS, COLUMNS, VEHICLES, HORIZON, BUCKET = 101, 100, 200_000, 1200, 50
FREE = 6
WORST_LINK = 12_345
# What becomes of two in a thousand vehicles, and when a third one departs.
FATES, LATE = {100: 'unrouted', 200: 'waiting'}, 1100
# Lanes and capacities: streets, roads and arterials.
KINDS = ((1, 900), (1, 1800), (1, 900), (1, 1800), (2, 1800))


def node(row, column):
    return row * COLUMNS + column + 1


# Two places with a way between them along each of 31 columns.
PAIR = node(45, 10), node(20, 40)


def is_stub(link):
    return link % 1000 == 7


def free(link):
    return 1 if is_stub(link) else FREE


def make_links():
    """Links by their ends, in the order of their numbers from 1."""
    ends = []
    for row in range(ROWS):
        for column in range(COLUMNS):
            for to_row, to_column in (
                (row, column + 1),
                (row + 1, column),
                (row, column - 1),
                (row - 1, column),
            ):
                if 0 <= to_row < ROWS and 0 <= to_column < COLUMNS:
                    ends.append((node(row, column), node(to_row, to_column)))
    # Two closed links beside others, so that there are 40,000.
    return ends + [ends[0], ends[1]]


def name(first, second):
    row, column = divmod(first - 1, COLUMNS)
    return f'{row + 1}. Street' if abs(second - first) == 1 else f'{column + 1}. Avenue'


def delay(severity, step):
    """Steps above the free-flow time of who enters in a step: up to the severity and down."""
    share = 1 - abs(step - 600) / 600
    return int(severity * max(share, 0))


def severities(links):
    source = random.Random(2)
    found = [source.choice((0, 0, 0, 1, 2, 4, 8)) for _ in range(links)]
    found[WORST_LINK - 1] = 30
    return found


def write_network(folder, ends):
    source, places = random.Random(3), {}
    with open(os.path.join(folder, 'node.csv'), 'w') as out:
        out.write('node_id,x_coord,y_coord,zone_id\n')
        for row in range(ROWS):
            for column in range(COLUMNS):
                x, y = column * 300 + source.randrange(-80, 80), row * 300 + source.randrange(
                    -80, 80
                )
                number = node(row, column)
                places[number] = x, y
                out.write(f'{number},{x},{y},{number}\n')
    with open(os.path.join(folder, 'link.csv'), 'w') as out:
        out.write(
            'link_id,from_node_id,to_node_id,length,lanes,free_speed,capacity,name,geometry\n'
        )
        for number, (first, second) in enumerate(ends, 1):
            is_closed = number > len(ends) - 2
            lanes, capacity = (1, 0) if is_closed else KINDS[number % len(KINDS)]
            length = 20 if is_stub(number) else 500
            line = bent(places[first], places[second]) if number == WORST_LINK else ''
            out.write(
                f'{number},{first},{second},{length},{lanes},50,{capacity},'
                f'{name(first, second)},{line}\n'
            )


def bent(first, last):
    """A line with a bend beside its middle."""
    (x1, y1), (x2, y2) = first, last
    return f'"LINESTRING ({x1} {y1}, {(x1 + x2) / 2 + 60} {(y1 + y2) / 2}, {x2} {y2})"'


def elsewhere(source, place, places):
    """A place 5 to 27 away, on the side where there are more."""
    return place + source.randrange(5, 28) * (1 if place < places // 2 else -1)


def towards(start, end):
    return range(start, end, 1 if end > start else -1)


def walk(source, worst):
    """Nodes along a row, a column and a row. One vehicle in forty takes the worst link alone, and
    one goes between the pair, along any column from one to the other."""
    kind = source.randrange(40)
    if kind == 0:
        return list(worst)
    if kind == 1:
        (row, column), (to_row, to_column) = (divmod(one - 1, COLUMNS) for one in PAIR)
        turn = source.randrange(column, to_column + 1)
    else:
        row, column = source.randrange(ROWS), source.randrange(COLUMNS)
        to_row, to_column = elsewhere(source, row, ROWS), elsewhere(source, column, COLUMNS)
        turn = to_column
    return (
        [node(row, c) for c in towards(column, turn)]
        + [node(r, turn) for r in towards(row, to_row)]
        + [node(to_row, c) for c in towards(turn, to_column)]
        + [node(to_row, to_column)]
    )


def write_agents(folder, ends, entered, spent):
    source = random.Random(4)
    numbers = {pair: number for number, pair in reversed(list(enumerate(ends, 1)))}
    hard = severities(len(ends))
    with open(os.path.join(folder, 'agent.csv'), 'w') as out:
        out.write(
            'agent_id,o_zone_id,d_zone_id,departure_step,arrival_step,status,'
            'link_ids,entry_steps\n'
        )
        for agent in range(VEHICLES):
            nodes, fate = walk(source, ends[WORST_LINK - 1]), FATES.get(agent % 1000, 'running')
            departure = LATE if agent % 1000 == 300 else agent * 600 // VEHICLES
            links = [numbers[pair] for pair in zip(nodes, nodes[1:]) if fate != 'unrouted']
            step, entries = departure + agent % 3 if fate == 'running' else HORIZON, []
            for link in links:
                if step >= HORIZON:
                    break
                entries.append(step)
                time = free(link) + delay(hard[link - 1], step)
                cell = (link - 1) * (HORIZON // BUCKET) + step // BUCKET
                entered[cell] += 1
                spent[cell] += time if step + time < HORIZON else max(free(link), HORIZON - step)
                step += time
            arrival = step if step < HORIZON else ''
            out.write(
                f'{agent},{nodes[0]},{nodes[-1]},{departure},{arrival},'
                f'{fate if arrival == "" else "arrived"},'
                f'{";".join(map(str, links))},{";".join(map(str, entries))}\n'
            )


def write_times(folder, links, entered, spent):
    buckets = HORIZON // BUCKET
    with open(os.path.join(folder, 'link_performance.csv'), 'w') as out:
        out.write('link_id,from_step,to_step,entered,travel_steps,free_steps\n')
        for link in range(links):
            for bucket in range(buckets):
                count = entered[link * buckets + bucket]
                least = free(link + 1)
                time = -(-spent[link * buckets + bucket] // count) if count > 0 else least
                start = bucket * BUCKET
                out.write(f'{link + 1},{start},{start + BUCKET},{count},{time},{least}\n')


def write_demand(folder):
    """A row for each vehicle, and one of a zone that no node has."""
    with open(os.path.join(folder, 'agent.csv')) as agents, open(
        os.path.join(folder, 'demand.csv'), 'w'
    ) as out:
        out.write('o_zone_id,d_zone_id,volume\n')
        next(agents)
        for line in agents:
            _, origin, destination, _ = line.split(',', 3)
            out.write(f'{origin},{destination},1\n')
        out.write('1,999999,0.4\n')


def make(folder):
    os.makedirs(folder, exist_ok=True)
    ends = make_links()
    cells = len(ends) * (HORIZON // BUCKET)
    entered, spent = [0] * cells, [0] * cells
    write_network(folder, ends)
    write_agents(folder, ends, entered, spent)
    write_times(folder, len(ends), entered, spent)
    write_demand(folder)
    with open(os.path.join(folder, 'gap.csv'), 'w') as out:
        out.write('iteration,route_steps,least_steps,gap_steps,gap_ppm\n1,1100,1000,100,100000\n')


if __name__ == '__main__':
    import sys

    make(sys.argv[1])
