"""Random networks, demands and words for traffic_laws.py, all of which the program accepts: with
turns, penalties, capacities in windows, capacities of 0, and links that are soon full. Equal
random numbers make equal cases."""
from dataclasses import dataclass

STEPS = ["1", "3", "6", "6", "6", "10", "30"]
CAPACITIES = ["", "0", "150", "300", "450", "600", "577.7", "900", "1800", "1800", "3600"]
LENGTHS = ["0", "20", "60", "100", "130.5", "200", "200", "350", "600"]


@dataclass
class Case:
    """The words of an assignment, and the columns and rows of each of its tables."""
    words: list
    tables: dict


def windows(r, horizon, is_turn):
    """A text of capacities by step: some windows, or the green and red of a signal."""
    if r.random() < .4:
        cycle = r.choice([2, 5, 10, 16])
        green = r.randint(1, cycle - 1)
        flow = "none" if is_turn and r.random() < .5 else r.choice(["900", "1800", "3600"])
        parts = [(start * cycle + late, value) for start in range(r.choice([4, 12, 32]))
                 for late, value in ((0, flow), (green, "0"))]
    else:
        later = r.sample(range(1, horizon + 20), r.choice([0, 1, 1, 2, 5]))
        parts = [(step, "none" if is_turn and r.random() < .3 else r.choice(CAPACITIES[1:]))
                 for step in [0] + sorted(later)]
    return ";".join(f"{step}:{value}" for step, value in parts)


def pairs_of(r, nodes):
    """The ends of the links: a ring or a grid, mostly both ways, and some links more."""
    count = len(nodes)
    pairs = list(zip(nodes, nodes[1:] + nodes[:1]))
    if r.random() < .5:
        pairs = [(nodes[k], nodes[k + 1]) for k in range(count - 1) if (k + 1) % 3]
        pairs += list(zip(nodes, nodes[3:]))
    if r.random() < .6:
        pairs += [(b, a) for a, b in pairs]
    pairs += [(r.choice(nodes), r.choice(nodes)) for _ in range(r.randint(0, 3))]
    r.shuffle(pairs)
    return pairs


def link_rows(r, pairs, horizon):
    """A row for each link. In half of the cases some have windows."""
    numbers = r.sample(range(1, 10 * len(pairs) + 1), len(pairs))
    share = r.choice([0, 0, .2, .6])
    usual = r.choice([CAPACITIES, ["600", "1800", "3600"], ["300", "600"], ["900", "1800"]])
    rows = []
    for number, (begin, end) in zip(numbers, pairs):
        by_step = windows(r, horizon, False) if r.random() < share else ""
        rows.append([number, begin, end, r.choice(LENGTHS), r.choice(["", "1", "1", "2", "1.5"]),
                     r.choice(["", "60", "60", "30", "45.678", "12"]), r.choice(usual), by_step])
    return rows


def movement_rows(r, nodes, links, horizon):
    """The turns at some nodes: most pairs of links, with penalties, capacities and windows."""
    rows = []
    share = r.choice([.7, .9, 1])
    for node in nodes:
        if r.random() < .5:
            continue
        for first in links:
            for second in links:
                if first[2] == node == second[1] and r.random() < share:
                    by_step = windows(r, horizon, True) if r.random() < .2 else ""
                    rows.append([node, first[0], second[0],
                                 r.choice(["", "0", "6", "7.5", "12", "45"]),
                                 r.choice(["", "", "0", "300", "600", "1000"]), by_step])
    return rows


def demand_rows(r, zones):
    rows = []
    most = r.choice([4, 20, 60])
    for _ in range(r.randint(2, 8)):
        ends = r.sample(zones, 2)
        rows.append(ends + [r.choice(["0.4", "1", "2.5", str(r.randint(1, most)),
                                      str(r.randint(1, most))])])
    return rows


def add_demand_windows(r, columns, rows, period):
    """The steps in which the vehicles of each row depart, some of them left out."""
    columns += ["from_step", "to_step"]
    for row in rows:
        first = r.randrange(period)
        row += [r.choice(["", first]), r.choice(["", r.randint(first + 1, period)])]


def make_case(r, queue):
    """A case with this kind of queue."""
    horizon = r.choice([40, 90, 150, 240, r.randint(20, 240)])
    nodes = r.sample(range(1, 60), r.randint(6, 12))
    zones = r.sample(range(1, 30), r.randint(2, 4))
    node_rows = [[node, ""] for node in nodes]
    for row, zone in zip(r.sample(node_rows, len(zones)), zones):
        row[1] = zone
    if r.random() < .2:
        r.choice(node_rows)[1] = zones[0]
    links = link_rows(r, pairs_of(r, nodes), horizon)
    tables = {
        "node": (["node_id", "zone_id"], node_rows),
        "link": (["link_id", "from_node_id", "to_node_id", "length", "lanes", "free_speed",
                  "capacity", "capacity_by_step"], links),
        "demand": (["o_zone_id", "d_zone_id", "volume"], demand_rows(r, zones))}
    if r.random() < .7:
        tables["movement"] = (["node_id", "ib_link_id", "ob_link_id", "penalty", "capacity",
                               "capacity_by_step"], movement_rows(r, nodes, links, horizon))
    words = {"queue": queue, "horizon": horizon, "step": r.choice(STEPS),
             "period": r.choice([1, max(1, horizon // 10), max(1, horizon // 3), horizon]),
             "bucket": r.choice([1, 5, 10, 50, horizon]), "iterations": r.choice([1, 2, 3, 5]),
             "jam": r.choice([10, 30, 60, 125]), "wave": r.choice([2, 5, 10, 20, 60]),
             "workers": r.choice([1, 2])}
    if r.random() < .4:
        add_demand_windows(r, *tables["demand"], words["period"])
    words["costs"] = r.choice(["links", "trips"])
    return Case(["assign"] + [f"--{name}={value}" for name, value in words.items()], tables)


def text_of(table):
    """The text of a table."""
    columns, rows = table
    return "".join(",".join(str(field) for field in row) + "\n" for row in [columns] + rows)
