"""Makes a case of random_cases.py: the words of a run and the tables of its folder.

Everything comes from the random numbers that a caller hands in, so that equal seeds make equal
cases. A case is made sound first, a small network with demand and the words of a command, and then
spelled: numbers and quotes in odd but accepted ways. Every second case or so is then spoilt, in
its fields, columns, bytes, words or files, so that most spoilt cases are near to sound ones.

Of some features there are kinds of cases by themselves: capacities in windows (case_windows.py),
the queue `newell`, start tables (case_starts.py), and costs of whole trips. What a sweep is made of
beyond an assignment stands in case_sweeps.py, and the changed results that an audit looks at are
made by case_audits.py.
"""
from dataclasses import dataclass, field

import case_audits
import case_starts
import case_sweeps
import case_windows

INPUTS = ("node.csv", "link.csv", "movement.csv", "demand.csv")
OUTPUTS = ("agent.csv", "link_performance.csv", "origin_wait.csv", "gap.csv")
OUTPUTS_OF = {"skim": ("skim.csv",), "counts": ("counts.csv",), "sweep": ("sweep.txt",),
              "audit": ("audit.txt", "agent.csv")}
TIMES = "times.csv"
START = "start.csv"


@dataclass
class Case:
    """The words of a run (as bytes), the files of its folder, what stands in place of some, and its
    kind."""
    words: list
    files: dict
    kind: str = "assign"
    folders: list = field(default_factory=list)
    links_to_themselves: list = field(default_factory=list)


@dataclass
class Table:
    """The columns and the rows of a table, each row with a text for each column."""
    columns: list
    rows: list

    def place(self, column):
        return self.columns.index(column)


def make_case(r, assign, only=None):
    """A case by these random numbers, of the kind `only` where it is said. `assign(words, files)`
    answers the files that an assignment with these words over these tables leaves, or None where it
    is refused."""
    kind = only or r.choices(list(SHARES), weights=SHARES.values())[0]
    features = choose_features(r, kind, only)
    command = choose_command(r, kind, features)
    groups = make_options(r, command, features)
    tables = make_tables(r, flat(command, groups), features)
    if command == "counts":
        add_link(r, groups, tables["link.csv"])
    if command == "sweep":
        add_scales(r, groups, tables)
    words = flat(command, groups)

    def earlier(words, tables):
        return assign(words, {name: table if isinstance(table, bytes)
                              else write_table(None, table, False)
                              for name, table in tables.items()})

    if "start" in features:
        tables[START] = start_table(r, groups, tables, earlier)
    for name in list(tables):
        add_columns(r, name, tables[name])
    if command == "skim":
        tables[TIMES] = times_table(r, groups, tables, earlier)
        add_columns(r, TIMES, tables[TIMES])
    if command == "audit":
        tables[START], tables[TIMES] = audited_tables(r, groups, tables, earlier)
        add_columns(r, START, tables[START])
        add_columns(r, TIMES, tables[TIMES])
    spelled = r.random() < .5
    if spelled:
        for name in tables:
            spell_fields(r, tables[name])
    spoils = choose_spoils(r, command, features)
    if "rows" in spoils:
        spoil_rows(r, tables[TIMES])
    if "fields" in spoils:
        spoil_fields(r, tables[choose_table(r, tables, features)])
    if "columns" in spoils:
        spoil_columns(r, tables[choose_table(r, tables, features)])
    files = {name: write_table(r, tables[name], spelled) for name in tables}
    if "bytes" in spoils:
        name = choose_table(r, files, features)
        files[name] = spoil_bytes(r, files[name])
    if "words" in spoils:
        words = spoil_words(r, words, command)
    case = Case([word.encode("utf-8", "surrogateescape") for word in words], files, kind)
    if "files" in spoils:
        spoil_files(r, case, command, features)
    return case


FEATURES = ["windows", "newell", "start", "trips"]


def choose_features(r, kind, only):
    """The feature of the kind, and now and then others that go with it, unless one kind alone is
    asked for; also then with costs of whole trips."""
    features = [kind] if kind in FEATURES else []
    if kind in ("sweep", "audit"):
        features = [one for one in ("windows", "newell") if r.random() < .3]
    if features and (not only or kind == "trips"):
        features += [one for one in FEATURES if one != kind and r.random() < .2
                     and (one != "start" or kind in ("newell", "trips"))]
    return features


def choose_command(r, kind, features):
    """A command in which the features of a case can be met."""
    if kind not in FEATURES:
        return kind
    if "start" in features:
        return "assign"
    commands = {"assign": 70, "counts": 15}
    commands.update({"windows": {"freeflow": 10, "skim": 5}, "newell": {"demo": 10},
                     "trips": {"demo": 5, "sweep": 15}}[kind])
    return r.choices(list(commands), weights=commands.values())[0]


def choose_spoils(r, command, features):
    """What is spoilt: mostly nothing or one kind."""
    kinds = ["fields", "columns", "bytes", "words", "files"]
    weights = [20 if "windows" in features or "start" in features else 8, 3, 4, 4, 2]
    if command == "skim":
        kinds.append("rows")
        weights.append(6)
    if command == "sweep":
        weights[kinds.index("words")] = 16
    chance = r.random()
    if chance < (.8 if command == "audit" else .55):
        return []
    if chance < .95:
        return r.choices(kinds, weights=weights)
    return r.sample(kinds, 2)


def choose_table(r, tables, features):
    """The name of a table; mostly that of link times or the start table, where there is one, and
    with windows those that have them."""
    for name in (TIMES, START):
        if name in tables and r.random() < .6:
            return name
    if "windows" in features and r.random() < .8:
        return r.choice([name for name in ("link.csv", "movement.csv") if name in tables])
    return r.choice(list(tables))


# Words.

def option_values(r, command, features=()):
    """A value in its range for each option; the horizon is small, so that runs are short. In that
    of counts vehicles mostly take some turns."""
    horizon = r.choice([1, 5, 30, 60, 100, 150, 200, 300, r.randint(1, 400)])
    if (command == "counts" or features) and r.random() < .9:
        horizon = r.choice([150, 200, 300, r.randint(100, 400)])
    period = r.choice([1, horizon, r.randint(1, horizon), 1 + horizon // 4, 1 + horizon // 10])
    crowded = "newell" in features and r.random() < .7
    return {
        "step": r.choice([1, 6, 6, 10, 30, 60, r.randint(1, 60)]),
        "jam": r.choice([10, 30, 60, 125] if crowded else [1, 125, 150, 1000, r.randint(1, 1000)]),
        "length-unit": r.choice(["m", "m", "km", "mi"]),
        "speed-unit": r.choice(["kmh", "mph"]),
        "horizon": horizon,
        "period": period,
        "iterations": r.choice([1, 2, 3, 4, r.randint(1, 8)]),
        "workers": r.choice([1, 2, 3, 16, 16, r.randint(1, 16)]),
        "bucket": r.choice([1, 7, 10, 50, horizon, 86400, r.randint(1, 100)]),
        "queue": r.choice(["point", "spatial", "spatial"] + ["newell"] * ("trips" in features)
                          + ["newell"] * 6 * ("newell" in features)),
        "wave": r.choice([1, 2, 5, 10, 15, 20, 20, 30, 60, 100, r.randint(1, 100)]),
        "costs": "trips" if "trips" in features else r.choice(["links", "trips"]),
        "watch": r.choice([0, 1, 1, 7, 10, 50, 86400, r.randint(1, 100)]),
        "at": some_starts(r, horizon),
        "scales": case_sweeps.some_scales(r),
    }


def some_starts(r, horizon):
    """A list of steps below the horizon, some of them more than once."""
    count = r.choice([1, 1, 2, 2, 3, 5, 64])
    steps = [r.choice([0, horizon - 1, r.randrange(horizon)]) for _ in range(count)]
    return ";".join(str(step).zfill(r.choice([1, 1, 1, 4])) for step in steps)


# Of 115 cases: how many are of each kind, a command or a feature.
SHARES = {"assign": 10, "freeflow": 2, "demo": 1, "skim": 10, "counts": 10, "windows": 11,
          "newell": 11, "start": 13, "sweep": 13, "audit": 19, "trips": 15}

TAKEN = {
    "freeflow": ["step", "jam", "length-unit", "speed-unit"],
    "assign": ["step", "jam", "length-unit", "speed-unit", "horizon", "period", "iterations",
               "workers", "bucket", "queue", "wave", "watch", "costs"],
    "demo": ["step", "jam", "horizon", "period", "iterations", "workers", "bucket", "queue", "wave",
             "watch", "costs"],
    "skim": ["step", "jam", "length-unit", "speed-unit", "horizon", "bucket", "at"],
    "counts": ["step", "jam", "length-unit", "speed-unit", "horizon", "period", "iterations",
               "workers", "bucket", "queue", "wave", "costs"],
    "sweep": ["step", "jam", "length-unit", "speed-unit", "horizon", "period", "iterations",
              "workers", "bucket", "queue", "wave", "costs", "scales"],
    "audit": ["step", "jam", "length-unit", "speed-unit", "horizon", "period", "bucket", "queue",
              "wave"],
}


COSTED = [command for command, options in TAKEN.items() if "costs" in options]


def flat(command, groups):
    """The words of a command with options in groups."""
    return [command] + [word for group in groups for word in group]


def make_options(r, command, features=()):
    """The options of a command, all in its grammar, each as a group of words. Whether there is a
    wave has nothing to do with the queue."""
    values = option_values(r, command, features)
    chosen = [name for name in TAKEN[command] if r.random() < .45 and name != "wave"]
    if "newell" in features:
        if "queue" not in chosen and r.random() < .9:
            chosen.append("queue")
        if r.random() < .7:
            chosen.append("wave")
    if "trips" in features and command in COSTED and "costs" not in chosen:
        chosen.append("costs")
    if {"start", "trips"} & set(features) and "iterations" not in chosen and r.random() < .6:
        chosen.append("iterations")
    if command != "freeflow" and "horizon" not in chosen:
        chosen.append("horizon")
    if command == "sweep" and "scales" not in chosen:
        chosen.append("scales")
    if "period" in chosen and command != "freeflow":
        values["period"] = min(values["period"], values["horizon"])
    groups = []
    for name in chosen:
        value = str(values[name])
        if value.isdigit() and r.random() < .1:
            value = value.zfill(r.randint(1, 9))
        groups.append([f"--{name}={value}"] if r.random() < .4 else [f"--{name}", value])
    if command not in ("freeflow", "skim", "sweep", "audit") and r.random() < .35:
        groups.append(["--plain"])
    if "start" in features:
        groups.append(["--start"])
    if command == "demo":
        groups.append([str(r.choice([2, 2, 3, 4, 5])).zfill(r.choice([1, 1, 1, 3, 9]))])
    r.shuffle(groups)
    return groups


def put_option(groups, name, value):
    """Gives an option this value, whether it was there or not."""
    groups[:] = [group for group in groups if not group[0].startswith("--" + name)]
    groups.append([f"--{name}={value}"])


def add_scales(r, groups, tables):
    """Makes some sweeps too large: in links times steps, or in the vehicles of a scale."""
    chance = r.random()
    if chance < .04:
        put_option(groups, "horizon", case_sweeps.many_links(r, tables["link.csv"]))
        put_option(groups, "iterations", 1)
    elif chance < .18:
        case_sweeps.too_many(r, tables["demand.csv"])
        put_option(groups, "scales", r.choice(["0.001;10;0.002", "0.002;0.001;9;10", "10",
                                               "0.0005;10", "0.001;0.003;10", "0.01;10;10"]))


ODD_LINKS = ["0", "999999", "07", "7.0", "007.000", "9223372036854775807", "9223372036854775808",
             "7.", "7.5", "-7", "-0", "+7", "1e0", " 7", "7 ", "", "x", "1;2", "none", "\u0667"]


def add_link(r, groups, links):
    """Puts a `--link` among the options of two thirds of all counts: mostly one of the table."""
    if r.random() < .33:
        return
    text = r.choice(ODD_LINKS)
    if links.rows and r.random() < .8:
        text = r.choice(links.rows)[links.place("link_id")]
        text = r.choice([text, text, "0" + text, text + ".0", "000" + text + ".00"])
    group = [f"--link={text}"] if r.random() < .5 else ["--link", text]
    groups.insert(r.randint(0, len(groups)), group)


ODD_VALUES = ["", "0", "-1", "+1", "1.0", "1e0", " 1", "1 ", "61", "1001", "86400", "86401", "17",
              "999999999", "1000000000", "0000000001", "000000001", "٣", "x", "km ", "KM", "m",
              "point", "newell", "Spatial", "trips", "--plain", "-", "--", "1,0", "0x1",
              "18446744073709551617"]
ODD_STARTS = ["0;", ";0", ";", "0;;1", "0; 1", "0 ;1", " 0", "0,1", "1;1;0", "0;-1", "0;x", "0:1",
              "0;1.0", "000000000;0", "0000000000", "0;400", "0;86399", "0;86400", "0;999999999",
              ";".join(["0"] * 64), ";".join(["0"] * 65), "0" * 9 + ";" + "0" * 10]
ODD_WORDS = ["", "-", "--", "--help", "-h", "--version", "-V", "help", "--plain=", "--plain=true",
             "--plain=1", "--hor", "--horizons", "-s", "--Step", "-step", "---step", "--step",
             "--workers", "--start", "--wave=20", "--queue=newell", "--unknown=1", "demo",
             "assign", "freeflow", "skims", "5", "2", "60", "61", "\udcff", "--step=\udcc3", "é",
             "--at", "--at=0", "--scales=1", "--link=1", "--wörkers=1", "\t", "=", "--wave",
             "--wave=0", "--wave=101", "--wave=1.0", "--wave=", "--start=", "--start=1", "--starts",
             "--start.csv", "--queue=Newell", "--queue=newell ", "--waves=20", "--costs=trips",
             "--costs=links", "--costs=Trips", "--costs", "--costs=", "--cost=trips"]
ODD_COMMANDS = ["Assign", "assig", "demo", "freeflow", "", "skims", "count", "--assign", "sweep",
                "audit", "sweeps", "Audit"]


def spoil_words(r, words, command):
    """Words of which one thing or two are odd; a few of them are in the grammar all the same."""
    words = list(words)
    odd_values = ODD_VALUES + {"skim": ODD_STARTS, "sweep": case_sweeps.ODD_SCALES}.get(command, [])
    own = {"skim": ["at"], "sweep": ["scales"]}.get(command)
    odd_commands = ODD_COMMANDS + (["assign", "skim", "counts"] if command in OUTPUTS_OF else [])
    if command == "sweep" and r.random() < .6:
        put_scales(r, words)
        return words
    for _ in range(r.choice([1, 1, 2])):
        choice = r.randrange(8)
        place = r.randrange(len(words)) if words else 0
        if choice == 0 and words:
            del words[place]
        elif choice == 1:
            words.insert(r.randint(0, len(words)), r.choice(ODD_WORDS))
        elif choice == 2 and words:
            words.insert(r.randint(0, len(words)), words[place])
        elif choice == 3 and words:
            words[place] = r.choice(ODD_WORDS + odd_values)
        elif choice == 4 and words:
            words[0] = r.choice(odd_commands)
        elif choice == 5 and words:
            words[place] = words[place].split("=")[0] + "=" + r.choice(odd_values)
        elif choice == 6:
            name = r.choice(own if own and r.random() < .6 else TAKEN["assign"])
            words += [f"--{name}", r.choice(odd_values)]
        else:
            r.shuffle(words)
    return words


def put_scales(r, words):
    """Puts odd scales in place of those that words have."""
    text = r.choice(case_sweeps.ODD_SCALES)
    for place, word in enumerate(words):
        if word.startswith("--scales="):
            words[place] = "--scales=" + text
        elif word == "--scales":
            words[place + 1] = text


# Tables.

@dataclass
class Net:
    """The identifiers of a network's nodes and zones, and its links as (identifier, from, to)."""
    nodes: list
    zones: list
    links: list


def identifiers(r, count):
    """So many different identifiers, in one of several manners."""
    manner = r.randrange(4)
    if manner == 0:
        return list(range(1, count + 1))
    if manner == 1:
        return r.sample(range(0, 3 * count + 3), count)
    if manner == 2:
        return r.sample(range(10 ** 6), count)
    ends = [0, 1, 2 ** 31, 2 ** 32, 2 ** 63 - 1, 2 ** 63 - 2]
    return r.sample(ends + list(range(10, 99)), count)


def ring(r):
    """The nodes of a ring, or of a part of one, with the pairs that are joined."""
    size = r.choice([1, 2, 3, 3, 4, 4, 5, 6, 7, 9])
    nodes = identifiers(r, size)
    pairs = list(zip(nodes, nodes[1:] + nodes[:1]))
    if r.random() < .2:
        pairs = r.sample(pairs, r.randint(0, size))
    if r.random() < .4:
        pairs += [(b, a) for a, b in pairs]
    return nodes, pairs


def grid(r):
    """The nodes of a grid, with pairs in both directions."""
    width, height = r.randint(2, 4), r.randint(2, 4)
    nodes = identifiers(r, width * height)
    pairs = [(nodes[k], nodes[k + 1]) for k in range(len(nodes) - 1) if (k + 1) % width]
    pairs += list(zip(nodes, nodes[width:]))
    return nodes, pairs + [(b, a) for a, b in pairs]


def make_net(r):
    """A small network; mostly each of its nodes is reached from each other one."""
    nodes, pairs = r.choice([ring, ring, grid])(r)
    size = len(nodes)
    for _ in range(r.choice([0, 1, 2, 3, 5, 9, 12])):
        pairs.append((r.choice(nodes), r.choice(nodes)))
    if pairs and r.random() < .5:
        pairs += r.choices(pairs, k=r.randint(1, 6))
    r.shuffle(pairs)
    links = [(name, a, b) for name, (a, b) in zip(identifiers(r, len(pairs)), pairs)]
    count = r.choice([1, 2, 2, 3, 4, 5])
    if r.random() < .9:
        count = min(count, size)
    zones = [x for x in identifiers(r, count) if x > 0] or [1]
    return Net(nodes, zones, links)


def make_roomy_net(r):
    """A small network that has mostly five nodes or more, and zones at any of them, so that there
    are turns between them. Now and then links are missing, and some zones have no way to others."""
    net = make_net(r)
    while min(len(net.nodes) - 3, len(net.zones)) < 2 and r.random() < .9:
        net = make_net(r)
    r.shuffle(net.nodes)
    if r.random() < .3:
        share = r.choice([.3, .5, .7])
        net.links = [link for link in net.links if r.random() < share]
    return net


def node_table(r, net):
    rows = []
    sure = r.random() < .9
    for place, node in enumerate(net.nodes):
        zone = ""
        if sure and place < len(net.zones):
            zone = str(net.zones[place])
        elif r.random() < .2:
            zone = str(r.choice(net.zones))
        elif r.random() < .2:
            zone = r.choice(["0", "-1", "0.0", "-1.0", "-01", "00"])
        rows.append([str(node), zone])
    if r.random() < .3:
        r.shuffle(rows)
    return Table(["node_id", "zone_id"], rows)


def link_table(r, net, units):
    """Links of some steps at a usual step, in the units of the words."""
    scale = {"m": 1, "km": 1000, "mi": 1609.344}[units]
    longest = r.choice([100, 300, 400, 1000, 2500])
    wide = r.random() < .6
    capacities = r.choice([["600", "900", "1800", "3600"], ["", "100", "300", "577.7", "600"],
                           ["300", "600"], ["", "0", "50", "600", "1e6"], [""]])
    rows = []
    for name, a, b in net.links:
        metres = r.choice([0, 5, 80, 100, 250.5, r.randint(0, longest), r.randint(0, longest)])
        length = f"{metres / scale:.6f}"
        lanes = "1" if wide else r.choice(["", "1", "1", "2", "1.5", "0.3", "0", "100"])
        speed = r.choice(["", "60", "60", "30", "100", "45.678", "20" if wide else "1"])
        capacity = r.choice(capacities)
        rows.append([str(name), str(a), str(b), length, lanes, speed, capacity])
    return Table(["link_id", "from_node_id", "to_node_id", "length", "lanes", "free_speed",
                  "capacity"], rows)


def narrow_links(r, table, units):
    """Gives links few or many vehicles an hour and lengths of some waves' steps, so that jams grow
    before narrow ones and move back."""
    scale = {"m": 1, "km": 1000, "mi": 1609.344}[units]
    for row in table.rows:
        row[table.place("length")] = f"{r.choice([60, 120, 200, 350, 600]) / scale:.6f}"
        row[table.place("capacity")] = r.choice(["300", "450", "600", "1800", "3600"])
        row[table.place("lanes")] = "1"
        row[table.place("free_speed")] = r.choice(["30", "60", ""])


def movement_table(r, net):
    """Turns at some of the nodes, each of their pairs of links or most of them."""
    rows = []
    share = r.choice([.5, .8, .9, 1, 1])
    penalties = r.choice([["", "0"], ["", "0", "7", "12", "6.001", "60"], ["", "300", "36000"]])
    for node in net.nodes:
        if r.random() < .5:
            continue
        for first in net.links:
            for second in net.links:
                if first[2] == node == second[1] and r.random() < share:
                    penalty = r.choice(penalties)
                    capacity = r.choice(["", "", "", "600", "300", "3600", "0", "1000"])
                    rows.append([str(node), str(first[0]), str(second[0]), penalty, capacity])
    if net.links and r.random() < .03:
        rows.append([str(r.choice(net.nodes))] + [str(r.choice(net.links)[0]) for _ in "ab"]
                    + ["", ""])
    if r.random() < .3:
        r.shuffle(rows)
    return Table(["node_id", "ib_link_id", "ob_link_id", "penalty", "capacity"], rows)


def demand_table(r, net):
    """Volumes of few vehicles, some between zones that the network hasn't."""
    rows = []
    many = r.choice([3, 12, 40, 80])
    for _ in range(r.choice([0, 2, 3, 4, 6, 6, 10])):
        ends = [str(zone) for zone in r.choices(net.zones, k=2)]
        if len(net.zones) > 1 and r.random() < .8:
            ends = [str(zone) for zone in r.sample(net.zones, 2)]
        if r.random() < .05:
            ends[r.randrange(2)] = r.choice(["0", "999", str(2 ** 63 - 1)])
        volume = r.choice(["0", "1", "0.4", "0.333", "2.5", "0.001", str(r.randint(0, many)),
                           str(r.randint(0, many)), str(r.randint(0, many)),
                           f"{r.uniform(0, many):.4f}", f"{r.uniform(0, many):.4f}"])
        rows.append(ends + [volume])
    return Table(["o_zone_id", "d_zone_id", "volume"], rows)


def period_of(words):
    """The period of a run by its words."""
    given = {name: int(word.rpartition("=")[2]) for before, word in zip([""] + words, words)
             for name in ("period", "horizon")
             if before == f"--{name}" or word.startswith(f"--{name}=")}
    return given.get("period", min(600, given.get("horizon", 1200)))


def add_demand_windows(r, demand, period):
    """Columns with the steps in which the vehicles of a row depart. Some fields are empty, some
    windows have one step, some are the whole period, and now and then one is refused."""
    demand.columns += ["from_step", "to_step"]
    for row in demand.rows:
        first = r.choice([0, period - 1, r.randrange(period), r.randrange(period)])
        last = r.choice([period, first + 1, r.randint(first + 1, period)])
        if r.random() < .02:
            first, last = r.choice([(period, last), (first, first), (first, period + 1), (last, first)])
        row += ["" if r.random() < .15 else str(first), "" if r.random() < .15 else str(last)]
    for column in ("from_step", "to_step"):
        if r.random() < .15:
            drop_column(demand, demand.place(column))


def make_tables(r, words, features=()):
    """The tables of a sound case. The movement table is left out every second time."""
    net = make_net(r)
    if words[0] in OUTPUTS_OF or features:
        net = make_roomy_net(r)
    text = " ".join(words)
    units = next((u for u in ("km", "mi") if f"length-unit {u}" in text
                  or f"length-unit={u}" in text), "m")
    if r.random() < .05:
        units = r.choice(["m", "km"])
    tables = {"node.csv": node_table(r, net), "link.csv": link_table(r, net, units)}
    if {"newell", "trips"} & set(features) and r.random() < .7:
        narrow_links(r, tables["link.csv"], units)
    if r.random() < .5:
        tables["movement.csv"] = movement_table(r, net)
    tables["demand.csv"] = demand_table(r, net)
    if (words[0] == "counts" or features) and len(net.zones) > 1:
        most = 200 if {"newell", "trips"} & set(features) else 40 if "windows" in features else 20
        for _ in range(r.choice([2, 3, 4] if features else [0, 2, 3, 4])):
            ends = [str(zone) for zone in r.sample(net.zones, 2)]
            tables["demand.csv"].rows.append(ends + [str(r.randint(1, most))])
    if "windows" in features:
        add_windows(r, tables)
    if words[0] in ("assign", "counts", "sweep", "audit") and r.random() < .4:
        add_demand_windows(r, tables["demand.csv"], period_of(words))
    return tables


def add_windows(r, tables):
    """Puts the column `capacity_by_step` into the link table, the movement table, or both. Where a
    field of it has a text, the capacity beside it isn't used, but checked."""
    names = [name for name in ("link.csv", "movement.csv") if name in tables]
    if len(names) > 1 and r.random() < .5:
        names.remove(r.choice(names))
    share = r.choice([.2, .5, .9, 1])
    for name in names:
        tables[name].columns.append("capacity_by_step")
        for row in tables[name].rows:
            has = r.random() < share
            row.append(case_windows.windows(r, name == "movement.csv") if has else "")


TIME_COLUMNS = ["link_id", "from_step", "to_step", "entered", "travel_steps", "free_steps"]


def times_table(r, groups, tables, earlier):
    """The link times of an assignment over these tables, which a skim with these options can mostly
    read; travel steps are often others than came out."""
    words = ["assign"] + times_options(r, groups)
    files = earlier(words, tables)
    if files is None:
        return Table(list(TIME_COLUMNS), [])
    text = files["link_performance.csv"]
    lines = [line.split(",") for line in text.decode("ascii").splitlines()]
    rows = lines[1:]
    place = lines[0].index("travel_steps")
    share = r.choice([0, 0, .1, .5, 1])
    steps = r.choice([range(1, 20), range(1, 200), [1, 300], [1, 2 ** 31, 2 ** 32 - 1]])
    for row in rows:
        if r.random() < share:
            row[place] = str(r.choice(steps))
    return Table(lines[0], rows)


def times_options(r, groups):
    """Options of the assignment whose link times a skim with these options reads. Now and then one
    is another, so that the table doesn't fit."""
    kept = [group for group in groups if not group[0].startswith("--at")]
    if r.random() < .12:
        name = r.choice(["horizon", "horizon", "bucket", "bucket", "step"])
        kept = [group for group in kept if not group[0].startswith("--" + name)]
        kept.append([f"--{name}={option_values(r, 'skim')[name]}"])
    kept.append(["--queue", r.choice(["point", "spatial"])])
    return [word for group in kept for word in group] + ["--iterations", r.choice("123"), "--plain"]


def audited_tables(r, groups, tables, earlier):
    """The agent table and the link times of an assignment with the options of an audit over these
    tables; mostly with something changed. Now and then the assignment had another option or other
    tables, or began with a start table."""
    words = ["assign"] + audited_options(r, groups)
    before = other_tables(r, tables) if r.random() < .06 else tables
    files = earlier(words, before)
    if files is not None and r.random() < .25:
        again = earlier(words + ["--start"], {**before, START: files["agent.csv"]})
        files = again or files
    if files is None:
        return Table(list(case_audits.AGENT_COLUMNS), []), Table(list(TIME_COLUMNS), [])
    agents, times = [Table(*case_starts.earlier_columns_and_rows(files[name]))
                     for name in ("agent.csv", "link_performance.csv")]
    links = tables["link.csv"]
    names = [row[links.place("link_id")] for row in links.rows]
    case_audits.change(r, agents, times, names)
    return agents, times


def audited_options(r, groups):
    """Options of the assignment that is audited."""
    kept = [list(group) for group in groups]
    if r.random() < .06:
        name = r.choice(["horizon", "bucket", "queue", "step", "period"])
        put_option(kept, name, option_values(r, "audit")[name])
    words = [word for group in kept for word in group]
    return words + ["--iterations", r.choice("1123"), "--plain"]


def start_table(r, groups, tables, earlier):
    """The agent table of an earlier assignment, of the same tables or of others, itself from free
    flow or from a start table; then often with rows that fit nobody."""
    words = ["assign"] + start_options(r, groups)
    before = dict(tables)
    if r.random() < .6:
        before = other_tables(r, tables)
    files = earlier(words, before)
    if files is not None and r.random() < .3:
        files = earlier(words + ["--start"], {**before, START: files["agent.csv"]})
    if files is None:
        return Table(list(case_starts.REQUIRED), [])
    columns, rows = case_starts.earlier_columns_and_rows(files["agent.csv"])
    links = tables["link.csv"]
    names = [row[links.place("link_id")] for row in links.rows]
    if r.random() < .5:
        case_starts.turn_stale(r, columns, rows, names)
    if r.random() < .35:
        case_starts.number_anew(r, columns, rows)
    if r.random() < .3:
        case_starts.leave_columns_out(r, columns, rows)
    return Table(columns, rows)


def start_options(r, groups):
    """Options of the assignment from which a start table comes: those of the case, now and then one
    of them another."""
    kept = [group for group in groups if group[0] != "--start"]
    if r.random() < .4:
        name = r.choice(["iterations", "iterations", "bucket", "queue", "step"])
        kept = [group for group in kept if not group[0].startswith("--" + name)]
        kept.append([f"--{name}={option_values(r, 'assign')[name]}"])
    return [word for group in kept for word in group]


def other_tables(r, tables):
    """The tables of a network or of a demand that is nearly the same."""
    others = {name: Table(list(table.columns), [list(row) for row in table.rows])
              for name, table in tables.items()}
    name = r.choice(["link.csv", "demand.csv", "demand.csv", "movement.csv"])
    if name not in others:
        name = "link.csv"
    table = others[name]
    choice = r.randrange(6)
    if choice > 3:
        links = others["link.csv"]
        lengths = [row[links.place("length")] for row in links.rows]
        r.shuffle(lengths)
        for row, length in zip(links.rows, lengths):
            row[links.place("length")] = length
    elif choice == 0 and name == "movement.csv":
        del others[name]
    elif choice == 1 and table.rows:
        table.rows.append(table.rows.pop(r.randrange(len(table.rows))))
    elif choice == 2 and name == "demand.csv":
        for row in table.rows:
            row[table.place("volume")] = str(r.randint(0, 12))
    else:
        table.rows = [row for row in table.rows if r.random() < .8]
    return others


# Spelling.

UNREAD = {"node.csv": ["x_coord", "y_coord", "name", "ctrl_type"],
          "link.csv": ["directed", "directed", "geometry", "name", "dir_flag",
                       "capacity_by_steps"],
          "movement.csv": ["mvmt_id", "type", "Capacity_by_step", "name"],
          "demand.csv": ["time_periods", "name", "Volume", "volume2", "From_step", "to_steps"],
          TIMES: ["name", "Entered", "queue", "volume", "storage"],
          START: ["name", "agent_type", "route_iteration", "node_ids", "link_id", "volume"]}
TEXTS = ["", "1", "true", "Mill, North", 'a "quoted" name', "two\nlines", "ümlaut", "0:600;20:0",
         "LINESTRING (-111.9 33.4, -111.8 33.3)", " ", "\t", "\0", "\r", "😀"]


def add_columns(r, name, table):
    """Adds columns that are passed over, leaves optional ones out, and puts columns in any order.
    `directed` is checked and not kept."""
    for _ in range(r.choice([0, 0, 1, 2])):
        column = r.choice(UNREAD[name])
        table.columns.append(column)
        texts = ["", "1", "true", "yes", "2", "x"] if column == "directed" else TEXTS
        for row in table.rows:
            row.append(r.choice(texts))
    for column in ("zone_id", "lanes", "free_speed", "capacity", "penalty"):
        if column in table.columns and r.random() < .08:
            drop_column(table, table.place(column))
    if r.random() < .3:
        order = list(range(len(table.columns)))
        r.shuffle(order)
        table.columns = [table.columns[k] for k in order]
        table.rows = [[row[k] for k in order] for row in table.rows]


def drop_column(table, place):
    del table.columns[place]
    for row in table.rows:
        del row[place : place + 1]


IDENTIFIERS = {"node_id", "zone_id", "link_id", "from_node_id", "to_node_id", "ib_link_id",
               "ob_link_id", "o_zone_id", "d_zone_id", "from_step", "to_step", "entered",
               "travel_steps", "free_steps", "agent_id", "departure_step", "arrival_step"}
LISTS = {"link_ids", "entry_steps"}
QUANTITIES = {"length", "lanes", "free_speed", "capacity", "penalty", "volume"}


def spell_identifier(r, text):
    return r.choice([text + ".0", text + ".000", "0" + text, "000" + text, "00" + text + ".0"])


def spell_quantity(r, text):
    """Another text of the same quantity, or nearly."""
    choice = r.randrange(9)
    if choice == 0 and "." not in text and "e" not in text:
        return text + r.choice([".", ".0", ".0004", ".00000", "e0", "E+0", "e-0", "e00"])
    if choice == 1:
        return "+" + text
    if choice == 2 and text.startswith("0."):
        return text[1:]
    if choice == 3 and text.isdigit():
        return text + "0" * 3 + "e-3"
    if choice == 4 and text.isdigit() and text != "0":
        return f"0.{text}e{len(text)}"
    if choice == 5 and "e" not in text:
        return text.zfill(r.choice([10, 63, 64]))
    if choice == 6 and text == "0":
        return r.choice(["-0", "-0.0", "0e999", "-0e9", "1e-999", "0.0009", ".0"])
    return text


def spell_fields(r, table):
    """Spells numbers in other ways that are accepted and mean the same, with blanks round them."""
    for place, column in enumerate(table.columns):
        if column not in IDENTIFIERS | QUANTITIES | LISTS | {"capacity_by_step", "status"}:
            continue
        for row in table.rows:
            text = row[place]
            if not text or r.random() < .6:
                continue
            signed = text.startswith("-")
            if column == "capacity_by_step":
                text = case_windows.spell(r, text, spell_quantity)
            elif column in LISTS:
                text = case_starts.spell_list(r, text, spell_identifier)
            elif column in IDENTIFIERS and not signed and "." not in text:
                text = spell_identifier(r, text)
            elif column in QUANTITIES:
                text = spell_quantity(r, text)
            if r.random() < .15:
                text = r.choice([" ", "\t", "  "]) + text + r.choice(["", " ", "\t \t"])
            row[place] = text
    for place, column in enumerate(table.columns):
        if r.random() < .05:
            table.columns[place] = r.choice([" ", "\t", ""]) + column + r.choice(["", " ", "\t"])


def write_field(r, text, spelled):
    """A field as csv writes it; where fields are spelled, also quoted without need."""
    if any(mark in text for mark in ',"\n\r') or (spelled and r.random() < .08):
        return '"' + text.replace('"', '""') + '"'
    return text


def write_table(r, table, spelled):
    """The bytes of a table; where it is spelled, with line ends of one kind or of several, and
    blank lines. Where it isn't, no random number is taken."""
    ends = ["\n"]
    if spelled:
        mixed = ["\n", "\r\n", "\r", "\n\n", "\r\n\r\n"]
        ends = r.choice([["\n"], ["\n"], ["\r\n"], ["\r"], mixed])
    lines = [table.columns] + table.rows
    text = ""
    for place, line in enumerate(lines):
        fields = ",".join(write_field(r, one, spelled) for one in line)
        last = place + 1 == len(lines)
        end = r.choice(ends) if spelled else "\n"
        text += fields + ("" if last and spelled and r.random() < .3 else end)
    mark = b"\xef\xbb\xbf" * r.choice([0, 0, 0, 1]) if spelled else b""
    return mark + text.encode("utf-8", "surrogateescape")


# Spoiling.

ODD_FIELDS = ["", " ", "x", "-", "+", ".", "-1", "-2", "-0", "-1.0", "-7", "- 1", "+1", "1.5",
              "1e0", "1.0e3", "1e3", "1E-2", "1e", "1e+", "1e1000", "0e999", "9e999", "1e-999",
              "-1e-999",
              "-0.0001", "1..0", "1.0.0", "1,0", "0x10", "٣", "1_000", "inf", "NaN", "None",
              "9223372036854775807", "9223372036854775808", "18446744073709551616", "1e9", "1e12",
              "1000000000", "1000000000.0009", "1000000000.001", "1000000001", "100", "100.001",
              "0.0005", "0.001", "36000", "36000.001", "0.05", "1e-3", "0" * 64, "0" * 65,
              "0" * 62 + ".5", "0." + "0" * 60 + "1", "0." + "0" * 70, "1\0", "\0", "\udcff",
              "1\udcc3", "false", "NO", "0", "0.0", "FALSE", "false ", "no", "00", "1;2", "0:600",
              "0:600;", "none", "1 2", "\u00a01", "1\u2003", '"', '1"', "a\nb", "１"]


LONG = ["0", "1", "-1", "-0", "1.0", "1.5", "9223372036854775807", "9223372036854775808"]
ODD_BY_COLUMN = {
    "travel_steps": ["0", "0.0", "1", "4294967295", "4294967295.0", "4294967296", "-1", "-0", "1.5",
                     "18446744073709551617"],
    "entered": LONG,
    "from_step": LONG,
    "to_step": LONG,
    "free_steps": LONG,
    "directed": ["0", "0.0", "false", "no", "NO", "False", "FALSE ", "f", "00", "-0", "n", "0."],
    "zone_id": ["-1", "-1.0", "-01", "-0", "-2", "0", "0.00", "+1", "-1e0", "- 1"],
    "lanes": ["100", "100.0009", "100.001", "-0.0001", "1e2", "101"],
    "free_speed": ["0.001", "0.0009", "0", "1e9", "0.05", "1e-3", "1e-4"],
    "length": ["1e9", "1e9.0", "1000000000.0009", "1000000000.001", "-1", "1e10", "-0"],
    "penalty": ["36000", "36000.0009", "36000.001", "36001", "-1", "1e5", "0.001"],
    "volume": ["2000000", "2000001", "1e9", "1999999.999", "-0.0001", "1e10"],
    "link_ids": case_starts.ODD_LISTS,
    "entry_steps": case_starts.ODD_LISTS,
    "agent_id": LONG,
    "departure_step": LONG,
    "arrival_step": LONG + ["", " "],
    "status": case_audits.ODD_STATES,
}


def odd_field(r, column, text=""):
    """An odd text for a field, often one that is odd in this very column."""
    if column == "capacity_by_step" and r.random() < .9:
        return case_windows.odd(r, text)
    if column in ODD_BY_COLUMN and r.random() < .6:
        return r.choice(ODD_BY_COLUMN[column])
    return r.choice(ODD_FIELDS)


def odd_place(r, table, row):
    """A place in a row; mostly that of windows or of a list, where there is one."""
    for name in ("capacity_by_step", "link_ids", "entry_steps"):
        if name in table.columns and table.place(name) < len(row) and r.random() < .5:
            return table.place(name)
    return r.randrange(len(row))


def spoil_fields(r, table):
    """Puts odd texts or those of other fields in places of fields, or copies a row."""
    for _ in range(r.choice([1, 1, 1, 2, 5])):
        if not table.rows:
            return
        row = r.choice(table.rows)
        place = odd_place(r, table, row) if row else None
        choice = r.randrange(12)
        if place is None or choice == 0:
            table.rows.insert(r.randint(0, len(table.rows)), list(row))
        elif choice == 1:
            row[place] = r.choice(r.choice(table.rows) or [""])
        elif choice in (2, 3):
            other = r.choice(table.rows)
            row[place] = other[place] if place < len(other) else ""
        elif choice == 4:
            del row[place]
        elif choice == 5:
            row.insert(place, r.choice(ODD_FIELDS))
        else:
            row[place] = odd_field(r, (table.columns + [""] * len(row))[place].strip(), row[place])


def spoil_rows(r, table):
    """Drops, doubles, swaps or adds rows of a table whose rows have an order."""
    for _ in range(r.choice([1, 1, 2])):
        rows = table.rows
        place = r.randrange(len(rows)) if rows else 0
        choice = r.randrange(7)
        if not rows or choice == 0:
            rows.append(["1"] * len(table.columns))
        elif choice == 1:
            del rows[place]
        elif choice == 2:
            del rows[r.choice([place, len(rows) - 1]):]
        elif choice == 3:
            rows.insert(r.randint(0, len(rows)), list(rows[place]))
        elif choice == 4:
            rows.append(list(rows[r.choice([0, -1])]))
        elif choice == 5:
            rows[place], rows[-1] = rows[-1], rows[place]
        else:
            r.shuffle(rows)


def spoil_columns(r, table):
    """Leaves a column out, names it otherwise or twice, or leaves rows out."""
    if not table.columns:
        return
    place = r.randrange(len(table.columns))
    choice = r.randrange(8)
    if choice == 0:
        drop_column(table, place)
    elif choice == 1:
        other = r.choice(["", "x", "NODE_ID", "node id", "\ufeffnode_id", "\udcff", "zone_id"])
        table.columns[place] = other
    elif choice == 2:
        table.columns.insert(r.randint(0, len(table.columns)), table.columns[place])
        for row in table.rows:
            row.append(r.choice(["", "1", "x"]))
    elif choice == 3:
        table.columns.pop()
    elif choice == 4:
        table.rows = []
    elif choice == 5:
        table.columns, table.rows = [], []
    elif choice == 6:
        table.columns[place] = table.columns[r.randrange(len(table.columns))]
    else:
        table.rows += r.choices(table.rows, k=1) if table.rows else []


ODD_BYTES = [b"", b"\0", b"\xff", b'"', b'""', b"\xef\xbb\xbf", b"\n", b"\r", b"\r\n", b",", b" ",
             b"\xc3", b"\xe2\x82\xac", b";", b"-", b".", b"e", b"\t", b"\x1a", b"\x0b", b"\x0c"]


def spoil_bytes(r, text):
    """Cuts a table off, or puts, drops or changes some of its bytes."""
    for _ in range(r.choice([1, 1, 2, 4])):
        place = r.randint(0, len(text))
        choice = r.randrange(8)
        if choice == 0:
            text = text[:place]
        elif choice == 1:
            text = text[:place] + text[place + r.choice([1, 1, 5]):]
        elif choice in (2, 3):
            text = text[:place] + r.choice(ODD_BYTES) + text[place:]
        elif choice == 4:
            text = text[:place] + bytes([r.randrange(256)]) + text[place + 1:]
        elif choice == 5:
            text = b"\xef\xbb\xbf" * r.choice([1, 2]) + text
        elif choice == 6:
            text = r.choice([b"", b"\n", b"\xef\xbb\xbf", b"\xef\xbb\xbf\n", b"\r\n\n", b'"',
                             b"\xef\xbb", b"\xff\xfe1", b",", b"\0"])
        else:
            other = r.randint(0, len(text))
            text = text[:place] + text[min(place, other):max(place, other)] + text[place:]
    return text


def spoil_files(r, case, command, features):
    """Takes a table away, or puts a folder or a link to itself in place of one or of an output."""
    choice = r.randrange(4)
    inputs = INPUTS + ((TIMES,) * 3 if command in ("skim", "audit") else ())
    inputs += (START,) * 4 if "start" in features or command == "audit" else ()
    name = r.choice(inputs if choice < 3 else OUTPUTS_OF.get(command, OUTPUTS))
    case.files.pop(name, None)
    if choice == 1:
        case.links_to_themselves.append(name)
    elif choice in (2, 3):
        if r.random() < .5:
            case.folders.append(name)
        else:
            case.links_to_themselves.append(name)
