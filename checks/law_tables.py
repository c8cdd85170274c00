"""The tables and the words of an assignment, as traffic_laws.py takes them: exact whole numbers,
by arithmetic of its own (docs/MODEL.md has the formulas, docs/FORMATS.md the columns)."""
import bisect
import csv
import os
from dataclasses import dataclass
from fractions import Fraction

csv.field_size_limit(2 ** 31 - 1)

VEHICLE = 3_600_000_000  # parts of a vehicle: millionths of one an hour, times seconds
DEFAULTS = {"step": 6, "jam": 125, "length-unit": "m", "speed-unit": "kmh", "horizon": 1200,
            "iterations": 1, "bucket": 50, "queue": "point", "wave": 20, "costs": "links"}
TEXTS = ("length-unit", "speed-unit", "queue", "costs")
OTHERS = ("period", "workers", "watch")
MICROMETRES = {"m": 1_000, "km": 1_000_000, "mi": 1_609_344}  # of a thousandth of the unit
SPEEDS = {"kmh": 1_000_000, "mph": 1_609_344}  # micrometres an hour of a thousandth


class Unread(Exception):
    """A field that no run could have written, by its table, its line and its column."""

    def __init__(self, table, line, column, why):
        super().__init__(f"{table} line {line} {column}: {why}")
        self.place, self.why = (table, line, column), why


def settings_of(words):
    """The value of each option by the words of a run, which the program accepted."""
    values = dict(DEFAULTS)
    words = list(words[1:] if words[:1] == ["assign"] else words)
    while words:
        name, has_value, text = words.pop(0).removeprefix("--").partition("=")
        if name in ("plain", "start"):
            continue
        if name not in (*DEFAULTS, *OTHERS) or not (has_value or words):
            raise ValueError(f"--{name} isn't an option of assign, or has no value")
        text = text if has_value else words.pop(0)
        values[name] = text if name in TEXTS else int(text)
    values.setdefault("period", min(600, values["horizon"]))
    return values


def above(first, second):
    """The quotient of two whole numbers, rounded up."""
    return -(-first // second)


def identifier(text):
    return int(text.partition(".")[0])


def thousandths(text):
    """The thousandths of a quantity; what is finer is dropped."""
    return Fraction(text) * 1000 // 1


class Rows:
    """The records of a table after its header. Record k has line k."""

    def __init__(self, folder, name):
        self.name = name.removesuffix(".csv")
        with open(os.path.join(folder, name), encoding="utf-8-sig", newline="") as table:
            records = [record for record in csv.reader(table) if record]
        header = [text.strip(" \t") for text in records[0]] if records else []
        self.places = {column: header.index(column) for column in header}
        self.records = records[1:]

    def __len__(self):
        return len(self.records)

    def text(self, row, column):
        """What a column says in a row, counted from 0; nothing where there is no such column."""
        place, record = self.places.get(column), self.records[row]
        return "" if place is None or place >= len(record) else record[place].strip(" \t")

    def number(self, row, column):
        try:
            return identifier(self.text(row, column))
        except ValueError:
            raise self.unread(row, column, "it is no number") from None

    def numbers(self, row, column):
        """The numbers of a list; none where the field is empty."""
        text = self.text(row, column)
        try:
            return [identifier(one) for one in text.split(";")] if text else []
        except ValueError:
            raise self.unread(row, column, "it is no list of numbers") from None

    def unread(self, row, column, why):
        return Unread(self.name, row + 2, column, why)

    def quantity(self, row, column, default):
        text = self.text(row, column)
        return thousandths(text) if text else default


class Rates:
    """What a link or a turn lets through. Each window has its first step and the parts of a
    vehicle that each of its steps gives, or None where nothing is limited."""

    def __init__(self, windows):
        self.firsts = [first for first, _ in windows]
        self.each = [parts for _, parts in windows]
        self.before = [0]
        for (first, parts), (end, _) in zip(windows, windows[1:]):
            self.before.append(self.before[-1] + (end - first) * (parts or 0))

    def is_limited(self, step):
        return self.each[bisect.bisect_right(self.firsts, step) - 1] is not None

    def given(self, step):
        """The parts that the steps before this one give."""
        window = bisect.bisect_right(self.firsts, step) - 1
        return self.before[window] + (step - self.firsts[window]) * (self.each[window] or 0)

    def allowance(self, step):
        """The whole vehicles of a step; a fraction is carried on."""
        return self.given(step + 1) // VEHICLE - self.given(step) // VEHICLE


def rates_of(table, row, lanes, usual, seconds):
    """The rates of a row by its windows, or by its capacity where it has none. `lanes` and `usual`
    are thousandths; `usual` is None where a row without a capacity is without a limit."""
    parts = [(0, table.quantity(row, "capacity", usual))]
    windows = table.text(row, "capacity_by_step")
    if windows:
        pieces = [piece.split(":") for piece in windows.split(";")]
        parts = [(int(first), None if text == "none" else thousandths(text))
                 for first, text in pieces]
    return Rates([(first, None if capacity is None else capacity * lanes * seconds)
                  for first, capacity in parts])


@dataclass
class Link:
    """A link by its identifier, the positions of its nodes, and what follows from its row."""
    name: int
    begin: int
    end: int
    free: int
    storage: int
    wave: int
    rates: Rates


def link_of(table, row, nodes, settings):
    seconds = settings["step"]
    length = thousandths(table.text(row, "length")) * MICROMETRES[settings["length-unit"]]
    lanes = table.quantity(row, "lanes", 1000)
    speed = 50_000 * SPEEDS["kmh"]
    if table.text(row, "free_speed"):
        speed = thousandths(table.text(row, "free_speed")) * SPEEDS[settings["speed-unit"]]
    storage = length * lanes * settings["jam"] // 10 ** 12
    wave = above(3600 * length, settings["wave"] * 10 ** 9 * seconds)
    return Link(table.number(row, "link_id"), nodes[table.number(row, "from_node_id")],
                nodes[table.number(row, "to_node_id")],
                max(1, above(3600 * length, speed * seconds)), max(1, min(4_000_000, storage)),
                max(1, min(settings["horizon"], wave)),
                rates_of(table, row, lanes, 1_800_000, seconds))


class Net:
    """The nodes with their zones, the links in the order of their table, and the turns."""

    def __init__(self, folder, settings):
        table = Rows(folder, "node.csv")
        nodes = {table.number(row, "node_id"): row for row in range(len(table))}
        self.zones = [zone_of(table.text(row, "zone_id")) for row in range(len(table))]
        table = Rows(folder, "link.csv")
        self.links = [link_of(table, row, nodes, settings) for row in range(len(table))]
        self.numbers = {link.name: number for number, link in enumerate(self.links)}
        self.listed, self.named = {}, set()
        if os.path.exists(os.path.join(folder, "movement.csv")):
            self.list_turns(Rows(folder, "movement.csv"), settings["step"])
        self.outs = [[] for _ in nodes]
        for number, link in enumerate(self.links):
            self.outs[link.begin].append(number)
        self.onward = [self.turns_from(number) for number in range(len(self.links))]

    def list_turns(self, table, seconds):
        for row in range(len(table)):
            pair = tuple(self.numbers[table.number(row, column)]
                         for column in ("ib_link_id", "ob_link_id"))
            penalty = above(table.quantity(row, "penalty", 0), 1000 * seconds)
            self.listed[pair] = penalty, rates_of(table, row, 1000, None, seconds)
            self.named.add(self.links[pair[0]].end)

    def turns_from(self, number):
        """The links to which one may turn from a link, each with the penalty in steps."""
        node = self.links[number].end
        if node not in self.named:
            return {other: 0 for other in self.outs[node]}
        return {other: self.listed[number, other][0] for other in self.outs[node]
                if (number, other) in self.listed}

    def begins_in(self, number, zone):
        return self.zones[self.links[number].begin] == zone

    def ends_in(self, number, zone):
        return self.zones[self.links[number].end] == zone

    def first_links(self, zone):
        """The links on which a trip from a zone may begin."""
        return [number for number in range(len(self.links)) if self.begins_in(number, zone)]


def zone_of(text):
    text = text.partition(".")[0]
    value = int(text) if text else 0
    return None if value in (0, -1) else value


def trips_of(folder, period):
    """The vehicles that the demand releases, in order: departure, origin and destination."""
    table = Rows(folder, "demand.csv")
    trips, total = [], 0
    for row in range(len(table)):
        ends = table.number(row, "o_zone_id"), table.number(row, "d_zone_id")
        if ends[0] != ends[1]:
            before = total // 1000
            total += thousandths(table.text(row, "volume"))
            count = total // 1000 - before
            first = identifier(table.text(row, "from_step") or "0")
            steps = identifier(table.text(row, "to_step") or str(period)) - first
            trips += [(first + (2 * one + 1) * steps // (2 * count), row, one, *ends)
                      for one in range(count)]
    return [(departure, origin, destination)
            for departure, _, _, origin, destination in sorted(trips)]
