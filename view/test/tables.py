"""What the tables of a run tell, read by Python's own csv reader: what the page must show."""
import array
import csv
import functools
import itertools
import math
import os
from collections import Counter


def rows(folder, name):
    with open(os.path.join(folder, name), newline='', encoding='utf-8-sig') as table:
        yield from csv.DictReader(table)


def steps(text):
    return [int(step) for step in text.split(';')] if text != '' else []


def points_of(text):
    """Those of a text such as LINESTRING (0 0, 1 2)."""
    return [
        [float(one) for one in point.split()]
        for point in text.partition('(')[2].strip(')').split(',')
    ]


# What one time tells of links: the columns of the files for QGIS, and the measures of the map.
COLUMNS = {
    'delay_ratio': 'delay',
    'lost_vehicle_hours': 'lost',
    'vehicles_on_link': 'on',
    'flow_vehicles_per_hour': 'flow',
    'flow_over_capacity_percent': 'load',
    'speed_kmh': 'speed',
    'minutes_on_link': 'minutes',
    'vehicles_waiting_at_origins': 'waiting',
    'storage_used_percent': 'storage',
    'free_flow_minutes': 'free',
}


class Told:
    """Sums over the tables of one run of `assign`, in steps and metres."""

    def __init__(self, folder, jam=125, storage_binds=False, seconds=6):
        self.folder, self.jam, self.storage_binds = folder, jam, storage_binds
        self.seconds = seconds
        self.links = {row['link_id']: row for row in rows(folder, 'link.csv')}
        self.nodes = {row['node_id']: row for row in rows(folder, 'node.csv')}
        # Kept, since they are asked of one link many times.
        self.visits_of = functools.lru_cache(maxsize=500)(self.visits_of)
        self.blocked = functools.cache(self.blocked)
        self.read_times()
        self.read_agents()

    def read_times(self):
        self.free, self.worst, self.entered, self.travel, self.horizon = {}, {}, {}, {}, 0
        self.buckets = {}
        for row in rows(self.folder, 'link_performance.csv'):
            link, start = row['link_id'], int(row['from_step'])
            entered, travel, free = (
                int(row[name]) for name in ('entered', 'travel_steps', 'free_steps')
            )
            self.free[link] = free
            self.entered[link, start], self.travel[link, start] = entered, travel
            self.buckets[start] = int(row['to_step'])
            self.horizon = max(self.horizon, int(row['to_step']))
            if entered > 0 and travel > self.worst.get(link, (0, 0))[0]:
                self.worst[link] = (travel, start)
        self.bucket_of = [
            start for start, end in self.buckets.items() for _ in range(start, end)
        ]

    def read_agents(self):
        self.statuses = {'arrived': 0, 'running': 0, 'waiting': 0, 'unrouted': 0}
        self.waits, self.lost, self.by_bucket, self.visits, self.waiters = {}, {}, {}, {}, {}
        self.departures, self.no_way = Counter(), Counter()
        self.on_links = (
            self.waited
        ) = self.lost_by_visits = self.metres = self.vehicles = self.longest = 0
        for row in rows(self.folder, 'agent.csv'):
            self.vehicles += 1
            self.statuses[row['status']] += 1
            self.departures[int(row['departure_step'])] += 1
            if row['status'] != 'unrouted':
                self.add(row)
            else:
                self.no_way[row['o_zone_id'], row['d_zone_id']] += 1

    def add(self, row):
        departure, entries = int(row['departure_step']), steps(row['entry_steps'])
        arrival = int(row['arrival_step']) if row['arrival_step'] != '' else self.horizon
        waited = (entries[0] if entries else self.horizon) - departure
        self.waited += waited
        first = row['link_ids'].split(';')[0]
        self.waits[first] = self.waits.get(first, 0) + waited
        self.waiters.setdefault(first, []).append((departure, departure + waited))
        self.longest = max(self.longest, arrival - departure)
        ends = entries[1:] + [arrival]
        for link, entry, end in zip(row['link_ids'].split(';'), entries, ends):
            self.on_links += end - entry
            self.visits.setdefault(link, array.array('q')).append(entry * 100000 + end)
            if end < self.horizon:
                self.metres += float(self.links[link]['length'])
            if end > entry + self.free[link]:
                self.add_lost(link, entry + self.free[link], end)

    def add_lost(self, link, begin, end):
        """A vehicle loses the steps of a link behind its free-flow time, each in its bucket."""
        self.lost_by_visits += end - begin
        self.lost[link] = self.lost.get(link, 0) + end - begin
        while begin < end:
            start = self.bucket_of[begin]
            until = min(end, self.buckets[start])
            for place in (start, (link, start)):
                self.by_bucket[place] = self.by_bucket.get(place, 0) + until - begin
            begin = until

    def storage(self, link):
        """Lengths in metres."""
        row = self.links[link]
        length, lanes = float(row['length']), float(row.get('lanes') or 1)
        return max(math.floor(length / 1000 * lanes * self.jam + 1e-9), 1)

    def visits_of(self, link):
        """Pairs of entry and end, in the order in which vehicles stand on the link."""
        return [divmod(visit, 100000) for visit in sorted(self.visits.get(link, []))]

    def most_delayed(self):
        """The link that loses most in the whole run, the first of equal ones."""
        return max(self.links, key=lambda link: self.lost.get(link, 0))

    def worst_time(self):
        return max(self.buckets, key=lambda start: self.by_bucket.get(start, 0))

    def costliest_time(self, link):
        return max(self.buckets, key=lambda start: self.by_bucket.get((link, start), 0))

    def on_link(self, link, step):
        """Vehicles on a link once a step is done."""
        return sum(entry <= step < end for entry, end in self.visits_of(link))

    def stood(self, link, step):
        """How many steps the first vehicle has stood where the link is blocked, else None."""
        visits = self.visits_of(link)
        on_it = [entry for entry, end in visits if entry <= step < end]
        if not on_it:
            return None
        left = [end for entry, end in visits if end <= step]
        stood = step - max([on_it[0] + self.free[link], *left[-1:]])
        is_full = self.storage_binds and len(on_it) >= self.storage(link)
        return stood if stood > self.free[link] or is_full and stood >= 0 else None

    def is_plain(self, link, step):
        """Whether the map of delays has nothing to tell of a link."""
        return self.value('delay', link, step) <= 1 and self.stood(link, step) is None

    def blocked(self, link):
        """The steps in which a link is blocked, among those in which a vehicle may stand."""
        least = self.free[link] if self.storage_binds else 2 * self.free[link] + 1
        stands = {
            step for entry, end in self.visits_of(link) for step in range(entry + least, end)
        }
        return [step for step in sorted(stands) if self.stood(link, step) is not None]

    def longest_wait(self, step):
        """The first link with the longest mean wait of those who depart in the bucket of a step,
        and its row of the origin waits."""
        now = [
            row
            for row in rows(self.folder, 'origin_wait.csv')
            if int(row['from_step']) <= step < int(row['to_step'])
        ]
        row = max(now, key=lambda one: int(one['wait_steps']))
        return row['link_id'], row

    def round_trips(self):
        """The vehicles that have a link twice in their route, and those that come back to the
        node where it begins."""
        twice, again = [], []
        for row, links, _ in self.agents():
            begin = self.links[links[0]]['from_node_id'] if links else None
            if len(set(links)) < len(links):
                twice.append(row['agent_id'])
            if any(self.links[link]['to_node_id'] == begin for link in links):
                again.append(row['agent_id'])
        return twice, again

    def trip_minutes(self):
        """Of a trip: the mean of those who arrived, and of all, the others up to the end."""
        routed = [row for row, links, _ in self.agents() if links]
        trips = [
            (int(row['arrival_step'] or self.horizon) - int(row['departure_step']), row['status'])
            for row in routed
        ]
        arrived = [steps for steps, status in trips if status == 'arrived']
        return (
            self.minutes(sum(arrived) / len(arrived)),
            self.minutes(sum(steps for steps, _ in trips) / len(trips)),
        )

    def minutes(self, count):
        return count * self.seconds / 60

    def hours(self, count):
        return count * self.seconds / 3600

    def clock(self, step, start=0):
        """The time of day of a step in a run that starts so many seconds after midnight."""
        minutes, seconds = divmod(start + step * self.seconds, 60)
        return f'{minutes // 60:02}:{minutes % 60:02}' + (f':{seconds:02}' if seconds else '')

    def instant(self, step, start=0):
        """The same with the seconds."""
        text = self.clock(step, start)
        return text if text.count(':') == 2 else f'{text}:00'

    def flow(self, link, start):
        return self.entered[link, start] / self.hours(self.buckets[start] - start)

    def lanes(self, link):
        return float(self.links[link].get('lanes') or 1)

    def capacity(self, link):
        return float(self.links[link].get('capacity') or 1800) * self.lanes(link)

    def speed(self, link, start):
        return float(self.links[link]['length']) / 1000 / self.hours(self.travel[link, start])

    def waiting(self, link, step):
        return sum(begin <= step < end for begin, end in self.waiters.get(link, []))

    def value(self, measure, link, step):
        """What a measure tells of a link at a step; False where nobody entered it."""
        start = self.bucket_of[step]
        is_entered = self.entered[link, start] > 0
        return {
            'delay': lambda: is_entered and self.travel[link, start] / self.free[link],
            'lost': lambda: self.hours(self.by_bucket.get((link, start), 0)),
            'on': lambda: self.on_link(link, step),
            'flow': lambda: is_entered and self.flow(link, start),
            'load': lambda: is_entered and 100 * self.flow(link, start) / self.capacity(link),
            'speed': lambda: is_entered and self.speed(link, start),
            'minutes': lambda: is_entered and self.minutes(self.travel[link, start]),
            'waiting': lambda: self.waiting(link, step),
            'storage': lambda: 100 * self.on_link(link, step) / self.storage(link),
            'free': lambda: self.minutes(self.free[link]),
        }[measure]()

    def at(self, link, step):
        """What a step tells of a link, by columns; False where one is empty."""
        stood = self.stood(link, step)
        return {
            **{column: self.value(measure, link, step) for column, measure in COLUMNS.items()},
            'blocked_minutes': stood is not None and self.minutes(stood),
        }

    def over_run(self, link):
        """What the whole run tells of a link, by columns."""
        starts = [start for start in self.buckets if self.entered[link, start] > 0]
        slowest = max(starts, key=lambda start: self.travel[link, start], default=0)
        busiest = max(starts, key=lambda start: self.flow(link, start), default=0)
        return {
            'free_flow_minutes': self.minutes(self.free[link]),
            'entered_vehicles': sum(self.entered[link, start] for start in starts),
            'lost_vehicle_hours': self.hours(self.lost.get(link, 0)),
            'greatest_delay_ratio': self.value('delay', link, slowest),
            'greatest_minutes_on_link': self.value('minutes', link, slowest),
            'greatest_flow_vehicles_per_hour': self.value('flow', link, busiest),
            'greatest_flow_over_capacity_percent': self.value('load', link, busiest),
            'least_speed_kmh': self.value('speed', link, slowest),
            'most_vehicles_on_link': self.most_on(link),
            'waiting_vehicle_hours': self.hours(self.waits.get(link, 0)),
            'blocked_minutes': self.minutes(len(self.blocked(link))),
        }

    def most_on(self, link):
        """The most vehicles that are on a link at once."""
        changes = Counter()
        for entry, end in self.visits_of(link):
            changes[entry] += 1
            changes[end] -= 1
        return max(itertools.accumulate(changes[step] for step in sorted(changes)), default=0)

    def line(self, link):
        """A link's points, by its geometry or else by its nodes."""
        row = self.links[link]
        if row.get('geometry'):
            return points_of(row['geometry'])
        nodes = (self.nodes[row[end]] for end in ('from_node_id', 'to_node_id'))
        return [[float(node['x_coord']), float(node['y_coord'])] for node in nodes]

    def agents(self):
        """The rows of vehicles, with their links and the steps in which each is entered."""
        for row in rows(self.folder, 'agent.csv'):
            links = [link for link in row['link_ids'].split(';') if link != '']
            yield row, links, steps(row['entry_steps'])

    def over(self, link):
        """How many vehicles between which zones entered a link, and how many entries they made
        into other links before and behind it."""
        pairs, before, behind = {}, {}, {}
        for row, links, entries in self.agents():
            entered = links[: len(entries)]
            if link not in entered:
                continue
            key = row['o_zone_id'], row['d_zone_id']
            pairs[key] = pairs.get(key, 0) + 1
            place = entered.index(link)
            for counts, part in ((before, entered[:place]), (behind, entered[place + 1 :])):
                for other in part:
                    if other != link:
                        counts[other] = counts.get(other, 0) + 1
        return pairs, before, behind

    def routes(self, origin, destination):
        """Each route's vehicles, and the steps of those that arrived."""
        found = {}
        for row, links, _ in self.agents():
            if (row['o_zone_id'], row['d_zone_id'], bool(links)) == (origin, destination, True):
                found.setdefault(';'.join(links), []).append(
                    int(row['arrival_step']) - int(row['departure_step'])
                    if row['arrival_step'] != ''
                    else None
                )
        return found

    def turns(self, start):
        """How many vehicles took which turn in a bucket."""
        counts, end = Counter(), self.buckets[start]
        for _, links, entries in self.agents():
            for place in range(1, len(entries)):
                if start <= entries[place] < end:
                    counts[links[place - 1], links[place]] += 1
        return counts

    def standing_on(self, link):
        """Vehicles that are on a link at the end."""
        return self.on_link(link, self.horizon - 1)

    def homeless(self):
        """The zones of the demand that no node has, as they come."""
        known = {row['zone_id'] for row in self.nodes.values()}
        pairs = ((row['o_zone_id'], row['d_zone_id']) for row in rows(self.folder, 'demand.csv'))
        zones = dict.fromkeys(zone for pair in pairs for zone in pair)
        return [zone for zone in zones if zone not in known]

    def volumes(self):
        return [float(row['volume']) for row in rows(self.folder, 'demand.csv')]

    def jam_starts(self):
        """Links that don't wait for a blocked link when they are blocked for the first time, with
        the vehicle-hours lost there and behind; and when all links are."""
        first = {link: self.blocked(link)[0] for link in self.links if self.blocked(link)}
        heads = {}
        for row, links, entries in self.agents():
            arrival = int(row['arrival_step']) if row['arrival_step'] != '' else self.horizon
            ends = entries[1:] + [arrival]
            for place, (link, entry, end) in enumerate(zip(links, entries, ends)):
                if link in first and entry <= first[link] < end:
                    one = entry, end, int(row['agent_id']), links[place + 1 :][:1]
                    heads[link] = min(heads.get(link, one), one)
        held = {}
        for link, step in first.items():
            if any(self.stood(one, step) is not None for one in heads[link][3]):
                held[link] = heads[link][3][0]
        return self.lost_behind(first, held), first

    def lost_behind(self, first, held):
        """The vehicle-hours lost at each link that isn't held, and on those that wait for it."""
        lost = {link: 0 for link in first if link not in held}
        for link in first:
            begin, passed = link, set()
            while begin in held and begin not in passed:
                passed.add(begin)
                begin = held[begin]
            if begin in lost:
                lost[begin] += self.hours(self.lost.get(link, 0))
        return lost
