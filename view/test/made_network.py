"""Networks to look at: a town with a river and two bridges, a country of towns and motorways."""
import math
import os
import random

TOWN_WORDS = 'assign --queue spatial --horizon 1200 --period 600 --iterations 6'
COUNTRY_WORDS = (
    'assign --step 15 --horizon 1200 --period 480 --bucket 40 --iterations 4 --queue spatial'
)


class Network:
    def __init__(self):
        self.nodes, self.links, self.zones = [], [], {}

    def node(self, x, y, zone=''):
        self.nodes.append((x, y, zone))
        return len(self.nodes)

    def road(self, first, second, metres, kind, name, bends=()):
        """A link each way; a kind is lanes, speed and capacity."""
        for start, end, points in ((first, second, bends), (second, first, bends[::-1])):
            line = [self.nodes[start - 1][:2], *points, self.nodes[end - 1][:2]]
            text = ', '.join(f'{x:.6f} {y:.6f}' for x, y in line)
            self.links.append((start, end, round(metres), *kind, name, f'"LINESTRING ({text})"'))

    def write(self, folder, demand, words):
        os.makedirs(folder, exist_ok=True)
        tables = {
            'node.csv': ['node_id,x_coord,y_coord,zone_id']
            + [f'{at},{x:.6f},{y:.6f},{zone}' for at, (x, y, zone) in enumerate(self.nodes, 1)],
            'link.csv': [
                'link_id,from_node_id,to_node_id,length,lanes,free_speed,capacity,name,geometry'
            ]
            + [
                ','.join(map(str, (number, *link)))
                for number, link in enumerate(self.links, 1)
            ],
            'demand.csv': ['o_zone_id,d_zone_id,volume']
            + [f'{start},{end},{volume:.3f}' for start, end, volume in demand],
            'words.txt': [words],
        }
        for name, lines in tables.items():
            with open(os.path.join(folder, name), 'w', encoding='utf-8') as out:
                out.write('\n'.join(lines) + '\n')


STREET, ARTERIAL, MOTORWAY = (1, 40, 900), (2, 50, 1200), (2, 110, 2000)
ROADWORKS = (1, 60, 600)


def town(folder):
    """Eight by eight crossings; a river between the fourth and the fifth row has two bridges."""
    source, made, side = random.Random(7), Network(), 8
    numbers = {}
    for row in range(side):
        for column in range(side):
            x = column * 320 + source.randrange(-60, 60)
            y = row * 300 + source.randrange(-50, 50) + (180 if row > 3 else 0)
            zone = len(numbers) // 5 + 1 if len(numbers) % 5 == 2 else ''
            numbers[row, column] = made.node(x, y, zone)
    for (row, column), number in numbers.items():
        for to_row, to_column in ((row, column + 1), (row + 1, column)):
            other = numbers.get((to_row, to_column))
            is_over_river = row == 3 and to_row == 4
            if other is None or is_over_river and column not in (2, 5):
                continue
            is_main = row == to_row and row in (2, 5) or column == to_column and column in (2, 5)
            (x1, y1, _), (x2, y2, _) = made.nodes[number - 1], made.nodes[other - 1]
            name = ('Old Bridge' if column == 2 else 'New Bridge') if is_over_river else (
                f'{row + 1}. Street' if row == to_row else f'{column + 1}. Avenue'
            )
            made.road(
                number, other, math.hypot(x2 - x1, y2 - y1), ARTERIAL if is_main else STREET, name
            )
    zones = [zone for _, _, zone in made.nodes if zone != '']
    half = len(zones) // 2
    demand = [
        (start, end, source.uniform(90, 180) if start <= half < end else source.uniform(20, 45))
        for start in zones
        for end in zones
        if start != end
    ]
    made.write(folder, demand, TOWN_WORDS)


def country(folder):
    """Twelve towns of nine by nine crossings, with motorways between neighbours, in degrees."""
    source, made, side, centres = random.Random(8), Network(), 9, {}
    for place in ((row, column) for row in range(3) for column in range(4)):
        centres[place] = country_town(made, source, place, side)
    for (row, column), first in centres.items():
        for place in ((row, column + 1), (row + 1, column)):
            if place in centres:
                motorway(made, source, first, centres[place], f'A{len(made.links) % 90 + 1}')
    zones = [(zone, x, y) for x, y, zone in made.nodes if zone != '']
    demand = []
    for start, x1, y1 in zones:
        for end, x2, y2 in zones:
            if start != end:
                away = math.hypot((x2 - x1) * 0.64, y2 - y1)
                demand.append((start, end, 4 + 200 * math.exp(-3 * away) * source.random()))
    made.write(folder, demand, COUNTRY_WORDS)


def country_town(made, source, place, side):
    """A town's grid, of which this is the node in the middle."""
    lon = 9 + place[1] * 0.9 + source.uniform(-0.2, 0.2)
    lat = 50 + place[0] * 0.7 + source.uniform(-0.15, 0.15)
    numbers = {}
    for row in range(side):
        for column in range(side):
            is_zone = row % 4 == 2 and column % 4 == 2
            zone = place[0] * 16 + place[1] * 4 + len(
                [1 for node in numbers if node[0] % 4 == 2 and node[1] % 4 == 2]
            ) + 1 if is_zone else ''
            x = lon + (column - 4) * 0.012 + source.uniform(-0.002, 0.002)
            y = lat + (row - 4) * 0.008 + source.uniform(-0.0015, 0.0015)
            numbers[row, column] = made.node(x, y, zone)
    for (row, column), number in numbers.items():
        for to in ((row, column + 1), (row + 1, column)):
            if to in numbers:
                is_main = row == to[0] == 4 or column == to[1] == 4
                kind = ARTERIAL if is_main else STREET
                made.road(number, numbers[to], source.randrange(700, 1000), kind, 'Main Street')
    return numbers[4, 4]


def motorway(made, source, first, last, name):
    """Six pieces with bends between two towns, of which one has roadworks."""
    (x1, y1, _), (x2, y2, _) = made.nodes[first - 1], made.nodes[last - 1]
    bow, pieces, before = source.uniform(-0.2, 0.2), 6, first

    def at(share):
        aside = bow * math.sin(math.pi * share)
        return (x1 + (x2 - x1) * share - (y2 - y1) * aside,
                y1 + (y2 - y1) * share + (x2 - x1) * aside)

    for piece in range(1, pieces + 1):
        number = last if piece == pieces else made.node(*at(piece / pieces))
        points = [at((piece - 1 + part / 4) / pieces) for part in range(5)]
        metres = sum(
            111320 * math.hypot((b[0] - a[0]) * math.cos(math.radians(50.7)), b[1] - a[1])
            for a, b in zip(points, points[1:])
        )
        kind = ROADWORKS if piece == 4 else MOTORWAY
        made.road(before, number, metres, kind, name, points[1:-1])
        before = number
