"""What a planner asks of the page: each test compares it with what the tables tell."""
import csv
import json
import math
import os
import statistics
import subprocess

import faults
from checks import (
    check,
    check_classes,
    check_totals,
    classes,
    equal,
    facts,
    facts_of,
    labels,
    near,
    sentences,
)
from tables import COLUMNS, Told, points_of


def exported(path):
    """Each link of a file for QGIS: its values by column, and its points."""
    with open(path, encoding='utf-8') as text:
        if path.endswith('.csv'):
            return [(row, points_of(row['geometry'])) for row in csv.DictReader(text)]
        features = json.load(text)['features']
    return [(one['properties'], one['geometry']['coordinates']) for one in features]


class PlannerTests:
    def blocked_links_are_seen(self):
        """In a gridlock, whose words.txt says that links store no more than they can."""
        page, told = self.page, Told(self.path('busy'), storage_binds=True)
        self.open_run('busy')
        check_totals(page, told)
        last = told.horizon - 1
        for step in (0, 40, last):
            page.choose('#slider', step)
            stood = {link: told.stood(link, step) for link in told.links}
            blocked = sum(one is not None for one in stood.values())
            equal(classes(page)[-1], ['blocked', blocked], f'blocked links at step {step}')
            for link, said in facts_of(page, told.links).items():
                words = said.get('blocked')
                if stood[link] is None:
                    equal(words, None, f'what is said of link {link} at step {step}')
                else:
                    near(words.split()[1], told.minutes(stood[link]), f'minutes of link {link}')
        rows = {row[0]: row[1] for row in page.rows('#totals')}
        equal(rows['Links that are blocked at the end'], str(blocked), 'blocked at the end')
        page.choose('[data-table=links] select', 'blocked')
        longest = max(len(told.blocked(link)) for link in told.links)
        near(page.rows('[data-table=links]')[0][7], told.minutes(longest), 'longest blocking')
        page.choose('[data-table=links] select', 'lost')
        page.click('#worst-time')
        equal(page.step(), told.worst_time(), 'the worst time of a gridlock')
        page.resize(1280, 3000)
        page.choose('#find', '12')
        self.picture(['#bar', '.map', '#link'], 'gridlock.png')

    def labels_name_what_loses_most(self):
        """And say what the panel says."""
        page, told = self.page, Told(self.path('sioux_falls'))
        self.open_run('sioux_falls')
        page.click('#worst-time')
        start = page.step()
        most = sorted(told.links, key=lambda link: -told.by_bucket.get((link, start), 0))[:3]
        equal([link for link, _ in labels(page)], most, 'the named links')
        for link, words in labels(page):
            ratio = told.travel[link, start] / told.free[link]
            equal(words, f'×{ratio:.2f}', f'the label of link {link}')
            said = facts_of(page, [link])[link]['time']
            check(said.endswith(f'×{ratio:.2f}'), f'the panel of link {link}: {said}')
        page.choose('#slider', told.horizon - 1)
        nobody = next(link for link in told.links if told.entered[link, 1150] == 0)
        page.choose('#find', nobody)
        equal(labels(page)[0], [nobody, 'nobody entered'], 'the label of an empty link')
        equal(facts(page)['entered'], 'nobody from 01:55 to 02:00', 'its panel')

    def finding_moves_the_map(self):
        self.open_run('sioux_falls')
        self.check_moves('1', '76')

    def check_moves(self, *links):
        """The map goes to each link that is looked for, and to the worst one."""
        page = self.page
        for link in links:
            self.zoom_in()
            page.choose('#find', link)
            equal(page.text('#found'), f'link {link}', 'the link that is found')
            self.check_in_sight(link)
        self.zoom_in()
        page.click('#worst-link')
        self.check_in_sight(page.text('#link h2').removeprefix('Link '))

    def check_in_sight(self, link):
        x, y = self.page.run('return Page.placeOf(arguments[0])', link)
        size = self.page.find('.map canvas').size
        check(0 < x < size['width'] and 0 < y < size['height'], f'link {link} is off the map')

    def zoom_in(self):
        self.page.run(
            'for (let at = 0; at < 8; at += 1) document.querySelector("#nearer").click()'
        )
        self.page.settle()

    def each_run_has_its_own_units(self):
        """One has steps of 10 seconds by its words.txt, beside one that has steps of 6."""
        page, names = self.page, ['sioux_falls', 'steps_of_10']
        told = [Told(self.path(names[0])), Told(self.path(names[1]), seconds=10)]
        self.open_run(names[0])
        page.drop([self.path(names[1])])
        page.wait_for_runs(names)
        for column, one in enumerate(told, 1):
            check_totals(page, one, column)
        page.choose('#slider', 551)
        page.choose('#find', '52')
        shown = page.run(
            'return [...document.querySelectorAll("#link dl")].map((box) =>'
            ' box.innerText.split("on it")[1].trim().split(" ")[0].replaceAll(",", ""))'
        )
        steps = [551, 330]
        equal(
            [int(count) for count in shown],
            [one.on_link('52', step) for one, step in zip(told, steps)],
            'vehicles on link 52 of both at 3,306 seconds',
        )
        check('steps_of_10 step 330' in page.text('#time'), 'the step of the second run')
        page.choose('[data-run=steps_of_10] .stepSeconds', '20')
        told[1].seconds = 20
        for column, one in enumerate(told, 1):
            check_totals(page, one, column)

    def measures_have_units(self):
        page, told = self.page, Told(self.path('sioux_falls'))
        self.open_run('sioux_falls')
        page.choose('#clock', '7:00')
        page.choose('#slider', 570)
        equal(
            page.text('#time'),
            f'{told.instant(570, 25200)} (step 570, bucket 07:55 to 08:00)',
            'the time of day',
        )
        for measure in COLUMNS.values():
            check_classes(page, told, measure)
        page.choose('#find', '52')
        shown = facts(page)
        near(shown['time'].split()[0], told.minutes(told.travel['52', 550]), 'minutes')
        near(shown['speed'].split()[0], told.speed('52', 550), 'kilometres an hour')
        flow = told.flow('52', 550)
        share = round(100 * flow / told.capacity('52'))
        equal(
            shown['flow'],
            f'{round(flow):,} vehicles an hour ({share} % of capacity)',
            'the flow of link 52',
        )
        page.choose('#clock', '0:00')

    def check_over(self, told, link):
        """The pairs over a link, and the flows before and behind it that are drawn."""
        page = self.page
        page.choose('#find', f'link {link}')
        page.click('#link .use')
        pairs, before, behind = told.over(link)
        vehicles = sum(pairs.values())
        check(f'{vehicles:,} vehicles entered it' in page.text('#trips'), f'who uses {link}')
        shown = {(row[0], row[1]): row[2:] for row in page.rows('#trips table')}
        for pair, (count, percent) in shown.items():
            equal(int(count), pairs[pair], f'the vehicles of {pair} over {link}')
            near(percent, 100 * pairs[pair] / vehicles, f'the share of {pair} over {link}')
        counts = sorted(pairs.values(), reverse=True)[:10]
        equal([int(count) for count, _ in shown.values()], counts, f'the most over {link}')
        drawn = page.run('return Page.traced()')
        for side, counts in (('before', before), ('behind', behind)):
            words = {
                f'{one}: {count:,} vehicles {side} link {link}' for one, count in counts.items()
            }
            equal({line for line in drawn if f' {side} ' in line}, words, f'the flows {side}')

    def trips_over_a_link(self):
        page = self.page
        self.open_run('sioux_falls')
        told = Told(self.path('sioux_falls'))
        self.check_over(told, '52')
        for colour in ((0, 114, 178), (213, 94, 0)):
            check(self.pixels(colour) > 200, f'the colour {colour} isn\'t drawn')
        page.click('#trips .close-trips')
        equal(self.pixels((0, 114, 178)), 0, 'the trips stay drawn')
        self.open_run('busy')
        self.check_over(Told(self.path('busy')), '12')

    def pixels(self, colour):
        """How many points of the map have a colour."""
        return self.page.run(
            'const map = document.querySelector(".map canvas");'
            'const copy = new OffscreenCanvas(map.width, map.height);'
            'const pen = copy.getContext("2d", {willReadFrequently: true});'
            'pen.drawImage(map, 0, 0);'
            'const {data} = pen.getImageData(0, 0, map.width, map.height);'
            'let count = 0; for (let at = 0; at < data.length; at += 4)'
            ' if (data[at] === arguments[0] && data[at + 1] === arguments[1]'
            ' && data[at + 2] === arguments[2]) count += 1; return count',
            *colour,
        )

    def check_routes(self, told, origin, destination):
        page, routes = self.page, told.routes(origin, destination)
        page.run(
            'document.querySelector("#from-zone").value = arguments[0];'
            'document.querySelector("#to-zone").value = arguments[1]',
            origin,
            destination,
        )
        page.click('#routes')
        shown, all_of_them = page.rows('#trips table'), sum(map(len, routes.values()))
        equal(len(shown), min(len(routes), 10), f'the routes from {origin} to {destination}')
        counts = sorted((len(trips) for trips in routes.values()), reverse=True)
        equal([int(row[1]) for row in shown], counts[:10], 'their vehicles')
        wanted = []
        for links, trips in routes.items():
            ended = [trip for trip in trips if trip is not None]
            kilometres = sum(float(told.links[one]['length']) for one in links.split(';')) / 1000
            minutes = f'{told.minutes(sum(ended) / len(ended)):.1f}' if ended else ''
            share = f'{100 * len(trips) / all_of_them:.1f}'
            wanted.append(
                [str(len(trips)), share, minutes, f'{kilometres:.1f}', str(links.count(';') + 1)]
            )
        for row in shown:
            check(row[1:] in wanted, f'the route {row} is none of {wanted}')

    def routes_and_one_vehicle(self):
        for name, pair in (('sioux_falls', ('13', '7')), ('busy', ('1', '3'))):
            self.open_run(name)
            told = Told(self.path(name))
            self.check_routes(told, *pair)
            self.check_vehicles(told)
        self.page.run('document.querySelector("#from-zone").value = "77"')
        self.page.click('#routes')
        said = self.page.text('#trips')
        check('No vehicle has a route from zone 77' in said, 'no such zone')

    def check_vehicles(self, told):
        """The longest way, and one of a vehicle of each status."""
        by_status = {one[0]['status']: one for one in told.agents()}
        longest = max(told.agents(), key=lambda one: len(one[1]))
        for one in (longest, *by_status.values()):
            self.check_vehicle(told, *one)

    def check_vehicle(self, told, row, links, entries):
        page, name = self.page, row['agent_id']
        page.run('document.querySelector("#vehicle").value = arguments[0]', name)
        page.click('#way')
        end = int(row['arrival_step']) if row['arrival_step'] != '' else told.horizon
        ends = entries[1:] + [end]
        wanted = [
            [link, told.instant(entry), f'{told.minutes(end - entry):.1f}']
            for link, entry, end in zip(links, entries, ends)
        ] + [[link, '', ''] for link in links[len(entries) :]]
        shown = [[one[0], one[2], one[3]] for one in page.rows('#trips table')]
        equal(shown, wanted, f'the way of vehicle {name}')
        check(f'Vehicle {name}' in page.text('#trips'), f'the title of vehicle {name}')

    def checks_of(self, name):
        """What the card of checks says, by what it checks."""
        self.page.wait(lambda: self.page.all(f'[data-checks="{name}"]'), 'the checks')
        return dict(
            self.page.run(
                'return [...document.querySelectorAll("[data-check]")].map((one) =>'
                ' [one.dataset.check, one.className + ": " + one.firstChild.textContent.trim()])'
            )
        )

    def check_the_checks(self, told, name):
        """Each sentence of the list, and whether it is one to look at."""
        said = self.checks_of(name)
        for key, (is_found, words) in sentences(told).items():
            words = f'{"look" if is_found else "fine"}: {words}'
            check(said[key].startswith(words), f'{key}: "{said[key]}" isn\'t "{words}"')
        return said

    def checks_are_told(self):
        for name, words in (
            ('sioux_falls', ''),
            ('by_trips', ''),
            ('busy', 'They wait for each other: 12 '),
            ('town', 'The jam begins at '),
        ):
            self.open_run(name)
            told = Told(self.path(name), storage_binds=name in ('busy', 'town'))
            check(words in self.check_the_checks(told, name)['jam'], f'the jam of {name}')
        self.page.open()
        self.page.drop([faults.make(self.folder, 'to_check', faults.TO_CHECK)])
        self.page.wait_for_runs(['to_check'])
        said = self.checks_of('to_check')
        for key, words in faults.CHECKS.items():
            equal(said[key], words, f'the check of {key}')
        self.page.open()
        self.page.drop([faults.make(self.folder, 'goes_round', faults.GOES_ROUND)])
        self.page.wait_for_runs(['goes_round'])
        said = self.checks_of('goes_round')
        for key, words in faults.ROUND_CHECKS.items():
            equal(said[key], words, f'the check of {key}')

    def things_are_found(self):
        """By name, node and zone; the scale bar tells true distances."""
        self.open_run('country')
        told = Told(self.path('country'))
        motorway = next(one for one, row in told.links.items() if row['name'].startswith('A'))
        self.check_found(told, motorway)
        self.check_scale(told, '1', '3456')

    def check_found(self, told, link):
        """A zone, the node where a link begins, the links of its name, and its bends."""
        page, row = self.page, told.links[link]
        zone = next(one['zone_id'] for one in reversed(told.nodes.values()) if one['zone_id'])
        page.choose('#find', f'zone {zone}')
        equal(page.text('#found'), f'zone {zone}, 1 node', 'the zone')
        check(self.pixels((11, 111, 194)) > 20, 'the zone has no ring')
        node = row['from_node_id']
        its_zone = told.nodes[node]['zone_id']
        page.choose('#find', f'node {node}')
        words = f'node {node}' + (f' of zone {its_zone}' if its_zone else '')
        equal(page.text('#found'), words, 'the node')
        named_so = [one for one in told.links if row['name'] in told.links[one]['name']]
        first = told.links[named_so[0]]['name']
        page.choose('#find', f'name {row["name"]}')
        equal(page.text('#found'), f'{first}, {len(named_so):,} links', 'the links of a name')
        equal(page.text('#link h2'), f'Link {named_so[0]}', 'the first of them')
        equal(facts(page)['name'], first, 'its name in the panel')
        page.choose('#find', 'no such thing')
        check('wrong' in page.find('#find').get_attribute('class'), 'what isn\'t there')
        equal(page.text('#found'), 'there is no “no such thing”', 'words for what isn\'t there')
        page.choose('#find', f'link {link}')
        check(len(told.line(link)) > 2, f'link {link} has no bends')
        drawn = page.run('return Page.bends(arguments[0])', link)
        equal(len(drawn), len(told.line(link)), f'the points of link {link}')

    def check_scale(self, told, *links):
        """The bar's kilometres by pixel, beside those between two links far from each other."""
        page, lines = self.page, {link: told.line(link) for link in told.links}
        heights = [line[end][1] for line in lines.values() for end in (0, -1)]
        squeeze, unit = math.cos(math.radians((min(heights) + max(heights)) / 2)), 111.32
        if max(map(abs, heights)) > 90:
            squeeze, unit = 1, statistics.median(
                float(told.links[link]['length']) / 1000 / math.dist(line[0], line[-1])
                for link, line in lines.items()
            )
        page.click('#all')
        shown = [page.run('return Page.placeOf(arguments[0])', link) for link in links]
        (x1, y1), (x2, y2) = ([sum(ends) / 2 for ends in zip(*lines[link])] for link in links)
        apart = math.hypot((x2 - x1) * squeeze, y2 - y1) * unit / math.dist(*shown)
        words, pixels = page.run('return Page.scale()')
        size, noun = words.removeprefix('about ').split()
        bar = float(size) / (1 if noun == 'km' else 1000) / pixels
        check(abs(bar / apart - 1) < 0.02, f'the scale bar: {bar} or {apart} km a pixel')

    def links_go_out(self):
        """As GeoJSON and as CSV, which GDAL reads with all links and their numbers."""
        page = self.page
        for name in ('busy', 'country'):
            seconds = 15 if name == 'country' else 6
            told = Told(self.path(name), storage_binds=True, seconds=seconds)
            self.open_run(name)
            page.click('#worst-time')
            self.check_out(name, told)

    def check_out(self, name, told):
        page, step = self.page, self.page.step()
        for button in page.all('.out'):
            page.run('arguments[0].click()', button)
        for time, value in ((step, lambda link: told.at(link, step)), ('run', told.over_run)):
            values = {link: value(link) for link in told.links}
            for end in ('geojson', 'csv'):
                self.check_file(f'links_{time}_{name}.{end}', told, values)

    def check_file(self, name, told, values):
        """GDAL reads it, and each link has its numbers and points."""
        path = os.path.join(self.folder, name)
        self.page.wait(lambda: os.path.exists(path) and os.path.getsize(path) > 0, name)
        said = subprocess.run(
            ['ogrinfo', '-so', '-al', '-oo', 'GEOM_POSSIBLE_NAMES=geometry', path],
            capture_output=True,
            text=True,
            check=True,
        ).stdout
        check(f'Feature Count: {len(told.links)}' in said, f'{name}: {said[:400]}')
        check('Geometry: Line String' in said or 'geometry: String' in said, said[:400])
        rows = exported(path)
        equal([str(row['link_id']) for row, _ in rows], list(told.links), f'the links of {name}')
        for (link, wanted), (row, points) in zip(values.items(), rows):
            for column, value in wanted.items():
                shown = row[column] not in ('', None) and float(row[column])
                is_told = (shown is False) == (value is False) and abs(shown - value) < 1e-9
                check(is_told, f'{name}: {column} of {link} is {shown}, not {value}')
            line = told.line(link)
            is_there = all(math.dist(*ends) < 1e-6 for ends in zip(points, line))
            check(len(points) == len(line) and is_there, f'{name}: {link} is at {points}')

    def widths_tell_importance(self):
        """A motorway is wider than a street, and its pieces are drawn where links are dense."""
        page, told = self.page, Told(self.path('country'), storage_binds=True, seconds=15)
        self.open_run('country')
        page.click('#worst-time')
        capacities = {link: told.capacity(link) for link in told.links}
        middle = statistics.median_high(capacities.values())
        streets = [link for link, size in capacities.items() if size < 0.75 * middle]
        roads = [link for link, size in capacities.items() if size > 1.5 * middle]
        check(any(told.is_plain(link, page.step()) for link in streets), 'no plain piece')
        check('left out' not in page.text('.map .words'), 'pieces of motorways are left out')
        page.choose('#measure', 'on')
        page.choose('#slider', 0)
        of_road, of_street = (
            page.run('return Page.widthOf(arguments[0])', link) for link in (roads[0], streets[0])
        )
        near(str(of_road / of_street), 1.5 / 0.8, 'the widths of a road and a street')

    def check_thinned(self, told):
        """Streets without delay are left out at full view; here each of them is short."""
        self.page.click('#all')
        step, capacities = self.page.step(), {link: told.capacity(link) for link in told.links}
        middle = statistics.median_high(capacities.values())
        hidden = sum(
            size < 0.75 * middle and told.is_plain(link, step)
            for link, size in capacities.items()
        )
        words = self.page.text('.map .words')
        check(f'{hidden:,} streets without delay are left out' in words, f'{words}: {hidden}')
