"""What a planner met in a first week with real networks: each test fails on the page before."""
import json
import os
import re
import shutil

from selenium.webdriver.common.keys import Keys

import faults
from checks import check, check_totals, equal, facts, near, number
from tables import Told


class WeekTests:
    def without_words(self, name):
        """The folder of a run, without the words by which it was made."""
        path = os.path.join(self.folder, f'{name}_without_words')
        shutil.rmtree(path, ignore_errors=True)
        shutil.copytree(self.path(name), path)
        os.remove(os.path.join(path, 'words.txt'))
        return path

    def opened(self, folder):
        name = os.path.basename(folder)
        self.page.open()
        self.page.drop([folder])
        self.page.wait_for_runs([name])
        return name

    def made(self, name, changes):
        return faults.make(self.folder, name, {**faults.MADE_RUN, **changes})

    def a_run_says_how_it_was_made(self):
        """By its words with the sizes of its tables, or else by the free-flow steps."""
        page, words = self.page, 'assign --step 10 --period=360 --horizon 720 --iterations 5'
        self.opened(self.without_words('steps_of_10'))
        equal(page.text('#doubts'), '', 'doubts of a run whose step is found')
        check('steps of 10 s' in page.text('#units-words'), 'the step that is found')
        check_totals(page, Told(self.path('steps_of_10'), seconds=10))
        path = self.without_words('steps_of_10')
        self.note(path, words)
        name = self.opened(path)
        check('(by words.txt)' in page.text('#units-words'), 'the words of the run')
        equal(page.rows('#totals')[0], ['Made by', f'dta 0.12: {words}'], f'how {name} was made')
        self.note(path, words, more=1)
        self.opened(path)
        check('it tells of another run' in page.text('#messages'), 'words of another run')
        check('free-flow steps' in page.text('#units-words'), 'the step without these words')
        self.doubts_are_loud()

    def note(self, path, words, more=0):
        """What the command writes, or the same with sizes that aren't those of the tables."""
        names = ('agent.csv', 'link_performance.csv', 'gap.csv')
        sizes = (os.path.getsize(os.path.join(path, name)) + more for name in names)
        tables = ', '.join(f'{name} ({size} bytes)' for name, size in zip(names, sizes))
        with open(os.path.join(path, 'words.txt'), 'w', encoding='utf-8') as out:
            out.write(f'{words}\ndta 0.12 wrote {tables}\n')

    def doubts_are_loud(self):
        page = self.page
        for name, changes, words in (
            ('two_steps', {}, 'its free-flow steps fit steps of 6 to 7 s.'),
            ('no_step', {'link.csv': faults.MADE_RUN['link.csv'].replace('3,500', '3,5000')},
             'by no step do the free-flow steps follow from link.csv'),
            ('other_words', {'words.txt': 'assign --step 12\n'}, 'words.txt says steps of 12 s'),
            ('not_in_metres', {'link.csv': faults.IN_KILOMETRES}, 'lengths aren’t in metres.'),
        ):
            self.opened(self.made(name, changes))
            check(words in page.text('#doubts'), f'{name}: {page.text("#doubts")}')
            check(page.find('#units').is_displayed(), 'the units are folded away')
            page.choose('.stepSeconds', '7')
            equal(page.text('#doubts'), '', 'doubts once the step is said')

    def waits_at_origins_are_told(self):
        """By whole trips the mean wait of those who depart for a link; also without vehicles."""
        page, told = self.page, Told(self.path('by_trips'))
        for path in (self.path('by_trips'), self.without_agents('by_trips')):
            self.opened(path)
            equal(page.text('#messages'), '', 'what is said of a run by trips')
            page.choose('#slider', 300)
            link, row = told.longest_wait(300)
            page.choose('#find', f'link {link}')
            words = (
                f'{told.minutes(int(row["wait_steps"])):.1f} min in the mean, of '
                f'{int(row["departed"]):,} vehicles that depart for it from '
                f'{told.clock(int(row["from_step"]))} to {told.clock(int(row["to_step"]))}'
            )
            equal(facts(page)['wait before it'], words, f'the wait before link {link}')

    def without_agents(self, name):
        """The folder of a run without its vehicles."""
        folder = os.path.join(self.folder, f'{name}_without_agents')
        shutil.rmtree(folder, ignore_errors=True)
        shutil.copytree(self.path(name), folder)
        os.remove(os.path.join(folder, 'agent.csv'))
        return folder

    def trips_tell_who_is_counted(self):
        """A gridlock has the longer trips, and gaps are in percent."""
        page = self.page
        for name in ('busy', 'sioux_falls'):
            told = Told(self.path(name))
            self.open_run(name)
            shown = {row[0]: row[1] for row in page.rows('#totals')}
            arrived, everybody = told.trip_minutes()
            near(
                shown['Minutes of a trip, of those who arrived: mean'], arrived, f'{name}: arrived'
            )
            near(
                shown['Minutes of a trip, the others counted up to the end: mean'],
                everybody,
                f'{name}: all',
            )
            gap = int(self.runs[name][1]['gap_ppm']) / 1e4
            shown = number(shown['Gap of the last iteration, in percent'])
            check(abs(shown - gap) < 0.0006, f'the gap of {name}: {shown}, {gap}')

    def turns_that_bind_are_seen(self):
        """Their flow and capacity, that they are full, and who stands before closed ones."""
        page, told = self.page, Told(self.path('limited'))
        self.open_run('limited')
        start = 50
        counts, hours = told.turns(start), told.hours(told.buckets[start] - start)
        page.choose('#slider', start + 5)
        page.choose('#find', '13')
        vehicles, shown = counts['13', '34'], facts(page)
        check(vehicles >= 10 and told.travel['13', start] > told.free['13'], 'the turn is free')
        equal(
            shown['turn 13 → 34'],
            f'{vehicles / hours:.0f} vehicles an hour of 120 that it lets through '
            f'({100 * vehicles / (120 * hours):.0f} %): it is full',
            'the turn that is full',
        )
        check(shown['time'].endswith('; the turn to link 34 is full'), shown['time'])
        check('turn 13 → 35' not in shown, 'a turn without a limit in the bucket')
        page.click('#link .turns')
        equal(page.text('#node h2'), 'Node 3', 'the node at the end of link 13')
        rows = {tuple(row[:2]): row[2:] for row in page.rows('#node')}
        for turn in (('13', '34'), ('13', '35'), ('23', '34')):
            equal(rows[turn][0], str(counts[turn]), f'the vehicles of the turn {turn}')
        equal(rows['13', '34'][2:], ['120', f'{100 * vehicles / (120 * hours):.0f}', 'full'], '%')
        equal(rows['23', '34'][2:], ['0', '', 'closed'], 'the turn that is closed')
        self.closed_is_seen(told)

    def closed_is_seen(self, told):
        """In the checks and on the map, where it looks other than empty."""
        page, red = self.page, (179, 38, 30)
        standing = told.standing_on('23')
        check(standing == 10, f'{standing} vehicles stand before the closed turn')
        said = self.checks_of('limited')
        equal(
            said['turns'],
            'look: 1 of 3 (33.3 %) turns of movement.csv have a capacity of 0 for all time: '
            f'23 → 34. {standing} vehicles stand before them at the end, and would with any '
            'horizon and any queue. Leave these rows out where others name their node.',
            'the closed turn',
        )
        check('full in some bucket while' in said['full'] and '13 → 34' in said['full'], 'full')
        equal(page.text('#closed .count'), '1 turn', 'the legend of closed turns')
        check(self.pixels(red) > 5, 'the closed turn has no mark')
        page.choose('#find', '23')
        page.choose('#slider', told.horizon - 1)
        words = 'before a turn with a capacity of 0 for all time'
        check(facts(page)['blocked'].endswith(words), facts(page)['blocked'])
        check(self.pixels(red) > 40, 'a queue hides the mark of the closed turn')
        self.typed('#find', 'vehicle 2')
        check(self.pixels(red) > 40, 'a way hides the mark of the closed turn')
        self.opened(faults.make(self.folder, 'to_check', faults.TO_CHECK))
        check(self.pixels(red) > 20, 'the closed link looks like an empty one')
        page.choose('#find', '30')
        closed = '0 vehicles an hour: closed for all time'
        equal(facts(page)['capacity'], closed, 'the panel of a closed link')

    def typed(self, selector, text):
        """Types into a field as a hand does, and Enter."""
        field = self.page.find(selector)
        field.clear()
        field.send_keys(text, Keys.ENTER)
        self.page.settle()

    def fields_answer_enter(self):
        """Those of trips and of what is looked for, which is whole only then."""
        page, told = self.page, Told(self.path('sioux_falls'))
        self.open_run('sioux_falls')
        page.find('#from-zone').send_keys('13')
        self.typed('#to-zone', '7')
        check('Zone 13 to zone 7' in page.text('#trips'), 'Enter in the field of a zone')
        self.typed('#vehicle', '7')
        check('Vehicle 7, zones' in page.text('#trips'), 'Enter in the field of a vehicle')
        page.find('#find').send_keys('5')
        check(not page.find('#link').is_displayed(), 'a link is picked while one types')
        self.typed('#find', '5')
        equal(page.text('#link h2'), 'Link 5', 'the link at Enter')
        self.typed('#find', '7777')
        equal(page.text('#found'), 'there is no “7777”', 'what isn\'t there')
        equal(page.text('#link h2'), 'Link 5', 'the link after nothing was found')
        self.typed('#find', 'b1')
        check('from 3 letters on' in page.text('#found'), page.text('#found'))
        vehicle = next(row['agent_id'] for row, links, _ in told.agents() if len(links) > 5)
        self.typed('#find', f'vehicle {vehicle}')
        equal(page.text('#found'), f'vehicle {vehicle}', 'the vehicle that is found')
        check(f'Vehicle {vehicle}, zones' in page.text('#trips'), 'its way')
        enters = page.rows('#trips table')[0][2]
        check(re.fullmatch(r'\d\d:\d\d:\d\d', enters), f'seconds of an entry: {enters}')
        self.typed('#find', 'vehicle 999999')
        equal(page.text('#found'), 'there is no “vehicle 999999”', 'no such vehicle')

    def the_map_stays_in_sight(self):
        """Where the way of a vehicle is read, which the map has moved to."""
        page, told = self.page, Told(self.path('sioux_falls'))
        self.open_run('sioux_falls')
        page.resize(1400, 900)
        page.click('#worst-link')
        for _ in range(6):
            page.click('#nearer')
        row, links, _ = max(told.agents(), key=lambda one: len(one[1]))
        self.typed('#find', f'vehicle {row["agent_id"]}')
        for link in (links[0], links[-1]):
            self.check_in_sight(link)
        page.run('document.querySelector("#trips table").scrollIntoView({block: "end"})')
        page.settle()
        top, bottom, bar = page.run(
            'const map = document.querySelector(".map canvas").getBoundingClientRect();'
            'const bar = document.querySelector("#bar").getBoundingClientRect();'
            'return [map.top, map.bottom, bar.bottom]'
        )
        check(bar <= top and bottom <= 900, f'the map is at {top} to {bottom}, the bar to {bar}')
        page.click('#worst-link')
        top, bar = page.run(
            'return ["#link", "#bar"].map((one) => document.querySelector(one)'
            '.getBoundingClientRect()[one === "#bar" ? "bottom" : "top"])'
        )
        check(bar <= top < 700, f'the picked link is at {top}, the bar ends at {bar}')

    def folders_and_sweeps_get_a_sentence(self):
        page, names = self.page, ['sioux_falls', 'two_routes', 'busy']
        page.open()
        page.drop([self.path(name) for name in names])
        page.wait_for_runs(names[:2])
        said = 'The page shows two runs at once: sioux_falls and two_routes. Not opened: busy.'
        check(said in page.text('#messages'), page.text('#messages'))
        page.open()
        page.drop([self.path('sweep')])
        page.wait_for_runs(['sweep ×0.5'])
        for place, scale in enumerate(('×0.5', '×1.6')):
            page.choose('.scenario', str(place))
            page.wait_for_runs([f'sweep {scale}'])
            check_totals(page, Told(self.scenario(place)))
            check('sweep.txt has 2 scenarios' in page.text('#messages'), 'the scenarios')
            with open(os.path.join(self.path('sweep'), 'words.txt'), encoding='utf-8') as notes:
                words, note = notes.read().splitlines()
            made = f'dta {note.split()[1]}: {words}'
            equal(page.rows('#totals')[0], ['Made by', made], 'how the sweep was made')
        page.drop([self.path('sweep')])
        page.wait_for_runs(['sweep ×1.6', 'sweep ×0.5'])
        check_totals(page, Told(self.scenario(0)), 2)

    def scenario(self, place):
        """A folder with the tables of a scenario of the sweep."""
        folder = os.path.join(self.folder, f'scenario_{place}')
        shutil.rmtree(folder, ignore_errors=True)
        shutil.copytree(self.path('sweep'), folder)
        with open(os.path.join(folder, 'sweep.txt'), encoding='utf-8') as text:
            part = re.split(r'^scenario .*\n', text.read(), flags=re.M)[place + 1]
        times, waits = (f'link_id,from_step,to_step,{one},' for one in ('entered', 'departed'))
        heads = ('agent_id', times, waits, 'iteration,', 'nodes ')
        begins = [part.index(head) for head in heads]
        names = ('agent', 'link_performance', 'origin_wait', 'gap')
        for name, begin, end in zip(names, begins, begins[1:]):
            with open(os.path.join(folder, f'{name}.csv'), 'w', encoding='utf-8') as table:
                table.write(part[begin:end])
        return folder

    def paper_and_wide_screens(self):
        """Paper has the time, the units and round nodes, and a wide screen has a larger map."""
        page = self.page
        self.open_run('steps_of_10')
        page.choose('#slider', 330)
        size = 'const map = document.querySelector(".map canvas");'
        page.resize(2400, 1400)
        wide, high = page.run(size + 'return [map.clientWidth, map.clientHeight]')
        check(wide > 1700 and high > 800, f'the map of a wide screen is {wide} by {high}')
        page.driver.execute_cdp_cmd('Emulation.setEmulatedMedia', {'media': 'print'})
        form = page.run(
            size + 'return map.clientWidth / map.clientHeight * map.height / map.width'
        )
        words, table = page.text('#print-words'), page.text('[data-table=links] table')
        charts = page.run(
            'return [...document.querySelectorAll(".chart")].map((one) =>'
            ' one.clientWidth / one.clientHeight * one.height / one.width)'
        )
        page.driver.execute_cdp_cmd('Emulation.setEmulatedMedia', {'media': ''})
        page.resize(1400, 1000)
        hidden = page.run(
            'const box = document.querySelector("[data-table=links] .scroll");'
            'return box.scrollWidth - box.clientWidth'
        )
        equal(hidden, 0, 'what a screen of 1,400 hides of the most delayed links')
        check(all(abs(one - 1) < 0.02 for one in (form, *charts)), f'stretched: {form} {charts}')
        check('00:55:00' in words and 'steps of 10 s' in words, f'on paper: {words}')
        worst = Told(self.path('steps_of_10'), seconds=10).most_delayed()
        equal(table.splitlines()[1].split()[0], worst, 'the first link of the table on paper')

    def projected_coordinates_are_told(self):
        for name, is_told in (('sioux_falls', True), ('country', False)):
            page = self.page
            self.open_run(name)
            page.run('document.querySelectorAll(".out")[2].click()')
            path = os.path.join(self.folder, f'links_run_{name}.geojson')
            page.wait(lambda path=path: os.path.exists(path) and os.path.getsize(path), path)
            with open(path, encoding='utf-8') as text:
                note = json.load(text).get('note', '')
            equal('they are no degrees' in note, is_told, f'the note of {name}')
            equal('they are no degrees' in page.text('#messages'), is_told, f'the page of {name}')
