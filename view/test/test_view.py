#!/usr/bin/python3
"""test_view.py [--program PATH] [--pictures FOLDER] [--only TESTS] [--without-large]

Tries the page view/index.html in a browser. It runs the examples by the program (this
repository's script `dta`, or PATH), makes the tables of a large run, drops the folders on the page
in a headless Chromium, and compares what the page shows with the tables. The pictures of
docs/pictures go to FOLDER. It ends with 1 where a number differs, a fault isn't told, or the page
has an error.

It needs Debian's packages, and Debian's own python3, which has selenium by them:

    apt-get update && apt-get install -y chromium chromium-driver python3-selenium gdal-bin
    view/test/test_view.py
"""
import argparse
import os
import sys
import tempfile
import time
import traceback

from selenium.webdriver.common.action_chains import ActionChains
from selenium.webdriver.common.keys import Keys

import big_run
import faults
import run_examples
from browser import Page
from checks import (
    check,
    check_classes,
    check_rankings,
    check_totals,
    check_worst,
    equal,
    facts,
    number,
)
from planner_tests import PlannerTests
from tables import Told
from week_tests import WeekTests


class Test(PlannerTests, WeekTests):
    def __init__(self, page, program, runs, folder, pictures):
        self.page, self.program, self.runs = page, program, runs
        self.folder, self.pictures = folder, pictures

    def path(self, name):
        return self.runs[name][0]

    def picture(self, selectors, name):
        path = os.path.join(self.pictures, name)
        self.page.picture_of(selectors, path)
        check(os.path.getsize(path) < 200_000, f'{name} has more than 200 kB')

    def open_run(self, name):
        self.page.open()
        self.page.resize(1400, 1000)
        self.page.drop([self.path(name)])
        self.page.wait_for_runs([name])

    def the_page_begins_with_a_word(self):
        check(
            'Drop the folder of a run here' in self.page.text('#welcome'), 'there is no welcome'
        )

    def a_run_is_shown(self):
        page, told = self.page, Told(self.path('sioux_falls'))
        self.open_run('sioux_falls')
        equal(page.text('#messages'), '', 'what is said of a good run')
        check_totals(page, told)
        report = self.runs['sioux_falls'][1]
        shown = {row[0]: row[1] for row in page.rows('#totals')}
        equal(int(number(shown['arrived'])), int(report['arrived']), 'who arrived')
        check_rankings(page, told)
        check_worst(page, told)

    def pictures_are_taken(self):
        page = self.page
        self.open_run('sioux_falls')
        page.resize(1280, 3000)
        page.click('#worst-time')
        self.picture(['#bar', '#stage'], 'worst_bucket.png')
        self.picture(['#curves'], 'curves.png')
        page.choose('#measure', 'waiting')
        self.picture(['#bar', '#stage'], 'waiting_at_origins.png')
        self.open_run('morning_peak')
        page.resize(1280, 1400)
        self.picture(['#curves > :nth-child(1)', '#curves > :nth-child(2)'], 'morning_peak.png')
        for name, measure in (('town', 'speed'), ('country', 'lost')):
            self.open_run(name)
            page.resize(900, 900)
            page.choose('#clock', '7:00')
            page.click('#worst-time')
            page.choose('#measure', measure)
            self.picture(['#bar', '.map', '#legend'], f'{name}.png')
            page.choose('#clock', '0:00')

    def two_runs_are_compared(self):
        page, names = self.page, ['sioux_falls', 'half_of_link_48']
        self.open_run(names[0])
        page.drop([self.path(names[1])])
        page.wait_for_runs(names)
        for column, name in enumerate(names, 1):
            check_totals(page, Told(self.path(name)), column)
        page.resize(1280, 3000)
        page.choose('#measure', 'delay')
        page.choose('#slider', 550)
        self.picture(['#bar', '#stage'], 'comparison.png')
        page.click('.run-box[data-box="0"] .close')
        page.wait_for_runs(names[1:])

    def keys_lead_through_a_run(self):
        page = self.page
        self.open_run('sioux_falls')
        for keys, step in (
            (Keys.ARROW_RIGHT, 50),
            (Keys.ARROW_RIGHT, 100),
            (Keys.ARROW_LEFT, 50),
            (Keys.END, 1199),
            (Keys.HOME, 0),
        ):
            page.keys(keys)
            equal(page.step(), step, f'the step after {keys!r}')
        ActionChains(page.driver).key_down(Keys.SHIFT).send_keys(Keys.ARROW_RIGHT).key_up(
            Keys.SHIFT
        ).perform()
        equal(page.step(), 1, 'the step after shift and right')
        page.keys(' ')
        time.sleep(1)
        page.keys(' ')
        check(page.step() > 20, 'space plays')
        page.keys('3')
        equal(page.find('#measure').get_attribute('value'), 'on', 'what key 3 chooses')
        page.keys('w')
        check(page.find('#link').is_displayed(), 'w picks the worst link')
        page.keys(Keys.HOME)
        page.run('document.querySelector(".map canvas").focus()')
        before = page.run('return Page.placeOf("52")')
        page.keys(Keys.ARROW_LEFT)
        equal(page.step(), 0, 'the step after an arrow on the map')
        check(
            page.run('return Page.placeOf("52")')[0] > before[0] + 50,
            'an arrow moves the map in focus',
        )
        self.every_control_is_reached()

    def every_control_is_reached(self):
        """By the tabulator alone, from the top of the page."""
        page = self.page
        page.run('document.activeElement.blur(); scrollTo(0, 0)')
        reached = set()
        for _ in range(100):
            page.keys_fast(Keys.TAB)
            reached.add(
                page.run('const one = document.activeElement; return one.id || one.className')
            )
        for name in (
            'play',
            'slider',
            'measure',
            'worst-time',
            'worst-link',
            'find',
            'nearer',
            'speed',
            'vehicles',
            'folder',
            'files',
            'close',
            'pick',
        ):
            check(name in reached, f'the tabulator doesn\'t reach {name}')

    def the_map_answers_the_mouse(self):
        page = self.page
        self.open_run('two_routes')
        check('has no coordinates' in page.text('#messages'), 'the made-up places are told')
        canvas = page.find('.map canvas')
        x, y = page.run('return Page.placeOf("30")')
        move = ActionChains(page.driver).move_to_element_with_offset(
            canvas, x - canvas.size['width'] // 2, y - canvas.size['height'] // 2
        )
        move.perform()
        page.wait(lambda: 'Link 30' in page.text('#hint'), 'the hint of link 30')
        ActionChains(page.driver).click().perform()
        page.wait(lambda: page.text('#link h2') == 'Link 30', 'the panel of link 30')

    def files_are_chosen_one_by_one(self):
        page, folder = self.page, self.path('two_routes')
        page.open()
        page.find('.run-box[data-box="0"] .files').send_keys(
            '\n'.join(os.path.join(folder, name) for name in ('node.csv', 'link.csv'))
        )
        page.wait_for_runs(['chosen files'])
        check('the network alone' in page.text('#messages'), 'what is missing is told')
        check('no results yet' in page.text('#legend'), 'the legend of a network alone')
        page.drop(
            [
                os.path.join(folder, name)
                for name in ('agent.csv', 'link_performance.csv', 'gap.csv')
            ]
        )
        page.wait(
            lambda: 'Vehicle-hours lost on links' in page.text('#totals'), 'the added files'
        )
        check_totals(page, Told(folder))

    def folders_are_chosen(self):
        """By the buttons, and both at once by a drop."""
        page, names = self.page, ['sioux_falls', 'two_routes']
        page.open()
        for box, name in enumerate(names):
            page.find(f'.run-box[data-box="{box}"] .folder').send_keys(self.path(name))
        page.wait_for_runs(names)
        check_totals(page, Told(self.path(names[1])), 2)
        page.open()
        page.drop([self.path(name) for name in names])
        page.wait_for_runs(names)
        check_totals(page, Told(self.path(names[0])), 1)

    def a_small_window_holds_all(self):
        page = self.page
        self.open_run('sioux_falls')
        page.resize(390, 800)
        page.click('#worst-link')
        wide = page.run('return document.documentElement.scrollWidth')
        check(wide <= 390, f'the page is {wide} wide in a window of 390')
        for link in ('1', '76'):
            x = page.run('return Page.placeOf(arguments[0])[0]', link)
            check(0 < x < 390, f'link {link} is out of the small window\'s map')
        page.run('scrollTo(0, 0)')
        page.driver.save_screenshot(os.path.join(self.folder, 'small_window.png'))

    def tables_are_saved(self):
        page, told = self.page, Told(self.path('sioux_falls'))
        self.open_run('sioux_falls')
        page.click('[data-table=links] > button')
        page.click('.map figcaption button')
        for name in ('links_sioux_falls.csv', 'map_sioux_falls.png'):
            path = os.path.join(self.folder, name)
            page.wait(
                lambda path=path: os.path.exists(path) and os.path.getsize(path) > 0,
                f'the file {name}',
            )
        with open(os.path.join(self.folder, 'links_sioux_falls.csv'), encoding='utf-8') as table:
            lines = table.read().splitlines()
        equal(len(lines), 11, 'the lines of the saved table')
        equal(lines[1].split(',')[0], told.most_delayed(), 'its first link')

    def faults_are_told(self):
        page = self.page
        for name, changes, words in faults.CASES:
            page.open()
            page.drop([faults.make(self.folder, name, changes)])
            page.wait(
                lambda words=words: words in page.text('#messages'), f'{name}: "{words}"', 10
            )
            check(
                page.find('#welcome').is_displayed() or page.find('#shown').is_displayed(),
                f'{name}: a blank page',
            )

    def storage_is_the_program_s(self):
        """What the page computes from a network alone is what `dta freeflow` writes of it."""
        page, unit, jam = self.page, 'mi', '137'
        alone = faults.make(self.folder, 'alone', faults.ODD_NETWORK)
        path = os.path.join(self.folder, 'free')
        words = ['freeflow', '--length-unit', unit, '--jam', jam]
        run_examples.run(self.program, words, alone, path)
        page.open()
        page.drop([alone])
        page.wait_for_runs(['alone'])
        page.drop([path])
        page.wait_for_runs(['alone', 'free'])
        page.choose('[data-run=alone] .unit', unit)
        page.choose('[data-run=alone] .jam', jam)
        for link in ('1', '2', '3', '4'):
            page.choose('#find', link)
            told = page.run(
                'return [...document.querySelectorAll("#link dl")].map((box) =>'
                ' box.innerText.split("stores")[1].trim())'
            )
            equal(told[0], told[1], f'the storage of link {link}')

    def skims_and_counts_are_shown(self):
        page = self.page
        page.open()
        page.drop(
            [
                faults.make(
                    self.folder,
                    'skims_and_counts',
                    {
                        'skim.csv': faults.SKIM,
                        'counts.csv': faults.COUNTS,
                    },
                )
            ]
        )
        page.wait_for_runs(['skims_and_counts'])
        equal(page.rows('[data-table=skim]'), [['1 → 3', '00:00', '20', '2.0']], 'the skim')
        page.run('document.querySelector("#from-zone").value = "1"')
        page.run('document.querySelector("#to-zone").value = "3"')
        page.click('#routes')
        said = 'The shortest path by skim.csv: 2.0 min at 00:00.'
        check(said in page.text('#trips'), 'the least time of a pair')
        equal(page.rows('[data-table=turn]'), [['20', '30', '00:00 to 00:05', '7']], 'the turns')
        equal(page.rows('[data-table=through]'), [['1', '3', '00:00 to 00:06', '7']], 'the pairs')
        page.choose('#find', '20')
        turn = '7 vehicles from 00:00 to 00:05: 84 an hour'
        equal(facts(page)['turn to 30'], turn, 'the turn in the panel')

    def a_large_run_is_fast(self):
        """By processor time, since other work on the machine slows the clock alone."""
        page, folder = self.page, os.path.join(self.folder, 'large')
        big_run.make(folder)
        page.open()
        page.resize(1400, 1000)
        before, begin = page.processor_seconds(), time.time()
        page.drop([folder])
        page.wait_for_runs(['large'], 300)
        opened, clock = page.processor_seconds() - before, time.time() - begin
        costs = {measure: self.picture_cost(measure) for measure in ('delay', 'on', 'storage')}
        size = os.path.getsize(os.path.join(folder, 'agent.csv')) / 1e6
        print(
            f'    an agent table of {size:.0f} MB: open after {opened:.1f} s of the processor, '
            f'{clock:.1f} s by the clock; milliseconds of the processor for a picture: '
            + ', '.join(f'{1000 * cost:.0f} by {measure}' for measure, cost in costs.items()),
            flush=True,
        )
        self.check_large(Told(folder))
        check(opened < 15, 'it takes more than 15 s of the processor to open')
        check(max(costs.values()) <= 1 / 15, 'a picture takes more than a fifteenth of a second')

    def check_large(self, told):
        """The numbers of all that a planner asks, on the large run."""
        page, worst = self.page, str(big_run.WORST_LINK)
        check_totals(page, told)
        check_rankings(page, told)
        equal(told.most_delayed(), worst, 'the worst link that was made')
        check_worst(page, told)
        page.choose('#slider', 612)
        for measure in ('flow', 'load', 'speed', 'minutes', 'delay'):
            check_classes(page, told, measure)
        self.check_thinned(told)
        self.check_found(told, worst)
        self.check_scale(told, '1', '39998')
        self.check_moves('1', '39998')
        self.check_over(told, worst)
        self.check_routes(told, *map(str, big_run.PAIR))
        self.check_vehicles(told)
        self.check_the_checks(told, 'large')
        self.check_out('large', told)

    def picture_cost(self, measure):
        """Seconds of the processor that the thread that draws takes for a picture."""
        page = self.page
        page.choose('#measure', measure)
        page.choose('#slider', 300)
        page.click('#play')
        before, begin = page.pictures(), page.processor_seconds('ThreadTime')
        page.wait(lambda: page.pictures() >= before + 40, '40 pictures')
        cost = (page.processor_seconds('ThreadTime') - begin) / (page.pictures() - before)
        page.click('#play')
        return cost


TESTS = [
    'the_page_begins_with_a_word',
    'a_run_is_shown',
    'pictures_are_taken',
    'two_runs_are_compared',
    'keys_lead_through_a_run',
    'the_map_answers_the_mouse',
    'files_are_chosen_one_by_one',
    'folders_are_chosen',
    'a_small_window_holds_all',
    'tables_are_saved',
    'faults_are_told',
    'storage_is_the_program_s',
    'skims_and_counts_are_shown',
    'blocked_links_are_seen',
    'labels_name_what_loses_most',
    'finding_moves_the_map',
    'each_run_has_its_own_units',
    'measures_have_units',
    'trips_over_a_link',
    'routes_and_one_vehicle',
    'checks_are_told',
    'things_are_found',
    'links_go_out',
    'widths_tell_importance',
    'a_run_says_how_it_was_made',
    'trips_tell_who_is_counted',
    'waits_at_origins_are_told',
    'turns_that_bind_are_seen',
    'fields_answer_enter',
    'the_map_stays_in_sight',
    'folders_and_sweeps_get_a_sentence',
    'paper_and_wide_screens',
    'projected_coordinates_are_told',
    'a_large_run_is_fast',
]


def main():
    words = argparse.ArgumentParser(
        description=__doc__, formatter_class=argparse.RawDescriptionHelpFormatter
    )
    words.add_argument('--program', default=os.path.join(run_examples.TOP, 'dta'))
    words.add_argument('--pictures')
    words.add_argument('--only')
    words.add_argument('--without-large', action='store_true')
    chosen = words.parse_args()
    folder = tempfile.mkdtemp(prefix='view_test_')
    pictures = chosen.pictures or folder
    os.makedirs(pictures, exist_ok=True)
    program = os.path.abspath(chosen.program)
    runs = run_examples.make_all(program, folder)
    page = Page(folder)
    failed = 0
    for name in TESTS:
        if (
            chosen.only is not None
            and name not in chosen.only.split(',')
            or chosen.without_large
            and name == 'a_large_run_is_fast'
        ):
            continue
        begin = time.time()
        try:
            getattr(Test(page, program, runs, folder, pictures), name)()
            equal(page.errors(), [], 'errors in the console')
            print(f'ok      {name} ({time.time() - begin:.1f} s)', flush=True)
        except Exception:
            failed += 1
            page.errors()
            print(f'FAILED  {name}\n{traceback.format_exc()}', flush=True)
    page.close()
    print(f'{failed} failed; files and pictures are in {folder} and {pictures}')
    return 1 if failed > 0 else 0


if __name__ == '__main__':
    sys.exit(main())
