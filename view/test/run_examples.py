"""Real runs of the example networks, made by the built program in a folder of their own."""
import os
import shutil
import subprocess

import made_network

TOP = os.path.dirname(os.path.dirname(os.path.dirname(os.path.abspath(__file__))))


def run(program, words, tables, folder, change=None):
    """Copies a folder's tables, changes them, and runs the program on them: its report."""
    shutil.copytree(tables, folder)
    if change is not None:
        change(folder)
    done = subprocess.run(
        [program, *words], cwd=folder, capture_output=True, text=True, check=False
    )
    if done.returncode != 0:
        raise SystemExit(
            f'{program} ended with {done.returncode} on {tables}: {done.stdout}{done.stderr}'
        )
    return dict(line.split(' ') for line in done.stdout.splitlines())


def halve_capacity(link):
    """A change of a folder's tables: one link's capacity is halved."""

    def change(folder):
        path = os.path.join(folder, 'link.csv')
        with open(path, encoding='utf-8') as table:
            lines = table.read().splitlines()
        place = lines[0].split(',').index('capacity')
        for at, line in enumerate(lines):
            fields = line.split(',')
            if fields[0] == link:
                fields[place] = str(float(fields[place]) / 2)
                lines[at] = ','.join(fields)
        with open(path, 'w', encoding='utf-8') as table:
            table.write('\n'.join(lines) + '\n')

    return change


def make_all(program, folder):
    """The runs that the test looks at, by name: their folders and their reports."""

    def made(name, words, example, change=None):
        path = os.path.join(folder, name)
        return path, run(program, words, os.path.join(TOP, 'examples', example), path, change)

    def made_by_words(name, example, text=None):
        """By the words of words.txt of the folder, which are these where some are given."""
        folder = os.path.join(TOP, 'examples', example)
        if text is None:
            with open(os.path.join(folder, 'words.txt'), encoding='utf-8') as words:
                text = words.read()

        def write(path):
            with open(os.path.join(path, 'words.txt'), 'w', encoding='utf-8') as words:
                words.write(text)

        return made(name, text.split(), example, write)

    def made_by(make, name):
        """Of a made network, by its own words."""
        tables, path = os.path.join(folder, f'tables_of_{name}'), os.path.join(folder, name)
        make(tables)
        with open(os.path.join(tables, 'words.txt'), encoding='utf-8') as words:
            return path, run(program, words.read().split(), tables, path)

    def limit_turns(path):
        """One turn lets 120 vehicles an hour through, and one nobody."""
        with open(os.path.join(path, 'movement.csv'), 'w', encoding='utf-8') as table:
            table.write('node_id,ib_link_id,ob_link_id,penalty,capacity,capacity_by_step\n')
            table.write('3,13,34,0,120,\n3,13,35,6,,0:600;60:none\n3,23,34,0,,0:0\n')

    short = ['assign', '--period', '1', '--horizon', '60', '--iterations', '2']
    long = ['assign', '--iterations', '20']
    return {
        'two_routes': made('two_routes', short, 'two_routes'),
        'sioux_falls': made('sioux_falls', long, 'sioux_falls'),
        'morning_peak': made(
            'morning_peak',
            ['assign', '--period', '900', '--horizon', '1500', '--bucket', '150'],
            'morning_peak',
        ),
        'by_trips': made('by_trips', [*long, '--costs', 'trips'], 'sioux_falls'),
        'half_of_link_48': made('half_of_link_48', long, 'sioux_falls', halve_capacity('48')),
        'town': made_by(made_network.town, 'town'),
        'country': made_by(made_network.country, 'country'),
        'limited': made(
            'limited', ['assign', '--period', '60', '--horizon', '200'], 'turns', limit_turns
        ),
        'sweep': made(
            'sweep',
            ['sweep', '--scales', '0.5;1.6', '--queue', 'spatial', '--costs', 'trips'],
            'roundabout',
        ),
        'busy': made_by_words('busy', 'many_scenarios/scenarios/busy'),
        'steps_of_10': made_by_words(
            'steps_of_10',
            'sioux_falls',
            'assign --step 10 --period=360 --horizon 720 --iterations 5',
        ),
    }
