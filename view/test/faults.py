"""Files that aren't what the page needs, and the sentence that it must say of each."""
import os
import shutil

NODES = 'node_id,zone_id\n1,1\n2,\n3,3\n'
LINKS = 'link_id,from_node_id,to_node_id,length,free_speed\n20,1,2,1000,60\n30,2,3,1000,60\n'
TIMES = (
    'link_id,from_step,to_step,entered,travel_steps,free_steps\n'
    '20,0,50,1,10,10\n20,50,60,0,10,10\n30,0,50,1,10,10\n30,50,60,0,10,10\n'
)
AGENTS = (
    'agent_id,o_zone_id,d_zone_id,departure_step,arrival_step,status,link_ids,entry_steps\n'
    '0,1,3,0,20,arrived,20;30,0;10\n'
)

# A small good run: by its free-flow steps a step has 6 or 7 seconds.
MADE_RUN = {
    'link.csv': 'link_id,from_node_id,to_node_id,length\n20,1,2,500\n30,2,3,500\n',
    'link_performance.csv': TIMES.replace('10,10', '6,6'),
    'agent.csv': AGENTS.replace('0,20,arrived,20;30,0;10', '0,12,arrived,20;30,0;6'),
}
IN_KILOMETRES = 'link_id,from_node_id,to_node_id,length\n20,1,2,0.3125\n30,2,3,0.31\n'

SKIM = 'o_zone_id,d_zone_id,start_step,least_steps\n1,3,0,20\n3,1,0,\n'
COUNTS = (
    'kind,first,second,from_step,to_step,vehicles\n' 'turn,20,30,0,50,7\n' 'through,1,3,0,60,7\n'
)

# Lengths and lanes that aren't whole.
ODD_NETWORK = {
    'link.csv': 'link_id,from_node_id,to_node_id,length,lanes\n'
    '1,1,2,0.1239,1.5\n2,2,3,1.0e-1,\n3,3,1,2,.1\n4,1,3,0,100\n',
    'agent.csv': None,
    'link_performance.csv': None,
}

# A run that has all that the checks look for, and what they must say.
TO_CHECK = {
    'link.csv': 'link_id,from_node_id,to_node_id,length,free_speed,capacity\n'
    '20,1,2,1000,60,1800\n30,2,3,1000,60,0\n40,2,3,10,60,1800\n',
    'link_performance.csv': 'link_id,from_step,to_step,entered,travel_steps,free_steps\n'
    '20,0,60,12,40,10\n30,0,60,0,10,10\n40,0,60,1,1,1\n',
    'agent.csv': AGENTS.split('\n')[0]
    + '\n0,1,3,0,11,arrived,20;40,0;10\n'
    + ''.join(f'{number},1,3,5,,running,20;30,5\n' for number in range(1, 12))
    + '12,1,3,6,,waiting,20;40,\n13,3,99,7,,unrouted,,\n14,3,1,7,,unrouted,,\n',
    'demand.csv': 'o_zone_id,d_zone_id,volume\n1,3,13\n3,99,1\n3,1,1.9\n',
}
CHECKS = {
    'zones': 'look: 1 zones of demand.csv have no node: 99. Their vehicles have no way.',
    'ways': 'look: 2 pairs of zones have no way, with 2 vehicles: 3 → 99, 3 → 1.',
    'closed': 'look: 1 of 3 (33.3 %) links have a capacity of 0 for all time, and routes may lead '
    'there all the same. 11 vehicles stand before them at the end, and would with any horizon and '
    'any queue. Leave them out of link.csv, and their turns out of movement.csv.',
    'short': 'look: 1 of 3 (33.3 %) links take one step at free flow: their times are rounded up '
    'most.',
    'small': 'look: 1 of 3 (33.3 %) links store fewer than three vehicles: with a spatial queue '
    'they let little through.',
    'departures': 'look: Most vehicles leave in step 5, at 00:00:30: 11 of 15 (73.3 %). 2 of 3 '
    '(66.7 %) rows of demand.csv are of less than two vehicles: a row’s only vehicle leaves in '
    'the middle of its window.',
    'unfinished': 'look: 12 of 13 (92.3 %) trips are unfinished at the horizon: 11 on links, 1 at '
    'their origins.',
    'twice': 'fine: No vehicle uses a link twice.',
    'again': 'fine: No vehicle passes its origin again.',
    'jam': 'look: Links are blocked from 00:02:36 on. The jam begins at 1 of them. With the '
    'vehicle-hours that are lost there and behind: 20 (00:02:36, 0.8).',
}

# Vehicles that go round: over a link twice, and past their origin.
GOES_ROUND = {
    'link.csv': 'link_id,from_node_id,to_node_id,length,free_speed\n'
    '20,1,2,1000,60\n30,2,3,1000,60\n40,2,1,1000,60\n50,2,2,1000,60\n',
    'link_performance.csv': None,
    'agent.csv': AGENTS.split('\n')[0]
    + '\n0,1,3,0,50,arrived,20;50;50;30,0;10;20;30\n1,1,3,0,40,arrived,20;40;20;30,0;10;20;30\n'
    '2,1,3,0,20,arrived,20;30,0;10\n',
}
ROUND_CHECKS = {
    'twice': 'look: 2 vehicles use a link twice: 0, 1. Routes by link times do so where a mean '
    'time falls; routes by whole trips (--costs trips) don’t.',
    'again': 'look: 1 vehicle passes its origin again: 1. Who comes back goes before those who '
    'wait there. A movement.csv without turning back keeps most from it.',
}

# The origin waits of the small good run, and the words by which it has them.
WAITS = 'link_id,from_step,to_step,departed,wait_steps\n20,0,50,1,0\n'
BY_TRIPS = 'assign --horizon 60 --costs trips\n'

# Name, the files that differ from a good run (None: not there), and what must be said.
CASES = [
    (
        'a_missing_column',
        {'link.csv': LINKS.replace('length', 'miles')},
        'link.csv, line 1: the column length is missing.',
    ),
    (
        'an_unknown_node',
        {'link.csv': LINKS.replace('30,2,3', '30,2,99')},
        'link.csv, line 3: to_node_id 99 isn\'t in node.csv.',
    ),
    (
        'agents_of_another_network',
        {'agent.csv': AGENTS.replace('20;30', '20;77')},
        'agent.csv, line 2: link 77 isn\'t in link.csv. The table seems to be one of another run.',
    ),
    (
        'agents_of_another_run',
        {'agent.csv': AGENTS.replace('20;30,0;10', '30,0')},
        'link_performance.csv, line 2: 1 vehicles entered link 20, but in agent.csv it is 0: '
        'one of the tables is of another run.',
    ),
    (
        'agents_of_a_longer_run',
        {'agent.csv': AGENTS.replace('0,20,arrived', '0,70,arrived')},
        'agent.csv has a step 70, but link_performance.csv ends at step 60',
    ),
    (
        'waits_of_another_run',
        {'origin_wait.csv': WAITS.replace('1,0', '1,4'), 'words.txt': BY_TRIPS},
        'origin_wait.csv, line 2: link 20: 1 vehicles departed for it and waited 4 steps in the '
        'mean, but in agent.csv 1 vehicles departed for it and waited 0 steps in the mean: one of '
        'the tables is of another run. The origin waits are left out.',
    ),
    (
        'waits_that_miss_a_line',
        {'origin_wait.csv': WAITS.split('20,')[0], 'words.txt': BY_TRIPS},
        'origin_wait.csv has no line for link 20 and step 0, but in agent.csv a vehicle departs '
        'for it then: one of the tables is of another run. The origin waits are left out.',
    ),
    (
        'waits_of_another_network',
        {'origin_wait.csv': WAITS.replace('20,0', '21,0'), 'agent.csv': None},
        'origin_wait.csv, line 2: link 21 isn\'t in link.csv. The table seems to be one of another '
        'run.',
    ),
    (
        'times_of_another_network',
        {'link_performance.csv': TIMES.replace('30,', '31,')},
        'link_performance.csv, line 4: link 31 isn\'t in link.csv. '
        'The table seems to be one of another run.',
    ),
    (
        'times_cut_off',
        {'link_performance.csv': TIMES[: -len('30,50,60,0,10,10\n')]},
        'link_performance.csv, line 4: the table ends after 3 rows, '
        'but the links of link.csv need 4',
    ),
    ('an_empty_table', {'link.csv': ''}, 'link.csv, line 1: the file is empty.'),
    (
        'a_short_record',
        {'node.csv': 'node_id,zone_id\n1,1\n2\n'},
        'node.csv, line 3: there are 1 fields, but the header has 2.',
    ),
    (
        'a_word_for_a_number',
        {'link.csv': LINKS.replace('30,2,3,1000', '30,2,3,long')},
        'link.csv, line 3: length "long" isn\'t a number of 0 or more.',
    ),
    (
        'a_wrong_status',
        {'agent.csv': AGENTS.replace('arrived,', 'flying,')},
        'agent.csv, line 2: status "flying" is none of arrived, running, waiting, unrouted.',
    ),
    ('no_links', {'link.csv': None}, 'but no link.csv. Choose the folder of a run'),
    (
        'a_foreign_table',
        {'weather.csv': 'day,rain\n1,2\n'},
        'weather.csv, line 1: these are the columns of none of the tables that this page reads',
    ),
    ('no_coordinates', {}, 'node.csv has no coordinates'),
    (
        'no_node_table',
        {'node.csv': None},
        'There is no node.csv: the nodes are those that link.csv names.',
    ),
    (
        'a_network_alone',
        {'agent.csv': None, 'link_performance.csv': None},
        'There are no link times of a loading and no vehicles',
    ),
    (
        'no_tables_at_all',
        {'node.csv': None, 'link.csv': None, 'agent.csv': None, 'link_performance.csv': None},
        'The folder no_tables_at_all has no tables',
    ),
]


def make(folder, name, changes):
    """A folder of a small good run with some files changed."""
    path = os.path.join(folder, name)
    shutil.rmtree(path, ignore_errors=True)
    os.makedirs(path)
    files = {
        'node.csv': NODES,
        'link.csv': LINKS,
        'link_performance.csv': TIMES,
        'agent.csv': AGENTS,
        **changes,
    }
    for file, text in files.items():
        if text is not None:
            with open(os.path.join(path, file), 'w', encoding='utf-8') as out:
                out.write(text)
    return path
