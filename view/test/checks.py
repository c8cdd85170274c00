"""What the page shows, compared with what the tables of the run tell."""
from selenium.webdriver.common.keys import Keys


def check(is_true, words):
    if not is_true:
        raise AssertionError(words)


def equal(shown, told, words):
    check(shown == told, f'{words}: the page shows {shown}, the tables tell {told}')


def number(text):
    return float(text.replace(',', '').strip('×'))


def near(shown, told, words):
    """The page rounds to a tenth."""
    check(
        abs(number(shown) - told) <= 0.0501,
        f'{words}: the page shows {shown}, the tables tell {told}',
    )


def check_totals(page, told, column=1):
    shown = {row[0]: row[column] for row in page.rows('#totals')}
    hours = told.seconds / 3600
    for name, value in (
        ('Links', len(told.links)),
        ('Nodes', len(told.nodes)),
        ('Vehicles', told.vehicles),
        ('arrived', told.statuses['arrived']),
        ('running at the end', told.statuses['running']),
        ('waiting at the end', told.statuses['waiting']),
        ('without a route', told.statuses['unrouted']),
    ):
        equal(int(number(shown[name])), value, name)
    near(shown['Vehicle-hours on links'], told.on_links * hours, 'vehicle-hours')
    near(
        shown['Vehicle-hours waiting at origins'], told.waited * hours, 'vehicle-hours of waiting'
    )
    near(shown['Vehicle-hours lost on links'], told.lost_by_visits * hours, 'vehicle-hours lost')
    near(
        shown['Vehicle-kilometres, of links that were left'],
        told.metres / 1000,
        'vehicle-kilometres',
    )


def facts(page):
    """What the panel of the picked link tells, by its names."""
    return dict(
        page.run(
            'return [...document.querySelectorAll("#link dt")].map((name) =>'
            ' [name.textContent, name.nextSibling.textContent])'
        )
    )


def facts_of(page, links):
    """What the panel would tell of some links."""
    told = page.run('return arguments[0].map((link) => Page.factsOf(link))', list(links))
    return dict(zip(links, map(dict, told)))


def classes(page):
    """The words of the legend's classes and how many links each has."""
    return page.run(
        'return [...document.querySelectorAll("#legend .class:not(#closed)")].map((one) =>'
        ' [one.querySelector(".bound").textContent,'
        '  Number(one.querySelector(".count").textContent.replaceAll(",", ""))])'
    )


def check_classes(page, told, measure):
    """How many links the legend counts in each class, at the step that is shown."""
    page.choose('#measure', measure)
    step, shown = page.step(), classes(page)
    bounds = [number(words.split()[1].strip('×')) for words, _ in shown if words[:3] == 'to ']
    bounds = [1, *bounds] if measure == 'delay' else sorted(bounds)
    counts = [0] * 9
    for link in told.links:
        value = told.value(measure, link, step)
        place = 0 if not value else 1 + sum(value > bound for bound in bounds)
        if measure == 'speed' and place > 0:
            place = len(bounds) + 2 - place
        is_timed = measure in ('delay', 'speed', 'minutes')
        counts[8 if is_timed and told.stood(link, step) is not None else place] += 1
    equal([count for _, count in shown], counts[: len(shown)], f'links by {measure} at {step}')


def labels(page):
    """What the map's labels say, as a link and words."""
    words = page.find('.map canvas').get_attribute('aria-description')
    return [label.removeprefix('link ').split('  ') for label in words.split('; ') if label]


def check_rankings(page, told):
    worst = told.most_delayed()
    first = page.rows('[data-table=links]')[0]
    equal(first[0], worst, 'the most delayed link')
    near(first[2], told.lost[worst] * told.seconds / 3600, 'what it loses')
    near(first[3], told.waits.get(worst, 0) * told.seconds / 3600, 'the waiting for it')
    near(first[4], told.worst[worst][0] / told.free[worst], 'its greatest delay')
    near(first[5], told.worst[worst][0] * told.seconds / 60, 'its greatest minutes')
    equal(first[6], told.clock(told.worst[worst][1]), 'when these begin')
    near(first[7], told.minutes(len(told.blocked(worst))), 'the minutes of blocking')
    page.choose('[data-table=links] select', 'waiting')
    longest = max(told.waits, key=lambda link: told.waits[link])
    equal(page.rows('[data-table=links]')[0][0], longest, 'the link that is waited for most')
    page.choose('[data-table=links] select', 'lost')
    near(
        page.rows('[data-table=trips]')[0][3],
        told.longest * told.seconds / 60,
        'the longest trip',
    )


def check_worst(page, told):
    """The buttons lead to the worst bucket and the worst link, whose panel tells its vehicles."""
    page.click('#worst-time')
    equal(page.step(), told.worst_time(), 'the worst time')
    page.click('#worst-link')
    worst = told.most_delayed()
    equal(page.text('#link h2'), f'Link {worst}', 'the picked link')
    equal(page.step(), told.costliest_time(worst), 'its worst time')
    on_it = page.text('#link dl').split('on it')[1].split()[0]
    equal(int(number(on_it)), told.on_link(worst, page.step()), 'the vehicles on it')
    page.keys(Keys.ESCAPE)
    check(not page.find('#link').is_displayed(), 'Escape closes the link')


def share(count, whole):
    return f'{count:,} of {whole:,} ({100 * count / whole:.1f} %)'


def named(names):
    """The first eight, and how many more there are."""
    more = f' and {len(names) - 8:,} more' if len(names) > 8 else ''
    return ', '.join(names[:8]) + more


def sentences(told):
    """What the list of checks says: whether there is something to look at, and how it begins."""
    links, statuses = len(told.links), told.statuses
    homeless, volumes = told.homeless(), told.volumes()
    pairs = [' → '.join(pair) for pair, _ in told.no_way.most_common()]
    closed = sum(told.capacity(link) == 0 for link in told.links)
    short = sum(steps == 1 for steps in told.free.values())
    small = sum(told.storage(link) < 3 for link in told.links)
    step, most = max(told.departures.items(), key=lambda one: (one[1], -one[0]))
    tiny, left = sum(one < 2 for one in volumes), statuses['running'] + statuses['waiting']
    twice, again = told.round_trips()
    return {
        'zones': (homeless, (
            f'{len(homeless):,} zones of demand.csv have no node: {named(homeless)}.'
            if homeless else 'All zones of demand.csv have a node.'
        )),
        'ways': (pairs, (
            f'{len(pairs):,} pairs of zones have no way, with {told.no_way.total():,} vehicles: '
            f'{named(pairs)}.' if pairs else 'All pairs of zones have a way.'
        )),
        'closed': (closed, (
            f'{share(closed, links)} links have a capacity of 0'
            if closed else 'All links have a capacity.'
        )),
        'short': (short, f'{share(short, links)} links take one step at free flow'),
        'small': (small, f'{share(small, links)} links store fewer than three vehicles'),
        'departures': (most >= max(10, told.vehicles / 20), (
            f'Most vehicles leave in step {step}, at {told.instant(step)}: '
            f'{share(most, told.vehicles)}.'
            + (f' {share(tiny, len(volumes))} rows of demand.csv are of less' if tiny else '')
        )),
        'unfinished': (left, (
            f'{share(left, left + statuses["arrived"])} trips are unfinished at the horizon: '
            f'{statuses["running"]:,} on links, {statuses["waiting"]:,} at their origins.'
            if left else 'All vehicles that have a way arrive.'
        )),
        'twice': (twice, (
            f'{plural(twice, "uses", "use")} a link twice: {named(twice)}.'
            if twice else 'No vehicle uses a link twice.'
        )),
        'again': (again, (
            f'{plural(again, "passes its", "pass their")} origin again: {named(again)}.'
            if again else 'No vehicle passes its origin again.'
        )),
        'jam': jam_sentence(told),
    }


def plural(vehicles, one, several):
    count = len(vehicles)
    return f'1 vehicle {one}' if count == 1 else f'{count:,} vehicles {several}'


def jam_sentence(told):
    starts, blocked = told.jam_starts()
    if not blocked:
        return False, 'No link is blocked; queues move wherever there are any.'
    first = sorted(blocked.items(), key=lambda one: one[1])
    begin = f'Links are blocked from {told.instant(first[0][1])} on. '
    if not starts:
        names = [f'{link} ({told.instant(step)})' for link, step in first]
        return True, f'{begin}They wait for each other: {named(names)}.'
    ranked = sorted(starts, key=lambda link: (-round(starts[link], 6), blocked[link]))
    names = [f'{link} ({told.instant(blocked[link])}, {starts[link]:.1f})' for link in ranked]
    return True, (
        f'{begin}The jam begins at {len(starts):,} of them. With the vehicle-hours that are lost '
        f'there and behind: {named(names)}.'
    )
