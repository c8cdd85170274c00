'use strict';
// What a planner should look at before trusting a run, from its tables alone.
const Checks = (() => {
    // Sentences with what they are of: a list of { id, isFine, words, links }.
    function ofRun(run) {
        return [
            zones(run), ways(run), closed(run), closedTurns(run), fullTurns(run), short(run),
            small(run), departures(run), unfinished(run), twice(run), again(run), jam(run)
        ].filter((found) => found !== null);
    }

    function check(id, isFine, words, links = []) {
        return {id, isFine, words, links};
    }

    // A list of names, of which the first ones are said.
    function named(names) {
        const most = 8, rest = names.length - most;
        return names.slice(0, most).join(', ') +
            (rest > 0 ? ` and ${Totals.format(rest)} more` : '');
    }

    function share(count, all) {
        const percent = all === 0 ? 0 : 100 * count / all;
        return `${Totals.format(count)} of ${Totals.format(all)} (${percent.toFixed(1)} %)`;
    }

    function zones(run) {
        if (run.demand === null) return null;
        const known = new Set(run.nodes.zones);
        const missing = run.demand.zones.filter((zone) => !known.has(zone));
        if (missing.length === 0)
            return check('zones', true, 'All zones of demand.csv have a node.');
        return check(
            'zones', false,
            `${Totals.format(missing.length)} zones of demand.csv have no node: ` +
                `${named(missing)}. Their vehicles have no way.`);
    }

    // By the vehicles without a route or, before a run, by the least times of a skim.
    function ways(run) {
        if (run.agents === null && run.skim === null) return null;
        const pairs = run.agents === null ?
            run.skim.filter(({least}) => least < 0) :
            Trips.pairs(run, agentsWith(run, 3)).map(({from, to, count}) => (
                {origin: from, destination: to, count}));
        const words = [...new Set(pairs.map((pair) => `${pair.origin} → ${pair.destination}`))];
        if (words.length === 0) return check('ways', true, 'All pairs of zones have a way.');
        const vehicles = run.agents === null ?
            '' :
            `, with ${Totals.format(run.sums.statuses[3])} vehicles`;
        return check(
            'ways', false,
            `${Totals.format(words.length)} pairs of zones have no way${vehicles}: ` +
                `${named(words)}.`);
    }

    function agentsWith(run, status) {
        const found = [];
        run.agents.status.forEach((one, agent) => {
            if (one === status) found.push(agent);
        });
        return found;
    }

    function linksWith(run, is) {
        const found = [];
        for (let link = 0; link < run.links.count; link += 1)
            if (is(link)) found.push(link);
        return found;
    }

    function closed(run) {
        const links = [...run.movements.closedLinks];
        if (links.length === 0) return check('closed', true, 'All links have a capacity.');
        return check(
            'closed', false,
            `${share(links.length, run.links.count)} links have a capacity of 0 for all time, ` +
                `and routes may lead there all the same.${standing(run, 'link')} Leave them out ` +
                'of link.csv, and their turns out of movement.csv.',
            links);
    }

    // Who stands before links or turns of a capacity of 0 at the end.
    function standing(run, kind) {
        const count = run.movements.standing()[kind];
        return count === 0 ? '' :
            ` ${Totals.format(count)} vehicles stand before them at the end, and would with any ` +
                'horizon and any queue.';
    }

    function closedTurns(run) {
        if (run.turns === null) return null;
        const {movements, turns} = run, closed = movements.closedTurns;
        if (closed.length === 0)
            return check('turns', true, 'All turns of movement.csv have a capacity.');
        return check(
            'turns', false,
            `${share(closed.length, turns.count)} turns of movement.csv have a capacity of 0 ` +
                `for all time: ${named(closed.map((turn) => movements.title(turn)))}.` +
                `${standing(run, 'turn')} Leave these rows out where others name their node.`,
            [...new Set(closed.map((turn) => turns.from[turn]))]);
    }

    // Turns that bind: full while vehicles lose time before them.
    function fullTurns(run) {
        if (run.turns === null || run.visits === null || !run.hasLoading) return null;
        const {movements, turns} = run, full = movements.full();
        if (full.length === 0)
            return check('full', true, 'No turn is full while vehicles lose time before it.');
        const words = full.map(
            ({turn, buckets}) =>
                `${movements.title(turn)} (${buckets} ${buckets === 1 ? 'bucket' : 'buckets'})`);
        return check(
            'full', false,
            `${share(full.length, turns.count)} turns of movement.csv are full in some bucket ` +
                `while vehicles lose time before them: ${named(words)}.`,
            [...new Set(full.map(({turn}) => turns.from[turn]))]);
    }

    function short(run) {
        if (run.times === null) return null;
        const links = linksWith(run, (link) => run.times.free[link] === 1);
        return check(
            'short', links.length === 0,
            `${share(links.length, run.links.count)} links take one step at free flow: ` +
                'their times are rounded up most.',
            links);
    }

    function small(run) {
        const links = linksWith(run, (link) => run.storage[link] < 3);
        return check(
            'small', links.length === 0,
            `${share(links.length, run.links.count)} links store fewer than three vehicles: ` +
                'with a spatial queue they let little through.',
            links);
    }

    // The step in which most vehicles depart, and how many.
    function busiest(run) {
        const counts = departed(run);
        const step = counts.reduce((most, count, at) => (count > counts[most] ? at : most), 0);
        return {step, count: counts[step]};
    }

    function departed(run) {
        const counts = new Int32Array(run.horizon);
        for (const step of run.agents.departure) counts[step] += 1;
        return counts;
    }

    function departures(run) {
        if (run.agents === null || run.agents.count === 0) return null;
        const {step, count} = busiest(run), all = run.agents.count;
        const rows = run.demand === null || run.demand.small === 0 ?
            '' :
            ` ${share(run.demand.small, run.demand.rows)} rows of demand.csv are of less than ` +
                'two vehicles: a row’s only vehicle leaves in the middle of its window.';
        return check(
            'departures', count < 10 || count < all / 20,
            `Most vehicles leave in step ${step}, at ${run.instant(step)}: ` +
                `${share(count, all)}.${rows}`);
    }

    function unfinished(run) {
        if (run.agents === null) return null;
        const [arrived, running, waiting] = run.sums.statuses;
        if (running + waiting === 0)
            return check('unfinished', true, 'All vehicles that have a way arrive.');
        return check(
            'unfinished', false,
            `${share(running + waiting, arrived + running + waiting)} trips are unfinished at ` +
                `the horizon: ${Totals.format(running)} on links, ${Totals.format(waiting)} ` +
                'at their origins.');
    }

    // Vehicles that have a link twice in their route, with the links.
    function twice(run) {
        if (run.agents === null) return null;
        const {linkStart, links} = run.agents, last = new Int32Array(run.links.count).fill(-1);
        const agents = [], found = new Set();
        for (let agent = 0; agent < run.agents.count; agent += 1) {
            for (let at = linkStart[agent]; at < linkStart[agent + 1]; at += 1) {
                if (last[links[at]] === agent) {
                    found.add(links[at]);
                    if (agents[agents.length - 1] !== agent) agents.push(agent);
                }
                last[links[at]] = agent;
            }
        }
        if (agents.length === 0)
            return check('twice', true, 'No vehicle uses a link twice.');
        return check(
            'twice', false,
            `${vehicles(agents, 'uses', 'use')} a link twice: ${agentNames(run, agents)}. ` +
                'Routes by link times do so where a mean time falls; routes by whole trips ' +
                '(--costs trips) don’t.',
            [...found]);
    }

    // Vehicles whose route comes back to the node where it begins, with its first links.
    function again(run) {
        if (run.agents === null) return null;
        const {linkStart, links} = run.agents, agents = [], found = new Set();
        for (let agent = 0; agent < run.agents.count; agent += 1) {
            const first = linkStart[agent], end = linkStart[agent + 1];
            if (first === end) continue;
            const begin = run.links.from[links[first]];
            for (let at = first; at < end; at += 1) {
                if (run.links.to[links[at]] !== begin) continue;
                agents.push(agent);
                found.add(links[first]);
                break;
            }
        }
        if (agents.length === 0)
            return check('again', true, 'No vehicle passes its origin again.');
        return check(
            'again', false,
            `${vehicles(agents, 'passes its', 'pass their')} origin again: ` +
                `${agentNames(run, agents)}. Who comes back goes before those who wait there. ` +
                'A movement.csv without turning back keeps most from it.',
            [...found]);
    }

    function vehicles(agents, one, several) {
        return `${Totals.format(agents.length)} ` +
            (agents.length === 1 ? `vehicle ${one}` : `vehicles ${several}`);
    }

    function agentNames(run, agents) {
        return named(agents.map((agent) => run.agentName(agent)));
    }

    // Where jams begin: links whose first vehicle, when they are blocked for the first time,
    // doesn't wait for a link that is blocked too; those with the most lost on them and on the
    // links that wait for them come first. Where there are none the links wait for each other.
    function jamStarts(run) {
        const {stands, movements} = run, found = new Map();
        for (let link = 0; link < run.links.count; link += 1) {
            const {visit} = stands.of(link);
            if (visit < 0) continue;
            const step = stands.blockedFrom(link, visit), next = movements.next(link, visit);
            const isHeld = next >= 0 && stands.at(next, stands.range(next, step), step) >= 0;
            found.set(link, {link, step, next: isHeld ? next : -1, lost: 0});
        }
        const all = [...found.values()].sort((one, other) => one.step - other.step);
        const free = all.filter(({next}) => next < 0);
        for (const one of all) {
            const begin = beginOf(one, found);
            begin.lost += run.hours(run.sumOverBuckets(one.link, run.lost));
        }
        return free.length > 0 ? free.sort((one, other) => other.lost - one.lost) : all;
    }

    // The link at which the jam begins that a link stands in, or itself in a ring.
    function beginOf(link, found) {
        const passed = new Set();
        let one = link;
        while (one.next >= 0 && found.has(one.next) && !passed.has(one)) {
            passed.add(one);
            one = found.get(one.next);
        }
        return one.next < 0 ? one : link;
    }

    function jam(run) {
        if (run.stands === null) return null;
        const starts = jamStarts(run);
        if (starts.length === 0)
            return check('jam', true, 'No link is blocked; queues move wherever there are any.');
        const isRing = starts[0].next >= 0, {names} = run.links;
        const first = Math.min(...starts.map(({step}) => step));
        const words = starts.map(
            ({link, step, lost}) =>
                `${names[link]} (${run.instant(step)}${isRing ? '' : `, ${lost.toFixed(1)}`})`);
        return check(
            'jam', false,
            `Links are blocked from ${run.instant(first)} on. ` +
                (isRing ? 'They wait for each other: ' :
                          `The jam begins at ${Totals.format(starts.length)} of them. With the ` +
                          'vehicle-hours that are lost there and behind: ') +
                `${named(words)}.`,
            starts.map(({link}) => link));
    }

    return {ofRun, departed, busiest, jamStarts};
})();
