'use strict';
// What the page asks of an agent table many times: who enters and leaves which link in which
// step. A visit is one entry of a vehicle into a link; it ends with the vehicle's next entry or
// its arrival.
function visitIndex() {
    // The visits of all vehicles in the order of the table. A visit that doesn't end has the
    // horizon as its end.
    function visitsOf(agents, horizon) {
        const count = agents.entries.length;
        const visits = emptyVisits(count);
        visits.enter.set(agents.entries);
        for (let agent = 0; agent < agents.count; agent += 1) {
            const first = agents.entryStart[agent], behind = agents.entryStart[agent + 1];
            const link = agents.linkStart[agent] - first, arrival = agents.arrival[agent];
            for (let visit = first; visit < behind; visit += 1) {
                visits.link[visit] = agents.links[link + visit];
                visits.agent[visit] = agent;
                visits.leave[visit] = agents.entries[visit + 1];
            }
            if (behind > first) visits.leave[behind - 1] = arrival < 0 ? horizon : arrival;
        }
        return visits;
    }

    function emptyVisits(count) {
        return {
            count,
            link: new Int32Array(count),
            enter: new Int32Array(count),
            leave: new Int32Array(count),
            agent: new Int32Array(count),
        };
    }

    // Where each key begins once items are sorted by their keys, by counting.
    function startsOf(key, keys) {
        const starts = new Int32Array(keys + 1);
        for (let item = 0; item < key.length; item += 1) starts[key[item] + 1] += 1;
        for (let value = 0; value < keys; value += 1) starts[value + 1] += starts[value];
        return starts;
    }

    // The values in the order of their keys. Equal keys keep their order.
    function sortedBy(key, starts, values) {
        const next = starts.slice(), sorted = new Int32Array(key.length);
        for (let item = 0; item < key.length; item += 1) sorted[next[key[item]]++] = values[item];
        return sorted;
    }

    // The same for whole visits.
    function visitsBy(key, starts, visits) {
        const next = starts.slice(), sorted = emptyVisits(visits.count);
        for (let visit = 0; visit < visits.count; visit += 1) {
            const place = next[key[visit]]++;
            sorted.link[place] = visits.link[visit];
            sorted.enter[place] = visits.enter[visit];
            sorted.leave[place] = visits.leave[visit];
            sorted.agent[place] = visits.agent[visit];
        }
        return sorted;
    }

    // Sorts by end, by entry and by link. A link is left in the order of entry, so those who are
    // on it stand side by side in its list, behind those who have left. Millions of visits go to
    // many links faster where they first go to groups of links, whose places are near each other
    // in memory.
    function indexOf(visits, links, horizon) {
        const leaveStarts = startsOf(visits.leave, horizon + 1);
        const byLeave = visitsBy(visits.leave, leaveStarts, visits);
        const enterStarts = startsOf(byLeave.enter, horizon + 1);
        const byEnter = visitsBy(byLeave.enter, enterStarts, byLeave);
        const group = byEnter.link.map((link) => link >> 8);
        const byGroup = visitsBy(group, startsOf(group, (links >> 8) + 1), byEnter);
        const linkStarts = startsOf(byGroup.link, links);
        const {enter, leave, agent} = visitsBy(byGroup.link, linkStarts, byGroup);
        return {
            leaveStarts,
            leaveLinks: byLeave.link,
            enterStarts,
            enterLinks: byEnter.link,
            linkStarts,
            enter,
            leave,
            agent,
            mostOn: mostOnLinks(linkStarts, enter, leave),
        };
    }

    // The most vehicles that are on each link at once.
    function mostOnLinks(linkStarts, enter, leave) {
        const most = new Int32Array(linkStarts.length - 1);
        for (let link = 0; link < most.length; link += 1) {
            let first = linkStarts[link];
            for (let visit = first; visit < linkStarts[link + 1]; visit += 1) {
                while (leave[first] <= enter[visit]) first += 1;
                if (visit + 1 - first > most[link]) most[link] = visit + 1 - first;
            }
        }
        return most;
    }

    // The steps above the free-flow time that vehicles spend on each link in each bucket: a
    // visit's are its last ones.
    function lostSteps({linkStarts, enter, leave}, times) {
        const {buckets, free} = times, lost = new Int32Array(times.entered.length);
        const bucketOf = bucketsOfSteps(times);
        for (let link = 0; link + 1 < linkStarts.length; link += 1) {
            for (let visit = linkStarts[link]; visit < linkStarts[link + 1]; visit += 1) {
                let from = enter[visit] + free[link];
                while (from < leave[visit]) {
                    const bucket = bucketOf[from];
                    const to = Math.min(leave[visit], times.to[bucket]);
                    lost[link * buckets + bucket] += to - from;
                    from = to;
                }
            }
        }
        return lost;
    }

    function bucketsOfSteps(times) {
        const bucketOf = new Int32Array(times.to[times.buckets - 1]);
        for (let bucket = 0; bucket < times.buckets; bucket += 1) {
            bucketOf.fill(bucket, times.from[bucket], times.to[bucket]);
        }
        return bucketOf;
    }

    // Who waits at an origin waits for the first link of the route: from the departure to the
    // entry. Ones that never enter wait up to the horizon. Those that enter as they depart don't
    // wait.
    function waitsOf(agents, links, horizon) {
        const link = [], begin = [], end = [], steps = new Float64Array(links);
        for (let agent = 0; agent < agents.count; agent += 1) {
            if (agents.linkStart[agent] === agents.linkStart[agent + 1]) continue;
            const first = agents.entryStart[agent];
            const entry = first < agents.entryStart[agent + 1] ? agents.entries[first] : horizon;
            if (entry === agents.departure[agent]) continue;
            link.push(agents.links[agents.linkStart[agent]]);
            begin.push(agents.departure[agent]);
            end.push(entry);
            steps[link[link.length - 1]] += entry - agents.departure[agent];
        }
        const beginStarts = startsOf(begin, horizon + 1), endStarts = startsOf(end, horizon + 1);
        return {
            steps,
            beginStarts,
            beginLinks: sortedBy(begin, beginStarts, link),
            endStarts,
            endLinks: sortedBy(end, endStarts, link),
        };
    }

    // How many wait, are on a link and have arrived once each step is done.
    function statesOf(agents, horizon) {
        const states = {
            departed: new Int32Array(horizon),
            waiting: new Int32Array(horizon),
            running: new Int32Array(horizon),
            arrived: new Int32Array(horizon)
        };
        const add = (list, step, change) => {
            if (step < horizon) list[step] += change;
        };
        for (let agent = 0; agent < agents.count; agent += 1) {
            if (agents.status[agent] === 3) continue;
            const first = agents.entryStart[agent];
            const entry = first < agents.entryStart[agent + 1] ? agents.entries[first] : horizon;
            const arrival = agents.arrival[agent] < 0 ? horizon : agents.arrival[agent];
            add(states.departed, agents.departure[agent], 1);
            add(states.waiting, agents.departure[agent], 1);
            add(states.waiting, entry, -1);
            add(states.running, entry, 1);
            add(states.running, arrival, -1);
            add(states.arrived, arrival, 1);
        }
        for (const list of Object.values(states)) {
            for (let step = 1; step < horizon; step += 1) list[step] += list[step - 1];
        }
        return states;
    }

    // Sums over all vehicles, in steps and in the length unit of the link table.
    function sumsOf(agents, visits, links, horizon) {
        const sums = {onLinks: 0, waited: 0, length: 0, statuses: [0, 0, 0, 0]};
        for (let visit = 0; visit < visits.count; visit += 1) {
            sums.onLinks += visits.leave[visit] - visits.enter[visit];
            if (visits.leave[visit] < horizon) sums.length += links.length[visits.link[visit]];
        }
        for (let agent = 0; agent < agents.count; agent += 1) {
            sums.statuses[agents.status[agent]] += 1;
            if (agents.status[agent] === 3) continue;
            const first = agents.entryStart[agent];
            const entry = first < agents.entryStart[agent + 1] ? agents.entries[first] : horizon;
            sums.waited += entry - agents.departure[agent];
        }
        return sums;
    }

    // The first vehicle that no row of origin waits counts, as its link and step, or else the first
    // row that isn't that of the vehicles, with what these tell; or null. A vehicle counts by the
    // first link of its route and the step of its departure. Its wait goes up to its first entry
    // or, where it has none, to the horizon.
    function otherWaits(agents, rows, horizon) {
        const ofLink = new Map(), departed = new Int32Array(rows.length);
        const waited = new Float64Array(rows.length);
        rows.forEach(({link}, row) => {
            if (!ofLink.has(link)) ofLink.set(link, []);
            ofLink.get(link).push(row);
        });
        for (let agent = 0; agent < agents.count; agent += 1) {
            if (agents.linkStart[agent] === agents.linkStart[agent + 1]) continue;
            const link = agents.links[agents.linkStart[agent]], step = agents.departure[agent];
            const row = (ofLink.get(link) || []).find(
                (one) => rows[one].from <= step && step < rows[one].to);
            if (row === undefined) return {link, step, row: -1};
            const first = agents.entryStart[agent];
            const entry = first < agents.entryStart[agent + 1] ? agents.entries[first] : horizon;
            departed[row] += 1;
            waited[row] += entry - step;
        }
        const means = waited.map((steps, row) => Math.ceil(steps / Math.max(departed[row], 1)));
        const row = rows.findIndex(
            (told, one) => told.departed !== departed[one] || told.wait !== means[one]);
        if (row < 0) return null;
        return {link: rows[row].link, row, departed: departed[row], wait: means[row]};
    }

    // The first link and bucket of which the two tables tell different entries, or null.
    function disagreement(visits, times) {
        const entered = new Int32Array(times.entered.length);
        const bucketOf = bucketsOfSteps(times);
        for (let visit = 0; visit < visits.count; visit += 1) {
            entered[visits.link[visit] * times.buckets + bucketOf[visits.enter[visit]]] += 1;
        }
        const place = entered.findIndex((count, cell) => count !== times.entered[cell]);
        if (place < 0) return null;
        return {
            link: Math.floor(place / times.buckets),
            bucket: place % times.buckets,
            visits: entered[place],
            told: times.entered[place]
        };
    }

    return {visitsOf, indexOf, lostSteps, waitsOf, statesOf, sumsOf, otherWaits, disagreement};
}
