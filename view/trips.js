'use strict';
// Who goes where: the vehicles over a link, the routes between two zones, the way of one vehicle.
// All of it comes from the agent table.
const Trips = (() => {
    // The vehicles that entered a link, each once.
    function over(run, link) {
        const {linkStarts, agent} = run.visits;
        return [...new Set(agent.subarray(linkStarts[link], linkStarts[link + 1]))];
    }

    // How many of some vehicles go between which zones, the most first.
    function pairs(run, agents) {
        const {zones, origin, destination} = run.agents, counts = new Map();
        for (const agent of agents) {
            const key = origin[agent] * zones.length + destination[agent];
            counts.set(key, (counts.get(key) || 0) + 1);
        }
        return [...counts]
            .map(([key, count]) => ({
                     from: zones[Math.floor(key / zones.length)],
                     to: zones[key % zones.length],
                     count,
                 }))
            .sort((first, second) => second.count - first.count);
    }

    // The links of a vehicle's route, with the steps of entry and end, or -1 where it didn't
    // enter.
    function way(run, agent) {
        const {linkStart, links, entryStart, entries, arrival} = run.agents;
        const first = entryStart[agent], behind = entryStart[agent + 1];
        const route = links.subarray(linkStart[agent], linkStart[agent + 1]);
        const end = arrival[agent] < 0 ? run.horizon : arrival[agent];
        return Array.from(route, (link, place) => {
            const entry = first + place;
            if (entry >= behind) return {link, enter: -1, leave: -1};
            const leave = entry + 1 < behind ? entries[entry + 1] : end;
            return {link, enter: entries[entry], leave};
        });
    }

    // How many entries some vehicles made into each link before they entered a certain one, and
    // behind it.
    function flows(run, link, agents) {
        const before = new Map(), behind = new Map();
        for (const agent of agents) {
            let counts = before;
            for (const visit of way(run, agent)) {
                if (visit.enter < 0) break;
                if (visit.link === link)
                    counts = behind;
                else
                    counts.set(visit.link, (counts.get(visit.link) || 0) + 1);
            }
        }
        return {before, behind};
    }

    // The routes of the vehicles between two zones, the most used first, and the mean steps of
    // the trips that have ended.
    function routes(run, from, to) {
        const {zones, origin, destination, linkStart, links, status} = run.agents;
        const found = new Map(), first = zones.indexOf(from), last = zones.indexOf(to);
        for (let agent = 0; agent < run.agents.count; agent += 1) {
            if (origin[agent] !== first || destination[agent] !== last || status[agent] === 3)
                continue;
            const route = links.subarray(linkStart[agent], linkStart[agent + 1]);
            const key = route.join(' ');
            if (!found.has(key))
                found.set(key, {links: [...route], count: 0, ended: 0, steps: 0});
            const one = found.get(key);
            one.count += 1;
            if (status[agent] !== 0) continue;
            one.ended += 1;
            one.steps += run.tripSteps(agent);
        }
        return [...found.values()].sort((one, other) => other.count - one.count);
    }

    // The place of a vehicle by its identifier, or -1.
    function agentOf(run, name) {
        if (run.agents === null) return -1;
        const {ids, count} = run.agents;
        if (ids !== null) return ids.map(String).indexOf(name);
        return /^\d+$/.test(name) && Number(name) < count ? Number(name) : -1;
    }

    return {over, pairs, way, flows, routes, agentOf};
})();
