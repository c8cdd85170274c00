'use strict';
// agent.csv: each vehicle with its zones, steps, status, route and entries, in typed arrays.
function agentTable(csv, mostSteps) {
    const statuses = ['arrived', 'running', 'waiting', 'unrouted'];
    const names = [
        'agent_id', 'o_zone_id', 'd_zone_id', 'departure_step', 'arrival_step', 'status',
        'link_ids', 'entry_steps'
    ];

    // The routes of all vehicles stand in one list, and each vehicle knows where its own begins.
    class Agents {
        constructor() {
            this.zones = new csv.Names();
            this.ids = [];
            this.hasPlainIds = true;
            for (const field
                     of ['origin', 'destination', 'departure', 'arrival', 'status', 'linkStart',
                         'links', 'entryStart', 'entries'])
                this[field] = new csv.Numbers();
        }

        taken() {
            const agents = {count: this.departure.length, zones: this.zones.texts()};
            this.linkStart.push(this.links.length);
            this.entryStart.push(this.entries.length);
            for (const field
                     of ['origin', 'destination', 'departure', 'arrival', 'status', 'linkStart',
                         'links', 'entryStart', 'entries'])
                agents[field] = this[field].taken();
            // dta numbers its vehicles from 0, so their identifiers needn't be kept.
            agents.ids = this.hasPlainIds ? null : this.ids;
            return agents;
        }
    }

    async function readAgents(file, links, tell) {
        const agents = new Agents();
        let columns = null, at = null;
        await csv.readRecords(file, (places) => {
            if (columns === null) {
                columns = new csv.Columns(places);
                at = names.map((name) => columns.required(name, places));
                return;
            }
            columns.check(places);
            takeAgent(agents, columns, places, at, links);
        }, tell);
        return agents.taken();
    }

    function takeAgent(agents, columns, places, at, links) {
        const [id, origin, destination, departure, arrival, status, linkIds, entrySteps] = at;
        const number = agents.departure.length;
        const key = columns.identifier(places, id);
        if (key !== number) agents.hasPlainIds = false;
        agents.ids.push(key);
        agents.origin.push(agents.zones.findOrAdd(columns.identifier(places, origin)));
        agents.destination.push(agents.zones.findOrAdd(columns.identifier(places, destination)));
        agents.departure.push(step(columns, places, departure));
        agents.arrival.push(places.isEmpty(arrival) ? -1 : step(columns, places, arrival));
        agents.status.push(statusOf(places, status));
        agents.linkStart.push(agents.links.length);
        agents.entryStart.push(agents.entries.length);
        takeLinks(agents.links, columns, places, linkIds, links);
        takeSteps(agents.entries, columns, places, entrySteps);
        checkOrder(agents, places, number);
    }

    function step(columns, places, column) {
        const value = columns.whole(places, column);
        if (value < mostSteps) return value;
        throw places.fault(
            `${columns.said(places, column)} is no step: they are below ${mostSteps}.`);
    }

    function statusOf(places, column) {
        const status = statuses.indexOf(places.text(column));
        if (status >= 0) return status;
        throw places.fault(`status "${places.text(column)}" is none of ${statuses.join(', ')}.`);
    }

    // Calls `take` with each identifier of a field between semicolons, or NaN where it is none.
    // There are millions, so that plain digits are read on the way to the next semicolon.
    function eachPart(places, column, take) {
        const bytes = places.bytes, end = places.ends[column];
        let start = places.starts[column], value = 0;
        if (start === end) return;
        for (let at = start; at <= end; at += 1) {
            if (at < end && bytes[at] !== csv.semicolon) {
                const digit = bytes[at] - csv.zero;
                value = digit >= 0 && digit <= 9 ? value * 10 + digit : NaN;
                continue;
            }
            const isPlain = value === value && start < at && at - start < 16;
            take(isPlain ? value : csv.identifier(bytes, start, at));
            start = at + 1;
            value = 0;
        }
    }

    function takeLinks(into, columns, places, column, links) {
        eachPart(places, column, (key) => {
            if (key !== key)
                throw places.fault(`${columns.said(places, column)} isn't a list of links.`);
            const link = links.names.find(key);
            if (link < 0) {
                throw places.fault(
                    `link ${key} isn't in link.csv. The table seems to be one of another run.`);
            }
            into.push(link);
        });
    }

    function takeSteps(into, columns, places, column) {
        eachPart(places, column, (value) => {
            if (value < mostSteps)
                into.push(value);
            else
                throw places.fault(`${columns.said(places, column)} isn't a list of steps.`);
        });
    }

    function checkOrder(agents, places, number) {
        const firstEntry = agents.entryStart.data[number];
        const entries = agents.entries.length - firstEntry;
        const links = agents.links.length - agents.linkStart.data[number];
        if (entries > links)
            throw places.fault(`${entries} entries are more than ${links} links.`);
        let before = agents.departure.data[number];
        for (let place = firstEntry; place < agents.entries.length; place += 1) {
            const entry = agents.entries.data[place];
            if (entry < before) throw places.fault(`entry step ${entry} comes after ${before}.`);
            before = entry;
        }
        const arrival = agents.arrival.data[number];
        if (arrival >= 0 && arrival < before) {
            throw places.fault(`arrival step ${arrival} comes after ${before}.`);
        }
    }

    return {readAgents};
}
