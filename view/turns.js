'use strict';
// The turns of a run: how many vehicles take each of them, how many its capacity lets through, and
// who stands before turns and links that have a capacity of 0 for all time.
class Turns {
    constructor(run) {
        const {links} = run;
        this.run = run;
        this.table = run.turns;
        this.closedLinks = new Set();
        for (let link = 0; link < links.count; link += 1) {
            if (links.lanes[link] === 0 || Turns.isClosed(links, link)) this.closedLinks.add(link);
        }
        this.closedTurns = [];
        for (let turn = 0; this.table !== null && turn < this.table.count; turn += 1)
            if (Turns.isClosed(this.table, turn)) this.closedTurns.push(turn);
    }

    static isClosed({capacity, windows}, place) {
        const parts = windows.get(place);
        if (parts === undefined) return capacity[place] === 0;
        return parts.every(([, value]) => value === 0);
    }

    // The place of a turn in movement.csv, or -1 where that doesn't list it.
    placeOf(from, to) {
        if (this.table === null) return -1;
        const {starts, to: links} = this.table;
        for (let turn = starts[from]; turn < starts[from + 1]; turn += 1)
            if (links[turn] === to) return turn;
        return -1;
    }

    // Vehicles an hour that a turn lets through in a bucket, endless where it has no limit.
    capacity(turn, bucket) {
        const {capacity, windows} = this.table, parts = windows.get(turn);
        if (parts === undefined) return capacity[turn];
        return ShownRun.meanOver(parts, this.run.times.from[bucket], this.run.times.to[bucket]);
    }

    // The link on which a vehicle goes on after a visit to a link, or -1 where its route ends.
    next(link, visit) {
        const {linkStart, links, entryStart, entries} = this.run.agents;
        const agent = this.run.visits.agent[visit], enter = this.run.visits.enter[visit];
        const route = linkStart[agent] - entryStart[agent];
        for (let entry = entryStart[agent]; entry < entryStart[agent + 1]; entry += 1) {
            if (entries[entry] !== enter || links[route + entry] !== link) continue;
            const behind = route + entry + 1;
            return behind < linkStart[agent + 1] ? links[behind] : -1;
        }
        return -1;
    }

    // How many vehicles turned from a link into each other one in a bucket.
    taken(link, bucket) {
        const {run} = this, {linkStarts, leave} = run.visits, counts = new Map();
        const from = run.times.from[bucket], to = run.times.to[bucket];
        const behind = linkStarts[link + 1];
        let visit = Stands.above(leave, linkStarts[link], behind, from - 1);
        for (; visit < behind && leave[visit] < to; visit += 1) {
            const next = this.next(link, visit);
            if (next >= 0) counts.set(next, (counts.get(next) || 0) + 1);
        }
        return counts;
    }

    // The turns out of a link that are listed or taken in a bucket, with the vehicles that took
    // each, its capacity an hour, and whether it is full.
    of(link, bucket) {
        const counts = this.taken(link, bucket), {table} = this;
        for (let turn = table === null ? 0 : table.starts[link];
             table !== null && turn < table.starts[link + 1]; turn += 1) {
            if (!counts.has(table.to[turn])) counts.set(table.to[turn], 0);
        }
        return [...counts].map(([to, vehicles]) => {
            const turn = this.placeOf(link, to);
            const capacity = turn < 0 ? Infinity : this.capacity(turn, bucket);
            const most = capacity * this.run.hours(this.run.bucketSteps(bucket));
            const isFull = Turns.isFull(vehicles, most);
            return {from: link, to, vehicles, capacity, most, isFull};
        });
    }

    title(turn) {
        const {names} = this.run.links;
        return `${names[this.table.from[turn]]} → ${names[this.table.to[turn]]}`;
    }

    // A turn is full where it let through all whole vehicles of its capacity, or 95 in 100.
    static isFull(vehicles, most) {
        return most === 0 || vehicles > 0 && vehicles >= Math.min(Math.floor(most), 0.95 * most);
    }

    // Limited turns with the number of buckets in which they are full while vehicles lose time
    // before them, the most first.
    full() {
        const {run, table} = this, found = [];
        const counts = this.countLimited();
        for (const [turn, vehicles] of counts) {
            const buckets = vehicles.reduce((sum, count, bucket) => {
                const most = this.capacity(turn, bucket) * run.hours(run.bucketSteps(bucket));
                const isHeld = most > 0 && Turns.isFull(count, most);
                return sum + (isHeld && run.lost(table.from[turn], bucket) > 0 ? 1 : 0);
            }, 0);
            if (buckets > 0) found.push({turn, buckets});
        }
        return found.sort((one, other) => other.buckets - one.buckets);
    }

    // How many vehicles took each turn that has a limit, by bucket.
    countLimited() {
        const {run, table} = this, {linkStart, links, entryStart, entries} = run.agents;
        const counts = new Map();
        for (let turn = 0; turn < table.count; turn += 1) {
            if (table.capacity[turn] < Infinity || table.windows.has(turn))
                counts.set(turn, new Int32Array(run.times.buckets));
        }
        if (counts.size === 0) return counts;
        for (let agent = 0; agent < run.agents.count; agent += 1) {
            const route = linkStart[agent] - entryStart[agent];
            for (let entry = entryStart[agent] + 1; entry < entryStart[agent + 1]; entry += 1) {
                const vehicles =
                    counts.get(this.placeOf(links[route + entry - 1], links[route + entry]));
                if (vehicles !== undefined) vehicles[run.bucketAt(entries[entry])] += 1;
            }
        }
        return counts;
    }

    // Of a vehicle that is first on a link: whether it goes on by a turn, or to a link, that has a
    // capacity of 0 for all time.
    heldBy(link, visit) {
        const next = this.next(link, visit);
        if (next < 0) return '';
        const turn = this.placeOf(link, next);
        if (turn >= 0 && Turns.isClosed(this.table, turn)) return 'turn';
        return this.closedLinks.has(next) ? 'link' : '';
    }

    // How many vehicles stand before such turns and links at the end: nobody passes on a link, so
    // these are all on a link of which the first vehicle can't go on, and those at origins.
    standing() {
        const {run} = this, counts = {turn: 0, link: 0};
        if (run.visits === null || this.closedLinks.size + this.closedTurns.length === 0)
            return counts;
        const {linkStarts, leave} = run.visits;
        for (let link = 0; link < run.links.count; link += 1) {
            const behind = linkStarts[link + 1];
            const isEmpty = behind === linkStarts[link] || leave[behind - 1] < run.horizon;
            if (isEmpty) continue;
            const first = Stands.above(leave, linkStarts[link], behind, run.horizon - 1);
            const held = this.heldBy(link, first);
            if (held !== '') counts[held] += behind - first;
        }
        const {status, linkStart, links, count} = run.agents;
        for (let agent = 0; agent < count; agent += 1) {
            const isWaiting = status[agent] === 2;
            if (isWaiting && this.closedLinks.has(links[linkStart[agent]])) counts.link += 1;
        }
        return counts;
    }
}
