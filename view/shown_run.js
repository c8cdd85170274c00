'use strict';
// A run that is shown, with what the page knows of it at a step. What depends on its units
// (seconds of a step, unit of length, jam density) is computed here from the tables.
class ShownRun {
    constructor(name, run, units) {
        Object.assign(this, run);
        this.name = name;
        this.step = 0;
        this.hasLoading = run.times !== null && run.times.kind === 'loading';
        this.isFreeflow = run.times !== null && run.times.kind === 'freeflow';
        this.occupancy = run.visits === null ? null : new Occupancy(run);
        this.movements = new Turns(this);
        this.stands = this.hasLoading && run.visits !== null ? new Stands(this) : null;
        this.originWaitsOf = this.waitsByLink();
        this.linkPlaces = new Map();
        run.links.names.forEach((linkName, link) => this.linkPlaces.set(linkName, link));
        this.setUnits(units);
    }

    setUnits(units) {
        this.units = units;
        this.setStorage(units);
        this.storageBinds = this.visits !== null && this.isStorageKept();
    }

    // The rows of origin_wait.csv of each link that has some.
    waitsByLink() {
        const ofLink = new Map();
        for (const row of this.originWaits === null ? [] : this.originWaits) {
            if (!ofLink.has(row.link)) ofLink.set(row.link, []);
            ofLink.get(row.link).push(row);
        }
        return ofLink;
    }

    // The row of those who depart for a link in the bucket of the run's step, if there is one.
    originWait(link) {
        return (this.originWaitsOf.get(link) || []).find(
            ({from, to}) => from <= this.step && this.step < to);
    }

    // With a point queue a link may hold more than it stores. Where no words of the run tell the
    // queue, it is one by which some link does.
    isStorageKept() {
        if (this.units.queue !== '') return this.units.queue !== 'point';
        return this.visits.mostOn.every((count, link) => count <= this.storage[link]);
    }

    // The buckets of the link times or, without these, ones of 50 steps for the curves.
    buckets() {
        if (this.hasLoading) return {from: [...this.times.from], to: [...this.times.to]};
        const from = [];
        for (let step = 0; step < this.horizon; step += 50) from.push(step);
        return {from, to: from.map((step) => Math.min(step + 50, this.horizon))};
    }

    bucketAt(step) {
        if (!this.hasLoading) return -1;
        const {from, to, buckets} = this.times;
        if (step >= to[buckets - 1]) return buckets - 1;
        const guess = Math.min(Math.floor(step / (to[0] - from[0])), buckets - 1);
        if (from[guess] <= step && step < to[guess]) return guess;
        return from.findIndex((first, bucket) => first <= step && step < to[bucket]);
    }

    // Goes to the step that is done so many seconds from the start, or to the last one.
    moveTo(seconds) {
        const step = Math.floor(seconds / this.units.stepSeconds + 1e-9);
        this.step = Math.max(Math.min(step, this.horizon - 1), 0);
        if (this.occupancy !== null) this.occupancy.moveTo(this.step);
    }

    minutes(steps) {
        return steps * this.units.stepSeconds / 60;
    }

    hours(steps) {
        return steps * this.units.stepSeconds / 3600;
    }

    // When a bucket begins or ends, and when something happens.
    clock(step) {
        return Clock.words(step * this.units.stepSeconds);
    }

    instant(step) {
        return Clock.exact(step * this.units.stepSeconds);
    }

    kilometres(link) {
        return this.links.length[link] * Units.metres[this.units.unit] / 1000;
    }

    travel(link, bucket) {
        return this.times.travel[link * this.times.buckets + bucket];
    }

    entered(link, bucket) {
        return this.times.entered[link * this.times.buckets + bucket];
    }

    // Vehicle-steps above the free-flow time that vehicles spend on a link in a bucket, whenever
    // they entered it. Without an agent table it is what those who enter then will lose.
    lost(link, bucket) {
        if (this.lostSteps !== null) return this.lostSteps[link * this.times.buckets + bucket];
        return this.entered(link, bucket) * (this.travel(link, bucket) - this.times.free[link]);
    }

    // How many steps the first vehicle of a link has stood where it is blocked now, else -1.
    stoodOn(link) {
        if (this.stands === null) return -1;
        return this.stands.at(link, this.occupancy.rangeOn(link), this.step);
    }

    // How many links are blocked once a step is done.
    blockedAt(step) {
        let count = 0;
        for (let link = 0; link < this.links.count; link += 1)
            if (this.stands.at(link, this.stands.range(link, step), step) >= 0) count += 1;
        return count;
    }

    // Vehicles an hour that entered a link in a bucket, and how many its capacity lets in.
    flow(link, bucket) {
        return this.entered(link, bucket) / this.hours(this.bucketSteps(bucket));
    }

    capacity(link, bucket) {
        const {lanes, capacity, windows} = this.links;
        const parts = windows.get(link);
        if (parts === undefined || bucket < 0) return capacity[link] * lanes[link];
        const from = this.times.from[bucket], to = this.times.to[bucket];
        return ShownRun.meanOver(parts, from, to) * lanes[link];
    }

    // The mean over some steps of a value that changes with time, by pairs of a first step and a
    // value.
    static meanOver(parts, from, to) {
        const sum = parts.reduce((before, [first, value], place) => {
            const behind = place + 1 < parts.length ? parts[place + 1][0] : Infinity;
            const steps = Math.min(to, behind) - Math.max(from, first);
            return steps > 0 ? before + value * steps : before;
        }, 0);
        return sum / (to - from);
    }

    // Flow over capacity, in percent.
    load(link, bucket) {
        return 100 * this.flow(link, bucket) / this.capacity(link, bucket);
    }

    bucketSteps(bucket) {
        return this.times.to[bucket] - this.times.from[bucket];
    }

    // Kilometres an hour of those who entered in a bucket.
    speed(link, bucket) {
        return this.kilometres(link) / this.hours(this.travel(link, bucket));
    }

    bucketWords(bucket) {
        return `${this.clock(this.times.from[bucket])} to ${this.clock(this.times.to[bucket])}`;
    }

    ratio(link, bucket) {
        return this.travel(link, bucket) / this.times.free[link];
    }

    sumOverBuckets(link, what) {
        let sum = 0;
        for (let bucket = 0; bucket < this.times.buckets; bucket += 1)
            sum += what.call(this, link, bucket);
        return sum;
    }

    // The bucket in which a link is most delayed: the greatest ratio among those that vehicles
    // entered.
    worstBucket(link) {
        let worst = -1;
        for (let bucket = 0; bucket < this.times.buckets; bucket += 1) {
            if (this.entered(link, bucket) === 0) continue;
            if (worst < 0 || this.travel(link, bucket) > this.travel(link, worst)) worst = bucket;
        }
        return worst;
    }

    // The bucket in which most is lost on a link.
    costliestBucket(link) {
        let most = 0;
        for (let bucket = 1; bucket < this.times.buckets; bucket += 1)
            if (this.lost(link, bucket) > this.lost(link, most)) most = bucket;
        return most;
    }

    // The bucket in which the whole network loses most.
    worstTime() {
        const sums = new Float64Array(this.times.buckets);
        for (let link = 0; link < this.links.count; link += 1) {
            for (let bucket = 0; bucket < sums.length; bucket += 1)
                sums[bucket] += this.lost(link, bucket);
        }
        return sums.reduce((worst, sum, bucket) => (sum > sums[worst] ? bucket : worst), 0);
    }

    // floor(length x lanes x jam density), at least 1 and at most 4,000,000, over whole numbers
    // as the program does it. Where `dta freeflow` wrote storage, that is taken.
    setStorage({unit, jam}) {
        if (this.isFreeflow) {
            this.storage = this.times.storage;
            return;
        }
        const micrometres = {m: 1000n, km: 1000000n, mi: 1609344n}[unit];
        const thousandths = (value) => BigInt(Units.thousandths(value));
        const whole = 10n ** 12n;
        this.storage = Int32Array.from(this.links.length, (length, link) => {
            const vehicles = thousandths(length) * micrometres
                * thousandths(this.links.lanes[link]) * BigInt(jam) / whole;
            return Math.min(Math.max(Number(vehicles), 1), 4000000);
        });
    }

    agentName(agent) {
        return String(this.agents.ids === null ? agent : this.agents.ids[agent]);
    }

    tripTitle(agent) {
        const {zones, origin, destination} = this.agents;
        return `${zones[origin[agent]]} → ${zones[destination[agent]]}`;
    }

    // Steps of a trip, up to the horizon where the vehicle hasn't arrived; -1 for one without a
    // route.
    tripSteps(agent) {
        if (this.agents.status[agent] === 3) return -1;
        const end = this.agents.arrival[agent] < 0 ? this.horizon : this.agents.arrival[agent];
        return end - this.agents.departure[agent];
    }

    linkTitle(link) {
        const {names} = this.nodes;
        return `${names[this.links.from[link]]} → ${names[this.links.to[link]]}`;
    }
}
