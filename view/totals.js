'use strict';
// Totals of a run as numbers, and its worst links and trips. They are sums over the tables, for a
// reader's eyes: the program proves none of them.
const Totals = (() => {
    // Numbers with so many digits. To make a format costs more than to use it.
    const formats = [0, 1, 2, 3].map(
        (digits) => new Intl.NumberFormat(
            'en', {minimumFractionDigits: digits, maximumFractionDigits: digits}));

    // Names with their values, counts as whole numbers and most others to a tenth; and the words
    // by which the run was made.
    function rowsOf(run) {
        const made = Units.madeBy(run);
        const rows = [
            ...(made === '' ? [] : [{name: 'Made by', text: made}]),
            count('Links', run.links.count), count('Nodes', run.nodes.count)
        ];
        if (run.agents !== null)
            rows.push(...vehicleRows(run), ...tripRows(run));
        else if (run.originWaits !== null)
            rows.push(...waitRows(run));
        if (run.gap !== null && run.gap.length > 0) {
            const last = run.gap[run.gap.length - 1];
            rows.push(count('Iterations', last.iteration));
            rows.push(
                {name: 'Gap of the last iteration, in percent', value: last.ppm / 1e4, digits: 3});
        }
        return rows;
    }

    function count(name, value) {
        return {name, value, digits: 0};
    }

    function tenth(name, value) {
        return {name, value, digits: 1};
    }

    function vehicleRows(run) {
        const {statuses, onLinks, waited, length} = run.sums;
        const rows = [
            count('Vehicles', run.agents.count),
            count('arrived', statuses[0]),
            count('running at the end', statuses[1]),
            count('waiting at the end', statuses[2]),
            count('without a route', statuses[3]),
            tenth('Vehicle-hours on links', run.hours(onLinks)),
        ];
        if (run.stands !== null) {
            const lost = run.lostSteps.reduce((before, steps) => before + steps, 0);
            rows.push(tenth('Vehicle-hours lost on links', run.hours(lost)));
            rows.push(count('Links that are blocked at the end', run.blockedAt(run.horizon - 1)));
        }
        rows.push(tenth('Vehicle-hours waiting at origins', run.hours(waited)));
        rows.push(tenth(
            'Vehicle-kilometres, of links that were left',
            length * Units.metres[run.units.unit] / 1000));
        return rows;
    }

    // Without vehicles the waits are those of origin_wait.csv, means that are rounded up.
    function waitRows(run) {
        const sum = (value) => run.originWaits.reduce((before, row) => before + value(row), 0);
        return [
            count('Vehicles with a route', sum(({departed}) => departed)),
            tenth(
                'Vehicle-hours waiting at origins, by means that are rounded up',
                run.hours(sum(({departed, wait}) => departed * wait))),
        ];
    }

    // Those who arrived may be the few who met no jam. With the others, each up to the end, a run
    // with a worse jam has the greater mean.
    function tripRows(run) {
        const trips = tripSteps(run), {onLinks, waited, statuses} = run.sums;
        const sum = trips.reduce((before, steps) => before + steps, 0);
        const all = trips.length + statuses[1] + statuses[2];
        const arrived = 'Minutes of a trip, of those who arrived';
        return [
            ...(trips.length === 0 ? [] : [
                tenth(`${arrived}: mean`, run.minutes(sum / trips.length)),
                tenth(
                    `${arrived}: 95 in 100 take at most`,
                    run.minutes(trips[lastOf(trips.length)])),
            ]),
            ...(all === 0 ? [] : [tenth(
                'Minutes of a trip, the others counted up to the end: mean',
                run.minutes((onLinks + waited) / all))]),
        ];
    }

    function lastOf(count) {
        return Math.min(Math.ceil(count * 0.95), count) - 1;
    }

    // Steps of the trips that have ended, from the shortest to the longest.
    function tripSteps(run) {
        if (run.sortedTrips === undefined) {
            const steps = [];
            for (let agent = 0; agent < run.agents.count; agent += 1) {
                if (run.agents.status[agent] === 0) steps.push(run.tripSteps(agent));
            }
            run.sortedTrips = Int32Array.from(steps).sort();
        }
        return run.sortedTrips;
    }

    // The ten items, or so many, of the greatest value above `least`, the greatest first.
    function ten(count, value, least, most = 10) {
        const found = [];
        for (let item = 0; item < count; item += 1) {
            const size = value(item);
            if (!(size > least) || found.length === most && size <= found[most - 1].size)
                continue;
            let place = found.length;
            while (place > 0 && found[place - 1].size < size) place -= 1;
            found.splice(place, 0, {item, size});
            if (found.length > most) found.pop();
        }
        return found.map(({item}) => item);
    }

    // Steps above the free-flow time of those who entered a link in a bucket: so a stub of one
    // step isn't the worst link for a few steps.
    function delay(run, link, bucket) {
        if (bucket < 0 || run.entered(link, bucket) === 0) return 0;
        return run.travel(link, bucket) - run.times.free[link];
    }

    function tenLinks(run, value) {
        return ten(run.links.count, value, 0);
    }

    const rankings = {
        lost: {
            name: 'vehicle-hours lost in the whole run',
            links: (run) => tenLinks(run, (link) => run.sumOverBuckets(link, run.lost)),
        },
        blocked: {
            name: 'minutes in which it is blocked',
            links: (run) =>
                (run.stands === null ? [] : tenLinks(run, (link) => run.stands.of(link).steps)),
        },
        waiting: {
            name: 'vehicle-hours of waiting for it at origins',
            links: (run) =>
                (run.waits === null ? [] : tenLinks(run, (link) => run.waits.steps[link])),
        },
        worst: {
            name: 'greatest delay in any bucket',
            links: (run) => tenLinks(run, (link) => delay(run, link, run.worstBucket(link))),
        },
        now: {
            name: 'vehicle-hours lost in the bucket that is shown',
            links: (run) => tenLinks(run, (link) => run.lost(link, run.bucketAt(run.step))),
        },
    };

    function longestTrips(run) {
        return ten(run.agents.count, (agent) => run.tripSteps(agent), -1);
    }

    function format(value, digits = Number.isInteger(value) ? 0 : 1) {
        return formats[digits].format(value);
    }

    return {rowsOf, tripSteps, ten, rankings, longestTrips, format};
})();
