'use strict';
// What links can be coloured by. Both runs have one scale. Each measure is cut into classes,
// which differ by colour and by width; the colours fall steadily from light to dark, so that they
// are told apart without seeing hues. Numbers have their units.
const Measures = (() => {
    const none = '#c9d0d6';
    const colours = [
        none, '#8fabbd', '#f2cf3d', '#fb9b06', '#e8602d', '#b73557', '#7a1d6d', '#3b1068',
        '#000000'
    ];
    const widths = [0.55, 0.75, 1.1, 1.35, 1.6, 1.85, 2.1, 2.4, 2.8];
    // The last class is of blocked links, in the measures that follow from times on links.
    const blocked = colours.length - 1;

    const list = [
        {
            id: 'delay',
            column: 'delay_ratio',
            name: 'Delay: travel over free-flow time',
            has: (run) => run.hasLoading,
            hasBlocked: true,
            value: ofThoseWhoEntered((run, link, bucket) => run.ratio(link, bucket)),
            bounds: () => [1, 1.1, 1.25, 1.5, 2, 3],
            format: (value) => `×${value.toFixed(2)}`,
            formatBound: (value) => `×${value}`,
            first: 'free flow',
            none: 'nobody entered',
        },
        {
            id: 'lost',
            column: 'lost_vehicle_hours',
            name: 'Vehicle-hours lost in the bucket',
            has: (run) => run.hasLoading,
            value: (run, link, bucket) => run.hours(run.lost(link, bucket)),
            most: (run) => run.hours(mostOver(run, (link, bucket) => run.lost(link, bucket))),
            unit: 'veh-h',
            none: 'none',
        },
        {
            id: 'on',
            column: 'vehicles_on_link',
            name: 'Vehicles on the link',
            has: (run) => run.occupancy !== null,
            isLive: true,
            value: (run, link) => run.occupancy.vehiclesOn(link),
            most: (run) => greatest(run.visits.mostOn),
            unit: 'veh',
            none: 'none',
        },
        {
            id: 'flow',
            column: 'flow_vehicles_per_hour',
            name: 'Flow: vehicles an hour that entered in the bucket',
            has: (run) => run.hasLoading,
            value: (run, link, bucket) => run.flow(link, bucket),
            most: (run) => mostOver(run, (link, bucket) => run.flow(link, bucket)),
            unit: 'veh/h',
            none: 'nobody entered',
        },
        {
            id: 'load',
            column: 'flow_over_capacity_percent',
            name: 'Flow over capacity',
            has: (run) => run.hasLoading,
            value: ofThoseWhoEntered((run, link, bucket) => run.load(link, bucket)),
            bounds: () => [25, 50, 70, 80, 90, 100],
            unit: '%',
            none: 'nobody entered',
        },
        {
            id: 'speed',
            column: 'speed_kmh',
            name: 'Speed of those who entered in the bucket',
            has: (run) => run.hasLoading,
            hasBlocked: true,
            isReversed: true,
            value: ofThoseWhoEntered((run, link, bucket) => run.speed(link, bucket)),
            bounds: () => [5, 10, 20, 30, 50, 80],
            unit: 'km/h',
            none: 'nobody entered',
        },
        {
            id: 'minutes',
            column: 'minutes_on_link',
            name: 'Minutes on the link of those who entered in the bucket',
            has: (run) => run.hasLoading,
            hasBlocked: true,
            value: ofThoseWhoEntered(
                (run, link, bucket) => run.minutes(run.travel(link, bucket))),
            most: (run) => run.minutes(mostOver(
                run,
                (link, bucket) =>
                    (run.entered(link, bucket) > 0 ? run.travel(link, bucket) : 0))),
            unit: 'min',
            none: 'nobody entered',
        },
        {
            id: 'waiting',
            column: 'vehicles_waiting_at_origins',
            name: 'Vehicles waiting at origins for it',
            has: (run) => run.occupancy !== null,
            isLive: true,
            value: (run, link) => run.occupancy.waiting[link],
            most: (run) => run.occupancy.mostWaiting(),
            unit: 'veh',
            none: 'none',
        },
        {
            id: 'storage',
            column: 'storage_used_percent',
            name: 'Storage used',
            has: (run) => run.occupancy !== null,
            isLive: true,
            value: (run, link) => 100 * run.occupancy.vehiclesOn(link) / run.storage[link],
            bounds: () => [5, 10, 25, 50, 75, 95],
            unit: '%',
            none: 'empty',
        },
        {
            id: 'free',
            column: 'free_flow_minutes',
            name: 'Free-flow time',
            has: (run) => run.times !== null,
            value: (run, link) => run.minutes(run.times.free[link]),
            most: (run) => run.minutes(greatest(run.times.free)),
            unit: 'min',
            none: 'none',
            isUnnamed: true,
        },
    ];

    function ofThoseWhoEntered(what) {
        return (run, link, bucket) =>
            (run.entered(link, bucket) === 0 ? 0 : what(run, link, bucket));
    }

    function greatest(values) {
        return values.reduce((most, value) => Math.max(most, value), 0);
    }

    function mostOver(run, what) {
        let most = 0;
        for (let link = 0; link < run.links.count; link += 1) {
            for (let bucket = 0; bucket < run.times.buckets; bucket += 1) {
                most = Math.max(most, what(link, bucket));
            }
        }
        return most;
    }

    function shortNumber(value) {
        if (value >= 100 || Number.isInteger(value))
            return Math.round(value).toLocaleString('en');
        return Number(value.toPrecision(2)).toLocaleString('en');
    }

    // Six bounds of 1, 2, 5, 10, 20, .. of which the greatest is below the greatest value.
    function roundBounds(most) {
        const series = [];
        for (let power = -3; power < 10; power += 1) {
            for (const digit of [1, 2, 5]) series.push(Number(`${digit}e${power}`));
        }
        const below = series.filter((bound) => bound < most);
        return below.length < 6 ? series.slice(0, 6) : below.slice(-6);
    }

    // The scale of a measure over the runs that have it. The greatest values don't change with
    // time, so that colours keep their meaning while the runs are played.
    function scaleOf(measure, runs) {
        const shown = runs.filter((run) => measure.has(run));
        const bounds = measure.bounds !== undefined ?
            measure.bounds() :
            roundBounds(Math.max(0, ...shown.map((run) => measure.most(run))));
        return {measure, bounds, hasBlocked: shown.some((run) => isBlockedKnown(measure, run))};
    }

    function isBlockedKnown(measure, run) {
        return measure.hasBlocked === true && run.stands !== null;
    }

    // Whether what links show changes within a bucket.
    function isLive(measure, run) {
        return measure.isLive === true || isBlockedKnown(measure, run);
    }

    // Where the least is the worst the classes are turned round.
    function classOf({measure, bounds}, value) {
        if (!(value > 0)) return 0;
        let place = 1;
        for (const bound of bounds) {
            if (value <= bound) break;
            place += 1;
        }
        return measure.isReversed ? bounds.length + 2 - place : place;
    }

    function format(measure, value) {
        if (measure.format !== undefined) return measure.format(value);
        return `${shortNumber(value)} ${measure.unit}`;
    }

    function classWords({measure, bounds}, place) {
        if (place === 0) return measure.none;
        if (place === blocked) return 'blocked';
        if (place === 1 && measure.first !== undefined) return measure.first;
        const at = measure.isReversed ? bounds.length + 2 - place : place;
        const bound = bounds[Math.min(at, bounds.length) - 1];
        const words = (measure.formatBound || ((value) => format(measure, value)))(bound);
        return at > bounds.length ? `above ${words}` : `to ${words}`;
    }

    // What a link shows at the step of its run, in words.
    function wordsOf({measure}, run, link, value, place) {
        if (place === blocked) return `blocked for ${shortNumber(value)} min`;
        return place === 0 ? measure.none : format(measure, value);
    }

    // Values and classes of all links at a run's step. The value of a blocked link are the
    // minutes for which its first vehicle has stood. Answers whether anything is shown otherwise
    // than before.
    function fill(scale, run, values, classes) {
        if (!scale.measure.has(run)) {
            values.fill(0);
            classes.fill(0);
            return true;
        }
        const {measure} = scale, bucket = run.bucketAt(run.step);
        const hasBlocked = isBlockedKnown(measure, run);
        let isOther = false;
        for (let link = 0; link < run.links.count; link += 1) {
            const stood = hasBlocked ? run.stoodOn(link) : -1;
            values[link] = stood < 0 ? measure.value(run, link, bucket) : run.minutes(stood);
            const place = stood < 0 ? classOf(scale, values[link]) : blocked;
            if (classes[link] !== place) isOther = true;
            classes[link] = place;
        }
        return isOther;
    }

    return {
        list,
        colours,
        widths,
        blocked,
        scaleOf,
        isLive,
        isBlockedKnown,
        classWords,
        wordsOf,
        fill,
        shortNumber
    };
})();
