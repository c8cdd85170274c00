'use strict';
// All links with what the page knows of them, as GeoJSON and as a flat table with its geometry as
// text, for QGIS and other programs.
const Out = (() => {
    // GeoJSON has degrees, and who reads others as degrees puts them elsewhere.
    const notDegrees = 'The coordinates are those of node.csv, and they are no degrees: tell ' +
        'QGIS their reference system (Layer properties, Source).';

    // The columns that don't change with time.
    function networkColumns(run) {
        const {links, nodes} = run;
        return [
            ['link_id', (link) => plain(links.names[link])],
            ['from_node_id', (link) => plain(nodes.names[links.from[link]])],
            ['to_node_id', (link) => plain(nodes.names[links.to[link]])],
            ...(links.titles === null ? [] : [['name', (link) => links.titles[link]]]),
            ['length_km', (link) => run.kilometres(link)],
            ['lanes', (link) => links.lanes[link]],
            ['storage_vehicles', (link) => run.storage[link]],
        ];
    }

    // An identifier is a number where that is exact.
    function plain(name) {
        const value = Number(name);
        return Number.isSafeInteger(value) ? value : name;
    }

    // What the run shows at its step, by each measure that it has.
    function columnsNow(run) {
        const bucket = run.bucketAt(run.step);
        const measures = Measures.list.filter((measure) => measure.has(run));
        return [
            ...networkColumns(run),
            ['step', () => run.step],
            ['clock', () => run.instant(run.step)],
            ['capacity_vehicles_per_hour', (link) => run.capacity(link, bucket)],
            ...measures.map((measure) => [measure.column, (link) => {
                const value = measure.value(run, link, bucket);
                return value === 0 && measure.none === 'nobody entered' ? null : value;
            }]),
            ...(run.stands === null ? [] : [['blocked_minutes', (link) => {
                const stood = run.stoodOn(link);
                return stood < 0 ? null : run.minutes(stood);
            }]]),
        ];
    }

    // Sums and extremes of each link over the whole run.
    function columnsOfRun(run) {
        const most = (what) => (link) => overEntered(run, link, what, Math.max);
        const least = (what) => (link) => overEntered(run, link, what, Math.min);
        const columns = networkColumns(run);
        if (run.times !== null)
            columns.push(['free_flow_minutes', (link) => run.minutes(run.times.free[link])]);
        if (run.hasLoading) {
            columns.push(
                ['entered_vehicles', (link) => run.sumOverBuckets(link, run.entered)],
                ['lost_vehicle_hours', (link) => run.hours(run.sumOverBuckets(link, run.lost))],
                ['greatest_delay_ratio', most(run.ratio)],
                ['greatest_minutes_on_link',
                 most((link, bucket) => run.minutes(run.travel(link, bucket)))],
                ['greatest_flow_vehicles_per_hour', most(run.flow)],
                ['greatest_flow_over_capacity_percent', most(run.load)],
                ['least_speed_kmh', least(run.speed)]);
        }
        if (run.visits !== null) {
            columns.push(
                ['most_vehicles_on_link', (link) => run.visits.mostOn[link]],
                ['waiting_vehicle_hours', (link) => run.hours(run.waits.steps[link])]);
        }
        if (run.stands !== null) {
            columns.push(
                ['blocked_minutes', (link) => run.minutes(run.stands.of(link).steps)],
                ['stood_minutes', (link) => run.minutes(run.stands.of(link).longest)]);
        }
        return columns;
    }

    // The greatest or least value over the buckets in which somebody entered, or null.
    function overEntered(run, link, what, choose) {
        let found = null;
        for (let bucket = 0; bucket < run.times.buckets; bucket += 1) {
            if (run.entered(link, bucket) === 0) continue;
            const value = what.call(run, link, bucket);
            found = found === null ? value : choose(found, value);
        }
        return found;
    }

    // A link's points in the coordinates of node.csv.
    function pointsOf(run, geometry, link) {
        return geometry.pointsOf(link).map(
            ([x, y]) => [Number((x / run.nodes.squeeze).toPrecision(12)), y]);
    }

    function geoJson(run, geometry, columns) {
        const features = [];
        for (let link = 0; link < run.links.count; link += 1) {
            features.push(JSON.stringify({
                type: 'Feature',
                properties:
                    Object.fromEntries(columns.map(([name, value]) => [name, value(link)])),
                geometry: {type: 'LineString', coordinates: pointsOf(run, geometry, link)},
            }));
        }
        const note = run.nodes.isDegrees ? '' : `"note":${JSON.stringify(notDegrees)},`;
        return `{"type":"FeatureCollection",${note}"features":[\n${features.join(',\n')}\n]}\n`;
    }

    function rows(run, geometry, columns) {
        const all = [];
        for (let link = 0; link < run.links.count; link += 1) {
            const points = pointsOf(run, geometry, link).map((point) => point.join(' '));
            all.push([
                ...columns.map(([, value]) => value(link) ?? ''),
                `LINESTRING (${points.join(', ')})`
            ]);
        }
        return {head: [...columns.map(([name]) => name), 'geometry'], rows: all};
    }

    // The buttons of a map: both forms, of the shown time and of the whole run.
    function buttons(map) {
        const make = (form, time, columnsOf) => Elements.button(`${form} of ${time}`, () => {
            const {run, geometry} = map, columns = columnsOf(run);
            const name = `links_${time === 'this time' ? run.step : 'run'}_${run.name}`;
            if (form === 'GeoJSON') {
                const text = geoJson(run, geometry, columns);
                Elements.save(`${name}.geojson`, new Blob([text], {type: 'application/geo+json'}));
            } else {
                const {head, rows: all} = rows(run, geometry, columns);
                Elements.saveRows(name, head, all);
            }
            if (!run.nodes.isDegrees) map.say(notDegrees);
        }, {
            className: 'out',
            title: 'All links with all measures, for QGIS and other programs.' +
                (map.run.nodes.isDegrees ? '' : ` ${notDegrees}`)
        });
        return [['this time', columnsNow], ['the run', columnsOfRun]].flatMap(
            ([time, columns]) => ['GeoJSON', 'CSV'].map((form) => make(form, time, columns)));
    }

    return {buttons};
})();
