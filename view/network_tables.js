'use strict';
// The tables that a run reads: node.csv, link.csv and movement.csv, as GMNS names their columns,
// and demand.csv.
function networkTables(csv) {
    async function readNodes(file, tell) {
        const names = new csv.Names();
        const xs = [], ys = [], zones = [];
        let columns = null, id, x, y, zone;
        await csv.readRecords(file, (places) => {
            if (columns === null) {
                columns = new csv.Columns(places);
                id = columns.required('node_id', places);
                [x, y, zone] =
                    ['x_coord', 'y_coord', 'zone_id'].map((name) => columns.optional(name));
                return;
            }
            columns.check(places);
            addNew(names, columns.identifier(places, id), 'node', places);
            xs.push(coordinate(places, x));
            ys.push(coordinate(places, y));
            zones.push(zoneOf(places, zone));
        }, tell);
        return {names, xs, ys, zones};
    }

    // Where no number stands there is no coordinate, which is no fault: the program doesn't read
    // them.
    function coordinate(places, column) {
        if (places.isEmpty(column)) return NaN;
        const value = Number(places.text(column));
        return Number.isFinite(value) ? value : NaN;
    }

    // 0 and -1 mean no zone, and so does what is no identifier.
    function zoneOf(places, column) {
        if (places.isEmpty(column)) return '';
        const key = csv.identifier(places.bytes, places.starts[column], places.ends[column]);
        return key === key && key !== 0 ? String(key) : '';
    }

    // Of the demand: its zones, its rows, and how many of them are of less than two vehicles.
    async function readDemand(file, tell) {
        const zones = new csv.Names();
        let columns = null, at = null, rows = 0, small = 0;
        await csv.readRecords(file, (places) => {
            if (columns === null) {
                columns = new csv.Columns(places);
                at = ['o_zone_id', 'd_zone_id', 'volume'].map(
                    (name) => columns.required(name, places));
                return;
            }
            columns.check(places);
            zones.findOrAdd(columns.identifier(places, at[0]));
            zones.findOrAdd(columns.identifier(places, at[1]));
            rows += 1;
            if (columns.quantity(places, at[2]) < 2) small += 1;
        }, tell);
        return {zones: zones.texts(), rows, small};
    }

    function addNew(names, key, noun, places) {
        if (names.find(key) >= 0) {
            throw places.fault(`${noun} ${key} stands in an earlier line too.`);
        }
        names.add(key);
    }

    // Without a node table the nodes are those that links name.
    async function readLinks(file, nodes, tell) {
        const names = new csv.Names();
        const from = new csv.Numbers(), to = new csv.Numbers();
        const length = [], lanes = [], speed = [], capacity = [], windows = new Map();
        const titles = [], shapes = [];
        let columns = null, at = null;
        const nodeOf = (places, column) => {
            const key = columns.identifier(places, column);
            const node = nodes.isRead ? nodes.names.find(key) : nodes.names.findOrAdd(key);
            if (node >= 0) return node;
            throw places.fault(`${columns.names[column]} ${key} isn't in node.csv.`);
        };
        await csv.readRecords(file, (places) => {
            if (columns === null) {
                columns = new csv.Columns(places);
                at = linkColumns(columns, places);
                return;
            }
            columns.check(places);
            addNew(names, columns.identifier(places, at.id), 'link', places);
            from.push(nodeOf(places, at.from));
            to.push(nodeOf(places, at.to));
            length.push(columns.quantity(places, at.length));
            lanes.push(columns.quantity(places, at.lanes, 1));
            speed.push(columns.quantity(places, at.speed, NaN));
            capacity.push(columns.quantity(places, at.capacity, 1800));
            if (!places.isEmpty(at.windows))
                windows.set(capacity.length - 1, windowsOf(places, at.windows));
            if (at.title >= 0) titles.push(places.text(at.title));
            if (at.shape >= 0) shapes.push(places.text(at.shape));
        }, tell);
        return {
            names,
            from: from.taken(),
            to: to.taken(),
            length: Float64Array.from(length),
            lanes: Float64Array.from(lanes),
            speed: Float64Array.from(speed),
            capacity: Float64Array.from(capacity),
            windows,
            titles: titles.length > 0 ? titles : null,
            shapes: shapes.length > 0 ? shapes : null,
        };
    }

    // Windows of capacity, such as 0:1800;20:0, as pairs of a first step and a capacity. That of a
    // turn may be none, which is no limit.
    function windowsOf(places, column) {
        const valueOf = (text) => (text === 'none' ? Infinity : Number(text));
        const parts = places.text(column).split(';').map((part) => part.split(':').map(valueOf));
        if (parts.every((part) => part.length === 2 && !part.some(Number.isNaN))) return parts;
        throw places.fault(`capacity_by_step "${places.text(column)}" isn't steps and numbers.`);
    }

    // The turns that movement.csv lists, in the order of the links that they lead from: `starts`
    // has where those of each link begin. A turn without a limit has an endless capacity.
    async function readTurns(file, links, tell) {
        const rows = [];
        let columns = null, at = null;
        const linkOf = (places, column) => {
            const key = columns.identifier(places, column), link = links.names.find(key);
            if (link >= 0) return link;
            throw places.fault(`${columns.names[column]} ${key} isn't in link.csv.`);
        };
        await csv.readRecords(file, (places) => {
            if (columns === null) {
                columns = new csv.Columns(places);
                at = ['capacity', 'capacity_by_step'].map((name) => columns.optional(name));
                at.push(...['ib_link_id', 'ob_link_id'].map(
                    (name) => columns.required(name, places)));
                return;
            }
            columns.check(places);
            const [capacity, windows, from, to] = at;
            rows.push({
                from: linkOf(places, from),
                to: linkOf(places, to),
                capacity: columns.quantity(places, capacity, Infinity),
                windows: places.isEmpty(windows) ? null : windowsOf(places, windows),
            });
        }, tell);
        return turnsOf(rows, links.names.keys.length);
    }

    function turnsOf(rows, links) {
        rows.sort((one, other) => one.from - other.from);
        const starts = new Int32Array(links + 1), windows = new Map();
        rows.forEach((row, turn) => {
            starts[row.from + 1] += 1;
            if (row.windows !== null) windows.set(turn, row.windows);
        });
        for (let link = 0; link < links; link += 1) starts[link + 1] += starts[link];
        return {
            count: rows.length,
            starts,
            from: Int32Array.from(rows, (row) => row.from),
            to: Int32Array.from(rows, (row) => row.to),
            capacity: Float64Array.from(rows, (row) => row.capacity),
            windows,
        };
    }

    function linkColumns(columns, places) {
        return {
            id: columns.required('link_id', places),
            from: columns.required('from_node_id', places),
            to: columns.required('to_node_id', places),
            length: columns.required('length', places),
            lanes: columns.optional('lanes'),
            speed: columns.optional('free_speed'),
            capacity: columns.optional('capacity'),
            windows: columns.optional('capacity_by_step'),
            title: columns.optional('name'),
            shape: columns.optional('geometry'),
        };
    }

    return {readNodes, readLinks, readTurns, readDemand};
}
