'use strict';
// The smaller tables of a run's results: link times, gaps, skims and counts.
function resultTables(csv) {
    const mostSteps = 86400;

    // link_performance.csv, of `assign` or of `freeflow`: they have different columns.
    async function readTimes(file, links, tell) {
        let columns = null, rows = null;
        await csv.readRecords(file, (places) => {
            if (columns === null) {
                columns = new csv.Columns(places);
                const isOfLoading = columns.optional('storage') < 0;
                rows = isOfLoading ? new TimeRows(columns, places, links) :
                                     new FreeRows(columns, places, links);
                return;
            }
            columns.check(places);
            rows.take(places);
        }, tell);
        return rows.done(file.name);
    }

    function linkOf(columns, places, column, links) {
        const key = columns.identifier(places, column);
        const link = links.names.find(key);
        if (link >= 0) return link;
        throw places.fault(
            `link ${key} isn't in link.csv. The table seems to be one of another run.`);
    }

    class FreeRows {
        constructor(columns, places, links) {
            this.columns = columns;
            this.links = links;
            this.at = ['link_id', 'free_steps', 'storage'].map(
                (name) => columns.required(name, places));
            this.free = new Int32Array(links.names.keys.length);
            this.storage = new Int32Array(links.names.keys.length);
            this.rows = 0;
        }

        take(places) {
            const [id, free, storage] = this.at;
            const link = linkOf(this.columns, places, id, this.links);
            this.free[link] = this.columns.whole(places, free);
            this.storage[link] = this.columns.whole(places, storage);
            this.rows += 1;
        }

        done(name) {
            needRows(name, this.rows, this.links.names.keys.length, '');
            return {kind: 'freeflow', free: this.free, storage: this.storage};
        }
    }

    function needRows(name, have, need, words) {
        if (have === need) return;
        throw new csv.TableFault(
            name, have + 1,
            `the table ends after ${have} rows, but the links of link.csv need ` +
                `${need}${words}. It seems to be one of another run, or to be cut off.`);
    }

    // The first link's rows tell the buckets; every other link must have the same.
    class TimeRows {
        constructor(columns, places, links) {
            this.columns = columns;
            this.links = links;
            this.count = links.names.keys.length;
            this.at = [
                'link_id', 'from_step', 'to_step', 'entered', 'travel_steps', 'free_steps'
            ].map((name) => columns.required(name, places));
            this.firstRows = [];
            this.firstLink = -1;
            this.buckets = 0;
            this.rows = 0;
            this.link = -1;
            this.seen = new Uint8Array(this.count);
            this.free = new Int32Array(this.count);
        }

        take(places) {
            const link = linkOf(this.columns, places, this.at[0], this.links);
            const [from, to, entered, travel, free] =
                this.at.slice(1).map((column) => this.columns.whole(places, column));
            if (this.firstLink < 0) this.firstLink = link;
            if (from >= to || to > mostSteps) {
                throw places.fault(`steps ${from} to ${to} are no bucket of time.`);
            }
            if (this.buckets === 0 && link !== this.firstLink) this.settle();
            if (this.buckets === 0) {
                this.firstRows.push({from, to, entered, travel, free});
            } else {
                this.put(places, link, from, to, entered, travel);
            }
            this.free[link] = free;
            this.rows += 1;
        }

        settle() {
            const rows = this.firstRows;
            this.buckets = rows.length;
            this.from = Int32Array.from(rows, (row) => row.from);
            this.to = Int32Array.from(rows, (row) => row.to);
            this.entered = new Int32Array(this.count * this.buckets);
            this.travel = new Int32Array(this.count * this.buckets);
            this.seen[this.firstLink] = 1;
            rows.forEach((row, bucket) => {
                this.entered[this.firstLink * this.buckets + bucket] = row.entered;
                this.travel[this.firstLink * this.buckets + bucket] = row.travel;
            });
        }

        put(places, link, from, to, entered, travel) {
            const bucket = this.rows % this.buckets;
            if (bucket === 0) {
                if (this.seen[link])
                    throw places.fault(`link ${this.name(link)} comes a second time.`);
                this.seen[link] = 1;
                this.link = link;
            }
            if (link !== this.link || from !== this.from[bucket] || to !== this.to[bucket]) {
                throw places.fault(
                    `link ${this.name(link)}, steps ${from} to ${to}, stands where link ` +
                    `${this.name(this.link)}, ` +
                    `steps ${this.from[bucket]} to ${this.to[bucket]}, should.`);
            }
            this.entered[link * this.buckets + bucket] = entered;
            this.travel[link * this.buckets + bucket] = travel;
        }

        name(link) {
            return this.links.names.keys[link];
        }

        done(name) {
            if (this.buckets === 0) this.settle();
            needRows(
                name, this.rows, this.count * this.buckets, ` (${this.buckets} buckets each)`);
            return {
                kind: 'loading',
                buckets: this.buckets,
                from: this.from,
                to: this.to,
                entered: this.entered,
                travel: this.travel,
                free: this.free,
            };
        }
    }

    // Rows of whole numbers, each an object by the names of its columns.
    async function readRows(file, names, tell, takeRow) {
        const rows = [];
        let columns = null, at = null;
        await csv.readRecords(file, (places) => {
            if (columns === null) {
                columns = new csv.Columns(places);
                at = names.map((name) => columns.required(name, places));
                return;
            }
            columns.check(places);
            rows.push(takeRow(columns, places, at));
        }, tell);
        return rows;
    }

    function readGap(file, tell) {
        const names = ['iteration', 'route_steps', 'least_steps', 'gap_steps', 'gap_ppm'];
        return readRows(file, names, tell, (columns, places, at) => {
            const [iteration, route, least, gap, ppm] =
                at.map((column) => columns.whole(places, column));
            return {iteration, route, least, gap, ppm};
        });
    }

    function readSkim(file, tell) {
        const names = ['o_zone_id', 'd_zone_id', 'start_step', 'least_steps'];
        return readRows(
            file, names, tell,
            (columns, places, [origin, destination, start, least]) => ({
                origin: String(columns.identifier(places, origin)),
                destination: String(columns.identifier(places, destination)),
                start: columns.whole(places, start),
                least: places.isEmpty(least) ? -1 : columns.whole(places, least),
            }));
    }

    function readWaits(file, links, tell) {
        const names = ['link_id', 'from_step', 'to_step', 'departed', 'wait_steps'];
        return readRows(file, names, tell, (columns, places, [id, ...at]) => {
            const link = linkOf(columns, places, id, links);
            const [from, to, departed, wait] = at.map((column) => columns.whole(places, column));
            return {link, from, to, departed, wait};
        });
    }

    function readCounts(file, links, tell) {
        const names = ['kind', 'first', 'second', 'from_step', 'to_step', 'vehicles'];
        return readRows(
            file, names, tell, (columns, places, [kind, first, second, from, to, vehicles]) => {
                const word = places.text(kind);
                if (word !== 'turn' && word !== 'through') {
                    throw places.fault(`kind "${word}" is neither turn nor through.`);
                }
                if (word === 'turn')
                    [first, second].map((column) => linkOf(columns, places, column, links));
                return {
                    kind: word,
                    first: String(columns.identifier(places, first)),
                    second: String(columns.identifier(places, second)),
                    from: columns.whole(places, from),
                    to: columns.whole(places, to),
                    vehicles: columns.whole(places, vehicles),
                };
            });
    }

    return {readTimes, readGap, readSkim, readWaits, readCounts, mostSteps};
}
