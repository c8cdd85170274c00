'use strict';
// Reads the files of one run, checks that they belong together, and makes of them what the page
// shows.
function runReader(csv, network, results, agentRows, visitTools, places, shapes) {
    const kinds = [
        'node', 'link', 'movement', 'demand', 'link_performance', 'agent', 'origin_wait', 'gap',
        'skim', 'counts'
    ];
    // Tables of a run that the page has no use for.
    const others = ['start', 'times'];

    const wordsName = 'words.txt';
    // The tables whose words are asked for, the first one that there is.
    const ofRun = ['agent.csv', 'link_performance.csv', 'counts.csv', 'skim.csv'];

    // The words by which the run was made, and the version, by words.txt. The command `dta` notes
    // the tables that a run wrote with their sizes; where one has another size now, the words are
    // of another run. What a person wrote there is the words alone. A note without tables is of
    // all.
    async function wordsOf(files, faults) {
        const file = files.find(({name}) => name === wordsName);
        if (file === undefined) return {words: [], version: ''};
        const text = await file.text(), sizes = new Map(files.map(({name, size}) => [name, size]));
        const notes = [...text.matchAll(/^(.*)\r?\ndta (\S+) wrote (.*)$/gm)].map(noteOf);
        if (notes.length === 0) return {words: split(text), version: ''};
        for (const table of ofRun.filter((name) => sizes.has(name))) {
            const note = notes.find(({tables}) => tables.has(table) || tables.size === 0);
            if (note === undefined) continue;
            const other = [...note.tables].find(
                ([name, size]) => sizes.has(name) && sizes.get(name) !== size);
            if (other === undefined) return note;
            faults.push(
                `${wordsName} speaks of ${other[0]} with ${other[1]} bytes, and this one has ` +
                `${sizes.get(other[0])}: it tells of another run, and isn't used.`);
            break;
        }
        return {words: [], version: ''};
    }

    function noteOf([, words, version, tables]) {
        const sizes = [...tables.matchAll(/(\S+) \((\d+) bytes\)/g)];
        return {
            words: split(words),
            version,
            tables: new Map(sizes.map(([, name, size]) => [name, Number(size)]))
        };
    }

    function split(text) {
        return text.split(/\s+/).filter(Boolean);
    }

    // Whether the words of a run ask for costs of whole trips.
    function isByTrips(words) {
        return words.some(
            (word, place) => word === '--costs=trips' ||
                word === 'trips' && words[place - 1] === '--costs');
    }

    // A file is known by its name or, where a browser or a person has changed that, by its
    // columns.
    async function kindOf(file) {
        const base = file.name.toLowerCase().replace(/\.csv$/, '');
        if (kinds.includes(base)) return base;
        if (others.includes(base)) return 'other';
        const head = new TextDecoder().decode(await file.slice(0, 4096).arrayBuffer());
        const columns =
            head.split(/[\r\n]/)[0].replace(/^\uFEFF/, '').replace(/["\s]/g, '').split(',');
        const has = (name) => columns.includes(name);
        if (has('entry_steps')) return 'agent';
        if (has('ib_link_id')) return 'movement';
        if (has('volume')) return 'demand';
        if (has('from_node_id') && has('link_id')) return 'link';
        if (has('free_steps')) return 'link_performance';
        if (has('wait_steps')) return 'origin_wait';
        if (has('gap_steps')) return 'gap';
        if (has('least_steps')) return 'skim';
        if (has('kind')) return 'counts';
        if (has('node_id')) return 'node';
        return 'unknown';
    }

    async function sorted(files, notes) {
        const chosen = new Map();
        for (const file of files) {
            const kind = await kindOf(file);
            if (kind === 'other') continue;
            if (kind === 'unknown') {
                notes.push(
                    `${file.name}, line 1: these are the columns of none of the tables that ` +
                    `this page reads (${kinds.join(', ')}). The file is passed over.`);
            } else if (chosen.has(kind)) {
                notes.push(
                    `${file.name}: there is a second table of this kind, ` +
                    `${chosen.get(kind).name}. The first one is shown.`);
            } else {
                chosen.set(kind, file);
            }
        }
        return chosen;
    }

    // Tells what is being read, as a share of all bytes.
    function teller(chosen, tell) {
        const all = [...chosen.values()].reduce((sum, file) => sum + file.size, 0);
        let before = 0;
        return async (kind, read) => {
            const file = chosen.get(kind);
            const result = await read(file, (bytes) => {
                tell(`Reading ${file.name}`, (before + bytes) / Math.max(all, 1));
            });
            before += file.size;
            return result;
        };
    }

    // A result table that can't be read is left out, with its fault; without the link table there
    // is no run.
    async function readRun(files, tell) {
        const notes = [], faults = [];
        const {words, version} = await wordsOf(files, faults);
        const chosen = await sorted(files.filter((file) => file.name !== wordsName), notes);
        if (!chosen.has('link')) return {run: null, notes, faults: [withoutLinks(chosen)]};
        // A run by link times leaves the origin waits of an earlier run as they were.
        if (chosen.has('agent') && !isByTrips(words)) chosen.delete('origin_wait');
        const withProgress = teller(chosen, tell);
        try {
            const tables = await readNetwork(chosen, withProgress);
            const run = {...networkOf(tables, notes), words, version};
            await readResults(run, tables.links, chosen, withProgress, faults);
            tell('Sorting the vehicles', 1);
            finish(run, notes, faults);
            return {run, notes, faults};
        } catch (fault) {
            return {run: null, notes, faults: [...faults, sentenceOf(fault)]};
        }
    }

    function withoutLinks(chosen) {
        const have = [...chosen.values()].map((file) => file.name).join(', ');
        return (have === '' ? 'None of these files is a table of a run. ' :
                              `There is ${have}, but no link.csv. `)
            + 'Choose the folder of a run, or at least its node.csv and link.csv.';
    }

    function sentenceOf(fault) {
        if (fault.isTableFault) return fault.message;
        if (fault instanceof RangeError) return `There isn't enough memory: ${fault.message}.`;
        return `The files couldn't be read: ${fault.message}.`;
    }

    async function readNetwork(chosen, withProgress) {
        const nodes = chosen.has('node') ? await withProgress('node', network.readNodes) :
                                           {names: new csv.Names(), xs: [], ys: [], zones: []};
        nodes.isRead = chosen.has('node');
        nodes.names.settle();
        const links =
            await withProgress('link', (file, tell) => network.readLinks(file, nodes, tell));
        links.names.settle();
        return {nodes, links};
    }

    function networkOf({nodes, links}, notes) {
        const where = places.placesOf(nodes, links);
        const {x, y, squeeze, isDegrees, isMadeUp = false, words} = where;
        if (words !== '') notes.push(words);
        if (!nodes.isRead)
            notes.push('There is no node.csv: the nodes are those that link.csv names.');
        if (links.from.length === 0) notes.push('link.csv has no links.');
        return {
            nodes: {
                count: x.length,
                names: nodes.names.texts(),
                zones: nodes.zones,
                x,
                y,
                squeeze,
                isDegrees,
                isMadeUp,
            },
            links: {
                count: links.from.length,
                names: links.names.texts(),
                from: links.from,
                to: links.to,
                length: links.length,
                lanes: links.lanes,
                speed: links.speed,
                capacity: links.capacity,
                windows: links.windows,
                titles: links.titles,
                bends: shapes.bendsOf(links.shapes, links, where),
            },
            times: null,
            agents: null,
            visits: null,
            lostSteps: null,
            waits: null,
            states: null,
            sums: null,
            turns: null,
            originWaits: null,
            demand: null,
            gap: null,
            skim: null,
            counts: null,
            horizon: 0,
        };
    }

    async function readResults(run, links, chosen, withProgress, faults) {
        const readers = {
            times: ['link_performance', (file, tell) => results.readTimes(file, links, tell)],
            turns: ['movement', (file, tell) => network.readTurns(file, links, tell)],
            demand: ['demand', network.readDemand],
            originWaits:
                ['origin_wait', (file, tell) => results.readWaits(file, links, tell)],
            gap: ['gap', results.readGap],
            skim: ['skim', results.readSkim],
            counts: ['counts', (file, tell) => results.readCounts(file, links, tell)],
            agents: ['agent', (file, tell) => agentRows.readAgents(file, links, tell)],
        };
        for (const [field, [kind, read]] of Object.entries(readers)) {
            if (!chosen.has(kind)) continue;
            try {
                run[field] = await withProgress(kind, read);
            } catch (fault) {
                faults.push(`${sentenceOf(fault)} The table is left out.`);
            }
        }
    }

    function finish(run, notes, faults) {
        const hasBuckets = run.times !== null && run.times.kind === 'loading';
        run.horizon = hasBuckets ? run.times.to[run.times.buckets - 1] : 0;
        if (run.agents !== null) {
            const last = lastStep(run.agents) + 1;
            if (hasBuckets && last > run.horizon) {
                faults.push(
                    `agent.csv has a step ${last - 1}, but link_performance.csv ends at step ` +
                    `${run.horizon}: one of them is of another run. The vehicles are left out.`);
                run.agents = null;
            }
            run.horizon = Math.max(run.horizon, last);
        }
        if (run.agents !== null) {
            addVisits(run, hasBuckets, faults);
            if (hasBuckets) compareWaits(run, faults);
        } else if (!hasBuckets)
            notes.push(
                'There are no link times of a loading and no vehicles: the network alone ' +
                'is shown. `dta assign` writes link_performance.csv and agent.csv.');
    }

    function lastStep(agents) {
        let last = 0;
        for (const list of [agents.departure, agents.arrival, agents.entries]) {
            for (let place = 0; place < list.length; place += 1)
                last = Math.max(last, list[place]);
        }
        return last;
    }

    function addVisits(run, hasBuckets, faults) {
        const visits = visitTools.visitsOf(run.agents, run.horizon);
        const different = hasBuckets ? visitTools.disagreement(visits, run.times) : null;
        if (different !== null) {
            const name = run.links.names[different.link];
            const line = 2 + different.link * run.times.buckets + different.bucket;
            faults.push(
                `link_performance.csv, line ${line}: ${different.told} vehicles entered link ` +
                `${name}, but in agent.csv it is ${different.visits}: ` +
                'one of the tables is of another run.');
        }
        run.visits = visitTools.indexOf(visits, run.links.count, run.horizon);
        run.waits = visitTools.waitsOf(run.agents, run.links.count, run.horizon);
        run.states = visitTools.statesOf(run.agents, run.horizon);
        run.sums = visitTools.sumsOf(run.agents, visits, run.links, run.horizon);
        if (hasBuckets) run.lostSteps = visitTools.lostSteps(run.visits, run.times);
    }

    // Leaves the table of origin waits out where it isn't that of the vehicles.
    function compareWaits(run, faults) {
        if (run.originWaits === null) return;
        const other = visitTools.otherWaits(run.agents, run.originWaits, run.horizon);
        if (other === null) return;
        const name = run.links.names[other.link], told = run.originWaits[other.row];
        const words = ({departed, wait}) =>
            `${departed} vehicles departed for it and waited ${wait} steps in the mean`;
        faults.push(
            (told === undefined ?
                 `origin_wait.csv has no line for link ${name} and step ${other.step}, but in ` +
                     'agent.csv a vehicle departs for it then' :
                 `origin_wait.csv, line ${other.row + 2}: link ${name}: ${words(told)}, but in ` +
                     `agent.csv ${words(other)}`) +
            ': one of the tables is of another run. The origin waits are left out.');
        run.originWaits = null;
    }

    return {readRun};
}
