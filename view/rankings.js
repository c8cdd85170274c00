'use strict';
// The tables of the page: totals beside each other, the worst links, the longest trips, and skims
// and counts where there are any.
class Rankings {
    constructor(boxes, actions) {
        this.boxes = boxes;
        this.actions = actions;
        this.ranking = 'lost';
        this.bucketShown = '';
    }

    show(runs) {
        this.showTotals(runs);
        this.showTables(runs);
    }

    showTotals(runs) {
        const columns =
            runs.map((run) => new Map(Totals.rowsOf(run).map((row) => [row.name, row])));
        const names = [...new Set(columns.flatMap((column) => [...column.keys()]))];
        const head = ['Totals', ...runs.map((run) => run.name)];
        const table = (cell) => names.map(
            (name) =>
                [name,
                 ...columns.map((column) => (column.has(name) ? cell(column.get(name)) : ''))]);
        const rows = table(({text, value, digits}) => text || Totals.format(value, digits));
        const plain = table(({text, value}) => text || value);
        this.boxes.totals.replaceChildren(
            Elements.table(head, rows),
            Elements.button(
                'CSV', () => Elements.saveRows('totals', head, plain),
                {title: 'Save as a table'}));
    }

    // Called at every picture: makes the tables anew only where what they show has changed.
    update(runs) {
        if (this.ranking !== 'now') return;
        const shown = runs.map((run) => run.bucketAt(run.step)).join(' ');
        if (shown !== this.bucketShown) this.showTables(runs);
    }

    showTables(runs) {
        this.bucketShown = runs.map((run) => run.bucketAt(run.step)).join(' ');
        const cards = [];
        for (const run of runs) {
            const title = (words) => (runs.length > 1 ? `${words}: ${run.name}` : words);
            if (run.hasLoading)
                cards.push(this.linksCard(title('Ten most delayed links'), run, runs));
            if (run.agents !== null)
                cards.push(this.tripsCard(title('Ten longest trips'), run));
            if (run.skim !== null)
                cards.push(this.skimCard(title('Ten longest least times'), run));
            if (run.counts !== null) cards.push(...this.countCards(title, run));
        }
        this.boxes.tables.replaceChildren(...cards);
    }

    card(title, name, head, rows, words, shownRows = rows, wordColumns = 1) {
        return Elements.make(
            'section', {className: 'card', 'data-table': name.split('_')[0]},
            Elements.make('h3', {}, title), words,
            Elements.make(
                'div', {className: 'scroll'}, Elements.table(head, shownRows, wordColumns)),
            Elements.button(
                'CSV', () => Elements.saveRows(name, head, rows), {title: 'Save as a table'}));
    }

    linksCard(title, run, runs) {
        const links = Totals.rankings[this.ranking].links(run);
        const rows = links.map((link) => Rankings.linkRow(run, link));
        const shown = rows.map(([name, ...rest], place) => {
            const step = run.times.from[run.costliestBucket(links[place])];
            const pick = Elements.button(
                name, () => this.actions.pick(run, name, step),
                {className: 'pick', title: 'Show this link at its worst time'});
            return [pick, ...rest];
        });
        const choice = Elements.make(
            'select', {'aria-label': 'What the ten are chosen by'},
            ...Object.entries(Totals.rankings)
                .map(
                    ([id, {name}]) => Elements.make(
                        'option', {value: id, selected: id === this.ranking}, `by ${name}`)));
        choice.onchange = () => {
            this.ranking = choice.value;
            this.showTables(runs);
        };
        const head = [
            'Link', 'Way', 'Vehicle-hours lost', 'and waiting for it', 'Greatest delay',
            'Minutes', 'from', 'Minutes blocked', 'stood at most'
        ];
        return this.card(title, `links_${run.name}`, head, rows, choice, shown, 2);
    }

    static linkRow(run, link) {
        const bucket = run.worstBucket(link);
        const hours = (steps) => run.hours(steps).toFixed(1);
        const minutes = (steps) => run.minutes(steps).toFixed(1);
        const blocked = run.stands === null ? null : run.stands.of(link);
        return [
            run.links.names[link],
            run.linkTitle(link),
            hours(run.sumOverBuckets(link, run.lost)),
            run.waits === null ? '' : hours(run.waits.steps[link]),
            ...(bucket < 0 ? ['', '', ''] : [
                `×${run.ratio(link, bucket).toFixed(2)}`, minutes(run.travel(link, bucket)),
                run.clock(run.times.from[bucket])
            ]),
            ...(blocked === null ? ['', ''] : [minutes(blocked.steps), minutes(blocked.longest)]),
        ];
    }

    tripsCard(title, run) {
        const {agents} = run;
        const words = ['arrived', 'running', 'waiting', 'unrouted'];
        const rows = Totals.longestTrips(run).map((agent) => {
            const links = agents.linkStart[agent + 1] - agents.linkStart[agent];
            return [
                run.agentName(agent), run.tripTitle(agent), words[agents.status[agent]],
                Totals.format(run.minutes(run.tripSteps(agent)), 1),
                run.instant(agents.departure[agent]), String(links)
            ];
        });
        const head = ['Vehicle', 'Zones', 'Status', 'Minutes', 'Departs', 'Links'];
        return this.card(
            title, `trips_${run.name}`, head, rows,
            'A trip that hasn’t ended is counted up to the end of the run.', rows, 3);
    }

    skimCard(title, run) {
        const without = run.skim.filter((entry) => entry.least < 0).length;
        const rows =
            Totals.ten(run.skim.length, (place) => run.skim[place].least, -1).map((place) => {
                const {origin, destination, start, least} = run.skim[place];
                return [
                    `${origin} → ${destination}`, run.clock(start), String(least),
                    Totals.format(run.minutes(least), 1)
                ];
            });
        return this.card(
            title, `skim_${run.name}`, ['Zones', 'Start', 'Least steps', 'Minutes'], rows,
            `${Totals.format(run.skim.length)} entries, ` +
                `${Totals.format(without)} of them without a way.`);
    }

    countCards(title, run) {
        const card = (kind, words, firstName, secondName) => {
            const counts = run.counts.filter((count) => count.kind === kind);
            if (counts.length === 0) return [];
            const rows =
                Totals.ten(counts.length, (place) => counts[place].vehicles, 0).map((place) => {
                    const {first, second, from, to, vehicles} = counts[place];
                    return [
                        first, second, `${run.clock(from)} to ${run.clock(to)}`,
                        vehicles.toLocaleString('en')
                    ];
                });
            return [this.card(
                title(words), `${kind}_${run.name}`, [firstName, secondName, 'Time', 'Vehicles'],
                rows, '', rows, 3)];
        };
        return [
            ...card('turn', 'Ten busiest turns', 'From link', 'To link'),
            ...card('through', 'Ten busiest pairs over the selected link', 'From zone', 'To zone')
        ];
    }
}
