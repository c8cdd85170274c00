'use strict';
// What is known of the picked link: its numbers, its curve over time, the vehicles on it.
class LinkPanel {
    constructor(box, actions) {
        this.box = box;
        this.actions = actions;
        this.shown = '';
        this.parts = [];
    }

    // The panel is made anew where another link is picked, and brought up to date while the runs
    // are played.
    show(view, runs) {
        const having = runs.filter((run) => run.linkPlaces.has(view.selected));
        this.box.hidden = view.selected === null || having.length === 0;
        if (this.box.hidden) {
            this.shown = '';
            return;
        }
        const key = [
            view.selected, Clock.start,
            ...having.flatMap((run) => [run.name, JSON.stringify(run.units)])
        ].join('|');
        if (key !== this.shown) this.make(view, having);
        this.shown = key;
        for (const part of this.parts) this.update(part);
    }

    make(view, runs) {
        const close = Elements.button(
            'Close', () => this.actions.pick(null), {title: 'Close (Escape)'});
        this.box.replaceChildren(Elements.make('h2', {}, `Link ${view.selected}`), close);
        const row = Elements.make('div', {className: 'charts'});
        this.parts = runs.map((run) => this.part(run, view, runs.length > 1));
        row.append(...this.parts.map((part) => part.box));
        this.box.append(row);
        const most = Math.max(...this.parts.map((part) => part.most));
        for (const part of this.parts) {
            if (part.chart !== null)
                Chart.draw(part.canvas, {...part.chart, yMost: Chart.roundAbove(most)});
        }
    }

    part(run, view, isNamed) {
        const link = run.linkPlaces.get(view.selected);
        const numbers = Elements.make('dl', {className: 'numbers'});
        const vehicles = Elements.make('div', {className: 'vehicles'});
        const canvas = Elements.make('canvas', {
            className: 'chart',
            role: 'img',
            'aria-label': `Travel time of link ${view.selected} over time`
        });
        const chart = run.hasLoading ? this.curve(run, link) : null;
        canvas.hidden = chart === null;
        const use = Elements.button(
            'Who uses it', () => this.actions.use(run, link),
            {className: 'use', hidden: run.visits === null});
        const end = run.nodes.names[run.links.to[link]];
        const turns = Elements.button(
            'Turns at its end', () => this.actions.pickNode(end),
            {className: 'turns', hidden: run.visits === null || !run.hasLoading});
        const box = Elements.make(
            'figure', {}, isNamed ? Elements.make('h3', {}, run.name) : '', numbers, use, ' ',
            turns,
            Elements.make(
                'div', {className: 'curve'}, canvas, Elements.make('div', {className: 'mark'})),
            vehicles);
        const most =
            chart === null ? 0 : Math.max(...chart.series[0].points.map((point) => point[1]));
        return {box, run, link, numbers, canvas, chart, vehicles, most};
    }

    curve(run, link) {
        return {
            ...Curves.overTime([run]),
            yName: 'minutes on the link',
            series: [
                {
                    name: 'travel',
                    colour: Curves.colours.second,
                    isStepped: true,
                    points: Curves.byBucket(
                        run, (from, to, bucket) => run.minutes(run.travel(link, bucket)))
                },
                {
                    name: 'free flow',
                    colour: Curves.colours.first,
                    dash: [5, 4],
                    isStepped: true,
                    points: Curves.byBucket(run, () => run.minutes(run.times.free[link]))
                },
            ],
        };
    }

    update(part) {
        const facts = LinkPanel.facts(part.run, part.link);
        part.numbers.replaceChildren(...facts.flatMap(
            ([name, value]) => [Elements.make('dt', {}, name), Elements.make('dd', {}, value)]));
        if (part.run.occupancy !== null) this.updateVehicles(part);
    }

    // The numbers of a link at the run's step, as pairs of a name and a text. Hovering shows the
    // same.
    static facts(run, link) {
        const {links} = run, lanes = links.lanes[link];
        const capacity = run.capacity(link, run.bucketAt(run.step));
        return [
            ['way', run.linkTitle(link)],
            ...(links.titles === null || links.titles[link] === '' ? [] :
                                                                   [['name', links.titles[link]]]),
            [
                'length',
                `${Totals.format(links.length[link])} ${run.units.unit}, ` +
                    `${lanes} ${lanes === 1 ? 'lane' : 'lanes'}`,
            ],
            [
                'capacity',
                `${Totals.format(capacity)} vehicles an hour` +
                    (run.movements.closedLinks.has(link) ? ': closed for all time' : '')
            ],
            ...LinkPanel.timeFacts(run, link),
            ...LinkPanel.originFacts(run, link),
            ...LinkPanel.vehicleFacts(run, link),
            ...LinkPanel.limits(run, link).map(LinkPanel.limitFact),
            ...LinkPanel.turns(run, link),
        ];
    }

    static timeFacts(run, link) {
        if (run.times === null) return [];
        const words = (steps) =>
            `${run.minutes(steps).toFixed(1)} min (${steps} ${steps === 1 ? 'step' : 'steps'})`;
        const free = ['free flow', words(run.times.free[link])];
        if (run.isFreeflow) return [free];
        const bucket = run.bucketAt(run.step), entered = run.entered(link, bucket);
        const interval = run.bucketWords(bucket);
        if (entered === 0) return [free, ['entered', `nobody from ${interval}`]];
        const flow = run.flow(link, bucket);
        const share = Math.round(run.load(link, bucket));
        return [
            free,
            [
                'time',
                `${words(run.travel(link, bucket))}: ×${run.ratio(link, bucket).toFixed(2)}` +
                    LinkPanel.bound(run, link)
            ],
            ['speed', `${run.speed(link, bucket).toFixed(1)} km/h`],
            ['entered', `${Totals.format(entered)} vehicles from ${interval}`],
            [
                'flow',
                `${Totals.format(Math.round(flow))} vehicles an hour (${share} % of capacity)`
            ],
        ];
    }

    // The mean wait at the origin of those who depart for a link, by origin_wait.csv.
    static originFacts(run, link) {
        const row = run.originWait(link);
        if (row === undefined) return [];
        return [[
            'wait before it',
            `${run.minutes(row.wait).toFixed(1)} min in the mean, of ` +
                `${Totals.format(row.departed)} vehicles that depart for it from ` +
                `${run.clock(row.from)} to ${run.clock(row.to)}`
        ]];
    }

    static vehicleFacts(run, link) {
        const storage = run.storage[link];
        if (run.occupancy === null) return [['stores', `${Totals.format(storage)} vehicles`]];
        const count = run.occupancy.vehiclesOn(link), share = Math.round(100 * count / storage);
        const places = `${Totals.format(storage)} that it stores (${share} %)`;
        const waiting = Totals.format(run.occupancy.waiting[link]);
        const stood = run.stoodOn(link);
        const words = `for ${run.minutes(stood).toFixed(1)} min its first vehicle has stood` +
            (stood < 0 ? '' : LinkPanel.before(run, link));
        return [
            ...(stood < 0 ? [] : [['blocked', words]]),
            ['waiting', `${waiting} vehicles at origins for it`],
            ['on it', `${Totals.format(count)} vehicles of ${places}`],
        ];
    }

    // The first vehicle may stand before what lets nobody through.
    static before(run, link) {
        const held = run.movements.heldBy(link, run.occupancy.rangeOn(link)[0]);
        return held === '' ? '' : `, before a ${held} with a capacity of 0 for all time`;
    }

    // The turns of a link that have a limit, in the bucket of the run's step.
    static limits(run, link) {
        if (run.turns === null || run.visits === null || !run.hasLoading) return [];
        return run.movements.of(link, run.bucketAt(run.step))
            .filter(({capacity}) => capacity < Infinity)
            .map((turn) => ({...turn, run}));
    }

    static limitFact({run, from, to, vehicles, capacity, most, isFull}) {
        const {names} = run.links, flow = vehicles * capacity / most;
        return [
            `turn ${names[from]} → ${names[to]}`,
            most === 0 ? 'lets nobody through' :
                `${Totals.format(Math.round(flow))} vehicles an hour of ` +
                `${Totals.format(Math.round(capacity))} that it lets through ` +
                `(${Math.round(100 * vehicles / most)} %)${isFull ? ': it is full' : ''}`
        ];
    }

    // Which turns hold up those who are delayed.
    static bound(run, link) {
        if (run.ratio(link, run.bucketAt(run.step)) <= 1) return '';
        const full = LinkPanel.limits(run, link).filter(({isFull, most}) => isFull && most > 0);
        const names = full.map(({to}) => run.links.names[to]).join(', ');
        return full.length === 0 ? '' :
            full.length === 1 ? `; the turn to link ${names} is full` :
                                `; the turns to links ${names} are full`;
    }

    // A count is of its own interval, which may be longer than the bucket that is shown.
    static turns(run, link) {
        if (run.counts === null) return [];
        const name = run.links.names[link];
        const turns = run.counts.filter(
            (count) => count.kind === 'turn' && count.first === name && count.from <= run.step
                && run.step < count.to);
        return turns.slice(0, 6).map(
            ({second, from, to, vehicles}) =>
                [`turn to ${second}`,
                 `${Totals.format(vehicles)} vehicles from ${run.clock(from)} to ` +
                     `${run.clock(to)}: ` +
                     `${Totals.format(Math.round(vehicles / run.hours(to - from)))} an hour`]);
    }

    updateVehicles(part) {
        const {run, link} = part, most = 12;
        const [first, behind] = run.occupancy.rangeOn(link);
        const rows = [];
        for (let visit = first; visit < Math.min(behind, first + most); visit += 1) {
            const agent = run.visits.agent[visit];
            rows.push([
                run.agentName(agent), run.tripTitle(agent), run.instant(run.visits.enter[visit]),
                run.minutes(run.step - run.visits.enter[visit]).toFixed(1)
            ]);
        }
        if (rows.length === 0) {
            part.vehicles.replaceChildren('No vehicle is on the link now.');
            return;
        }
        const rest = behind - first - rows.length;
        part.vehicles.replaceChildren(
            Elements.table(['Vehicle', 'Zones', 'Entered at', 'Minutes on it'], rows, 2),
            rest > 0 ? `and ${Totals.format(rest)} more behind these.` : '');
    }
}
