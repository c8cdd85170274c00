'use strict';
// The card of trips: who uses a link, the routes between two zones, the way of one vehicle. What
// it tells is drawn on the map of its run: a trace of links with colours and widths.
class TripsPanel {
    constructor(box, actions) {
        this.box = box;
        this.actions = actions;
        this.result = Elements.make('div', {className: 'trips-result'});
        this.trace = null;
        this.runs = [];
    }

    show(runs) {
        this.runs = runs.filter((run) => run.visits !== null || run.skim !== null);
        this.box.hidden = this.runs.length === 0;
        const routes = () => this.showRoutes(this.chosenRun(), from.value.trim(), to.value.trim());
        const way = () => this.showVehicle(this.chosenRun(), vehicle.value.trim());
        const field = (name, words, action) => Elements.make('input', {
            type: 'text',
            id: name,
            size: 5,
            'aria-label': words,
            onkeydown: ({key}) => {
                if (key === 'Enter') action();
            }
        });
        const from = field('from-zone', 'From zone', routes);
        const to = field('to-zone', 'To zone', routes), vehicle = field('vehicle', 'Vehicle', way);
        this.run = Elements.make(
            'select', {'aria-label': 'Run', hidden: this.runs.length < 2},
            ...this.runs.map((run) => Elements.make('option', {}, run.name)));
        this.box.replaceChildren(
            Elements.make('h3', {}, 'Trips'), this.run,
            Elements.make(
                'div', {className: 'fields'}, 'From zone ', from, ' to ', to, ' ',
                Elements.button('Routes', routes, {id: 'routes'}), ' Vehicle ', vehicle, ' ',
                Elements.button('Its way', way, {id: 'way'})),
            this.result);
        this.clear();
    }

    // Shows the way of a vehicle of the first run that has one of this name, and answers whether
    // there is one.
    findVehicle(name) {
        const run = this.runs.find((one) => Trips.agentOf(one, name) >= 0);
        if (run !== undefined) this.showVehicle(run, name);
        return run !== undefined;
    }

    chosenRun() {
        return this.runs[Math.max(this.run.selectedIndex, 0)];
    }

    clear() {
        this.put(null, 'Of a link that is picked, “Who uses it” shows the trips over it.');
    }

    // What is shown of trips, in the card and as a trace on the map. The map goes to ways and
    // routes; for who uses a link it stays.
    put(trace, ...content) {
        this.trace = trace;
        if (trace !== null && trace.isSought) this.actions.seek(trace);
        const close = Elements.button('Close', () => this.clear(), {className: 'close-trips'});
        this.result.replaceChildren(...content, ...(trace === null ? [] : [close]));
        this.actions.traced();
    }

    static list(head, rows, wordColumns) {
        return Elements.make(
            'div', {className: 'scroll'}, Elements.table(head, rows, wordColumns));
    }

    static csv(name, head, rows) {
        return Elements.button(
            'CSV', () => Elements.saveRows(name, head, rows), {title: 'Save all as a table'});
    }

    // The pairs of zones over a link, and where its vehicles come from and go to.
    showLink(run, link) {
        const name = run.links.names[link], agents = Trips.over(run, link);
        const {before, behind} = Trips.flows(run, link, agents);
        const rows = Trips.pairs(run, agents).map(({from, to, count}) => [
            from, to, String(count), (100 * count / agents.length).toFixed(1)
        ]);
        const shown = rows.slice(0, 10).map(([from, to, ...rest]) => {
            const pick = Elements.button(
                from, () => this.showRoutes(run, from, to),
                {className: 'pick', title: 'Show the routes between these zones'});
            return [pick, to, ...rest];
        });
        const parts = [[before, 'before'], [behind, 'behind']].flatMap(
            ([counts, side]) => [...counts].map(([one, count]) => ({
                link: one,
                colour: TripsPanel.colours[side === 'before' ? 0 : 1],
                share: count / agents.length,
                words: `${Totals.format(count)} vehicles ${side} link ${name}`,
            })));
        const head = ['From zone', 'To zone', 'Vehicles', '%'];
        this.put(
            {run, parts}, Elements.make('h4', {}, `Who uses link ${name}`),
            `${Totals.format(agents.length)} vehicles entered it, of ` +
                `${Totals.format(rows.length)} pairs of zones. `,
            ...TripsPanel.key(['before it', 'behind it']), TripsPanel.list(head, shown, 2),
            TripsPanel.csv(`pairs_over_${name}_${run.name}`, head, rows));
    }

    // The shortest paths of a pair, by skim.csv.
    static leastTimes(run, from, to) {
        const starts = (run.skim || []).filter(
            ({origin, destination}) => origin === from && destination === to);
        if (starts.length === 0) return '';
        const words = starts.slice(0, 8).map(
            ({start, least}) => (least < 0 ? `none at ${run.clock(start)}` :
                `${run.minutes(least).toFixed(1)} min at ${run.clock(start)}`));
        return ` The shortest path by skim.csv: ${words.join(', ')}.`;
    }

    showRoutes(run, from, to) {
        const routes = run.agents === null ? [] : Trips.routes(run, from, to);
        const all = routes.reduce((sum, {count}) => sum + count, 0);
        const least = TripsPanel.leastTimes(run, from, to);
        if (all === 0) {
            const none = run.agents === null ? 'There is no agent.csv, and so no route.' :
                `No vehicle has a route from zone ${from} to zone ${to}.`;
            this.put(null, none + least);
            return;
        }
        const rows = routes.map(({links, count, ended, steps}) => [
            String(count), (100 * count / all).toFixed(1),
            ended === 0 ? '' : run.minutes(steps / ended).toFixed(1),
            links.reduce((sum, link) => sum + run.kilometres(link), 0).toFixed(1),
            links.map((link) => run.links.names[link]).join(';')
        ]);
        const shown = rows.slice(0, 10).map((row, place) => [
            TripsPanel.swatch(place), ...row.slice(0, 4), String(routes[place].links.length)
        ]);
        const head = ['Vehicles', '%', 'Minutes', 'Kilometres', 'Links'];
        const parts = routes.slice(0, 10).reverse().flatMap(
            ({links, count}, place, list) => links.map((link) => ({
                link,
                colour: TripsPanel.colour(list.length - 1 - place),
                share: 0.15 + 0.85 * (list.length - 1 - place) / list.length,
                words: `${Totals.format(count)} vehicles on route ${list.length - place}`,
            })));
        this.put(
            {run, parts, isSought: true}, Elements.make('h4', {}, `Zone ${from} to zone ${to}`),
            `${Totals.format(all)} vehicles on ${Totals.format(routes.length)} routes. Minutes ` +
                `are the mean of the trips that have ended, with waiting.${least}`,
            TripsPanel.list(['', ...head], shown, 1),
            TripsPanel.csv(`routes_${from}_${to}_${run.name}`, head, rows));
    }

    showVehicle(run, name) {
        const agent = Trips.agentOf(run, name);
        if (agent < 0) {
            this.put(null, `There is no vehicle ${name}.`);
            return;
        }
        const {departure, arrival} = run.agents, visits = Trips.way(run, agent);
        const rows = visits.map(({link, enter, leave}) => [
            run.links.names[link], run.linkTitle(link), enter < 0 ? '' : run.instant(enter),
            enter < 0 ? '' : run.minutes(leave - enter).toFixed(1)
        ]);
        const parts = visits.map(({link, enter}) => ({
            link,
            colour: TripsPanel.colours[enter < 0 ? 5 : 0],
            share: 0.5,
            words: enter < 0 ? 'not entered' : `vehicle ${name} enters at ${run.instant(enter)}`,
        }));
        const end =
            arrival[agent] < 0 ? 'hasn’t arrived' : `arrives ${run.instant(arrival[agent])}`;
        const head = ['Link', 'Way', 'Enters', 'Minutes'];
        this.put(
            {run, parts, isSought: true},
            Elements.make('h4', {}, `Vehicle ${name}, zones ${run.tripTitle(agent)}`),
            `Departs ${run.instant(departure[agent])}, ${end}.`,
            TripsPanel.list(head, rows, 2),
            TripsPanel.csv(`vehicle_${name}_${run.name}`, head, rows));
    }

    static colour(place) {
        return TripsPanel.colours[Math.min(place, TripsPanel.colours.length - 1)];
    }

    static swatch(place) {
        const swatch = Elements.make('span', {className: 'swatch'});
        swatch.style.background = TripsPanel.colour(place);
        swatch.style.height = '8px';
        return swatch;
    }

    static key(words) {
        return words.flatMap((one, place) => [TripsPanel.swatch(place), ` ${one}  `]);
    }
}

TripsPanel.colours = ['#0072b2', '#d55e00', '#009e73', '#cc79a7', '#e69f00', '#7d8a94'];
