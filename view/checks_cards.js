'use strict';
// The cards of checks, one for each run: sentences, links to be shown, and when vehicles depart.
class ChecksCards {
    constructor(box, actions) {
        this.box = box;
        this.actions = actions;
    }

    show(runs) {
        const cards = runs.map((run) => this.card(run));
        this.box.replaceChildren(...cards.map(({card}) => card));
        for (const {draw} of cards) draw();
    }

    card(run) {
        const items = Checks.ofRun(run).map((found) => this.item(run, found));
        const card = Elements.make(
            'section', {className: 'card', 'data-checks': run.name},
            Elements.make('h3', {}, run.name),
            Elements.make('ul', {className: 'checks'}, ...items));
        if (run.agents === null || run.agents.count === 0) return {card, draw: () => {}};
        const kind = {id: 'departures', title: 'When vehicles depart'};
        const {figure, draw} = Curves.figure(kind, run, ChecksCards.histogram(run));
        card.append(figure);
        return {card, draw};
    }

    item(run, {id, isFine, words, links}) {
        const picks = links.slice(0, 8).map((link) => {
            const name = run.links.names[link];
            return Elements.button(
                name, () => this.actions.show(name),
                {className: 'pick', title: 'Show this link on the map'});
        });
        return Elements.make(
            'li', {className: isFine ? 'fine' : 'look', 'data-check': id}, `${words} `, ...picks);
    }

    // Departures by minute, or by as many steps as make about sixty bars.
    static histogram(run) {
        const counts = Checks.departed(run);
        const last = counts.reduce((before, count, step) => (count > 0 ? step : before), 0) + 1;
        const wide = Math.max(Math.ceil(last / 60), 1), edges = [0], values = [];
        for (let from = 0; from < last; from += wide) {
            edges.push((from + wide) * run.units.stepSeconds);
            values.push(
                counts.subarray(from, from + wide).reduce((sum, count) => sum + count, 0));
        }
        return {
            ...Curves.overTime([run]),
            xMost: edges[edges.length - 1],
            yName: `departures in ${wide} ${wide === 1 ? 'step' : 'steps'}`,
            series: [],
            bars: {colour: Curves.colours.bar, edges, values},
        };
    }
}
