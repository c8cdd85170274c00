'use strict';
// The turns at the node that is picked: how many vehicles take each in the bucket that is shown,
// and what its capacity lets through.
class NodePanel {
    constructor(box, actions) {
        this.box = box;
        this.actions = actions;
        this.shown = '';
    }

    // Made anew where another node or another bucket is shown.
    show(node, runs) {
        const having = runs.filter(
            (run) => run.hasLoading && run.visits !== null && run.nodes.names.includes(node));
        this.box.hidden = node === null || having.length === 0;
        const key = [
            node, Clock.start,
            ...having.map(
                (run) => [run.name, run.bucketAt(run.step), JSON.stringify(run.units)].join(' '))
        ].join('|');
        if (this.box.hidden || key === this.shown) return;
        this.shown = key;
        const close = Elements.button(
            'Close', () => this.actions.pickNode(null), {title: 'Close (Escape)'});
        this.box.replaceChildren(
            Elements.make('h2', {}, `Node ${node}`), close,
            ...having.flatMap((run) => this.part(run, node, having.length > 1)));
    }

    part(run, node, isNamed) {
        const bucket = run.bucketAt(run.step), place = run.nodes.names.indexOf(node);
        const turns = [];
        run.links.to.forEach((end, link) => {
            if (end === place) turns.push(...run.movements.of(link, bucket));
        });
        turns.sort((one, other) => other.vehicles / other.most - one.vehicles / one.most);
        const rows = turns.map((turn) => this.row(run, bucket, turn));
        const name = isNamed ? [Elements.make('h3', {}, run.name)] : [];
        if (rows.length === 0)
            return [...name, `Nobody turns here from ${run.bucketWords(bucket)}.`];
        const head = ['From link', 'To link', 'Vehicles', 'an hour', 'of', '%', ''];
        return [
            ...name, `Turns from ${run.bucketWords(bucket)}, with the capacity of those that ` +
                'movement.csv limits.',
            Elements.make('div', {className: 'scroll'}, Elements.table(head, rows, 2))
        ];
    }

    row(run, bucket, {from, to, vehicles, capacity, most, isFull}) {
        const {names} = run.links, flow = vehicles / run.hours(run.bucketSteps(bucket));
        const pick = Elements.button(
            names[from], () => this.actions.pick(names[from]),
            {className: 'pick', title: 'Show this link'});
        const share = most > 0 ? String(Math.round(100 * vehicles / most)) : '';
        return [
            pick, names[to], Totals.format(vehicles), Totals.format(Math.round(flow)),
            ...(capacity === Infinity ? ['', '', ''] : [
                Totals.format(Math.round(capacity)), share,
                most === 0 ? 'closed' : isFull ? 'full' : ''
            ])
        ];
    }
}
