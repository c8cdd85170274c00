'use strict';
// The legend below the maps, with how many links each class has at the moment, and pictures of
// maps with it.
class Legend {
    constructor(box) {
        this.box = box;
        this.counts = [];
    }

    show(scale, runs) {
        this.scale = scale;
        this.counts = [];
        if (!runs.some((run) => scale.measure.has(run))) {
            this.box.replaceChildren('There are no results yet to colour links by.');
            return;
        }
        const parts = [];
        const classes = scale.bounds.length + 2 + (scale.hasBlocked ? 1 : 0);
        for (let place = 0; place < classes; place += 1) {
            const swatch = Elements.make('span', {className: 'swatch'});
            swatch.style.background = Measures.colours[place];
            swatch.style.height = `${2 + 4 * Measures.widths[place]}px`;
            const count = Elements.make('span', {className: 'count'});
            this.counts.push(count);
            parts.push(Elements.make(
                'span', {className: 'class'}, swatch,
                Elements.make('span', {className: 'bound'}, Measures.classWords(scale, place)),
                count));
        }
        this.box.replaceChildren(
            Elements.make('strong', {}, scale.measure.name), ...parts, ...Legend.closed(runs));
    }

    // Links and turns that let nobody through have a mark of their own.
    static closed(runs) {
        const words = ClosedMarks.words(runs);
        if (words === '') return [];
        const swatch = Elements.make('span', {className: 'swatch closed'});
        swatch.style.borderTopColor = ClosedMarks.colour;
        return [Elements.make(
            'span', {className: 'class', id: 'closed'}, swatch, 'capacity 0 for all time',
            Elements.make('span', {className: 'count'}, words))];
    }

    update(maps) {
        this.counts.forEach((box, place) => {
            const words =
                maps.map((map) => map.classCounts[place].toLocaleString('en')).join(' | ');
            if (box.textContent !== words) box.textContent = words;
        });
    }

    // A picture of a map with its name, its time and this legend.
    picture(map, words) {
        const share = map.canvas.width / map.width, head = 34, foot = 54;
        const canvas = document.createElement('canvas');
        canvas.width = map.canvas.width;
        canvas.height = map.canvas.height + (head + foot) * share;
        const pen = canvas.getContext('2d');
        pen.scale(share, share);
        pen.fillStyle = '#ffffff';
        pen.fillRect(0, 0, canvas.width, canvas.height);
        pen.drawImage(map.canvas, 0, head, map.width, map.height);
        pen.fillStyle = '#1a2228';
        pen.textBaseline = 'middle';
        pen.font = '600 14px system-ui, sans-serif';
        pen.fillText(words, 10, head / 2);
        pen.font = '12px system-ui, sans-serif';
        pen.fillText(this.scale.measure.name, 10, head + map.height + 14);
        this.drawClasses(pen, 10, head + map.height + 34);
        return canvas;
    }
    // Each class as a piece of its line, with its words.
    drawClasses(pen, left, middle) {
        let x = left;
        for (let place = 0; place < this.counts.length; place += 1) {
            const height = 2 + 4 * Measures.widths[place];
            const words = Measures.classWords(this.scale, place);
            pen.fillStyle = Measures.colours[place];
            pen.fillRect(x, middle - height / 2, 20, height);
            pen.fillStyle = '#1a2228';
            pen.fillText(words, x + 25, middle);
            x += 25 + pen.measureText(words).width + 16;
        }
    }
}
