'use strict';
// The names of the worst links on the map, each beside its link and none over another.
class MapLabels {
    constructor(map) {
        this.map = map;
        this.words = [];
        this.boxes = map.geometry.nodeRadius >= 10 ? MapLabels.nodeBoxes(map) : [];
    }

    // Nodes that are drawn with their names stay free of labels.
    static nodeBoxes({run, geometry, camera, width, height}) {
        const boxes = [], radius = geometry.nodeRadius;
        for (let node = 0; node < run.nodes.count; node += 1) {
            const x = geometry.screenX(node, camera, width),
                  y = geometry.screenY(node, camera, height);
            if (x < -radius || x > width + radius || y < -radius || y > height + radius) continue;
            boxes.push(
                {left: x - radius, top: y - radius, width: 2 * radius, height: 2 * radius});
        }
        return boxes;
    }

    draw(view) {
        const {pen, run} = this.map, selected = run.linkPlaces.get(view.selected);
        const worst = this.map.traceOf(view) === null ? this.map.worst : [];
        const isNamed = selected === undefined || worst.includes(selected);
        pen.font = '600 12px system-ui, sans-serif';
        pen.textAlign = 'left';
        pen.textBaseline = 'middle';
        for (const link of isNamed ? worst : [selected, ...worst]) this.place(view, link);
    }

    // The visible links of the greatest values, the greatest first. Of delays and what is like
    // them these are the links that lose most: a stub of one step has the greatest delay soon.
    static worst({values, geometry, run}, measure, most) {
        if (!measure.has(run) || measure.isUnnamed) return [];
        const bucket = run.bucketAt(run.step);
        const rank = measure.hasBlocked ? (link) => run.lost(link, bucket) :
                                          (link) => values[link];
        return Totals.ten(
            run.links.count, (link) => (geometry.isVisible[link] ? rank(link) : 0), 0, most);
    }

    // To the right of the link's direction, or where that is taken to the left, or nowhere.
    place(view, link) {
        const {pen, geometry, values, classes, run, width, height} = this.map;
        const {measure} = view.scale;
        const shown = measure.has(run) ?
            Measures.wordsOf(view.scale, run, link, values[link], classes[link]) :
            '';
        const words = `link ${run.links.names[link]}  ${shown}`.trim();
        this.words.push(words);
        const {x: middleX, y: middleY, alongX, alongY} = geometry.pointAt(link, 0.5);
        const sideX = -alongY, sideY = alongX;
        const box = {width: pen.measureText(words).width + 12, height: 20};
        for (const side of [1, -1, 2, -2, 3, -3, 4, -4]) {
            const away = Math.sign(side)
                * (box.width / 2 * Math.abs(sideX) + box.height / 2 * Math.abs(sideY)
                   + geometry.unit * 2 + 8 + (Math.abs(side) - 1) * 30);
            box.left = Math.min(
                Math.max(middleX + sideX * away - box.width / 2, 4), width - box.width - 4);
            box.top = Math.min(
                Math.max(middleY + sideY * away - box.height / 2, 4), height - box.height - 4);
            if (!this.boxes.every((other) => MapLabels.areApart(box, other))) continue;
            this.boxes.push(box);
            this.drawBox(words, box, middleX, middleY);
            return;
        }
    }

    static areApart(first, second) {
        return first.left > second.left + second.width || second.left > first.left + first.width
            || first.top > second.top + second.height || second.top > first.top + first.height;
    }

    drawBox(words, box, middleX, middleY) {
        const {pen} = this.map;
        pen.strokeStyle = '#28323a';
        pen.lineWidth = 1;
        pen.beginPath();
        pen.moveTo(middleX, middleY);
        pen.lineTo(
            Math.min(Math.max(middleX, box.left), box.left + box.width),
            Math.min(Math.max(middleY, box.top), box.top + box.height));
        pen.stroke();
        pen.fillStyle = 'rgba(255, 255, 255, 0.94)';
        pen.fillRect(box.left, box.top, box.width, box.height);
        pen.strokeRect(box.left + 0.5, box.top + 0.5, box.width - 1, box.height - 1);
        pen.fillStyle = '#1a2228';
        pen.fillText(words, box.left + 6, box.top + box.height / 2 + 0.5);
    }
}
