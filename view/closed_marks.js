'use strict';
// What lets nobody through for all time, on the map: links as red dashes, and turns as a red bar
// at the end of the link that they lead from.
const ClosedMarks = (() => {
    const colour = '#b3261e';

    function draw(map) {
        const {pen, geometry, run} = map, {closedLinks, closedTurns} = run.movements;
        pen.strokeStyle = colour;
        pen.lineCap = 'butt';
        pen.lineWidth = Math.max(geometry.unit * 0.8, 2);
        pen.setLineDash([6, 4]);
        for (const link of closedLinks) {
            if (!geometry.isVisible[link]) continue;
            pen.beginPath();
            map.tracePath(link);
            pen.stroke();
        }
        pen.setLineDash([]);
        for (const turn of closedTurns) drawBar(map, run.turns.from[turn]);
    }

    // Its ends stand out on both sides of the link, whose vehicles may hide its middle.
    function drawBar(map, link) {
        const {pen, geometry} = map;
        if (!geometry.isVisible[link] || geometry.isLoop(link)) return;
        const {x, y, alongX, alongY} = geometry.pointAt(link, 0.94);
        const half = map.widthOfLink(link) / 2 + geometry.unit + 4;
        pen.lineWidth = Math.max(geometry.unit, 3);
        pen.beginPath();
        pen.moveTo(x - alongY * half, y + alongX * half);
        pen.lineTo(x + alongY * half, y - alongX * half);
        pen.stroke();
    }

    // How many there are, for the legend; empty where there are none.
    function words(runs) {
        const counts = runs.map(({movements: {closedLinks, closedTurns}}) => [
            ...(closedLinks.size === 0 ? [] : [counted(closedLinks.size, 'link')]),
            ...(closedTurns.length === 0 ? [] : [counted(closedTurns.length, 'turn')])
        ].join(', ') || 'none');
        return counts.every((count) => count === 'none') ? '' : counts.join(' | ');
    }

    function counted(count, noun) {
        return `${Totals.format(count)} ${noun}${count === 1 ? '' : 's'}`;
    }

    return {draw, words, colour};
})();
