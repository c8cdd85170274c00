'use strict';
// The bends of links: the points between their ends, by the column `geometry` of link.csv.
function linkShapes() {
    // Points of a text such as LINESTRING (0 0, 1 2), or null where it is none.
    function pointsOf(text) {
        const found = /^\s*LINESTRING[^(]*\(([^)]*)\)/i.exec(text);
        if (found === null) return null;
        const points = found[1].split(',').map((point) => point.trim().split(/\s+/).map(Number));
        const isPoint = (point) => point.length > 1 && point.every(Number.isFinite);
        return points.length > 1 && points.every(isPoint) ? points : null;
    }

    // The bends of all links in one list, in which each link knows where its own begin. A line
    // that doesn't begin and end near the link's nodes is in other coordinates, and is left out.
    function bendsOf(texts, links, {x, y, squeeze}) {
        if (texts === null) return null;
        const start = new Int32Array(texts.length + 1), xs = [], ys = [];
        for (let link = 0; link < texts.length; link += 1) {
            const points = pointsOf(texts[link]);
            const placed = points === null ? [] : points.map(([px, py]) => [px * squeeze, py]);
            const ends = [links.from[link], links.to[link]].map((node) => [x[node], y[node]]);
            if (placed.length > 2 && isNear(placed, ends)) {
                for (const [px, py] of placed.slice(1, -1)) {
                    xs.push(px);
                    ys.push(py);
                }
            }
            start[link + 1] = xs.length;
        }
        if (xs.length === 0) return null;
        return {start, x: Float64Array.from(xs), y: Float64Array.from(ys)};
    }

    function isNear(points, [first, last]) {
        const apart = (one, other) => Math.hypot(one[0] - other[0], one[1] - other[1]);
        let length = 0;
        for (let at = 1; at < points.length; at += 1) length += apart(points[at - 1], points[at]);
        return apart(points[0], first) <= length / 4
            && apart(points[points.length - 1], last) <= length / 4;
    }

    return {bendsOf};
}
