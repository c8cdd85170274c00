'use strict';
// Vehicles as dots on the links that are long enough on the screen to show them. A vehicle drives
// for the link's free-flow steps; then it stands behind those that entered before it, since
// nobody passes on a link.
class MapVehicles {
    constructor(map) {
        this.map = map;
        this.words = '';
    }

    draw(view) {
        const {run, geometry, pen} = this.map;
        if (run.occupancy === null || !view.showVehicles) return;
        if (geometry.middle < 24) {
            this.words = 'Zoom in to see vehicles.';
            return;
        }
        let dots = 0, crowded = 0;
        pen.beginPath();
        for (let link = 0; link < run.links.count; link += 1) {
            if (!geometry.isVisible[link] || geometry.isLoop(link)) continue;
            const count = run.occupancy.vehiclesOn(link);
            if (count === 0) continue;
            const rows = this.rowsOf(link);
            if (geometry.lengthOnScreen(link) * rows < 3 * count) {
                crowded += 1;
                continue;
            }
            this.traceLink(link, run.step, count, rows);
            dots += count;
            if (dots > 20000) break;
        }
        pen.fillStyle = '#0c1115';
        pen.strokeStyle = '#ffffff';
        pen.lineWidth = 1;
        pen.stroke();
        pen.fill();
        this.words = MapVehicles.words(dots, crowded);
    }

    static words(dots, crowded) {
        const shown = dots > 0 ? [`${Totals.format(dots)} vehicles as dots`] : [];
        const links = crowded === 1 ? '1 link has' : `${Totals.format(crowded)} links have`;
        const rest = crowded > 0 ? [`${links} too many vehicles for dots: zoom in`] : [];
        return [...shown, ...rest].join('; ');
    }

    // As many rows of dots as the link has lanes and its line has room for.
    rowsOf(link) {
        const room = Math.floor(this.map.widthOfLink(link) / 4);
        return Math.max(Math.min(Math.floor(this.map.run.links.lanes[link]), room), 1);
    }

    traceLink(link, step, count, rows) {
        const {run, geometry, pen} = this.map, {visits} = run;
        const free = run.times === null ? 1 : run.times.free[link];
        const room = 1 / Math.max(count, run.storage[link]);
        const radius = rows > 1 ? 1.6 : Math.min(Math.max(geometry.unit * 0.6, 1.4), 3);
        const [first, behind] = run.occupancy.rangeOn(link);
        for (let visit = first; visit < behind; visit += 1) {
            const driven = (step - visits.enter[visit]) / free;
            const share = Math.max(Math.min(driven, 1 - (visit - first) * room), 0);
            const row = run.visits.agent[visit] % rows - (rows - 1) / 2;
            const point = geometry.pointAt(link, share);
            const x = point.x - point.alongY * 4 * row, y = point.y + point.alongX * 4 * row;
            pen.moveTo(x + radius, y);
            pen.arc(x, y, radius, 0, 2 * Math.PI);
        }
    }
}
