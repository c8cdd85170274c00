'use strict';
// Where links stand: in the network's own coordinates once, and on the screen again whenever the
// camera moves.
class MapGeometry {
    constructor(run) {
        const {nodes, links} = run;
        this.run = run;
        this.count = links.count;
        this.bends = links.bends;
        this.bendScreen = new Float32Array(links.bends === null ? 0 : links.bends.x.length * 2);
        this.side = MapGeometry.sidesOf(links);
        this.screen = new Float32Array(links.count * 4);
        this.isVisible = new Uint8Array(links.count);
        this.bounds = MapGeometry.boundsOf(nodes);
        this.middleLength = this.middleOfLengths();
        this.rank = MapGeometry.ranksOf(links);
    }

    // Links between the same two nodes stand beside each other: the first at side 0, the next one
    // at 1, ..
    static sidesOf(links) {
        const sides = new Uint8Array(links.count);
        const seen = new Map();
        for (let link = 0; link < links.count; link += 1) {
            const key = links.from[link] * 2097152 + links.to[link];
            const before = seen.get(key) || 0;
            sides[link] = Math.min(before, 8);
            seen.set(key, before + 1);
        }
        return sides;
    }

    // How important links are, by their capacity over all lanes beside that of the middle one: 0
    // for a street, 1 as most, 2 for an arterial.
    static ranksOf({lanes, capacity}) {
        const sizes = capacity.map((value, link) => value * lanes[link]);
        const middle = sizes.slice().sort()[sizes.length >> 1];
        return Uint8Array.from(
            sizes, (size) => (size < 0.75 * middle ? 0 : size > 1.5 * middle ? 2 : 1));
    }

    static boundsOf({x, y}) {
        const bounds = {left: Infinity, right: -Infinity, bottom: Infinity, top: -Infinity};
        for (let node = 0; node < x.length; node += 1) {
            bounds.left = Math.min(bounds.left, x[node]);
            bounds.right = Math.max(bounds.right, x[node]);
            bounds.bottom = Math.min(bounds.bottom, y[node]);
            bounds.top = Math.max(bounds.top, y[node]);
        }
        return x.length > 0 ? bounds : {left: 0, right: 1, bottom: 0, top: 1};
    }

    middleOfLengths() {
        const lengths = new Float64Array(this.count);
        for (let link = 0; link < this.count; link += 1) lengths[link] = this.lengthOf(link);
        lengths.sort();
        return lengths.length > 0 ? lengths[lengths.length >> 1] : 0;
    }

    // A link's length in the network's own coordinates.
    lengthOf(link) {
        const {nodes: {x, y}, links: {from, to}} = this.run;
        if (this.bendStart(link) === this.bendStart(link + 1))
            return Math.hypot(x[to[link]] - x[from[link]], y[to[link]] - y[from[link]]);
        const points = this.pointsOf(link);
        let length = 0;
        for (let at = 1; at < points.length; at += 1) {
            length += Math.hypot(
                points[at][0] - points[at - 1][0], points[at][1] - points[at - 1][1]);
        }
        return length;
    }

    // A link's ends and bends in the network's own coordinates.
    pointsOf(link) {
        const {nodes: {x, y}, links: {from, to}} = this.run, points = [];
        points.push([x[from[link]], y[from[link]]]);
        for (let bend = this.bendStart(link); bend < this.bendStart(link + 1); bend += 1)
            points.push([this.bends.x[bend], this.bends.y[bend]]);
        points.push([x[to[link]], y[to[link]]]);
        return points;
    }

    bendStart(link) {
        return this.bends === null ? 0 : this.bends.start[link];
    }

    // A camera that shows all nodes.
    fit(camera, width, height) {
        const {left, right, bottom, top} = this.bounds;
        const room = 0.86;
        camera.x = (left + right) / 2;
        camera.y = (bottom + top) / 2;
        camera.scale = Math.min(
            width * room / Math.max(right - left, 1e-9),
            height * room / Math.max(top - bottom, 1e-9));
        if (right - left < 1e-9 && top - bottom < 1e-9) camera.scale = 1;
    }

    // Sizes on the screen that follow from the zoom.
    place(camera, width, height) {
        const middle = this.middleLength * camera.scale;
        this.middle = middle;
        // Near by, links grow more slowly than the distances between nodes.
        this.isDense = middle < MapGeometry.short;
        // A browser draws lines below a pixel fastest, which tens of thousands of links need.
        const least = this.count > 10000 ? 0.8 : 1.4;
        this.unit = middle < 150 ? Math.max(middle * 0.03, least) :
                                   Math.min(4.5 + (middle - 150) * 0.01, 9);
        this.offset = this.unit * 1.25 + 0.5;
        this.nodeRadius = middle > 60 ? 10 : middle > 24 ? 3 : 0;
        this.placeLinks(camera, width, height);
        if (this.bends !== null) this.placeBends(camera, width, height);
    }

    screenX(node, camera, width) {
        return (this.run.nodes.x[node] - camera.x) * camera.scale + width / 2;
    }

    screenY(node, camera, height) {
        return height / 2 - (this.run.nodes.y[node] - camera.y) * camera.scale;
    }

    // Each link is moved to the right of its direction, so that the two ways of a road stand side
    // by side.
    placeLinks(camera, width, height) {
        const {links} = this.run;
        const screen = this.screen, margin = 60;
        for (let link = 0; link < this.count; link += 1) {
            const from = links.from[link], to = links.to[link];
            let x1 = this.screenX(from, camera, width), y1 = this.screenY(from, camera, height);
            let x2 = this.screenX(to, camera, width), y2 = this.screenY(to, camera, height);
            this.isVisible[link] = x1 < -margin && x2 < -margin
                    || x1 > width + margin && x2 > width + margin || y1 < -margin && y2 < -margin
                    || y1 > height + margin && y2 > height + margin ?
                0 :
                1;
            const length = Math.hypot(x2 - x1, y2 - y1) || 1;
            const alongX = (x2 - x1) / length, alongY = (y2 - y1) / length;
            const trim = length > 3 * this.nodeRadius ? this.nodeRadius : 0;
            const aside = this.offset * (1 + 2 * this.side[link]);
            x1 += alongX * trim - alongY * aside;
            y1 += alongY * trim + alongX * aside;
            x2 += -alongX * trim - alongY * aside;
            y2 += -alongY * trim + alongX * aside;
            screen[link * 4] = x1;
            screen[link * 4 + 1] = y1;
            screen[link * 4 + 2] = x2;
            screen[link * 4 + 3] = y2;
        }
    }

    // Links with bends: each point is moved to the right of the direction there.
    placeBends(camera, width, height) {
        const {screen} = this;
        for (let link = 0; link < this.count; link += 1) {
            const first = this.bendStart(link), last = this.bendStart(link + 1);
            if (first === last) continue;
            const aside = this.offset * (1 + 2 * this.side[link]);
            const points = this.pointsOf(link).map(([x, y]) => [
                (x - camera.x) * camera.scale + width / 2,
                height / 2 - (y - camera.y) * camera.scale
            ]);
            points.forEach(([x, y], at) => {
                const before = points[Math.max(at - 1, 0)];
                const behind = points[Math.min(at + 1, points.length - 1)];
                const acrossX = behind[0] - before[0], acrossY = behind[1] - before[1];
                const length = Math.hypot(acrossX, acrossY) || 1;
                const place = at === 0 ? link * 4 : at > last - first ? link * 4 + 2 : -1;
                const into = place < 0 ? this.bendScreen : screen;
                const to = place < 0 ? (first + at - 1) * 2 : place;
                into[to] = x - acrossY / length * aside;
                into[to + 1] = y + acrossX / length * aside;
                if (x > 0 && x < width && y > 0 && y < height) this.isVisible[link] = 1;
            });
        }
    }

    // Calls `take` with the ends of each straight piece of a link on the screen.
    eachPiece(link, take) {
        const {screen, bendScreen} = this, behind = this.bendStart(link + 1);
        let x = screen[link * 4], y = screen[link * 4 + 1];
        for (let bend = this.bendStart(link); bend < behind; bend += 1) {
            take(x, y, bendScreen[bend * 2], bendScreen[bend * 2 + 1]);
            x = bendScreen[bend * 2];
            y = bendScreen[bend * 2 + 1];
        }
        take(x, y, screen[link * 4 + 2], screen[link * 4 + 3]);
    }

    isShort(link) {
        const [x1, y1, x2, y2] = this.screen.subarray(link * 4, link * 4 + 4);
        return Math.hypot(x2 - x1, y2 - y1) < MapGeometry.short;
    }

    lengthOnScreen(link) {
        let length = 0;
        this.eachPiece(link, (x1, y1, x2, y2) => {
            length += Math.hypot(x2 - x1, y2 - y1);
        });
        return length;
    }

    // The point at a share of a link's length on the screen, and the direction there.
    pointAt(link, share) {
        let left = this.lengthOnScreen(link) * share, point = null;
        this.eachPiece(link, (x1, y1, x2, y2) => {
            const length = Math.hypot(x2 - x1, y2 - y1) || 1e-9;
            if (point !== null && left < 0) return;
            const part = Math.min(left / length, 1);
            point = {
                x: x1 + (x2 - x1) * part,
                y: y1 + (y2 - y1) * part,
                alongX: (x2 - x1) / length,
                alongY: (y2 - y1) / length,
            };
            left -= length;
        });
        return point;
    }

    isLoop(link) {
        return this.run.links.from[link] === this.run.links.to[link];
    }

    // A link that begins and ends at one node is a ring beside it.
    ring(link) {
        const radius = Math.max(6, this.nodeRadius) + 3 * this.side[link];
        return {x: this.screen[link * 4] + radius, y: this.screen[link * 4 + 1] - radius, radius};
    }

    // The nearest visible link within so many pixels of a point, or -1.
    linkAt(x, y, within) {
        let nearest = -1, least = within * within;
        for (let link = 0; link < this.count; link += 1) {
            if (!this.isVisible[link]) continue;
            const distance =
                this.isLoop(link) ? this.toRing(link, x, y) : this.toLine(link, x, y);
            if (distance >= least) continue;
            least = distance;
            nearest = link;
        }
        return nearest;
    }

    toRing(link, x, y) {
        const ring = this.ring(link);
        return (Math.hypot(x - ring.x, y - ring.y) - ring.radius) ** 2;
    }

    toLine(link, x, y) {
        let least = Infinity;
        this.eachPiece(link, (x1, y1, x2, y2) => {
            const alongX = x2 - x1, alongY = y2 - y1;
            const square = alongX * alongX + alongY * alongY || 1;
            const share =
                Math.min(Math.max(((x - x1) * alongX + (y - y1) * alongY) / square, 0), 1);
            least = Math.min(
                least, (x - x1 - share * alongX) ** 2 + (y - y1 - share * alongY) ** 2);
        });
        return least;
    }
}

// Pixels below which links are too near each other to be told apart.
MapGeometry.short = 12;
