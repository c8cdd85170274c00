'use strict';
// One run's map on one canvas: links by class, nodes, the worst links by name, and vehicles when
// zoomed in.
class MapView {
    constructor(canvas, told) {
        this.canvas = canvas;
        this.told = told;
        // Links are drawn on a layer of their own, which is kept from picture to picture while
        // they don't change.
        this.layer = document.createElement('canvas');
        this.layerPen = this.layer.getContext('2d', {alpha: false});
        this.screenPen = canvas.getContext('2d', {alpha: false});
        this.pen = this.screenPen;
        this.run = null;
        this.hovered = -1;
        this.width = 0;
        this.height = 0;
        canvas.width = 0;
        MapMoves.attach(this);
    }

    show(run, camera) {
        this.run = run;
        this.camera = camera;
        this.geometry = new MapGeometry(run);
        this.values = new Float64Array(run.links.count);
        this.classes = new Uint8Array(run.links.count);
        this.order = new Int32Array(run.links.count);
        this.classCounts = new Int32Array(Measures.colours.length);
        this.placed = '';
        this.look = '';
    }

    // Takes over the canvas's size on the page, in the screen's own pixels.
    resize() {
        this.width = this.canvas.clientWidth;
        this.height = this.canvas.clientHeight;
        const share = window.devicePixelRatio || 1;
        const width = Math.round(this.width * share), height = Math.round(this.height * share);
        if (this.canvas.width === width && this.canvas.height === height) return;
        for (const canvas of [this.canvas, this.layer]) {
            canvas.width = width;
            canvas.height = height;
        }
        this.screenPen.setTransform(share, 0, 0, share, 0, 0);
        this.layerPen.setTransform(share, 0, 0, share, 0, 0);
        // Who has gone to a place of the network stays there; else all of it is shown again.
        if (!this.camera.isMoved) this.fit();
        this.placed = '';
    }

    fit() {
        this.geometry.fit(this.camera, this.width, this.height);
        this.camera.isMoved = false;
    }

    // Moves the map so that some nodes are in sight, and zooms in where they are too near each
    // other to be told apart.
    bringIntoSight(nodes) {
        if (nodes.length === 0 || this.width === 0) return;
        const {camera, width, height, run, geometry} = this;
        const [x, y] = [run.nodes.x, run.nodes.y].map((list) => nodes.map((node) => list[node]));
        const {left, right, bottom, top} = MapGeometry.boundsOf({x, y});
        const size =
            Math.max(Math.hypot(right - left, top - bottom), geometry.middleLength / 4, 1e-9);
        const least = 24 / size, most = Math.min(width, height) * 0.6 / size;
        const isIn = nodes.every((node) => {
            const across = geometry.screenX(node, camera, width);
            const down = geometry.screenY(node, camera, height);
            return across > 0 && across < width && down > 0 && down < height;
        });
        if (isIn && camera.scale >= least) return;
        camera.isMoved = true;
        camera.scale = Math.min(Math.max(camera.scale, least), most);
        camera.x = (left + right) / 2;
        camera.y = (bottom + top) / 2;
    }

    draw(view) {
        if (this.run === null) return;
        this.resize();
        if (this.width === 0) return;
        if (this.camera.scale === undefined) this.fit();
        this.placeIfMoved();
        if (this.fillIfChanged(view)) this.drawLayer(view);
        this.pen = this.screenPen;
        this.pen.drawImage(this.layer, 0, 0, this.width, this.height);
        const vehicles = new MapVehicles(this);
        vehicles.draw(view);
        this.drawNodes();
        this.drawFound(view);
        ScaleBar.draw(this);
        const labels = new MapLabels(this);
        labels.draw(view);
        this.told.drawn(this, [this.thinnedWords(), vehicles.words], labels.words);
    }

    thinnedWords() {
        if (this.thinned === 0) return '';
        return `${Totals.format(this.thinned)} streets without delay are left out: zoom in.`;
    }

    drawLayer(view) {
        this.pen = this.layerPen;
        this.pen.fillStyle = '#ffffff';
        this.pen.fillRect(0, 0, this.width, this.height);
        const trace = this.traceOf(view);
        if (trace === null) {
            this.drawSelected(view);
            this.drawLinks();
            this.drawArrows();
            ClosedMarks.draw(this);
            return;
        }
        this.pen.globalAlpha = 0.2;
        this.drawLinks();
        this.pen.globalAlpha = 1;
        this.drawSelected(view);
        this.drawTrace(trace);
        ClosedMarks.draw(this);
    }

    traceOf({trace}) {
        return trace !== null && trace.run === this.run ? trace : null;
    }

    // The trips that are chosen, over links that are pale meanwhile.
    drawTrace({parts}) {
        const {pen, geometry} = this;
        pen.lineCap = 'round';
        for (const {link, colour, share} of parts) {
            if (!geometry.isVisible[link]) continue;
            pen.beginPath();
            this.tracePath(link);
            pen.strokeStyle = colour;
            pen.lineWidth = Math.max(geometry.unit, 1.2) * (1 + 2 * share);
            pen.stroke();
        }
    }

    placeIfMoved() {
        const {x, y, scale} = this.camera;
        const place = [x, y, scale, this.width, this.height].join(' ');
        if (place === this.placed) return;
        this.placed = place;
        this.geometry.place(this.camera, this.width, this.height);
    }

    // What the link table tells changes with the bucket alone, so many pictures of a playing run
    // keep the links. Answers whether they are to be drawn anew.
    fillIfChanged({scale, selected, trace}) {
        const {run} = this, {measure} = scale;
        const time = Measures.isLive(measure, run) ? run.step : run.bucketAt(run.step);
        const look = [
            this.placed, measure.id, scale.bounds, JSON.stringify(run.units), selected,
            this.hovered
        ].join(' ');
        if (look === this.look && time === this.time && trace === this.trace) return false;
        const isOther = Measures.fill(scale, run, this.values, this.classes);
        this.worst = MapLabels.worst(this, measure, 3);
        const isSame = look === this.look && trace === this.trace && !isOther;
        this.look = look;
        this.time = time;
        this.trace = trace;
        if (isSame) return false;
        this.sortByClass();
        return true;
    }

    // Visible links by class and, within it, by importance, so that each of these is one stroke
    // and the worst are drawn last. Where links are dense, short streets without anything to tell
    // are left out.
    sortByClass() {
        const {geometry, classes} = this, {ranks} = MapView;
        const starts = new Int32Array(Measures.colours.length * ranks + 1);
        this.classCounts.fill(0);
        this.thinned = 0;
        const isDrawn = (link) => geometry.isVisible[link] && !this.isThinned(link);
        for (let link = 0; link < this.run.links.count; link += 1) {
            this.classCounts[classes[link]] += 1;
            if (geometry.isVisible[link] && this.isThinned(link)) this.thinned += 1;
            if (isDrawn(link)) starts[classes[link] * ranks + geometry.rank[link] + 1] += 1;
        }
        for (let place = 1; place < starts.length; place += 1) starts[place] += starts[place - 1];
        this.classStarts = starts.slice();
        for (let link = 0; link < this.run.links.count; link += 1) {
            if (isDrawn(link))
                this.order[starts[classes[link] * ranks + geometry.rank[link]]++] = link;
        }
    }

    isThinned(link) {
        const {geometry} = this;
        return geometry.isDense && geometry.rank[link] === 0 && this.classes[link] <= 1
            && geometry.isShort(link);
    }

    widthOf(place, rank) {
        return this.geometry.unit * Measures.widths[place] * MapView.widthsOfRanks[rank];
    }

    widthOfLink(link) {
        return this.widthOf(this.classes[link], this.geometry.rank[link]);
    }

    // Calls `take` for each class and importance that is drawn.
    eachGroup(take) {
        for (let place = 0; place < Measures.colours.length; place += 1) {
            for (let rank = 0; rank < MapView.ranks; rank += 1) take(place, rank);
        }
    }

    drawLinks() {
        const {pen, geometry} = this;
        pen.lineCap = geometry.middle > 24 ? 'round' : 'butt';
        this.eachGroup((place, rank) => {
            pen.strokeStyle = Measures.colours[place];
            pen.lineWidth = this.widthOf(place, rank);
            this.strokeGroup(place, rank);
        });
        for (let rank = 0; rank < MapView.ranks; rank += 1) this.dashBlocked(rank);
    }

    // The places in the order of those of one class and importance.
    groupOf(place, rank) {
        const group = place * MapView.ranks + rank;
        return [this.classStarts[group], this.classStarts[group + 1]];
    }

    strokeGroup(place, rank) {
        const {pen} = this, [start, behind] = this.groupOf(place, rank);
        for (let first = start; first < behind; first += MapView.linksOfStroke) {
            pen.beginPath();
            for (let at = first; at < Math.min(first + MapView.linksOfStroke, behind); at += 1)
                this.tracePath(this.order[at]);
            pen.stroke();
        }
    }

    // Where there is room for it blocked links have white dashes, as a barrier has.
    dashBlocked(rank) {
        const {pen} = this, width = this.widthOf(Measures.blocked, rank);
        if (width < 4) return;
        pen.lineCap = 'butt';
        pen.strokeStyle = '#ffffff';
        pen.lineWidth = width * 0.4;
        pen.setLineDash([width, width]);
        this.strokeGroup(Measures.blocked, rank);
        pen.setLineDash([]);
    }

    tracePath(link) {
        const {pen, geometry} = this, screen = geometry.screen, at = link * 4;
        if (geometry.isLoop(link)) {
            const ring = geometry.ring(link);
            pen.moveTo(ring.x + ring.radius, ring.y);
            pen.arc(ring.x, ring.y, ring.radius, 0, 2 * Math.PI);
            return;
        }
        pen.moveTo(screen[at], screen[at + 1]);
        const behind = geometry.bendStart(link + 1);
        for (let bend = geometry.bendStart(link); bend < behind; bend += 1)
            pen.lineTo(geometry.bendScreen[bend * 2], geometry.bendScreen[bend * 2 + 1]);
        pen.lineTo(screen[at + 2], screen[at + 3]);
    }

    // Small arrows where links are long enough to show their direction.
    drawArrows() {
        const {pen} = this;
        if (this.geometry.middle < 24) return;
        this.eachGroup((place, rank) => {
            const size = this.widthOf(place, rank) * 0.8 + 3.2;
            const [first, behind] = this.groupOf(place, rank);
            pen.beginPath();
            for (let at = first; at < behind; at += 1) this.traceArrow(this.order[at], size);
            pen.fillStyle = Measures.colours[place];
            pen.fill();
        });
    }

    traceArrow(link, size) {
        const {pen, geometry} = this;
        if (geometry.lengthOnScreen(link) < 5 * size || geometry.isLoop(link)) return;
        const point = geometry.pointAt(link, 0.62);
        const {x, y} = point, alongX = point.alongX * size, alongY = point.alongY * size;
        pen.moveTo(x + alongX, y + alongY);
        pen.lineTo(x - alongX * 0.6 - alongY, y - alongY * 0.6 + alongX);
        pen.lineTo(x - alongX * 0.6 + alongY, y - alongY * 0.6 - alongX);
        pen.closePath();
    }

    drawSelected(view) {
        const {pen} = this;
        const selected = this.run.linkPlaces.get(view.selected);
        for (const [link, colour] of [[this.hovered, '#7aa7c7'], [selected, '#0b6fc2']]) {
            if (link === undefined || link < 0) continue;
            pen.beginPath();
            this.tracePath(link);
            pen.lineCap = 'round';
            pen.strokeStyle = colour;
            pen.lineWidth = this.widthOfLink(link) + 7;
            pen.stroke();
        }
    }

    // A ring around each node that was looked for.
    drawFound({found}) {
        const {pen, geometry, camera} = this;
        pen.strokeStyle = '#0b6fc2';
        pen.lineWidth = 3;
        for (const node of found.get(this.run) || []) {
            pen.beginPath();
            pen.arc(
                geometry.screenX(node, camera, this.width),
                geometry.screenY(node, camera, this.height), geometry.nodeRadius + 6, 0,
                2 * Math.PI);
            pen.stroke();
        }
    }

    // The node whose circle has a point of the screen, or -1.
    nodeAt(x, y) {
        const {geometry, camera, run, width, height} = this;
        for (let node = 0; node < run.nodes.count; node += 1) {
            const across = geometry.screenX(node, camera, width) - x;
            const down = geometry.screenY(node, camera, height) - y;
            if (Math.hypot(across, down) < geometry.nodeRadius) return node;
        }
        return -1;
    }

    drawNodes() {
        const {pen, geometry, camera} = this, {nodes} = this.run;
        if (geometry.nodeRadius === 0) return;
        pen.lineWidth = 1.2;
        pen.font = '11px system-ui, sans-serif';
        pen.textAlign = 'center';
        pen.textBaseline = 'middle';
        for (let node = 0; node < nodes.count; node += 1) {
            const x = geometry.screenX(node, camera, this.width);
            const y = geometry.screenY(node, camera, this.height);
            if (x < -20 || x > this.width + 20 || y < -20 || y > this.height + 20) continue;
            pen.beginPath();
            pen.arc(x, y, geometry.nodeRadius, 0, 2 * Math.PI);
            pen.fillStyle = '#ffffff';
            pen.strokeStyle = '#5a6670';
            pen.fill();
            pen.stroke();
            if (geometry.nodeRadius < 10) continue;
            const name = nodes.names[node];
            pen.fillStyle = '#28323a';
            pen.fillText(name, x, name.length <= 3 ? y + 0.5 : y + 18);
        }
    }
}

// A browser draws many short paths faster than one of tens of thousands of links.
MapView.linksOfStroke = 2000;
MapView.ranks = 3;
MapView.widthsOfRanks = [0.8, 1, 1.5];
