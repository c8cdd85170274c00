'use strict';
// Where nodes stand on the map: by their coordinates, or where these are missing by a place that
// the page makes up.
function nodePlaces() {
    const mostInSprings = 400, rounds = 300;
    const unreal = {squeeze: 1, isDegrees: false, isMadeUp: true};

    // Answers the places, and a sentence where they aren't those of node.csv.
    function placesOf(nodes, links) {
        const count = nodes.names.keys.length;
        const x = new Float64Array(count).fill(NaN), y = new Float64Array(count).fill(NaN);
        x.set(nodes.xs);
        y.set(nodes.ys);
        let known = 0;
        for (let node = 0; node < count; node += 1) {
            if (Number.isNaN(x[node]) || Number.isNaN(y[node]))
                x[node] = y[node] = NaN;
            else
                known += 1;
        }
        if (known < 2 && count > 1 || isOnePoint(x, y)) return madeUp(count, links);
        if (known === count) return {...flattened(x, y), words: ''};
        putBetween(x, y, links);
        return {
            ...flattened(x, y),
            words: `${count - known} nodes without coordinates in node.csv ` +
                'stand between their neighbours.'
        };
    }

    function isOnePoint(x, y) {
        for (let node = 1; node < x.length; node += 1) {
            if (x[node] !== x[0] || y[node] !== y[0]) return false;
        }
        return x.length > 1;
    }

    // Degrees of longitude are shorter than those of latitude, so that a map of them would be too
    // wide: they are squeezed.
    function flattened(x, y) {
        const isDegrees = x.length > 0 && x.every((value) => Math.abs(value) <= 180)
            && y.every((value) => Math.abs(value) <= 90);
        const middle = (smallest(y) + largest(y)) / 2;
        const squeeze = isDegrees ? Math.cos(middle * Math.PI / 180) : 1;
        return {x: isDegrees ? x.map((value) => value * squeeze) : x, y, squeeze, isDegrees};
    }

    function smallest(values) {
        return values.reduce((least, value) => Math.min(least, value), Infinity);
    }

    function largest(values) {
        return values.reduce((most, value) => Math.max(most, value), -Infinity);
    }

    function putBetween(x, y, links) {
        const middleX = (smallest(x.filter(isKnown)) + largest(x.filter(isKnown))) / 2;
        const middleY = (smallest(y.filter(isKnown)) + largest(y.filter(isKnown))) / 2;
        for (let round = 0; round < 50; round += 1) {
            const sums = new Map();
            for (let link = 0; link < links.from.length; link += 1) {
                note(sums, links.from[link], links.to[link], x, y);
                note(sums, links.to[link], links.from[link], x, y);
            }
            if (sums.size === 0) break;
            for (const [node, sum] of sums) {
                x[node] = sum.x / sum.count;
                y[node] = sum.y / sum.count;
            }
        }
        for (let node = 0; node < x.length; node += 1) {
            if (isKnown(x[node])) continue;
            x[node] = middleX;
            y[node] = middleY;
        }
    }

    function isKnown(value) {
        return !Number.isNaN(value);
    }

    function note(sums, node, neighbour, x, y) {
        if (isKnown(x[node]) || !isKnown(x[neighbour])) return;
        const sum = sums.get(node) || {x: 0, y: 0, count: 0};
        sum.x += x[neighbour];
        sum.y += y[neighbour];
        sum.count += 1;
        sums.set(node, sum);
    }

    function madeUp(count, links) {
        if (count <= mostInSprings) {
            return {
                ...springs(count, links),
                ...unreal,
                words: 'node.csv has no coordinates: the page has drawn the nodes so that ' +
                    'neighbours stand near each other. Places and distances mean nothing.',
            };
        }
        return {
            ...grid(count),
            ...unreal,
            words: 'node.csv has no coordinates: the nodes stand on a grid in the order ' +
                'of the table. Places and distances mean nothing.'
        };
    }

    function grid(count) {
        const columns = Math.ceil(Math.sqrt(count));
        const x = new Float64Array(count), y = new Float64Array(count);
        for (let node = 0; node < count; node += 1) {
            x[node] = node % columns;
            y[node] = -Math.floor(node / columns);
        }
        return {x, y};
    }

    // Fruchterman and Reingold's layout: all nodes push each other away, and links pull their
    // ends together. It begins on a circle, so equal tables give equal maps.
    function springs(count, links) {
        const x = new Float64Array(count), y = new Float64Array(count);
        const moveX = new Float64Array(count), moveY = new Float64Array(count);
        for (let node = 0; node < count; node += 1) {
            x[node] = Math.cos(2 * Math.PI * node / count) * Math.sqrt(count);
            y[node] = Math.sin(2 * Math.PI * node / count) * Math.sqrt(count);
        }
        for (let round = 0; round < rounds; round += 1) {
            moveX.fill(0);
            moveY.fill(0);
            for (let first = 0; first < count; first += 1) {
                for (let second = first + 1; second < count; second += 1) {
                    pull(first, second, (distance) => -1 / distance);
                }
            }
            for (let link = 0; link < links.from.length; link += 1) {
                if (links.from[link] !== links.to[link]) {
                    pull(links.from[link], links.to[link], (distance) => distance * distance / 2);
                }
            }
            const most = Math.sqrt(count) / 5 * (1 - round / rounds) + 0.01;
            for (let node = 0; node < count; node += 1) {
                const size = Math.hypot(moveX[node], moveY[node]) || 1;
                x[node] += moveX[node] / size * Math.min(size, most);
                y[node] += moveY[node] / size * Math.min(size, most);
            }
        }
        return {x, y};

        function pull(first, second, force) {
            const acrossX = x[second] - x[first], acrossY = y[second] - y[first];
            const distance = Math.max(Math.hypot(acrossX, acrossY), 0.01);
            const share = force(distance) / distance;
            moveX[first] += acrossX * share;
            moveY[first] += acrossY * share;
            moveX[second] -= acrossX * share;
            moveY[second] -= acrossY * share;
        }
    }

    return {placesOf};
}
