'use strict';
// Moving about on a map: drag, wheel, two fingers, and keys while the map has the focus.
const MapMoves = (() => {
    function attach(map) {
        const {canvas} = map;
        const fingers = new Map();
        let hasMoved = false;
        canvas.addEventListener('wheel', (event) => {
            event.preventDefault();
            const [x, y] = placeOf(map, event);
            zoom(map, Math.exp(-event.deltaY * 0.0015), x, y);
        }, {passive: false});
        canvas.addEventListener('pointerdown', (event) => {
            canvas.setPointerCapture(event.pointerId);
            fingers.set(event.pointerId, placeOf(map, event));
            hasMoved = false;
        });
        canvas.addEventListener('pointermove', (event) => {
            if (map.run === null) return;
            const place = placeOf(map, event);
            if (!fingers.has(event.pointerId)) {
                hover(map, place);
                return;
            }
            if (follow(map, fingers, event.pointerId, place)) hasMoved = true;
        });
        canvas.addEventListener('pointerup', (event) => {
            fingers.delete(event.pointerId);
            if (hasMoved || map.run === null) return;
            const [x, y] = placeOf(map, event), node = map.nodeAt(x, y);
            if (node >= 0)
                map.told.pickedNode(map, node);
            else
                map.told.picked(map, map.geometry.linkAt(x, y, 10));
        });
        canvas.addEventListener('pointercancel', (event) => fingers.delete(event.pointerId));
        canvas.addEventListener('pointerleave', () => hover(map, null));
        canvas.addEventListener('dblclick', (event) => zoom(map, 2, ...placeOf(map, event)));
        canvas.addEventListener('keydown', (event) => {
            if (map.run !== null && key(map, event)) event.preventDefault();
        });
    }

    function placeOf(map, event) {
        const box = map.canvas.getBoundingClientRect();
        return [event.clientX - box.left, event.clientY - box.top];
    }

    // One finger drags; the distance of two zooms. Small trembling of a click is no drag.
    function follow(map, fingers, finger, place) {
        const before = fingers.get(finger);
        if (fingers.size === 1) {
            const acrossX = place[0] - before[0], acrossY = place[1] - before[1];
            if (Math.hypot(acrossX, acrossY) < 3) return false;
            fingers.set(finger, place);
            pan(map, acrossX, acrossY);
            return true;
        }
        const [, other] = [...fingers].find(([id]) => id !== finger);
        const apart = (first) =>
            Math.max(Math.hypot(first[0] - other[0], first[1] - other[1]), 1);
        zoom(map, apart(place) / apart(before), other[0], other[1]);
        fingers.set(finger, place);
        return true;
    }

    function pan(map, acrossX, acrossY) {
        map.camera.isMoved = true;
        map.camera.x -= acrossX / map.camera.scale;
        map.camera.y += acrossY / map.camera.scale;
        map.told.moved();
    }

    // What stands at the point stays there.
    function zoom(map, times, x = map.width / 2, y = map.height / 2) {
        if (map.run === null) return;
        const {camera} = map;
        const aboutX = camera.x + (x - map.width / 2) / camera.scale;
        const aboutY = camera.y - (y - map.height / 2) / camera.scale;
        camera.isMoved = true;
        camera.scale *= times;
        camera.x = aboutX - (x - map.width / 2) / camera.scale;
        camera.y = aboutY + (y - map.height / 2) / camera.scale;
        map.told.moved();
    }

    function hover(map, place) {
        if (map.run === null) return;
        const link = place === null ? -1 : map.geometry.linkAt(place[0], place[1], 10);
        map.told.hovered(map, link, place);
        if (link === map.hovered) return;
        map.hovered = link;
        map.told.moved();
    }

    function key(map, event) {
        const steps =
            {ArrowLeft: [60, 0], ArrowRight: [-60, 0], ArrowUp: [0, 60], ArrowDown: [0, -60]};
        const step = steps[event.key];
        if (step === undefined || event.shiftKey || event.ctrlKey || event.altKey) return false;
        pan(map, ...step);
        event.stopPropagation();
        return true;
    }

    return {attach, zoom};
})();
