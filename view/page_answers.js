'use strict';
// What the test asks of the first map: the middle of a link and its points, what is known of it,
// the words and the length of the scale bar, the width of a link's line, and the trips that are
// drawn.
Object.assign(Page, (() => {
    const first = () => Page.maps()[0];

    function placeOf(name) {
        const {run, geometry} = first();
        const {x, y} = geometry.pointAt(run.linkPlaces.get(name), 0.5);
        return [x, y];
    }

    function bends(name) {
        const {run, geometry} = first(), points = [];
        const link = run.linkPlaces.get(name);
        geometry.eachPiece(link, (x, y) => points.push([x, y]));
        return [...points, [geometry.screen[link * 4 + 2], geometry.screen[link * 4 + 3]]];
    }

    function widthOf(name) {
        return first().widthOfLink(first().run.linkPlaces.get(name));
    }

    function factsOf(name) {
        const {run} = first();
        return LinkPanel.facts(run, run.linkPlaces.get(name));
    }

    function traced() {
        const {run, parts} = Page.trace();
        return parts.map(({link, words}) => `${run.links.names[link]}: ${words}`);
    }

    return {placeOf, bends, scale: () => first().scaleBar, widthOf, factsOf, traced};
})());
