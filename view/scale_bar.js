'use strict';
// A bar that tells distances on the map.
const ScaleBar = (() => {
    const metresOfDegree = 111320, longest = 130;

    // Metres of a unit of the map, and whether that is only about so: degrees are known, other
    // coordinates are taken as metres where the lengths of links agree with that, and else by
    // these lengths. Null where the page has made up the places.
    function unitOf(run, geometry) {
        if (run.nodes.isMadeUp) return null;
        if (run.nodes.isDegrees) return {metres: metresOfDegree, words: ''};
        const ratios = [];
        for (let link = 0; link < run.links.count; link += 1) {
            const drawn = geometry.lengthOf(link);
            if (drawn > 0) ratios.push(1000 * run.kilometres(link) / drawn);
        }
        if (ratios.length === 0) return null;
        const middle = Float64Array.from(ratios).sort()[ratios.length >> 1];
        if (!(middle > 0)) return null;
        return middle > 0.8 && middle < 1.3 ? {metres: 1, words: ''} :
                                              {metres: middle, words: 'about '};
    }

    // The longest round distance that isn't longer than the bar may be.
    function of(unit, scale) {
        const most = longest / scale * unit.metres, power = 10 ** Math.floor(Math.log10(most));
        const metres = [5, 2, 1].map((digit) => digit * power).find((size) => size <= most);
        const words = metres >= 1000 ? `${metres / 1000} km` : `${metres} m`;
        return {pixels: metres / unit.metres * scale, words: unit.words + words};
    }

    function draw(map) {
        const {geometry, pen, run} = map;
        if (geometry.unitOfLength !== run.units.unit) {
            geometry.unitOfLength = run.units.unit;
            geometry.metresOfUnit = unitOf(run, geometry);
        }
        const unit = geometry.metresOfUnit;
        map.scaleBar = null;
        if (unit === null) return;
        const {pixels, words} = of(unit, map.camera.scale), left = 14, foot = map.height - 14;
        map.scaleBar = [words, pixels];
        pen.fillStyle = 'rgba(255, 255, 255, 0.85)';
        pen.fillRect(left - 6, foot - 22, pixels + 12, 30);
        pen.strokeStyle = pen.fillStyle = '#28323a';
        pen.lineWidth = 2;
        pen.beginPath();
        pen.moveTo(left, foot - 5);
        pen.lineTo(left, foot);
        pen.lineTo(left + pixels, foot);
        pen.lineTo(left + pixels, foot - 5);
        pen.stroke();
        pen.font = '12px system-ui, sans-serif';
        pen.textAlign = 'left';
        pen.textBaseline = 'alphabetic';
        pen.fillText(words, left + 4, foot - 6);
    }

    return {draw};
})();
