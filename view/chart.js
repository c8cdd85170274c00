'use strict';
// Charts: lines or bars over a number line, with round marks, a legend and a mark at the step
// that is shown.
const Chart = (() => {
    const ink = '#28323a', faint = '#dfe4e8', pale = '#5a6670';
    const left = 58, right = 18, top = 30, bottom = 40;

    // A chart: { title, xName, yName, series: [{ name, colour, dash, points: [[x, y]], isStepped
    // }], bars, xMost, yMost }.
    function draw(canvas, chart) {
        const share = window.devicePixelRatio || 1;
        const width = canvas.clientWidth, height = canvas.clientHeight;
        canvas.width = Math.round(width * share);
        canvas.height = Math.round(height * share);
        const pen = canvas.getContext('2d');
        pen.setTransform(share, 0, 0, share, 0, 0);
        pen.fillStyle = '#ffffff';
        pen.fillRect(0, 0, width, height);
        const area = {left, top, width: width - left - right, height: height - top - bottom};
        const plot = {
            pen,
            area,
            x: (value) => left
                + (value - chart.xLeast) / Math.max(chart.xMost - chart.xLeast, 1e-9)
                    * area.width,
            y: (value) => top + area.height - value / Math.max(chart.yMost, 1e-9) * area.height,
        };
        drawAxes(plot, chart);
        pen.save();
        pen.beginPath();
        pen.rect(left, top - 2, area.width, area.height + 4);
        pen.clip();
        if (chart.bars !== undefined) drawBars(plot, chart.bars);
        for (const line of chart.series) drawLine(plot, line);
        pen.restore();
        drawLegend(plot, chart);
        canvas.plot = {xLeast: chart.xLeast, xMost: chart.xMost, left, width: area.width};
    }

    function drawAxes(plot, chart) {
        const {pen, area} = plot;
        pen.font = '11px system-ui, sans-serif';
        pen.lineWidth = 1;
        pen.textAlign = 'right';
        pen.textBaseline = 'middle';
        for (const value of marks(0, chart.yMost, 5)) {
            pen.strokeStyle = faint;
            line(pen, area.left, plot.y(value), area.left + area.width, plot.y(value));
            pen.fillStyle = pale;
            pen.fillText((chart.yFormat || short)(value), area.left - 6, plot.y(value));
        }
        pen.textAlign = 'center';
        pen.textBaseline = 'top';
        const xMarks =
            (chart.xMarks || marks)(chart.xLeast, chart.xMost, Math.max(area.width / 70, 2));
        for (const value of xMarks) {
            pen.fillStyle = pale;
            pen.fillText(
                (chart.xFormat || short)(value), plot.x(value), area.top + area.height + 6);
        }
        pen.strokeStyle = pale;
        line(
            pen, area.left, area.top + area.height + 0.5, area.left + area.width,
            area.top + area.height + 0.5);
        pen.fillStyle = pale;
        pen.fillText(chart.xName, area.left + area.width / 2, area.top + area.height + 22);
    }

    function line(pen, x1, y1, x2, y2) {
        pen.beginPath();
        pen.moveTo(x1, y1);
        pen.lineTo(x2, y2);
        pen.stroke();
    }

    function drawLine({pen, x, y}, {colour, dash, points, isStepped, hasDots}) {
        pen.beginPath();
        let before = null;
        for (const [across, up] of points) {
            if (before === null)
                pen.moveTo(x(across), y(up));
            else {
                if (isStepped) pen.lineTo(x(across), y(before));
                pen.lineTo(x(across), y(up));
            }
            before = up;
        }
        pen.strokeStyle = colour;
        pen.lineWidth = 2;
        pen.lineJoin = 'round';
        pen.setLineDash(dash || []);
        pen.stroke();
        pen.setLineDash([]);
        if (!hasDots) return;
        pen.fillStyle = colour;
        for (const [across, up] of points) {
            pen.beginPath();
            pen.arc(x(across), y(up), 2.8, 0, 2 * Math.PI);
            pen.fill();
        }
    }

    function drawBars({pen, x, y}, {colour, edges, values}) {
        pen.fillStyle = colour;
        values.forEach((value, place) => {
            const from = x(edges[place]), to = x(edges[place + 1]);
            pen.fillRect(from + 0.5, y(value), Math.max(to - from - 1, 0.5), y(0) - y(value));
        });
    }

    // The names of the lines above the plot, each beside a piece of its line.
    function drawLegend({pen, area}, chart) {
        pen.font = '11px system-ui, sans-serif';
        pen.textBaseline = 'middle';
        pen.textAlign = 'left';
        pen.fillStyle = pale;
        let at = 6;
        pen.fillText(chart.yName, at, 12);
        at = Math.max(at + pen.measureText(chart.yName).width + 18, area.left);
        for (const {name, colour, dash} of chart.series) {
            if (name === undefined) continue;
            pen.strokeStyle = colour;
            pen.lineWidth = 2.5;
            pen.setLineDash(dash || []);
            line(pen, at, 12, at + 20, 12);
            pen.setLineDash([]);
            pen.fillStyle = ink;
            pen.fillText(name, at + 25, 12);
            at += 25 + pen.measureText(name).width + 14;
        }
    }

    function marks(least, most, count) {
        const span = Math.max(most - least, 1e-9), raw = span / count;
        const power = 10 ** Math.floor(Math.log10(raw));
        const size =
            [1, 2, 5, 10].map((digit) => digit * power).find((step) => step >= raw * 0.999);
        const found = [];
        for (let value = Math.ceil(least / size) * size; value <= most + size * 1e-6;
             value += size) {
            found.push(Number(value.toPrecision(10)));
        }
        return found;
    }

    function short(value) {
        if (Math.abs(value) >= 1e6) return `${Number((value / 1e6).toPrecision(3))} M`;
        if (Math.abs(value) >= 1e4) return `${Number((value / 1e3).toPrecision(3))} k`;
        return value.toLocaleString('en');
    }

    // A round number at or above a value, so that a line doesn't touch the frame.
    function roundAbove(value) {
        if (value <= 0) return 1;
        const power = 10 ** Math.floor(Math.log10(value));
        return [1, 1.2, 1.5, 2, 2.5, 3, 4, 5, 6, 8, 10]
                   .map((digit) => digit * power)
                   .find((round) => round >= value * 1.02)
            || 12 * power;
    }

    return {draw, marks, short, roundAbove};
})();
