'use strict';
// The charts of whole runs. Two runs stand beside each other with the same axes.
const Curves = (() => {
    const colours = {first: '#0072b2', second: '#d55e00', third: '#009e73', bar: '#6f93ad'};

    // Each kind: what runs have it, its points, and the words of its axes.
    const kinds = [
        {
            id: 'states',
            title: 'Waiting, running and arrived',
            has: (run) => run.states !== null,
            make: states
        },
        {
            id: 'flows',
            title: 'Departures and arrivals',
            has: (run) => run.states !== null,
            make: flows
        },
        {
            id: 'lost',
            title: 'Vehicle-hours lost over time',
            has: (run) => run.hasLoading,
            make: lost
        },
        {
            id: 'trips',
            title: 'How long trips take',
            has: (run) => run.agents !== null,
            make: trips
        },
        {id: 'gap', title: 'Gap by iteration', has: (run) => run.gap !== null, make: gap},
    ];

    function overTime(runs) {
        return {
            xLeast: 0,
            xMost: Math.max(...runs.map((run) => run.horizon * run.units.stepSeconds)),
            xName: 'time, hours:minutes',
            xMarks: Clock.marks,
            xFormat: Clock.words,
        };
    }

    // A point about every four hundredth of the run is enough for the eye.
    function sampled(list, {units}) {
        const stride = Math.max(Math.floor(list.length / 400), 1), points = [[0, 0]];
        for (let step = stride - 1; step < list.length; step += stride) {
            points.push([(step + 1) * units.stepSeconds, list[step]]);
        }
        if (list.length > 0)
            points.push([list.length * units.stepSeconds, list[list.length - 1]]);
        return points;
    }

    function states(run, runs) {
        return {
            ...overTime(runs),
            yName: 'vehicles',
            series: [
                {
                    name: 'waiting',
                    colour: colours.second,
                    dash: [2, 3],
                    points: sampled(run.states.waiting, run)
                },
                {
                    name: 'running',
                    colour: colours.first,
                    points: sampled(run.states.running, run)
                },
                {
                    name: 'arrived',
                    colour: colours.third,
                    dash: [8, 4],
                    points: sampled(run.states.arrived, run)
                },
            ]
        };
    }

    function byBucket(run, value) {
        const {from, to} = run.buckets(), {stepSeconds} = run.units, points = [];
        from.forEach(
            (first, bucket) =>
                points.push([first * stepSeconds, value(first, to[bucket], bucket)]));
        if (points.length > 0)
            points.push([to[to.length - 1] * stepSeconds, points[points.length - 1][1]]);
        return points;
    }

    function flows(run, runs) {
        const inBucket = (list) => byBucket(
            run,
            (from, to) =>
                (list[to - 1] - (from > 0 ? list[from - 1] : 0)) / run.hours(to - from));
        return {
            ...overTime(runs),
            yName: 'vehicles an hour',
            series: [
                {
                    name: 'departures',
                    colour: colours.second,
                    dash: [4, 3],
                    isStepped: true,
                    points: inBucket(run.states.departed)
                },
                {
                    name: 'arrivals',
                    colour: colours.third,
                    isStepped: true,
                    points: inBucket(run.states.arrived)
                },
            ]
        };
    }

    function lost(run, runs) {
        const points = byBucket(run, (from, to, bucket) => {
            let sum = 0;
            for (let link = 0; link < run.links.count; link += 1) sum += run.lost(link, bucket);
            return run.hours(sum);
        });
        return {
            ...overTime(runs),
            yName: 'vehicle-hours in a bucket',
            series: [
                {colour: colours.second, isStepped: true, points},
            ]
        };
    }

    function trips(run, runs) {
        const longest = Math.max(...runs.map((other) => {
            const steps = Totals.tripSteps(other);
            return other.minutes(steps.length > 0 ? steps[steps.length - 1] : 1);
        }));
        const [, wide] = Chart.marks(0, longest, 40);
        const edges = [0];
        while (edges[edges.length - 1] <= longest) edges.push(edges.length * wide);
        const values = new Array(edges.length - 1).fill(0);
        for (const steps of Totals.tripSteps(run)) {
            const place = Math.floor(run.minutes(steps) / wide + 1e-9);
            values[Math.min(place, values.length - 1)] += 1;
        }
        return {
            xLeast: 0,
            xMost: edges[edges.length - 1],
            xName: 'minutes from departure to arrival',
            yName: 'vehicles that arrived',
            series: [],
            bars: {colour: colours.bar, edges, values},
        };
    }

    function gap(run, runs) {
        const most = Math.max(2, ...runs.map((other) => other.gap.length));
        const whole = (least, greatest, count) =>
            Chart.marks(least, greatest, count).filter(Number.isInteger);
        return {
            xLeast: 1,
            xMost: most,
            xName: 'iteration',
            xMarks: whole,
            yName: 'gap in percent',
            series: [{
                colour: colours.first,
                hasDots: true,
                points: run.gap.map((line) => [line.iteration, line.ppm / 1e4])
            }],
        };
    }

    function greatest(chart) {
        const lines = chart.series.flatMap((line) => line.points.map((point) => point[1]));
        return Math.max(0, ...lines, ...(chart.bars === undefined ? [] : chart.bars.values));
    }

    function rowsOf(chart) {
        if (chart.bars !== undefined) {
            const {edges, values} = chart.bars;
            const unit = chart.xFormat === Clock.words ? 'seconds' : 'minutes';
            return {
                head: [`from_${unit}`, `to_${unit}`, 'vehicles'],
                rows: values.map((value, place) => [edges[place], edges[place + 1], value])
            };
        }
        const names = chart.series.map((line) => line.name || chart.yName.split(',')[0]);
        return {
            head: [chart.xFormat === Clock.words ? 'seconds' : chart.xName, ...names],
            rows: chart.series[0].points.map(
                (point,
                 place) => [point[0], ...chart.series.map((line) => line.points[place][1])])
        };
    }

    function show(box, runs) {
        box.replaceChildren();
        const waiting = [];
        for (const kind of kinds) {
            const having = runs.filter((run) => kind.has(run));
            if (having.length === 0) continue;
            const charts = having.map((run) => kind.make(run, having));
            const yMost = Chart.roundAbove(Math.max(...charts.map(greatest)));
            const card = Elements.make(
                'section', {className: 'card'}, Elements.make('h3', {}, kind.title));
            const row = Elements.make('div', {className: 'charts'});
            charts.forEach((chart, place) => {
                const canvas = chartCanvas(kind, having[place]);
                row.append(figureOf(kind, chart, having, place, canvas));
                waiting.push(() => Chart.draw(canvas, {...chart, yMost}));
            });
            card.append(row);
            box.append(card);
        }
        for (const draw of waiting) draw();
    }

    function chartCanvas(kind, run) {
        return Elements.make('canvas', {
            className: 'chart',
            role: 'img',
            'aria-label': `${kind.title}, ${run.name}`,
            'data-chart': kind.id
        });
    }

    function figureOf(kind, chart, runs, place, canvas) {
        const run = runs[place], name = `${kind.id}_${run.name}`;
        const {head, rows} = rowsOf(chart);
        const mark =
            chart.xFormat === Clock.words ? [Elements.make('div', {className: 'mark'})] : [];
        return Elements.make(
            'figure', {}, canvas, ...mark,
            Elements.make(
                'figcaption', {}, runs.length > 1 ? `${run.name} ` : '',
                Elements.button(
                    'PNG', () => Elements.saveCanvas(name, canvas), {title: 'Save as a picture'}),
                ' ', Elements.button('CSV', () => Elements.saveRows(name, head, rows), {
                    title: 'Save as a table'
                })));
    }

    // One chart by itself, to be drawn once it stands on the page.
    function figure(kind, run, chart) {
        const canvas = chartCanvas(kind, run);
        return {
            figure: figureOf(kind, chart, [run], 0, canvas),
            draw: () =>
                Chart.draw(canvas, {...chart, yMost: Chart.roundAbove(greatest(chart))}),
        };
    }

    // Moves the upright line of each chart over time to the step that is shown.
    function markTime(seconds) {
        for (const mark of document.querySelectorAll('.mark')) {
            const {plot} = mark.parentElement.querySelector('canvas');
            if (plot === undefined) continue;
            const share = Math.min(seconds / plot.xMost, 1);
            mark.style.transform = `translateX(${plot.left + share * plot.width}px)`;
        }
    }

    return {show, figure, colours, overTime, byBucket, markTime};
})();
