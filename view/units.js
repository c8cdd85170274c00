'use strict';
// What the tables of a run don't tell: the seconds of a step, the unit of lengths, how densely
// vehicles stand in a jam. The words of the run tell it, in words.txt of its folder. Without them
// the step is the one by which free-flow steps follow from lengths and speeds, and the rest is the
// program's defaults; the planner may say something else. Each run has its own.
const Units = (() => {
    const lengths = {m: 'metres', km: 'kilometres', mi: 'miles'};
    const metres = {m: 1, km: 1000, mi: 1609.344};
    const speeds = {kmh: 1000, mph: 1609.344};
    const usual = {stepSeconds: 6, unit: 'm', speed: 'kmh', jam: 125, queue: '', doubt: ''};
    // The speed of links that have none, in metres an hour.
    const usualSpeed = 50000;
    const sixty = Array.from({length: 60}, (_, place) => place + 1);
    const askStep = 'Say under Units what --step of the run was; until then clocks, flows and ' +
        'minutes may be wrong.';

    function ofRun(run) {
        return run.words.length > 0 ? ofWords(run) : ofTables(run);
    }

    // By words. Those of a skim or of free-flow times don't tell the queue.
    function ofWords(run) {
        const {words} = run;
        const said = (name, instead) => {
            const place = words.findIndex((word) => word.split('=')[0] === `--${name}`);
            if (place < 0) return instead;
            return words[place].includes('=') ? words[place].split('=')[1] : words[place + 1];
        };
        const one = (name, known, instead) =>
            (said(name, instead) in known ? said(name, instead) : instead);
        const units = {
            ...usual,
            stepSeconds: within(said('step', 6), 1, 60, 6),
            unit: one('length-unit', lengths, 'm'),
            speed: one('speed-unit', speeds, 'kmh'),
            jam: within(said('jam', 125), 1, 1000, 125),
            queue: ['skim', 'freeflow'].includes(words[0]) ? '' : said('queue', 'point'),
            source: 'by words.txt',
        };
        const doesFit = run.times === null || fits(run, units, units.stepSeconds);
        return doesFit ? units : {
            ...units,
            doubt: `words.txt says steps of ${units.stepSeconds} s, but by these the free-flow ` +
                `steps don’t follow from link.csv: one of the files is of another run. ${askStep}`,
        };
    }

    // By the tables, in the first units in which some step fits.
    function ofTables(run) {
        const assumed = {...usual, source: 'assumed'};
        if (run.times === null) return assumed;
        const pairs = Object.keys(lengths).flatMap(
            (unit) => Object.keys(speeds).map((speed) => ({...usual, unit, speed})));
        for (const units of pairs) {
            const found = sixty.filter((seconds) => fits(run, units, seconds));
            if (found.length > 0) return ofFound(units, found);
        }
        return {
            ...assumed,
            doubt: 'No words.txt tells how this run was made, and by no step do the free-flow ' +
                'steps follow from link.csv, so that this may be of another run. The page ' +
                `assumes steps of 6 s. ${askStep}`,
        };
    }

    function ofFound(units, found) {
        const seconds = found.includes(6) ? 6 : found[0];
        const one = {...units, stepSeconds: seconds};
        if (found.length === 1 && units.unit === 'm')
            return {...one, source: 'the step by free-flow steps, the rest assumed'};
        const doubts = found.length > 1 ?
            `its free-flow steps fit steps of ${found[0]} to ${found[found.length - 1]} s` :
            `by its free-flow steps lengths aren’t in metres`;
        return {
            ...one,
            source: 'assumed',
            doubt: `No words.txt tells how this run was made, and ${doubts}. The page assumes ` +
                `steps of ${seconds} s and lengths in ${lengths[units.unit]}. ${askStep}`,
        };
    }

    // Whether the free-flow steps of all links are what the program makes of lengths and speeds:
    // the time over the step, rounded up, and at least 1.
    function fits({links, times}, {unit, speed}, seconds) {
        for (let link = 0; link < links.count; link += 1) {
            const pace = Number.isNaN(links.speed[link]) ?
                usualSpeed :
                thousandths(links.speed[link]) / 1000 * speeds[speed];
            const length = thousandths(links.length[link]) / 1000 * metres[unit];
            const steps = 3600 * length / (pace * seconds), free = times.free[link];
            const least = Math.max(Math.ceil(steps * (1 - 1e-12)), 1);
            const most = Math.max(Math.ceil(steps * (1 + 1e-12)), 1);
            if (free !== least && free !== most) return false;
        }
        return true;
    }

    // Thousandths of a value, as the program reads it: what is finer is dropped. A product that is
    // a whole number but for the last bits is meant as one.
    function thousandths(value) {
        const size = value * 1000, whole = Math.round(size);
        return Math.abs(size - whole) < size * 1e-15 ? whole : Math.floor(size);
    }

    function within(text, least, most, instead) {
        const value = Math.round(Number(text));
        return value >= least && value <= most ? value : instead;
    }

    function wordsOf({stepSeconds, unit, jam, source}) {
        return `steps of ${stepSeconds} s, lengths in ${lengths[unit]}, ` +
            `${jam} vehicles per km and lane in a jam (${source})`;
    }

    // How the run was made, in the words of the command.
    function madeBy({words, version}) {
        if (words.length === 0) return '';
        return `dta ${version === '' ? '' : `${version}: `}${words.join(' ')}`;
    }

    function number(run, field, least, most) {
        return Elements.make('input', {
            type: 'number',
            className: field,
            min: least,
            max: most,
            value: run.units[field],
        });
    }

    // The fields of one run. `changed` is called once its units are others.
    function fields(run, changed) {
        const seconds = number(run, 'stepSeconds', 1, 60), jam = number(run, 'jam', 1, 1000);
        const unit = Elements.make(
            'select', {className: 'unit'},
            ...Object.entries(lengths).map(
                ([value, name]) =>
                    Elements.make('option', {value, selected: value === run.units.unit}, name)));
        for (const field of [seconds, unit, jam]) {
            field.addEventListener('change', () => {
                changed(run, {
                    ...run.units,
                    stepSeconds: within(seconds.value, 1, 60, run.units.stepSeconds),
                    unit: unit.value,
                    jam: within(jam.value, 1, 1000, run.units.jam),
                    isSaid: true,
                    source: 'as you say',
                    doubt: '',
                });
            });
        }
        const label = (words, field) => Elements.make('label', {}, `${words} `, field);
        return Elements.make(
            'div', {'data-run': run.name}, Elements.make('strong', {}, `${run.name}: `),
            label('seconds of a step', seconds), label('length in', unit),
            label('vehicles per kilometre and lane in a jam', jam));
    }

    return {ofRun, wordsOf, madeBy, fields, metres, thousandths};
})();
