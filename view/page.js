'use strict';
// The page: what is chosen, and who is told when it changes.
const Page = (() => {
    const find = (name) => document.getElementById(name);
    let runs = [], maps = [], measure = Measures.list[0], scale = null;
    let selected = null, node = null, newCard = '';
    let isDrawAsked = false, pictures = 0, tick = 6, checking = 0;
    let foundNodes = new Map();

    const player = new Player(
        {slider: find('slider'), play: find('play'), speed: find('speed')}, {moved: askDraw});
    const legend = new Legend(find('legend'));
    const trips = new TripsPanel(find('trips'), {traced: askDraw, seek});
    const checks = new ChecksCards(find('checks'), {show: showAtTop});
    const use = (run, link) => {
        trips.showLink(run, link);
        find('trips').scrollIntoView({block: 'nearest'});
    };
    const panel = new LinkPanel(find('link'), {pick, use, pickNode});
    const nodePanel = new NodePanel(find('node'), {pick, pickNode});
    const rankings =
        new Rankings({totals: find('totals'), tables: find('tables')}, {pick: pickAt});
    const told = {
        drawn: mapDrawn,
        picked: mapPicked,
        pickedNode: (map, place) => pickNode(map.run.nodes.names[place]),
        hovered: mapHovered,
        moved: askDraw
    };

    function view() {
        return {
            scale,
            selected,
            trace: trips.trace,
            found: foundNodes,
            showVehicles: find('vehicles').checked
        };
    }

    // The slider goes by the shortest steps of the runs, so that all runs show one time.
    function seconds() {
        return player.step * tick;
    }

    function goTo(run, step) {
        player.goTo(Math.ceil(step * run.units.stepSeconds / tick));
    }

    // Draws once in the screen's next picture, however often it is asked.
    function askDraw() {
        if (isDrawAsked || runs.length === 0) return;
        isDrawAsked = true;
        requestAnimationFrame(() => {
            isDrawAsked = false;
            draw();
        });
    }

    function draw() {
        for (const run of runs) run.moveTo(seconds());
        for (const map of maps) map.draw(view());
        legend.update(maps);
        panel.show(view(), runs);
        nodePanel.show(node, runs);
        bringNewCard();
        rankings.update(runs);
        Curves.markTime(seconds());
        find('time').textContent = timeWords();
        find('print-words').textContent = `${timeWords()}. ${find('units-words').textContent}.`;
        pictures += 1;
        document.body.dataset.pictures = pictures;
    }

    // What was picked is brought into sight in its column, beside the map that stays. Where the map
    // would go from sight by it, nothing is scrolled.
    function bringNewCard() {
        const card = newCard === '' ? null : find(newCard);
        newCard = '';
        if (card === null || card.hidden || !matchMedia('(min-width: 1100px)').matches) return;
        const {top} = card.getBoundingClientRect(), isOne = runs.length === 1;
        if (isOne && (top < find('bar').offsetHeight || top > innerHeight - 200))
            card.scrollIntoView({block: 'start'});
    }

    function timeWords() {
        const now = Clock.exact(seconds());
        const isOneStep = runs.every((run) => run.units.stepSeconds === tick);
        const step = isOneStep ? `step ${player.step}` :
                                 runs.map((run) => `${run.name} step ${run.step}`).join(', ');
        const first = runs.find((run) => run.hasLoading);
        if (first === undefined) return `${now} (${step})`;
        return `${now} (${step}, bucket ${first.bucketWords(first.bucketAt(first.step))})`;
    }

    function runsChanged(newRuns) {
        if (player.isPlaying) player.toggle();
        runs = newRuns;
        find('welcome').hidden = runs.length > 0;
        find('shown').hidden = runs.length === 0;
        document.body.classList.toggle('two', runs.length > 1);
        if (runs.length === 0) return;
        if (!runs.some((run) => run.linkPlaces.has(selected))) selected = null;
        if (!runs.some((run) => run.nodes.names.includes(node))) node = null;
        makeMaps();
        setTimes();
        showUnits();
        offerMeasures();
        trips.show(runs);
        showAll();
    }

    // Maps of one network move together; those of two networks each by itself.
    function makeMaps() {
        find('maps').replaceChildren();
        const cameras = [];
        maps = runs.map((run, place) => {
            const camera = place > 0 && isOneNetwork(runs[0], run) ? cameras[0] : {};
            cameras.push(camera);
            const canvas = Elements.make(
                'canvas', {tabIndex: 0, role: 'img', 'aria-label': `Map of ${run.name}`});
            const words = Elements.make('span', {className: 'words'});
            const map = new MapView(canvas, told);
            map.show(run, camera);
            map.say = (sentence) => Elements.say(find('messages'), sentence);
            const save = () => Elements.saveCanvas(
                `map_${run.name}`, legend.picture(map, `${run.name}, ${timeWords()}`));
            find('maps').append(Elements.make(
                'figure', {className: 'map'},
                Elements.make(
                    'figcaption', {}, Elements.make('strong', {}, run.name), words,
                    Elements.button('PNG', save, {title: 'Save this map as a picture'}),
                    ...Out.buttons(map)),
                canvas));
            map.words = words;
            return map;
        });
    }

    function isOneNetwork(first, second) {
        const bounds = (run) => Object.values(MapGeometry.boundsOf(run.nodes)).join(' ');
        return bounds(first) === bounds(second);
    }

    function setTimes() {
        const before = seconds();
        tick = Math.min(...runs.map((run) => run.units.stepSeconds));
        const ticks = (run) => (step) => Math.ceil(step * run.units.stepSeconds / tick);
        const buckets = runs.map((run) => run.buckets().from.map(ticks(run)));
        const most = buckets.reduce((one, other) => (other.length > one.length ? other : one));
        player.setTimes(Math.max(...runs.map((run) => ticks(run)(run.horizon))), most);
        player.goTo(before / tick);
    }

    // What isn't sure of the units is said loudly, until the planner says it.
    function showUnits() {
        const unsure = runs.filter(({units}) => units.doubt !== '');
        find('doubts').replaceChildren(...unsure.map(
            ({name, units: {doubt}}) =>
                Elements.make('p', {className: 'fault'}, `${name}: ${doubt}`)));
        if (unsure.length > 0) find('units').closest('details').open = true;
        find('units').replaceChildren(...runs.map((run) => Units.fields(run, unitsChanged)));
        find('units-words').textContent =
            runs.map((run) => (runs.length > 1 ? `${run.name}: ` : '') + Units.wordsOf(run.units))
                .join('; ');
    }

    function unitsChanged(run, units) {
        run.setUnits(units);
        setTimes();
        showUnits();
        showAll();
    }

    function clockChanged() {
        const start = Clock.read(find('clock').value);
        find('clock').classList.toggle('wrong', start === null);
        if (start === null || start === Clock.start) return;
        Clock.start = start;
        if (runs.length > 0) showAll();
    }

    function offerMeasures() {
        const possible = Measures.list.filter((one) => runs.some((run) => one.has(run)));
        if (!possible.includes(measure)) measure = possible[0] || Measures.list[0];
        find('measure').replaceChildren(...Measures.list.map(
            (one) => Elements.make(
                'option',
                {value: one.id, disabled: !possible.includes(one), selected: one === measure},
                one.name)));
    }

    function showAll() {
        showScale();
        rankings.show(runs);
        Curves.show(find('curves'), runs);
        askDraw();
        // What takes longer comes once the map is there.
        clearTimeout(checking);
        checking = setTimeout(() => checks.show(runs), 200);
    }

    function showScale() {
        scale = Measures.scaleOf(measure, runs);
        legend.show(scale, runs);
        askDraw();
    }

    function setMeasure(id) {
        const chosen = Measures.list.find((one) => one.id === id);
        if (chosen === undefined || !runs.some((run) => chosen.has(run))) return;
        measure = chosen;
        find('measure').value = id;
        showScale();
    }

    function pick(name) {
        selected = name;
        if (name !== null) newCard = 'link';
        askDraw();
    }

    // A node has a ring on each map that has it, and its turns beside the map.
    function pickNode(name) {
        node = name;
        if (name !== null) newCard = 'node';
        foundNodes = new Map();
        for (const {run} of maps) {
            const place = run.nodes.names.indexOf(name);
            if (place >= 0) foundNodes.set(run, [place]);
        }
        askDraw();
    }

    function pickAt(run, name, step) {
        goTo(run, step);
        showAtTop(name);
    }

    function showAtTop(name) {
        show(name);
        find('stage').scrollIntoView({block: 'start'});
    }

    // Picks a link and moves the maps so that it is in sight.
    function show(name) {
        pick(name);
        for (const map of maps) {
            const found = Finder.find(map.run, `link ${name}`);
            if (found !== null) map.bringIntoSight(found.nodes);
        }
    }

    // Who doesn't see the map is told its labels.
    function mapDrawn(map, words, labels) {
        map.words.textContent = words.filter(Boolean).join(' ');
        map.canvas.setAttribute('aria-description', labels.join('; '));
    }

    function mapPicked(map, link) {
        pick(link < 0 ? null : map.run.links.names[link]);
    }

    function mapHovered(map, link, place) {
        const hint = find('hint');
        hint.hidden = link < 0;
        if (link < 0) return;
        const facts = [...LinkPanel.facts(map.run, link), ...tracedFacts(map, link)];
        hint.replaceChildren(
            Elements.make('strong', {}, `Link ${map.run.links.names[link]}`),
            ...facts.map(([name, value]) => Elements.make('div', {}, `${name}: ${value}`)));
        const box = map.canvas.getBoundingClientRect();
        const x = box.left + place[0] + 16, y = box.top + place[1] + 16;
        hint.style.left = `${Math.min(x, innerWidth - hint.offsetWidth - 8)}px`;
        hint.style.top =
            `${y + hint.offsetHeight > innerHeight ? y - hint.offsetHeight - 32 : y}px`;
    }

    function tracedFacts(map, link) {
        const trace = map.traceOf(view());
        if (trace === null) return [];
        return trace.parts.filter((part) => part.link === link).map(({words}) => ['trips', words]);
    }

    function worstTime() {
        const run = runs.find((one) => one.hasLoading);
        if (run !== undefined) goTo(run, run.times.from[run.worstTime()]);
    }

    function worstLink() {
        const run = runs.find((one) => one.hasLoading);
        if (run === undefined) return;
        const [link] = Totals.rankings.lost.links(run);
        if (link !== undefined)
            pickAt(run, run.links.names[link], run.times.from[run.costliestBucket(link)]);
    }

    function showWhole() {
        for (const map of maps) map.fit();
        askDraw();
    }

    function zoomAll(times) {
        const cameras = new Set();
        for (const map of maps) {
            if (!cameras.has(map.camera)) MapMoves.zoom(map, times);
            cameras.add(map.camera);
        }
    }

    function isInField(target) {
        return target.closest('input:not([type=range]):not([type=checkbox]), select, textarea')
            !== null;
    }

    // With the map in focus the arrows move it.
    function isForMap(event) {
        return event.key.startsWith('Arrow') && !event.shiftKey
            && maps.some((map) => map.canvas === event.target);
    }

    function key(event) {
        if (runs.length === 0 || event.ctrlKey || event.altKey || event.metaKey) return;
        if (isInField(event.target) || isForMap(event)) return;
        if (event.key === ' ' && event.target.closest('button, summary, label') !== null) return;
        const actions = {
            t: worstTime,
            w: worstLink,
            0: showWhole,
            '+': () => zoomAll(1.5),
            '=': () => zoomAll(1.5),
            '-': () => zoomAll(1 / 1.5),
            Escape: () => {
                pick(null);
                pickNode(null);
            },
        };
        const chosen = Measures.list[Number(event.key) - 1];
        if (actions[event.key] !== undefined)
            actions[event.key]();
        else if (chosen !== undefined && event.key !== ' ')
            setMeasure(chosen.id);
        else if (!player.key(event))
            return;
        event.preventDefault();
    }

    // Goes to what a text names, on each map that has it, and answers it in words, or null.
    function findIt(text) {
        const all = maps.map((map) => (text === '' ? null : Finder.find(map.run, text)));
        const first = all.find((one) => one !== null), place = all.indexOf(first);
        pickNode(first !== undefined && first.node !== undefined ? first.node : null);
        maps.forEach((map, at) => {
            if (all[at] === null) return;
            map.bringIntoSight(all[at].nodes);
            if (all[at].links.length === 0) foundNodes.set(map.run, all[at].nodes);
        });
        if (first !== undefined && first.links.length > 0)
            pick(maps[place].run.links.names[first.links[0]]);
        askDraw();
        return first === undefined ? null : first.words;
    }

    function findVehicle(name) {
        const isThere = trips.findVehicle(name);
        if (isThere) find('trips').scrollIntoView({block: 'nearest'});
        return isThere;
    }

    // Moves a run's map so that a trace is in sight.
    function seek({run, parts}) {
        const {from, to} = run.links;
        for (const map of maps.filter((one) => one.run === run))
            map.bringIntoSight(parts.flatMap(({link}) => [from[link], to[link]]));
    }

    function start() {
        new RunBoxes(document.querySelectorAll('.run-box'), find('messages'), runsChanged);
        find('measure').addEventListener('change', () => setMeasure(find('measure').value));
        find('worst-time').addEventListener('click', worstTime);
        find('worst-link').addEventListener('click', worstLink);
        find('nearer').addEventListener('click', () => zoomAll(1.5));
        find('farther').addEventListener('click', () => zoomAll(1 / 1.5));
        find('all').addEventListener('click', showWhole);
        new FindField(find('find'), find('found'), {find: findIt, vehicle: findVehicle});
        new ResizeObserver(() => {
            document.documentElement.style.setProperty(
                '--bar', `${find('bar').offsetHeight}px`);
        }).observe(find('bar'));
        find('vehicles').addEventListener('change', askDraw);
        find('clock').addEventListener('change', clockChanged);
        document.addEventListener('keydown', key, true);
        window.addEventListener('error', (event) => {
            find('messages').append(Elements.make(
                'p', {className: 'fault'}, `The page itself has a fault: ${event.message}.`));
        });
        let later = 0;
        window.addEventListener('resize', () => {
            clearTimeout(later);
            later = setTimeout(() => {
                if (runs.length > 0) showAll();
            }, 150);
        });
    }

    start();
    return {maps: () => maps, trace: () => trips.trace};
})();
