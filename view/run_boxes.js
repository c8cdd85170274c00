'use strict';
// The two places for runs: choosing, dropping, reading, and what is wrong with the files.
class RunBoxes {
    constructor(elements, messages, changed) {
        this.messages = messages;
        this.changed = changed;
        this.boxes = [...elements].map(RunBoxes.boxOf);
        this.left = [];
        for (const box of this.boxes) this.listen(box);
        this.listenToDrops();
    }

    static boxOf(element) {
        const empty = element.querySelector('.name').textContent;
        return {element, empty, ...RunBoxes.emptyBox(), reading: 0};
    }

    // Of a folder with a sweep the box has its scenarios, and the one that is shown; -1 is the run
    // of the folder's own tables.
    static emptyBox() {
        return {name: '', files: [], answer: null, run: null, scenarios: [], scenario: -1};
    }

    runs() {
        return this.boxes.filter((box) => box.run).map((box) => box.run);
    }

    listen(box) {
        for (const kind of ['folder', 'files']) {
            const input = box.element.querySelector(`.${kind}`);
            input.addEventListener('change', () => {
                const {name, files} = ChosenFiles.picked(input);
                this.open(box, name, files).catch((fault) => this.sayUnread(fault));
                input.value = '';
            });
        }
        box.element.querySelector('.close').addEventListener('click', () => this.close(box));
        const choice = box.element.querySelector('.scenario');
        choice.addEventListener('change', () => {
            box.scenario = Number(choice.value);
            this.read(box);
        });
    }

    listenToDrops() {
        document.addEventListener('dragover', (event) => {
            event.preventDefault();
            document.body.classList.add('dropping');
        });
        document.addEventListener('dragleave', (event) => {
            if (event.relatedTarget === null) document.body.classList.remove('dropping');
        });
        document.addEventListener('drop', (event) => {
            event.preventDefault();
            document.body.classList.remove('dropping');
            this.takeDrop(event).catch((fault) => this.sayUnread(fault));
        });
    }

    sayUnread(fault) {
        this.say([{
            isFault: true,
            words: `The files couldn’t be read (${fault.message}). ` +
                'Choose the folder by the button.',
        }]);
    }

    // On a box a drop goes there. Elsewhere it goes to the first place that is free, and loose
    // tables without links to the run that is there. Several folders take the places in turn.
    async takeDrop(event) {
        const target = this.boxes.find((box) => box.element.contains(event.target));
        const groups = await ChosenFiles.dropped(event.dataTransfer);
        if (groups.length === 0) {
            this.say([{isFault: true, words: 'Nothing was dropped that is a file or a folder.'}]);
        }
        const opened = groups.slice(0, this.boxes.length), left = groups.slice(this.boxes.length);
        this.left = left.length === 0 ? [] : [{
            isFault: true,
            words: 'The page shows two runs at once: ' +
                `${opened.map(({name}) => name).join(' and ')}. ` +
                `Not opened: ${left.map(({name}) => name || 'the other files').join(', ')}.`
        }];
        await Promise.all(opened.map(({name, files}, place) => {
            const first = place === 0 && target !== undefined ? target : null;
            const inTurn = opened.length > 1 && first === null ? this.boxes[place] : first;
            return this.open(inTurn || this.placeFor(files), name, files);
        }));
    }

    placeFor(files) {
        const [first] = this.boxes, last = this.boxes[this.boxes.length - 1];
        if (first.files.length > 0 && !RunBoxes.haveLinks(files)) return first;
        return this.boxes.find((box) => box.files.length === 0) || last;
    }

    static haveLinks(files) {
        return files.some((file) => /^link\b(?!_performance)/i.test(file.name));
    }

    // Files without a link table are added to those that the place has. A sweep begins with its
    // first scenario, where the folder has no run of its own.
    async open(box, name, files) {
        if (files.length === 0) {
            this.say([{
                isFault: true,
                words: `${name === '' ? 'The choice' : `The folder ${name}`} has no tables ` +
                    '(files whose names end with .csv).'
            }]);
            return;
        }
        const isAdded = box.files.length > 0 && !RunBoxes.haveLinks(files);
        const taken = new Set(files.map((file) => file.name));
        box.files =
            isAdded ? [...box.files.filter((file) => !taken.has(file.name)), ...files] : files;
        if (!isAdded) box.name = name === '' ? 'chosen files' : name;
        box.units = isAdded && box.run && box.run.units.isSaid ? box.run.units : null;
        const hasRun = box.files.some((file) => file.name === 'agent.csv');
        box.reading += 1;
        const attempt = box.reading;
        const scenarios = await SweepFile.scenariosOf(
            box.files, (words, share) => this.progress(box, words, share));
        if (attempt !== box.reading) return;
        box.scenarios = scenarios;
        box.scenario = hasRun || box.scenarios.length === 0 ? -1 : 0;
        this.offerScenarios(box, hasRun);
        this.read(box);
    }

    offerScenarios(box, hasRun) {
        const choice = box.element.querySelector('.scenario');
        choice.hidden = box.scenarios.length === 0;
        const options =
            box.scenarios.map(({name}, value) => [value, `scenario ${name} of the sweep`]);
        if (hasRun) options.unshift([-1, 'the run of agent.csv']);
        choice.replaceChildren(...options.map(
            ([value, words]) =>
                Elements.make('option', {value, selected: value === box.scenario}, words)));
    }

    // The files of what a box shows.
    static shownFiles({files, scenarios, scenario}) {
        if (scenario >= 0) return scenarios[scenario].files;
        return files.filter((file) => file.name !== SweepFile.name);
    }

    async read(box) {
        box.reading += 1;
        const attempt = box.reading;
        this.progress(box, 'Reading', 0);
        const files = RunBoxes.shownFiles(box);
        const answer = await ReaderThread.read(files, (words, share) => {
            if (attempt === box.reading) this.progress(box, words, share);
        });
        if (attempt !== box.reading) return;
        this.progress(box, '', null);
        box.answer = answer;
        box.run = answer.run === null ? null : this.shownRun(box, answer.run);
        if (answer.run === null) box.files = [];
        this.update();
    }

    shownRun(box, run) {
        return new ShownRun(this.ownName(box), run, box.units || Units.ofRun(run));
    }

    // Two folders of one name are told apart.
    ownName(box) {
        const name =
            box.scenario < 0 ? box.name : `${box.name} ${box.scenarios[box.scenario].name}`;
        const isTaken = this.boxes.some(
            (other) => other !== box && other.run && other.run.name === name);
        return isTaken ? `${name} (2)` : name;
    }

    close(box) {
        Object.assign(box, RunBoxes.emptyBox(), {reading: box.reading + 1});
        this.left = [];
        this.offerScenarios(box, false);
        this.progress(box, '', null);
        this.update();
    }

    progress(box, words, share) {
        const bar = box.element.querySelector('progress');
        bar.hidden = share === null;
        bar.value = share || 0;
        box.element.querySelector('.progress-words').textContent = words;
    }

    update() {
        for (const box of this.boxes) {
            box.element.querySelector('.name').textContent =
                box.run ? box.run.name : box.empty;
            box.element.querySelector('.close').hidden = !box.run;
        }
        const told = this.boxes.filter((box) => box.answer !== null).flatMap((box) => {
            const name = box.run ? box.run.name : box.name;
            return [
                ...box.answer.faults.map(
                    (words) => ({words: `${name}: ${words}`, isFault: true})),
                ...box.answer.notes.map(
                    (words) => ({words: `${name}: ${words}`, isFault: false})),
                ...RunBoxes.sweepNote(box)
            ];
        });
        this.say([...this.left, ...told]);
        this.changed(this.runs());
    }

    static sweepNote({name, scenarios, scenario}) {
        if (scenarios.length === 0) return [];
        const shown =
            scenario < 0 ? 'the run of agent.csv' : `scenario ${scenarios[scenario].name}`;
        return [{
            words: `${name}: sweep.txt has ${scenarios.length} scenarios. Shown is ${shown}; ` +
                'choose another one beside its name, and drop the folder again to see two.',
            isFault: false
        }];
    }

    say(sentences) {
        this.messages.replaceChildren(...sentences.map(
            ({words, isFault}) =>
                Elements.make('p', {className: isFault ? 'fault' : 'note'}, words)));
    }
}
