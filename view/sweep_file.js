'use strict';
// sweep.txt: the texts of the scenarios of a sweep, one after the other. Each scenario is a run of
// its own, with the tables of the network beside it.
const SweepFile = (() => {
    const name = 'sweep.txt', pieceOfBytes = 1 << 23, lineFeed = 10, firstLetter = 65;
    const longestHead = 200;
    // The texts of a scenario, by the beginnings of their first lines.
    const tables = [
        ['agent_id,', 'agent.csv'], ['link_id,from_step,to_step,entered,', 'link_performance.csv'],
        ['link_id,from_step,to_step,departed,', 'origin_wait.csv'], ['iteration,', 'gap.csv']
    ];
    const ofRuns = [name, ...tables.map(([, file]) => file), 'words.txt'];

    // Answers the scenarios of the sweep among some files, as a list of { name, files }; none
    // where there is no sweep.
    async function scenariosOf(files, tell) {
        const sweep = files.find((file) => file.name === name);
        if (sweep === undefined) return [];
        const others = files.filter((file) => !ofRuns.includes(file.name)), scenarios = [];
        const words = await wordsOf(files, sweep), heads = await headsOf(sweep, tell);
        heads.forEach(({at, text}, place) => {
            const scale = /^scenario \d+ scale (\d+)/.exec(text);
            const behind = place + 1 < heads.length ? heads[place + 1].at : sweep.size;
            const table = tables.find(([begin]) => text.startsWith(begin));
            if (scale !== null)
                scenarios.push({name: `×${scale[1] / 1000}`, files: [...others, ...words]});
            else if (table !== undefined && scenarios.length > 0)
                scenarios[scenarios.length - 1].files.push(
                    new File([sweep.slice(at, behind)], table[1]));
        });
        return scenarios;
    }

    // The lines that begin with a letter, and where they begin: those of tables begin with digits.
    async function headsOf(file, tell) {
        const places = [];
        let isAtStart = true;
        for (let from = 0; from < file.size; from += pieceOfBytes) {
            tell(`Looking through ${name}`, from / file.size);
            const bytes =
                new Uint8Array(await file.slice(from, from + pieceOfBytes).arrayBuffer());
            if (isAtStart && bytes[0] >= firstLetter) places.push(from);
            let at = bytes.indexOf(lineFeed);
            for (; at >= 0 && at + 1 < bytes.length; at = bytes.indexOf(lineFeed, at + 1))
                if (bytes[at + 1] >= firstLetter) places.push(from + at + 1);
            isAtStart = bytes[bytes.length - 1] === lineFeed;
        }
        return Promise.all(places.map(
            async (at) => ({at, text: await file.slice(at, at + longestHead).text()})));
    }

    // The words of the sweep and the version, without what words.txt notes of other runs.
    async function wordsOf(files, sweep) {
        const file = files.find((one) => one.name === 'words.txt');
        if (file === undefined) return [];
        const text = await file.text();
        const found = /^(.*\r?\ndta \S+ wrote )sweep\.txt \((\d+) bytes\)/m.exec(text);
        if (found === null) return /^dta \S+ wrote /m.test(text) ? [] : [file];
        return Number(found[2]) === sweep.size ? [new File([found[1]], 'words.txt')] : [];
    }

    return {name, scenariosOf};
})();
