'use strict';
// Reads a run off the page's main thread, so that the page stays alive. Opened from a folder, a
// page may not load a worker from a file; so the worker is made of the text of the reading
// functions.
const ReaderThread = (() => {
    const parts = [
        csvReader, networkTables, resultTables, agentTable, visitIndex, nodePlaces, linkShapes,
        runReader
    ];

    function makeReader() {
        const csv = csvReader();
        const results = resultTables(csv);
        const agents = agentTable(csv, results.mostSteps);
        return runReader(
            csv, networkTables(csv), results, agents, visitIndex(), nodePlaces(), linkShapes());
    }

    function answerMessages() {
        self.onmessage = async ({data}) => {
            let told = 0;
            const answer = await makeReader().readRun(data, (words, share) => {
                if (Date.now() - told < 50 && share < 1) return;
                told = Date.now();
                self.postMessage({words, share});
            });
            self.postMessage({answer}, buffersOf(answer));
        };

        // Arrays are handed over, not copied.
        function buffersOf(value, found = new Set()) {
            if (ArrayBuffer.isView(value))
                found.add(value.buffer);
            else if (value !== null && typeof value === 'object') {
                for (const field of Object.values(value)) {
                    if (typeof field === 'object') buffersOf(field, found);
                }
            }
            return [...found];
        }
    }

    function start() {
        const text = [...parts, makeReader, answerMessages].map(String).join('\n');
        const address = URL.createObjectURL(
            new Blob([`'use strict';\n${text}\nanswerMessages();`], {type: 'text/javascript'}));
        const worker = new Worker(address);
        worker.forget = () => {
            worker.terminate();
            URL.revokeObjectURL(address);
        };
        return worker;
    }

    // Answers { run, notes, faults }. Where the browser makes no worker, the page itself reads.
    function read(files, tell) {
        let worker;
        try {
            worker = start();
        } catch {
            return makeReader().readRun(files, tell);
        }
        return new Promise((resolve) => {
            worker.onmessage = ({data}) => {
                if (data.answer === undefined) return tell(data.words, data.share);
                worker.forget();
                return resolve(data.answer);
            };
            worker.onerror = (event) => {
                worker.forget();
                resolve({
                    run: null,
                    notes: [],
                    faults:
                        [`The files couldn't be read: ${event.message || 'the reader stopped'}.`]
                });
            };
            worker.onmessageerror = worker.onerror;
            worker.postMessage(files);
        });
    }

    return {read};
})();
