'use strict';
// The files that a user chooses or drops. A folder stands for its own files, not for those of
// folders in it.
const ChosenFiles = (() => {
    // Answers a list of { name, files }: dropped folders one by one, and all loose files
    // together.
    async function dropped(transfer) {
        // The items are gone once the event is over, so all of them are asked before any is
        // waited for.
        const items = [...transfer.items].filter((item) => item.kind === 'file').map(itemOf);
        const groups = [], loose = [];
        for (const item of items) {
            const folder = await folderOf(item);
            if (folder !== null)
                groups.push(folder);
            else if (item.file !== null)
                loose.push(item.file);
        }
        if (loose.length > 0) groups.push({name: '', files: loose});
        return groups;
    }

    function itemOf(item) {
        const entry = item.webkitGetAsEntry ? item.webkitGetAsEntry() : null;
        return {handle: askHandle(item), entry, file: item.getAsFile()};
    }

    // A page that was opened from a folder may read a dropped folder by its handle; older ways
    // are refused there.
    function askHandle(item) {
        if (!item.getAsFileSystemHandle) return null;
        return item.getAsFileSystemHandle().catch(() => null);
    }

    async function folderOf({handle, entry}) {
        const known = handle === null ? null : await handle;
        if (known !== null && known.kind === 'directory') return fromHandle(known);
        if (known === null && entry !== null && entry.isDirectory) return fromEntry(entry);
        return null;
    }

    async function fromHandle(handle) {
        const files = [];
        for await (const item of handle.values()) {
            if (item.kind === 'file' && isTable(item.name)) files.push(await item.getFile());
        }
        return {name: handle.name, files};
    }

    async function fromEntry(folder) {
        const reader = folder.createReader(), files = [];
        for (;;) {
            const entries =
                await new Promise((resolve, reject) => reader.readEntries(resolve, reject));
            if (entries.length === 0) return {name: folder.name, files};
            for (const entry of entries) {
                if (!entry.isFile || !isTable(entry.name)) continue;
                files.push(await new Promise((resolve, reject) => entry.file(resolve, reject)));
            }
        }
    }

    function isTable(name) {
        return /\.csv$/i.test(name) || name === 'words.txt' || name === SweepFile.name;
    }

    // From an input: either the files of a folder, or files one by one.
    function picked(input) {
        const files = [...input.files];
        const paths = files.map((file) => file.webkitRelativePath.split('/'));
        const isFolder = paths.length > 0 && paths[0].length > 1;
        if (!isFolder) return {name: '', files};
        return {
            name: paths[0][0],
            files: files.filter((file, place) => paths[place].length === 2 && isTable(file.name))
        };
    }

    return {dropped, picked};
})();
