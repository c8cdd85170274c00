'use strict';
// Comma-separated text, record by record, straight from a file's bytes.
//
// This and the other files of the reading side are each one function, so that page and worker can
// have the same text: a page that was opened from a folder may not load a worker from a file, but
// may make one of a text.
function csvReader() {
    const pieceOfBytes = 4 * 1024 * 1024;
    const comma = 44, quote = 34, lineFeed = 10, carriageReturn = 13, space = 32, tab = 9;
    const zero = 48, nine = 57, point = 46, semicolon = 59;
    const decoder = new TextDecoder();

    // A fault of a table is one sentence: which file, which line, what is wrong.
    class TableFault extends Error {
        constructor(file, line, words) {
            super(`${file}, line ${line}: ${words}`);
            this.isTableFault = true;
        }
    }

    // Where the fields of one record stand in the bytes. One object serves a whole file.
    class FieldPlaces {
        constructor(file) {
            this.file = file;
            this.line = 0;
            this.bytes = null;
            this.count = 0;
            this.starts = new Int32Array(64);
            this.ends = new Int32Array(64);
        }

        put(start, end) {
            if (this.count === this.starts.length) {
                this.starts = grown(this.starts);
                this.ends = grown(this.ends);
            }
            this.starts[this.count] = start;
            this.ends[this.count] = end;
            this.count += 1;
        }

        // Spaces and tabs at both ends of a field are dropped, as the program drops them.
        trim() {
            const bytes = this.bytes;
            for (let field = 0; field < this.count; field += 1) {
                let start = this.starts[field], end = this.ends[field];
                while (start < end && isBlank(bytes[start])) start += 1;
                while (start < end && isBlank(bytes[end - 1])) end -= 1;
                this.starts[field] = start;
                this.ends[field] = end;
            }
        }

        isEmptyLine() {
            return this.count === 1 && this.starts[0] === this.ends[0];
        }

        isEmpty(column) {
            return column < 0 || this.starts[column] === this.ends[column];
        }

        text(column) {
            if (column < 0) return '';
            const {bytes} = this, start = this.starts[column], end = this.ends[column];
            // A short plain field costs less than a call of the decoder.
            let text = '', at = start;
            while (at < end && bytes[at] < 128 && at - start < 16)
                text += String.fromCharCode(bytes[at++]);
            return at === end ? text : decoder.decode(bytes.subarray(start, end));
        }

        fault(words) {
            return new TableFault(this.file, this.line, words);
        }
    }

    function isBlank(byte) {
        return byte === space || byte === tab;
    }

    function grown(array) {
        const larger = new array.constructor(array.length * 2);
        larger.set(array);
        return larger;
    }

    // Reads one record from a place on and answers the place behind it, or -1 where the bytes end
    // within it.
    function scanRecord(bytes, from, isLastPiece, places) {
        const end = bytes.length;
        let at = from;
        places.count = 0;
        places.bytes = bytes;
        for (;;) {
            let start = at;
            if (at < end && bytes[at] === quote) {
                start = at + 1;
                at = closingQuote(bytes, start);
                if (at >= end && !isLastPiece) return -1;
                places.put(start, Math.min(at, end));
                while (at < end && !endsField(bytes[at])) at += 1;
            } else {
                while (at < end && !endsField(bytes[at])) at += 1;
                places.put(start, at);
            }
            if (at >= end) return isLastPiece ? end : -1;
            if (bytes[at] !== comma) return at + 1;
            at += 1;
        }
    }

    // Digits and semicolons, of which tables are full, are told by one comparison.
    function endsField(byte) {
        return byte <= comma && (byte === comma || byte === lineFeed || byte === carriageReturn);
    }

    // A quote that is written twice belongs to the field.
    function closingQuote(bytes, from) {
        let at = from;
        while (at < bytes.length) {
            if (bytes[at] === quote) {
                if (at + 1 < bytes.length && bytes[at + 1] === quote)
                    at += 1;
                else
                    return at;
            }
            at += 1;
        }
        return at;
    }

    // Hands each record of a file to `take`, the header as line 1, and the bytes read so far to
    // `tell`.
    async function readRecords(file, take, tell) {
        const places = new FieldPlaces(file.name);
        let left = new Uint8Array(0);
        for (let from = 0; from < file.size; from += pieceOfBytes) {
            const until = Math.min(from + pieceOfBytes, file.size);
            const piece = new Uint8Array(await file.slice(from, until).arrayBuffer());
            const bytes = joined(left, from === 0 ? withoutMark(piece) : piece);
            left = takeRecords(bytes, until === file.size, places, take);
            tell(until);
        }
        if (places.line === 0) throw new TableFault(file.name, 1, 'the file is empty.');
    }

    // A field that isn't closed in a piece begins again with the next one, so this answers what
    // is left.
    function takeRecords(bytes, isLastPiece, places, take) {
        let at = 0;
        while (at < bytes.length) {
            const next = scanRecord(bytes, at, isLastPiece, places);
            if (next < 0) break;
            at = next;
            if (places.isEmptyLine()) continue;
            places.line += 1;
            places.trim();
            take(places);
        }
        return bytes.subarray(at);
    }

    function joined(first, second) {
        if (first.length === 0) return second;
        const both = new Uint8Array(first.length + second.length);
        both.set(first);
        both.set(second, first.length);
        return both;
    }

    function withoutMark(bytes) {
        const hasMark = bytes[0] === 0xEF && bytes[1] === 0xBB && bytes[2] === 0xBF;
        return hasMark ? bytes.subarray(3) : bytes;
    }

    // An identifier by value: a number where that is exact, else its digits. NaN where it is
    // none.
    function identifier(bytes, from, end) {
        let at = from;
        while (at < end - 1 && bytes[at] === zero) at += 1;
        const first = at;
        let value = 0;
        while (at < end && bytes[at] >= zero && bytes[at] <= nine) {
            value = value * 10 + bytes[at] - zero;
            at += 1;
        }
        const behind = at;
        if (at < end && bytes[at] === point && at > first && at + 1 < end) {
            at += 1;
            while (at < end && bytes[at] === zero) at += 1;
        }
        if (at !== end || behind === first) return NaN;
        return behind - first < 16 ? value : decoder.decode(bytes.subarray(first, behind));
    }

    // Columns found once by the names of the header; the first one of a name counts.
    class Columns {
        constructor(places) {
            this.width = places.count;
            this.names = [];
            for (let field = 0; field < places.count; field += 1)
                this.names.push(places.text(field));
        }

        optional(name) {
            return this.names.indexOf(name);
        }

        required(name, places) {
            const column = this.names.indexOf(name);
            if (column < 0) throw places.fault(`the column ${name} is missing.`);
            return column;
        }

        check(places) {
            if (places.count === this.width) return;
            throw places.fault(
                `there are ${places.count} fields, but the header has ${this.width}.`);
        }

        identifier(places, column) {
            const key = identifier(places.bytes, places.starts[column], places.ends[column]);
            if (key === key) return key;
            if (places.isEmpty(column)) throw places.fault(`${this.names[column]} is empty.`);
            throw places.fault(`${this.said(places, column)} isn't an identifier.`);
        }

        // A whole number of the program's own tables.
        whole(places, column) {
            const key = this.identifier(places, column);
            if (typeof key === 'number') return key;
            throw places.fault(`${this.said(places, column)} is too large.`);
        }

        quantity(places, column, instead) {
            if (places.isEmpty(column)) {
                if (instead !== undefined) return instead;
                throw places.fault(`${this.names[column]} is empty.`);
            }
            const value = Number(places.text(column));
            if (Number.isFinite(value) && value >= 0) return value;
            throw places.fault(`${this.said(places, column)} isn't a number of 0 or more.`);
        }

        said(places, column) {
            return `${this.names[column]} "${places.text(column).slice(0, 40)}"`;
        }
    }

    // The place of each identifier. Small identifiers are looked up in an array, which an agent
    // table of millions of links needs.
    class Names {
        constructor() {
            this.keys = [];
            this.places = new Map();
            this.array = null;
        }

        add(key) {
            const place = this.keys.length;
            this.keys.push(key);
            this.places.set(key, place);
            return place;
        }

        find(key) {
            if (this.array !== null && key < this.array.length) return this.array[key];
            const place = this.places.get(key);
            return place === undefined ? -1 : place;
        }

        findOrAdd(key) {
            const place = this.find(key);
            return place < 0 ? this.add(key) : place;
        }

        // Call once all are added.
        settle() {
            const numbers = this.keys.filter((key) => typeof key === 'number');
            const room = numbers.reduce((most, key) => Math.max(most, key), 0) + 1;
            if (room > 4 * this.keys.length + 1000000) return;
            this.array = new Int32Array(room).fill(-1);
            for (const key of numbers) this.array[key] = this.places.get(key);
        }

        texts() {
            return this.keys.map(String);
        }
    }

    // A list of whole numbers that grows, kept in a typed array.
    class Numbers {
        constructor() {
            this.data = new Int32Array(1024);
            this.length = 0;
        }

        push(value) {
            if (this.length === this.data.length) this.data = grown(this.data);
            this.data[this.length] = value;
            this.length += 1;
        }

        taken() {
            return this.data.slice(0, this.length);
        }
    }

    return {TableFault, Columns, Names, Numbers, readRecords, identifier, semicolon, zero};
}
