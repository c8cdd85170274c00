'use strict';
// Times of day. The tables count steps from 0; the planner says what the clock shows then.
const Clock = (() => {
    const clock = {start: 0, words, exact, marks, read};

    // Seconds from the start of the run as hours, minutes and seconds. The hours go on behind 24.
    function exact(seconds) {
        const whole = Math.round(seconds) + clock.start;
        const two = (value) => String(value).padStart(2, '0');
        return [whole / 3600, whole / 60 % 60, whole % 60].map(Math.floor).map(two).join(':');
    }

    // The same without seconds where these are 0, for the bounds of buckets and for axes.
    function words(seconds) {
        return exact(seconds).replace(/:00$/, '');
    }

    // Marks of a time axis: whole minutes or hours of the clock.
    function marks(least, most, count) {
        const raw = Math.max(most - least, 1) / count;
        const sizes = [
            1, 2, 5, 10, 15, 30, 60, 120, 300, 600, 900, 1800, 3600, 7200, 14400, 21600, 43200,
            86400
        ];
        const size = sizes.find((step) => step >= raw) || Math.ceil(raw / 86400) * 86400;
        const found = [];
        const first = Math.ceil((least + clock.start) / size) * size - clock.start;
        for (let value = first; value <= most; value += size) found.push(value);
        return found;
    }

    // Hours and minutes, such as 7:00, as seconds; null where the text is none.
    function read(text) {
        const found = /^([01]?\d|2[0-3]):([0-5]\d)$/.exec(text.trim());
        return found === null ? null : Number(found[1]) * 3600 + Number(found[2]) * 60;
    }

    return clock;
})();
