'use strict';
// Small helpers to make elements of the page and files to save.
const Elements = (() => {
    function make(tag, properties = {}, ...children) {
        const element = document.createElement(tag);
        for (const [name, value] of Object.entries(properties)) {
            if (name in element)
                element[name] = value;
            else
                element.setAttribute(name, value);
        }
        element.append(...children);
        return element;
    }

    // A table of a head and rows; cells are texts or elements, and all but the first columns are
    // numbers.
    function table(head, rows, wordColumns = 1) {
        const cell = (tag) => (content, column) =>
            make(tag, {className: column < wordColumns ? '' : 'number'}, content);
        return make(
            'table', {}, make('thead', {}, make('tr', {}, ...head.map(cell('th')))),
            make('tbody', {}, ...rows.map((row) => make('tr', {}, ...row.map(cell('td'))))));
    }

    // A sentence among others, once.
    function say(box, words) {
        if (![...box.children].some((one) => one.textContent === words))
            box.append(make('p', {className: 'note'}, words));
    }

    function button(words, action, properties = {}) {
        return make('button', {type: 'button', onclick: action, ...properties}, words);
    }

    function save(name, blob) {
        const link = make('a', {href: URL.createObjectURL(blob), download: name});
        link.click();
        setTimeout(() => URL.revokeObjectURL(link.href), 10000);
    }

    function saveRows(name, head, rows) {
        const field = (value) =>
            (/[",\n]/.test(value) ? `"${String(value).replace(/"/g, '""')}"` : value);
        const text = [head, ...rows].map((row) => row.map(field).join(',')).join('\n');
        save(`${name}.csv`, new Blob([`${text}\n`], {type: 'text/csv'}));
    }

    function saveCanvas(name, canvas) {
        canvas.toBlob((blob) => save(`${name}.png`, blob), 'image/png');
    }

    return {make, table, say, button, save, saveRows, saveCanvas};
})();
