'use strict';
// The field of what is looked for. It is read once the text is whole: at Enter, or when the field
// is left. What is found, or that nothing is, stands beside it in words.
class FindField {
    constructor(field, words, actions) {
        Object.assign(this, {field, words, actions});
        field.addEventListener('change', () => this.read());
        field.addEventListener('keydown', ({key}) => key === 'Enter' && this.read());
    }

    read() {
        const text = this.field.value.trim(), vehicle = /^vehicle\s+(\S+)$/i.exec(text);
        const found = text === '' ? '' :
            vehicle !== null      ? this.vehicle(vehicle[1]) :
                                    this.actions.find(text);
        const isWrong = found === null;
        this.field.classList.toggle('wrong', isWrong);
        this.words.classList.toggle('wrong', isWrong);
        this.words.textContent = isWrong ? FindField.nothing(text) : found;
        if (text === '') this.actions.find(text);
    }

    vehicle(name) {
        return this.actions.vehicle(name) ? `vehicle ${name}` : null;
    }

    static nothing(text) {
        const short = /^\d/.test(text) || text.length >= Finder.leastOfName ? '' :
            `; names are looked for from ${Finder.leastOfName} letters on`;
        return `there is no “${text}”${short}`;
    }
}
