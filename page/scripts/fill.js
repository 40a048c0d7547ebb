// What is chosen for one column that is filled. A column of the sheet goes by its number, a new one by a number below 0.
import { placeIn } from "./sheet.js";

/** The columns that are read where nobody chooses: the first eight others, as `fillcsv` does, without those that are filled too. */
export function usualSources(sheet, filled) {
    const all = Array.from({ length: sheet.width }, (_, index) => index + 1);
    const others = all.filter((it) => !filled.includes(it));
    return (others.length > 0 ? others : all.slice(0, 1)).slice(0, 8);
}

/**
 * One column to fill. `typed` are the texts that were typed, by record; `cleared` the records whose own text is to be
 * forgotten; `newName` is the name of a new column.
 */
export class Fill {
    constructor(fields) {
        Object.assign(this, fields);
        Object.freeze(this);
    }

    static of(column, sources, newName = "New column") {
        return new Fill({ column, sources, newName, typed: new Map(), cleared: new Set() });
    }

    with(changes) {
        return new Fill({ ...this, ...changes });
    }

    get isNew() {
        return this.column < 0;
    }

    /** The text that the column's cell has in the sheet, if that is still an example. */
    #own(sheet, record) {
        return this.isNew || this.cleared.has(record) ? "" : sheet.text(record, this.column);
    }

    /** The text that is given for a cell: typed, or the sheet's own. Null where none is given. */
    given(sheet, record) {
        if (this.typed.has(record)) return this.typed.get(record);
        return this.#own(sheet, record) || null;
    }

    /** The same with a text typed into a cell; null takes back what is given there. */
    typing(sheet, record, text) {
        const typed = new Map(this.typed);
        const cleared = new Set(this.cleared);
        typed.delete(record);
        cleared.delete(record);
        const own = this.isNew ? "" : sheet.text(record, this.column);
        if (text === null && own !== "") cleared.add(record);
        if (text !== null && (text !== own || own === "")) typed.set(record, text);
        return this.with({ typed, cleared });
    }

    /** All texts that are given, by record and from the top down. */
    allGiven(sheet, header) {
        const own = sheet.textsIn(this.column);
        const records = own.filter((it) => !this.cleared.has(it));
        for (const it of this.typed.keys()) if (placeIn(own, it) < 0) records.push(it);
        return records.filter((it) => !header || it > 0).sort((a, b) => a - b).map((it) => [it, this.given(sheet, it)]);
    }
}
