// What a person chose for a sheet. Each edit makes new choices, so that all of them can be undone.
import { Fill, usualSources } from "./fill.js";
import { columnToFill, looksLikeHeader } from "./sheet.js";

/**
 * `fills` are the columns that are filled, one after the other, and `at` is the place of that one which is worked on.
 * `corrected` are texts that stand in the place of other cells, by column, by record. `tables` are lookup tables with their
 * keys, and `depth` says how deep lookups may nest. `onlySure` leaves guesses empty in the result, and `withStates` adds a
 * column of states to it.
 */
export class Choices {
    constructor(fields) {
        Object.assign(this, fields);
        Object.freeze(this);
    }

    with(changes) {
        return new Choices({ ...this, ...changes });
    }

    /** The column that is worked on. */
    get fill() {
        return this.fills[this.at];
    }

    /** The same choices with changes of one fill, that which is worked on. */
    withFill(fill) {
        return this.with({ fills: this.fills.map((it, at) => (at === this.at ? fill : it)) });
    }

    /** The fill of a column, if it is filled. */
    fillOf(column) {
        return this.fills.find((it) => it.column === column) ?? null;
    }

    /** The columns in the order in which they are shown: those of the sheet, then the new ones. */
    columns(sheet) {
        const own = Array.from({ length: sheet.width }, (_, index) => index + 1);
        return [...own, ...this.fills.filter((it) => it.isNew).map((it) => it.column)];
    }

    /** What a column is called. */
    title(sheet, column) {
        return column < 0 ? (this.fillOf(column)?.newName ?? "New column") : sheet.title(column, this.header);
    }

    /** The columns that the fill at a place may read: those of the sheet, and new ones that are filled before it. Not itself, and none that is filled after it. */
    readable(sheet, at = this.at) {
        const later = this.fills.slice(at).map((it) => it.column);
        return this.columns(sheet).filter((it) => !later.includes(it));
    }

    /** The same choices with another text in a cell of the sheet; its own text takes the correction back. */
    correcting(sheet, record, column, text) {
        const corrected = new Map(this.corrected);
        const texts = new Map(corrected.get(record));
        if (text === sheet.origin.text(record, column)) texts.delete(column);
        else texts.set(column, text);
        if (texts.size > 0) corrected.set(record, texts);
        else corrected.delete(record);
        return this.with({ corrected });
    }

    /** The columns of which all given texts were taken back, so that they stand empty. */
    emptied(sheet) {
        return this.fills.filter((it) => it.cleared.size > 0 && it.allGiven(sheet, this.header).length === 0).map((it) => it.column);
    }

    /** Whether a cell of the sheet has another text than it was opened with. */
    isCorrected(record, column) {
        return this.corrected.get(record)?.has(column) ?? false;
    }

    /**
     * The choices with another column worked on, null for a new one. What was typed for the others stays; a column for which
     * nothing is given is not filled any more, but an emptied one stays empty. A column that others read is filled before them.
     */
    filling(sheet, column) {
        const kept = this.fills.filter((it, at) => it.column === column || (at !== this.at && it.typed.size > 0) || it.cleared.size > 0 || it.allGiven(sheet, this.header).length > 0);
        const known = kept.findIndex((it) => it.column === column);
        if (column !== null && known >= 0) return this.with({ fills: kept, at: known }).#repaired(sheet);
        const id = column ?? Math.min(0, ...kept.map((it) => it.column)) - 1;
        const readers = kept.findIndex((it) => it.sources.includes(id));
        const at = readers < 0 ? kept.length : readers;
        const sources = this.fills.length > 0 ? this.fill.sources.filter((it) => it > 0 && it !== id && !kept.some((other) => other.column === it)) : [];
        const made = Fill.of(id, sources.length > 0 ? sources : usualSources(sheet, [id, ...kept.map((it) => it.column)]), newNameBeside(kept));
        return this.with({ fills: [...kept.slice(0, at), made, ...kept.slice(at)], at }).#repaired(sheet);
    }

    /** The choices without the fill at a place; one at least stays. */
    without(sheet, at) {
        if (this.fills.length < 2) return this;
        const fills = this.fills.filter((_, it) => it !== at);
        return this.with({ fills, at: this.at > at || this.at >= fills.length ? this.at - 1 : this.at }).#repaired(sheet);
    }

    /** No fill reads a column that is not there for it. */
    #repaired(sheet) {
        const fills = this.fills.map((fill, at) => {
            const readable = this.readable(sheet, at);
            const sources = fill.sources.filter((it) => readable.includes(it));
            if (sources.length === fill.sources.length) return fill;
            return fill.with({ sources: sources.length > 0 ? sources : usualSources(sheet, [fill.column]) });
        });
        return this.with({ fills });
    }
}

/** The name of one more new column. */
function newNameBeside(fills) {
    const names = fills.map((it) => it.newName);
    if (!names.includes("New column")) return "New column";
    for (let number = 2; ; number++) if (!names.includes(`New column ${number}`)) return `New column ${number}`;
}

/** The choices that a sheet is opened with; `sources` are the columns that are read at first, where not the usual ones. */
export function firstChoices(sheet, sources = null) {
    const header = looksLikeHeader(sheet);
    const column = columnToFill(sheet, header) ?? -1;
    const fills = [Fill.of(column, sources ?? usualSources(sheet, [column]))];
    return new Choices({ header, fills, at: 0, corrected: new Map(), tables: [], depth: 1, onlySure: false, withStates: false });
}
