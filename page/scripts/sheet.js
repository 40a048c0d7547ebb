// A sheet as it was opened, and how it is read at first: whether it has a header, and which column is to be filled.

/** Where a number stands in a list from the lowest up: the place of the first one that is not lower. */
export function placeFrom(numbers, wanted) {
    let [low, high] = [0, numbers.length];
    while (low < high) {
        const middle = (low + high) >> 1;
        if (numbers[middle] < wanted) low = middle + 1;
        else high = middle;
    }
    return low;
}

/** The place of a number in such a list; -1 where it is not there. */
export function placeIn(numbers, wanted) {
    const at = placeFrom(numbers, wanted);
    return numbers[at] === wanted ? at : -1;
}

/** A sheet as the engine reads it. Records are counted from 0, the header among them. `origin` is the sheet as it was opened. */
export class Sheet {
    #texts = new Map();

    /** `source` of a sheet that was opened: its `bytes` as the engine gets them, the `format` of its file, and `came`, the name of that. */
    constructor(name, records, { origin = null, source = null } = {}) {
        this.name = name;
        this.records = records;
        this.origin = origin ?? this;
        this.source = source ?? origin?.source ?? null;
        this.width = records.reduce((most, record) => Math.max(most, record.length), 0);
    }

    /** The text of a cell; columns are counted from 1. */
    text(record, column) {
        return this.records[record]?.[column - 1] ?? "";
    }

    /** The records that have a text in a column; a new one has none. */
    textsIn(column) {
        let found = this.#texts.get(column);
        if (found) return found;
        found = [];
        this.records.forEach((record, at) => (record[column - 1] ?? "") !== "" && found.push(at));
        this.#texts.set(column, found);
        return found;
    }

    /** A sheet of some of its records, which is as wide, so that its columns have the same numbers. */
    part(records) {
        const rows = records.map((record) => this.records[record]);
        if (rows.length > 0 && rows[0].length < this.width) rows[0] = [...rows[0], ...new Array(this.width - rows[0].length).fill("")];
        return new Sheet(this.name, rows, { origin: this.origin });
    }

    /** The sheet with other texts in some cells: texts by column, by record. */
    with(corrected) {
        if (corrected.size === 0) return this;
        const records = this.records.slice();
        for (const [record, texts] of corrected) {
            const cells = records[record].slice();
            for (const [column, text] of texts) {
                while (cells.length < column) cells.push("");
                cells[column - 1] = text;
            }
            records[record] = cells;
        }
        return new Sheet(this.name, records, { origin: this.origin });
    }

    /** The sheet with some columns empty from a record on. */
    emptying(columns, from) {
        if (columns.length === 0) return this;
        const records = this.records.map((record, at) => (at < from ? record : record.map((text, place) => (columns.includes(place + 1) ? "" : text))));
        return new Sheet(this.name, records, { origin: this.origin });
    }

    /** The sheet with whole columns replaced or added: pairs of a number and the texts of all records. */
    withColumns(columns) {
        const records = this.records.map((record, at) => {
            const cells = record.slice();
            for (const [column, texts] of columns) {
                while (cells.length < column) cells.push("");
                cells[column - 1] = texts[at];
            }
            return cells;
        });
        return new Sheet(this.name, records, { origin: this.origin });
    }

    /** What a column is called on the page. */
    title(column, header) {
        const name = header ? this.text(0, column).trim() : "";
        return name || `Column ${column}`;
    }
}

const isNumber = (text) => /^[\s$€£¥+-]*[\d.,]*\d[\d.,]*\s*%?$/.test(text);

/** The kinds of characters of a text, a sign for each run: so texts that are built alike have one shape. */
const shapeOf = (text) => text.trim().replace(/\p{Lu}\p{Ll}+|\p{L}+/gu, "a").replace(/\d+/g, "0");

/** Whether the first text of a column is built like those below, and not from one word alone: so it is no name of the column. */
function isLikeThoseBelow(records, column) {
    const shape = shapeOf(records[0][column] ?? "");
    if (/^a?$/.test(shape)) return false;
    const below = records.slice(1, 101).map((it) => it[column] ?? "").filter((it) => it !== "");
    return below.length > 0 && below.filter((it) => shapeOf(it) === shape).length >= 0.7 * below.length;
}

/**
 * Whether a sheet's first record looks like names of columns: all different, none empty, no number, and no text is built
 * like those below it.
 */
export function looksLikeHeader({ records, width }) {
    const first = records[0] ?? [];
    const names = first.map((it) => it.trim());
    const isNamed = names.length === width && new Set(names).size === names.length && names.every((it) => it !== "" && !isNumber(it));
    return records.length > 1 && isNamed && !names.some((_, column) => isLikeThoseBelow(records, column));
}

/** A column with more texts than this is not taken for one that is to be filled. */
const MOST_EXAMPLES = 8;

/** The last column that has few texts, or none at all; null where there is no such column. */
export function columnToFill(sheet, header) {
    if (sheet.width < 2) return null;
    const rows = sheet.records.slice(header ? 1 : 0);
    for (let column = sheet.width; column >= 1; column--) {
        const filled = rows.filter((record) => (record[column - 1] ?? "") !== "").length;
        if (filled < rows.length && filled <= MOST_EXAMPLES) return column;
    }
    return null;
}
