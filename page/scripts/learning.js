// What the engine is asked for one filled column: the sheet that it reads, and the choices in the numbers of that sheet.
import { placeIn } from "./sheet.js";

/** One column to fill. `column` is its number in the sheet, or null for a new one; `fill` is what was chosen for it. */
export class Learning {
    constructor({ sheet, header, column, sources, fill, tables, depth }) {
        Object.assign(this, { sheet, header, column, sources, fill, tables, depth, given: null });
    }

    /** The number of the filled column in what is written. */
    get place() {
        return this.column ?? this.sheet.width + 1;
    }

    get newName() {
        return this.fill.newName;
    }

    allGiven() {
        return (this.given ??= this.fill.allGiven(this.sheet, this.header));
    }

    /**
     * The same for these records alone, counted from 0 and from the top down; `sheet` is made of them where none is handed in.
     * Answers of rows depend on the examples and on the row itself: so where all given cells are among the records, each has
     * the answer of the whole sheet.
     */
    part(records, sheet = this.sheet.part(records)) {
        const place = (record) => placeIn(records, record);
        const typed = new Map([...this.fill.typed].map(([record, text]) => [place(record), text]).filter(([at]) => at >= 0));
        const cleared = new Set([...this.fill.cleared].map(place).filter((at) => at >= 0));
        return new Learning({ ...this, sheet, fill: this.fill.with({ typed, cleared }) });
    }
}

/**
 * What the fill at a place asks of the engine. It reads the columns that are filled before it with their new texts:
 * `textsOf(column)` has them, or null where they are not known yet; then nothing can be asked.
 */
export function learningOf(sheet, choices, at, textsOf) {
    const fill = choices.fills[at];
    const read = choices.fills.slice(0, at).filter((it) => fill.sources.includes(it.column));
    const numbers = new Map();
    const replaced = [];
    let width = sheet.width;
    for (const { column } of read) {
        const texts = textsOf(column);
        if (texts === null) return null;
        const number = column > 0 ? column : ++width;
        numbers.set(column, number);
        replaced.push([number, texts]);
    }
    const whole = read.length === 0 ? sheet : withFilled(sheet, replaced);
    const sources = fill.sources.map((it) => numbers.get(it) ?? it);
    return new Learning({ sheet: whole, header: choices.header, column: fill.isNew ? null : fill.column, sources, fill, tables: choices.tables, depth: choices.depth });
}

/** The sheets that were made last, with the texts that they were made of. */
let made = [];

/** The sheet with filled columns in it; the same one where the same texts stand there. */
function withFilled(sheet, replaced) {
    const isSame = (it) => it.sheet === sheet && it.replaced.length === replaced.length && it.replaced.every(([column, texts], at) => column === replaced[at][0] && texts === replaced[at][1]);
    const known = made.find(isSame);
    if (known) return known.whole;
    const whole = sheet.withColumns(replaced);
    made = [{ sheet, replaced, whole }, ...made].slice(0, 4);
    return whole;
}
