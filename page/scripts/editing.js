// Texts that a person puts into cells: typed, taken back, pasted, and copied from them.
import { isDoubtful } from "./answers.js";
import { showTyping } from "./cellcard.js";
import { cellsOf, recordsOfCells } from "./csv.js";
import { byId, notify, say } from "./dom.js";
import { Editor } from "./editor.js";

/** So many cells can be emptied at once. */
const MOST_CLEARED = 10_000;

export class Editing {
    constructor(page) {
        this.page = page;
        this.editor = new Editor(page.grid, {
            onTyping: (cell, text) => this.#typing(cell, text),
            onDone: (cell, text, isEntered) => this.#typed(cell, text, isEntered),
        });
    }

    get isOpen() {
        return this.editor.isOpen;
    }

    close(isKept = true) {
        this.editor.close(isKept);
    }

    /** A text is given for a cell; null takes it back. With `isMore` it is a part of the step before. */
    give(record, text, isMore = false) {
        const { page } = this;
        if (page.choices.fill.given(page.sheet, record) === text) return page.refresh();
        const choices = page.choices.withFill(page.choices.fill.typing(page.sheet, record, text));
        return isMore ? page.amend(choices) : page.choose(choices);
    }

    /** Another text stands in a cell of the sheet. */
    correct({ record, column }, text) {
        const { page } = this;
        if (text === page.sheet.text(record, column)) return page.refresh();
        return page.choose(page.choices.correcting(page.sheet, record, column, text));
    }

    /** Choices with a text in a cell: a given one in a filled column, where the empty text gives none, else a corrected one. */
    #withText(choices, { record, column }, text) {
        const { sheet } = this.page;
        const at = choices.fills.findIndex((it) => it.column === column);
        if (at < 0) return choices.correcting(sheet, record, column, text);
        return choices.with({ at }).withFill(choices.fills[at].typing(sheet, record, text === "" ? null : text)).with({ at: choices.at });
    }

    #typing(cell, text) {
        this.page.preview = this.#withText(this.page.choices, cell, text);
        this.page.refresh();
    }

    /**
     * Typing has ended. An empty text takes back what was given; null leaves all as it was. The text that stood there
     * already is no example, but where Enter was pressed on a guess.
     */
    #typed(cell, text, isEntered) {
        const { page } = this;
        page.preview = null;
        const isFilled = cell.column === page.column;
        const isSame = text === this.startText && !(isFilled && isEntered && this.wasDoubtful);
        if (text === null || isSame) return page.refresh();
        if (isFilled) this.give(cell.record, text === "" ? null : text);
        else this.correct(cell, text);
    }

    /** Edits the chosen cell, with the text that stands there. */
    edit() {
        if (!this.#mayEdit()) return;
        const { page } = this;
        const { record, column } = page.grid.active;
        const isFilled = column === page.column;
        this.startText = isFilled && !page.filled?.isWhole ? (page.choices.fill.given(page.sheet, record) ?? "") : page.textAt(record, column);
        this.wasDoubtful = isFilled && Boolean(page.filled?.isWhole) && isDoubtful(page.filled.states[record]);
        this.#begin(this.startText);
    }

    /** Begins to type into the chosen cell. */
    type(text) {
        if (!this.#mayEdit()) return;
        this.startText = null;
        this.wasDoubtful = false;
        this.#begin(text);
        this.#typing(this.page.grid.active, text);
    }

    #begin(text) {
        const { record, column } = this.page.grid.active;
        this.editor.open(text);
        showTyping(this.page.titleOf(column), record);
    }

    /** Whether the chosen cell can be edited. One of another filled column lets work go on in that column first. */
    #mayEdit() {
        const { page } = this;
        if (page.history === null || page.grid.placeOf(page.grid.active.record) < 0) return false;
        const { column } = page.grid.active;
        if (column !== page.column && page.choices.fillOf(column)) page.fillColumn(column);
        return true;
    }

    /** Takes back what is given in the cells that are picked, and empties those that are read. */
    clear() {
        const { page } = this;
        const { rows, columns } = page.grid.range;
        if ((rows[1] - rows[0] + 1) * (columns[1] - columns[0] + 1) > MOST_CLEARED) return notify(`At most ${MOST_CLEARED.toLocaleString("en")} cells can be emptied at once.`);
        let { choices } = page;
        for (const cell of this.#picked()) choices = this.#withText(choices, cell, "");
        page.choose(choices);
    }

    /** The cells that are picked. */
    #picked() {
        const { grid } = this.page;
        const { rows, columns } = grid.range;
        const cells = [];
        if (rows[0] < 0) return cells;
        for (let row = rows[0]; row <= rows[1]; row++) for (let at = columns[0]; at <= columns[1]; at++) cells.push({ record: grid.rows[row], column: grid.columns.list[at].id });
        return cells;
    }

    /** The cells that are picked, as a spreadsheet takes them. */
    copied() {
        const { page } = this;
        const { rows, columns } = page.grid.range;
        if (rows[0] < 0) return "";
        const ids = page.grid.columns.list.slice(columns[0], columns[1] + 1).map((it) => it.id);
        const records = page.grid.rows.slice(rows[0], rows[1] + 1).map((record) => ids.map((id) => page.textAt(record, id)));
        return records.length === 1 && ids.length === 1 ? records[0][0] : cellsOf(records);
    }

    /** Pastes cells from the chosen one on, as a spreadsheet does. In filled columns they are given, elsewhere they correct. */
    paste(text) {
        const { page } = this;
        const { grid } = page;
        const records = recordsOfCells(text);
        const range = grid.range;
        const [row, column] = [range.rows[0], range.columns[0]];
        if (row < 0) return;
        if (page.opening.isExample && records.length > 1 && records[0].length > 1) return page.opening.ask(text);
        let { choices } = page;
        let lost = 0;
        records.forEach((cells, down) => cells.forEach((cell, right) => {
            const record = grid.rows[row + down];
            const id = grid.columns.list[column + right]?.id;
            if (record === undefined || id === undefined) lost++;
            else if (cell !== "" || !choices.fillOf(id)) choices = this.#withText(choices, { record, column: id }, cell);
        }));
        page.choose(choices);
        if (lost > 0) notify(`${lost} of the pasted cells are beyond the sheet's end, and were left out.`, ["Undo", () => page.undo()], ["Open them as a new sheet", () => { page.undo(); page.opening.ask(text); }]);
        say(`Pasted ${records.length} ${records.length === 1 ? "row" : "rows"}`);
        byId("grid").focus({ preventScroll: true });
    }
}
