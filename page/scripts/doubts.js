// Cells in doubt: the card of the chosen cell with its two answers, taking one and going on, and all doubts in groups.
import { isDoubtful, nextDoubt } from "./answers.js";
import { showCell, showOther } from "./cellcard.js";
import { byId, say } from "./dom.js";
import { explain, groupsOf } from "./explain.js";
import { showGroups } from "./resultcard.js";
import { rowsToSettle } from "./settling.js";

/** An answer for a whole group is given for so many of its rows at the most, one after the other, until none is in doubt. */
const MOST_TAKEN = 8;
/** So many milliseconds the row that the engine names is waited for once the column is filled. */
const NAMED = 250;
/** How many answers are left is tried where a fill takes no longer than this, in milliseconds. */
const MOST_TRIED = 1500;

export class Doubts {
    #explained = null;
    #grouped = null;
    #turn = 0;
    /** The rows to answer from some choices on, where that was tried. */
    #path = { from: null, rows: [] };

    constructor(page) {
        this.page = page;
    }

    /** The column was filled anew. */
    forget() {
        this.#explained = null;
        this.#turn++;
    }

    get hasDoubts() {
        const { filled } = this.page;
        return Boolean(filled?.isWhole) && filled.states.some(isDoubtful);
    }

    /** Shows the card of the chosen cell, and asks for the reasons of a doubt. */
    async showCard() {
        const { page } = this;
        const { record, column } = page.grid.active;
        const { filled } = page;
        if (!filled?.isWhole || filled.fresh !== null || page.preview || page.editing.isOpen) return;
        if (column !== page.column) return this.#drawOther(record, column);
        if (this.#explained?.record !== record) this.#explained = null;
        this.#draw(record);
        if (this.#explained || !isDoubtful(filled.states[record])) return;
        const turn = this.#turn;
        const isCurrent = () => turn === this.#turn && page.grid.active.record === record && page.grid.active.column === page.column && !page.editing.isOpen;
        try {
            const answers = await page.during(explain(page.filling, filled, record));
            if (!answers || !isCurrent()) return;
            this.#explained = { answers, record };
            this.#draw(record);
        } catch (error) {
            page.showProblem(error.message);
        }
    }

    #drawOther(record, column) {
        const { page } = this;
        const { sheet, choices } = page;
        const was = choices.isCorrected(record, column) ? sheet.origin.text(record, column) : null;
        const role = choices.fillOf(column) ? "filled" : choices.fill.sources.includes(column) ? "reads" : "other";
        showOther(page.titleOf(column), record, { text: page.textAt(record, column), was, role }, {
            edit: () => page.editing.edit(),
            fill: () => page.fillColumn(column),
            restore: () => page.editing.correct({ record, column }, was),
        });
    }

    #draw(record) {
        const { page } = this;
        showCell(page.titleOf(page.column), record, page.filled, this.#explained?.answers ?? [], {
            take: (text) => this.take(text),
            edit: () => page.editing.edit(),
            clear: () => page.editing.give(record, null),
            keepEmpty: () => this.take(""),
        });
    }

    /** The rows to answer by the choices as they are, so far as they are known. */
    get #way() {
        return this.#path.from === this.page.choices ? this.#path.rows : [];
    }

    /** Takes an answer of the chosen cell, or any text, and goes to the next row to look at if nothing else was done meanwhile. */
    async take(text) {
        const { page } = this;
        const { record } = page.grid.active;
        const [first, ...rows] = this.#way;
        const isTried = first === record && page.filled.texts[record] === text;
        byId("grid").focus({ preventScroll: true });
        const done = page.editing.give(record, text);
        const { choices } = page;
        if (isTried) this.#path = { from: choices, rows };
        await Promise.race([done, page.whenFilled().then(() => (isTried ? null : new Promise((resolve) => setTimeout(resolve, NAMED))))]);
        const isSame = page.choices === choices && page.grid.active.record === record && !page.editing.isOpen;
        if (isSame && this.hasDoubts) this.next(1);
    }

    takeAnswer(which) {
        const { page } = this;
        const { record, column } = page.grid.active;
        const { filled } = page;
        if (column !== page.column || !filled?.isWhole || !isDoubtful(filled.states[record])) return;
        const answers = this.#explained?.record === record ? this.#explained.answers : [{ text: filled.texts[record] }];
        const text = answers[which]?.text ?? null;
        if (text !== null && !text.includes("\ufffd")) this.take(text);
    }

    /** Goes to the next row to look at: that which was tried or which the engine names, else the next one in doubt; with -1 to the one before. */
    next(step) {
        const { page } = this;
        const { filled, grid } = page;
        if (!filled?.isWhole) return;
        const { record } = grid.active;
        const named = step > 0 ? (this.#way[0] ?? filled.next) : null;
        const isNew = named !== null && !this.#wentTo.has(filled.learning);
        if (isNew) this.#wentTo.add(filled.learning);
        const isShown = (it) => grid.placeOf(it) >= 0;
        const after = (...more) => nextDoubt(filled, page.choices.header, record, step, ...more);
        // under a filter its rows come first
        const found = isNew && named !== record && isShown(named) ? named : (after(isShown) ?? after());
        if (found === null) return say("No row is in doubt");
        this.goTo(found);
    }

    /** What was learned where the row that is named was gone to: from there on the next ones follow. */
    #wentTo = new WeakSet();

    goTo(record) {
        const { page } = this;
        if (page.grid.placeOf(record) < 0) page.setFilter(null);
        page.grid.choose(record, page.column);
        byId("grid").focus({ preventScroll: true });
    }

    /** Puts the doubts into groups and shows them, again where the column was filled anew. */
    async group() {
        const { page } = this;
        const { filled } = page;
        if (filled?.fresh !== null) return;
        if (!this.hasDoubts) return showGroups(null, {});
        if (this.#grouped === filled.learning) return;
        this.#grouped = filled.learning;
        const calls = { takeAll: (rows, which) => this.takeAll(rows, which), goTo: (record) => this.goTo(record) };
        const isCurrent = () => this.#grouped === filled.learning && page.filled?.learning === filled.learning;
        const show = (some) => isCurrent() && showGroups({ ...some, left: this.#way.length }, calls);
        const found = await page.during(groupsOf(page.filling, filled, isCurrent, show));
        if (found === null || !isCurrent()) return;
        show(found);
        if (this.#way.length > 0 || filled.took > MOST_TRIED) return;
        const { choices } = page;
        const rows = await page.during(rowsToSettle(page.filling, page.filled, page.grid.active.record, isCurrent));
        if (rows === null || !isCurrent()) return;
        this.#path = { from: choices, rows };
        show(found);
    }

    /**
     * Takes one of the two answers for all rows of a group: it is given for the first row, and for further ones as long as
     * some are in doubt that read as the rule says. One undo takes all back.
     */
    async takeAll(rows, which) {
        const { page } = this;
        let isMore = false;
        for (const { record, texts } of rows.slice(0, MOST_TAKEN)) {
            const text = texts[which];
            if (text === null || page.choices.fill.given(page.sheet, record) !== null) continue;
            if (record !== rows[0].record && (!isDoubtful(page.filled.states[record]) || page.filled.texts[record] !== text)) continue;
            const done = page.editing.give(record, text, isMore);
            const { choices } = page;
            await done;
            if (!page.filled?.isWhole || page.choices !== choices) return;
            isMore = true;
        }
        const left = rows.filter(({ record }) => isDoubtful(page.filled.states[record])).length;
        say(left === 0 ? `${rows.length} rows are settled` : `${rows.length - left} of ${rows.length} rows are settled`);
    }
}
