// The page: what is shown, and who is asked where a person does something.
import { GIVEN } from "./answers.js";
import { FILTERS, showChoices, showStates } from "./bar.js";
import { showNothing } from "./cellcard.js";
import { byId, say } from "./dom.js";
import { Doubts } from "./doubts.js";
import { Editing } from "./editing.js";
import { Filling } from "./filling.js";
import { Grid } from "./grid.js";
import { History } from "./history.js";
import { keep } from "./keeping.js";
import { showMenu } from "./menu.js";
import { Opening } from "./opening.js";
import { Results } from "./results.js";
import { TablesCard } from "./tables.js";

/** What is changed is kept so many milliseconds later. */
const KEEP_AFTER = 400;
/** How long it takes until the page says that it works. */
const BUSY_AFTER = 300;

export class Page {
    #under = 0;
    #said = "";
    #sheets = null;
    #read = null;
    #keeping = null;
    #waiting = [];

    constructor() {
        this.filling = new Filling({
            onFilled: (filled, isWhole) => this.showFilled(filled, isWhole),
            onTold: (filled) => this.showTold(filled),
            onOther: () => this.grid.show(this.rows),
            onProblem: (text) => this.showProblem(text),
        });
        this.history = null;
        this.filter = null;
        this.rows = [];
        this.preview = null;
        this.isDirty = false;
        this.grid = new Grid(byId("grid"), {
            onActive: () => this.doubts.showCard(),
            onScroll: () => this.editing.close(),
            onEdit: () => this.editing.edit(),
            onMenu: (column, head) => showMenu(this, column, head),
        });
        this.doubts = new Doubts(this);
        this.editing = new Editing(this);
        this.results = new Results(this);
        this.opening = new Opening(this);
        this.tables = new TablesCard(this);
    }

    get choices() {
        return this.history.now.choices;
    }

    /** The sheet with the corrections of some choices. */
    sheetOf({ corrected }) {
        const { sheet } = this.history.now;
        if (this.#sheets?.corrected !== corrected || this.#sheets.origin !== sheet) this.#sheets = { corrected, origin: sheet, sheet: sheet.with(corrected) };
        return this.#sheets.sheet;
    }

    /** The sheet as it is now. */
    get sheet() {
        return this.sheetOf(this.choices);
    }

    /** The sheet as the engine reads it by some choices: a column of which all given texts were taken back is empty. */
    readBy(choices) {
        const sheet = this.sheetOf(choices);
        const columns = choices.emptied(sheet);
        const from = choices.header ? 1 : 0;
        const key = `${columns} ${from}`;
        if (this.#read?.of !== sheet || this.#read.key !== key) this.#read = { of: sheet, key, sheet: sheet.emptying(columns, from) };
        return this.#read.sheet;
    }

    /** The column that is worked on. */
    get column() {
        return this.choices.fill.column;
    }

    /** What is filled in it; null where nothing is yet. */
    get filled() {
        return this.filling.resultOf(this.column);
    }

    titleOf(column) {
        return this.choices.title(this.sheet, column);
    }

    /** The text of a cell as it is shown. */
    textAt(record, column) {
        const filled = this.filling.resultOf(column);
        if (filled?.isWhole && this.choices.fillOf(column)) return filled.texts[record] ?? "";
        return column > 0 ? this.sheet.text(record, column) : "";
    }

    /** Marks the page as at work until a promise is kept. */
    async during(promise) {
        this.#under++;
        document.body.dataset.rest = "false";
        setTimeout(() => (byId("busy").hidden = this.#under === 0 || !this.filling.isBusy), BUSY_AFTER);
        try {
            return await promise;
        } finally {
            if (--this.#under === 0) {
                document.body.dataset.rest = "true";
                byId("busy").hidden = true;
            }
        }
    }

    /** The first sheet. */
    start(sheet, choices) {
        this.history = new History(sheet, choices);
    }

    /** Takes up other choices, or another sheet with choices for it; it can be undone. */
    choose(choices, sheet = this.history.now.sheet) {
        this.isDirty = true;
        this.history.push(choices, sheet);
        return this.changed();
    }

    /** Takes up other choices as a part of the last step, which is undone as a whole. */
    amend(choices) {
        this.history.amend(choices);
        return this.changed();
    }

    changed() {
        // the example of the first visit is not worth keeping
        clearTimeout(this.#keeping);
        this.#keeping = this.isDirty || !this.opening.isExample ? setTimeout(() => this.keep(), KEEP_AFTER) : null;
        document.body.dataset.kept = String(this.#keeping === null);
        this.render();
        return this.refresh();
    }

    /** Keeps in this browser what was changed, if it is not kept yet. */
    async keep() {
        if (this.#keeping === null) return;
        clearTimeout(this.#keeping);
        this.#keeping = null;
        await this.during(keep(this.history.now));
        document.body.dataset.kept = String(this.#keeping === null);
    }

    /** Another sheet stands there: nothing of the old one is shown. */
    changedSheet() {
        this.filling.forget();
        this.filter = null;
        this.preview = null;
        this.setRows();
        const first = Math.min(this.choices.header ? 1 : 0, this.sheet.records.length - 1);
        this.grid.active = { record: first, column: this.column };
        this.grid.anchor = null;
        byId("grid").scrollTop = 0;
    }

    fillColumn(column) {
        this.editing.close();
        const choices = this.choices.filling(this.sheet, column);
        this.filter = null;
        this.grid.active = { record: this.grid.active.record, column: choices.fill.column };
        this.choose(choices);
        byId("grid").focus({ preventScroll: true });
    }

    /** Reads these columns for the one that is worked on, if they are not too few or too many. */
    read(sources) {
        const { fill } = this.choices;
        if (sources.length > 0 && sources.length <= 8) this.choose(this.choices.withFill(fill.with({ sources })));
        else this.render();
    }

    undo() {
        this.step(() => this.history?.undo());
    }

    redo() {
        this.step(() => this.history?.redo());
    }

    step(move) {
        this.editing.close(false);
        const before = this.history?.now.sheet;
        move();
        if (!this.history) return;
        if (this.history.now.sheet !== before) this.changedSheet();
        else if (!this.choices.columns(this.sheet).includes(this.grid.active.column)) this.grid.active = { ...this.grid.active, column: this.column };
        this.isDirty = true;
        this.changed();
    }

    /** Shows the rows of a filter alone, until it is set anew; null shows all. */
    setFilter(name) {
        this.filter = name;
        this.setRows();
        this.grid.show(this.rows);
        showStates(this.filled, name, (it) => this.setFilter(it));
        if (this.grid.placeOf(this.grid.active.record) < 0 && this.rows.length > 0) this.grid.choose(this.rows[0], this.column);
    }

    /** Finds the rows that are shown. */
    setRows() {
        const filter = FILTERS.find((it) => it.name === this.filter);
        const { filled } = this;
        this.shownBy = { sheet: this.history.now.sheet, header: this.choices.header };
        this.rows = [];
        for (let record = this.choices.header ? 1 : 0; record < this.sheet.records.length; record++) {
            if (!filter || !filled?.isWhole || filter.has(filled, record)) this.rows.push(record);
        }
    }

    /** Shows all that does not wait for the engine. */
    render() {
        const { sheet, choices } = this;
        byId("file-name").textContent = sheet.source.came;
        const count = sheet.records.length - (choices.header ? 1 : 0);
        byId("file-size").textContent = `${count.toLocaleString("en")} ${count === 1 ? "row" : "rows"}`;
        byId("undo").disabled = !this.history.canUndo;
        byId("redo").disabled = !this.history.canRedo;
        showChoices(this, sheet, choices);
        this.tables.show();
        if (this.shownBy?.sheet !== this.history.now.sheet || this.shownBy.header !== choices.header) this.setRows();
        this.grid.layOut(sheet, choices, (column) => this.filling.resultOf(column));
        this.grid.show(this.rows);
    }

    /** Asks the engine by the choices as they are, or as they would be with what is being typed. */
    refresh() {
        const { preview } = this;
        const choices = preview ?? this.choices;
        const filling = this.filling.fill(this.readBy(choices), choices, this.grid.inView, preview !== null);
        return this.during(filling.then(() => {
            if (this.preview === null && this.choices === choices) this.doubts.group();
        }));
    }

    /** Comes when the column has been filled next. */
    whenFilled() {
        return new Promise((resolve) => this.#waiting.push(resolve));
    }

    /** Shows the column that is worked on; not `isWhole` where the rows in view alone are up to date. */
    showFilled(filled, isWhole) {
        this.grid.show(this.rows);
        if (!isWhole) return;
        for (const tell of this.#waiting.splice(0)) tell();
        this.doubts.forget();
        showStates(filled, this.filter, (it) => this.setFilter(it));
        byId("next").disabled = !this.doubts.hasDoubts;
        byId("time").textContent = filled.isWhole && filled.counts[GIVEN] > 0 ? `filled in ${filled.took < 10 ? filled.took.toFixed(1) : Math.round(filled.took)} ms` : "";
        document.body.dataset.filled = String(Number(document.body.dataset.filled ?? 0) + 1);
        if (this.preview) return;
        this.results.show();
        this.doubts.showCard();
        const [given, sure, doubt, none, noneDoubt] = filled.counts;
        const said = `${given} given, ${sure} sure, ${doubt + noneDoubt} in doubt, ${none} none`;
        if (said !== this.#said) say(said);
        this.#said = said;
    }

    /** Shows what more is known of the column that is worked on. */
    showTold(filled) {
        this.grid.show(this.rows);
        showStates(filled, this.filter, (it) => this.setFilter(it));
        this.results.show();
        if (!this.preview) this.doubts.showCard();
    }

    showProblem(text) {
        byId("problem").hidden = text === null;
        byId("problem").textContent = text ?? "";
        if (text !== null && this.history && !this.filled?.isWhole) showNothing("Nothing is filled until this is mended.");
    }
}
