// The sheet on the screen. Only the rows in view are in the document: a ring of rows, each used again for another record.
import { cellId, fillRow, newRow } from "./cells.js";
import { Columns } from "./columns.js";
import { element } from "./dom.js";
import { ROW, Scrolling } from "./scrolling.js";
import { placeFrom, placeIn } from "./sheet.js";

/** How many rows are kept ready above and below those in view. */
const MORE = 8;

export class Grid {
    #scrolling = new Scrolling(0, 0);

    /**
     * `calls.onActive()` is called where another cell is chosen, `calls.onScroll()` where the row of the text field leaves the
     * view, `calls.onEdit()` where the chosen cell is to be edited, `calls.onMenu(column, head)` where a head is pressed.
     */
    constructor(place, calls) {
        this.place = place;
        this.calls = calls;
        this.columns = new Columns(place, (...it) => calls.onMenu(...it));
        this.body = element("div", { class: "body", role: "rowgroup" });
        place.append(element("div", { role: "rowgroup", class: "head-group" }, this.columns.head), this.body);
        this.slots = [];
        this.rows = [];
        this.active = { record: 0, column: 1 };
        this.anchor = null;
        place.addEventListener("scroll", () => this.#draw(false), { passive: true });
        new ResizeObserver(() => this.#draw(false)).observe(place);
        place.addEventListener("pointerdown", (event) => this.#pressed(event));
        place.addEventListener("dblclick", (event) => this.#cellOf(event) && this.calls.onEdit());
    }

    /** Shows another sheet or other columns, if anything is another one. `view` is what cells.js asks for. */
    layOut(sheet, choices, resultOf) {
        const { columns } = this;
        this.view = { get columns() { return columns.list; }, sheet, choices, resultOf, isActive: (record, column) => record === this.active.record && column === this.active.column, isPicked: (record, at) => this.#isPicked(record, at) };
        if (!this.columns.layOut(sheet, choices)) return;
        this.place.setAttribute("aria-colcount", String(this.columns.count + 1));
        for (const slot of this.slots) slot.remove();
        this.slots = [];
    }

    /** Shows these rows, records counted from 0. */
    show(rows) {
        this.rows = rows;
        this.place.setAttribute("aria-rowcount", String(rows.length + 1));
        const filled = this.view.resultOf(this.view.choices.fill.column);
        if (filled?.isWhole) this.columns.widen(filled.texts);
        this.#draw(true);
    }

    /** Where a record stands among the rows that are shown; -1 where it is not shown. */
    placeOf(record) {
        return placeIn(this.rows, record);
    }

    /** Chooses a cell, and brings it into view. With `isRange` all cells from the one that was chosen before are picked. */
    choose(record, column, isRange = false) {
        if (!isRange) this.anchor = null;
        else this.anchor ??= this.active;
        this.active = { record, column };
        const at = this.placeOf(record);
        if (at >= 0) this.#bringIntoView(at, column);
        this.#draw(true);
        this.calls.onActive();
    }

    /** Moves the chosen cell by rows and columns, as far as there are some. One that is not shown counts as above its next one. */
    move(rows, columns, isRange = false) {
        if (this.rows.length === 0) return;
        let at = this.placeOf(this.active.record);
        if (at < 0) at = placeFrom(this.rows, this.active.record) - (rows > 0 ? 1 : 0);
        const to = Math.min(this.rows.length - 1, Math.max(0, at + rows));
        const column = Math.min(this.columns.count - 1, Math.max(0, this.columns.at(this.active.column) + columns));
        this.choose(this.rows[to], this.columns.list[column].id, isRange);
    }

    /** Picks all cells. */
    pickAll() {
        if (this.rows.length === 0) return;
        this.anchor = { record: this.rows[0], column: this.columns.list[0].id };
        this.active = { record: this.rows.at(-1), column: this.columns.list.at(-1).id };
        this.#draw(true);
    }

    /** The cells that are picked: the records and the columns' places, from and up to. */
    get range() {
        const { anchor, active } = this;
        const from = anchor ?? active;
        const order = (a, b) => [Math.min(a, b), Math.max(a, b)];
        return { rows: order(this.placeOf(from.record), this.placeOf(active.record)), columns: order(this.columns.at(from.column), this.columns.at(active.column)) };
    }

    #isPicked(record, at) {
        if (this.anchor === null) return false;
        const { rows, columns } = this.range;
        const row = this.placeOf(record);
        return row >= rows[0] && row <= rows[1] && at >= columns[0] && at <= columns[1];
    }

    /** How many whole rows are in view. */
    get rowsInView() {
        return Math.max(1, Math.floor((this.place.clientHeight - ROW) / ROW) - 1);
    }

    /** The records whose rows are in view, or almost. */
    get inView() {
        return this.slots.filter((it) => it.at >= 0).map((it) => this.rows[it.at]).filter((it) => it !== undefined);
    }

    /** The element of the chosen cell; null where it is out of view. */
    get activeCell() {
        return document.getElementById(cellId(this.active.record, this.active.column));
    }

    #cellOf(event) {
        return event.target.closest?.(".cell") ?? null;
    }

    #pressed(event) {
        const cell = this.#cellOf(event);
        if (!cell || event.button !== 0 || event.target.closest(".editor")) return;
        const place = (it) => [Number(it.parentElement.dataset.record), Number(it.dataset.column)];
        const [record, column] = place(cell);
        const again = record === this.active.record && column === this.active.column;
        this.choose(record, column, event.shiftKey);
        if (event.pointerType === "touch") {
            if (again) this.calls.onEdit();
            return;
        }
        const move = (more) => {
            const other = document.elementFromPoint(more.clientX, more.clientY)?.closest?.(".cell");
            if (!other || !this.place.contains(other)) return;
            const [to, in_] = place(other);
            if (to !== this.active.record || in_ !== this.active.column) this.choose(to, in_, true);
        };
        const end = () => {
            removeEventListener("pointermove", move);
            removeEventListener("pointerup", end);
        };
        addEventListener("pointermove", move);
        addEventListener("pointerup", end);
    }

    #bringIntoView(at, column) {
        const { place, columns } = this;
        const view = new Scrolling(this.rows.length, place.clientHeight - ROW - 2);
        const to = view.placeFor(at, place.scrollTop);
        if (to !== place.scrollTop) place.scrollTop = to;
        const title = columns.head.children[columns.at(column) + 1];
        if (!title || title.classList.contains("fills")) return;
        const left = title.offsetLeft - columns.head.children[0].offsetWidth;
        // the filled column may cover the right edge
        const fills = columns.head.querySelector(".fills");
        const isBefore = columns.at(column) < columns.list.findIndex((it) => it.role === "fills");
        const right = title.offsetLeft + title.offsetWidth + (isBefore ? fills.offsetWidth : 0);
        if (left < place.scrollLeft) place.scrollLeft = left;
        else if (right > place.scrollLeft + place.clientWidth) place.scrollLeft = right - place.clientWidth;
    }

    /** Puts the rows in view into the document; `all` also where a row stands there already. */
    #draw(all) {
        const { place, rows } = this;
        if (!this.view) return;
        this.#scrolling = new Scrolling(rows.length, place.clientHeight - ROW - 2);
        const height = `${this.#scrolling.height}px`;
        if (this.body.style.height !== height) this.body.style.height = height;
        const [first, last] = this.#scrolling.range(place.scrollTop, MORE);
        const wanted = Math.max(1, last - first);
        if (wanted > this.slots.length) {
            for (const slot of this.slots) slot.remove();
            this.slots = Array.from({ length: wanted + 4 }, () => newRow(this.columns.list));
            this.body.append(...this.slots);
        }
        const used = new Set();
        let above = null;
        for (let at = first; at < last; at++) {
            const slot = this.slots[at % this.slots.length];
            used.add(slot);
            const isOther = slot.at !== at;
            if (all || isOther) this.#fillRow(slot, at);
            // screen readers read rows as they stand in the document
            const next = above === null ? this.body.firstChild : above.nextSibling;
            if (next !== slot && isOther) this.body.insertBefore(slot, next);
            above = slot;
            if (all || isOther || this.#scrolling.scale !== 1) slot.style.transform = `translateY(${this.#scrolling.top(at, place.scrollTop)}px)`;
        }
        for (const slot of this.slots) {
            if (used.has(slot) || slot.hidden) continue;
            this.#leave(slot);
            slot.hidden = true;
            slot.at = -1;
        }
        const cell = this.activeCell;
        if (cell) place.setAttribute("aria-activedescendant", cell.id);
        else place.removeAttribute("aria-activedescendant");
    }

    /** Tells that a row is used for another record, so that an editor in it ends. */
    #leave(slot) {
        if (slot.at >= 0 && slot.querySelector(".editor")) this.calls.onScroll();
    }

    #fillRow(slot, at) {
        if (slot.at !== at) {
            this.#leave(slot);
            slot.at = at;
            slot.hidden = false;
            slot.setAttribute("aria-rowindex", String(at + 2));
        }
        fillRow(slot, this.rows[at], this.view);
    }
}
