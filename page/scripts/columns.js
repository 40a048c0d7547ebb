// The columns of the sheet on the screen: what each is for, how wide it is, and their heads.
import { element } from "./dom.js";

/** How many rows are measured for the width of a column, and how wide one becomes at most by itself. */
const SAMPLE = 200;
const MOST_WIDE = 320;
const LEAST_WIDE = 48;
const ROLE_NAMES = { fills: "to fill", filled: "filled too", reads: "read", other: "not read" };

export class Columns {
    #own = new Map();

    /** `place` is the grid's element, `onMenu(column, head)` is called where a head is pressed. */
    constructor(place, onMenu) {
        this.place = place;
        this.onMenu = onMenu;
        this.head = element("div", { class: "row head", role: "row", "aria-rowindex": 1 });
        this.list = [];
        this.widths = [];
        place.addEventListener("pointerdown", (event) => this.#drag(event));
        place.addEventListener("dblclick", (event) => event.target.matches(".edge") && this.resize(Number(event.target.dataset.column), null));
    }

    /** Lays out the columns of a sheet; false where they stand so already. */
    layOut(sheet, choices) {
        const filled = choices.fills.map((it) => it.column);
        const list = choices.columns(sheet).map((id) => {
            const role = id === choices.fill.column ? "fills" : filled.includes(id) ? "filled" : choices.fill.sources.includes(id) ? "reads" : "other";
            return { id, role, isRead: choices.fill.sources.includes(id), title: choices.title(sheet, id) };
        });
        const layout = JSON.stringify([list, choices.header]);
        const isSame = sheet.origin === this.sheet?.origin && layout === this.layout;
        if (sheet.origin !== this.sheet?.origin) this.#own.clear();
        this.sheet = sheet;
        if (isSame) return false;
        this.layout = layout;
        this.list = list;
        this.header = choices.header;
        this.#measure();
        this.#fillHead();
        return true;
    }

    /** The place of a column, counted from 0. */
    at(id) {
        return this.list.findIndex((it) => it.id === id);
    }

    get count() {
        return this.list.length;
    }

    /** Gives a column a width of its own, or with null that which fits. */
    resize(id, width) {
        if (width === null) this.#own.delete(id);
        else this.#own.set(id, Math.max(LEAST_WIDE, Math.round(width)));
        this.#measure(width === null ? id : null);
    }

    widthOf(id) {
        return this.widths[this.at(id)];
    }

    /** Makes the filled column as wide as its texts need; it never becomes narrower by itself, so that nothing jumps. */
    widen(texts) {
        const at = this.list.findIndex((it) => it.role === "fills");
        if (at < 0 || this.#own.has(this.list[at].id)) return;
        const widest = texts.slice(0, SAMPLE).reduce((most, text) => Math.max(most, this.textWidth(text)), 0);
        const wanted = Math.round(Math.min(this.#mostFilled, widest * 1.03 + 48));
        if (wanted <= this.widths[at]) return;
        this.widths[at] = wanted;
        this.#apply();
    }

    /** How wide the filled column becomes at most, which stays in view. */
    get #mostFilled() {
        return Math.round(Math.max(120, Math.min(MOST_WIDE, this.place.clientWidth * 0.48)));
    }

    get #numbersWidth() {
        return Math.round(this.textWidth(String(this.sheet.records.length))) + 24;
    }

    /** Finds the widths; `fitted` is a column that may become as wide as its texts. */
    #measure(fitted = null) {
        const style = getComputedStyle(this.place);
        const measure = (weight) => {
            const pen = element("canvas").getContext("2d");
            pen.font = `${weight} ${style.fontSize} ${style.fontFamily}`;
            return (text) => pen.measureText(text.slice(0, 150)).width;
        };
        const sample = this.sheet.records.slice(0, SAMPLE);
        const titleWidth = measure(600);
        this.textWidth = measure(400);
        const wanted = this.list.map(({ id, title, role }) => {
            const widest = id < 0 ? 0 : sample.reduce((most, record) => Math.max(most, this.textWidth(record[id - 1] ?? "")), 0);
            const width = Math.max(titleWidth(title) + 24, widest) + 20;
            return Math.round(role === "fills" || role === "filled" ? Math.max(150, width + 44) : Math.max(64, width));
        });
        this.widths = wanted.map((it, at) => {
            const { id, role } = this.list[at];
            return this.#own.get(id) ?? (id === fitted ? it : Math.min(it, role === "fills" ? this.#mostFilled : MOST_WIDE));
        });
        // room that is left over goes to the columns that are cut, but for what the filled one may come to need
        const filled = this.list.findIndex((it) => it.role === "fills");
        let left = this.place.clientWidth - this.#numbersWidth - this.#mostFilled - this.widths.reduce((sum, it) => sum + it, -this.widths[filled]);
        wanted.forEach((it, at) => {
            const more = at === filled || this.#own.has(this.list[at].id) ? 0 : Math.max(0, Math.min(left, it - this.widths[at]));
            this.widths[at] += more;
            left -= more;
        });
        this.#apply();
    }

    #apply() {
        this.place.style.setProperty("--columns", [this.#numbersWidth, ...this.widths].map((it) => `${it}px`).join(" ") + " minmax(0, 1fr)");
    }

    #fillHead() {
        const cells = this.list.map(({ id, role, title, isRead }, at) => {
            const label = `${title}, ${ROLE_NAMES[role]}`;
            const note = role === "fills" ? "to fill" : role === "filled" ? (isRead ? "filled, read" : "filled") : null;
            const button = element("button", { type: "button", class: "head-button", tabindex: -1, title: label, "aria-haspopup": "menu", onclick: (event) => this.onMenu(id, event.currentTarget) },
                element("span", {}, title), note ? element("small", {}, note) : null, element("span", { class: "more", "aria-hidden": "true" }, "▾"));
            const edge = element("span", { class: "edge", "data-column": id, "aria-hidden": "true" });
            return element("div", { class: `title ${role}`, role: "columnheader", "aria-colindex": at + 2, "aria-label": label }, button, edge);
        });
        const corner = element("div", { class: "number", role: "columnheader", "aria-colindex": 1, "aria-label": "Row" }, this.header ? "1" : "");
        this.head.replaceChildren(corner, ...cells, element("div", { class: "filler", role: "presentation" }));
    }

    /** The head's button of a column. */
    button(id) {
        return this.head.children[this.at(id) + 1]?.querySelector("button") ?? null;
    }

    /** Lets the edge of a head be dragged. */
    #drag(event) {
        if (!event.target.matches?.(".edge") || event.button !== 0) return;
        event.preventDefault();
        const id = Number(event.target.dataset.column);
        const from = event.clientX - this.widthOf(id);
        const move = (more) => this.resize(id, more.clientX - from);
        const end = () => {
            removeEventListener("pointermove", move);
            removeEventListener("pointerup", end);
        };
        addEventListener("pointermove", move);
        addEventListener("pointerup", end);
    }
}
