// The menu of a column: to fill it, to read it, and its width.
import { MOST_SOURCES } from "./bar.js";
import { byId, element } from "./dom.js";

const STEP = 60;

/** Shows the menu of a column below its head; the first entry has the focus. */
export function showMenu(page, column, head) {
    const { choices, sheet, grid } = page;
    const { fill } = choices;
    const isFilled = choices.fillOf(column) !== null;
    const isRead = fill.sources.includes(column);
    const title = choices.title(sheet, column);
    const width = grid.columns.widthOf(column);
    const entries = [];
    if (column !== fill.column) entries.push([isFilled ? "Work on this column" : "Fill this column", () => page.fillColumn(column)]);
    if (isFilled && choices.fills.length > 1) entries.push(["Do not fill it", () => page.choose(choices.without(sheet, choices.fills.findIndex((it) => it.column === column)))]);
    if (isRead && fill.sources.length > 1) entries.push(["Do not read it", () => page.read(fill.sources.filter((it) => it !== column))]);
    if (!isRead && choices.readable(sheet).includes(column)) {
        const isFull = fill.sources.length >= MOST_SOURCES;
        entries.push([isFull ? `Read it (${MOST_SOURCES} are read, no more can be)` : `Read it for “${choices.title(sheet, fill.column)}”`, isFull ? null : () => page.read([...fill.sources, column])]);
    }
    entries.push(["As wide as its texts", () => grid.columns.resize(column, null)], ["Wider", () => grid.columns.resize(column, width + STEP)], ["Narrower", () => grid.columns.resize(column, width - STEP)]);
    const menu = byId("menu");
    const close = (isBack = true) => {
        menu.hidden = true;
        if (isBack) byId("grid").focus({ preventScroll: true });
    };
    menu.setAttribute("aria-label", `Column ${title}`);
    menu.replaceChildren(...entries.map(([text, act]) => element("button", { type: "button", role: "menuitem", disabled: act === null, onclick: () => { close(); act(); } }, text)));
    menu.hidden = false;
    const at = head.getBoundingClientRect();
    menu.style.left = `${Math.max(4, Math.min(at.left, innerWidth - menu.offsetWidth - 8))}px`;
    menu.style.top = `${at.bottom + 2}px`;
    const buttons = [...menu.querySelectorAll("button:not(:disabled)")];
    buttons[0].focus();
    menu.onkeydown = (event) => {
        const step = { ArrowDown: 1, ArrowUp: -1 }[event.key];
        if (event.key === "Escape" || event.key === "Tab") close();
        else if (step) buttons[(buttons.indexOf(document.activeElement) + step + buttons.length) % buttons.length].focus();
        else return;
        event.preventDefault();
    };
    menu.onfocusout = (event) => {
        if (!menu.contains(event.relatedTarget)) close(false);
    };
}
