// Starts the page: buttons, keys, and the sheet of a first visit.
import { listenToChoices } from "./bar.js";
import { byId, say } from "./dom.js";
import { listen } from "./editor.js";
import { EXAMPLE } from "./example.js";
import { findCell } from "./find.js";
import { showMenu } from "./menu.js";
import { Page } from "./page.js";
import { builtFrom } from "./parts.js";

const page = new Page();

/** Goes to the next cell with the text that is looked for. */
function find(step) {
    const text = byId("find").value;
    const { grid } = page;
    const from = { row: Math.max(0, grid.placeOf(grid.active.record)), column: Math.max(0, grid.columns.at(grid.active.column)) };
    const found = findCell(text, { rows: grid.rows.length, columns: grid.columns.count, textAt: (row, column) => page.textAt(grid.rows[row], grid.columns.list[column].id) }, from, step);
    byId("find").classList.toggle("fails", found === null && text !== "");
    if (found === null) return say(text === "" ? "" : `“${text}” is not found`);
    grid.choose(grid.rows[found.row], grid.columns.list[found.column].id);
}

/** Keys that work wherever no text is typed and no dialog is open. */
function pressed(event) {
    const { key, code, altKey, shiftKey, target } = event;
    const isCommand = event.ctrlKey || event.metaKey;
    const letter = key.toLowerCase();
    if (key === "F1") byId("keys-dialog").showModal();
    else if (isCommand && !altKey && letter === "f" && !target.closest("dialog")) byId("find").focus();
    else if (target.closest("input:not([type=checkbox]), textarea, select, dialog") || isCommand === altKey) return;
    else if (altKey && key === "ArrowDown") page.doubts.next(1);
    else if (altKey && key === "ArrowUp") page.doubts.next(-1);
    else if (altKey && code === "Digit1") page.doubts.takeAnswer(0);
    else if (altKey && code === "Digit2") page.doubts.takeAnswer(1);
    else if (isCommand && letter === "z" && !shiftKey) page.undo();
    else if (isCommand && (letter === "y" || letter === "z")) page.redo();
    else return;
    event.preventDefault();
}

function listenToPage() {
    listenToChoices(page);
    page.opening.listen();
    page.results.listen();
    listen(page.grid, {
        type: (text) => page.editing.type(text),
        edit: () => page.editing.edit(),
        clear: () => page.editing.clear(),
        menu: () => {
            const { column } = page.grid.active;
            const head = page.grid.columns.button(column);
            if (head) showMenu(page, column, head);
        },
    });
    byId("undo").addEventListener("click", () => page.undo());
    byId("redo").addEventListener("click", () => page.redo());
    byId("next").addEventListener("click", () => page.doubts.next(1));
    byId("stop").addEventListener("click", () => page.filling.stop());
    byId("keys").addEventListener("click", () => byId("keys-dialog").showModal());
    byId("find").addEventListener("keydown", (event) => {
        if (event.key === "Enter") find(event.shiftKey ? -1 : 1);
        else if (event.key === "Escape") byId("grid").focus({ preventScroll: true });
    });
    document.addEventListener("keydown", pressed);
    // Firefox sends it to where texts are picked, and not to the sheet
    document.addEventListener("copy", (event) => {
        if (document.activeElement !== byId("grid")) return;
        event.clipboardData.setData("text/plain", page.editing.copied());
        event.preventDefault();
    });
    document.addEventListener("paste", (event) => {
        if (event.target.matches?.("input, textarea") || document.querySelector("dialog[open]")) return;
        const text = event.clipboardData.getData("text/plain");
        if (text && page.history) page.editing.paste(text);
        event.preventDefault();
    });
    document.addEventListener("visibilitychange", () => document.hidden && page.keep());
    addEventListener("beforeunload", (event) => {
        if (page.isDirty) event.preventDefault();
    });
}

/** Whether this browser has seen the note already; where it keeps nothing, it has not. */
function greet() {
    try {
        byId("hello").hidden = localStorage.getItem("flashfill-hello") === "done";
    } catch {
        byId("hello").hidden = false;
    }
    byId("hello-done").addEventListener("click", () => {
        try {
            localStorage.setItem("flashfill-hello", "done");
        } catch {
            // it is shown again next time
        }
        byId("hello").hidden = true;
        byId("grid").focus();
    });
}

async function start() {
    listenToPage();
    greet();
    try {
        byId("unproved").hidden = (await builtFrom()).isProved;
        await page.tables.start();
    } catch (error) {
        return page.showProblem(error.message);
    }
    await page.opening.open(EXAMPLE.name, new TextEncoder().encode(EXAMPLE.text), { sources: EXAMPLE.sources });
    await page.opening.offerLast();
    if (document.activeElement === document.body) byId("grid").focus({ preventScroll: true });
}

start();
