// The rows of the sheet on the screen: the elements of a row, and what stands in them.
import { GIVEN, NONE, NONE_DOUBT, STATE_CLASSES, STATE_MARKS, STATE_NAMES } from "./answers.js";
import { element } from "./dom.js";

export const cellId = (record, column) => `cell-${record}-${column}`;

/** A text in one line: a mark stands for each line end. */
const inOneLine = (text) => (/[\r\n]/.test(text) ? text.replace(/\r\n|\r|\n/g, "↵") : text);

function setText(place, text) {
    const shown = inOneLine(text);
    if (place.textContent !== shown) place.textContent = shown;
}

function setTitle(cell, title) {
    if (title) cell.title = title;
    else cell.removeAttribute("title");
}

/** A row without a record. */
export function newRow(columns) {
    const cells = columns.map(({ id, role }, at) => {
        const cell = element("div", { class: `cell ${role}`, role: "gridcell", "aria-colindex": at + 2, "data-column": id });
        cell.append(element("span", { class: "text" }));
        if (role === "fills" || role === "filled") cell.append(element("span", { class: "mark" }));
        return cell;
    });
    const number = element("div", { class: "number", role: "rowheader", "aria-colindex": 1 });
    const row = element("div", { class: "row", role: "row" }, number, cells, element("div", { class: "filler", role: "presentation" }));
    row.at = -1;
    return row;
}

/**
 * Shows a record in a row. `view` has the `columns`, the `sheet`, the `choices`, `resultOf(column)`, which is what is filled in
 * a column, and `isActive`, `isPicked` of a record and a place of a column.
 */
export function fillRow(row, record, view) {
    row.dataset.record = String(record);
    row.firstChild.textContent = String(record + 1);
    view.columns.forEach(({ id, role }, at) => {
        const cell = row.children[at + 1];
        const isActive = view.isActive(record, id);
        const isPicked = view.isPicked(record, at);
        cell.id = cellId(record, id);
        cell.setAttribute("aria-selected", String(isActive || isPicked));
        const kept = [isActive && "active", isPicked && "picked", cell.classList.contains("editing") && "editing"].filter(Boolean);
        if (role === "fills" || role === "filled") fillAnswer(cell, record, id, role, kept, view);
        else fillRead(cell, record, id, role, kept, view);
    });
}

function fillRead(cell, record, id, role, kept, { sheet, choices }) {
    const isCorrected = choices.isCorrected(record, id);
    setText(cell.firstChild, sheet.text(record, id));
    cell.className = ["cell", role, ...(isCorrected ? ["corrected"] : []), ...kept].join(" ");
    setTitle(cell, isCorrected ? `It was: ${sheet.origin.text(record, id)}` : null);
}

function fillAnswer(cell, record, id, role, kept, { sheet, choices, resultOf }) {
    const filled = resultOf(id);
    const [text, mark] = cell.children;
    if (!filled?.isWhole || filled.counts[GIVEN] === 0) {
        setText(text, choices.fillOf(id)?.given(sheet, record) ?? "");
        setText(mark, "");
        cell.className = ["cell", role, ...kept].join(" ");
        cell.removeAttribute("aria-label");
        return;
    }
    const state = filled.states[record];
    const refusal = filled.refusals.get(record);
    const shown = filled.texts[record] ?? "";
    const isOld = filled.fresh !== null && !filled.fresh.has(record);
    setText(text, shown);
    setText(mark, refusal ? "!" : STATE_MARKS[state]);
    cell.className = ["cell", role, STATE_CLASSES[state], ...(refusal ? ["refused"] : []), ...(isOld ? ["old"] : []), ...kept].join(" ");
    const isNothing = shown === "" && (state === NONE || state === NONE_DOUBT || state === GIVEN);
    const told = refusal ? "given, not used as an example" : STATE_NAMES[state];
    cell.setAttribute("aria-label", `${isNothing ? "empty" : shown}, ${told}`);
    setTitle(cell, refusal ? `Not used as an example: ${refusal}` : null);
}
