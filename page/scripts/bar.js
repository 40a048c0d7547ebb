// What stands above the sheet: the columns that are filled, those that are read, the header, and the rows by state.
import { DOUBT, GIVEN, NONE, NONE_DOUBT, STATE_MARKS, SURE } from "./answers.js";
import { byId, element } from "./dom.js";

/** At most so many columns can be read. */
export const MOST_SOURCES = 8;
/** With more columns those that are not read stand in the heads alone. */
const MOST_SHOWN = 12;

/** Listens to the choices above the sheet. */
export function listenToChoices(page) {
    byId("target").addEventListener("change", (event) => page.fillColumn(event.target.value === "new" ? null : Number(event.target.value)));
    byId("new-name").addEventListener("change", (event) => page.choose(page.choices.withFill(page.choices.fill.with({ newName: event.target.value.trim() || "New column" }))));
    byId("header").addEventListener("change", (event) => page.choose(page.choices.with({ header: event.target.checked })));
    byId("sources").addEventListener("change", () => page.read([...byId("sources").querySelectorAll("input:checked")].map((it) => Number(it.value))));
}

/** Shows the choices as they are. `page` is asked for more. */
export function showChoices(page, sheet, choices) {
    const { fill, fills } = choices;
    const columns = choices.columns(sheet);
    byId("target").replaceChildren(
        ...columns.map((id) => element("option", { value: id, selected: fill.column === id }, choices.title(sheet, id))),
        element("option", { value: "new" }, "a new column"),
    );
    byId("new-name-choice").hidden = !fill.isNew || !choices.header;
    byId("new-name").value = fill.newName;
    byId("header").checked = choices.header;
    showSources(sheet, choices);
    byId("fills").hidden = fills.length < 2;
    byId("fills").replaceChildren("Filled: ", ...fills.map((it, at) => {
        const title = choices.title(sheet, it.column);
        const isOn = at === choices.at;
        return element("span", { class: "pair" },
            element("button", { type: "button", class: "fill-tab", "aria-pressed": String(isOn), onclick: () => page.fillColumn(it.column) }, title),
            element("button", { type: "button", class: "fill-tab", "aria-label": `Do not fill ${title}`, title: `Do not fill ${title}`, onclick: () => page.choose(choices.without(sheet, at)) }, "×"));
    }));
}

function showSources(sheet, choices) {
    const { sources } = choices.fill;
    const readable = choices.readable(sheet);
    const isFull = sources.length >= MOST_SOURCES;
    const shown = readable.length > MOST_SHOWN ? readable.filter((it) => sources.includes(it)) : readable;
    const chips = shown.map((id) => {
        const isRead = sources.includes(id);
        const box = element("input", { type: "checkbox", value: id, checked: isRead, disabled: isFull && !isRead });
        return element("label", { class: "chip", title: isFull && !isRead ? `At most ${MOST_SOURCES} columns are read` : null }, box, element("span", {}, choices.title(sheet, id)));
    });
    const more = readable.length - shown.length;
    const note = more > 0 ? `${more} more: choose in the column heads${isFull ? `, ${MOST_SOURCES} at most` : ""}` : isFull && readable.length > MOST_SOURCES ? `${MOST_SOURCES} at most` : null;
    byId("sources").replaceChildren(...chips, ...(note ? [element("span", { class: "hint" }, note)] : []));
}

/** The rows that a filter shows, and how it is called. */
export const FILTERS = [
    { name: "given", mark: STATE_MARKS[GIVEN], has: (filled, record) => filled.states[record] === GIVEN && !filled.refusals.has(record) },
    { name: "refused", mark: "!", title: "not used", has: (filled, record) => filled.refusals.has(record) },
    { name: "sure", mark: STATE_MARKS[SURE], has: (filled, record) => filled.states[record] === SURE },
    { name: "doubt", mark: STATE_MARKS[DOUBT], has: (filled, record) => filled.states[record] === DOUBT || filled.states[record] === NONE_DOUBT },
    { name: "none", mark: STATE_MARKS[NONE], has: (filled, record) => filled.states[record] === NONE },
];

/** How many rows each filter has. */
export function rowCounts({ counts, refusals }) {
    return { given: counts[GIVEN] - refusals.size, refused: refusals.size, sure: counts[SURE], doubt: counts[DOUBT] + counts[NONE_DOUBT], none: counts[NONE] };
}

/** Shows how many rows have each state; a button shows these rows alone. */
export function showStates(filled, filter, onFilter) {
    const place = byId("chips");
    if (!filled?.isWhole || filled.counts[GIVEN] === 0) {
        const hint = filled?.isWhole ? "Nothing is given yet: type what one cell of the green column should be." : "";
        return place.replaceChildren(element("span", { class: "hint" }, hint));
    }
    const counts = rowCounts(filled);
    const chips = FILTERS.filter(({ name }) => name !== "refused" || counts.refused > 0).map(({ name, mark, title }) => {
        const isOn = filter === name;
        const text = [element("span", { class: "dot", "aria-hidden": "true" }, mark), ` ${counts[name].toLocaleString("en")} ${title ?? name}`];
        const what = isOn ? "Show all rows" : `Show these rows alone: ${title ?? name}`;
        return element("button", { type: "button", class: `state ${name}`, "aria-pressed": String(isOn), title: what, onclick: () => onFilter(isOn ? null : name) }, text);
    });
    // the focus stays on the button that was pressed
    const focused = [...place.children].indexOf(document.activeElement);
    place.replaceChildren(...chips);
    if (focused >= 0) place.children[focused]?.focus();
}
