// The card of the chosen cell: what is known of it, and what can be done with it.
import { DOUBT, GIVEN, NONE, NONE_DOUBT, STATE_CLASSES, STATE_MARKS, STATE_NAMES, SURE, isDoubtful } from "./answers.js";
import { byId, element } from "./dom.js";

const SENTENCES = {
    [GIVEN]: "You gave this text. The column is learned from it.",
    [SURE]: "Every rule that explains your examples gives this text.",
    [DOUBT]: "A guess: rules that explain your examples give different texts here.",
    [NONE]: "No rule that explains your examples gives a text here. Fill it by hand if you want one.",
    [NONE_DOUBT]: "The simplest rule gives no text here, another one does.",
};

/** A text as it is shown in a card. */
export const shown = (text) => (text === "" ? element("i", {}, "empty") : text);

const button = (text, onclick) => element("button", { type: "button", onclick }, text);

const badge = (state) => element("span", { class: `badge ${STATE_CLASSES[state]}` }, element("span", { "aria-hidden": "true" }, STATE_MARKS[state]), ` ${STATE_NAMES[state]}`);

/** One of two answers: a button that takes it, with the words of its rule. That a rule gives no text cannot be taken. */
function answerButton(which, { text, words }, onTake) {
    const rule = words === null ? null : element("span", { class: "rule" }, words);
    if (text === null || text.includes("\ufffd")) return element("div", { class: "answer nothing" }, element("span", { class: "answer-text" }, text ?? (which === 0 ? "No text, by:" : "or no text, by:")), rule);
    const keys = element("kbd", {}, `Alt+${which + 1}`);
    return element("button", { type: "button", class: "answer", onclick: () => onTake(text) }, element("span", { class: "answer-text" }, shown(text)), keys, rule);
}

/** Why a given text is not used as an example, as a sentence. */
function refusalSentence(reason) {
    const clash = /^row (\d+) reads the same cells and has another text/.exec(reason);
    if (clash) return `Row ${clash[1]} has the same cells but another text, so this one is not used as an example. It stays as you gave it.`;
    return `This text is not used as an example: ${reason}. It stays as you gave it.`;
}

/**
 * The card of a cell that is not in the column that is worked on: its text, `was` where it had another one, and what its
 * column is for. `calls` has `edit()`, `restore()` and `fill()`.
 */
export function showOther(title, record, { text, was, role }, calls) {
    const told = { reads: "The column is filled from this one. Correct a cell, and the answer follows.", filled: "This column is filled too.", other: "This column is not read." }[role];
    byId("cell").replaceChildren(
        element("h2", {}, `${title}, row ${record + 1}`, was === null ? null : element("span", { class: "badge given" }, "corrected")),
        element("p", { class: "cell-text" }, shown(text)),
        element("p", {}, was === null ? told : ["It was: ", shown(was)]),
        element("p", { class: "row-of-buttons" },
            role === "filled" ? null : button("Correct it", calls.edit),
            was === null ? null : button("Take it back", calls.restore),
            button(role === "filled" ? `Work on “${title}”` : `Fill the column “${title}”`, calls.fill)),
    );
}

/**
 * The card of a cell of the filled column. `answers` are those that `explain` finds, or none; `calls` has `take(text)`,
 * `edit()`, `clear()` and `keepEmpty()`.
 */
export function showCell(title, record, filled, answers, calls) {
    const state = filled.states[record];
    const refusal = filled.refusals.get(record);
    const text = filled.texts[record] ?? "";
    const isBlank = filled.counts[GIVEN] === 0;
    const mark = refusal ? element("span", { class: "badge refused" }, "! not used") : badge(state);
    const parts = [element("h2", {}, `${title}, row ${record + 1}`, isBlank ? null : mark)];
    if (isDoubtful(state) && answers.length === 2) {
        parts.push(element("p", {}, SENTENCES[state]));
        parts.push(element("div", { class: "answers" }, answers.map((it, which) => answerButton(which, it, calls.take))));
    } else {
        parts.push(element("p", { class: "cell-text" }, shown(text)));
        const sentence = isBlank ? "Nothing is learned yet: type what this cell should be." : SENTENCES[state];
        parts.push(element("p", { class: refusal ? "refusal" : null }, refusal ? refusalSentence(refusal) : sentence));
        if (state === DOUBT) parts.push(button("Yes, take this text", () => calls.take(text)));
    }
    const tools = [button(state === GIVEN ? "Change it" : text === "" ? "Type a text" : "Type another text", calls.edit)];
    if (state === GIVEN) tools.push(button("Take it back", calls.clear));
    if (!isBlank && (text !== "" || state !== GIVEN)) tools.push(button("This cell stays empty", calls.keepEmpty));
    parts.push(element("p", { class: "row-of-buttons" }, tools));
    byId("cell").replaceChildren(...parts);
}

/** The card of a cell while one types into it. */
export function showTyping(title, record) {
    byId("cell").replaceChildren(
        element("h2", {}, `${title}, row ${record + 1}`),
        element("p", {}, "Enter keeps the text, Escape leaves the cell as it was. Alt+Enter begins a new line."),
    );
}

/** The card where nothing is filled. */
export function showNothing(text) {
    byId("cell").replaceChildren(element("p", {}, text));
}
