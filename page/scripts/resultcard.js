// The cards of the result, of the rule and of the doubts in groups.
import { GIVEN } from "./answers.js";
import { shown } from "./cellcard.js";
import { byId, element } from "./dom.js";

const button = (text, onclick, more = {}) => element("button", { type: "button", onclick, ...more }, text);
const box = (text, checked, onchange) => element("label", { class: "check" }, element("input", { type: "checkbox", checked, onchange }), ` ${text}`);

/** Parts of a line that a shell takes as words, none of which is broken without need. */
const lineParts = (line) => line.split("\n").flatMap((it, at) => [...(at > 0 ? ["\n"] : []), ...it.split(" ").flatMap((word, index) => [...(index > 0 ? [" "] : []), element("span", { class: "word" }, word)])]);

const code = (line, label) => element("pre", {}, element("code", { tabindex: 0, "aria-label": label }, lineParts(line)));

/** Tells that the lines read a file that is not on the person's disk as it is, and hands that out. */
function fileNote({ name, why }, onDownload) {
    if (why === null) return [];
    return [element("p", {}, `${why} Save it as ${name} for what stands below.`), element("p", { class: "row-of-buttons" }, button(`Download ${name}`, onDownload))];
}

/**
 * The card of the result. `lines` make the same result in a terminal from the file `file.name`; `file.why` says why that is
 * not the person's own file, or is null; `hasFormulas` says that a spreadsheet may take a filled text for a formula. `calls` has `choose(changes)`, `copy(text, button)`, `saveRule()` and `downloadSheet()`.
 */
export function showResult({ lines, file, choices, filled, isOpen, hasFormulas }, calls) {
    const { notes, isWhole, rule } = filled;
    const isLearned = isWhole && filled.counts[GIVEN] > 0;
    const terminal = element("details", { id: "terminal", open: isOpen },
        element("summary", {}, "Same result in a terminal"),
        ...fileNote(file, calls.downloadSheet),
        element("p", {}, "The program fillcsv writes the same from this:"),
        code(lines, "The command"),
        element("p", { class: "row-of-buttons" }, button("Copy this", (event) => calls.copy(lines, event.currentTarget))));
    const saved = byId("rule");
    byId("result").replaceChildren(
        element("h2", {}, "The rule"),
        ...(rule.length > 0 ? [element("ul", { class: "rule-lines" }, rule.map((it) => element("li", {}, it)))] : [element("p", {}, "Nothing is learned yet.")]),
        ...(notes.length > 0 ? [element("ul", { class: "notes" }, notes.map((it) => element("li", {}, it)))] : []),
        element("p", { class: "row-of-buttons" }, button("Save the rule", calls.saveRule, { disabled: !isLearned, title: "A file that fills other sheets: drop it on one" })),
        ...(saved?.filled === filled.learning ? [saved] : []),
        element("h2", {}, "The filled sheet"),
        box("Leave guesses empty", choices.onlySure, (event) => calls.choose({ onlySure: event.target.checked })),
        box("Include a column with the states", choices.withStates, (event) => calls.choose({ withStates: event.target.checked })),
        ...(hasFormulas ? [element("p", {}, "Some filled cells begin with =, +, - or @. They stand in the file as they are, and a spreadsheet may take them for formulas.")] : []),
        terminal,
    );
}

/** Shows how the rule that was saved is run, or why none was. `calls` has `copy(text, button)`. */
export function showRule({ problem, name, tables, line }, learning, calls) {
    byId("rule")?.remove();
    const beside = problem || tables.length === 0 ? "" : `, beside ${tables.join(" and ")}`;
    const parts = problem
        ? [element("p", {}, problem)]
        : [
              element("p", {}, `${name} fills other sheets with these columns${beside}: drop it on one, or`),
              code(line, "The command for another sheet"),
              element("p", { class: "row-of-buttons" }, button("Copy this line", (event) => calls.copy(line, event.currentTarget))),
          ];
    const made = element("section", { id: "rule" }, parts);
    made.filled = learning;
    byId("result").querySelector(".row-of-buttons").after(made);
    made.scrollIntoView({ block: "nearest" });
}

/** So many groups are shown, with so many rows of each. */
const MOST_GROUPS = 4;
const MOST_ROWS = 3;

const answerText = (text) => (text === null ? element("i", {}, "no text") : shown(text));

function groupPart({ first, other, rows }, isAll, calls) {
    const count = `${rows.length.toLocaleString("en")}${isAll ? "" : " or more"} ${rows.length === 1 ? "row" : "rows"}`;
    const sides = [first, other].map((words, which) => {
        const texts = rows.slice(0, MOST_ROWS).map((it) => it.texts[which]);
        const canTake = texts[0] !== null && !texts[0].includes("\ufffd");
        return element("div", { class: "side" },
            element("ul", {}, texts.map((it) => element("li", {}, answerText(it)))),
            words === null ? null : element("p", { class: "rule" }, words),
            canTake ? button(rows.length === 1 ? "This one" : "These, in all rows", () => calls.takeAll(rows, which), { "aria-label": `${count}: ${texts.join(", ")}, and so on` }) : null);
    });
    const where = rows.slice(0, MOST_ROWS).flatMap((it, at) => [at > 0 ? ", " : null, button(String(it.record + 1), () => calls.goTo(it.record), { class: "small", "aria-label": `Go to row ${it.record + 1}` })]);
    return element("section", { class: "group" }, element("h3", {}, count, element("span", { class: "where" }, "row ", where)), element("div", { class: "sides" }, sides));
}

/** What is said of the answers that are left: so many settle all, if they are those that stand there. */
const leftText = (left) => `If what stands there is right, ${left === 1 ? "one answer settles all" : `${left} answers settle all, one after the other`}.`;

/** The card of the doubts in groups; none where there are no doubts. `calls` has `takeAll(rows, which)` and `goTo(record)`. */
export function showGroups(found, calls) {
    const place = byId("groups");
    place.hidden = !found || found.groups.length === 0;
    if (place.hidden) return place.replaceChildren();
    const isAll = found.looked >= found.doubts;
    const more = found.groups.length - MOST_GROUPS;
    place.replaceChildren(
        element("h2", {}, "What is in doubt"),
        ...(found.left ? [element("p", { id: "left" }, leftText(found.left))] : []),
        ...found.groups.slice(0, MOST_GROUPS).map((it) => groupPart(it, isAll, calls)),
        ...(more > 0 ? [element("p", {}, `${more} more ${more === 1 ? "question" : "questions"}; an answer often settles several.`)] : []),
        ...(isAll ? [] : [element("p", {}, `${found.looked.toLocaleString("en")} of ${found.doubts.toLocaleString("en")} rows in doubt are looked at.`)]),
    );
}
