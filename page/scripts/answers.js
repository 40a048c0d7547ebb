// What the engine answers, in the page's terms: states of cells, and its lines of errors, one by one.

export const GIVEN = 0;
export const SURE = 1;
export const DOUBT = 2;
export const NONE = 3;
export const NONE_DOUBT = 4;

/** How states are called on the page, their classes, and the mark that stands beside their colour. */
export const STATE_NAMES = ["given", "sure", "doubt", "none", "none, in doubt"];
export const STATE_CLASSES = ["given", "sure", "doubt", "none", "none-doubt"];
export const STATE_MARKS = ["●", "✓", "?", "∅", "∅?"];

export const isDoubtful = (state) => state === DOUBT || state === NONE_DOUBT;

/** The lines without the program's name before them. */
export const linesOf = (text) => text.split("\n").filter((it) => it !== "").map((it) => it.replace(/^(?:fillcsv|flashfill): /, ""));

/** Why given cells are not learned from: the reasons by record, counted from 0. */
function refusalsIn(lines) {
    const refusals = new Map();
    for (const line of lines) {
        const found = /^row (\d+): not learned from(?:: |, since )?(.*)$/.exec(line);
        if (found) refusals.set(Number(found[1]) - 1, found[2]);
    }
    return refusals;
}

const ESCAPES = { n: "\n", r: "\r", t: "\t", "?": "\ufffd" };

/** The text of an answer as a line tells it: in quotes with escapes, or `none`, which is null. */
const answerIn = (told) => (told === "none" ? null : told.slice(1, -1).replace(/\\([^])/g, (_, it) => ESCAPES[it] ?? it));

const ANSWER = '("(?:[^"\\\\]|\\\\.)*"|none)';
const EXPLAINED = new RegExp(`^row (\\d+): ${ANSWER}, or ${ANSWER} by: (.*)$`);

/** What else cells in doubt could be: the answer, the other answer and the words of its rule, by record. */
export function doubtsIn(lines) {
    const doubts = new Map();
    for (const line of lines) {
        const found = EXPLAINED.exec(line);
        if (found) doubts.set(Number(found[1]) - 1, { text: answerIn(found[2]), other: answerIn(found[3]), words: found[4] });
    }
    return doubts;
}

/** The row to look at next, a record counted from 0; null where none is named. */
export function nextIn(lines) {
    const found = lines.map((it) => /^look at row (\d+) next/.exec(it)).find((it) => it !== null);
    return found ? Number(found[1]) - 1 : null;
}

/** The rule in plain words, a line for each kind of rows. */
export const ruleIn = (lines) => lines.filter((it) => it.startsWith("rule: ")).map((it) => it.slice(6));

const isNote = (line) => !/^row \d+: |^look at row |^\d+ given, |^rule: |^no cell of the column is filled/.test(line);

/** What is told of the examples: why some are not learned from, the rule, and lines that belong to no cell. */
export function toldIn(lines) {
    return { refusals: refusalsIn(lines), rule: ruleIn(lines), notes: lines.filter(isNote) };
}

/** How many cells have each state, in the order of the states; the header is no cell. */
export function countsOf(states, header) {
    const counts = [0, 0, 0, 0, 0];
    for (let record = header ? 1 : 0; record < states.length; record++) counts[states[record]]++;
    return counts;
}

/** The records in doubt, from the top down and at most so many; the header is none. */
export function doubtsOf(states, header, most = Infinity) {
    const found = [];
    for (let record = header ? 1 : 0; record < states.length && found.length < most; record++) if (isDoubtful(states[record])) found.push(record);
    return found;
}

/** The line of an answer that is none: what the program says, or the status where it says nothing. */
export function problemOf({ status, lines }) {
    const said = linesOf(lines);
    if (said.length > 0) return said.map((line) => line.replace(/^error: /, "")).join(" ");
    return status === 6 ? "out of memory" : `the engine stopped with status ${status}`;
}

/**
 * The next row in doubt, a record counted from 0, or null where no row is: the first one after `from`, or else from the top;
 * with -1 as `step` the other way round. Only rows that `isShown` are meant.
 */
export function nextDoubt({ states }, header, from, step = 1, isShown = () => true) {
    const first = header ? 1 : 0;
    const count = states.length - first;
    for (let far = 1; far <= count; far++) {
        const record = first + ((((from - first + step * far) % count) + count) % count);
        if (isDoubtful(states[record]) && isShown(record)) return record;
    }
    return null;
}
