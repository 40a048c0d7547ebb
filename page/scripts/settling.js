// How many answers settle what is in doubt: they are tried beforehand, so that the page says a number only if it is true.
import { NONE_DOUBT, isDoubtful, nextDoubt } from "./answers.js";

/** More answers are not tried, nor any after so many milliseconds. */
const MOST_ANSWERS = 8;
const MOST_TIME = 20_000;

/** The row that is answered next from a record on: that one itself, if it is in doubt, else where the page goes next. */
const rowFrom = ({ states, next, learning }, record) => (isDoubtful(states[record]) ? record : (next ?? nextDoubt({ states }, learning.header, record)));

/**
 * The rows to answer, one after the other, so that nothing is left in doubt, from the chosen `record` on: each gets the text
 * that stands there then. Null where these are too many, where no text stands in one of the rows, and where something else was
 * asked for meanwhile.
 */
export async function rowsToSettle(filling, filled, record, isCurrent) {
    const began = performance.now();
    const rows = [];
    let now = filled;
    let at = record;
    while (rows.length < MOST_ANSWERS && performance.now() - began < MOST_TIME) {
        at = rowFrom(now, at);
        const text = now.texts[at];
        if (now.states[at] === NONE_DOUBT || text.includes("\ufffd")) return null;
        rows.push(at);
        now = await filling.triedOf(now.learning, at, text);
        if (now === null || !isCurrent()) return null;
        if (!now.states.some(isDoubtful)) return rows;
    }
    return null;
}
