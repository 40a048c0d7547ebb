// Why cells are in doubt: their two answers and the rules behind these in plain words, as `fillcsv --explain` tells them; and the
// cells in doubt in groups of the same two rules.
import { NONE_DOUBT, doubtsIn, doubtsOf, isDoubtful, ruleIn } from "./answers.js";

/** The engine explains so many cells of a sheet. */
const BATCH = 10;
/** So many cells in doubt are put into groups, or as many as can be in this time. */
const MOST_GROUPED = 1000;
const MOST_TIME = 30_000;
/** So often some may be given up for something that is asked for meanwhile. */
const MOST_FAILED = 5;

/**
 * Explains the doubtful cell of a record: the answer that stands there and another one, the words of a rule with each, as far
 * as the engine tells them. The text of an answer is null where the rule gives none. Null where a newer question took the
 * place of this one.
 */
export async function explain(filling, filled, record) {
    const told = await filling.tellOf(filled.learning, [record], ["--explain"], "explain");
    if (told === null) return null;
    const rule = ruleIn(told.lines);
    const doubt = doubtsIn(told.lines).get(told.records.indexOf(record));
    const first = { text: filled.states[record] === NONE_DOUBT ? null : filled.texts[record], words: rule.length === 1 ? rule[0] : null };
    return doubt ? [first, { text: doubt.other, words: doubt.words }] : [first];
}

/**
 * The cells in doubt in groups: those with the same other rule. A group has the words of both rules and its `rows`, each with
 * its record and both texts. The largest group comes first. `isCurrent()` says whether the answer is still wanted; null
 * where it is not. `looked` of `doubts` cells were looked at.
 */
export async function groupsOf(filling, filled, isCurrent, onMore) {
    const { learning, states, texts } = filled;
    const doubtful = doubtsOf(states, learning.header);
    const groups = new Map();
    const began = performance.now();
    let looked = 0;
    let failed = 0;
    const result = () => ({ groups: [...groups.values()].sort((a, b) => b.rows.length - a.rows.length), looked, doubts: doubtful.length });
    while (looked < Math.min(doubtful.length, MOST_GROUPED) && performance.now() - began < MOST_TIME) {
        const some = doubtful.slice(looked, looked + BATCH);
        const told = await filling.tellOf(learning, some, ["--explain"], "groups");
        if (!isCurrent()) return null;
        if (told === null && ++failed < MOST_FAILED) continue;
        if (told === null) break;
        const rule = ruleIn(told.lines);
        for (const [at, doubt] of doubtsIn(told.lines)) {
            const record = told.records[at];
            const first = states[record] === NONE_DOUBT ? null : texts[record];
            const key = [first === null, doubt.other === null, doubt.words].join("\n");
            if (!groups.has(key)) groups.set(key, { first: rule.length === 1 ? rule[0] : null, other: doubt.words, rows: [] });
            groups.get(key).rows.push({ record, texts: [first, doubt.other] });
        }
        looked += some.length;
        onMore(result());
    }
    return result();
}
