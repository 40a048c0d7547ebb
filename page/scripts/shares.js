// A large sheet in shares, which workers fill side by side. Each share has all given cells, so its answers are those of the
// whole sheet.

/** Sheets with fewer records are filled at once; so are those with more, of which shares would take long to make. */
const LEAST = 4000;
const MOST = 400_000;
/** With more given cells a part of the sheet has not the same examples. */
export const MOST_EXAMPLES = 64;

/** These records with the header and all given ones, from the top down; null where there are more examples than a part can have. */
export function recordsWith(learning, more) {
    const given = learning.allGiven().map(([record]) => record);
    if (given.length > MOST_EXAMPLES) return null;
    return [...new Set([...(learning.header ? [0] : []), ...given, ...more])].sort((a, b) => a - b);
}

/** The shares that were made last: while one types, they stay the same. */
let made = null;

/** So many shares of a sheet: the `records` of each, and the `sheet` of them; null where the sheet is better filled at once. */
export function sharesOf(learning, count) {
    const { sheet } = learning;
    const rows = sheet.records.length;
    const head = count < 2 || rows < LEAST || rows > MOST ? null : recordsWith(learning, []);
    if (head === null) return null;
    const key = `${count} ${head}`;
    if (made?.of !== sheet || made.key !== key) {
        const each = Math.ceil(rows / count);
        const from = (at) => Math.min(rows, at * each);
        made = { of: sheet, key, shares: Array.from({ length: count }, (_, at) => shareOf(sheet, head, from(at), from(at + 1))) };
    }
    return made.shares;
}

function shareOf(sheet, head, from, to) {
    const rows = Array.from({ length: to - from }, (_, at) => from + at);
    const records = [...head.filter((it) => it < from), ...rows, ...head.filter((it) => it >= to)];
    return { records, sheet: sheet.part(records) };
}

/** What was filled in all shares, as if it had been asked of the whole sheet of so many records; null where an answer is missing. */
export function joined(shares, answers, rows) {
    if (answers.includes(null)) return null;
    const failed = answers.find((it) => it.status > 1);
    if (failed) return failed;
    const texts = new Array(rows).fill("");
    const states = new Uint8Array(rows);
    shares.forEach(({ records }, at) => records.forEach((record, place) => {
        texts[record] = answers[at].texts[place];
        states[record] = answers[at].states[place];
    }));
    return { status: Math.max(...answers.map((it) => it.status)), lines: answers[0].lines, texts, states };
}
