// The words of `fillcsv` for what was chosen. What the page fills and the lines that it copies are made of the same words.

/** The word that names a file; one that begins with a hyphen would be an option. */
export const fileWord = (name) => (name.startsWith("-") ? `./${name}` : name);

/** So many columns can be named. */
const MOST_NAMED = 1000;

/** The word that names a column: its name where that is plain and names no other column, else its number. */
function columnWord(names, column) {
    const known = names.slice(0, MOST_NAMED);
    const name = known[column - 1] ?? "";
    const isPlain = name !== "" && name === name.trim() && !/[,\r\n]/.test(name) && !/^\d+$/.test(name);
    if (isPlain && known.filter((it) => it === name).length === 1) return name;
    const number = String(column);
    if (known.includes(number) && known[column - 1] !== number) throw new Error(`column ${number} cannot be named, since another column is called “${number}”`);
    return number;
}

/** An option with its value; the value is joined to it where it could be taken for another option. */
const option = (name, value) => (value.startsWith("-") || value === "" ? [`${name}=${value}`] : [name, value]);

/** The options for lookup tables. */
function tableWords({ tables, depth }) {
    const words = [];
    for (const { name, file, keys } of tables) {
        words.push(...option("--table", `${name}=${file}`));
        for (const key of keys) words.push(...option("--key", `${name}:${key.join(",")}`));
    }
    return tables.length > 0 && depth !== 1 ? [...words, "--depth", String(depth)] : words;
}

/**
 * The words that fill a column of a file. `names` are its column names, none where it has no header; `column` and `sources`
 * are numbers in it, and the column null where it is new. `given` are all its examples, which are asked for where the
 * column's own texts are replaced.
 */
function fillWords(file, names, { column, sources, fill, header, tables, depth }, given) {
    const words = [file];
    words.push(...(column === null ? option("--new", fill.newName) : option("--to", columnWord(names, column))));
    words.push(...option("--from", sources.map((it) => columnWord(names, it)).join(",")));
    if (!header) words.push("--no-header");
    const isReplaced = fill.cleared.size > 0;
    const examples = isReplaced ? given() : [...fill.typed].filter(([record]) => !header || record > 0);
    if (isReplaced && examples.length > 0) words.push("--replace"); // a column without examples is empty in the file
    for (const [record, text] of examples.sort(([a], [b]) => a - b)) words.push(...option("--example", `${record + 1}=${text}`));
    words.push(...tableWords({ tables, depth }));
    return words;
}

const namesOf = (sheet, header) => (header ? (sheet.records[0] ?? []) : []);

/** The words that fill one column of the sheet that it reads. */
const learningWords = (learning) => fillWords(fileWord(learning.sheet.name), namesOf(learning.sheet, learning.header), learning, () => learning.allGiven());

/** The words for what is shown: all texts, and their states. With `isQuiet` nothing is told beside them. */
export const shownWords = (learning, isQuiet = false) => [...learningWords(learning), "--state", ...(isQuiet ? ["--quiet"] : [])];

/** The words that save the rule under a name, and those that run it. */
export function ruleWords(learning, name) {
    const file = fileWord(name);
    return { words: [...learningWords(learning), "--save-rule", file], run: ["--rule", file] };
}

/** A sheet's name without its ending. */
export const baseOf = (name) => name.replace(/\.(csv|txt|tsv|tab)$/i, "");

/** The name under which the result of a sheet is handed out. */
export const filledName = (name) => `${baseOf(name)}-filled${/\.(?:tsv|tab)$/i.exec(name)?.[0] ?? ".csv"}`;

/**
 * The runs of `fillcsv` that make the result, one for each column that is filled: the words of each, the file that it reads
 * and the one that it writes. Each reads what the one before wrote.
 */
export function resultSteps(sheet, choices) {
    const { header, fills, onlySure, withStates, tables, depth } = choices;
    const shown = fills.filter((it) => fills.length === 1 || it.allGiven(sheet, header).length > 0);
    const names = namesOf(sheet, header).slice();
    let width = sheet.width;
    const numbers = new Map();
    let reads = sheet.name;
    return shown.map((fill, at) => {
        const isLast = at === shown.length - 1;
        const column = fill.isNew ? null : fill.column;
        const sources = fill.sources.map((it) => numbers.get(it) ?? it);
        const words = fillWords(fileWord(reads), names.slice(), { column, sources, fill, header, tables, depth }, () => fill.allGiven(sheet, header));
        if (onlySure) words.push("--only", "sure");
        if (withStates) words.push("--state");
        const step = { words, reads, writes: isLast ? filledName(sheet.name) : `${baseOf(sheet.name)}-${at + 1}.csv` };
        const title = fill.isNew ? fill.newName : (names[fill.column - 1] ?? "");
        if (fill.isNew) numbers.set(fill.column, ++width);
        if (header && fill.isNew) names[width - 1] = fill.newName;
        if (withStates) width++;
        if (withStates && header) names[width - 1] = `${title} state`;
        reads = step.writes;
        return step;
    });
}

/** A word as a shell takes it. */
export const shellWord = (word) => (/^[\w@%+=:,./-]+$/.test(word) ? word : `'${word.replaceAll("'", "'\\''")}'`);

/** One line for a shell that runs the proved program. */
export const shellLine = (words) => ["./fillcsv", ...words].map(shellWord).join(" ");

/** The lines for a shell that write the same bytes; of several, each writes a file that the next one reads. */
export function shellLines(steps) {
    if (steps.length === 1) return shellLine(steps[0].words);
    return steps.map(({ words, writes }) => `${shellLine(words)} > ${shellWord(fileWord(writes))}`).join("\n");
}
