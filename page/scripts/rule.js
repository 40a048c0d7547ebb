// Rules as files: the one that is learned, as `fillcsv --save-rule` writes it, and one that runs on a sheet, as by `fillcsv --rule`.
import { linesOf, problemOf } from "./answers.js";
import { baseOf, fileWord, filledName, ruleWords, shellLine, shellWord } from "./words.js";

/** The rule's file, its name and bytes, the tables that it reads, and the line that runs it; or the program's own line, `problem`, where there is none. */
export async function savedRule(filling, learning) {
    const name = `${baseOf(learning.sheet.name)}.rule`;
    const { words, run } = ruleWords(learning, name);
    const answer = await filling.run("fillcsv", words, [[fileWord(learning.sheet.name), filling.bytesOf(learning.sheet)]]);
    if (answer.status > 1) return { problem: problemOf(answer) };
    // the last line of a sheet without a rule says so
    if (answer.saved.length === 0) return { problem: problemOf({ ...answer, lines: answer.lines.trimEnd().split("\n").at(-1) }) };
    return { name, bytes: answer.saved, tables: learning.tables.map((it) => it.file), line: `${shellLine(run)} < OTHER.csv > FILLED.csv` };
}

/** Whether a file is a saved rule, by its name. */
export const isRule = (name) => /\.rule$/i.test(name);

/** A sheet filled by a saved rule: the bytes and name of what is written, what is told, and the line that does the same; or why there is nothing. */
export async function filledByRule(filling, sheet, name, bytes) {
    const word = fileWord(name);
    const answer = await filling.run("fillcsv", ["--rule", word], [["-", filling.bytesOf(sheet)], [word, bytes]]);
    const missing = answer.status === 3 && /^(.*): cannot be read$/.exec(problemOf(answer));
    if (missing) return { problem: `${name} looks up in ${missing[1]}: add that under “Lookup tables”, then drop the rule again.` };
    if (answer.status > 1) return { problem: `${name}: ${problemOf(answer)}` };
    const writes = filledName(sheet.name);
    return { name: writes, bytes: answer.out, told: linesOf(answer.lines).at(-1) ?? "", line: `${shellLine(["--rule", word])} < ${shellWord(sheet.name)} > ${shellWord(writes)}` };
}
