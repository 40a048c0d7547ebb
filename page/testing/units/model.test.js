import assert from "node:assert/strict";
import test from "node:test";
import { firstChoices } from "../../scripts/choices.js";
import { History } from "../../scripts/history.js";
import { learningOf } from "../../scripts/learning.js";
import { joined, sharesOf } from "../../scripts/shares.js";
import { Sheet, looksLikeHeader } from "../../scripts/sheet.js";
import { resultSteps, shellLines, shownWords } from "../../scripts/words.js";

const people = () => new Sheet("people.csv", [["Name", "City", "Label", "Code"], ["Ada Byron", "London", "Byron", ""], ["Max Planck", "Kiel", "", ""], ["Eva", "Graz", "", "EG"]]);
const headed = (...records) => looksLikeHeader(new Sheet("a.csv", records));

test("headers", () => {
    assert.ok(headed(["Name", "City"], ["Max Planck", "Kiel"]));
    assert.ok(headed(["First", "Last"], ["Ada", "Byron"]));
    assert.ok(headed(["First name", "Mail"], ["Ada", "ada@x.org"]));
    assert.ok(!headed(["Ada Byron", "London"], ["Max Planck", "Kiel"]));
    assert.ok(!headed(["Name", "1"], ["a", "2"]));
    assert.ok(!headed(["a", "a"], ["b", "c"]));
    assert.ok(!headed(["Name"]));
    assert.ok(headed(["Order no", "Date"], ["1", "2012-03-11"]));
});

test("the column to fill is the last one with few texts", () => {
    const choices = firstChoices(people());
    assert.equal(choices.fill.column, 4);
    assert.deepEqual(choices.fill.sources, [1, 2, 3]);
    const full = new Sheet("full.csv", [["A", "B"], ["1", "2"]]);
    assert.equal(firstChoices(full).fill.column, -1);
});

test("what is typed for a column stays when another one is filled", () => {
    const sheet = people();
    let choices = firstChoices(sheet);
    choices = choices.withFill(choices.fill.typing(sheet, 1, "AB")).filling(sheet, 3);
    assert.deepEqual(choices.fills.map((it) => it.column), [3, 4], "what others read is filled first");
    assert.equal(choices.fill.column, 3);
    assert.deepEqual(choices.fill.sources, [1, 2]);
    choices = choices.filling(sheet, 4);
    assert.equal(choices.fill.given(sheet, 1), "AB");
    assert.deepEqual([...choices.fill.sources], [1, 2, 3]);
});

test("a column for which nothing is given is not filled any more", () => {
    const sheet = new Sheet("a.csv", [["A", "B", "C"], ["1", "", ""], ["2", "", ""]]);
    const choices = firstChoices(sheet).filling(sheet, 2);
    assert.deepEqual(choices.fills.map((it) => it.column), [2]);
});

test("new columns can be read by later ones, and go with them", () => {
    const sheet = people();
    let choices = firstChoices(sheet).filling(sheet, null);
    choices = choices.withFill(choices.fill.typing(sheet, 1, "A").with({ newName: "First" }));
    choices = choices.filling(sheet, null);
    choices = choices.withFill(choices.fill.typing(sheet, 1, "B").with({ sources: [1, -1] }));
    assert.deepEqual(choices.columns(sheet), [1, 2, 3, 4, -1, -2]);
    assert.equal(learningOf(sheet, choices, 2, () => null), null);
    const texts = ["First", "A", "M", "E"];
    const learning = learningOf(sheet, choices, 2, () => texts);
    assert.deepEqual(learning.sources, [1, 5]);
    assert.equal(learning.sheet.text(2, 5), "M");
    assert.equal(learningOf(sheet, choices, 2, () => texts).sheet, learning.sheet);
    const less = choices.without(sheet, 1);
    assert.deepEqual(less.fills.map((it) => [it.column, [...it.sources]]), [[4, [1, 2, 3]], [-2, [1]]]);
});

test("the lines of several columns read one another's files", () => {
    const sheet = people();
    let choices = firstChoices(sheet).filling(sheet, null);
    choices = choices.withFill(choices.fill.typing(sheet, 1, "A B").with({ newName: "First", sources: [1] }));
    const lines = shellLines(resultSteps(sheet, choices)).split("\n");
    assert.deepEqual(lines, [
        "./fillcsv people.csv --to Code --from Name,City,Label > people-1.csv",
        "./fillcsv people-1.csv --new First --from Name --example '2=A B' > people-filled.csv",
    ]);
    const states = resultSteps(sheet, choices.with({ withStates: true, onlySure: true }));
    assert.deepEqual(states[1].words.slice(-3), ["--only", "sure", "--state"]);
});

test("a new column behind one of states has its number", () => {
    const sheet = new Sheet("a.csv", [["Ada", "x"], ["Max", "y"]]);
    let choices = firstChoices(sheet).with({ header: false });
    choices = choices.withFill(choices.fill.typing(sheet, 0, "A"));
    choices = choices.filling(sheet, null);
    choices = choices.withFill(choices.fill.typing(sheet, 0, "B").with({ sources: [-1] }));
    assert.ok(shellLines(resultSteps(sheet, choices)).includes("--from 3"));
    choices = choices.filling(sheet, null);
    choices = choices.withFill(choices.fill.typing(sheet, 0, "C").with({ sources: [-2] }));
    assert.ok(shellLines(resultSteps(sheet, choices.with({ withStates: true }))).endsWith("--new 'New column 3' --from 5 --no-header --example 1=C --state > a-filled.csv"), shellLines(resultSteps(sheet, choices.with({ withStates: true }))));
});

test("a part has the examples and the width of the sheet", () => {
    const sheet = new Sheet("a.csv", [["a"], ["b", "1", ""], ["c", "2", "x"]]);
    let choices = firstChoices(sheet).with({ header: false });
    choices = choices.filling(sheet, 3);
    const learning = learningOf(sheet, choices.withFill(choices.fill.typing(sheet, 0, "y")), 0, () => null);
    const part = learning.part([0, 2]);
    assert.equal(part.sheet.width, 3);
    assert.deepEqual(part.allGiven(), [[0, "y"], [1, "x"]]);
    assert.ok(shownWords(part, true).includes("--quiet"));
});

test("a column of which all is taken back is empty, and keeps its title", () => {
    const sheet = people();
    let choices = firstChoices(sheet).filling(sheet, 3);
    assert.deepEqual(choices.emptied(sheet), []);
    choices = choices.withFill(choices.fill.typing(sheet, 1, null));
    assert.deepEqual(choices.emptied(sheet), [3]);
    const read = sheet.emptying(choices.emptied(sheet), 1);
    assert.deepEqual(read.records.map((it) => it[2]), ["Label", "", "", ""]);
    assert.equal(shellLines(resultSteps(read, choices)).includes("--replace"), false);
    const more = choices.withFill(choices.fill.typing(sheet, 2, "Planck"));
    assert.deepEqual(more.emptied(sheet), []);
    assert.ok(shellLines(resultSteps(sheet, more)).includes("--replace --example 3=Planck"), shellLines(resultSteps(sheet, more)));
    assert.deepEqual(choices.filling(sheet, 2).fills.map((it) => it.column).sort(), [2, 3, 4], "it stays empty");
});

test("the given cells of a column are found where it is long too", () => {
    const sheet = people();
    let { fill } = firstChoices(sheet);
    fill = fill.typing(sheet, 1, "AB").typing(sheet, 3, null);
    assert.deepEqual(fill.allGiven(sheet, true), [[1, "AB"]]);
    assert.deepEqual(fill.typing(sheet, 2, "MP").typing(sheet, 3, "E").allGiven(sheet, true), [[1, "AB"], [2, "MP"], [3, "E"]]);
    assert.deepEqual(sheet.textsIn(3), [0, 1]);
});

test("corrections, and steps that are undone", () => {
    const sheet = people();
    const first = firstChoices(sheet);
    const history = new History(sheet, first);
    const second = first.correcting(sheet, 1, 2, "Berlin");
    history.push(second);
    assert.equal(sheet.with(second.corrected).text(1, 2), "Berlin");
    assert.equal(second.correcting(sheet, 1, 2, "London").corrected.size, 0);
    const other = new Sheet("b.csv", [["x", ""]]);
    history.push(firstChoices(other), other);
    history.undo();
    assert.equal(history.now.sheet, sheet);
    assert.equal(history.now.choices, second);
    history.undo();
    assert.ok(!history.canUndo && history.canRedo);
    history.redo();
    history.redo();
    assert.equal(history.now.sheet, other);
    history.undo();
    history.push(second);
    history.amend(first);
    assert.equal(history.now.choices, first);
    history.undo();
    assert.equal(history.now.choices, second, "one step with what was added to it");
});

test("a large sheet is filled in shares, each with all given cells", () => {
    const records = [["Name", "Out"], ...Array.from({ length: 4999 }, (_, at) => [`a${at}`, at === 7 || at === 3000 ? "x" : ""])];
    const sheet = new Sheet("large.csv", records);
    const learning = learningOf(sheet, firstChoices(sheet), 0, () => null);
    const shares = sharesOf(learning, 3);
    assert.deepEqual(shares.map((it) => it.records.length), [1668, 1669, 1669]);
    for (const it of shares) assert.ok([0, 8, 3001].every((record) => it.records.includes(record)));
    assert.deepEqual([...new Set(shares.flatMap((it) => it.records))].sort((a, b) => a - b), records.map((_, at) => at));
    for (const it of shares) assert.deepEqual(it.sheet.records, it.records.map((record) => records[record]));
    assert.equal(sharesOf(learning, 3), shares, "they are made once");
    const answers = shares.map(({ records: share }) => ({ status: 0, lines: "", texts: share.map(String), states: Uint8Array.from(share, (it) => it % 5) }));
    const whole = joined(shares, answers, 5000);
    assert.deepEqual(whole.texts, records.map((_, at) => String(at)));
    assert.deepEqual(whole.states, Uint8Array.from(records, (_, at) => at % 5));
    assert.equal(joined(shares, [...answers.slice(1), null], 5000), null);
    assert.equal(joined(shares, [{ status: 6 }, ...answers.slice(1)], 5000).status, 6);
    assert.equal(sharesOf(learning, 1), null);
});
