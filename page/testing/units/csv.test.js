import assert from "node:assert/strict";
import test from "node:test";
import { cellsOf, eachRecord, recordsOf, recordsOfCells, textOf } from "../../scripts/csv.js";

test("records of CSV text", () => {
    assert.deepEqual(recordsOf("a,b\n1,\n"), [["a", "b"], ["1", ""]]);
    assert.deepEqual(recordsOf("\ufeffa,b\r\n\r\n\r\n1,2"), [["a", "b"], ["1", "2"]]);
    assert.deepEqual(recordsOf('"x, ""y""",1\n"two\nlines",2\n'), [['x, "y"', "1"], ["two\nlines", "2"]]);
    assert.deepEqual(recordsOf('""\n'), [[""]]);
    assert.deepEqual(recordsOf('a"b,"c"d,"e'), [['a"b', "cd", "e"]]);
    assert.deepEqual(recordsOf(""), []);
});

test("records with another separator, and the first ones alone", () => {
    assert.deepEqual(recordsOf('a;b\n1,5;"x;y"\n', ";"), [["a", "b"], ["1,5", "x;y"]]);
    assert.deepEqual(recordsOf("a\n1\n2\n3\n", ",", 2), [["a"], ["1"]]);
    let seen = 0;
    eachRecord("a\nb\nc\n", () => ++seen < 2);
    assert.equal(seen, 2);
});

test("CSV text of records", () => {
    assert.equal(textOf([["a", ""], [""], ['x"y', "1,2", "l\nm"]]), 'a,\n""\n"x""y","1,2","l\nm"\n');
    assert.equal(textOf([["1,5", "a;b"]], ";"), '1,5;"a;b"\n');
    const odd = [["a", ' "'], ["\r", "b,"], ["", ""]];
    for (const separator of [",", ";", "\t", "|"]) assert.deepEqual(recordsOf(textOf(odd, separator), separator), odd);
});

test("copied cells", () => {
    assert.deepEqual(recordsOfCells("a\tb\r\n1\t\r\n"), [["a", "b"], ["1", ""]]);
    assert.deepEqual(recordsOfCells('"line1\nline2"\nx\n'), [["line1\nline2"], ["x"]]);
    assert.deepEqual(recordsOfCells('"He said ""hi"""'), [['He said "hi"']]);
    assert.deepEqual(recordsOfCells('say "hi"\t5" pipe'), [['say "hi"', '5" pipe']]);
    assert.deepEqual(recordsOfCells("a\n\nb\n"), [["a"], [""], ["b"]]);
    assert.deepEqual(recordsOfCells("Byron\t"), [["Byron", ""]]);
    const odd = [["a", "b\nc"], ['"d"', "e\tf"]];
    assert.deepEqual(recordsOfCells(cellsOf(odd)), odd);
});
