import assert from "node:assert/strict";
import test from "node:test";
import { DOUBT, GIVEN, NONE_DOUBT, SURE, doubtsOf, nextDoubt } from "../../scripts/answers.js";
import { rowsToSettle } from "../../scripts/settling.js";

const learning = { header: true };
const filled = (states, next = null) => ({ learning, states, next, texts: states.map((_, at) => `text ${at}`) });

test("the next row in doubt goes around, and only to rows that are shown", () => {
    const states = [GIVEN, SURE, DOUBT, SURE, NONE_DOUBT];
    assert.deepEqual(doubtsOf(states, true), [2, 4]);
    assert.deepEqual(doubtsOf(states, true, 1), [2]);
    assert.equal(nextDoubt({ states }, true, 2), 4);
    assert.equal(nextDoubt({ states }, true, 4), 2);
    assert.equal(nextDoubt({ states }, true, 2, -1), 4);
    assert.equal(nextDoubt({ states }, true, 2, 1, (it) => it === 2), 2);
    assert.equal(nextDoubt({ states }, true, 2, 1, () => false), null);
});

test("the rows that settle all are tried, one after the other", async () => {
    const asked = [];
    const steps = [filled([GIVEN, GIVEN, SURE, DOUBT, DOUBT], 4), filled([GIVEN, GIVEN, SURE, SURE, GIVEN])];
    const filling = {
        async triedOf(_, record, text) {
            asked.push([record, text]);
            return steps[asked.length - 1];
        },
    };
    const first = filled([GIVEN, DOUBT, DOUBT, DOUBT, DOUBT], 3);
    assert.deepEqual(await rowsToSettle(filling, first, 1, () => true), [1, 4], "the chosen row, then the one that is named");
    assert.deepEqual(asked, [[1, "text 1"], [4, "text 4"]]);
});

test("no number is told where it is not known", async () => {
    const never = { triedOf: async () => filled([GIVEN, DOUBT, DOUBT]) };
    assert.equal(await rowsToSettle(never, filled([GIVEN, DOUBT, DOUBT]), 1, () => true), null, "too many");
    assert.equal(await rowsToSettle({ triedOf: async () => null }, filled([GIVEN, DOUBT, DOUBT]), 1, () => true), null, "given up");
    assert.equal(await rowsToSettle(never, filled([GIVEN, DOUBT, DOUBT]), 1, () => false), null, "not wanted any more");
    assert.equal(await rowsToSettle(never, filled([GIVEN, NONE_DOUBT, SURE]), 1, () => true), null, "no text stands there");
});
