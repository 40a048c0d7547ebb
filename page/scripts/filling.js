// Asks the engine for filled columns. Three workers: one fills whole sheets; one fills the rows in view, so that they follow in a
// large sheet while one types; one finds reasons. Where a large sheet comes, some more help to fill it.
import { countsOf, doubtsOf, linesOf, nextIn, problemOf, toldIn } from "./answers.js";
import { Client } from "./client.js";
import { textOf } from "./csv.js";
import { Learning, learningOf } from "./learning.js";
import { loadModule } from "./parts.js";
import { joined, recordsWith, sharesOf } from "./shares.js";
import { fileWord, shownWords } from "./words.js";

/** Of a sheet with more records the rows in view are filled first. */
const LARGE = 400;
/** So many workers fill a large sheet, if the machine has as many processors. */
const mostWorkers = () => Math.min(4, navigator.hardwareConcurrency ?? 1);
/** Where a file has more bytes, they begin while it is read. */
const HELPED = 100_000;
/** Where the whole sheet takes longer than this, it waits until typing pauses for so many milliseconds; so does what is told. */
const SLOW = 150;
const PAUSE = 250;
/** With more doubts the engine names no row to look at next. */
const MOST_DOUBTS = 1000;
/** What is told in these lanes can wait. It is given up after so many milliseconds for something else, and in any case after `LONGEST`. */
const PATIENT = ["suggest", "groups", "settling"];
const PATIENCE = 700;
const LONGEST = 30_000;

const pause = (time) => new Promise((resolve) => setTimeout(resolve, time));

export class Filling {
    #turn = 0;
    #took = 0;
    #bytes = new WeakMap();
    #results = new Map();

    /**
     * `calls.onFilled(filled, isWhole)` gets the column that is worked on, `calls.onOther()` comes with any other column,
     * `calls.onTold(filled)` with more that is known of it, `calls.onProblem(text)` tells why there is nothing.
     */
    constructor(calls) {
        this.calls = calls;
        this.module = loadModule();
        this.client = new Client(this.module);
        this.quick = new Client(this.module);
        this.reasons = new Client(this.module);
        this.crew = [this.client];
    }

    /** Stops the filling of whole sheets. */
    stop() {
        for (const it of this.crew) if (it.isBusy) it.stop();
    }

    /** Whether whole sheets are being filled. */
    get isBusy() {
        return this.crew.some((it) => it.isBusy);
    }

    /** Opens a file as a sheet: how it came, its records, or why it is none. */
    open(name, bytes, separator = null) {
        if (bytes.length > HELPED) this.#recruit(mostWorkers());
        return this.quick.ask("open", { name, bytes, separator });
    }

    /** The bytes of a sheet's file. */
    bytesOf(sheet) {
        if (sheet === sheet.origin) return sheet.source.bytes;
        if (!this.#bytes.has(sheet)) this.#bytes.set(sheet, new TextEncoder().encode(textOf(sheet.records)));
        return this.#bytes.get(sheet);
    }

    /** Lets the workers hold a sheet and the tables; parts of the sheet come with their requests. */
    hold(sheet, choices) {
        const tables = choices.tables.map(({ file, bytes }) => [file, bytes]);
        this.client.hold(new Map([[fileWord(sheet.name), this.bytesOf(sheet)], ...tables]));
        for (const it of [this.quick, this.reasons, ...this.crew.slice(1)]) it.hold(new Map(tables));
    }

    /** What is filled in a column, up to date or not; null where it was not filled yet. */
    resultOf(column) {
        return this.#results.get(column) ?? null;
    }

    /** Forgets all that was filled: another sheet is shown. */
    forget() {
        this.#turn++;
        this.#results.clear();
    }

    /** What the fill at a place asks; null where columns that it reads are not filled yet. */
    learning(sheet, choices, at = choices.at) {
        return learningOf(sheet, choices, at, (column) => (this.#isFresh(sheet, choices, column) ? this.#results.get(column).texts : null));
    }

    /** Whether a column is filled by the choices as they are. */
    #isFresh(sheet, choices, column) {
        const result = this.#results.get(column);
        if (!result?.isWhole || result.fresh !== null) return false;
        const at = choices.fills.findIndex((it) => it.column === column);
        const learning = this.learning(sheet, choices, at);
        const made = result.learning;
        return learning !== null && learning.sheet === made.sheet && learning.fill === made.fill && learning.header === made.header && learning.tables === made.tables && learning.depth === made.depth;
    }

    /**
     * Fills by these choices: the column that is worked on, those before it that it reads first, the others afterwards. What
     * was asked before is no longer waited for. `inView` are the records in view.
     */
    async fill(sheet, choices, inView, isTyping) {
        const turn = ++this.#turn;
        this.hold(sheet, choices);
        for (const column of [...this.#results.keys()]) if (!choices.fillOf(column)) this.#results.delete(column);
        try {
            for (let at = 0; at < choices.at; at++) await this.#others(turn, sheet, choices, at, choices.fill.sources);
            if (turn !== this.#turn) return;
            const learning = this.learning(sheet, choices);
            if (learning === null) return this.calls.onProblem("A column that this one reads cannot be filled.");
            const known = this.resultOf(choices.fill.column);
            if (sheet.records.length > LARGE && known?.isWhole && known.learning.sheet.origin === sheet.origin) {
                this.#fillView(turn, learning, inView);
                if (isTyping && this.#took > SLOW) await pause(PAUSE);
                if (turn !== this.#turn) return;
            }
            await this.#fillAll(turn, learning, sheet);
            if (turn !== this.#turn) return;
            if (isTyping) await pause(PAUSE);
            if (turn !== this.#turn) return;
            await this.#tell(turn, learning);
            if (isTyping) return;
            for (let at = 0; at < choices.fills.length; at++) await this.#others(turn, sheet, choices, at, null);
            await this.#suggest(turn, learning);
        } catch (error) {
            if (turn === this.#turn) this.calls.onProblem(error.message);
        }
    }

    /** Asks for a column of a sheet; a sheet that is not held comes along. */
    async #ask(client, learning, sheet, lane) {
        const more = learning.sheet === sheet ? null : [[fileWord(learning.sheet.name), this.bytesOf(learning.sheet)]];
        return client.ask("fill", { words: shownWords(learning, true), column: learning.place, header: learning.header, more }, lane);
    }

    #recruit(count) {
        while (this.crew.length < count) this.crew.push(new Client(this.module));
    }

    /** Asks for a column of a large sheet in shares; null where something newer was asked for. */
    async #askShares(turn, learning, shares) {
        this.#recruit(shares.length);
        for (const it of this.crew.slice(1)) it.hold(new Map(learning.tables.map(({ file, bytes }) => [file, bytes])));
        const asked = [];
        for (const [at, { records, sheet }] of shares.entries()) {
            if (turn !== this.#turn) {
                Promise.allSettled(asked); // nobody waits for these any more
                return null;
            }
            asked.push(this.#askPart(this.crew[at], learning.part(records, sheet), "fill"));
            await pause(0); // what a person does meanwhile comes first
        }
        return joined(shares, await Promise.all(asked), learning.sheet.records.length);
    }

    /** Fills a column that is not worked on, if it is not up to date; where `sources` are handed in, only if it is one of these. */
    async #others(turn, sheet, choices, at, sources) {
        const { column } = choices.fills[at];
        if (turn !== this.#turn || at === choices.at || (sources && !sources.includes(column)) || this.#isFresh(sheet, choices, column)) return;
        for (let before = 0; before < at; before++) await this.#others(turn, sheet, choices, before, choices.fills[at].sources);
        const learning = this.learning(sheet, choices, at);
        if (learning === null) return;
        const answer = await this.#ask(this.client, learning, sheet, null);
        if (answer === null || turn !== this.#turn) return;
        this.#results.set(column, filledOf(answer, learning, {}));
        this.calls.onOther();
    }

    async #fillAll(turn, learning, sheet) {
        const began = performance.now();
        const shares = sharesOf(learning, mostWorkers());
        const answer = await (shares === null ? this.#ask(this.client, learning, sheet, "fill") : this.#askShares(turn, learning, shares));
        if (answer === null || turn !== this.#turn) return;
        this.#took = performance.now() - began;
        const before = this.resultOf(learning.fill.column);
        const filled = filledOf(answer, learning, { ...before, took: this.#took });
        this.#results.set(learning.fill.column, filled);
        this.calls.onFilled(filled, true);
        this.calls.onProblem(filled.isWhole ? null : problemOf(answer));
    }

    /** Fills the rows in view, and shows them among what was filled before. */
    async #fillView(turn, learning, inView) {
        const records = recordsWith(learning, inView);
        if (records === null) return;
        const answer = await this.#askPart(this.quick, learning.part(records), "view").catch(() => null);
        const before = this.resultOf(learning.fill.column);
        if (answer === null || answer.status > 1 || turn !== this.#turn || !before || before.learning === learning) return;
        const texts = before.texts.slice();
        const states = before.states.slice();
        records.forEach((record, at) => {
            texts[record] = answer.texts[at];
            states[record] = answer.states[at];
        });
        const filled = { ...before, texts, states, fresh: new Set(records) };
        this.#results.set(learning.fill.column, filled);
        this.calls.onFilled(filled, false);
    }

    #askPart(client, part, lane, { kind = "fill", words = shownWords(part, true) } = {}) {
        const more = [[fileWord(part.sheet.name), this.bytesOf(part.sheet)]];
        return client.ask(kind, { words, column: part.place, header: part.header, more }, lane);
    }

    /**
     * What the engine tells of a part of the sheet with these records and all examples: its lines, and the part's records. Null
     * where it is not asked, or given up.
     */
    async tellOf(learning, more, options, lane) {
        const records = recordsWith(learning, more);
        if (records === null) return null;
        const part = learning.part(records);
        const answer = await this.#askApart(part, lane, { kind: "tell", words: [...shownWords(part), ...options] });
        return answer === null ? null : { lines: linesOf(answer.lines), records };
    }

    /** Asks beside what is filled; null where it is given up, or fails. What a person waits for takes the place of what takes long and can wait. */
    async #askApart(learning, lane, asked) {
        const isPatient = PATIENT.includes(lane);
        if (!isPatient && this.reasons.busyFor > PATIENCE && [lane, ...PATIENT].includes(this.reasons.lane)) this.reasons.stop();
        const answer = this.#askPart(this.reasons, learning, lane, asked);
        const end = isPatient ? setTimeout(() => this.reasons.lane === lane && this.reasons.stop(), LONGEST) : null;
        const got = await answer.finally(() => clearTimeout(end));
        return got === null || got.status > 1 ? null : got;
    }

    /** What would be filled with one more text given, and the row to look at next then; null where that is given up. */
    async triedOf(learning, record, text) {
        const more = new Learning({ ...learning, fill: learning.fill.typing(learning.sheet, record, text) });
        const answer = await this.#askApart(more, "settling");
        if (answer === null) return null;
        const filled = filledOf(answer, more, {});
        return { ...filled, next: await this.#nextOf(filled, "settling") };
    }

    /** Finds the rule, and which examples are not learned from. They depend on the examples alone. */
    async #tell(turn, learning) {
        const { column } = learning.fill;
        let told = await this.tellOf(learning, [], [], "tell");
        if (told === null && turn === this.#turn) {
            const answer = await this.client.ask("tell", { words: shownWords(learning) }, "tell");
            if (answer !== null && answer.status <= 1) told = { lines: linesOf(answer.lines), records: null };
        }
        const filled = this.resultOf(column);
        if (told === null || turn !== this.#turn || filled?.learning !== learning) return;
        const { refusals, rule, notes } = toldIn(told.lines);
        const places = told.records;
        const known = places ? new Map([...refusals].map(([at, reason]) => [places[at], reason])) : refusals;
        const better = { ...filled, refusals: known, rule, notes };
        this.#results.set(column, better);
        this.calls.onTold(better);
    }

    /** Finds the row to look at next. */
    async #suggest(turn, learning) {
        const filled = this.resultOf(learning.fill.column);
        if (turn !== this.#turn || filled?.learning !== learning || !filled.isWhole) return;
        const next = await this.#nextOf(filled, "suggest");
        const now = this.resultOf(learning.fill.column);
        if (next === null || turn !== this.#turn || now.learning !== learning) return;
        const better = { ...now, next };
        this.#results.set(learning.fill.column, better);
        this.calls.onTold(better);
    }

    /** The row to look at next; null where the engine names none. */
    async #nextOf({ learning, states }, lane) {
        const doubtful = doubtsOf(states, learning.header, MOST_DOUBTS + 1);
        if (doubtful.length < 2 || doubtful.length > MOST_DOUBTS) return null;
        const told = await this.tellOf(learning, doubtful, [], lane);
        const at = told === null ? null : nextIn(told.lines);
        return at === null ? null : told.records[at];
    }

    /** Runs a program with words of its own; files of one request alone can be handed along. */
    run(program, words, more = null) {
        return this.client.ask("run", { program, words, more });
    }

    /** The result's bytes, by these steps. */
    result(steps, format) {
        return this.client.ask("result", { steps, format });
    }
}

/** A filled column; what was told before stays until it is told anew. `fresh` are the records that are up to date where not all are. */
function filledOf(answer, learning, { refusals = new Map(), rule = [], notes = [], took = 0 }) {
    const isWhole = answer.status <= 1;
    const counts = isWhole ? countsOf(answer.states, learning.header) : [0, 0, 0, 0, 0];
    const stillGiven = new Map([...refusals].filter(([record]) => learning.fill.given(learning.sheet, record) !== null));
    return { isWhole, texts: answer.texts, states: answer.states, counts, refusals: stillGiven, rule, notes, next: null, learning, fresh: null, took };
}
