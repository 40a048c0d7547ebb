// The worker: it holds the files, calls the engine, and answers with what the page shows. The page never waits for it.
// Its first message is the engine's module, which all workers share.
import { eachRecord, recordsOf } from "./csv.js";
import { Engine } from "./engine.js";
import { Refused, bytesLike, formatOf, plainBytes, plainName } from "./formats.js";
import { fileWord } from "./words.js";

const decoder = new TextDecoder("utf-8", { ignoreBOM: true });
const files = new Map();
let engine = null;

/** The states of cells as the engine writes them; a cell's state goes to the page as its place in this list. */
const STATES = ["given", "sure", "doubt", "none", "none doubt"];

/** The files that are held, and those that one request alone sees. */
const withMore = (more) => (more ? new Map([...files, ...more]) : files);

const kinds = {
    /** Holds a file by its name, or forgets it where there are no bytes. */
    hold({ name, bytes }) {
        if (bytes) files.set(name, bytes);
        else files.delete(name);
        return {};
    },

    /**
     * A file as a sheet: how it came, its bytes and name as the engine reads it, and its records: with an empty column more,
     * which is taken off here. `refused` says why it is none.
     */
    open({ name: came, bytes: given, separator }) {
        let format;
        try {
            format = formatOf(given, separator);
        } catch (error) {
            if (!(error instanceof Refused)) throw error;
            return { refused: `${came}: ${error.message}.` };
        }
        const bytes = plainBytes(given, format);
        const name = plainName(came, format);
        const word = fileWord(name);
        const { status, out, err } = engine.run("fillcsv", [word, "--new=x", "--from=1", "--no-header", "--quiet"], new Map([[word, bytes]]));
        const records = recordsOf(decoder.decode(out));
        for (const record of records) record.pop();
        return { status, lines: decoder.decode(err), records, name, format, bytes };
    },

    /** A column filled: its texts, and the states of its cells, in the order of the sheet's records. */
    fill({ words, column, header, more }) {
        const began = performance.now();
        const { status, out, err } = engine.run("fillcsv", words, withMore(more));
        const ran = performance.now();
        const texts = [];
        const states = [];
        let isHead = header;
        eachRecord(decoder.decode(out), (record) => {
            texts.push(record[column - 1] ?? "");
            states.push(isHead ? 0 : STATES.indexOf(record[record.length - 1]));
            isHead = false;
        });
        const times = { engine: ran - began, reading: performance.now() - ran };
        return { status, lines: decoder.decode(err), texts, states: Uint8Array.from(states), times };
    },

    /** What a program tells beside its output. */
    tell({ words, more }) {
        const { status, err } = engine.run("fillcsv", words, withMore(more));
        return { status, lines: decoder.decode(err) };
    },

    /** Runs of `fillcsv` one after the other, each over the file that the one before wrote; the last output as the sheet's file came. */
    result({ steps, format, more }) {
        const seen = new Map(withMore(more));
        let last = null;
        for (const { words, writes } of steps) {
            last = engine.run("fillcsv", words, seen);
            if (last.status > 1) break;
            seen.set(fileWord(writes), last.out);
        }
        const { status, out, err } = last;
        return { status, lines: decoder.decode(err), out: status > 1 ? out : bytesLike(out, format) };
    },

    /** A program's answer as it is; `more` are files that this call alone sees. */
    run({ program, words, more }) {
        const { status, out, err, saved } = engine.run(program, words, withMore(more));
        return { status, lines: decoder.decode(err), out, saved };
    },
};

self.onmessage = ({ data: { module, id, kind, request } }) => {
    if (module) {
        engine = new Engine(module);
        return;
    }
    try {
        self.postMessage({ id, answer: kinds[kind](request) });
    } catch (error) {
        self.postMessage({ id, failed: `the engine stopped: ${error.message ?? error}` });
    }
};
