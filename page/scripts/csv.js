// CSV text and copied cells: reading them into records, and writing records.

const QUOTE = 34;
const LF = 10;
const CR = 13;

/** Where the separator or line end stands from a place on; the text's end where there is none. */
function endFrom(text, from, separator) {
    let end = from;
    for (; end < text.length; end++) {
        const code = text.charCodeAt(end);
        if (code === separator || code === LF || code === CR) break;
    }
    return end;
}

/** Reads the quoted field that begins at `at`: its text, and where the separator or line end behind it stands. */
function quotedAt(text, at, separator) {
    let field = "";
    let from = at + 1;
    for (;;) {
        const quote = text.indexOf('"', from);
        if (quote < 0) return { field: field + text.slice(from), end: text.length };
        field += text.slice(from, quote);
        if (text.charCodeAt(quote + 1) !== QUOTE) {
            // what follows a closing quote belongs to the field as it stands
            const end = endFrom(text, quote + 1, separator);
            return { field: field + text.slice(quote + 1, end), end };
        }
        field += '"';
        from = quote + 2;
    }
}

/**
 * Calls `each` with every record, a list of fields; it ends early if `each` returns false. A byte order mark and empty lines
 * are passed over.
 */
export function eachRecord(text, each, separator = ",") {
    const between = separator.charCodeAt(0);
    let at = text.charCodeAt(0) === 0xfeff ? 1 : 0;
    while (at < text.length) {
        const code = text.charCodeAt(at);
        if (code === LF || code === CR) {
            at++;
            continue;
        }
        const record = [];
        let end;
        for (;;) {
            if (text.charCodeAt(at) === QUOTE) {
                const quoted = quotedAt(text, at, between);
                record.push(quoted.field);
                end = quoted.end;
            } else {
                end = endFrom(text, at, between);
                record.push(text.slice(at, end));
            }
            at = end + 1;
            if (text.charCodeAt(end) !== between) break;
        }
        if (each(record) === false) return;
    }
}

/** All records of a text, or the first ones, `most` at the most. */
export function recordsOf(text, separator = ",", most = Infinity) {
    const records = [];
    eachRecord(text, (record) => records.push(record) < most, separator);
    return records;
}

/** The CSV text of records. A record with one empty field is quoted, so that it is no empty line. */
export function textOf(records, separator = ",") {
    const isQuoted = new RegExp(`["\\r\\n${separator}]`);
    const fieldText = (field) => (isQuoted.test(field) ? `"${field.replaceAll('"', '""')}"` : field);
    return records.map((record) => (record.length === 1 && record[0] === "" ? '""' : record.map(fieldText).join(separator))).join("\n") + "\n";
}

/** The records of cells that were copied in a spreadsheet: fields with tabs between them, quoted where they hold one or a line end. */
export function recordsOfCells(text) {
    const quoted = /"((?:[^"]|"")*)"(?=[\t\r\n]|$)/y;
    const plain = /[^\t\r\n]*/y;
    const records = [];
    let record = [];
    let at = 0;
    while (at <= text.length) {
        quoted.lastIndex = plain.lastIndex = at;
        const found = quoted.exec(text);
        record.push(found ? found[1].replaceAll('""', '"') : plain.exec(text)[0]);
        let end = found ? quoted.lastIndex : plain.lastIndex;
        if (text[end] !== "\t") {
            records.push(record);
            record = [];
            if (text[end] === "\r" && text[end + 1] === "\n") end++;
            if (end + 1 >= text.length) break;
        }
        at = end + 1;
    }
    return records;
}

/** Records as a spreadsheet takes them from the clipboard. */
export function cellsOf(records) {
    const fieldText = (field) => (/^"|[\t\r\n]/.test(field) ? `"${field.replaceAll('"', '""')}"` : field);
    return records.map((record) => record.map(fieldText).join("\t")).join("\n");
}
