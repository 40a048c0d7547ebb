// Files as people have them: which separator and encoding a file has, its text as the engine reads it, and back.
import { eachRecord, recordsOf, textOf } from "./csv.js";

/** So many bytes, and records of these, tell what a file is. */
const SAMPLE = 65536;
const RECORDS = 200;

const SEPARATORS = [",", ";", "\t"];
const SEPARATOR_NAMES = { ",": "commas", ";": "semicolons", "\t": "tabs", "|": "bars" };
const ENCODING_NAMES = { "utf-8": "UTF-8", "utf-16le": "UTF-16", "utf-16be": "UTF-16", "windows-1252": "Windows-1252" };

/** A file that cannot be opened, and why. */
export class Refused extends Error {}

const startsWith = (bytes, ...wanted) => wanted.every((it, at) => bytes[at] === it);

/** Refuses files that are no text, those of spreadsheets by what to do. */
function refusePacked(bytes) {
    const isPacked = startsWith(bytes, 0x50, 0x4b, 3, 4);
    const start = isPacked ? new TextDecoder("latin1").decode(bytes.subarray(0, 4096)) : "";
    const isSheet = /opendocument\.spreadsheet|\[Content_Types\]\.xml|xl\/|_rels\//.test(start);
    if (isSheet || startsWith(bytes, 0xd0, 0xcf, 0x11, 0xe0)) {
        throw new Refused("this is a packed spreadsheet (.xlsx, .xls or .ods). Save it as CSV in your spreadsheet program and open that, or fill it there by our extension for LibreOffice");
    }
    if (isPacked || startsWith(bytes, 0x1f, 0x8b)) throw new Refused("this file is packed: unpack it first");
}

/** The encoding that a file's first bytes tell, or null. */
function markedEncoding(bytes) {
    if (startsWith(bytes, 0xef, 0xbb, 0xbf)) return "utf-8";
    if (startsWith(bytes, 0xff, 0xfe)) return "utf-16le";
    if (startsWith(bytes, 0xfe, 0xff)) return "utf-16be";
    const sample = bytes.subarray(0, SAMPLE);
    const zeros = [0, 0];
    sample.forEach((it, at) => (zeros[at & 1] += it === 0));
    const half = sample.length / 2;
    if (zeros[1] > 0.4 * half && zeros[0] < 0.1 * half) return "utf-16le";
    if (zeros[0] > 0.4 * half && zeros[1] < 0.1 * half) return "utf-16be";
    return null;
}

const isUtf8 = (bytes) => {
    try {
        new TextDecoder("utf-8", { fatal: true }).decode(bytes);
        return true;
    } catch {
        return false;
    }
};

/** Whether text of one byte a character could stand there: no control characters, and no byte without a meaning. */
const isLatin = (bytes) => !bytes.some((it) => (it < 32 && it !== 9 && it !== 10 && it !== 12 && it !== 13) || it === 0x7f || it === 0x81 || it === 0x8d || it === 0x8f || it === 0x90 || it === 0x9d);

function encodingOf(bytes) {
    const marked = markedEncoding(bytes);
    if (marked?.startsWith("utf-16")) return marked;
    if (bytes.subarray(0, SAMPLE).includes(0)) throw new Refused("this file is no text");
    if (isUtf8(bytes)) return "utf-8";
    if (marked === "utf-8") throw new Refused("this file is marked as UTF-8 and is not");
    if (!isLatin(bytes)) throw new Refused("this file is no text");
    return "windows-1252";
}

/** How well a separator fits: the part of records that have as many fields as the first one, if that has more than one. */
function fitOf(text, separator) {
    const records = recordsOf(text, separator, RECORDS);
    const fields = records[0]?.length ?? 0;
    return fields < 2 ? 0 : records.filter((it) => it.length === fields).length / records.length;
}

/** The separator that fits best. The comma stands back only where all commas are those of decimals. */
function separatorIn(text) {
    const fits = SEPARATORS.map((it) => fitOf(text, it));
    const best = Math.max(...fits);
    const commas = text.replace(/\d,\d/g, "").includes(",");
    if (best === 0 || (fits[0] === best && commas)) return ",";
    return SEPARATORS.find((it, at) => it !== "," && fits[at] === best) ?? ",";
}

/**
 * How a file came: its `encoding` and `separator`, whether a line `sep=` names that, and whether a byte order mark stands
 * there. A `separator` that is handed in is taken.
 */
export function formatOf(bytes, separator = null) {
    refusePacked(bytes);
    const encoding = encodingOf(bytes);
    const start = new TextDecoder(encoding).decode(bytes.subarray(0, SAMPLE));
    const named = /^sep=([,;\t|])\r?\n/.exec(start);
    const hasMark = startsWith(bytes, 0xef, 0xbb, 0xbf) || startsWith(bytes, 0xff, 0xfe) || startsWith(bytes, 0xfe, 0xff);
    // the last line of the sample may be cut off
    const whole = bytes.length > SAMPLE ? start.slice(0, start.lastIndexOf("\n") + 1) : start;
    return { encoding, separator: separator ?? named?.[1] ?? separatorIn(whole), isNamed: named !== null, hasMark };
}

/** Whether the engine can read a file as it came. */
export const isPlain = ({ encoding, separator, isNamed }) => encoding === "utf-8" && separator === "," && !isNamed;

/** A file as the engine reads it: in UTF-8, with commas. */
export function plainBytes(bytes, format) {
    if (isPlain(format)) return bytes;
    let text = new TextDecoder(format.encoding).decode(bytes);
    if (format.isNamed) text = text.slice(text.indexOf("\n") + 1);
    const plain = format.separator === "," ? text : textOf(recordsOf(text, format.separator));
    return new TextEncoder().encode(plain);
}

/**
 * What the engine wrote, as the file came: with its separator. It stays in UTF-8; where the file was in another encoding, a
 * byte order mark tells spreadsheets so.
 */
export function bytesLike(bytes, format) {
    if (isPlain(format)) return bytes;
    const pieces = [];
    if (format.hasMark || format.encoding !== "utf-8") pieces.push("\ufeff");
    if (format.isNamed) pieces.push(`sep=${format.separator}\n`);
    const text = new TextDecoder().decode(bytes);
    if (format.separator === ",") pieces.push(text);
    else {
        let some = [];
        eachRecord(text, (record) => {
            if (some.push(record) < 10000) return;
            pieces.push(textOf(some, format.separator));
            some = [];
        });
        if (some.length > 0) pieces.push(textOf(some, format.separator));
    }
    return new TextEncoder().encode(pieces.join(""));
}

/** What a person is told of a file that was converted: "semicolons, Windows-1252". */
export function described({ encoding, separator }) {
    return [SEPARATOR_NAMES[separator], ...(encoding === "utf-8" ? [] : [ENCODING_NAMES[encoding]])].join(", in ");
}

/** The name of the converted file. */
export function plainName(name, format) {
    if (isPlain(format)) return name;
    const base = name.replace(/\.(csv|txt|tsv|tab)$/i, "");
    return `${base}-${format.separator === "," ? "utf8" : "commas"}.csv`;
}
