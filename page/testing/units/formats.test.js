import assert from "node:assert/strict";
import test from "node:test";
import { Refused, bytesLike, described, formatOf, isPlain, plainBytes, plainName } from "../../scripts/formats.js";

const bytes = (text) => new TextEncoder().encode(text);
const text = (them) => new TextDecoder("utf-8", { ignoreBOM: true }).decode(them);
const latin = (it) => Uint8Array.from(it, (sign) => sign.charCodeAt(0));
const utf16 = (it, isBig = false) => Uint8Array.from([...it].flatMap((sign) => (isBig ? [sign.charCodeAt(0) >> 8, sign.charCodeAt(0) & 255] : [sign.charCodeAt(0) & 255, sign.charCodeAt(0) >> 8])));
const seen = (them) => {
    const { encoding, separator } = formatOf(them);
    return [encoding, separator];
};

test("separators", () => {
    assert.deepEqual(seen(bytes("Name,City\nAda,London\n")), ["utf-8", ","]);
    assert.deepEqual(seen(bytes("Name;City\nAda;London\n")), ["utf-8", ";"]);
    assert.deepEqual(seen(bytes("Name\tCity\nAda\tLondon\n")), ["utf-8", "\t"]);
    assert.deepEqual(seen(bytes("Name;Price\nTea;1,50\nMilk;2,30\n")), ["utf-8", ";"]);
    assert.deepEqual(seen(bytes("1,5;2,5\n2,5;3,5\n")), ["utf-8", ";"]);
    assert.deepEqual(seen(bytes("id,tags\n1,a;b\n2,c;d\n")), ["utf-8", ","]);
    assert.deepEqual(seen(bytes('"a;b",c\n"d;e",f\n')), ["utf-8", ","]);
    assert.deepEqual(seen(bytes("Name\nAda; Byron\n")), ["utf-8", ","]);
    assert.deepEqual(seen(bytes("")), ["utf-8", ","]);
    assert.deepEqual(seen(bytes("a;b;c\n1;2;3\n4;5\n")), ["utf-8", ";"]);
});

test("a line that names the separator", () => {
    const format = formatOf(bytes("sep=;\nName;City\nAda;Kiel\n"));
    assert.equal(format.separator, ";");
    assert.equal(text(plainBytes(bytes("sep=;\r\nName;City\r\nAda;Kiel\r\n"), format)), "Name,City\nAda,Kiel\n");
    assert.equal(text(bytesLike(bytes("Name,City\nAda,Kiel\n"), format)), "sep=;\nName;City\nAda;Kiel\n");
    const commas = formatOf(bytes("sep=,\na,b\n"));
    assert.equal(text(plainBytes(bytes("sep=,\na,b\n"), commas)), "a,b\n");
});

test("encodings", () => {
    assert.deepEqual(seen(latin("Name,City\nAda,K\u00f6ln\n")), ["windows-1252", ","]);
    assert.deepEqual(seen(Uint8Array.from([0xff, 0xfe, ...utf16("a;b\nc;d\n")])), ["utf-16le", ";"]);
    assert.deepEqual(seen(Uint8Array.from([0xfe, 0xff, ...utf16("a;b\nc;d\n", true)])), ["utf-16be", ";"]);
    assert.deepEqual(seen(utf16("Name,City\nAda,London\n")), ["utf-16le", ","]);
    assert.deepEqual(seen(bytes("\ufeffName,City\nAda,London\n")), ["utf-8", ","]);
});

test("what is plain stays byte for byte", () => {
    const data = bytes("\ufeffName,City\r\n\r\nAda,K\u00f6ln\r\n");
    const format = formatOf(data);
    assert.ok(isPlain(format));
    assert.equal(plainBytes(data, format), data);
    assert.equal(bytesLike(data, format), data);
    assert.equal(plainName("a.csv", format), "a.csv");
});

test("what is not plain is converted, and back", () => {
    const data = latin("Name;Ort\r\nAda;K\u00f6ln\r\nMax;\"a;b\"\r\nEva;1,5\r\n");
    const format = formatOf(data);
    const plain = plainBytes(data, format);
    assert.equal(text(plain), 'Name,Ort\nAda,K\u00f6ln\nMax,a;b\nEva,"1,5"\n');
    assert.equal(text(bytesLike(plain, format)), '\ufeffName;Ort\nAda;K\u00f6ln\nMax;"a;b"\nEva;1,5\n');
    assert.equal(plainName("orte.csv", format), "orte-commas.csv");
    assert.equal(described(format), "semicolons, in Windows-1252");
    const other = formatOf(latin("Name,Ort\nAda,K\u00f6ln\n"));
    assert.equal(plainName("orte.txt", other), "orte-utf8.csv");
    assert.equal(formatOf(data, ",").separator, ",");
});

test("refused", () => {
    const packed = Uint8Array.from([0x50, 0x4b, 3, 4, ...bytes("....[Content_Types].xml ....xl/workbook.xml"), 0, 1, 2]);
    assert.throws(() => formatOf(packed), (error) => error instanceof Refused && /Save it as CSV/.test(error.message));
    assert.throws(() => formatOf(Uint8Array.from([0x50, 0x4b, 3, 4, ...bytes("mimetypeapplication/vnd.oasis.opendocument.spreadsheet")])), /extension for LibreOffice/);
    assert.throws(() => formatOf(Uint8Array.from([0xd0, 0xcf, 0x11, 0xe0, 1, 2, 3])), /Save it as CSV/);
    assert.throws(() => formatOf(Uint8Array.from([0x1f, 0x8b, 8, 0, 1])), /packed/);
    assert.throws(() => formatOf(Uint8Array.from([0x89, 0x50, 0x4e, 0x47, 13, 10, 26, 10, 0, 0, 0, 13])), /no text/);
    assert.throws(() => formatOf(Uint8Array.from([97, 44, 0x81, 10])), /no text/);
});
