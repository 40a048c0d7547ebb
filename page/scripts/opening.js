// Sheets that come in: by a button, by dropping, by pasting, from last time, and by a rule that fills one.
import { problemOf } from "./answers.js";
import { firstChoices } from "./choices.js";
import { recordsOfCells, textOf } from "./csv.js";
import { byId, notify } from "./dom.js";
import { EXAMPLE } from "./example.js";
import { bytesLike, described, isPlain } from "./formats.js";
import { forgetKept, lastKept, readKept } from "./keeping.js";
import { filledByRule, isRule } from "./rule.js";
import { Sheet } from "./sheet.js";
import { filledName } from "./words.js";

/** Larger sheets are refused: the page holds them several times over. */
const MOST_MEGABYTES = 400;
/** The engine refuses larger tables and rules, and says so; no more than one byte beyond is read of them. */
const LARGEST_TABLE = 16 * 1024 * 1024;

const bytesOf = async (file) => new Uint8Array(await file.arrayBuffer());

/** The bytes of a table or a rule, as far as the engine has to see them. */
export const tableBytes = (file) => bytesOf(file.slice(0, LARGEST_TABLE + 1));

export class Opening {
    constructor(page) {
        this.page = page;
        this.isExample = false;
    }

    /** Opens a file as a sheet, or says why it is none; `separator` is taken where one is handed in. */
    async openFile(file, separator = null) {
        if (isRule(file.name)) return this.runRule(file.name, await tableBytes(file));
        if (file.size > MOST_MEGABYTES * 1e6) return this.page.showProblem(`${file.name} has ${Math.ceil(file.size / 1e6)} MB; the page opens sheets of up to ${MOST_MEGABYTES} MB. The program fillcsv takes longer ones.`);
        return this.open(file.name, await bytesOf(file), { separator });
    }

    /** Opens bytes as a sheet. What stood there before comes back by undo. */
    async open(name, bytes, { separator = null, isOnDisk = true, sources = null } = {}) {
        const { page } = this;
        page.editing.close(false);
        const sheet = await page.during(this.#read(name, bytes, separator));
        if (sheet === null) return;
        Object.assign(sheet.source, { isOnDisk: isOnDisk && isPlain(sheet.source.format) });
        await this.#show(sheet, firstChoices(sheet, sources));
        this.#tellFormat(sheet, name, bytes);
    }

    /** The sheet of a file; null where it is none, which is told. */
    async #read(name, bytes, separator) {
        const { page } = this;
        let answer;
        try {
            answer = await page.filling.open(name, bytes, separator);
        } catch (error) {
            page.showProblem(error.message);
            return null;
        }
        if (answer.refused) page.showProblem(answer.refused);
        else if (answer.records.length === 0) page.showProblem(answer.status > 1 && bytes.length > 0 && !/no column/.test(answer.lines) ? problemOf(answer) : `${name} has no rows.`);
        else return new Sheet(answer.name, answer.records, { source: { bytes: answer.bytes, format: answer.format, came: name } });
        return null;
    }

    async #show(sheet, choices) {
        const { page } = this;
        notify(null);
        page.showProblem(null);
        this.isExample = sheet.source.came === EXAMPLE.name && page.history === null;
        if (page.history === null) page.start(sheet, choices);
        else page.history.push(choices, sheet);
        page.changedSheet();
        await page.changed();
        if (!page.filled?.isWhole || page.history.now.sheet !== sheet) return;
        if (page.doubts.hasDoubts && page.grid.active.column === page.column) page.doubts.next(1);
        else page.grid.choose(page.grid.active.record, page.grid.active.column);
    }

    /** Says how a sheet came that is no plain CSV file. */
    #tellFormat({ source }, name, bytes) {
        const { format } = source;
        if (isPlain(format)) return;
        const out = format.separator === "," ? "The download is in UTF-8." : `The download has ${described({ ...format, encoding: "utf-8" })} again${format.encoding === "utf-8" ? "" : ", and is in UTF-8"}.`;
        const other = format.separator === "," ? [] : [["Read it with commas instead", () => this.open(name, bytes, { separator: "," })]];
        notify(`${name} came with ${described(format)}. ${out}`, ...other);
    }

    /** Fills the sheet by a rule that was saved; what comes of it becomes the sheet. */
    async runRule(name, bytes) {
        const { page } = this;
        const { source } = page.sheet;
        const made = await page.during(filledByRule(page.filling, page.readBy(page.choices), name, bytes));
        if (made.problem) return page.showProblem(made.problem);
        await this.open(made.name, made.bytes, { separator: ",", isOnDisk: false });
        notify(`${name} filled the sheet: ${made.told}. In a terminal: ${made.line}`, ["Download it", () => page.results.handOut(filledName(source.came), bytesLike(made.bytes, source.format))], ["Back to the sheet before", () => page.undo()]);
    }

    /** Asks for cells in the dialog, and opens them as a sheet. */
    ask(text = "") {
        const dialog = byId("paste-dialog");
        const field = byId("paste-text");
        field.value = text;
        dialog.onclose = () => {
            const pasted = field.value;
            if (dialog.returnValue === "ok" && pasted.trim() !== "") {
                const cells = pasted.includes("\t") ? textOf(recordsOfCells(pasted)) : pasted;
                this.open("pasted.csv", new TextEncoder().encode(cells), { isOnDisk: false, separator: pasted.includes("\t") ? "," : null });
            }
            byId("grid").focus();
        };
        dialog.returnValue = "";
        dialog.showModal();
        field.focus();
    }

    /** Offers the work of last time. */
    async offerLast() {
        const last = await this.page.during(lastKept());
        if (last === null) return;
        const when = new Date(last.when).toLocaleString("en", { dateStyle: "medium", timeStyle: "short" });
        notify(`Last time you worked on ${last.name} (${when}). It is kept in this browser alone.`, [`Reopen ${last.name}`, () => this.#reopen()], ["Forget it", () => forgetKept()]);
    }

    async #reopen() {
        const { page } = this;
        const last = await page.during(readKept());
        const sheet = last && (await page.during(this.#read(last.name, last.source.bytes, ",")));
        if (!sheet) return notify("What was kept cannot be read.");
        sheet.source = last.source;
        await this.#show(sheet, last.choices);
    }

    /** Listens for files. */
    listen() {
        const input = byId("file");
        byId("open").addEventListener("click", () => input.click());
        input.addEventListener("change", () => {
            const [file] = input.files;
            if (file) this.openFile(file).then(() => (input.value = ""));
        });
        byId("paste").addEventListener("click", () => this.ask());
        document.addEventListener("dragover", (event) => {
            event.preventDefault();
            document.body.classList.add("dropping");
        });
        document.addEventListener("dragleave", (event) => {
            if (event.relatedTarget === null) document.body.classList.remove("dropping");
        });
        document.addEventListener("drop", (event) => this.#dropped(event));
    }

    async #dropped(event) {
        event.preventDefault();
        document.body.classList.remove("dropping");
        const onTables = event.target.closest?.("#tables");
        const files = [...event.dataTransfer.files];
        const text = event.dataTransfer.getData("text/plain");
        if (onTables) for (const file of files) await this.page.tables.add(file.name, await tableBytes(file));
        else if (files.length > 0) await this.openFile(files[0]);
        else if (text) this.ask(text);
    }
}
