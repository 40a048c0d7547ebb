// What goes out: the filled sheet, the filled column, the lines that make the same, and the rule.
import { problemOf } from "./answers.js";
import { byId, element, flash, notify, say } from "./dom.js";
import { isPlain } from "./formats.js";
import { showResult, showRule } from "./resultcard.js";
import { savedRule } from "./rule.js";
import { filledName, resultSteps, shellLines } from "./words.js";

/** Whether a spreadsheet may take a text for a formula. */
const isLikeFormula = (text) => /^[=+@-]/.test(text) && !/^[+-]?[\d.,\s%]*$/.test(text);

export class Results {
    constructor(page) {
        this.page = page;
    }

    /** Offers bytes as a download. */
    handOut(name, bytes) {
        const url = URL.createObjectURL(new Blob([bytes], { type: "text/csv" }));
        element("a", { href: url, download: name }).click();
        setTimeout(() => URL.revokeObjectURL(url), 60_000);
    }

    /** Why the lines read another file than the one that was opened; null where they read that. */
    #why() {
        const { page } = this;
        const { source } = page.sheet;
        const [emptied] = page.choices.emptied(page.sheet);
        const count = [...page.choices.corrected.values()].reduce((sum, texts) => sum + texts.size, 0);
        if (count > 0) return `You corrected ${count === 1 ? "a cell" : `${count} cells`} of the sheet.`;
        if (emptied !== undefined) return `You emptied the column “${page.titleOf(emptied)}”.`;
        if (source.isOnDisk) return null;
        return isPlain(source.format) ? "This sheet is on no disk yet." : "The sheet was converted to commas and UTF-8.";
    }

    show() {
        const { page } = this;
        if (!page.filled) return;
        byId("download").disabled = byId("copy-column").disabled = !page.filled.isWhole;
        const sheet = page.readBy(page.choices);
        const lines = shellLines(resultSteps(sheet, page.choices));
        const isOpen = byId("terminal")?.open ?? false;
        const file = { name: sheet.name, why: this.#why() };
        const hasFormulas = page.filled.isWhole && page.filled.texts.some(isLikeFormula);
        showResult({ lines, file, choices: page.choices, filled: page.filled, isOpen, hasFormulas }, {
            choose: (changes) => page.choose(page.choices.with(changes)),
            copy: (text, button) => this.copy(text, button),
            saveRule: () => this.saveRule(),
            downloadSheet: () => this.handOut(sheet.name, page.filling.bytesOf(sheet)),
        });
    }

    /** Copies a text, and says so in the button that was pressed; a page that is served without TLS may not. */
    async copy(text, button) {
        try {
            await navigator.clipboard.writeText(text);
        } catch (error) {
            return notify(`The browser does not let this page copy by a button (${error.message}). Pick what you want, and press Ctrl+C.`);
        }
        flash(button, "Copied");
        say("Copied");
    }

    /** Copies the filled column, a line for each row, to be pasted beside the sheet that it came from. */
    copyColumn(button) {
        const { page } = this;
        if (!page.filled?.isWhole) return;
        const { texts } = page.filled;
        const lines = texts.slice(page.choices.header ? 1 : 0).map((it) => (/^"|[\t\r\n]/.test(it) ? `"${it.replaceAll('"', '""')}"` : it));
        this.copy(lines.join("\n"), button);
    }

    async saveRule() {
        const { page } = this;
        const { filled } = page;
        const rule = await page.during(savedRule(page.filling, filled.learning));
        if (filled.learning !== page.filled.learning) return;
        if (!rule.problem) this.handOut(rule.name, rule.bytes);
        showRule(rule, filled.learning, { copy: (text, button) => this.copy(text, button) });
    }

    async download() {
        const { page } = this;
        const sheet = page.readBy(page.choices);
        const answer = await page.during(page.filling.result(resultSteps(sheet, page.choices), sheet.source.format));
        if (answer === null) return;
        if (answer.status > 1) return page.showProblem(problemOf(answer));
        this.handOut(filledName(sheet.source.came), answer.out);
        page.isDirty = false;
    }

    listen() {
        byId("download").addEventListener("click", () => this.download());
        byId("copy-column").addEventListener("click", (event) => this.copyColumn(event.currentTarget));
    }
}
