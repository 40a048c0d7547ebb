// Lookup tables: files that are dropped in, and their keys.
import { problemOf } from "./answers.js";
import { recordsOf } from "./csv.js";
import { byId, element } from "./dom.js";
import { formatOf, isPlain, plainBytes, plainName } from "./formats.js";
import { tableBytes } from "./opening.js";
import { fileWord } from "./words.js";

const MOST_TABLES = 8;
const MOST_KEYS = 4;

export class TablesCard {
    constructor(page) {
        this.page = page;
        this.isThere = false;
    }

    /** Finds out whether the engine knows tables. */
    async start() {
        const help = await this.page.filling.run("fillcsv", ["--help"]);
        this.isThere = new TextDecoder().decode(help.out).includes("--table");
        byId("tables").hidden = !this.isThere;
    }

    /** Adds a table, with the keys that the engine finds. */
    async add(fileName, given) {
        const { page } = this;
        if (!this.isThere || !page.history) return;
        if (page.choices.tables.length >= MOST_TABLES) return page.showProblem(`${fileName}: at most ${MOST_TABLES} tables can be added.`);
        let format;
        try {
            format = formatOf(given);
        } catch (error) {
            return page.showProblem(`${fileName}: ${error.message}.`);
        }
        const bytes = plainBytes(given, format);
        const file = fileWord(plainName(fileName, format));
        const name = fileName.replace(/\.[^.]*$/, "").replace(/[^\w-]+/g, "-");
        const answer = await page.during(page.filling.run("flashfill", ["keys", file], [[file, bytes]]));
        if (answer.status !== 0) return page.showProblem(problemOf(answer));
        const offered = recordsOf(new TextDecoder().decode(answer.out)).map(([, ...columns]) => columns.map(Number));
        if (offered.length === 0) return page.showProblem(`${fileName}: no columns tell its rows apart, so nothing can be looked up in it`);
        const others = page.choices.tables.filter((it) => it.name !== name);
        page.choose(page.choices.with({ tables: [...others, { name, file, bytes, isConverted: !isPlain(format), offered, keys: offered.slice(0, 1) }] }));
    }

    show() {
        if (!this.isThere) return;
        const { page } = this;
        const { tables, depth } = page.choices;
        const input = element("input", { type: "file", accept: ".csv,text/csv,text/plain", multiple: true, hidden: true, onchange: async () => {
            for (const file of [...input.files]) await this.add(file.name, await tableBytes(file));
        } });
        const depths = [1, 2, 3].map((it) => element("option", { value: it, selected: it === depth }, String(it)));
        byId("tables").replaceChildren(
            element("h2", {}, "Lookup tables"),
            ...(tables.length > 0 ? [] : [element("p", {}, "Drop a table here, such as names of months or prices, and rules can look cells up in it.")]),
            ...tables.map((table) => this.#table(table)),
            element("p", { class: "row-of-buttons" }, element("button", { type: "button", onclick: () => input.click() }, "Add a table…"), input),
            ...(tables.length === 0 ? [] : [element("label", {}, "How many lookups may nest ", element("select", { onchange: (event) => page.choose(page.choices.with({ depth: Number(event.target.value) })) }, depths))]),
        );
    }

    #table(table) {
        const { page } = this;
        const [head = []] = recordsOf(new TextDecoder().decode(table.bytes.subarray(0, 4096)), ",", 1);
        const change = (keys) => page.choose(page.choices.with({ tables: page.choices.tables.map((it) => (it === table ? { ...it, keys } : it)) }));
        const chips = table.offered.map((key) => {
            const isOn = table.keys.includes(key);
            const onchange = () => change(isOn ? table.keys.filter((it) => it !== key) : [...table.keys, key]);
            const isFixed = isOn ? table.keys.length === 1 : table.keys.length >= MOST_KEYS;
            const first = key.map((it) => head[it - 1] ?? "").join(", ");
            const title = `column${key.length > 1 ? "s" : ""} ${key.join(" + ")} (${first})`;
            return element("label", { class: "chip" }, element("input", { type: "checkbox", checked: isOn, disabled: isFixed, onchange }), element("span", {}, title));
        });
        const remove = () => page.choose(page.choices.with({ tables: page.choices.tables.filter((it) => it !== table) }));
        const save = table.isConverted ? element("button", { type: "button", class: "small", title: "The table was converted to commas and UTF-8, and the lines for a terminal read it so", onclick: () => page.results.handOut(table.file, table.bytes) }, "Download") : null;
        return element("div", { class: "table" }, element("p", {}, element("strong", {}, table.file), " ", save, " ", element("button", { type: "button", class: "small", "aria-label": `Remove ${table.file}`, onclick: remove }, "Remove")), element("p", { class: "row-of-buttons" }, "found by", ...chips));
    }
}
