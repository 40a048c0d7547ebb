// The work of last time, kept in the browser on this computer. Where the browser keeps nothing, the page does without.
import { Choices } from "./choices.js";
import { Fill } from "./fill.js";

const NAME = "flashfill";
const STORE = "work";

/** The sheet that is kept, so that it is not written again with each change of the choices. */
let kept = null;

function database() {
    return new Promise((resolve, reject) => {
        const opening = indexedDB.open(NAME, 1);
        opening.onupgradeneeded = () => opening.result.createObjectStore(STORE);
        opening.onsuccess = () => resolve(opening.result);
        opening.onerror = () => reject(opening.error);
    });
}

/** Does something with the store, and returns what `work` asked for. */
async function withStore(mode, work) {
    const opened = await database();
    try {
        return await new Promise((resolve, reject) => {
            const transaction = opened.transaction(STORE, mode);
            const asked = work(transaction.objectStore(STORE));
            transaction.oncomplete = () => resolve(asked.map((it) => it?.result));
            transaction.onabort = transaction.onerror = () => reject(transaction.error);
        });
    } finally {
        opened.close();
    }
}

/** Keeps a sheet and the choices for it in the place of what was kept before. */
export async function keep({ sheet, choices }) {
    try {
        const { name, source } = sheet;
        await withStore("readwrite", (store) => [
            ...(kept === sheet ? [] : [store.put({ name, source }, "sheet")]),
            store.put({ name, when: Date.now(), choices: { ...choices, fills: choices.fills.map((it) => ({ ...it })) } }, "choices"),
        ]);
        kept = sheet;
    } catch {
        kept = null;
    }
}

/** When something was kept and the name of its sheet; null where nothing is. */
export async function lastKept() {
    try {
        const [choices] = await withStore("readonly", (store) => [store.get("choices")]);
        return choices ? { name: choices.name, when: choices.when } : null;
    } catch {
        return null;
    }
}

/** What was kept: a sheet's name and source, and the choices; null where that cannot be read. */
export async function readKept() {
    try {
        const [sheet, kept] = await withStore("readonly", (store) => [store.get("sheet"), store.get("choices")]);
        if (!sheet || kept?.name !== sheet.name) return null;
        return { ...sheet, choices: new Choices({ ...kept.choices, fills: kept.choices.fills.map((it) => new Fill(it)) }) };
    } catch {
        return null;
    }
}

/** Forgets what was kept. */
export async function forgetKept() {
    kept = null;
    try {
        await withStore("readwrite", (store) => [store.clear()]);
    } catch {
        // nothing was kept
    }
}
