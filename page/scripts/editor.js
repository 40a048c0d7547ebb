// Typing into cells, and the keys of the sheet.
import { element } from "./dom.js";

/** Typing that has begun: the text field in a cell. */
export class Editor {
    #field = null;
    #cell = null;

    /**
     * `calls.onTyping(cell, text)` comes with each change, `onDone(cell, text, isEntered)` with the end; a cell has a `record`
     * and a `column`. Null as text says that it was given up, `isEntered` that a key ended it and not a click elsewhere.
     */
    constructor(grid, calls) {
        this.grid = grid;
        this.calls = calls;
    }

    get isOpen() {
        return this.#field !== null;
    }

    /** Begins in the chosen cell, behind a text. */
    open(text) {
        const cell = this.grid.activeCell;
        if (this.isOpen || !cell) return;
        this.#cell = this.grid.active;
        this.#field = element("textarea", {
            class: "editor", rows: 1, spellcheck: "false", autocomplete: "off", "aria-label": `Text of row ${this.#cell.record + 1}`,
            oninput: () => this.calls.onTyping(this.#cell, this.#field.value),
            onkeydown: (event) => this.#key(event),
            onblur: () => this.close(true, false),
        });
        this.#field.value = text;
        cell.append(this.#field);
        cell.classList.add("editing");
        this.#field.focus({ preventScroll: true });
        this.#field.setSelectionRange(text.length, text.length);
    }

    /** Ends; what was typed stands if `isKept`. */
    close(isKept, isEntered = false) {
        if (!this.isOpen) return;
        const field = this.#field;
        this.#field = null;
        const isFocused = document.activeElement === field;
        field.parentElement?.classList.remove("editing");
        field.remove();
        if (isFocused) this.grid.place.focus({ preventScroll: true });
        this.calls.onDone(this.#cell, isKept ? field.value : null, isEntered);
    }

    #key(event) {
        event.stopPropagation();
        const { key, altKey, shiftKey, isComposing } = event;
        if (isComposing) return;
        if (key === "Enter" && altKey) {
            event.preventDefault();
            this.#field.setRangeText("\n", this.#field.selectionStart, this.#field.selectionEnd, "end");
            this.calls.onTyping(this.#cell, this.#field.value);
        } else if (key === "Enter" || key === "Tab") {
            event.preventDefault();
            this.close(true, true);
            if (key === "Enter") this.grid.move(shiftKey ? -1 : 1, 0);
            else this.grid.move(0, shiftKey ? -1 : 1);
        } else if (key === "Escape") {
            event.preventDefault();
            this.close(false);
        } else if ((key === "ArrowDown" || key === "ArrowUp") && !altKey) {
            event.preventDefault();
            this.close(true, true);
            this.grid.move(key === "ArrowDown" ? 1 : -1, 0);
        }
    }
}

/** How far a key moves the chosen cell: rows and columns; null where it moves none. */
function stepOf({ key, ctrlKey, metaKey, shiftKey }, grid) {
    const far = 1e9;
    const isFar = ctrlKey || metaKey;
    switch (key) {
        case "ArrowDown": return [isFar ? far : 1, 0];
        case "ArrowUp": return [isFar ? -far : -1, 0];
        case "ArrowRight": return [0, isFar ? far : 1];
        case "ArrowLeft": return [0, isFar ? -far : -1];
        case "PageDown": return [grid.rowsInView, 0];
        case "PageUp": return [-grid.rowsInView, 0];
        case "Home": return [isFar ? -far : 0, isFar ? 0 : -far];
        case "End": return [isFar ? far : 0, isFar ? 0 : far];
        case "Enter": return [shiftKey ? -1 : 1, 0];
        default: return null;
    }
}

/**
 * Lets keys work on the sheet. `calls` has what they do: `type(text)` begins with a text, `edit()` goes on with what stands
 * there, `clear()`, and `menu()` opens the column's menu. With Shift the keys that move pick cells.
 */
export function listen(grid, calls) {
    grid.place.addEventListener("keydown", (event) => {
        const { key, altKey, ctrlKey, metaKey, shiftKey, isComposing } = event;
        if (isComposing || event.target !== grid.place) return;
        const isPlain = !ctrlKey && !metaKey && !altKey;
        const step = altKey ? null : stepOf(event, grid);
        let isDone = true;
        if ((key === "Enter" && isPlain && !shiftKey) || key === "F2") calls.edit();
        else if (key === "ContextMenu" || (key === "F10" && shiftKey)) calls.menu();
        else if ((ctrlKey || metaKey) && key.toLowerCase() === "a") grid.pickAll();
        else if (step) grid.move(...step, shiftKey && key !== "Enter");
        else if (key === "Delete" || (key === "Backspace" && isPlain)) calls.clear();
        else if (isPlain && [...key].length === 1) calls.type(key);
        else isDone = false;
        if (isDone) event.preventDefault();
    });
}
