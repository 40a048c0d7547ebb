// What was opened and chosen, now and before: each step is a sheet with the choices for it, so opening one can be undone too.

/** So many steps can be undone. */
const MOST_STEPS = 500;

export class History {
    #past = [];
    #future = [];

    constructor(sheet, choices) {
        this.now = { sheet, choices };
    }

    push(choices, sheet = this.now.sheet) {
        this.#past.push(this.now);
        if (this.#past.length > MOST_STEPS) this.#past.shift();
        this.#future = [];
        this.now = { sheet, choices };
    }

    /** Other choices as a part of the last step. */
    amend(choices) {
        this.now = { ...this.now, choices };
    }

    get canUndo() {
        return this.#past.length > 0;
    }

    get canRedo() {
        return this.#future.length > 0;
    }

    undo() {
        if (!this.canUndo) return;
        this.#future.push(this.now);
        this.now = this.#past.pop();
    }

    redo() {
        if (!this.canRedo) return;
        this.#past.push(this.now);
        this.now = this.#future.pop();
    }
}
