// Finding a text in the sheet; the browser's own search sees the rows in view alone.

/**
 * The next cell that holds a text, from a cell on and around the end: the places of its row and column; null where none does.
 * `textAt(row, column)` has the text of a cell by its places; with -1 as `step` it goes the other way.
 */
export function findCell(text, { rows, columns, textAt }, from, step = 1) {
    const wanted = text.toLowerCase();
    const count = rows * columns;
    if (wanted === "" || count === 0) return null;
    const start = from.row * columns + from.column;
    for (let far = 1; far <= count; far++) {
        const at = (((start + step * far) % count) + count) % count;
        const [row, column] = [Math.floor(at / columns), at % columns];
        if (textAt(row, column).toLowerCase().includes(wanted)) return { row, column };
    }
    return null;
}
