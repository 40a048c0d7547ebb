// Where rows stand in a field that scrolls. A browser cannot make it as high as millions of rows: beyond `MOST_HIGH` the place
// of the scroll bar is a part of the whole way, and no longer a number of pixels.

/** The height of a row in pixels; style.css has it too. */
export const ROW = 30;
/** Browsers lay out some 17 million pixels at the least. */
export const MOST_HIGH = 15_000_000;

export class Scrolling {
    /** `rows` rows, of which a height of `view` pixels is seen. */
    constructor(rows, view) {
        this.rows = rows;
        this.view = view;
        this.whole = rows * ROW;
        this.height = Math.min(this.whole, MOST_HIGH);
        const way = this.height - view;
        this.scale = this.whole > this.height && way > 0 ? (this.whole - view) / way : 1;
    }

    /** How many pixels of the rows are above the view where the bar stands at `place`. */
    above(place) {
        return Math.min(place * this.scale, Math.max(0, this.whole - this.view));
    }

    /** Where a row stands in the field, in pixels, where the bar stands at `place`. */
    top(row, place) {
        return row * ROW + place - this.above(place);
    }

    /** The rows that are to be there, `more` above and below the view: the first one, and the one after the last. */
    range(place, more) {
        const above = this.above(place);
        const first = Math.max(0, Math.floor(above / ROW) - more);
        return [first, Math.min(this.rows, Math.ceil((above + this.view) / ROW) + more)];
    }

    /** Where the bar is to stand so that a row is seen whole; `place` if it is so already. */
    placeFor(row, place) {
        const above = this.above(place);
        const top = row * ROW;
        if (top < above) return Math.max(0, Math.floor(top / this.scale));
        if (top + ROW > above + this.view) return Math.ceil((top + ROW - this.view) / this.scale);
        return place;
    }
}
