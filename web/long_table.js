// A table of any length, whose rows are elements only where they can be seen.
import {compared, heads_of, make, mark_sorted, row_cells, scrolled_table} from './elements.js';

const MOST_WHOLE = 600; // rows of a table that is drawn whole
const MARGIN = 15; // rows that are drawn above and below those that can be seen
const MOST_ON_PAPER = 5000;
const USUAL_HEIGHT = 34; // of a row, until one has been drawn

export class LongTable {
    columns; cells_of; records; shown; drawn; sorted; height; is_on_paper; above; body; below;

    /**
     * caption: what the table has
     * columns: {name, key, is_number, type, word} each; `key` is what a record is sorted by
     * cells_of: the cells of a record, as texts or elements
     */
    constructor(caption, columns, cells_of) {
        Object.assign(this, {columns, cells_of, records: [], shown: [], drawn: new Map(), sorted: null, height: USUAL_HEIGHT, is_on_paper: false});
        /** @type {(record: any) => boolean} */
        this.passes = () => true;
        this.heads = heads_of(columns, (number) => this.sort_by(number));
        [this.above, this.body, this.below] = ['gap', '', 'gap'].map((className) => make('tbody', {className}));
        this.element = scrolled_table(caption, this.heads, this.above, this.body, this.below);
        this.element.classList.add('long');
        this.element.addEventListener('scroll', () => requestAnimationFrame(() => this.draw()));
        for (const name of ['whole', 'seen']) this.element.addEventListener(name, () => this.draw_for(name === 'whole'));
        new ResizeObserver(() => this.draw()).observe(this.element);
    }

    /** Appends records. A sorted table is sorted again by `settle`. */
    add(records) {
        for (const record of records) this.records.push(record);
        for (const record of records) if (this.passes(record)) this.shown.push(record);
        this.draw();
    }

    /** Shows the records that pass a test. */
    filter(passes) {
        this.passes = passes;
        this.settle();
    }

    /** Sorts by a column: rising, and falling the next time. */
    sort_by(number) {
        this.sorted = {number, falls: this.sorted?.number === number && !this.sorted.falls};
        mark_sorted(this.heads, number, this.sorted.falls);
        this.settle();
    }

    /** Filters and sorts all records again. */
    settle() {
        this.shown = this.records.filter(this.passes);
        if (this.sorted) {
            const {key} = this.columns[this.sorted.number], keyed = this.shown.map((record) => ({record, key: key(record)}));
            keyed.sort((one, other) => compared(one.key, other.key, this.sorted.falls));
            this.shown = keyed.map(({record}) => record);
        }
        this.draw();
    }

    /** Marks the row of a record. */
    choose(record) {
        this.chosen = record;
        for (const [other, row] of this.drawn) row.classList.toggle('chosen', other === record);
    }

    /** Draws all rows, as paper needs them, or those that can be seen. */
    draw_for(is_paper) {
        this.is_on_paper = is_paper;
        for (const head of this.heads) head.style.minWidth = '';
        this.draw();
    }

    /** Draws the rows that can be seen. */
    draw() {
        if (this.is_on_paper) return this.draw_rows(0, MOST_ON_PAPER);
        if (this.shown.length <= MOST_WHOLE) return this.draw_rows(0, MOST_WHOLE);
        const first = Math.floor(this.element.scrollTop / this.height) - MARGIN, count = Math.ceil(this.element.clientHeight / this.height) + 2 * MARGIN;
        return this.draw_rows(Math.max(0, Math.min(first, this.shown.length - count)), count);
    }

    /** Draws `count` rows from a place on; above and below is room for the others. */
    draw_rows(first, count) {
        const records = this.shown.slice(first, first + count), rows = records.map((record) => this.drawn.get(record) ?? this.row_of(record));
        const had_focus = this.body.contains(document.activeElement), focused = document.activeElement;
        rows.forEach((row, number) => row.setAttribute('aria-rowindex', first + number + 2));
        this.drawn = new Map(records.map((record, number) => [record, rows[number]]));
        this.place(rows);
        this.height = rows[0]?.getBoundingClientRect().height || this.height;
        set_gap(this.above, first * this.height, this.columns.length);
        set_gap(this.below, (this.shown.length - first - records.length) * this.height, this.columns.length);
        this.element.querySelector('table').setAttribute('aria-rowcount', this.shown.length + 1);
        if (had_focus && document.activeElement !== focused) (focused.isConnected ? focused : this.element).focus({preventScroll: true});
        if (rows.length < this.shown.length && !this.is_on_paper) this.keep_widths();
    }

    /** Puts rows into the table. Those that stay are not moved, so that the focus stays in them. */
    place(rows) {
        const kept = new Set(rows);
        for (const row of [...this.body.rows]) if (!kept.has(row)) row.remove();
        rows.forEach((row, number) => { if (this.body.rows[number] !== row) this.body.insertBefore(row, this.body.rows[number] ?? null); });
    }

    row_of(record) {
        return make('tr', {className: record === this.chosen ? 'chosen' : ''}, ...row_cells(this.cells_of(record), this.columns));
    }

    /** Keeps the columns from becoming narrower while one scrolls. */
    keep_widths() {
        const widths = this.heads.map((head) => head.offsetWidth);
        this.heads.forEach((head, number) => { head.style.minWidth = `${widths[number]}px`; });
    }
}

/** Makes a body of a table room of a height. */
function set_gap(body, height, columns) {
    const cell = body.rows[0]?.cells[0] ?? body.appendChild(make('tr', {ariaHidden: 'true'}, make('td', {colSpan: columns}))).firstChild;
    body.hidden = !height;
    cell.style.height = `${height}px`;
}
