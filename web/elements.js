// Elements of the page. Texts become text nodes, and never markup.

/** The element of the page with this name.
 * @returns {any} */
export const by_id = (id) => document.getElementById(id);

/** An HTML element with properties or attributes, and parts.
 * @returns {any} */
export function make(name, settings = {}, ...parts) {
    const made = document.createElement(name);
    for (const [key, value] of Object.entries(settings)) {
        if (key in made) made[key] = value;
        else made.setAttribute(key, value);
    }
    made.append(...parts);
    return made;
}

/** The cells of a row; the first one names it. */
export function row_cells(cells, columns) {
    return cells.map((cell, number) => make(number ? 'td' : 'th', {className: class_of(columns[number]), ...(number ? {} : {scope: 'row'})}, cell));
}

/** The class of a column's cells. */
export const class_of = (column) => (column.is_number ? 'number' : column.type ?? '');

/** The heads of columns: a button sorts by those that have a name, and `word` says which word of the page it is. */
export function heads_of(columns, sort) {
    return columns.map((column, number) => {
        const settings = {type: 'button', onclick: () => sort(number), ...(column.word ? {'data-word': column.word} : {})};
        const content = column.name ? make('button', settings, column.name) : make('span', {className: 'unseen'}, column.label ?? '');
        return make('th', {scope: 'col', className: class_of(column)}, content);
    });
}

/** Says by which column a table is sorted, and how. */
export function mark_sorted(heads, number, falls) {
    heads.forEach((head) => head.removeAttribute('aria-sort'));
    heads[number]?.setAttribute('aria-sort', falls ? 'descending' : 'ascending');
}

/** A region that scrolls, with a table in it. */
export function scrolled_table(caption, heads, ...bodies) {
    const table = make('table', {}, make('caption', {className: 'unseen'}, caption), make('thead', {}, make('tr', {}, ...heads)), ...bodies);
    return make('div', {className: 'scroll', tabIndex: 0, role: 'region', ariaLabel: caption}, table);
}

/**
 * A table whose columns can be sorted.
 *
 * columns: {name, is_number, type, word} each, with `type` a class of its cells
 * Returns {element, add}: `add` appends rows of cells, which are texts or elements, and sort by `data-key`.
 */
export function sortable_table(caption, columns) {
    const rows = [], body = make('tbody'), heads = heads_of(columns, sort);
    const key = (cell) => cell.dataset?.key ?? String(cell);
    const fill = () => body.replaceChildren(...rows.map(({row}) => row));

    function sort(number) {
        const falls = heads[number].getAttribute('aria-sort') === 'ascending';
        mark_sorted(heads, number, falls);
        const keyed = rows.map((row) => ({row, key: columns[number].is_number ? number_of(key(row.cells[number])) : key(row.cells[number])}));
        keyed.sort((one, other) => compared(one.key, other.key, falls));
        rows.splice(0, rows.length, ...keyed.map(({row}) => row));
        fill();
    }

    function add(more) {
        for (const cells of more) rows.push({cells, row: make('tr', {}, ...row_cells(cells, columns))});
        mark_sorted(heads, -1, false);
        fill();
    }

    return {element: scrolled_table(caption, heads, body), add};
}

/** How two keys of a column compare, for a sort that rises or falls. */
export const compared = (one, other, falls) => (falls ? -1 : 1) * (Number(one > other) - Number(one < other));

/** A cell's number; cells without one come last. */
const number_of = (text) => (text === '' ? Infinity : Number(text));
