// What comes after an answer: questions about a surface or a triangulation that it has, and lines for other programs.
import {make} from './elements.js';
import {python_line, regina_line} from './exports.js';
import {entries_of, first_table} from './texts.js';

/**
 * What can be done with a surface: {name, act} each.
 *
 * context: as `view_of` has it, of which are used: `input`, `follow` for the next question, and `copy`
 */
export function actions_on(line, coordinates, context) {
    const {input, follow, copy} = context, table = first_table(input), text = `${table}${line}\n`, entries = entries_of(line);
    const asks = (name, command, options = {}) => ({name, act: () => follow(command, options, text)});
    const crush = coordinates === 'standard' ? [asks('Crush along it', 'crush')] : [];
    const lift = coordinates === 'quad' ? [asks('Lift it', 'lift')] : [];
    const describe = coordinates === 'quad' ? [] : [asks('Describe it', 'describe', {coords: coordinates})];
    return [
        ...crush, ...lift, asks('Decompose it', 'decompose', {coords: coordinates}), ...describe,
        {name: 'Copy the vector', act: () => copy(`${line}\n`)},
        {name: 'Copy for Regina', act: () => copy(regina_line(table, entries, coordinates))},
        {name: 'Copy for Python', act: () => copy(python_line(table, entries, coordinates))},
    ];
}

/** Buttons for actions. */
export const action_buttons = (actions) => actions.map(({name, act}) => make('button', {type: 'button', className: 'next', onclick: act}, name));

/** The discs of a surface as a section that names it. */
export function surface_picture(line, coordinates, title, context) {
    const {met, figures, most, turned} = context.discs.surface(entries_of(line), coordinates);
    const rest = met > figures.length ? ` The first ${figures.length} are shown.` : '';
    const about = `It intersects ${met === 1 ? 'one tetrahedron' : `${met} tetrahedra`}.${rest} At most ${most} parallel discs of each type are drawn. Drag a picture or press the arrow keys on it to turn all of them.`;
    const save = {name: 'Save the picture (SVG)', act: () => context.save_picture(turned.pictures(), title)};
    return make('section', {ariaLabel: title, tabIndex: -1}, make('h2', {}, title), make('p', {className: 'soft'}, about),
        make('div', {className: 'row'}, ...action_buttons([...actions_on(line, coordinates, context), save])), make('div', {className: 'discs'}, ...figures));
}

const PRINT_ANOTHER_TABLE = ['cover', 'crush', 'play', 'descend', 'make'];
const TABLE = /^tri \d+\n(?:(?:\d+:\d{4}|-) .*\n)*/m;

/** The triangulation of an answer as the text of an input, or null if there is none. */
export function triangulation_in(text, command) {
    if (command === 'sig') return `sig ${text.trim()}\n`;
    return PRINT_ANOTHER_TABLE.includes(command) ? text.match(TABLE)?.[0] ?? null : null;
}
