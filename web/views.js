// What the page shows of an answer: tables and pictures, made from the answer's text.
import {make, sortable_table} from './elements.js';
import {invalid_sentence, is_of_jaco_and_rubinstein, kind_of, kind_sentence, meaning_of} from './kinds.js';
import {action_buttons, surface_picture, triangulation_in} from './next.js';
import {about_small, about_table, face_pairing_graph} from './pictures.js';
import {SurfaceList} from './surface_list.js';
import {coordinates_of, name_of, plural, read_info, read_table} from './texts.js';
import {explained} from './words.js';

const MOST_SHOWN = 200000; // characters of a text

/** The text of an answer as far as a page can show it. */
export const shortened_text = (outcome) => shortened(new TextDecoder().decode(outcome.first(MOST_SHOWN + 1)));

/** A text as far as a page can show it. */
export const shortened = (text) => (text.length > MOST_SHOWN ? `${text.slice(0, MOST_SHOWN)}\n… (shortened; copy or download the whole text)` : text);

/** The picture of a triangulation that is printed as a table, with a button that enlarges it, and its numbers in words. */
export function triangulation_view(text, enlarge = null) {
    const table = read_table(text), picture = face_pairing_graph(table);
    if (!picture) return [make('p', {className: 'soft'}, about_table(table))];
    const hidden = about_small(table);
    const button = enlarge ? [make('button', {type: 'button', id: 'enlarge', onclick: enlarge}, 'Large picture')] : [];
    return [picture, make('p', {className: 'soft'}, about_table(table), hidden && `. ${hidden}`), ...button];
}

/** The face-pairing graph of a printed table with all face numbers. */
export const large_graph = (text) => face_pairing_graph(read_table(text), true);

function text_view(text, command, {use}) {
    const parts = [make('pre', {tabIndex: 0, ariaLabel: 'Answer'}, shortened(text))], found = triangulation_in(text, command);
    if (!found) return parts;
    const picture = found.startsWith('tri') ? triangulation_view(found) : [];
    return [...parts, make('p', {}, ...action_buttons([{name: 'Use it as input', act: () => use(found)}])), ...picture];
}

/** The name of a fact, explained if it is a word of the page. */
function fact_name(name) {
    if (name === 'euler') return explained('Euler characteristic');
    return ['orientable', 'closed'].includes(name) ? explained(name) : name;
}

function info_view(text) {
    const {facts, vertices, edges} = read_info(text), list = make('dl');
    for (const [name, ...words] of facts) list.append(make('dt', {}, fact_name(name)), make('dd', {}, words.join(' ')));
    const kind = kind_of({facts, vertices, edges}), invalid = kind.invalid.length ? [make('p', {}, invalid_sentence(kind.invalid))] : [];
    const parts = [make('p', {id: 'kind'}, kind_sentence(kind)), ...invalid, list];
    if (vertices.length) {
        const table = sortable_table('Vertices', [{name: 'vertex', is_number: true}, {name: 'degree', is_number: true, word: 'degree'}, {name: 'link', word: 'vertex link'}, {name: 'χ of the link', is_number: true, word: 'Euler characteristic'}, {name: 'link closed'}]);
        table.add(vertices.map(({number, degree, kind, euler, closed}) => [number, degree, kind, euler, closed]));
        parts.push(make('h2', {}, 'Vertices'), table.element);
    }
    if (edges.length) {
        const table = sortable_table('Edges', [{name: 'edge', is_number: true}, {name: 'degree', is_number: true, word: 'degree'}, {name: 'inner or boundary', word: 'inner'}, {name: 'valid', word: 'valid'}]);
        table.add(edges.map(({number, degree, place, valid}) => [number, degree, place, valid]));
        parts.push(make('h2', {}, 'Edges'), table.element);
    }
    return parts;
}

/** The list of an answer as a table, with its first surfaces described. */
async function list_view(lines, coordinates, noun, context) {
    const list = new SurfaceList({lines, coordinates, noun, context});
    if (lines.length) await list.describe_next();
    return {parts: list.elements(), list};
}

/**
 * What is shown of an answer: {parts, list}. A list has more to describe, and `describe_rest` does so.
 *
 * words: the question's; context: {input, options, ask, busy, discs, follow, use, copy, offer, save_picture}, the input and the
 * options, the ways to ask more, how discs are drawn, and what buttons do
 */
export async function view_of(outcome, words, context) {
    const noun = {surfaces: 'vertex normal surface', describe: 'surface'}[words[0]];
    if (noun) return list_view(outcome.vectors(), coordinates_of(words), noun, context);
    return {parts: words[0] === 'info' ? info_view(outcome.text) : text_view(outcome.text, words[0], context), list: null};
}

// ---- 0-efficiency

const LAW = 'Proved (list_decides_efficiency): each connected normal surface of positive Euler characteristic is a vertex link if and only if each listed vertex surface of positive Euler characteristic is.';
const OCTAGONS = 'Surfaces with octagons do not count. In octagon coordinates, the listed surfaces without octagons are those of the standard list (proved: octagon_lists_have_standard).';

function verdict_of(kind, contrary) {
    const sentence = contrary ? `Surface ${contrary.index} is a ${name_of(contrary)} and not a vertex link.` : 'Each connected normal surface of positive Euler characteristic is a vertex link.';
    if (!is_of_jaco_and_rubinstein(kind)) return sentence;
    return `${contrary ? 'Not 0-efficient' : '0-efficient'}: ${sentence[0].toLowerCase()}${sentence.slice(1)}`;
}

/** The verdict on 0-efficiency. */
export function efficiency_view({info, count, contrary}, context) {
    const kind = kind_of(info);
    const about = `${plural(count, 'vertex normal surface')} in standard coordinates; ${contrary ? `surface ${contrary.index} has positive Euler characteristic.` : 'each one of positive Euler characteristic is a vertex link.'}`;
    const parts = [make('p', {className: 'verdict'}, verdict_of(kind, contrary)), make('p', {}, about), make('p', {}, LAW), make('p', {}, meaning_of(kind, contrary)), make('p', {}, OCTAGONS)];
    if (contrary) parts.push(surface_picture(contrary.line, 'standard', `Surface ${contrary.index}: ${name_of(contrary)}`, context));
    return parts;
}
