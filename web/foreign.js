// Triangulations in the files of other programs: the XML of Regina, and the text of SnapPea. They become gluing tables.
import {plural} from './texts.js';

const NAME = /(\/?)([A-Za-z][\w-]*)/y;
const NO_END = /[^<>"]*/y; // of an element's head
const COMMENT = '<' + '!--'; // as one word it would change how an element of the page that holds this script ends
const ATTRIBUTE = /([\w:-]+)\s*=\s*"([^"]*)"/g;
const CHARACTERS = {amp: '&', lt: '<', gt: '>', quot: '"', apos: '\''};
const MOST_IN_A_LABEL = 80;
const MOST_TRIANGULATIONS = 200000; // fewer fit into an input

// the permutations of four vertices in Regina's order, in which even and odd ones alternate
const PERMUTATIONS = ['0123', '0132', '0231', '0213', '0312', '0321', '1032', '1023', '1203', '1230', '1320', '1302',
    '2013', '2031', '2130', '2103', '2301', '2310', '3021', '3012', '3102', '3120', '3210', '3201'];

/** The text cannot be read as what it claims to be. */
export class Unreadable extends Error {}

const attributes_of = (text) => Object.fromEntries([...text.matchAll(ATTRIBUTE)].map(([, name, value]) => [name, value.replace(/&(\w+);/g, (all, word) => CHARACTERS[word] ?? all)]));

/** A label as the text of a comment: letters lose their accents. */
const label_of = (text) => String(text ?? '').normalize('NFKD').replace(/[\u0300-\u036f]/g, '').replace(/[^\x20-\x7e]+/g, ' ').trim().slice(0, MOST_IN_A_LABEL);

/** Where a regular expression matches at a place of a text: the match, or null. */
function match_at(expression, text, place) {
    expression.lastIndex = place;
    return expression.exec(text);
}

/** Where the head of an element that has begun at a place of a text ends: at its `>`, or -1 if it has none. */
function end_of_head(text, place) {
    for (let at = place; ;) {
        NO_END.lastIndex = at;
        NO_END.test(text);
        at = NO_END.lastIndex;
        if (text[at] === '>') return at;
        const closing = text[at] === '"' ? text.indexOf('"', at + 1) : -1;
        if (closing < 0) return -1;
        at = closing + 1;
    }
}

/** The text from a place of a text of XML to the next element, without comments. */
function content_at(text, place) {
    const parts = [];
    for (let from = place, end; from >= 0; from = text.startsWith(COMMENT, end) ? text.indexOf('-->', end) + 3 || -1 : -1) {
        end = text.indexOf('<', from);
        if (end < 0) end = text.length;
        parts.push(text.slice(from, end));
    }
    return parts.join('');
}

/** The elements of some names of a text of XML, as {closes, name, settings, is_empty, at}; `at` is where their content begins. */
function* elements_of(text, names) {
    for (let from = text.indexOf('<'); from >= 0;) {
        if (text.startsWith(COMMENT, from)) {
            const end = text.indexOf('-->', from);
            from = end < 0 ? -1 : text.indexOf('<', end);
            continue;
        }
        const [head, closes, name] = match_at(NAME, text, from + 1) ?? [''], begin = from + 1 + head.length, end = name ? end_of_head(text, begin) : -1;
        if (end >= 0 && names.has(name)) {
            const is_empty = text[end - 1] === '/';
            yield {closes, name, settings: text.slice(begin, end), is_empty, at: end + 1};
        }
        from = text.indexOf('<', end < 0 ? from + 1 : end);
    }
}

/** The images of a permutation that a file of Regina gives as a number: its index, or two bits for each image. */
function permutation(number, is_index) {
    const images = is_index ? PERMUTATIONS[number] : [0, 2, 4, 6].map((shift) => (number >> shift) & 3).join('');
    if (!PERMUTATIONS.includes(images)) throw new Unreadable(`${number} is not the number of a permutation`);
    return images;
}

/** A row of a gluing table from the numbers of a tetrahedron: a neighbour and a permutation for each face. */
function row_of(text, is_index) {
    const numbers = text.trim().split(/\s+/).map(Number);
    if (numbers.length !== 8 || !numbers.every(Number.isInteger)) throw new Unreadable('a tetrahedron does not have eight whole numbers');
    return [0, 2, 4, 6].map((place) => (numbers[place] < 0 ? '-' : `${numbers[place]}:${permutation(numbers[place + 1], is_index)}`)).join(' ');
}

const ELEMENTS_OF_REGINA = new Set(['packet', 'tri', 'tetrahedra', 'simplex', 'tet', 'snappeadata', 'snappea']); // those that are read

/** What an element of a Regina file begins: a triangulation {label, is_index, rows}, or nothing. */
function triangulation_at(name, attributes, label) {
    if (name === 'tri' && attributes.dim === '3') return {label: attributes.label, is_index: attributes.perm === 'index', rows: []};
    if (name === 'tetrahedra') return {label, is_index: false, rows: []};
    return null;
}

/** The triangulations of a Regina file, each as {label, rows}.
 * @returns {any[]} */
function of_regina(text) {
    const found = [], open = [];
    let label = '';
    for (const {closes, name, settings, is_empty, at} of elements_of(text, ELEMENTS_OF_REGINA)) {
        if (closes) {
            if (open.at(-1)?.name === name) open.pop();
            continue;
        }
        const attributes = attributes_of(settings);
        if (name === 'packet') label = attributes.label;
        const triangulation = triangulation_at(name, attributes, label);
        if (triangulation) found.push(triangulation);
        if (['tri', 'tetrahedra'].includes(name) && !is_empty) open.push({name, triangulation});
        if (['simplex', 'tet'].includes(name) && open.at(-1)?.triangulation) open.at(-1).triangulation.rows.push(row_of(content_at(text, at), open.at(-1).triangulation.is_index));
        // an empty one has no triangulation
        if (['snappeadata', 'snappea'].includes(name) && content_at(text, at).trim()) found.push({...of_snappea(content_at(text, at)), label: name === 'snappea' ? label : attributes.label});
        if (found.length > MOST_TRIANGULATIONS) throw new Unreadable(`it has more than ${MOST_TRIANGULATIONS.toLocaleString('en')} triangulations`);
    }
    return found;
}

const CURVES = 64; // numbers of a tetrahedron for meridians and longitudes
const A_TETRAHEDRON = 4 + 4 + 4 + CURVES + 2;
const MOST_TETRAHEDRA_READ = 40000; // fewer fit into an input
const MOST_LINES_OF_HEAD = 1000;
const LINE = /[^\n]*\n?/y;
const WORD = /\s*(\S+)/y;

/** The lines of a text from a place on, as {line, end}, until one is empty at the end of the text. */
function* lines_from(text, place) {
    for (let at = place; at < text.length; at = LINE.lastIndex) {
        const [line] = match_at(LINE, text, at);
        yield {line: line.trim(), end: at + line.length};
        LINE.lastIndex = at + line.length;
    }
}

/** What of a SnapPea file is before the tetrahedra: the name, how many cusps have Dehn fillings, and where it ends. */
function head_of_snappea(text) {
    let number = -1, label = '', cusps = null, filled = 0, end = 0;
    for (const {line, end: here} of lines_from(text, 0)) {
        if (cusps === 0) break;
        number++;
        end = here;
        if (number === 1) label = line;
        if (cusps !== null) {
            cusps--;
            filled += line.split(/\s+/, 3).slice(1).some((word) => Number(word) !== 0) ? 1 : 0;
        } else if (number > 1 && /^\d+\s+\d+$/.test(line)) cusps = line.split(/\s+/).reduce((sum, word) => sum + Number(word), 0);
        else if (number > MOST_LINES_OF_HEAD) break;
    }
    if (cusps === null) throw new Unreadable('the numbers of cusps are missing');
    return {label, filled, end};
}

/** The triangulation of a SnapPea file as {label, rows, filled}: `filled` counts the cusps that have Dehn fillings. */
function of_snappea(text) {
    const begin = text.trimStart(), {label, filled, end} = head_of_snappea(begin), rows = [];
    let at = end;
    const next_word = () => {
        const found = match_at(WORD, begin, at);
        if (!found) throw new Unreadable('the file ends before its last tetrahedron');
        at = WORD.lastIndex;
        return found[1];
    };
    const count = next_word(), size = Number(count);
    if (!/^\d+$/.test(count)) throw new Unreadable('the file ends before its last tetrahedron');
    if (size > MOST_TETRAHEDRA_READ) throw new Unreadable(`it has more than ${MOST_TETRAHEDRA_READ.toLocaleString('en')} tetrahedra`);
    for (let number = 0; number < size; number++) {
        const words = Array.from({length: A_TETRAHEDRON}, next_word), [neighbours, images] = [words.slice(0, 4), words.slice(4, 8)];
        if (!neighbours.every((word) => /^\d+$/.test(word)) || !images.every((word) => PERMUTATIONS.includes(word))) throw new Unreadable(`tetrahedron ${number} has no gluings`);
        rows.push(neighbours.map((word, face) => `${word}:${images[face]}`).join(' '));
    }
    return {label, rows, filled};
}

/** Triangulations as a text of at most `most` characters: {text, count}, with how many of them are in it. */
function text_of_triangulations(triangulations, most) {
    const parts = [];
    let length = 0;
    for (const {label, rows} of triangulations) {
        const part = `${label_of(label) ? `# ${label_of(label)}\n` : ''}tri ${rows.length}\n${rows.map((row) => `${row}\n`).join('')}`;
        length += part.length;
        if (length > most) break;
        parts.push(part);
    }
    return {text: parts.join(''), count: parts.length};
}

const IS_REGINA = /^\s*(<\?xml[^>]*>\s*)?<regina(data)?[\s>]/;
const IS_SNAPPEA = /^\s*%\s*Triangulation\b/;

/** The program whose files begin so, or null. */
export function program_of(text) {
    if (IS_REGINA.test(text)) return 'Regina';
    return IS_SNAPPEA.test(text) ? 'SnapPea' : null;
}

/**
 * A text of another program as gluing tables: {text, notes}, or null if it is none. The text has at most `most` characters.
 * Throws `Unreadable` if it is one and cannot be read.
 */
export function from_other_program(text, most) {
    const program = program_of(text);
    if (!program) return null;
    const triangulations = program === 'Regina' ? of_regina(text) : [of_snappea(text)];
    if (!triangulations.length) throw new Unreadable('it has no triangulation of dimension 3');
    const tables = text_of_triangulations(triangulations, most), all = triangulations.length;
    const first = tables.count < all ? `, of which the first ${tables.count} fit into an input` : '';
    const filled = triangulations.reduce((sum, one) => sum + (one.filled ?? 0), 0);
    const fillings = filled ? [`the Dehn fillings of ${plural(filled, 'cusp')} are ignored`] : [];
    return {text: tables.text, notes: [`read as ${plural(all, 'triangulation')} of a ${program} file${first}`, ...fillings]};
}
