// What of an input is changed before it is asked: signatures without the word `sig` or with SnapPy's decoration, names of
// manifolds, and files of other programs. Each change is told, and the text that is asked can be seen.
import {MOST_INPUT} from './engine.js';
import {Unreadable, from_other_program} from './foreign.js';

const SIGNATURE = /^[ \t]*(?:sig[ \t]+)?([A-Za-z0-9+-]+)(_[A-Za-z0-9+-]*)?((?:\([-0-9.]+,[-0-9.]+\))*)[ \t]*\r?$/;
// names of manifolds, with or without Dehn fillings; a lens space without a known name is one too, and no signature
const MANIFOLD = /^([mstvxyo][0-9][0-9]+|[1-9][0-9]*_[0-9]+|[KL][0-9]+[an][0-9]+|[Ll](?=\())(\([-0-9.,]*\))*$/;
const WORDS = ['sig', 'tri', 'vec', 'cone', 'undo', 'redo']; // of inputs, which are no signatures
const MOST_IN_A_NAME_OF_MANIFOLD = 80; // characters
const TABLES = {table: Infinity, tables: Infinity, 'two-tables': 2, cone: 0, none: 0}; // the others read one

/** Names as they are compared: without case, and without spaces. */
const plain_name = (name) => name.replace(/\s+/g, '').toLowerCase();

const LENS_SPACE = /^l\((\d{1,3}),(-?\d{1,3})\)$/;
const remainder = (number, p) => ((number % p) + p) % p;

/** The name of a lens space with q from 0 to p - 1; another name as it is. Names are plain. */
function reduced_name(name) {
    const [, p, q] = name.match(LENS_SPACE)?.map(Number) ?? [];
    return p ? `l(${p},${remainder(q, p)})` : name;
}

/** The reduced names of what a plain name names. Lens spaces are homeomorphic for q, -q and their inverses modulo p. */
function all_names(name) {
    const [, p, q] = name.match(LENS_SPACE)?.map(Number) ?? [];
    if (!p) return [name];
    const is_same = (other) => [remainder(q, p), remainder(-q, p)].includes(other) || [1, p - 1].includes(remainder(other * q, p));
    return Array.from({length: p}, (_, other) => other).filter(is_same).map((other) => `l(${p},${other})`);
}

/** The names of manifolds that are known. */
export class Names {
    /** data: that of names.json */
    constructor({families}) {
        const entries = families.flatMap(({means, names}) => Object.entries(names).map(([name, signature]) => ({name, signature, means})));
        this.known = new Map(entries.flatMap((entry) => all_names(plain_name(entry.name)).map((name) => [name, entry])));
        for (const entry of entries) this.known.set(reduced_name(plain_name(entry.name)), entry);
    }

    /** What a name names: {name, signature, means}, or undefined if it is unknown. */
    find(text) {
        return text.length > MOST_IN_A_NAME_OF_MANIFOLD ? undefined : this.known.get(reduced_name(plain_name(text)));
    }
}

/** What a name means. */
function note_on(text, {name, means}) {
    return plain_name(text) === plain_name(name) ? `\`${name}\` is ${means}` : `\`${text}\` is \`${name}\`, ${means}`;
}

/** A line as it is asked: {line, notes}, or null if it stays as it is. */
function understood_line(line, names) {
    const named = names.find(line.trim());
    if (named) return {line: `sig ${named.signature}`, is_named: true, notes: [note_on(line.trim(), named)]};
    const [, signature, decoration, fillings] = line.match(SIGNATURE) ?? [];
    if (signature === undefined || MANIFOLD.test(line.trim()) || WORDS.includes(signature)) return null;
    const asked = `sig ${signature}`;
    if (asked === line.trim()) return {line, notes: []};
    return {line: asked, notes: [decoration && 'the decoration was left out', fillings && 'the Dehn fillings were left out'].filter(Boolean), is_changed: true};
}

/** Whether a line is blank or a comment. */
const is_blank = (words) => words[0] === '' || words[0].startsWith('#');

/** The lines of an input with those of its triangulations changed: {lines, changed, tables, is_list}. */
function understood_lines(input, reads, names) {
    const lines = input.split('\n'), changed = [], tables = [];
    let left = TABLES[reads] ?? 1, rows = 0, comment = '', is_list = true;
    for (const [number, line] of lines.entries()) {
        const words = line === '' ? [''] : line.trim().split(/[ \t]+/, 2);
        if (is_blank(words)) {
            if (rows === 0 && words[0] !== '') comment = line.trim().slice(1).trim();
            continue;
        }
        if (rows > 0) {
            rows--;
            tables.at(-1).lines.push(line);
        } else if (left-- <= 0) {
            is_list = false;
            break;
        } else {
            const other = words[0] === 'tri' ? null : understood_line(line, names);
            if (other?.notes.length || other?.is_changed) changed.push(other);
            if (!other && words[0] !== 'tri') is_list = false;
            lines[number] = other?.line ?? line;
            rows = words[0] === 'tri' ? Number(words[1]) || 0 : 0;
            tables.push({label: other?.is_named ? line.trim() : comment, lines: [lines[number]]});
            comment = '';
        }
    }
    return {lines, changed, tables, is_list: is_list && reads === 'table' && tables.length > 1};
}

function notes_on(changed) {
    if (!changed.length) return [];
    const notes = [...new Set(changed.flatMap((one) => one.notes))], [{line}] = changed;
    const read = changed.length === 1 ? `read as \`${line}\`` : `${changed.length} lines were read as signatures, the first as \`${line}\``;
    return [read, ...(changed.length > 3 ? notes.filter((note) => !note.startsWith('`')) : notes)];
}

/** An input without what is around its triangulations in the file of another program: {input, notes, is_refused}. */
function translated(input) {
    try {
        const {text, notes} = from_other_program(input, MOST_INPUT) ?? {text: input, notes: []};
        return {input: text, notes, is_refused: false};
    } catch (fault) {
        if (!(fault instanceof Unreadable)) throw fault;
        return {input, notes: [`it was not read as a file of another program: ${fault.message}`], is_refused: true};
    }
}

/**
 * An input as it is asked, for a command that reads so: {input, notes, tables}. `notes` say what was changed. `tables` are
 * the triangulations {label, text} if there are several of them and the command reads one; else it is null.
 */
export function understood(text, reads, names) {
    if (['none', 'cone'].includes(reads)) return {input: text, notes: [], tables: null};
    const {input, notes, is_refused} = translated(text);
    if (is_refused) return {input, notes, tables: null};
    const {lines, changed, tables, is_list} = understood_lines(input, reads, names);
    const several = is_list ? tables.map(({label, lines: own}) => ({label, text: `${own.join('\n')}\n`})) : null;
    return {input: lines.join('\n'), notes: [...notes, ...notes_on(changed)], tables: several};
}
