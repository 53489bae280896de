// Reads the texts of the program: its table of commands, its inputs as far as a page needs them, and its answers.

/** What a command reads, in words, by the third field of its row in the table of commands. */
export const INPUTS = {
    table: 'a triangulation: sig SIGNATURE, or tri N and N rows',
    tables: 'any number of triangulations',
    'two-tables': 'two triangulations',
    vector: 'a triangulation, then one line vec ..',
    vectors: 'a triangulation, then lines vec ..',
    blocks: 'a triangulation, then the sums that decompose prints',
    steps: 'a triangulation, then moves, undo or redo',
    moves: 'a triangulation, then moves',
    cone: 'cone COLUMNS ROWS, then the rows',
    none: 'no input',
};

/** A number with its noun. */
export const plural = (count, one, more = `${one}s`) => `${count} ${count === 1 ? one : more}`;

const lines_of = (text) => text.replace(/\n$/, '').split('\n');
const is_yes = (word) => word === 'yes';

/** An option of a command: its values, or the least and greatest number, and whether it must be there. */
function option(spelled) {
    const [, name, sign, values] = spelled.match(/^([\w-]+)([=!])(.*)$/);
    const range = values.split('..');
    return {name, is_needed: sign === '!', values: range.length > 1 ? [] : values.split('|'), range: range.length > 1 ? range : []};
}

/** The commands by name, each with what it reads, its options, and what it prints. */
export function read_commands(text) {
    const rows = lines_of(text).filter((line) => line && !line.startsWith('#')).map((line) => line.split('\t'));
    return new Map(rows.map(([name, reads, options, , about]) => [name, {reads, about, options: options === '-' ? [] : options.split(' ').map(option)}]));
}

/** Whether a line is blank or a comment. */
const is_skipped = (line) => /^[ \t]*(#|\r?$)/.test(line);

/** The text of the first triangulation of an input that a command has read. */
export function first_table(text) {
    const lines = text.split('\n').filter((line) => !is_skipped(line));
    const [form, count] = (lines[0] ?? '').trim().split(/[ \t]+/);
    return `${lines.slice(0, form === 'tri' ? 1 + Number(count) : 1).join('\n')}\n`;
}

/** The rows of the table of an input `tri N`, each as its entries. */
export const read_rows = (text) => text.split('\n').filter((line) => !is_skipped(line)).slice(1).map((line) => line.trim().split(/[ \t]+/));

/** The glued pairs of faces of a printed table, each once and the lesser first; its size, and which tetrahedra have
 *  boundary faces. */
export function read_table(text) {
    const rows = lines_of(text).slice(1).map((line) => line.split(' '));
    const pairs = [];
    rows.forEach((row, tetrahedron) => row.forEach((entry, face) => {
        if (entry === '-') return;
        const [reached, images] = entry.split(':');
        const other = Number(reached), other_face = Number(images[face]);
        if (tetrahedron < other || (tetrahedron === other && face < other_face)) pairs.push({tetrahedron, face, other, other_face});
    }));
    const boundary = rows.map((row) => row.filter((entry) => entry === '-').length);
    return {size: rows.length, pairs, boundary};
}

const LINE_FEED = 10, SPACE = 32, ZERO = 48;
const VEC = [0x76, 0x65, 0x63];
const is_vector = (bytes, at) => VEC.every((byte, place) => bytes[at + place] === byte);
const is_digit = (byte) => byte >= ZERO && byte < ZERO + 10;

/** The vectors of an answer as its lines. The answer is kept as its bytes. */
export class VectorLines {
    answer; starts; ends; length;

    /** answer: its bytes */
    constructor(answer) {
        const starts = [], ends = [];
        for (let at = 0, end; at < answer.length; at = end + 1) {
            end = answer.indexOf(LINE_FEED, at);
            if (end < 0) end = answer.length;
            if (!is_vector(answer, at)) continue;
            starts.push(at);
            ends.push(end);
        }
        Object.assign(this, {answer, starts: Uint32Array.from(starts), ends: Uint32Array.from(ends), length: starts.length});
    }

    /** The line of an index. */
    at(index) {
        return new TextDecoder().decode(this.answer.subarray(this.starts[index], this.ends[index]));
    }

    /** The lines from an index to another one. */
    slice(from, to) {
        return Array.from({length: to - from}, (_, number) => this.at(from + number));
    }

    /** The bytes of the answer. */
    bytes() {
        return this.answer;
    }

    /** At least the first `most` bytes of the answer. */
    first(most) {
        return this.answer.subarray(0, most);
    }
}

/** Where the first vector of an answer begins; its end if there is none. */
function first_vector(answer) {
    let at = 0;
    while (at < answer.length && !is_vector(answer, at)) at = (answer.indexOf(LINE_FEED, at) + 1) || answer.length;
    return at;
}

/** How many vectors an answer has from a place on, and how many half bytes they take; null if it has there anything else. */
function packed_counts(answer, begin) {
    let vectors = 0, halves = 0;
    for (let at = begin; at < answer.length; at++) {
        if (!is_vector(answer, at)) return null;
        at += VEC.length;
        while (answer[at] === SPACE && is_digit(answer[at + 1])) {
            for (at += 2; is_digit(answer[at]); at++) halves += 2;
            halves++;
        }
        if (answer[at] !== LINE_FEED) return null;
        vectors++;
    }
    return vectors ? {vectors, halves} : null;
}

const MORE = 10; // half a byte before each digit but the last one of an entry

/**
 * The vectors of an answer that has nothing else after its head, as its lines. They are kept packed, since a list can have a
 * hundred thousand of them: a digit that ends an entry takes half a byte, and another one takes a byte.
 */
export class PackedLines {
    head; halves; starts; length; size;

    /** answer: its bytes; begin: where its first vector does; counts: how many vectors and half bytes there are */
    constructor(answer, begin, {vectors, halves}) {
        Object.assign(this, {head: answer.slice(0, begin), halves: new Uint8Array((halves + 1) >> 1), starts: new Uint32Array(vectors + 1), length: vectors, size: answer.length});
        let half = 0, index = 0;
        for (let at = begin; at < answer.length; at++) {
            for (at += VEC.length; answer[at] !== LINE_FEED; at++) {
                for (at++; is_digit(answer[at + 1]); at++) {
                    this.put(half++, MORE);
                    this.put(half++, answer[at] - ZERO);
                }
                this.put(half++, answer[at] - ZERO);
            }
            this.starts[++index] = half;
        }
    }

    put(half, value) {
        this.halves[half >> 1] |= half & 1 ? value << 4 : value;
    }

    half(half) {
        return half & 1 ? this.halves[half >> 1] >> 4 : this.halves[half >> 1] & 15;
    }

    /** Writes the line of an index, with its end, from a place on. Returns the place after it. */
    write(index, into, place) {
        into.set(VEC, place);
        let at = place + VEC.length;
        for (let half = this.starts[index]; half < this.starts[index + 1]; half++) {
            into[at++] = SPACE;
            for (; this.half(half) === MORE; half += 2) into[at++] = ZERO + this.half(half + 1);
            into[at++] = ZERO + this.half(half);
        }
        into[at] = LINE_FEED;
        return at + 1;
    }

    /** The bytes of the line of an index, with its end. */
    line(index) {
        const into = new Uint8Array(VEC.length + 1 + 2 * (this.starts[index + 1] - this.starts[index]));
        return into.subarray(0, this.write(index, into, 0));
    }

    /** The line of an index. */
    at(index) {
        return new TextDecoder().decode(this.line(index).subarray(0, -1));
    }

    /** The lines from an index to another one. */
    slice(from, to) {
        return Array.from({length: to - from}, (_, number) => this.at(from + number));
    }

    /** The bytes of the answer. */
    bytes() {
        const into = new Uint8Array(this.size);
        into.set(this.head);
        for (let index = 0, at = this.head.length; index < this.length; index++) at = this.write(index, into, at);
        return into;
    }

    /** At least the first `most` bytes of the answer. */
    first(most) {
        const parts = [...this.head];
        for (let index = 0; index < this.length && parts.length < most; index++) parts.push(...this.line(index));
        return Uint8Array.from(parts);
    }
}

/** The vectors of an answer, given as its bytes, as lines. */
export function vectors_of(answer) {
    const begin = first_vector(answer), counts = packed_counts(answer, begin);
    return counts ? new PackedLines(answer, begin, counts) : new VectorLines(answer);
}

/** The entries of a line `vec ..`, as words: they may exceed what a number of JavaScript can hold. */
export const entries_of = (line) => line.split(' ').slice(1);

const MOST_FACTS = 8; // words before the vector of a line

/** What an answer of `describe` says of its surfaces, without their vectors. */
export function read_descriptions(text) {
    const surfaces = [];
    for (const line of lines_of(text)) {
        const words = line.split(' ', MOST_FACTS), last = surfaces.at(-1);
        if (words[0] === 'vec') surfaces.push({components: []});
        else if (words[0] === 'euler') Object.assign(last, {euler: Number(words[1]), linking: is_yes(words[3]), boundary: is_yes(words[5])});
        else if (words[0] === 'component') last.components.push({euler: Number(words[2]), sides: words[4], orientable: is_yes(words[6])});
    }
    return surfaces;
}

/** An answer of `info`: its facts as pairs of words, and the rows of its vertices and edges. */
export function read_info(text) {
    const facts = [], vertices = [], edges = [];
    for (const line of lines_of(text)) {
        const words = line.split(' ');
        if (words[0] === 'vertex') vertices.push({number: words[1], degree: words[3], euler: words[5], closed: words[7], kind: words[9]});
        else if (words[0] === 'edge') edges.push({number: words[1], degree: words[3], place: words[5], valid: words[7]});
        else facts.push(words);
    }
    return {facts, vertices, edges};
}

/** The name of a connected surface by the classification of surfaces. With boundary the Euler characteristic names three. */
function name_of_component({euler, orientable}, has_boundary) {
    if (has_boundary) {
        if (euler === 1) return 'disc';
        if (euler === 0) return orientable ? 'annulus' : 'Möbius band';
        return `surface with boundary, χ = ${euler}`;
    }
    if (orientable) return ['sphere', 'torus'][(2 - euler) / 2] ?? `orientable surface of genus ${(2 - euler) / 2}`;
    return [undefined, 'projective plane', 'Klein bottle'][2 - euler] ?? `non-orientable surface of genus ${2 - euler}`;
}

/** The name of a surface that `describe` has described. */
export function name_of(surface) {
    const {components, boundary} = surface;
    return components.length === 1 ? name_of_component(components[0], boundary) : `${components.length} components`;
}

/** How many columns a tetrahedron has for triangles, quads and octagons. */
export const SHAPES = {standard: [4, 3], quad: [0, 3], octagon: [4, 3, 3]};

/** The entries of a vector by tetrahedron, and there by triangles, quads and octagons. */
export function by_tetrahedron(entries, coordinates) {
    const counts = SHAPES[coordinates], width = counts.reduce((sum, count) => sum + count, 0), tetrahedra = [];
    for (let at = 0; at < entries.length; at += width) {
        let from = at;
        tetrahedra.push(counts.map((count) => entries.slice(from, from += count)));
    }
    return tetrahedra;
}

/** The coordinates of a question, by its words. */
export const coordinates_of = (words) => words[words.indexOf('--coords') + 1 || words.length] ?? 'standard';
