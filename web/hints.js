// What a refusal most likely means, by the rows of hints.txt, which the package and the launcher read too: that file says
// what its fields are.

const WIDTHS = {standard: 7, quad: 3, octagon: 10};

/** The rows of hints.txt. */
export function read_hints(text) {
    const rows = text.split('\n').filter((line) => line && !line.startsWith('#')).map((line) => line.split('\t'));
    return rows.map(([status, commands, kind, condition, sentence]) => ({status: Number(status), commands: commands.split(','), kind: kind.split(' '), condition, sentence}));
}

/** The words of a refusal without its numbers, and these. */
function parts_of(refusal) {
    const words = refusal.replace(/^refused: /, '').trim().split(' ');
    if (words[0] === 'large') return {kind: ['large', words.includes('value') ? 'value' : 'pair'], numbers: []};
    if (words[1] === 'not-standard') return {kind: words.slice(0, 2), numbers: words.slice(2)};
    return {kind: words.filter((word) => !/^\d+$/.test(word)), numbers: words.filter((word) => /^\d+$/.test(word))};
}

/** The state after a line of an input, as launcher/fault.awk has them: what the next line is. */
function after(state, words, reader) {
    const after_table = () => {
        reader.tables++;
        if (reader.reads === 'table' || (reader.reads === 'two-tables' && reader.tables === 2)) return 'end';
        return ['tables', 'two-tables'].includes(reader.reads) ? 'table' : reader.reads;
    };
    const counted = (same, next) => (--reader.left > 0 ? same : next);
    switch (state) {
        case 'table': reader.left = words[0] === 'tri' ? Number(words[1]) : 0; return reader.left > 0 ? 'row' : after_table();
        case 'row': return --reader.left > 0 ? 'row' : after_table();
        case 'vector': return 'end';
        case 'blocks': return 'times';
        case 'times': reader.left = Number(words[2]); return reader.left > 0 ? 'term' : 'blocks';
        case 'term': return counted('term', 'blocks');
        case 'cone': reader.left = Number(words[1]) > 0 ? Number(words[2]) : 0; return reader.left > 0 ? 'cone-row' : 'end';
        case 'cone-row': return counted('cone-row', 'end');
        default: return state;
    }
}

/** Where a fault of the text is: the state of its line, and the number of its word from 1. */
function place_of(text, line, column, reads) {
    const reader = {reads, tables: 0, left: 0}, lines = text.split('\n');
    let state = reads === 'cone' ? 'cone' : 'table';
    for (const skipped of lines.slice(0, line - 1)) {
        const words = skipped.replace(/\r$/, '').split(/[ \t]+/).filter(Boolean);
        if (words.length && !words[0].startsWith('#')) state = after(state, words, reader);
    }
    const faulty = lines[line - 1] ?? '', before = faulty.slice(0, column - 1).split(/[ \t]+/).filter(Boolean);
    const first = faulty.split(/[ \t]+/).filter(Boolean)[0];
    if (state === 'table' && ['tri', 'sig'].includes(first)) state = first;
    if (state === 'vectors' || state === 'blocks') state = 'vector';
    return {state, number: before.length + 1, word: faulty.slice(column - 1).split(/\s/)[0]};
}

/** The word of the first signature that looks wrong: with a mark that no signature has, else the first one. */
function signature_in(text) {
    const words = text.split('\n').filter((line) => /^[ \t]*sig[ \t]/.test(line)).map((line) => line.trim().split(/[ \t]+/)[1] ?? '');
    return words.find((word) => /[^A-Za-z0-9+-]/.test(word)) ?? words[0] ?? '';
}

const begins = (bytes, starts) => {
    const spelled = [...bytes.slice(0, 8)].map((byte) => byte.toString(16).padStart(2, '0')).join('');
    return starts.split('|').some((start) => spelled.startsWith(start));
};

/** A sentence on a file by its first bytes; empty if no row is for them. */
export function hint_on_file(rows, bytes) {
    const row = rows.find(({condition}) => condition.startsWith('begins ') && begins(bytes, condition.slice(7)));
    return row?.sentence ?? '';
}

function fits(condition, text, place) {
    const [name, value, number] = condition.split(' ');
    if (name === 'begins') return begins(new TextEncoder().encode(text.slice(0, 8)), value);
    if (name === 'empty') return !text.split('\n').some((line) => line.trim() && !line.trim().startsWith('#'));
    if (name === 'at') return place.state === value && (number === undefined || place.number === Number(number));
    return name === 'word' && new RegExp(condition.slice(5)).test(place.word);
}

/**
 * A sentence on a refusal of a command; empty if no row fits.
 *
 * question: its status, the refusal as printed, the command and what it reads, its coordinates, and the input
 */
export function hint(rows, {status, refusal, command, reads, coordinates, input}) {
    const {kind, numbers} = parts_of(refusal), is_text = kind[0] === 'input';
    const place = is_text && numbers.length === 2 ? place_of(input, Number(numbers[0]), Number(numbers[1]), reads) : {word: kind[0] === 'signature' ? signature_in(input) : ''};
    const is_fitting = (row) => row.status === status && (row.commands[0] === '*' || row.commands.includes(command))
        && (row.kind[0] === '*' || row.kind.every((word, number) => kind[number] === word))
        && (row.condition === '-' || row.condition.split(' & ').every((condition) => fits(condition, input, place)));
    const row = rows.find(is_fitting);
    if (!row) return '';
    const [undecorated] = place.word.split('_');
    const values = {...numbers, command, coords: coordinates, width: WIDTHS[coordinates], word: place.word, undecorated, decoration: place.word.slice(undecorated.length)};
    const sentence = row.sentence.replace(/\{(\w+)\}/g, (_, name) => values[name] ?? '');
    return sentence;
}
