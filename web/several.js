// One question about each of several triangulations, as a table with a row for each.
import {make} from './elements.js';
import {kind_of} from './kinds.js';
import {LongTable} from './long_table.js';
import {described, part_length, zero_efficiency} from './questions.js';
import {coordinates_of, name_of, plural, read_info} from './texts.js';

const MOST_IN_A_CELL = 100; // characters of an answer

/** What is wrong, as the program says it. */
const refused = ({status, text}) => text.replace(/^refused: /, '').trim() || `status ${status}`;

const KINDS = {spheres: 'sphere', 'projective planes': 'projective plane', tori: 'torus', 'Klein bottles': 'Klein bottle', discs: 'disc'};

/** The numbers of listed surfaces: all, those of some kinds, one-sided ones, and vertex links. */
async function counts_of_surfaces(ask, words, input) {
    const listed = await ask(words, input);
    if (listed.status !== 0) return {why: refused(listed)};
    const lines = listed.vectors(), coordinates = coordinates_of(words), counts = new Map();
    const count = (name) => counts.set(name, (counts.get(name) ?? 0) + 1);
    for (let from = 0, length; from < lines.length; from += length) {
        length = part_length(lines, from);
        for (const surface of await described(ask, input, lines.slice(from, from + length), coordinates)) {
            count(surface.why ? 'refused' : name_of(surface));
            if (surface.components?.some(({sides}) => sides === 'one')) count('one-sided');
            if (surface.linking) count('vertex linking');
        }
    }
    return {cells: [lines.length, ...[...Object.values(KINDS), 'one-sided', 'vertex linking', 'refused'].map((name) => counts.get(name) ?? 0)]};
}

async function info_of(ask, words, input) {
    const answer = await ask(words, input);
    if (answer.status !== 0) return {why: refused(answer)};
    const info = read_info(answer.text), kind = kind_of(info);
    return {cells: [info.vertices.length, info.edges.length, kind.name, kind.is_orientable ? 'yes' : 'no', kind.is_connected ? 'yes' : 'no', kind.invalid.length]};
}

async function efficiency_of(ask, words, input) {
    const verdict = await zero_efficiency(ask, input, () => {});
    if (verdict.outcome) return {why: refused(verdict.outcome)};
    const {count, contrary, info} = verdict;
    return {cells: [kind_of(info).name, count, contrary ? 'no' : 'yes', contrary ? `surface ${contrary.index}: ${name_of(contrary)}` : '']};
}

async function text_of_answer(ask, words, input) {
    const answer = await ask(words, input), [first, ...others] = answer.text.trim().split('\n');
    if (answer.status !== 0) return {why: refused(answer)};
    const more = others.length ? ` … (${plural(others.length + 1, 'line')})` : '';
    return {cells: [`${first.slice(0, MOST_IN_A_CELL)}${first.length > MOST_IN_A_CELL ? '…' : ''}${more}`]};
}

const number = (name, word) => ({name, word, is_number: true});

/** The columns of each question, and what fills them. */
const SUMMARIES = {
    surfaces: {columns: [number('surfaces'), ...Object.keys(KINDS).map((name) => number(name)), number('one-sided', 'sides'), number('vertex linking', 'vertex linking'), number('refused')], summary: counts_of_surfaces},
    info: {columns: [number('vertices'), number('edges'), {name: 'kind'}, {name: 'orientable', word: 'orientable'}, {name: 'connected'}, number('invalid edges', 'valid')], summary: info_of},
    '0-efficient': {columns: [{name: 'kind'}, number('surfaces'), {name: 'positive ones are vertex links', word: 'vertex linking'}, {name: 'the first that is not'}], summary: efficiency_of},
};
const TEXT = {columns: [{name: 'result'}], summary: text_of_answer};

/** The columns of the table. A record is {index, label, text, cells, why}. */
function columns_of_several(columns) {
    const own = columns.map((column, place) => ({...column, key: ({cells}) => cells?.[place] ?? (column.is_number ? Infinity : '')}));
    return [{name: '#', is_number: true, key: ({index}) => index}, {name: 'triangulation', key: ({label}) => label}, {name: '', label: 'alone', type: 'draw'}, ...own];
}

/** Several triangulations and what is asked of each. */
export class SeveralList {
    tables; words; context; columns; summary; records;

    /** tables: {label, text} each; words: the question's; context: as `view_of` has it */
    constructor({tables, words, context}) {
        const {columns, summary} = SUMMARIES[words[0]] ?? TEXT;
        Object.assign(this, {tables, words, context, columns, summary, records: []});
        this.table = new LongTable('Triangulations', columns_of_several(columns), (record) => this.cells(record));
        this.progress = make('progress', {max: tables.length, value: 0, ariaLabel: 'Triangulations done'});
        this.part = make('p', {className: 'soft', id: 'part'});
        this.more = make('button', {type: 'button', id: 'more', hidden: true, onclick: () => context.busy(() => this.describe_rest())}, 'Continue');
    }

    cells(record) {
        const {index, label, text, cells, why} = record, options = this.context.options;
        const alone = make('button', {type: 'button', ariaLabel: `Ask about ${label} alone`, onclick: () => this.context.follow(this.words[0], options, text)}, 'Ask');
        const own = cells ?? [why, ...this.columns.slice(1).map(() => '')];
        return [index, label, alone, ...own].map(String).map((cell, place) => (place === 2 ? alone : cell));
    }

    /** Asks about all that are left. It can be stopped, and be called again. */
    async describe_rest() {
        this.more.hidden = true;
        try {
            while (this.records.length < this.tables.length) await this.ask_next();
        } finally {
            this.more.hidden = this.records.length === this.tables.length;
            this.table.settle();
        }
    }

    async ask_next() {
        const index = this.records.length, {label, text} = this.tables[index];
        const record = {index, label: label || first_words(text), text, ...await this.summary(this.context.ask, this.words, text)};
        this.records.push(record);
        this.table.add([record]);
        this.say();
    }

    say() {
        const done = this.records.length, all = this.tables.length;
        this.part.textContent = done < all ? `${done} of ${all}` : plural(all, 'triangulation');
        Object.assign(this.progress, {value: done, hidden: done === all});
    }

    /** The rows as lists of texts, with the heads. */
    rows() {
        const heads = ['index', 'triangulation', ...this.columns.map(({name}) => name)];
        return [heads, ...this.table.shown.map(({index, label, cells, why}) => [index, label, ...(cells ?? [why])])];
    }

    elements() {
        this.say();
        return [this.part, this.progress, this.more, this.table.element];
    }
}

/** A triangulation in a few words: its signature, or its number of tetrahedra. */
function first_words(text) {
    const [form, word] = text.trim().split(/\s+/);
    return form === 'sig' ? word : `tri ${word}`;
}
