// A list of surfaces as a table: described by the proved code in parts, counted by kind, filtered, sorted, and drawn.
import {make} from './elements.js';
import {LongTable} from './long_table.js';
import {actions_on, surface_picture} from './next.js';
import {described, part_length} from './questions.js';
import {by_tetrahedron, entries_of, name_of, plural} from './texts.js';

const DISCS = {standard: 'triangles·quads by tetrahedron', quad: 'quads by tetrahedron', octagon: 'triangles·quads·octagons by tetrahedron'};
const RANK = 1e12; // more than a Euler characteristic that describe prints differs from 2
const LAST = 9e15;

/** Orders surfaces by kind, and by genus in each: closed ones, those with boundary, those of several components. */
function order_of({why, components, boundary}) {
    if (why) return LAST;
    if (components.length !== 1) return 4 * RANK + components.length;
    const [{euler, orientable}] = components;
    return RANK * ((boundary ? 2 : 0) + (orientable ? 0 : 1)) + 2 - euler;
}

/** The words of a property of all components: once if they agree. */
const of_all = (components, property) => [...new Set(components.map(property))].join(', ');
const yes_or_no = (value) => (value ? 'yes' : 'no');

/** A vector by tetrahedron: triangles, quads and octagons of each, with a dot between these. */
function vector_cell(line, coordinates) {
    const entries = entries_of(line), gap = entries.some((entry) => entry.length > 1) ? ' ' : '';
    const blocks = by_tetrahedron(entries, coordinates).map((parts) => parts.filter((part) => part.length).map((part) => part.join(gap)).join('·'));
    return make('span', {className: 'vector'}, blocks.join(' | '));
}

/** What is shown of a surface that `describe` has described, or of one that it refused. */
function facts_of(surface) {
    if (surface.why) return {name: surface.why, order: LAST, euler: '', sides: '', orientable: '', linking: '', boundary: '', components: ''};
    const {euler, components, linking, boundary} = surface;
    return {
        name: name_of(surface), order: order_of(surface), euler, sides: of_all(components, ({sides}) => sides), components: components.length,
        orientable: of_all(components, ({orientable}) => yes_or_no(orientable)), linking: yes_or_no(linking), boundary: yes_or_no(boundary), parts: components,
    };
}

/** The columns of the table. A record is the index of a surface, whose facts and vector are in the lists. */
function columns_of(coordinates, facts, lines) {
    /** @type {(property: string, last?: any) => any} */
    const by = (property, last = LAST) => (index) => (facts[index][property] === '' ? last : facts[index][property]);
    return [
        {name: '#', is_number: true, key: (index) => index}, {name: 'surface', key: by('order'), type: 'name'}, {name: '', label: 'what can be done', type: 'draw'},
        {name: 'χ', is_number: true, key: by('euler'), word: 'Euler characteristic'}, {name: 'sides', key: by('sides', ''), word: 'sides'},
        {name: 'orientable', key: by('orientable', ''), word: 'orientable'}, {name: 'union of vertex links', key: by('linking', ''), word: 'vertex linking'},
        {name: 'boundary', key: by('boundary', ''), word: 'boundary'}, {name: 'components', is_number: true, key: by('components'), word: 'component'},
        {name: DISCS[coordinates], key: (index) => lines.at(index), word: 'vector'},
    ];
}

/** The fields that choose which surfaces are shown. */
class Filter {
    constructor(on_change) {
        this.options = new Map();
        this.kind = make('select', {onchange: on_change}, make('option', {value: ''}, 'all'));
        this.one_sided = make('input', {type: 'checkbox', onchange: on_change});
        this.not_linking = make('input', {type: 'checkbox', onchange: on_change});
        this.euler = make('input', {inputMode: 'numeric', size: 5, pattern: '-?[0-9]*', placeholder: 'any', oninput: on_change});
        this.shown = make('output', {className: 'soft'});
        this.element = make('div', {className: 'row filter', role: 'group', ariaLabel: 'Show only'},
            make('label', {}, 'Show ', this.kind), make('label', {}, this.one_sided, ' one-sided'), make('label', {}, this.not_linking, ' not vertex linking'),
            make('label', {}, 'χ ', this.euler), this.shown);
    }

    /** Whether a surface with some facts is shown. */
    test() {
        const kind = this.kind.value, euler = /^-?\d+$/.test(this.euler.value.trim()) ? Number(this.euler.value) : null;
        const is_one_sided = this.one_sided.checked, is_no_link = this.not_linking.checked;
        return (about) => (!kind || about.name === kind) && (euler === null || about.euler === euler)
            && (!is_one_sided || about.parts?.some(({sides}) => sides === 'one')) && (!is_no_link || about.linking === 'no');
    }

    /** Offers the kinds that there are. A list that is open stays so: new kinds come last. */
    offer(kinds) {
        for (const [name, count] of kinds) {
            if (!this.options.has(name)) {
                this.options.set(name, make('option', {value: name}));
                this.kind.append(this.options.get(name));
            }
            this.options.get(name).textContent = `${name} (${count})`;
        }
    }

    say(shown, all) {
        this.shown.value = shown < all ? `${shown} of ${all}` : '';
    }
}

/** A list of surfaces. */
export class SurfaceList {
    lines; coordinates; noun; context; done; counts; known; facts;

    /** lines: vectors, as `vectors_of` returns them; noun: what one of them is; context: as `view_of` has it */
    constructor({lines, coordinates, noun, context}) {
        Object.assign(this, {lines, coordinates, noun, context, done: 0, counts: new Map(), known: new Map(), facts: []});
        this.table = new LongTable('Surfaces', columns_of(coordinates, this.facts, lines), (index) => this.cells(index));
        this.filter = new Filter(() => this.show_filtered());
        this.tally = make('p', {id: 'tally'});
        this.progress = make('progress', {max: lines.length, value: 0, ariaLabel: 'Surfaces described'});
        this.part = make('p', {className: 'soft', id: 'part'});
        this.more = make('button', {type: 'button', id: 'more', onclick: () => context.busy(() => this.describe_rest())}, 'Describe the rest');
        this.drawing = make('div', {id: 'drawing'});
    }

    /** Describes the next ones. */
    async describe_next() {
        const from = this.done, length = part_length(this.lines, from), part = this.lines.slice(from, from + length);
        const surfaces = await described(this.context.ask, this.context.input, part, this.coordinates);
        for (const surface of surfaces) this.facts.push(this.about(surface));
        for (const {name} of this.facts.slice(from)) this.counts.set(name, (this.counts.get(name) ?? 0) + 1);
        this.done += length;
        this.table.add(surfaces.map((_, number) => from + number));
        this.say();
    }

    /** What is shown of a surface. Surfaces that agree in all of it share the value, since a list can have a hundred thousand. */
    about(surface) {
        const key = JSON.stringify([surface.why, surface.euler, surface.linking, surface.boundary, surface.components]);
        if (!this.known.has(key)) this.known.set(key, facts_of(surface));
        return this.known.get(key);
    }

    /** Describes all that are left. It can be stopped, and be called again. */
    async describe_rest() {
        const had_focus = document.activeElement === this.more;
        this.more.hidden = true;
        if (had_focus) this.table.element.focus({preventScroll: true});
        try {
            while (this.done < this.lines.length) await this.describe_next();
        } finally {
            this.more.hidden = this.done === this.lines.length;
            this.show_filtered();
        }
    }

    show_filtered() {
        const test = this.filter.test();
        this.table.filter((index) => test(this.facts[index]));
        this.say();
    }

    cells(index) {
        const about = this.facts[index], line = this.lines.at(index), {name, euler, sides, orientable, linking, boundary, components} = about;
        const title = `Surface ${index}: ${name}`, actions = () => actions_on(line, this.coordinates, this.context);
        const draw = make('button', {type: 'button', ariaLabel: `Draw ${title}`, onclick: () => this.draw(index, title)}, 'Draw');
        const more = make('button', {type: 'button', ariaLabel: `More for ${title}`, ariaHasPopup: 'menu', onclick: () => this.context.offer(more, actions())}, '⋯');
        return [index, name, make('span', {}, draw, ' ', more), euler, sides, orientable, linking, boundary, components, vector_cell(line, this.coordinates)].map((cell) => cell ?? '');
    }

    draw(index, title) {
        const section = surface_picture(this.lines.at(index), this.coordinates, title, this.context);
        this.drawing.replaceChildren(section);
        this.table.choose(index);
        section.focus();
    }

    /** Says how many there are, and of which kinds those are that were described. */
    say() {
        const all = this.lines.length, kinds = [...this.counts].sort(([, one], [, other]) => other - one), is_whole = this.done === all;
        const among = is_whole ? '' : `among the first ${this.done}: `;
        this.tally.replaceChildren(make('strong', {}, plural(all, this.noun)), kinds.length ? `; ${among}${kinds.map(([name, count]) => `${count} × ${name}`).join(', ')}` : '');
        this.part.textContent = is_whole ? '' : `The table has the first ${this.done} of ${all}; only these are counted, filtered and sorted.`;
        Object.assign(this.progress, {value: this.done, hidden: is_whole});
        this.filter.offer(kinds);
        this.filter.say(this.table.shown.length, this.done);
    }

    /** The surfaces that are shown, in their order, as {index, about, line}. */
    get records() { return this.table.shown.map((index) => ({index, about: this.facts[index], line: this.lines.at(index)})); }

    elements() {
        this.say();
        this.filter.element.hidden = this.lines.length < 2;
        return this.lines.length ? [this.tally, this.part, this.progress, this.more, this.filter.element, this.table.element, this.drawing] : [this.tally];
    }
}
