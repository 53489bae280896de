// The form: a field for the input, and the question with its options, made from the one table of commands.
import {by_id, make} from './elements.js';
import {fragment_of, question_of} from './links.js';
import {INPUTS, read_commands} from './texts.js';
import {explained} from './words.js';

/** The name of the question that is no command, in the list and in links. */
export const EFFICIENCY = '0-efficient';

const STORY = 'story ';

const sentence = (text) => `${text[0].toUpperCase()}${text.slice(1)}.`;

/** The field of an option: a list of its values, or a text for a number. */
function field_of({name, is_needed, values, range}) {
    const settings = {required: is_needed, ariaLabel: name};
    const field = values.length ? make('select', settings, ...values.map((value) => make('option', {}, value)))
        : make('input', {...settings, inputMode: 'numeric', pattern: '[0-9]*', size: 8, placeholder: is_needed ? range[0] : 'no limit', value: is_needed ? '5' : ''});
    field.dataset.option = name;
    return make('span', {className: 'option'}, explained(name), ' ', field);
}

export class Form {
    examples; stories;

    /** table: the text of the table of commands; examples: the inputs by name; stories: explained questions */
    constructor(table, examples, stories) {
        this.commands = read_commands(table);
        this.commands.set(EFFICIENCY, {reads: 'table', options: [], about: 'whether each connected normal surface of positive Euler characteristic is a vertex link'});
        Object.assign(this, {examples, stories});
        const names = [...this.commands.keys()].filter((name) => name !== EFFICIENCY);
        by_id('command').append(
            make('optgroup', {label: 'Questions'}, make('option', {value: EFFICIENCY}, 'Is it 0-efficient?')),
            make('optgroup', {label: 'Commands'}, ...names.map((name) => make('option', {value: name}, name))));
        by_id('example').append(
            make('optgroup', {label: 'Explained'}, ...stories.map(({name}, number) => make('option', {value: `${STORY}${number}`}, name))),
            make('optgroup', {label: 'Commands'}, ...Object.entries(examples).map(([name, {command}]) => make('option', {value: name}, `${command}: ${name.replaceAll('-', ' ')}`))));
        by_id('command').onchange = () => this.choose(by_id('command').value);
    }

    get command() { return by_id('command').value; }

    /** What the chosen command reads. */
    get reads() { return this.commands.get(this.command).reads; }

    get input() { return this.reads === 'none' ? '' : by_id('input').value; }

    /** Shows the options of a command. */
    choose(name) {
        const {reads, options, about} = this.commands.get(name);
        by_id('command').value = name;
        by_id('about').textContent = sentence(about);
        by_id('reads').textContent = `(${INPUTS[reads] ?? reads})`;
        by_id('input').disabled = reads === 'none';
        by_id('options').replaceChildren(...options.map(field_of));
    }

    /** Shows an example, with its story if it has one. Returns whether there is one of that name. */
    take_example(name) {
        const story = name.startsWith(STORY) ? this.stories[Number(name.slice(STORY.length))] : null;
        if (story) this.fill(story.command, Object.entries(story.options), story.input);
        else if (Object.hasOwn(this.examples, name)) this.fill(this.examples[name].command, [], this.examples[name].text);
        else return false;
        by_id('example').value = name;
        this.tell(story?.story ?? '');
        return true;
    }

    /** Shows the first explained question. */
    take_first() {
        return this.take_example(`${STORY}0`);
    }

    tell(story) {
        by_id('story').textContent = story;
        by_id('story').hidden = !story;
    }

    /** The options whose values are not the usual ones. */
    options() {
        const fields = [...by_id('options').querySelectorAll('[data-option]')];
        return fields.filter((field) => field.value !== '' && field.selectedIndex !== 0).map((field) => [field.dataset.option, field.value]);
    }

    /** The words of the command line. */
    words() {
        return [this.command, ...this.options().flatMap(([name, value]) => [`--${name}`, value])];
    }

    /** The question as the fragment of an address, or an empty text if it is too long for one. */
    fragment() {
        return fragment_of(this.command, this.options(), this.reads === 'none' ? null : this.input);
    }

    /** Takes what it can of the question of an address. Returns what it did not understand, or null if there is no question. */
    take_fragment(fragment) {
        const question = question_of(fragment, this.commands);
        if (question === null) return null;
        const {command, values, input, faults} = question;
        this.fill(command ?? this.command, values, input ?? '');
        return faults;
    }

    /** Shows a question: a command, pairs of its options and their values, and an input. */
    fill(command, values, input) {
        this.choose(command);
        by_id('example').value = '';
        this.tell('');
        for (const [name, value] of values) by_id('options').querySelector(`[data-option="${name}"]`).value = value;
        by_id('input').value = input;
    }
}
