// Links: a question as the fragment of an address. A link that says what the page does not know is not answered.
import {is_readable} from './reading.js';

const MOST_IN_A_LINK = 60000; // characters; longer addresses are cut by some programs
const MOST_NAMED = 40; // characters of what a link says and the page does not know

/** A question as a fragment, or an empty text if it is too long for one. */
export function fragment_of(command, options, input) {
    const fields = new URLSearchParams({command, ...Object.fromEntries(options)});
    if (input !== null) fields.set('input', input);
    const text = `#${fields}`;
    return text.length > MOST_IN_A_LINK ? '' : text;
}

const named = (text) => (text.length > MOST_NAMED ? `${text.slice(0, MOST_NAMED)}…` : text);

/** What is wrong with the value of an option; empty if nothing is. */
function fault_of_value({name, values, range}, value) {
    if (values.length) return values.includes(value) ? '' : `“${name}=${named(value)}”, but ${name} must be one of ${values.join(', ')}`;
    const is_number = /^[0-9]+$/.test(value) && BigInt(value) >= BigInt(range[0]) && BigInt(value) <= BigInt(range[1]);
    return is_number ? '' : `“${name}=${named(value)}”, but ${name} must be a whole number from ${range[0]} to ${range[1]}`;
}

/** What a link says that a command does not know, as texts. */
function faults_of(fields, {reads, options}, command) {
    const known = new Map(options.map((option) => [option.name, option])), faults = [];
    for (const [name, value] of fields) {
        if (name === 'command' || (name === 'input' && reads !== 'none')) continue;
        if (known.has(name)) faults.push(fault_of_value(known.get(name), value));
        else faults.push(`“${named(name)}”, which ${command} does not take`);
    }
    for (const {name, is_needed} of options) if (is_needed && !fields.has(name)) faults.push(`no ${name}, which ${command} needs`);
    for (const name of new Set(fields.keys())) if (fields.getAll(name).length > 1) faults.push(`“${named(name)}” more than once`);
    return faults.filter(Boolean);
}

/**
 * The question of a fragment, or null if it is empty: {command, values, input, faults}. `command` is null if the link names
 * none that is known; `values` are those of options that are known; `input` is null if the link has none that can be shown.
 */
export function question_of(fragment, commands) {
    if (fragment.length < 2) return null;
    const nothing = {command: null, values: new Map(), input: null};
    if (fragment.length > MOST_IN_A_LINK) return {...nothing, faults: [`more than ${MOST_IN_A_LINK.toLocaleString('en')} characters`]};
    const fields = new URLSearchParams(fragment.slice(1)), command = fields.get('command'), input = fields.get('input');
    const shown = input !== null && is_readable(input) ? input : null, unreadable = input === shown ? [] : ['an input that is not text'];
    if (!commands.has(command)) {
        const unknown = command === null ? 'no command' : `the command “${named(command)}”, which is unknown`;
        return {...nothing, input: shown, faults: [unknown, ...unreadable]};
    }
    const row = commands.get(command), fitting = row.options.filter((option) => fields.has(option.name) && !fault_of_value(option, fields.get(option.name)));
    return {command, values: new Map(fitting.map(({name}) => [name, fields.get(name)])), input: shown, faults: [...faults_of(fields, row, command), ...unreadable]};
}
