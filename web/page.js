// The page: asks the engine what the form says, and shows the answer, or what is wrong with the question.
import {Broken, Engine, Reader, Stopped} from './asking.js';
import {checksum_of, citation, module_of} from './citation.js';
import {by_id, make} from './elements.js';
import {NO_MEMORY} from './engine.js';
import {pictures_as_svg, python_script, rows_as_csv, surfaces_as_csv, surfaces_as_json} from './exports.js';
import {bytes_of, text_of} from './files.js';
import {EFFICIENCY, Form} from './form.js';
import {hint, read_hints} from './hints.js';
import {InputField} from './input_field.js';
import {offer_actions} from './menu.js';
import {zero_efficiency} from './questions.js';
import {SeveralList} from './several.js';
import {coordinates_of, first_table, plural} from './texts.js';
import {Discs} from './turning.js';
import {Names, understood} from './understood.js';
import {efficiency_view, large_graph, shortened, shortened_text, triangulation_view, view_of} from './views.js';
import {Visit, name_of_question} from './visit.js';
import {Words} from './words.js';

const NO_TABLE = ['none', 'cone'];
const LICENCES = ['NOTICES', 'LICENSE-MIT', 'LICENSE-APACHE'];
const MOST_SHOWN_LINES = 1100; // of a question: a triangulation of 1,000 tetrahedra, and some vectors
const MOST_IN_A_TITLE = 80;
const MOST_REFUSED = 300; // characters of a refusal that are shown first
const GONE = 'This question was too long for a link, and its input is not kept any more.';

/** Says something below the form; `is_bad` for refusals and failures. */
function say(parts, is_bad = false) {
    by_id('message').className = is_bad ? 'bad' : '';
    by_id('message').replaceChildren(...[parts].flat());
}

// ---- one question after the other

let engine = null;
let form = null;
let hints = [];
let discs = null;
let names = null;
let words_explained = null;
let about = {version: '', build: null, pages: ''}; // the page's version, what its build noted of a module, and where the documentation is
let module = null; // what is known of the module that answers
let newest = 0; // the number of the newest question
let newest_asked = null; // {reads, options, fragment} of the newest question; the form may have been changed since
let is_busy = false;
const reader = new Reader();
const input_field = new InputField({reader, hints: () => hints, say, on_change: show_stop});
let is_graph_asked = null; // the printed triangulation whose graph is shown

const visit = new Visit((question) => {
    form.fill(question.command, question.options, question.input);
    return answer('new');
});

const spent = (milliseconds) => (milliseconds < 1000 ? `${milliseconds.toFixed(0)} ms` : `${(milliseconds / 1000).toFixed(1)} s`);

function show_stop() {
    by_id('stop').disabled = !is_busy && !reader.is_reading;
}

/** Ends what is being read, or else the question that is being answered. */
function stop() {
    if (reader.is_reading) reader.stop();
    else if (is_busy) engine.stop();
}

function show_busy(busy, begun) {
    is_busy = busy;
    show_stop();
    by_id('clock').classList.toggle('busy', busy);
    // afterwards the message says how long it took
    by_id('clock').value = busy ? `${((performance.now() - begun) / 1000).toFixed(1)} s` : '';
}

function say_failure(fault) {
    if (fault instanceof Stopped) say('Stopped.');
    else if (fault instanceof Broken) say(`The computation failed (${fault.message}). The next question starts afresh; please report this one.`, true);
    else say(`The page failed: ${fault.message}. Please report this.`, true);
}

/** Runs what asks the engine, with the clock and the Stop button. A newer one ends it. */
async function busy(work) {
    if (is_busy) engine.stop();
    const number = ++newest, begun = performance.now();
    const clock = setInterval(() => show_busy(true, begun), 100);
    show_busy(true, begun);
    try {
        await work();
    } catch (fault) {
        if (newest === number) say_failure(fault);
    } finally {
        clearInterval(clock);
        if (newest === number) {
            show_busy(false, begun);
            engine.rest();
        }
    }
}

const ask = (words, input, is_description) => engine.ask(words, input, is_description);

// ---- refusals

/** A button that selects the place of a fault in the field, if the refusal names one and its line was asked as it is there. */
function place_button(refusal, input) {
    const [, line, column] = refusal.match(/^refused: input (\d+) (\d+) /) ?? [], lines = form.input.split('\n');
    if (line === undefined || lines[Number(line) - 1] !== input.split('\n')[Number(line) - 1]) return [];
    const before = lines.slice(0, Number(line) - 1).join('\n').length + (Number(line) > 1 ? 1 : 0);
    // columns count bytes
    const bytes = new TextEncoder().encode(lines[Number(line) - 1] ?? '').slice(0, Number(column) - 1);
    const from = Math.min(form.input.length, before + new TextDecoder().decode(bytes).length), word = form.input.slice(from).match(/^\S*/)[0].length;
    const show = () => {
        by_id('input').focus();
        by_id('input').setSelectionRange(from, from + Math.max(1, word));
    };
    return [' ', make('button', {type: 'button', id: 'place', onclick: show}, `Line ${line}, column ${column}`)];
}

/** The text of a refusal. A long one, which can have hundreds of numbers, is shown by its beginning and a button for the rest. */
function refusal_parts(refusal) {
    const shown = make('strong', {tabIndex: -1}, refusal.length > MOST_REFUSED ? `${refusal.slice(0, MOST_REFUSED)} …` : refusal);
    const show_rest = () => {
        shown.textContent = refusal;
        shown.focus();
        by_id('rest').remove();
    };
    return refusal.length > MOST_REFUSED ? [shown, ' ', make('button', {type: 'button', id: 'rest', onclick: show_rest}, 'Show all of it')] : [shown];
}

/** Says why a question has no answer. */
function say_refusal({status, text}, words, input) {
    if (status === NO_MEMORY) {
        say('Out of memory: an answer in a browser may use at most 4 GiB. The program can use more.', true);
        return;
    }
    const command = words[0] === EFFICIENCY ? 'describe' : words[0], refusal = text.trim();
    const sentence = hint(hints, {status, refusal, command, reads: form.commands.get(words[0]).reads, coordinates: coordinates_of(words), input});
    const usage = status === 2 ? 'an option has an invalid value' : '';
    say([...refusal_parts(refusal), sentence || usage ? ` – ${sentence || usage}.` : '', ...place_button(refusal, input)], true);
}

// ---- the question above its answer

/** The version of the page and the module that answers. */
const identity = () => [about.version && `trinorm ${about.version}`, module.checksum && `trinorm.wasm ${module.checksum.slice(0, 12)}…`].filter(Boolean).join(', ');

const now = () => new Date().toLocaleString('en-GB', {dateStyle: 'long', timeStyle: 'short'});

/** Shows the question as it was asked, with what of the input was changed, and by what it is answered. */
function show_asked(words, {input, notes, tables}) {
    const lines = input.trimEnd().split('\n'), short = !tables && lines.length === 1 && lines[0];
    const text = lines.length > MOST_SHOWN_LINES ? [...lines.slice(0, MOST_SHOWN_LINES), `… (${lines.length} lines)`].join('\n') : lines.join('\n');
    const of = tables ? [` of each of ${tables.length} triangulations`] : short ? [' of ', make('code', {}, short)] : [];
    const more = [...notes, identity()].filter(Boolean).map((note) => `; ${note}`).join('');
    const question = make('div', {}, make('strong', {}, 'Question: '), make('code', {}, words.join(' ')), ...of, more, '.', make('span', {className: 'paper'}, ` ${now()}`));
    by_id('asked').replaceChildren(question, ...(short || !text ? [] : [make('pre', {tabIndex: 0, ariaLabel: 'Input'}, text)]));
    by_id('asked').hidden = false;
    document.title = `${name_of_question({words, input}).slice(0, MOST_IN_A_TITLE)} – trinorm`;
}

// ---- answers

/** A name for files with an answer, of the question and the first triangulation. */
function name_of_files(words, input) {
    const [first, second] = newest_asked.reads === 'none' ? [] : first_table(input).trim().split(/\s+/);
    const about = first === 'sig' ? [second] : first === 'tri' ? [first, second] : [];
    const parts = [...words, ...about].map((word) => String(word).replace(/[^A-Za-z0-9+-]/g, '').replace(/^--/, '')).filter(Boolean);
    return parts.join('-').slice(0, 80);
}

/** Hands out a text as a file. */
function download(text, name, type = 'text/plain') {
    const link = make('a', {href: URL.createObjectURL(new Blob([text], {type})), download: name});
    document.body.append(link);
    link.click();
    link.remove();
    setTimeout(() => URL.revokeObjectURL(link.href), 60000);
}

/** Offers what an answer can be saved as. `outcome` has its text, or is null; `tables` may make {csv, json} of it. */
function offer_files(words, input, outcome, tables) {
    const name = name_of_files(words, input), script = python_script(words[0], newest_asked.options, newest_asked.reads, input, about.version);
    const file = (make_text, ending, type) => make_text && (() => download(make_text(), `${name}.${ending}`, type));
    const offered = {
        copy: outcome && (() => copy(outcome.text)), download: outcome && file(() => outcome.bytes, 'txt'), csv: file(tables.csv, 'csv', 'text/csv'),
        json: file(tables.json, 'json', 'application/json'), script: tables.is_several ? null : file(() => script, 'py'),
    };
    for (const [id, act] of Object.entries(offered)) Object.assign(by_id(id), {hidden: !act, onclick: act || null});
    by_id('text').hidden = !outcome;
    by_id('raw').textContent = outcome ? shortened_text(outcome) : '';
}

/** Offers the sentences for a paper. `cited` is what `citation` takes. */
function offer_citation(cited) {
    by_id('cite').onclick = async () => copy(await citation(cited, module, about.build), 'citation');
}

function save_picture(pictures, title) {
    download(pictures_as_svg(pictures, title), `${title.replace(/[^A-Za-z0-9]+/g, '-').slice(0, 60)}.svg`, 'image/svg+xml');
}

async function show_triangulation(input) {
    if (NO_TABLE.includes(newest_asked.reads)) return;
    const printed = await ask(['play'], first_table(input));
    by_id('triangulation').hidden = printed.status !== 0;
    is_graph_asked = printed.text;
    if (printed.status === 0) by_id('graph').replaceChildren(...triangulation_view(printed.text, show_large_graph));
}

/** Shows the face-pairing graph with all face numbers, in its own size. */
function show_large_graph() {
    const picture = large_graph(is_graph_asked);
    by_id('large_graph').replaceChildren(picture);
    by_id('save_graph').onclick = () => save_picture([picture], 'Face-pairing graph');
    by_id('large').showModal();
}

function show(parts) {
    by_id('view').replaceChildren(...parts);
    words_explained.describe(by_id('view'));
    by_id('result').hidden = false;
}

/** Asks the next question, about a text that an answer has. */
function follow(command, options, input) {
    form.fill(command, Object.entries(options), input);
    return answer('new');
}

function use(text) {
    form.fill(form.command, form.options(), text);
    by_id('input').focus();
}

const context_of = (input) => ({input, options: Object.fromEntries(newest_asked.options), ask, busy, discs, follow, use, copy, offer: offer_actions, save_picture});

/** What a list can be saved as. */
function tables_of(list, words, input) {
    if (!list) return {};
    const question = {command: words[0], options: Object.fromEntries(newest_asked.options), input};
    return {csv: () => surfaces_as_csv(list.records), json: () => surfaces_as_json(question, list.records)};
}

async function answer_command(words, {input}) {
    const outcome = await ask(words, input);
    if (outcome.status !== 0) return say_refusal(outcome, words, input);
    const {parts, list} = await view_of(outcome, words, context_of(input));
    offer_files(words, input, outcome.size ? outcome : null, tables_of(list, words, input));
    offer_citation({words, input});
    show(parts);
    say(`Answered in ${spent(outcome.milliseconds)}.`);
    await show_triangulation(input);
    return list?.describe_rest();
}

async function answer_efficiency(words, {input}) {
    const begun = performance.now();
    const verdict = await zero_efficiency(ask, input, (done, all) => say(`Described ${done} of ${plural(all, 'surface')}.`));
    if (verdict.outcome) return say_refusal(verdict.outcome, words, input);
    offer_files(words, input, null, {});
    offer_citation({words, input, verdict});
    show(efficiency_view(verdict, context_of(input)));
    say(`Answered in ${spent(performance.now() - begun)}.`);
    return show_triangulation(input);
}

/** Asks the question about each of several triangulations. */
async function answer_several(words, {input, tables}) {
    const begun = performance.now(), list = new SeveralList({tables, words, context: context_of(input)});
    offer_files(words, input, null, {csv: () => rows_as_csv(list.rows()), is_several: true});
    offer_citation({words, input, tables});
    show(list.elements());
    await list.describe_rest();
    say(`Answered in ${spent(performance.now() - begun)}.`);
}

function clear() {
    say('');
    ['result', 'triangulation', 'asked'].forEach((id) => { by_id(id).hidden = true; });
}

/**
 * Answers what the form says.
 *
 * step: what becomes of the address, which gets the question: it is `new` in the history, takes the place of the `same` one,
 * or there is `none`
 */
function answer(step) {
    input_field.drop();
    const words = form.words(), text = form.input, options = form.options(), asked = understood(text, form.reads, names);
    const number = visit.add({command: form.command, options, words, input: text});
    newest_asked = {reads: form.reads, options, fragment: form.fragment()};
    if (step !== 'none') set_address(step === 'new', number);
    clear();
    show_asked(words, asked);
    return busy(() => (asked.tables ? answer_several : words[0] === EFFICIENCY ? answer_efficiency : answer_command)(words, asked));
}

// ---- links, copies

/**
 * Puts the question into the address, so that it can be kept; a page from the disk may not be allowed to. A question that is
 * too long for that is found again by its number, as long as the page is open.
 */
function set_address(is_new, number) {
    const state = {visit: visit.id, number}, fragment = form.fragment(), address = fragment || location.pathname;
    const is_same = fragment ? fragment === location.hash : visit.find(history.state)?.number === number;
    try {
        if (is_new && !is_same) history.pushState(state, '', address);
        else history.replaceState(state, '', address);
    } catch {
        // the link has it still
    }
}

/** Ends the question that is being answered, if there is one, without a word. */
function drop_question() {
    newest++;
    input_field.drop();
    if (is_busy) engine.stop();
    show_busy(false, performance.now());
}

/** Answers the question of the address. One that is not understood is shown as far as it is, and is not answered. */
function answer_address() {
    const kept = location.hash ? undefined : visit.find(history.state);
    if (kept) {
        form.fill(kept.command, kept.options, kept.input);
        return answer('same');
    }
    const faults = form.take_fragment(location.hash);
    if (faults?.length === 0) return answer('same');
    drop_question();
    clear();
    if (!faults && history.state?.number) return say(GONE, true);
    if (faults) return say(`This link was not answered. It has ${faults.join('; ')}.`, true);
    form.take_first();
    return answer('none');
}

/** Copies a text. Returns whether the browser allows it. */
async function is_copied(text) {
    try {
        await navigator.clipboard.writeText(text);
        say('Copied.');
        return true;
    } catch {
        return false;
    }
}

/** Shows a text to be copied, where the browser does not allow the page to do it. */
function show_to_copy(noun, text) {
    const field = make('textarea', {id: 'address', value: text, readOnly: true, rows: noun === 'citation' ? 10 : 2, ariaLabel: noun});
    say([`The browser did not allow copying. This is the ${noun}: `, field], true);
    field.focus();
    field.select();
}

async function copy(text, noun = 'text') {
    if (!await is_copied(text)) show_to_copy(noun, shortened(text));
}

/** Copies the link to the question that was answered, or shows it to be copied. */
async function copy_link() {
    const {fragment} = newest_asked;
    if (!fragment) return say('The input is too long for a link.', true);
    const address = location.href.split('#')[0] + fragment;
    if (!await is_copied(address)) show_to_copy('link', address);
}

/** Fills in the licences when they are opened. */
async function show_licences() {
    by_id('licences').ontoggle = null;
    for (const name of LICENCES) by_id('licences').append(make('h2', {}, name), make('pre', {tabIndex: 0, ariaLabel: name}, await text_of(name)));
}

/** Tells the long tables that the page is printed, or is seen again. */
const tell_tables = (event) => document.querySelectorAll('.long').forEach((table) => table.dispatchEvent(new Event(event)));

function listen() {
    by_id('question').onsubmit = (event) => { event.preventDefault(); answer('new'); };
    by_id('example').onchange = () => { if (form.take_example(by_id('example').value)) answer('new'); };
    by_id('stop').onclick = stop;
    by_id('link').onclick = copy_link;
    by_id('close').onclick = () => by_id('large').close();
    by_id('input').oninput = () => { by_id('example').value = ''; form.tell(''); };
    by_id('input').onkeydown = (event) => {
        if (event.key !== 'Enter' || !(event.ctrlKey || event.metaKey)) return;
        event.preventDefault();
        answer('new');
    };
    document.addEventListener('keydown', (event) => { if (event.key === 'Escape' && !document.querySelector('dialog[open], #menu:popover-open')) stop(); });
    by_id('licences').ontoggle = show_licences;
    if (by_id('licences').open) show_licences();
    input_field.listen();
    words_explained.listen();
    window.addEventListener('popstate', ({state}) => { if (!location.hash && state?.number) answer_address(); });
    window.addEventListener('hashchange', () => { if (location.hash || !history.state?.number) answer_address(); });
    window.addEventListener('beforeprint', () => tell_tables('whole'));
    window.addEventListener('afterprint', () => tell_tables('seen'));
}

// ---- the beginning

/** The name of a page of the documentation. In the site of these pages it is a link. */
const named_page = (name, anchor = '') => (about.pages ? make('a', {href: `${about.pages}${name}.html${anchor}`}, name) : name);

/** Shows what is known of the module. Browsers compute checksums for pages from the disk, from this machine, or by https alone. */
async function show_module(bytes) {
    module = module_of(await checksum_of(bytes), about.build);
    by_id('version').textContent = about.version ? `Version ${about.version}.` : '';
    const compare = ['Compare it with the line wasm of the release’s MANIFEST: ', named_page('WEB', '#what-to-trust'), ' explains how.'];
    by_id('checksum').replaceChildren(...(module.checksum ? [`SHA-256 of trinorm.wasm: ${module.checksum}. `, ...compare]
        : ['Over http, this browser computes no SHA-256 of trinorm.wasm. Open the page over https or from the disk to see it.']));
    by_id('pages').replaceChildren('In the documentation, ', named_page('GUIDE'), ' is a tutorial, ', named_page('REFERENCE'), ' has all commands and terms, and ', named_page('WEB'), ' describes this page.');
}

const data_of = async (name) => JSON.parse(await text_of(name));

async function begin() {
    words_explained = new Words((await data_of('words.json')).words);
    form = new Form(await text_of('commands.txt'), await data_of('examples.json'), await data_of('stories.json'));
    hints = read_hints(await text_of('hints.txt'));
    discs = new Discs(await data_of('discs.json'));
    names = new Names(await data_of('names.json'));
    form.take_first();
    listen();
    const bytes = await bytes_of('trinorm.wasm');
    about = await data_of('about.json');
    await show_module(bytes);
    engine = new Engine(await WebAssembly.compile(bytes));
    by_id('answer').disabled = false;
    document.documentElement.dataset.ready = 'yes';
    answer_address();
}

by_id('answer').disabled = true;
begin().catch((fault) => say(`This browser cannot run trinorm: ${fault.message}`, true));
