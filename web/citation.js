// Sentences for a paper: what was computed, by which module, what is proved of it and under which hypotheses, and the question.
// docs/CLAIMS.md and docs/GUIDE.md have the sentences too.
import {EFFICIENCY} from './form.js';
import {is_of_jaco_and_rubinstein, kind_of} from './kinds.js';
import {coordinates_of, entries_of} from './texts.js';

const MOST_CITED = 2000; // characters of an input; of a longer one the length and the checksum are given
const READ = ' and read by its page, which is tested';

/** The SHA-256 checksum of bytes as a text; empty where the browser computes none, as over http. */
export async function checksum_of(bytes) {
    const digest = await crypto.subtle?.digest('SHA-256', bytes);
    return digest ? [...new Uint8Array(digest)].map((byte) => byte.toString(16).padStart(2, '0')).join('') : '';
}

/**
 * What is known of the module of a page: {checksum, build}, where `build` is what its build noted of it, or null.
 *
 * noted: what the build of the page noted of a module, {version, commit, kit, wasm}, or nothing
 */
export function module_of(checksum, noted) {
    return {checksum, build: checksum && noted?.wasm === checksum ? noted : null};
}

const by_what = ({checksum, build}, read = '') => `trinorm ${build.version} (commit ${build.commit}, SHA-256 of the module ${checksum}, Rattle kit ${build.kit.split(' ')[0]})${read}`;

// ---- what is proved

const COMPLETE = 'That it is complete and without repetition is a machine-checked theorem about the source that was compiled for WebAssembly (docs/CLAIMS.md, clause `all_surfaces`). The theorem rests on the definitions cited there, on the prover and compiler, and on the system and the browser. Topological conclusions are ours.';
const OUTCOMES = 'That each result is the outcome defined for its command line and input is a machine-checked theorem about the source that was compiled for WebAssembly (docs/CLAIMS.md, clause `answered`). What is known of these outcomes, and under which hypotheses, is in its section "Command by command". The theorem rests on the definitions cited there, on the prover and compiler, and on the system and the browser. Topological conclusions are ours.';
const TRUST = 'The theorem rests on the definitions cited in docs/CLAIMS.md, on the prover and compiler, and on the system and the browser.';
const DECIDED = 'By a machine-checked theorem (`list_decides_efficiency`), each connected normal surface of T with positive Euler characteristic is a vertex link.';
const CLOSED = 'T is connected, orientable and closed (each vertex link is a sphere), so it is 0-efficient in the sense of Jaco and Rubinstein. This step is topology.';
const CUSPED = 'T is connected, and each vertex link of T is a torus or a Klein bottle, so T contains no normal sphere and no normal projective plane. This step is topology.';

/** What topology says of a triangulation in which each connected normal surface of positive Euler characteristic is a vertex link. */
function topology_of({vertices}, kind) {
    if (is_of_jaco_and_rubinstein(kind)) return [CLOSED];
    const is_cusped = kind.name === 'ideal' && vertices.every(({closed, euler}) => closed === 'yes' && euler === '0');
    return is_cusped && kind.is_connected ? [CUSPED] : [];
}

/** The sentences on a verdict on 0-efficiency. */
function of_verdict({info, contrary}, by) {
    if (contrary) return [`The vertex normal surface of T with the vector (${entries_of(contrary.line).join(', ')}) in standard coordinates has Euler characteristic ${contrary.euler} and is not a vertex link, as computed in a browser by ${by}.`, OUTCOMES];
    return [`Each vertex normal surface of T with positive Euler characteristic is a vertex link, as computed in a browser by ${by}.`, DECIDED, ...topology_of(info, kind_of(info)), TRUST];
}

/** The sentences on the verdicts on several triangulations. */
const of_verdicts = (count, by) => [`Whether each vertex normal surface with positive Euler characteristic is a vertex link was computed, for each of the ${count} triangulations below, in a browser by ${by}.`, 'By a machine-checked theorem (`list_decides_efficiency`), this holds if and only if each connected normal surface with positive Euler characteristic is a vertex link.', TRUST];

/** The result as the subject of a sentence. */
function result_of(words, input, tables) {
    if (tables) return `The results of \`${words.join(' ')}\` for each of the ${tables.length} triangulations below were`;
    return `The result of \`${words.join(' ')}\`${input.trim() ? ' for the input below' : ''} was`;
}

/** What is cited if the module is the one of the build. */
function proved_sentences({words, input, tables, verdict}, module) {
    if (words[0] === EFFICIENCY) return tables ? of_verdicts(tables.length, by_what(module, READ)) : of_verdict(verdict, by_what(module, READ));
    if (words[0] === 'surfaces' && !tables) return [`The list of all vertex normal surfaces of T in ${coordinates_of(words)} coordinates was computed in a browser by ${by_what(module)}.`, COMPLETE];
    return [`${result_of(words, input, tables)} computed in a browser by ${by_what(module)}.`, OUTCOMES];
}

/** What is said if it is not. */
function unknown_sentences({words, input, tables}, {checksum}, is_noted) {
    const file = checksum ? `a file trinorm.wasm with the SHA-256 checksum ${checksum}` : 'a file trinorm.wasm, whose SHA-256 checksum the browser did not compute';
    const why = !checksum ? 'Without the checksum' : is_noted ? 'It is not the file that the build of the page made, so' : 'The page has no record of its build, so';
    return [`${result_of(words, input, tables)} computed in a browser by ${file}.`, `${why} its version, commit and Rattle kit are unknown, and nothing is cited as proved.`, 'The line `wasm` in the MANIFEST of a release has the checksum of its module.'];
}

/** The question, by which the result can be computed again. Its input is that of T, or not named. */
async function cited_question({words, input}, is_of_t) {
    const text = input.trim(), line = `Question: ${words.join(' ')}\n`, name = is_of_t ? 'T' : 'Input';
    if (!text) return line;
    if (text.length <= MOST_CITED) return `${line}${name}:${text.includes('\n') ? '\n' : ' '}${text}\n`;
    const bytes = new TextEncoder().encode(input), checksum = await checksum_of(bytes);
    return `${line}${name}: an input of ${bytes.length} bytes${checksum ? ` with the SHA-256 checksum ${checksum}` : ''}; keep it\n`;
}

/**
 * Sentences for a paper, and the question.
 *
 * cited: {words, input, tables, verdict}: the question as it was asked; `tables` if it was about several triangulations, and
 * the verdict if it was about 0-efficiency
 * module: what `module_of` returns; noted: what the build of the page noted
 */
export async function citation(cited, module, noted) {
    const sentences_on_it = module.build ? proved_sentences(cited, module) : unknown_sentences(cited, module, Boolean(noted));
    const is_of_t = Boolean(module.build) && !cited.tables && ['surfaces', EFFICIENCY].includes(cited.words[0]);
    return `${sentences_on_it.join(' ')}\n\n${await cited_question(cited, is_of_t)}`;
}
