// Questions that take several calls of the engine: lists described in parts, and whether a triangulation is 0-efficient.
import {first_table, read_info} from './texts.js';

const MOST_SURFACES = 500; // described at a time
const MOST_BYTES = 350000; // of their vectors: a lift may make these 7/3 as long, and an input has at most 1 MiB

/** How many of the vectors from `from` on are described at a time; 0 if all before `from` are all. */
export function part_length(lines, from) {
    const fitting = Math.floor(MOST_BYTES / ((from < lines.length ? lines.at(from).length : 0) + 1));
    return Math.min(lines.length - from, MOST_SURFACES, Math.max(1, fitting));
}

/** The index of the vector that a refusal names, and why; or null if it names none. */
function refused_vector(text) {
    const [, index, why] = text.match(/^refused: vector (\d+) (.*)/) ?? [];
    return index === undefined ? null : {index: Number(index), why};
}

const reason = (why) => (why.startsWith('no-lift') ? `spun-normal at vertex ${why.split(' ')[1]}` : why);

/** The answer to `describe` for vectors in coordinates; quad vectors are lifted first. */
async function ask_about(ask, table, lines, coordinates) {
    const words = coordinates === 'octagon' ? ['describe', '--coords', 'octagon'] : ['describe'];
    const text = `${table}${lines.join('\n')}\n`;
    if (coordinates !== 'quad') return ask(words, text, true);
    const lifted = await ask(['lift'], text);
    return lifted.status === 0 ? ask(words, `${table}${lifted.text}`, true) : lifted;
}

/**
 * Describes vectors by the proved code. Each gets what `describe` prints of it, or {why} if it was refused: then it is left
 * out, and the others are asked for again.
 */
export async function described(ask, input, lines, coordinates) {
    const table = first_table(input), surfaces = new Array(lines.length);
    let left = lines.map((line, place) => ({line, place}));
    while (left.length) {
        const outcome = await ask_about(ask, table, left.map(({line}) => line), coordinates), {status, text} = outcome;
        const refused = status === 0 ? null : refused_vector(text);
        if (status === 0) outcome.surfaces.forEach((surface, number) => { surfaces[left[number].place] = surface; });
        else if (!refused) left.forEach(({place}) => { surfaces[place] = {why: text.replace(/^refused: /, '').trim() || 'out of memory'}; });
        if (!refused) break;
        surfaces[left[refused.index].place] = {why: reason(refused.why)};
        left = left.filter((_, number) => number !== refused.index);
    }
    return surfaces;
}

const is_contrary = (surface) => surface.euler > 0 && !surface.linking;

/**
 * Whether each listed surface of positive Euler characteristic is a vertex link.
 *
 * Returns {outcome} if a call was refused or failed; else {info, count, contrary}: what `info` prints, the number of
 * listed surfaces, and the first that is none, with its index, or null. `progress` is called with how many are described.
 * @returns {Promise<any>}
 */
export async function zero_efficiency(ask, input, progress) {
    const numbers = await ask(['info'], input);
    if (numbers.status !== 0) return {outcome: numbers};
    const list = await ask(['surfaces'], input);
    if (list.status !== 0) return {outcome: list};
    const lines = list.vectors(), info = read_info(numbers.text);
    for (let from = 0; from < lines.length;) {
        const length = part_length(lines, from), part = await described(ask, input, lines.slice(from, from + length), 'standard');
        const refused = part.find((surface) => surface.why);
        if (refused) return {outcome: {status: 4, text: `refused: ${refused.why}\n`}};
        const place = part.findIndex(is_contrary);
        if (place >= 0) return {info, count: lines.length, contrary: {...part[place], index: from + place, line: lines.at(from + place)}};
        from += length;
        progress(from, lines.length);
    }
    return {info, count: lines.length, contrary: null};
}
