// Pictures as SVG elements, and the face-pairing graph of a triangulation. They are made of numbers alone, and no text of an
// input becomes markup.
import {plural} from './texts.js';

const SVG = 'http://www.w3.org/2000/svg';
const MOST_NODES = 60;
const MOST_NUMBERED = 10; // tetrahedra whose face numbers can be read in a small picture
const MOST_NAMED_SMALL = 36; // tetrahedra whose own numbers can be read there
const CLOSE = 5.2; // the radius by tetrahedron of a circle on which they nearly touch
const FLAT = 140; // the height of a picture whose tetrahedra are in a row
const BESIDE = 10; // from a loop to its label
const NUMBER_AT = 25; // from a node to the numbers of its faces
const APART = Math.PI / 4; // between two of these, as seen from the node

/** An SVG element with attributes and parts. */
export function element(name, attributes = {}, ...parts) {
    const made = document.createElementNS(SVG, name);
    for (const [key, value] of Object.entries(attributes)) made.setAttribute(key, value);
    made.append(...parts);
    return made;
}

/** A text of a picture. */
export const text = (x, y, name, words) => element('text', {x, y, class: name}, words);
export const rounded = (number) => Math.round(number * 10) / 10;

/** What a face-pairing graph shows, in words. */
export function about_table({size, pairs, boundary}) {
    const faces = boundary.reduce((sum, count) => sum + count, 0);
    return `${plural(size, 'tetrahedron', 'tetrahedra')}, ${plural(pairs.length, 'pair', 'pairs')} of glued faces, ${plural(faces, 'boundary face', 'boundary faces')}`;
}

/** The radius of the circle of tetrahedra: a small picture of many has them close together, so that their numbers are not too small. */
function radius_of(count, is_large) {
    if (count < 3) return (is_large ? 120 : 60) * (count - 1);
    return is_large ? Math.max(140, 22 * count) : Math.max(70, count > MOST_NUMBERED ? CLOSE * count : 11 * count);
}

/** The places of tetrahedra on a circle, and the middle of the picture. */
function circle_of(count, is_large) {
    const radius = radius_of(count, is_large), middle = radius + 66;
    const angle = (number) => 2 * Math.PI * number / count;
    return {middle, places: Array.from({length: count}, (_, number) => [middle - radius * Math.cos(angle(number)), middle - radius * Math.sin(angle(number))])};
}

/** The curve of a pair of faces between two tetrahedra, the `nth` of `count`: both ends, and the point that bends it. */
function curve_of(pair, nth, count, places) {
    const from = places[pair.tetrahedron], to = places[pair.other];
    const across = [to[0] - from[0], to[1] - from[1]], length = Math.hypot(...across), bend = 40 * (nth - (count - 1) / 2);
    return [from, [(from[0] + to[0]) / 2 - bend * across[1] / length, (from[1] + to[1]) / 2 + bend * across[0] / length], to];
}

/** Angles in their order round a circle, from the one after the widest gap on. */
function in_order(angles) {
    const order = angles.map((angle, place) => ({angle, place})).sort((one, other) => one.angle - other.angle);
    const gap = (at) => order[at].angle - (at ? order[at - 1].angle : order.at(-1).angle - 2 * Math.PI);
    const first = order.reduce((best, _, at) => (gap(at) > gap(best) ? at : best), 0);
    return order.map((_, at) => ({...order[(first + at) % order.length], turns: first + at < order.length ? 0 : 1})).map(({angle, place, turns}) => ({angle: angle + 2 * Math.PI * turns, place}));
}

/** Angles that are at least APART from each other, as near to the given ones as some rounds bring them. */
function spread(angles) {
    if (!angles.length) return [];
    const order = in_order(angles);
    for (let round = 0; round < 10; round++) {
        for (let at = 1; at < order.length; at++) {
            const lack = APART - (order[at].angle - order[at - 1].angle);
            if (lack <= 0) continue;
            order[at].angle += lack / 2;
            order[at - 1].angle -= lack / 2;
        }
    }
    const moved = [...angles];
    for (const {angle, place} of order) moved[place] = angle;
    return moved;
}

/** The numbers of the faces of a tetrahedron whose curves leave it: {face, towards}, with the point to which each bends. */
function face_numbers(place, ends) {
    const angles = spread(ends.map(({towards}) => Math.atan2(towards[1] - place[1], towards[0] - place[0])));
    return ends.map(({face}, number) => {
        const [x, y] = [Math.cos(angles[number]), Math.sin(angles[number])].map((part, axis) => rounded(place[axis] + NUMBER_AT * part));
        return text(x, y + 3.5, 'face', String(face));
    });
}

/** The circle of a pair of faces of one tetrahedron, on the side away from the middle. */
function loop(pair, nth, place, middle, is_numbered) {
    const away = [place[0] - middle, place[1] - middle], length = Math.hypot(...away), radius = 14 + 8 * nth;
    const [x, y] = length ? away.map((part) => part / length) : [nth % 2 ? -1 : 1, 0];
    const top = [place[0] + (2 * radius + BESIDE) * x, place[1] + (2 * radius + BESIDE) * y].map(rounded);
    const circle = element('circle', {class: 'edge', cx: rounded(place[0] + radius * x), cy: rounded(place[1] + radius * y), r: radius});
    return is_numbered ? [circle, text(top[0], top[1] + 3, 'face', `${pair.face}–${pair.other_face}`)] : [circle];
}

function node(tetrahedron, place, has_boundary, is_named) {
    const [x, y] = place, dashes = has_boundary ? {'stroke-dasharray': '3 3'} : {}, title = element('title', {}, `tetrahedron ${tetrahedron}`);
    const circle = element('circle', {class: 'node', cx: rounded(x), cy: rounded(y), r: 13, ...dashes}, title);
    return is_named ? [circle, text(rounded(x), rounded(y + 4.5), 'name', String(tetrahedron))] : [circle];
}

/** The lines of the pairs of faces, and what ends at each tetrahedron. */
function lines_of_pairs(table, middle, places, is_numbered) {
    const counts = new Map(), drawn = new Map(), ends = places.map(() => []), lines = [];
    const key = (pair) => `${pair.tetrahedron} ${pair.other}`;
    for (const pair of table.pairs) counts.set(key(pair), (counts.get(key(pair)) ?? 0) + 1);
    for (const pair of table.pairs) {
        const nth = drawn.get(key(pair)) ?? 0, {tetrahedron, face, other, other_face} = pair;
        drawn.set(key(pair), nth + 1);
        const title = element('title', {}, `face ${face} of tetrahedron ${tetrahedron} is glued to face ${other_face} of tetrahedron ${other}`);
        if (tetrahedron === other) {
            lines.push(element('g', {}, title, ...loop(pair, nth, places[other], middle, is_numbered)));
            continue;
        }
        const [from, over, to] = curve_of(pair, nth, counts.get(key(pair)), places);
        ends[tetrahedron].push({face, towards: over});
        ends[other].push({face: other_face, towards: over});
        lines.push(element('g', {}, title, element('path', {class: 'edge', d: `M${from.map(rounded)} Q${over.map(rounded)} ${to.map(rounded)}`})));
    }
    return {lines, ends};
}

/** Whether a small picture of this table has face numbers. */
const is_numbered_small = ({size}) => size <= MOST_NUMBERED;

/** What a small picture lacks, as a sentence; empty if it lacks nothing. */
export function about_small({size}) {
    if (size <= MOST_NUMBERED) return '';
    return `The large picture has the numbers of the ${size > MOST_NAMED_SMALL ? 'tetrahedra and ' : ''}faces.`;
}

/** The face-pairing graph, or null if it has too many tetrahedra to be read. A large one has all face numbers. */
export function face_pairing_graph(table, is_large = false) {
    if (!table.size || table.size > MOST_NODES) return null;
    const is_numbered = is_large || is_numbered_small(table), {middle, places} = circle_of(table.size, is_large), {lines, ends} = lines_of_pairs(table, middle, places, is_numbered);
    const is_named = is_large || table.size <= MOST_NAMED_SMALL;
    const nodes = places.flatMap((place, tetrahedron) => node(tetrahedron, place, table.boundary[tetrahedron] > 0, is_named));
    const numbers = is_numbered ? places.flatMap((place, tetrahedron) => face_numbers(place, ends[tetrahedron])) : [];
    const side = rounded(2 * middle), height = table.size < 3 ? FLAT : side, label = `Face-pairing graph: ${about_table(table)}`;
    return element('svg', {role: 'img', 'aria-label': label, width: side, height, viewBox: `0 ${(side - height) / 2} ${side} ${height}`}, ...lines, ...nodes, ...numbers);
}
