// A surface as discs in its tetrahedra, which can be turned: all pictures of a surface turn together.
//
// discs.json says how a tetrahedron and the discs of each column are drawn; pictures of the package use it too.
import {make} from './elements.js';
import {element, rounded, text} from './pictures.js';
import {by_tetrahedron} from './texts.js';

const MOST_TETRAHEDRA = 60;
const MOST_PARALLEL = 8; // discs of one type that are drawn; the caption has their number
const SIDE = 150;
const SCALE = 38; // of the coordinates of discs.json, whose vertices are at a distance of 1.73 from the middle
const COLUMNS = {standard: [0, 7], quad: [4, 7], octagon: [0, 10]};
const A_KEY = Math.PI / 18;
const A_PIXEL = Math.PI / 250;
const KEYS = {ArrowLeft: [-A_KEY, 0], ArrowRight: [A_KEY, 0], ArrowUp: [0, -A_KEY], ArrowDown: [0, A_KEY]};

/** How many parallel discs are drawn of each column of octagon coordinates, for the entries of one tetrahedron. */
function drawn_counts(entries, coordinates) {
    const [first] = COLUMNS[coordinates], counts = new Array(10).fill(0);
    entries.forEach((entry, number) => { counts[first + number] = entry.length > 3 ? MOST_PARALLEL : Math.min(MOST_PARALLEL, Number(entry)); });
    return counts;
}

// ---- turns of space, as rows of a matrix: to the right, upwards, and towards the reader

const product = (turn, point) => turn.map((row) => row.reduce((sum, part, axis) => sum + part * point[axis], 0));
const minus = (one, other) => one.map((part, axis) => part - other[axis]);
const cross = ([a, b, c], [x, y, z]) => [b * z - c * y, c * x - a * z, a * y - b * x];

/** A turn that is followed by one to the right and one downwards. */
function turned_by(turn, right, down) {
    const [c, s] = [Math.cos(right), Math.sin(right)], [d, t] = [Math.cos(down), Math.sin(down)];
    const [x, y, z] = turn, mixed = (one, p, other, q) => one.map((part, axis) => p * part + q * other[axis]);
    const [x1, z1] = [mixed(x, c, z, s), mixed(z, c, x, -s)];
    return [x1, mixed(y, d, z1, -t), mixed(z1, d, y, t)];
}

/** The turn that is shown first: vertex 0 is on top, and no disc is seen from its edge. */
const FIRST_TURN = [[0.515, 0.291, -0.806], [0.831, 0.061, 0.553], [0.21, -0.955, -0.21]];

// ---- one tetrahedron

/** The discs of a tetrahedron in space. */
class Shape {
    edges; discs; space; counts;

    constructor({edges, discs, space}, counts) {
        Object.assign(this, {edges, discs, space, counts});
        this.polygons = discs.flatMap(({name, corners}, column) => Array.from({length: counts[column]}, (_, nth) => ({kind: name.split(' ')[0], points: corners.map((corner) => this.corner(column, nth, corner))})));
    }

    /** How many points of the drawn discs lie on an edge. */
    points_on(a, b) {
        const on_edge = ({corners}) => corners.filter(([from, to]) => (from === a && to === b) || (from === b && to === a)).length;
        return this.discs.reduce((sum, disc, column) => sum + this.counts[column] * on_edge(disc), 0);
    }

    /** How many points come before those of a column on the edge from `a` to `b`, counted from `a`. */
    points_before(column, a, b) {
        const is_before = ({corners}, other) => other < column && corners.some(([from, to]) => from === a && to === b);
        return this.discs.reduce((sum, disc, other) => sum + (is_before(disc, other) ? this.counts[other] : 0), 0);
    }

    /** A corner of the disc number `nth` of a column. */
    corner(column, nth, [a, b, way]) {
        const index = this.points_before(column, a, b) + (way === 1 ? nth : this.counts[column] - 1 - nth), part = (index + 1) / (this.points_on(a, b) + 1);
        return this.space[a].map((from, axis) => from + part * (this.space[b][axis] - from));
    }

    /** Whether an edge is in front, for turned vertices: one of the two faces at it can be seen. */
    is_in_front(vertices, a, b) {
        const others = [0, 1, 2, 3].filter((vertex) => vertex !== a && vertex !== b);
        return others.some((c, number) => {
            const d = others[1 - number], normal = cross(minus(vertices[b], vertices[a]), minus(vertices[c], vertices[a]));
            const inwards = minus(vertices[d], vertices[a]).reduce((sum, part, axis) => sum + part * normal[axis], 0);
            return normal[2] * inwards < 0;
        });
    }

    /** The elements of its picture, for a turn: what is behind comes first. */
    elements(turn) {
        const vertices = this.space.map((point) => product(turn, point)), flat = ([x, y]) => [rounded(SIDE / 2 + SCALE * x), rounded(SIDE / 2 - SCALE * y)];
        const line = ([a, b], dashes) => {
            const [[x1, y1], [x2, y2]] = [flat(vertices[a]), flat(vertices[b])];
            return element('line', {class: 'frame', x1, y1, x2, y2, ...dashes});
        };
        const front = this.edges.filter(([a, b]) => this.is_in_front(vertices, a, b)), back = this.edges.filter((edge) => !front.includes(edge));
        const discs = this.polygons.map(({kind, points}) => ({kind, points: points.map((point) => product(turn, point))}));
        const depth = ({points}) => points.reduce((sum, point) => sum + point[2], 0) / points.length;
        const drawn = discs.sort((one, other) => depth(one) - depth(other)).map(({kind, points}) => element('polygon', {class: `disc ${kind}`, points: points.map((point) => flat(point).join(',')).join(' ')}));
        return [...back.map((edge) => line(edge, {'stroke-dasharray': '4 3'})), ...drawn, ...front.map((edge) => line(edge, {})), ...this.names(vertices)];
    }

    names(vertices) {
        return vertices.map(([x, y], vertex) => {
            const length = Math.hypot(x, y) || 1, far = 1 + 10 / (SCALE * length);
            return text(rounded(SIDE / 2 + SCALE * x * far), rounded(SIDE / 2 - SCALE * y * far + 3.5), 'face', String(vertex));
        });
    }
}

// ---- the pictures of a surface

/** Pictures that turn together, by dragging and by keys. */
class Turned {
    shapes; turn;

    /** shapes: {about, shape} of each tetrahedron that is drawn */
    constructor(shapes) {
        Object.assign(this, {shapes, turn: FIRST_TURN});
        this.drawn = shapes.map(({about}) => element('svg', {class: 'turned', role: 'img', tabindex: 0, 'aria-label': about, width: SIDE, height: SIDE, viewBox: `0 0 ${SIDE} ${SIDE}`}));
        this.drawn.forEach((picture) => this.listen(picture));
        this.draw();
    }

    draw() {
        this.drawn.forEach((picture, number) => picture.replaceChildren(...this.shapes[number].shape.elements(this.turn)));
    }

    turn_by(right, down) {
        this.turn = turned_by(this.turn, right, down);
        this.draw();
    }

    listen(picture) {
        picture.addEventListener('keydown', (event) => {
            if (event.key !== 'Home' && !KEYS[event.key]) return;
            event.preventDefault();
            if (event.key === 'Home') this.turn = FIRST_TURN;
            this.turn_by(...(KEYS[event.key] ?? [0, 0]));
        });
        picture.addEventListener('pointerdown', (event) => { if (event.isPrimary) picture.setPointerCapture?.(event.pointerId); });
        picture.addEventListener('pointermove', (event) => { if (event.buttons & 1 && event.isPrimary) this.turn_by(A_PIXEL * event.movementX, A_PIXEL * event.movementY); });
    }

    pictures() { return this.drawn; }
}

/** How surfaces are drawn, by the data of discs.json. */
export class Discs {
    constructor(data) {
        this.data = data;
    }

    /** The discs of a tetrahedron in words. */
    about(entries, coordinates) {
        const [first] = COLUMNS[coordinates];
        return entries.flatMap((entry, number) => (entry === '0' ? [] : [`${entry} × ${this.data.discs[first + number].name}`])).join(', ');
    }

    /**
     * A surface as the discs in the tetrahedra that it meets: {met, figures, most, turned}, with a figure for each of the first
     * MOST_TETRAHEDRA of them. `turned` has the pictures.
     */
    surface(entries, coordinates) {
        const all = by_tetrahedron(entries, coordinates).map((parts, number) => ({own: parts.flat(), number}));
        const met = all.filter(({own}) => own.some((entry) => entry !== '0')), drawn = met.slice(0, MOST_TETRAHEDRA);
        const shapes = drawn.map(({own, number}) => ({about: `Tetrahedron ${number}: ${this.about(own, coordinates)}`, shape: new Shape(this.data, drawn_counts(own, coordinates))}));
        const turned = new Turned(shapes), figures = turned.drawn.map((picture, number) => make('figure', {ariaLabel: shapes[number].about}, picture, make('figcaption', {}, shapes[number].about)));
        return {met: met.length, most: MOST_PARALLEL, figures, turned};
    }
}
