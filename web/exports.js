// Answers in the forms of other programs: tables as CSV and JSON, lines of Python for Regina and for the package, a script
// that asks the same question, and pictures as SVG files.
import {read_rows} from './texts.js';

const NAMES_IN_REGINA = {standard: 'NS_STANDARD', quad: 'NS_QUAD', octagon: 'NS_AN_STANDARD'};

/** A text as a literal of Python. */
const literal = (text) => JSON.stringify(text);
const list_of = (entries) => `[${entries.join(', ')}]`;

// ---- lines of Python

/** A triangulation, given as the text of an input, as an expression for Regina. */
export function regina_triangulation(table) {
    const [form, word] = table.trim().split(/\s+/);
    if (form === 'sig') return `regina.Triangulation3.fromIsoSig(${literal(word)})`;
    const rows = read_rows(table), gluings = [];
    rows.forEach((row, tetrahedron) => row.forEach((entry, face) => {
        const [reached, images] = entry.split(':'), is_second = Number(reached) < tetrahedron || (Number(reached) === tetrahedron && Number(images?.[face]) < face);
        if (entry !== '-' && !is_second) gluings.push(`[${tetrahedron}, ${face}, ${reached}, regina.Perm4(${[...images].join(', ')})]`);
    }));
    return `regina.Triangulation3.fromGluings(${rows.length}, ${list_of(gluings)})`;
}

/** A surface as an expression for Regina. */
export function regina_line(table, entries, coordinates) {
    return `regina.NormalSurface(${regina_triangulation(table)}, regina.${NAMES_IN_REGINA[coordinates]}, ${list_of(entries)})\n`;
}

/** A surface as a line for the package: what it is, or what its lift is. */
export function python_line(table, entries, coordinates) {
    const settings = coordinates === 'octagon' ? ', coords="octagon"' : '', command = coordinates === 'quad' ? 'lift' : 'describe';
    return `trinorm.${command}(${literal(table)}, [${list_of(entries)}]${settings})\n`;
}

/** A script of Python that asks a question by the package: a command or question, its pairs of options, and the input. */
export function python_script(command, options, reads, input, version) {
    const head = `# Asks the same question with the Python package of trinorm${version ? ` ${version}` : ''}.\n`;
    const settings = options.map(([name, value]) => `, ${name.replaceAll('-', '_')}=${/^\d+$/.test(value) ? value : literal(value)}`).join('');
    if (command === '0-efficient') return `${head}import trinorm\n\nprint(trinorm.zero_efficient(${literal(input)}))\n`;
    if (reads === 'table') return `${head}import trinorm\n\nprint(trinorm.${command}(${literal(input)}${settings}))\n`;
    const words = [command, ...options.flatMap(([name, value]) => [`--${name}`, value])].map(literal).join(', ');
    return `${head}import subprocess\n\nimport trinorm\n\ndone = subprocess.run([trinorm.find(), ${words}], input=${literal(input)}, capture_output=True, text=True)\nprint(done.stdout, end="")\n`;
}

// ---- tables

const NUMBER = /^-?\d+$/;

/** A cell of CSV. A spreadsheet would compute a text that begins like a formula, so that one gets an apostrophe before it. */
function quoted(cell) {
    const text = String(cell), shown = /^[=+\-@\t\r]/.test(text) && !NUMBER.test(text) ? `'${text}` : text;
    return /[",\n\r]/.test(shown) ? `"${shown.replaceAll('"', '""')}"` : shown;
}


/** Surfaces as CSV. A record is {index, line, about}. */
export function surfaces_as_csv(records) {
    const head = ['index', 'surface', 'euler', 'sides', 'orientable', 'vertex_linking', 'boundary', 'components', 'vector'];
    const rows = records.map(({index, line, about}) => [index, about.name, about.euler, about.sides, about.orientable, about.linking, about.boundary, about.components, line.slice(4)]);
    return [head, ...rows].map((row) => `${row.map(quoted).join(',')}\n`).join('');
}

/** Surfaces as JSON, with the question. Entries of vectors are numbers of any length. */
export function surfaces_as_json(question, records) {
    const rows = records.map(({index, line, about}) => {
        const {name, euler, linking, boundary, parts} = about, facts = parts ? {euler, vertex_linking: linking === 'yes', boundary: boundary === 'yes', components: parts} : {};
        return `${JSON.stringify({index, surface: name, ...facts}).slice(0, -1)},"vector":[${line.slice(4).replaceAll(' ', ',')}]}`;
    });
    return `{"question":${JSON.stringify(question)},\n"surfaces":[\n${rows.join(',\n')}\n]}\n`;
}

/** The rows of a table as CSV; they are lists of texts. */
export const rows_as_csv = (rows) => rows.map((row) => `${row.map(quoted).join(',')}\n`).join('');

// ---- pictures

const STYLES = ['fill', 'fill-opacity', 'stroke', 'stroke-width', 'stroke-dasharray', 'stroke-linejoin', 'paint-order', 'font-size', 'font-family', 'text-anchor', 'color'];

/** A picture without the style sheet of the page: its elements have as attributes what they look like now. */
function styled(picture) {
    const copy = picture.cloneNode(true), all = [...copy.querySelectorAll('*')];
    [...picture.querySelectorAll('*')].forEach((element, number) => {
        const style = getComputedStyle(element);
        for (const name of STYLES) all[number].setAttribute(name, style.getPropertyValue(name));
        all[number].removeAttribute('class');
    });
    return copy;
}

const ACROSS = 4; // pictures in a row of a file

/** Pictures as one SVG file, in the colours for light paper. */
export function pictures_as_svg(pictures, title) {
    const page = document.documentElement;
    page.classList.add('light');
    try {
        return as_one_file(pictures, title);
    } finally {
        page.classList.remove('light');
    }
}

function as_one_file(pictures, title) {
    const file = document.createElementNS('http://www.w3.org/2000/svg', 'svg'), name = document.createElementNS('http://www.w3.org/2000/svg', 'title');
    const [width, height] = ['width', 'height'].map((side) => Math.max(...pictures.map((picture) => Number(picture.getAttribute(side)))));
    name.textContent = title;
    file.append(name);
    pictures.forEach((picture, number) => {
        const copy = styled(picture);
        for (const [key, value] of [['x', width * (number % ACROSS)], ['y', height * Math.floor(number / ACROSS)]]) copy.setAttribute(key, value);
        for (const key of ['tabindex', 'class']) copy.removeAttribute(key);
        file.append(copy);
    });
    const size = [width * Math.min(ACROSS, pictures.length), height * Math.ceil(pictures.length / ACROSS)];
    file.setAttribute('width', String(size[0]));
    file.setAttribute('height', String(size[1]));
    file.setAttribute('viewBox', `0 0 ${size.join(' ')}`);
    return `<?xml version="1.0" encoding="UTF-8"?>\n${new XMLSerializer().serializeToString(file)}\n`;
}
