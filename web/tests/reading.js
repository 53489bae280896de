// What the page makes of texts, without a browser: each line of standard input is {"text", "reads"}, or {"find": NAME}; each
// line of the output is what `understood` returns, with the milliseconds, or what the name names.
import {createInterface} from 'node:readline';
import {readFileSync} from 'node:fs';
import {Names, understood} from '../understood.js';

const names = new Names(JSON.parse(readFileSync(new URL('../names.json', import.meta.url), 'utf8')));

for await (const line of createInterface({input: process.stdin})) {
    const {text, reads, find} = JSON.parse(line), begun = performance.now();
    const outcome = find === undefined ? understood(text, reads, names) : {found: names.find(find) ?? null};
    console.log(JSON.stringify({...outcome, milliseconds: performance.now() - begun}));
}
