// Compares answers of trinorm.wasm with given ones, byte for byte: compare.js MODULE < CASES
// CASES are lines of JSON, {words, input, output, status}, their bytes as latin-1. Prints a line of JSON: how many are the
// same, and the first ones that differ.
import {readFileSync} from 'node:fs';
import {call} from '../engine.js';

const module = new WebAssembly.Module(readFileSync(process.argv[2]));
const bytes_of = (text) => Uint8Array.from(text, (character) => character.charCodeAt(0));

function outcome_of({words, input}) {
    try {
        const {status, answer} = call(module, words, bytes_of(input));
        return {status, output: Buffer.from(answer).toString('latin1')};
    } catch (fault) {
        return {status: String(fault), output: ''};
    }
}

let same = 0;
const different = [];
for (const line of readFileSync(0, 'utf8').trimEnd().split('\n')) {
    const expected = JSON.parse(line), outcome = outcome_of(expected);
    if (outcome.status === expected.status && outcome.output === expected.output) same++;
    else if (different.length < 5) different.push({...expected, got: outcome});
}
console.log(JSON.stringify({same, different}));
