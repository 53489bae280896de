// The vectors of answers as the page keeps them, without a browser: each line of standard input is the text of an answer, as
// JSON; each line of the output is {"lines", "text", "first", "kept"}: the lines of its vectors, the answer that is written
// again of them, at least its first 20 bytes, and how many bytes are kept.
import {createInterface} from 'node:readline';
import {vectors_of} from '../texts.js';

const decoded = (bytes) => new TextDecoder().decode(bytes);

for await (const line of createInterface({input: process.stdin})) {
    const lines = vectors_of(new TextEncoder().encode(JSON.parse(line)));
    const kept = Object.values(lines).reduce((sum, value) => sum + (value.byteLength ?? 0), 0);
    console.log(JSON.stringify({lines: lines.slice(0, lines.length), text: decoded(lines.bytes()), first: decoded(lines.first(20)), kept}));
}
