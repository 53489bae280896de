#!/usr/bin/env node
// The program over trinorm.wasm: words, standard input, standard output and exit status are those of the native one.
// TRINORM_WASM names another module, and TRINORM_MOST_BYTES the most bytes of memory.
import {readFileSync, readSync, writeSync} from 'node:fs';
import {MOST_INPUT, NO_MEMORY, call} from '../engine.js';

const COMMANDS_WITHOUT_INPUT = ['make', 'bulk'];
const FAILED_SOURCE = 6;
const FAILED_SINK = 7;
const NO_ENGINE = 70; // no status of the program's: the module is missing, it trapped, or TRINORM_MOST_BYTES is no number

const pause = () => Atomics.wait(new Int32Array(new SharedArrayBuffer(4)), 0, 0, 5);

/** Repeats a call of the system's as long as it would have to wait. */
function patiently(work) {
    for (;;) {
        try {
            return work();
        } catch (fault) {
            if (fault.code === 'EOF') return 0; // the end of a pipe on Windows
            if (fault.code !== 'EAGAIN') throw fault;
            pause();
        }
    }
}

/** Standard input, up to one byte more than an input may have. */
function read_input() {
    const room = new Uint8Array(MOST_INPUT + 1);
    let length = 0;
    for (let count = 1; count && length < room.length; length += count) {
        count = patiently(() => readSync(0, room, length, room.length - length));
    }
    return room.subarray(0, length);
}

function write(bytes) {
    for (let from = 0; from < bytes.length;) from += patiently(() => writeSync(1, bytes, from));
}

/** The program's own answer if standard input can't be read. */
function refuse_reading() {
    try {
        write(new TextEncoder().encode('refused: read\n'));
    } catch {
        return FAILED_SINK;
    }
    return FAILED_SOURCE;
}

/** The most bytes of memory that the environment allows; 0 for what the host gives. */
function most_bytes() {
    const given = process.env.TRINORM_MOST_BYTES || '0';
    if (!/^[0-9]{1,15}$/.test(given)) throw new Error(`TRINORM_MOST_BYTES must be a number of bytes, not ${given}`);
    return Number(given);
}

function main(words) {
    const limit = most_bytes();
    const module = new WebAssembly.Module(readFileSync(process.env.TRINORM_WASM || new URL('../trinorm.wasm', import.meta.url)));
    let input = new Uint8Array(0);
    try {
        if (!COMMANDS_WITHOUT_INPUT.includes(words[0])) input = read_input();
    } catch {
        return refuse_reading();
    }
    const {status, answer} = call(module, words, input, limit);
    if (status === NO_MEMORY) return status;
    try {
        write(answer);
    } catch {
        return FAILED_SINK;
    }
    return status;
}

try {
    process.exitCode = main(process.argv.slice(2));
} catch (fault) {
    process.stderr.write(`trinorm.js: ${fault.message}\n`);
    process.exitCode = NO_ENGINE;
}
