// What happens at the end of memory: memory.js MODULE. Prints a line of JSON for each trial, {trial, statuses}: how often each
// status came, or a trap.
import {readFileSync} from 'node:fs';
import {call} from '../engine.js';

const module = new WebAssembly.Module(readFileSync(process.argv[2]));
const encoder = new TextEncoder();
const MIB = 2 ** 20;
const OF_9 = 'sig jLvLAQQadhfhfggiibuvfgvncab\n';
const OF_24 = 'sig yLALvLvAzAQMzzMQQaccehjikqpoornspvuttwwvxxbggggtccanffxwavawcvaeccc\n';

function status_of(words, input, limit, room) {
    try {
        return call(module, words, typeof input === 'string' ? encoder.encode(input) : input, limit, room).status;
    } catch (fault) {
        return `trap: ${fault}`;
    }
}

function report(trial, statuses) {
    const counts = {};
    for (const status of statuses) counts[status] = (counts[status] ?? 0) + 1;
    console.log(JSON.stringify({trial, statuses: counts}));
}

/** An instance that is asked more than once. */
class Session {
    constructor() {
        this.exports = new WebAssembly.Instance(module).exports;
    }

    area(length) {
        return Number(this.exports.trinorm_area(BigInt(length)));
    }

    ask(words, input, room = MIB) {
        const parts = [encoder.encode(words), encoder.encode(input)], areas = parts.map((part) => this.area(part.length));
        const answer = this.area(room), needed = this.area(8);
        if ([...areas, answer, needed].includes(0)) return 8;
        parts.forEach((part, number) => new Uint8Array(this.exports.memory.buffer, areas[number], part.length).set(part));
        const [words_at, input_at, answer_at, needed_at] = [...areas, answer, needed].map(BigInt);
        return this.exports.trinorm_run(words_at, BigInt(parts[0].length), input_at, BigInt(parts[1].length), answer_at, BigInt(room), needed_at);
    }
}

const limits = Array.from({length: 336}, (_, number) => 4096 + 1777 * number);
report('surfaces of 9 under many limits', limits.map((limit) => status_of(['surfaces'], OF_9, limit, 16384)));
report('surfaces of 24 under 100 MiB', [status_of(['surfaces'], OF_24, 100 * MIB)]);
report('no words', [status_of([], '')]);
report('a long word', [status_of(['x'.repeat(1e6)], '')]);
report('an input of 2 MiB', [status_of(['info'], new Uint8Array(2 * MIB).fill(65))]);
report('a comment of 1 MiB', [status_of(['info'], '#'.repeat(MIB))]);
report('1,000 tetrahedra', ['info', 'csig'].map((command) => status_of([command], `tri 1000\n${'- - - -\n'.repeat(1000)}`)));
report('room of 1 byte', [status_of(['surfaces'], 'sig cPcbbbiht', 0, 1)]);
report('100,000 steps', [status_of(['play'], `sig bkaagj\n${'14 0\nundo\n'.repeat(50000)}`)]);

const full = new Session();
let taken = 0;
for (const mebibytes of [1024, 1024, 1024, 512, 256, 128, 64]) if (full.area(mebibytes * MIB)) taken += mebibytes;
report('surfaces of 24 with a full memory', [full.ask('surfaces', OF_24)]);
console.log(JSON.stringify({trial: 'held', taken, bytes: full.exports.memory.buffer.byteLength}));
report('an area of 4 GiB', [full.area(2 ** 32), full.area(2 ** 47)]);
report('the same instance afterwards', [full.ask('info', 'sig cPcbbbiht\n', 4096)]);
full.exports.trinorm_forget();
report('after trinorm_forget', [full.ask('info', 'sig cPcbbbiht\n')]);
