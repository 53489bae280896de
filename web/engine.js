// One call of the proved function in trinorm.wasm. A new instance takes longer than a short question, so the next call gets
// the same one, with all areas and all blocks of the last call freed. An instance that trapped, or whose memory has grown
// above MOST_KEPT, is dropped.

/** The most bytes of an input. The program reads one byte more of a longer one, and refuses it. */
export const MOST_INPUT = 1048576;

/** The program's exit status if memory runs out. */
export const NO_MEMORY = 8;

const TOO_LITTLE_ROOM = 7;
const AREAS = 10;
const LITTLE_ROOM = 1 << 20;
const MUCH_ROOM = 1 << 26;
const LISTS = ['surfaces', 'rays'];
const SHORT_INPUT = 48; // bytes: a signature of up to 15 tetrahedra

/** The most bytes of memory of an instance that waits for the next call. */
export const MOST_KEPT = 1 << 27;
const NOTHING = new Uint8Array(0);

let kept = null; // {module, exports} of the instance that waits

/** The exports of an instance whose heap is empty. No other call can get it before it is put back. */
function take(module) {
    const exports = kept?.module === module ? kept.exports : new WebAssembly.Instance(module).exports;
    kept = null;
    return exports;
}

/** Frees what the call took, and keeps the instance for the next one. */
function put_back(module, exports) {
    if (exports.memory.buffer.byteLength > MOST_KEPT) return;
    exports.trinorm_forget();
    kept = {module, exports};
}

/** Copies `bytes` into a new area of at least `length` bytes. Returns its address, or 0 if memory runs out. */
function place(exports, bytes, length = bytes.length) {
    const address = Number(exports.trinorm_area(BigInt(Math.max(length, 8))));
    if (address) new Uint8Array(exports.memory.buffer, address, bytes.length).set(bytes);
    return address;
}

/**
 * Bytes of room for an answer. They affect speed alone: much room takes some milliseconds of the host's in a new instance, and
 * if it is too little the call is made again, which takes as long as the first one.
 */
function room_for([command], input) {
    if (LISTS.includes(command)) return input.length > SHORT_INPUT ? MUCH_ROOM : LITTLE_ROOM;
    return Math.max(LITTLE_ROOM, 4 * input.length);
}

/**
 * Answers words and an input as the program does.
 *
 * module: a compiled trinorm.wasm
 * words: strings without a zero character
 * input: bytes, of which at most MOST_INPUT + 1 are read
 * limit: the most bytes of memory, or 0 for what the host gives
 * room: the bytes for the answer; if it is longer the call is made once more with enough
 *
 * Returns {status, answer, held}: the program's exit status, the bytes that it prints, and the bytes of memory of the
 * instance. If memory runs out the status is 8. A trap is thrown, as what the host makes of it.
 */
export function call(module, words, input, limit = 0, room = room_for(words, input)) {
    const exports = take(module), outcome = call_of(exports, words, input.subarray(0, MOST_INPUT + 1), limit, room);
    put_back(module, exports);
    return outcome.status === TOO_LITTLE_ROOM ? call(module, words, input, limit, outcome.needed) : outcome;
}

/** As `call`, by one call of an instance with an empty heap: status 7 if `needed` bytes of room are more than there are. */
function call_of(exports, words, input, limit, room) {
    const spelled = new TextEncoder().encode(words.join('\0'));
    exports.trinorm_limit(BigInt(limit));
    const areas = [place(exports, spelled), place(exports, input), place(exports, NOTHING, room), place(exports, NOTHING)];
    const held = () => exports.memory.buffer.byteLength;
    if (areas.includes(0)) return {status: NO_MEMORY, answer: NOTHING, held: held()};
    const [words_at, input_at, answer_at, needed_at] = areas.map(BigInt);
    const status = exports.trinorm_run(words_at, BigInt(spelled.length), input_at, BigInt(input.length), answer_at, BigInt(room), needed_at);
    if (status === AREAS) throw new Error('internal error: invalid call of the module');
    const needed = Number(new DataView(exports.memory.buffer).getBigUint64(areas[3], true));
    if (status === TOO_LITTLE_ROOM) return {status, needed};
    return {status, answer: new Uint8Array(exports.memory.buffer).slice(areas[2], areas[2] + needed), held: held()};
}
