// What the page reads before it asks: whether a file, a paste or a link is text, and files that are compressed.
import {MOST_INPUT} from './engine.js';
import {program_of} from './foreign.js';

const MOST_OTHERS = 1000; // characters that are not ASCII; a field full of them takes a browser minutes
const MOST_UNPACKED = 1 << 26;
const HEAD = 4096; // bytes that show whether a long file is of another program
const NO_TEXT = /[\0-\x08\x0b\x0c\x0e-\x1f\x7f\ufffd]/;

/** The most bytes of a file of another program. */
export const MOST_IN_A_FILE = 1 << 25;

/** Whether a text can be an input, so that the field may show it. */
export function is_readable(text) {
    return text.length <= MOST_INPUT && !NO_TEXT.test(text) && (text.match(/[^\0-\x7f]/g) ?? []).length <= MOST_OTHERS;
}

/** Whether a text is to be read though it is longer than an input: its beginning is that of a file of another program. */
export const may_be_translated = (text) => text.length <= MOST_IN_A_FILE && program_of(text.slice(0, HEAD)) !== null;

const is_packed = (bytes) => bytes[0] === 0x1f && bytes[1] === 0x8b;
// what follows is read later: a character that is cut off at the end is left out
const head_of = (bytes) => new TextDecoder().decode(bytes.subarray(0, HEAD), {stream: true});
const joined_bytes = async (parts) => new Uint8Array(await new Blob(parts).arrayBuffer());

/** How many bytes are read of a file that begins so. */
const most_of = (head, most_of_others) => (program_of(head) === null ? MOST_INPUT : most_of_others);

/** The bytes of a compressed file, as {content, most}: the content is null if it is damaged, or longer than the `most` bytes that are read. */
async function unpacked(file) {
    const parts = [];
    let length = 0, most = null;
    try {
        const reader = file.stream().pipeThrough(new DecompressionStream('gzip')).getReader();
        for (let {done, value} = await reader.read(); !done; {done, value} = await reader.read()) {
            parts.push(value);
            length += value.length;
            if (length < HEAD) continue;
            most ??= most_of(head_of(await joined_bytes(parts)), MOST_UNPACKED);
            if (length <= most) continue;
            await reader.cancel();
            return {content: null, most: NO_TEXT.test(head_of(parts[0])) ? 0 : most};
        }
    } catch {
        return {content: null, most: 0};
    }
    return {content: await joined_bytes(parts), most: 0};
}

/** Bytes as text, or null if they are none. */
function decoded(bytes) {
    try {
        return new TextDecoder('utf-8', {fatal: true, ignoreBOM: true}).decode(bytes);
    } catch {
        return null;
    }
}

/** A text as an input: {text, notes}, with null for a text that cannot be one. `translate` makes inputs of files of other programs. */
export function translated_text(text, translate) {
    const {text: made, notes} = translate(text) ?? {text, notes: []};
    return {text: is_readable(made) ? made : null, notes};
}

/** The bytes of a file, as {content, most}: the content is null if it is damaged, or longer than the `most` bytes that are read. */
async function content_of(file, head) {
    const most = is_packed(head) ? MOST_IN_A_FILE : most_of(head_of(head), MOST_IN_A_FILE);
    if (file.size > most) return {content: null, most};
    return is_packed(head) ? unpacked(file) : {content: new Uint8Array(await file.arrayBuffer()), most: 0};
}

/**
 * What a file has: {bytes, text, notes, most}, with its first bytes. The text is null if the file has none that can be shown;
 * if it is too long, `most` is how many bytes are read of such files, and else 0.
 */
export async function opened(file, translate) {
    const head = new Uint8Array(await file.slice(0, HEAD).arrayBuffer()), bytes = head.slice(0, 8);
    const {content, most} = await content_of(file, head), text = content && decoded(content);
    if (typeof text !== 'string') return {bytes, text: null, notes: [], most};
    const {text: made, notes} = translated_text(text, translate);
    return {bytes, text: made, notes: is_packed(head) && !notes.length ? ['it was compressed'] : notes, most: 0};
}
