// Answers one message after the other, off the page's own thread: {module, words, input, limit} by {status, answer, held,
// milliseconds}, or by {fault} if the engine trapped. Later messages may leave the module out. If `is_description` is set, an
// answer of `describe` is read here, and its `surfaces` are returned in its place.
import {call} from './engine.js';
import {read_descriptions} from './texts.js';

let engine;

const page = /** @type {any} */ (self);
const NO_ANSWER = new Uint8Array(0);

/** What is returned of an outcome. */
function returned(outcome, is_description) {
    if (!is_description || outcome.status !== 0) return outcome;
    return {...outcome, answer: NO_ANSWER.slice(), surfaces: read_descriptions(new TextDecoder().decode(outcome.answer))};
}

page.onmessage = ({data: {module, words, input, limit, is_description}}) => {
    const begun = performance.now();
    engine = module ?? engine;
    try {
        const outcome = returned(call(engine, words, input, limit), is_description);
        page.postMessage({...outcome, milliseconds: performance.now() - begun}, [outcome.answer.buffer]);
    } catch (fault) {
        page.postMessage({fault: String(fault), milliseconds: performance.now() - begun});
    }
};
