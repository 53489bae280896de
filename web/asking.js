// Questions to the engine, and files to be read, one at a time, in workers that can be stopped at once.
import {MOST_KEPT} from './engine.js';
import {new_worker} from './files.js';
import {vectors_of} from './texts.js';

/** The question was ended by `stop`. */
export class Stopped extends Error {}

/** The engine trapped or did not start. */
export class Broken extends Error {}

/** What was answered: {status, held, milliseconds} with the bytes of the answer, or `surfaces` that were read of them already. */
class Outcome {
    answer; lines;

    constructor({answer, ...facts}) {
        Object.assign(this, facts, {answer, size: answer?.length, lines: null});
    }

    /** The vectors of the answer as lines. The answer is kept in these from then on, since a long one takes much memory. */
    vectors() {
        this.lines ??= vectors_of(this.answer);
        this.answer = null;
        return this.lines;
    }

    get bytes() { return this.answer ?? this.lines.bytes(); }

    /** At least the first `most` bytes. */
    first(most) { return (this.answer ?? this.lines.first(most)).subarray(0, most); }

    /** The answer as text. */
    get text() { return new TextDecoder().decode(this.bytes); }
}

const MOST_ANSWERED = 1 << 22; // bytes that a worker may have worked on and wait for another question

export class Engine {
    /** module: a compiled trinorm.wasm */
    constructor(module) {
        this.module = module;
        this.handled = 0; // bytes of inputs and answers of this worker
    }

    /** Asks for the outcome of words and an input. `is_description` says that surfaces are to be read of it, as of `describe`. */
    ask(words, input, is_description = false) {
        // a worker keeps the module of its first message, and with it the instance
        const module = this.worker ? undefined : this.module;
        this.worker ??= new_worker('worker.js');
        return new Promise((answered, failed) => {
            this.fail = failed;
            this.worker.onmessage = ({data}) => {
                this.handled += input.length + (data.answer?.length ?? 0);
                // an instance that holds much is given back at once
                if (data.held > MOST_KEPT) this.drop();
                if (data.fault) failed(new Broken(data.fault));
                else answered(new Outcome(data));
            };
            this.worker.onerror = (event) => {
                this.drop();
                failed(new Broken(event.message || 'the worker did not start'));
            };
            this.worker.postMessage({module, words, input: new TextEncoder().encode(input), limit: 0, is_description});
        });
    }

    drop() {
        this.worker?.terminate();
        this.worker = undefined;
        this.handled = 0;
    }

    /** Gives back the memory of a worker that has worked on much, once nothing is being answered. */
    rest() {
        if (this.handled > MOST_ANSWERED) this.drop();
    }

    /** Ends the question that is being answered. */
    stop() {
        this.drop();
        this.fail?.(new Stopped());
    }
}

/** Reads files and pasted texts, one at a time, in a worker that can be stopped at once. */
export class Reader {
    get is_reading() { return Boolean(this.worker); }

    /** What the worker makes of {file} or {text}. Ends what is being read. */
    read(what) {
        this.stop();
        const worker = this.worker = new_worker('reader.js');
        return new Promise((done, failed) => {
            this.fail = failed;
            worker.onmessage = ({data}) => (data.fault === undefined ? done(data) : failed(new Error(data.fault)));
            worker.onerror = (event) => failed(new Error(event.message || 'the worker did not start'));
            worker.onmessageerror = () => failed(new Error('the worker returned something else'));
            worker.postMessage(what);
        }).finally(() => { if (this.worker === worker) this.drop(); });
    }

    drop() {
        this.worker?.terminate();
        this.worker = undefined;
    }

    /** Ends what is being read. */
    stop() {
        if (!this.worker) return;
        this.drop();
        this.fail(new Stopped());
    }
}
