// What comes into the field for the input from outside: files that are opened or dropped, and pastes.
import {Stopped} from './asking.js';
import {by_id} from './elements.js';
import {MOST_INPUT} from './engine.js';
import {hint_on_file} from './hints.js';
import {is_readable, may_be_translated} from './reading.js';

const UNCHANGED = 'The input was not changed.';
const MEBIBYTE = 1 << 20;

const of_notes = (notes) => (notes.length ? ` It was ${notes.join('; ').replace(/^it was /, '')}.` : '');

/** Why the text of a file is not shown. */
function why_not({most, bytes}, name, hints) {
    const sentence = hint_on_file(hints, bytes), of_what = most > MOST_INPUT ? 'a file of another program' : 'an input';
    const why = most ? `is longer than ${most / MEBIBYTE} MiB, the most that ${of_what} may have` : 'is not a text file';
    return `${name} ${why}${sentence ? `: ${sentence}` : ''}. ${UNCHANGED}`;
}

/**
 * The field for the input, as far as it is filled from outside.
 *
 * reader: what reads; hints: returns the rows of hints; say: shows a sentence, which may be bad; on_change: is called when a
 * reading begins or ends
 */
export class InputField {
    reader; hints; say; on_change; newest;

    constructor({reader, hints, say, on_change}) {
        Object.assign(this, {reader, hints, say, on_change, newest: 0});
    }

    /** Lets a reading end, and says what is wrong if it fails, unless a newer one has begun. `name` is that of what is read. */
    async read(what, name) {
        const number = ++this.newest, reading = this.reader.read(what);
        this.say(`Reading ${name} …`);
        this.on_change();
        try {
            return await reading;
        } catch (fault) {
            if (number !== this.newest) return null;
            if (fault instanceof Stopped) this.say(`Stopped. ${UNCHANGED}`);
            else this.say(`${name} could not be read: ${fault.message}. ${UNCHANGED}`, true);
            return null;
        } finally {
            this.on_change();
        }
    }

    /** Ends what is being read, without a word. */
    drop() {
        this.newest++;
        this.reader.stop();
    }

    put(text, sentence) {
        by_id('input').value = text;
        by_id('input').dispatchEvent(new Event('input'));
        this.say(sentence);
    }

    /** Puts the text of a file into the field. */
    async take(file) {
        if (!file) return;
        const found = await this.read({file}, file.name);
        by_id('file').value = '';
        if (found === null) return;
        if (found.text === null) this.say(why_not(found, file.name, this.hints()), true);
        else this.put(found.text, `Opened ${file.name}.${of_notes(found.notes)}`);
    }

    /** Keeps out what is pasted or dropped and cannot be an input. What is of another program is put there as gluing tables. */
    async keep_out(event, text) {
        if (text.length <= MOST_INPUT && is_readable(text)) return;
        event.preventDefault();
        const found = may_be_translated(text) ? await this.read({text}, 'what was pasted') : {text: null};
        if (found === null) return;
        if (found.text === null) this.say(`What was pasted is not text of at most 1 MiB. ${UNCHANGED}`, true);
        else this.put(found.text, `The input was replaced.${of_notes(found.notes)}`);
    }

    listen() {
        by_id('file').onchange = () => this.take(by_id('file').files[0]);
        by_id('input').addEventListener('paste', (event) => this.keep_out(event, event.clipboardData?.getData('text/plain') ?? ''));
        document.addEventListener('dragover', (event) => { if (has_files(event)) event.preventDefault(); });
        document.addEventListener('drop', (event) => {
            if (has_files(event)) {
                event.preventDefault();
                this.take(event.dataTransfer.files[0]);
            } else if (event.target === by_id('input')) this.keep_out(event, event.dataTransfer?.getData('text/plain') ?? '');
        });
    }
}

const has_files = ({dataTransfer}) => [...dataTransfer?.types ?? []].includes('Files');
