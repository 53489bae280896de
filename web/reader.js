// Reads one file or one pasted text, off the page's own thread: {file} by what `opened` returns, {text} by what `translated_text`
// returns, or either by {fault} if it cannot be read.
import {MOST_INPUT} from './engine.js';
import {from_other_program} from './foreign.js';
import {opened, translated_text} from './reading.js';

const translate = (text) => from_other_program(text, MOST_INPUT);

self.onmessage = async ({data: {file, text}}) => {
    try {
        self.postMessage(file ? await opened(file, translate) : translated_text(text, translate));
    } catch (fault) {
        self.postMessage({fault: fault.message});
    }
};
