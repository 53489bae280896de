// The questions of this visit. They are kept in this page alone, and are gone when it is closed.
import {by_id, make} from './elements.js';

const MOST_KEPT_QUESTIONS = 50;
const MOST_IN_A_NAME = 60; // characters

/** A question in a line. */
export function name_of_question({words, input}) {
    const lines = input.split('\n').filter((line) => line.trim()), [first = ''] = lines;
    const about = lines.length > 1 ? `${first.trim()} …` : first.trim(), name = about ? `${words.join(' ')} of ${about}` : words.join(' ');
    return name.length > MOST_IN_A_NAME ? `${name.slice(0, MOST_IN_A_NAME)}…` : name;
}

/** A name for a visit that no other one has, nor the same page after it is loaded again. */
const new_id = () => [...crypto.getRandomValues(new Uint32Array(4))].map((number) => number.toString(36)).join('-');

/** The questions, the newest first. A state of the history names the visit and the number of its question. */
export class Visit {
    ask_again; id; questions; by_number; count;

    /** ask_again: what a button of the list does with its question */
    constructor(ask_again) {
        Object.assign(this, {ask_again, id: new_id(), questions: [], by_number: new Map(), count: 0});
    }

    /** Adds a question {command, options, words, input}, and drops it where it was before. Returns its number. */
    add(question) {
        const key = ({words, input}) => JSON.stringify([words, input]);
        const known = this.questions.find((other) => key(other) === key(question)), number = known?.number ?? ++this.count;
        this.questions = [{...question, number}, ...this.questions.filter((other) => other !== known)].slice(0, MOST_KEPT_QUESTIONS);
        this.by_number = new Map(this.questions.map((one) => [one.number, one]));
        this.draw();
        return number;
    }

    /** The question of a state of the history; undefined if it is gone, or was asked before the page was loaded. */
    find(state) {
        return state?.visit === this.id ? this.by_number.get(state.number) : undefined;
    }

    draw() {
        const entries = this.questions.map((question) => make('li', {}, make('button', {type: 'button', className: 'link', onclick: () => this.ask_again(question)}, name_of_question(question))));
        by_id('visited').replaceChildren(...entries);
        by_id('visit').hidden = this.questions.length < 2;
    }
}
