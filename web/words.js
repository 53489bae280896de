// Words that are explained where they occur: by pointing, by the focus and by a touch.
import {by_id, make} from './elements.js';

const LINGER = 250; // milliseconds, in which the pointer may go from a word to its explanation
const ROOM = 8; // pixels between a word and its explanation, and to the edge of the window

let sentences = new Map(); // by their words

/** A word that is explained. */
export const explained = (word, label = word) => make('dfn', {tabIndex: 0, 'data-word': word, 'aria-description': sentences.get(word) ?? ''}, label);

/** The box that explains a word. */
export class Words {
    box; shown; timer;

    /** words: sentences by their words */
    constructor(words) {
        sentences = new Map(Object.entries(words));
        Object.assign(this, {box: by_id('explanation'), shown: null, timer: 0});
    }

    /** Gives the elements of a part of the page their sentences, for readers that do not see the box. */
    describe(part) {
        for (const element of part.querySelectorAll('[data-word]:not([aria-description])')) element.setAttribute('aria-description', sentences.get(element.dataset.word) ?? '');
    }

    show(element) {
        clearTimeout(this.timer);
        const sentence = sentences.get(element.dataset.word);
        if (!sentence || this.shown === element) return;
        this.shown = element;
        this.box.replaceChildren(make('strong', {}, element.dataset.word), `: ${sentence}`);
        if (!this.box.matches(':popover-open')) this.box.showPopover();
        this.place();
    }

    /** Puts the box next to its word. */
    place() {
        const {left, bottom, top} = this.shown.getBoundingClientRect(), {offsetWidth, offsetHeight} = this.box;
        const is_below = bottom + ROOM + offsetHeight <= innerHeight;
        this.box.style.left = `${Math.max(ROOM, Math.min(left, innerWidth - offsetWidth - ROOM))}px`;
        this.box.style.top = `${is_below ? bottom + ROOM / 2 : Math.max(0, top - offsetHeight - ROOM / 2)}px`;
    }

    hide() {
        clearTimeout(this.timer);
        if (this.shown) this.box.hidePopover();
        this.shown = null;
    }

    hide_soon() {
        clearTimeout(this.timer);
        this.timer = setTimeout(() => this.hide(), LINGER);
    }

    listen() {
        const word_of = ({target}) => target.closest?.('[data-word]');
        const react = (event) => { if (word_of(event)) this.show(word_of(event)); };
        for (const name of ['pointerover', 'focusin', 'click']) document.addEventListener(name, react);
        document.addEventListener('pointerout', (event) => { if (word_of(event) && word_of(event) !== document.activeElement) this.hide_soon(); });
        document.addEventListener('focusout', (event) => { if (word_of(event)) this.hide(); });
        document.addEventListener('pointerdown', (event) => { if (!word_of(event) && !this.box.contains(event.target)) this.hide(); });
        document.addEventListener('keydown', ({key}) => { if (key === 'Escape') this.hide(); });
        window.addEventListener('scroll', () => { if (this.shown?.isConnected) this.place(); else this.hide(); }, {capture: true, passive: true});
        this.box.addEventListener('pointerenter', () => clearTimeout(this.timer));
        this.box.addEventListener('pointerleave', () => this.hide_soon());
    }
}
