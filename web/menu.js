// A list of actions that opens next to a button.
import {by_id, make} from './elements.js';

/** Offers actions {name, act} next to a button. The arrow keys go through them; Escape closes the list. */
export function offer_actions(button, actions) {
    const menu = by_id('menu');
    const entries = actions.map(({name, act}) => make('button', {type: 'button', role: 'menuitem', onclick: () => { menu.hidePopover(); act(); }}, name));
    menu.replaceChildren(...entries);
    menu.onkeydown = (event) => walk_through(event, entries);
    menu.ontoggle = ({newState}) => { if (newState === 'closed' && (document.activeElement === document.body || menu.contains(document.activeElement))) button.focus(); };
    if (menu.matches(':popover-open')) menu.hidePopover();
    menu.showPopover();
    const {left, bottom, top} = button.getBoundingClientRect(), {offsetWidth, offsetHeight} = menu;
    menu.style.left = `${Math.max(0, Math.min(left, innerWidth - offsetWidth))}px`;
    menu.style.top = `${bottom + offsetHeight <= innerHeight ? bottom : Math.max(0, top - offsetHeight)}px`;
    entries[0]?.focus();
}

function walk_through(event, entries) {
    const at = entries.indexOf(document.activeElement), to = {ArrowDown: at + 1, ArrowUp: at - 1, Home: 0, End: entries.length - 1}[event.key];
    if (to === undefined) return;
    event.preventDefault();
    entries[(to + entries.length) % entries.length].focus();
}
