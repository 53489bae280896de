// Searches the pages of the site. The index is a script, which a page may load from the disk too; it is loaded when the field is
// used for the first time.
(() => {
    const MOST_SHOWN = 20;
    const AROUND = 80; // characters of a text before and after what was found
    const base = new URL('.', document.currentScript.src), form = document.getElementById('searching');
    const field = document.getElementById('search'), list = document.getElementById('found'), status = document.getElementById('found_count');
    let sections = null; // each as {page, anchor, title, heading, text, plain}
    let loading = null;

    /** The index as sections. */
    function read(index) {
        return index.sections.map(([page, anchor, heading, text]) => {
            const [address, title] = index.pages[page];
            return {address, anchor, title, heading, text, plain: `${title}\n${heading}\n${text}`.toLowerCase()};
        });
    }

    /** Loads the index once. */
    function load() {
        loading ??= new Promise((done, failed) => {
            const script = document.createElement('script');
            script.src = new URL('search_index.js', base).href;
            script.onload = () => { sections = read(globalThis.trinorm_index); done(); };
            script.onerror = () => failed(new Error('search_index.js is missing'));
            document.head.append(script);
        });
        return loading;
    }

    /** How well a section fits words that it has: headings and titles count more than its text. */
    function weight({title, heading, text}, words) {
        const [in_title, in_heading, in_text] = [title, heading, text].map((part) => part.toLowerCase());
        return words.reduce((sum, word) => sum + (in_heading.includes(word) ? 8 : 0) + (in_title.includes(word) ? 4 : 0) + (in_text.split(word).length - 1 ? 1 : 0), 0);
    }

    /** The sections that have all words, the best first. */
    function found(words) {
        const fitting = sections.filter(({plain}) => words.every((word) => plain.includes(word)));
        return fitting.map((section, place) => ({section, place, weight: weight(section, words)})).sort((one, other) => other.weight - one.weight || one.place - other.place).map(({section}) => section);
    }

    /** A part of a text round the first word that it has, with all words marked. Texts become text nodes, and never markup. */
    function excerpt(text, words) {
        const plain = text.toLowerCase(), places = words.map((word) => plain.indexOf(word)).filter((place) => place >= 0);
        const middle = Math.min(...places, text.length), from = Math.max(0, middle - AROUND), to = middle + AROUND;
        const shown = `${from ? '… ' : ''}${text.slice(from, to)}${to < text.length ? ' …' : ''}`;
        const pattern = new RegExp(`(${words.map((word) => word.replace(/[.*+?^${}()|[\]\\]/g, '\\$&')).join('|')})`, 'gi');
        return shown.split(pattern).map((part, number) => {
            if (number % 2 === 0) return part;
            const mark = document.createElement('mark');
            mark.textContent = part;
            return mark;
        });
    }

    function entry({address, anchor, title, heading, text}, words) {
        const item = document.createElement('li'), link = document.createElement('a'), about = document.createElement('p');
        link.href = new URL(anchor ? `${address}#${anchor}` : address, base).href;
        link.textContent = heading && heading !== title ? `${title}: ${heading}` : title;
        about.append(...excerpt(text, words));
        item.append(link, about);
        return item;
    }

    function show() {
        const words = field.value.toLowerCase().split(/\s+/).filter(Boolean), sought = words.length ? found(words) : [];
        list.replaceChildren(...sought.slice(0, MOST_SHOWN).map((section) => entry(section, words)));
        const more = sought.length > MOST_SHOWN ? `; the first ${MOST_SHOWN} are shown` : '';
        status.textContent = words.length ? `${sought.length || 'No'} ${sought.length === 1 ? 'section' : 'sections'} found${more}` : '';
        form.dataset.shown = field.value;
    }

    const search = () => load().then(show, (fault) => { status.textContent = `The pages cannot be searched: ${fault.message}`; });

    form.hidden = false;
    field.addEventListener('focus', () => load().catch(() => {}), {once: true});
    field.addEventListener('input', search);
    form.addEventListener('submit', (event) => {
        event.preventDefault();
        search().then(() => list.querySelector('a')?.click());
    });
    field.addEventListener('keydown', (event) => {
        if (event.key !== 'Escape') return;
        field.value = '';
        search();
    });
    if (field.value) search(); // which a browser keeps when one comes back
})();
