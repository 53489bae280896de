// What belongs to the page: files next to it, or, if the page is one file, elements of it with their names.

const element_of = (name) => document.querySelector(`script[data-file="${name}"]`);

/** The response for a file next to the page; if the connection breaks, that of a second try. */
async function response_of(name) {
    let response;
    try {
        response = await fetch(name);
    } catch {
        response = await fetch(name);
    }
    if (!response.ok) throw new Error(`${name} is missing (${response.status})`);
    return response;
}

/** The text of a file of the page. */
export async function text_of(name) {
    const element = element_of(name);
    if (element) return element.textContent;
    return (await response_of(name)).text();
}

/** The bytes of a file of the page, which an element holds in base 64. */
export async function bytes_of(name) {
    const element = element_of(name);
    if (element) return Uint8Array.from(atob(element.textContent.trim()), (character) => character.charCodeAt(0));
    return new Uint8Array(await (await response_of(name)).arrayBuffer());
}

/** A new worker of a file of the page. The text of an element starts as a script, since a page from the disk may not load a module. */
export function new_worker(name) {
    const element = element_of(name);
    if (!element) return new Worker(name, {type: 'module'});
    return new Worker(URL.createObjectURL(new Blob([element.textContent], {type: 'text/javascript'})));
}
