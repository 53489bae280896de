// Which kind of triangulation an answer of `info` is about: closed, ideal or with boundary. The word `closed` of `info` says
// only that there is no boundary face.

/** A closed vertex link in words. */
function link_name({kind, euler}) {
    if (kind === 'klein') return 'Klein bottle';
    if (kind === 'other') return euler === '1' ? 'projective plane' : `closed surface with χ = ${euler}`;
    return kind;
}

/** The words with how often each is there, as `2 × torus, 1 × Klein bottle`; a single word as it is. */
function counted(words) {
    if (words.length === 1) return words[0];
    return [...new Set(words)].map((word) => `${words.filter((other) => other === word).length} × ${word}`).join(', ');
}

/** What kind of triangulation this is: {name, is_orientable, is_connected, invalid, not_discs, ideal, links, has_round_links, count}. */
export function kind_of({facts, vertices, edges}) {
    const values = Object.fromEntries(facts), ideal = vertices.filter(({closed, kind}) => closed === 'yes' && kind !== 'sphere');
    const name = values.closed === 'no' ? 'bounded' : ideal.length ? 'ideal' : 'closed';
    return {
        name, ideal: ideal.length, count: vertices.length, links: counted(ideal.map(link_name)),
        is_orientable: values.orientable === 'yes', is_connected: values.connected === 'yes',
        invalid: edges.filter(({valid}) => valid === 'no').map(({number}) => number),
        not_discs: vertices.filter(({closed, kind}) => closed === 'no' && kind !== 'disc').map(({number}) => number),
        has_round_links: vertices.some(({closed, euler}) => closed === 'yes' && Number(euler) > 0),
    };
}

function ideal_links({ideal, count, links}) {
    if (count === 1) return `its only vertex link is a ${links}, not a sphere`;
    return `${ideal} of its ${count} vertex links ${ideal === 1 ? 'is not a sphere' : 'are not spheres'} (${links})`;
}

/** The closed vertex links of a triangulation with boundary that are not spheres. */
function with_ideal({ideal, links}) {
    return `ideal vertices: of its closed vertex links, ${ideal} ${ideal === 1 ? 'is not a sphere' : 'are not spheres'} (${links})`;
}

/** A sentence on vertices with a link with boundary that is not a disc. */
function not_discs_sentence({not_discs}) {
    const which = not_discs.length === 1 ? `The link of vertex ${not_discs[0]} has boundary and is not a disc` : `The links of vertices ${not_discs.join(', ')} have boundary and are not discs`;
    return `${which}, so this is not a triangulation of a 3-manifold.`;
}

/** The kind in sentences. */
export function kind_sentence(kind) {
    if (kind.name === 'closed') return 'Closed: each vertex link is a sphere.';
    if (kind.name === 'ideal') return `Ideal: there is no boundary face, and ${ideal_links(kind)}.`;
    const begun = `With boundary faces${kind.ideal ? `, and with ${with_ideal(kind)}` : ''}.`;
    return kind.not_discs.length ? `${begun} ${not_discs_sentence(kind)}` : begun;
}

/** A sentence on invalid edges. */
export function invalid_sentence(edges) {
    const which = edges.length === 1 ? `edge ${edges[0]} is identified with its own reverse` : `edges ${edges.join(', ')} are identified with their own reverses`;
    return `Invalid: ${which}, so this is not a triangulation of a 3-manifold.`;
}

const NO_PROOF = 'This step is topology, and not proved here.';

function closed_sentence(kind, contrary) {
    const begun = `It is closed (each vertex link is a sphere) and ${kind.is_orientable ? 'orientable' : 'not orientable'}`;
    if (!kind.is_orientable || !kind.is_connected) return `${begun}.`;
    if (!contrary) return `${begun}, so it is 0-efficient in the sense of Jaco and Rubinstein. ${NO_PROOF}`;
    return `${begun}, so it is not 0-efficient in the sense of Jaco and Rubinstein${contrary.euler === 1 ? ': the double of this projective plane is a normal sphere' : ''}. ${NO_PROOF}`;
}

function ideal_sentence(kind, contrary) {
    const none = contrary || kind.has_round_links ? '' : ' No vertex link is a sphere or projective plane, so it contains no normal sphere and no normal projective plane. ' + NO_PROOF;
    return `It is an ideal triangulation: ${ideal_links(kind)}. Do not conclude what is true of closed triangulations.${none}`;
}

const BOUNDED = 'It has boundary faces, so discs count as well as spheres and projective planes. Regina’s isZeroEfficient() also returns false if a boundary component is a sphere.';
const TWO_SIDED = 'A two-sided projective plane counts here, but not in Regina’s isZeroEfficient().';
const NOT_CONNECTED = 'It is not connected; all of its components are considered.';

/** What the property means for a kind of triangulation; `contrary` is the surface that is no vertex link, or null. */
export function meaning_of(kind, contrary) {
    if (kind.invalid.length) return invalid_sentence(kind.invalid);
    const parts = kind.name === 'closed' ? [closed_sentence(kind, contrary)] : kind.name === 'ideal' ? [ideal_sentence(kind, contrary)] : [BOUNDED];
    if (kind.name === 'bounded' && kind.ideal) parts.push(`It also has ${with_ideal(kind)}.`);
    if (kind.not_discs.length) parts.push(not_discs_sentence(kind));
    if (!kind.is_orientable) parts.push(kind.name === 'closed' ? TWO_SIDED : `It is not orientable. ${TWO_SIDED}`);
    if (!kind.is_connected) parts.push(NOT_CONNECTED);
    return parts.join(' ');
}

/** Whether 0-efficiency in the sense of Jaco and Rubinstein is what the list decides. */
export const is_of_jaco_and_rubinstein = (kind) => kind.name === 'closed' && kind.is_orientable && kind.is_connected && !kind.invalid.length;
