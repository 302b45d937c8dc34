// A message and its DER side by side: which octets are copied from one to the other, which are left out, and which are made.
const MOST_OCTETS = 48; // of a part that are shown
const MOST_PARTS = 400; // of each side

const partOf = (kind, octets, begin, end, number) => ({
    kind, begin, length: end - begin, octets: octets.slice(begin, Math.min(end, begin + MOST_OCTETS)), ...(number === undefined ? {} : { number }),
});

/** The DER: the pieces in their order. */
function* partsOfDer(der, pieces) {
    let at = 0;
    for (const [number, { length, made }] of pieces.entries()) {
        yield made ? partOf("made", der, at, at + length) : partOf("copied", der, at, at + length, number);
        at += length;
    }
}

/**
 * The message: what is copied, in the order in which it lies there, and what is left out before it, between it and after it. Octets that are copied
 * twice are in the first part that has them.
 */
function* partsOfMessage(octets, pieces) {
    const copied = [...pieces.entries()].filter(([, it]) => !it.made).sort(([, one], [, other]) => one.place - other.place);
    let at = 0;
    for (const [number, { place, length }] of copied) {
        if (at < place) yield partOf("left", octets, at, place);
        const begin = Math.max(at, place), end = Math.max(begin, place + length);
        yield partOf("copied", octets, begin, end, number);
        at = end;
    }
    if (at < octets.length) yield partOf("left", octets, at, octets.length);
}

function shownOf(parts) {
    const all = [...parts];
    return { shown: all.slice(0, MOST_PARTS), more: Math.max(0, all.length - MOST_PARTS) };
}

/** Returns the parts of both, in order: at most 400 of each, with at most 48 octets of one. A part that is copied has the number of its piece. */
export function sidesOf(octets, der, pieces) {
    return { message: shownOf(partsOfMessage(octets, pieces)), der: shownOf(partsOfDer(der, pieces)) };
}
