// Reads DER for display: elements, object identifiers, numbers, times, strings and names. What is not as expected is shown in hexadecimal, and never
// throws: nothing that is decided rests on it.
import { NAMES } from "./names.mjs";

const TAG_NUMBERS = 0x1f, LONG_LENGTH = 0x80;
const LONGEST_NUMBER = 64; // octets
const LONGEST_TIME = 40; // octets
const LEAST_OF_TIME = ["01", "01", "00", "00", "00"], MOST_OF_TIME = ["12", "31", "23", "59", "60"]; // month to second
const LONGEST_TEXT = 1000; // characters of a name that are shown: engines take quadratic time for marks one after another
const OBJECT_IDENTIFIER = 0x06, UTC_TIME = 0x17, GENERALIZED_TIME = 0x18, SEQUENCE = 0x30, SET = 0x31;
const MOST_PARTS = 100; // of a name that are shown
const ENCODINGS = new Map([[0x0c, "utf-8"], [0x12, "latin1"], [0x13, "latin1"], [0x14, "latin1"], [0x16, "latin1"], [0x1a, "latin1"], [0x1e, "utf-16be"]]);
// The attributes of names that have a short name (RFC 4514, section 3, and what tools write beside those).
const OF_NAMES = new Map([
    ["2.5.4.3", "CN"], ["2.5.4.4", "SN"], ["2.5.4.5", "serialNumber"], ["2.5.4.6", "C"], ["2.5.4.7", "L"], ["2.5.4.8", "ST"], ["2.5.4.9", "STREET"],
    ["2.5.4.10", "O"], ["2.5.4.11", "OU"], ["2.5.4.12", "title"], ["2.5.4.42", "GN"], ["2.5.4.97", "organizationIdentifier"],
    ["0.9.2342.19200300.100.1.1", "UID"], ["0.9.2342.19200300.100.1.25", "DC"], ["1.2.840.113549.1.9.1", "emailAddress"],
]);

export const areEqual = (one, other) => one.length === other.length && one.every((it, index) => it === other[index]);
export const hexOf = octets => Array.from(octets, it => it.toString(16).padStart(2, "0")).join("");

/** The element at a place: its identifier octet, its contents, and where the next one begins. Null if there is none whose length is definite. */
export function elementAt(octets, at = 0) {
    if (at + 2 > octets.length || (octets[at] & TAG_NUMBERS) === TAG_NUMBERS) return null;
    const first = octets[at + 1], count = first > LONG_LENGTH ? first - LONG_LENGTH : 0;
    if (first === LONG_LENGTH || count > 4 || at + 2 + count > octets.length) return null;
    const length = count ? octets.subarray(at + 2, at + 2 + count).reduce((sum, it) => sum * 256 + it, 0) : first;
    const begin = at + 2 + count;
    if (begin + length > octets.length) return null;
    return { identifier: octets[at], contents: octets.subarray(begin, begin + length), octets: octets.subarray(at, begin + length), end: begin + length };
}

/** The elements one after another, up to the first octets that are none. */
export function elementsIn(octets) {
    const found = [];
    for (let it = elementAt(octets); it; it = elementAt(octets, it.end)) found.push(it);
    return found;
}

/** The text of an OBJECT IDENTIFIER with these contents; in hexadecimal if it is longer than any that is used, or not in DER. */
export function oidOf(contents) {
    const isPadded = contents.some((it, index) => it === 0x80 && (index === 0 || contents[index - 1] < 0x80));
    if (isPadded || contents.length > LONGEST_NUMBER || contents[contents.length - 1] >= 0x80) return hexShown(contents);
    const numbers = [];
    let number = 0n;
    for (const octet of contents) {
        number = (number << 7n) | BigInt(octet & 0x7f);
        if (octet < 0x80) {
            numbers.push(number);
            number = 0n;
        }
    }
    if (!numbers.length) return "";
    const first = numbers[0] < 80n ? numbers[0] / 40n : 2n;
    return [first, numbers[0] - 40n * first, ...numbers.slice(1)].join(".");
}

/** The name of an object identifier in listings, with it in brackets; if it has none, only itself. */
export function named(oid) {
    const name = NAMES.get(oid);
    return name ? `${name} (${oid})` : oid;
}

/** The number of an INTEGER with these contents, in decimal; in hexadecimal if it is longer than any that is used. */
export function integerOf(contents) {
    if (contents.length > LONGEST_NUMBER) return `#${hexOf(contents)}`;
    const number = BigInt(`0x${hexOf(contents) || "0"}`);
    return String(contents[0] >= 0x80 ? number - (1n << BigInt(8 * contents.length)) : number);
}

/** A time as 2026-11-30 12:00:00 UTC; null if the text is no such time. */
export function timeOf(identifier, contents) {
    if (contents.length > LONGEST_TIME) return null;
    const text = String.fromCharCode(...contents);
    const pattern = { [UTC_TIME]: /^(\d\d)(\d\d)(\d\d)(\d\d)(\d\d)(\d\d)Z$/, [GENERALIZED_TIME]: /^(\d{4})(\d\d)(\d\d)(\d\d)(\d\d)(\d\d)(?:\.(\d+))?Z$/ };
    const found = pattern[identifier]?.exec(text);
    if (!found || found.slice(2, 7).some((it, index) => it < LEAST_OF_TIME[index] || it > MOST_OF_TIME[index])) return null;
    const [, year, month, day, hour, minute, second, fraction] = found;
    const century = identifier === UTC_TIME ? (Number(year) < 50 ? "20" : "19") : "";
    return `${century}${year}-${month}-${day} ${hour}:${minute}:${second}${fraction ? `.${fraction}` : ""} UTC`;
}

// A letter with its marks; or what could show another name than there is: what cannot be seen, turns the direction of writing, or is a mark of nothing.
const LETTER = "(?!\\p{DI})[\\p{L}\\p{N}](?:(?!\\p{DI})\\p{M}){1,3}", UNSEEN = "[\\p{C}\\p{Zl}\\p{Zp}\\p{M}\\p{DI}\\u00a0\\u2800]";
const LETTER_OR_UNSEEN = new RegExp(`(${LETTER})|${UNSEEN}`, "gu");

/** A text in which what cannot be seen is shown by its number. Of a long one the beginning. */
export function visible(text) {
    const shown = text.slice(0, LONGEST_TEXT).normalize("NFC").replace(LETTER_OR_UNSEEN, (it, letter) => letter ?? `\\u{${it.codePointAt(0).toString(16)}}`);
    return text.length > LONGEST_TEXT ? `${shown} .. (${text.length} characters)` : shown;
}

/** Octets in hexadecimal, as RFC 4514 has what is no string; of many the first. */
const hexShown = octets => `#${hexOf(octets.subarray(0, LONGEST_NUMBER))}${octets.length > LONGEST_NUMBER ? ".." : ""}`;

/** The elements in one with this identifier octet; null if it has another one, or more in it than elements. */
function partsOf(element, identifier) {
    const found = element?.identifier === identifier ? elementsIn(element.contents) : [], last = found[found.length - 1];
    return last?.end === element?.contents.length ? found : null;
}

/** The text of a value in a name, with what RFC 4514 has escaped; in hexadecimal if it is no string. */
function valueOf(element) {
    const encoding = ENCODINGS.get(element.identifier);
    if (!encoding) return hexShown(element.octets);
    try {
        const text = new TextDecoder(encoding, { ignoreBOM: true, fatal: true }).decode(element.contents);
        return visible(text.replace(/["+,;<>\\]|^[ #]| $/g, it => `\\${it}`));
    } catch {
        return hexShown(element.octets);
    }
}

function partOf(attribute) {
    const parts = partsOf(attribute, SEQUENCE);
    if (parts?.length !== 2 || parts[0].identifier !== OBJECT_IDENTIFIER) return hexShown(attribute.octets);
    const oid = oidOf(parts[0].contents);
    return `${OF_NAMES.get(oid) ?? oid}=${valueOf(parts[1])}`;
}

/** A Name as RFC 4514 has it: the last part first. What is no Name is shown in hexadecimal, and of a long one the end. */
export function nameOf(octets) {
    const name = elementAt(octets), sets = name?.end === octets.length ? partsOf(name, SEQUENCE) : null;
    if (!sets) return octets.length === 2 && octets[0] === SEQUENCE ? "" : hexShown(octets);
    const shown = sets.slice(-MOST_PARTS).reverse().map(it => partsOf(it, SET)?.map(partOf).join("+") ?? hexShown(it.octets)).join(",");
    const cut = shown.length > LONGEST_TEXT ? `${shown.slice(0, LONGEST_TEXT)} ..` : shown;
    return sets.length > MOST_PARTS ? `${cut} .. (${sets.length} parts)` : cut;
}

/** What a certificate says (RFC 5280, section 4.1); null if it is none that is understood. */
export function certificateOf(octets) {
    const whole = elementAt(octets), body = whole && elementAt(whole.contents);
    if (!body || whole.identifier !== 0x30 || body.identifier !== 0x30) return null;
    const parts = elementsIn(body.contents), [serial, , issuer, validity, subject, key] = parts[0]?.identifier === 0xa0 ? parts.slice(1) : parts;
    if (!key) return null;
    const times = elementsIn(validity.contents).map(it => timeOf(it.identifier, it.contents));
    const identifier = keyIdentifierIn(parts.find(it => it.identifier === 0xa3));
    return {
        serial: integerOf(serial.contents), issuerHex: hexOf(issuer.octets), issuer: nameOf(issuer.octets), subject: nameOf(subject.octets),
        from: times[0], until: times[1], keyIdentifier: identifier,
    };
}

/** The subject key identifier among extensions (RFC 5280, section 4.2.1.2), in hexadecimal; null if there is none. */
function keyIdentifierIn(extensions) {
    const list = extensions && elementAt(extensions.contents);
    for (const extension of list ? elementsIn(list.contents) : []) {
        const parts = elementsIn(extension.contents), inner = parts.length > 1 && elementAt(parts[parts.length - 1].contents);
        if (parts.length > 1 && oidOf(parts[0].contents) === "2.5.29.14" && inner) return hexOf(inner.contents);
    }
    return null;
}
