// Says of a file that is no message what it may be, by its first octets. Nothing that is decided rests on it.
import { MESSAGES } from "./inputs.mjs";

const LONGEST = 64; // octets
const OTHER_FILES = [
    [/^%PDF-/, "This file is a PDF. The signatures in a PDF are not read here."],
    [/^PK\x03\x04/, "This file is a ZIP archive, or a document that is stored as one. If it is signed, its signature is a file of its own in the archive."],
    [/^(?:-----BEGIN PGP|\x89[\x01\x02])/, "This file may be of OpenPGP, which is another standard."],
    [/^(?:\xef\xbb\xbf)?\s*<(?:\?xml|[a-z]+:)/i, "This file is XML. Signatures in XML are another standard."],
    [/^[\t\n\r\x20-\x7e\x80-\xff]{16}/, "This file is text. No message in PEM and no signed mail was found in it."],
];
const HEADER = /^0(?:[\0-\x80]|\x81.|\x82..|\x83...|\x84.{4}|\x85.{5}|\x86.{6}|\x87.{7}|\x88.{8})/s; // of a SEQUENCE
const BASE64 = /^[\xef\xbb\xbf\s]*([A-Za-z0-9+/]{16,})/;
const OTHER_SEQUENCES = [
    [/^\x06\x09\x2a\x86\x48\x86\xf7\x0d\x01\x07[\x03\x06]/, "This is an encrypted message (CMS). What is in it may be signed, once it is decrypted."],
    [/^\x06\x0b\x2a\x86\x48\x86\xf7\x0d\x01\x09\x10\x01\x17/, "This is an encrypted message (CMS). What is in it may be signed, once it is decrypted."],
    [/^\x30(?:\x81.|\x82..|[\x30-\x7f])(?:\xa0\x03\x02\x01|\x02)/s, "This may be a certificate, or a list of certificates. It is no signed message."],
];
const KEYS = [
    [/^\x02\x01(?:\0[\x02\x30]|\x01[\x04\x30])/, "This may be a private key: do not give it to anybody."],
    [/^\x02\x01\x03\x30/, "This may be a private key with its certificate (PKCS #12): do not give it to anybody."],
];

const firstIn = (table, text) => table.find(([pattern]) => pattern.test(text))?.[1];
const labelOf = form => /^PEM \((.*)\)$/.exec(form)?.[1];

/** What is after the header of a SEQUENCE in text; null if there is none. */
function insideOf(text) {
    const header = HEADER.exec(text);
    return header && text.slice(header[0].length);
}

/** The first octets as text; and what is after the header of a SEQUENCE, or null if there is none. */
function headOf(octets) {
    const text = String.fromCharCode(...octets.subarray(0, LONGEST));
    return { text, inside: insideOf(text) };
}

/** What base64 says that a text begins with; an empty text if it does not. */
function decodedHead(text) {
    const [, base64 = ""] = BASE64.exec(text) ?? [];
    return atob(base64.slice(0, base64.length - (base64.length % 4)));
}

/** Whether octets may be a secret, so that none of them is to be shown. `form` is that in which they were found. */
export function isSecret(form, octets) {
    const { text, inside } = headOf(octets), isKey = it => Boolean(it && firstIn(KEYS, it));
    return /\bKEY\b/.test(labelOf(form) ?? "") || isKey(inside) || isKey(insideOf(text.trimStart())) || isKey(insideOf(decodedHead(text)));
}

/** Returns what octets may be that are no message, as a sentence; an empty text if that is not known. */
export function hintOf(form, octets) {
    const label = labelOf(form), { text, inside } = headOf(octets);
    if (label && !MESSAGES.has(label)) return `The text between BEGIN and END says of itself that it is: ${label}.`;
    if (inside !== null) return firstIn([...KEYS, ...OTHER_SEQUENCES], inside) ?? "";
    return octets.length ? firstIn(OTHER_FILES, text) ?? "This file is of another kind: each message begins with the octet 30." : "This file is empty.";
}
