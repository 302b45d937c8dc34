// Says whether a document belongs to a message. It is said to fit only if a digest that the message gives was compared with that of the document, for
// each signer, and if the message is whole as far as that rests on it.

const DIFFERS = 7, IMPRINT_DIFFERS = 14; // findings
const OTHER_TYPES = [4, 5], NO_DIGEST = 6, UNKNOWN_ALGORITHM = 8, NO_CONTENT = 9, NO_TOKEN = 11, OTHER_SIGNERS = 12, NO_TST_INFO = 13, OTHER_STATUS = 19;

const FITS = { verdict: "fits", why: "" };
const OTHER = { verdict: "differs", why: "" };
const unknown = why => ({ verdict: "unknown", why });

const NONE = new Set();

/** Returns a function that says which findings there are on a signer, by its number, or on the message, by null. */
function codesOf(findings) {
    const found = new Map();
    for (const { code, signer } of findings) found.set(signer, (found.get(signer) ?? new Set()).add(code));
    return signer => found.get(signer) ?? NONE;
}

const hasAny = (codes, ...numbers) => numbers.some(it => codes.has(it));

/** By one signer: whether its digest of the content is that of the document. */
function bySigner(signer, codes) {
    if (codes.has(DIFFERS)) return OTHER;
    if (hasAny(codes, ...OTHER_TYPES)) return unknown("A signature in it was made for content of another type: it says nothing of this file.");
    const isCompared = signer.hasSignedAttributes && !hasAny(codes, NO_DIGEST, UNKNOWN_ALGORITHM);
    return isCompared ? FITS : unknown("A signer gives no digest that can be compared here. Only whoever verifies the signature can say whether it is of this file.");
}

/** The worst by any signer. */
function bySigners(signers, codesOn) {
    const verdicts = signers.map((it, number) => bySigner(it, codesOn(number)));
    return verdicts.find(it => it === OTHER) ?? verdicts.find(it => it !== FITS) ?? FITS;
}

function ofSigned({ contentLength, signers }, codesOn, isCompared) {
    if (contentLength !== null) return { verdict: "unused", why: "The message has its content in it. The file was not compared with anything." };
    if (!signers.length) return unknown("Nobody signed the message: nothing in it says which document belongs to it.");
    const worst = bySigners(signers, codesOn);
    return worst === FITS && !isCompared ? unknown("No digest was compared.") : worst;
}

/** By the imprint of a request or of a token (RFC 3161, sections 2.4.1 and 2.4.2). */
function byImprint(codes, isCompared) {
    if (codes.has(IMPRINT_DIFFERS)) return OTHER;
    if (codes.has(UNKNOWN_ALGORITHM)) return unknown("The digest is by an algorithm that is not known here.");
    return isCompared ? FITS : unknown("No digest was compared.");
}

function ofToken({ signers = [], stamp }, codesOn, isCompared) {
    const codes = codesOn(null);
    if (hasAny(codes, NO_CONTENT, NO_TOKEN, NO_TST_INFO) || !stamp?.imprint) return unknown("There is no time-stamp that could be compared with the file.");
    if (codes.has(IMPRINT_DIFFERS)) return OTHER;
    if (!signers.length) return unknown("Nobody signed the time-stamp: anybody could have made it.");
    const isTied = signers.every((it, number) => bySigner(it, codesOn(number)) === FITS);
    return hasAny(codes, OTHER_SIGNERS, OTHER_STATUS) || !isTied ? unknown("The time-stamp itself is not whole: it says nothing about any file.") : byImprint(codes, isCompared);
}

/** Returns `fits`, `differs`, `unknown` or `unused`, and why. The findings are those with the document, whose digests were given if it was compared. */
export function verdictOf(facts, findings, isCompared) {
    const codesOn = codesOf(findings);
    if (facts.kind === "signed") return ofSigned(facts, codesOn, isCompared);
    return facts.kind === "request" ? byImprint(codesOn(null), isCompared) : ofToken(facts, codesOn, isCompared);
}

/** Returns the same of the content that a message has in it, which `check` compares; null if there is none, or nobody signed it. */
export function verdictOnInside({ contentLength, signers }, findings) {
    return typeof contentLength === "number" && signers.length ? bySigners(signers, codesOf(findings)) : null;
}
