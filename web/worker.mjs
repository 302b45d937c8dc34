// What the page asks for is done here, beside it, so that it stays at hand: reading files, and all calls of the library.
import { CmsCanon, LIMIT, OutOfMemory, Refused } from "./cms_canon.mjs";
import { digester } from "./digests.mjs";
import { verdictOf, verdictOnInside } from "./documents.mjs";
import { areEqual, hexOf } from "./elements.mjs";
import { factsOf, shownOf } from "./facts.mjs";
import { hintOf, isSecret } from "./hints.mjs";
import { NoMessage, messageIn } from "./inputs.mjs";
import { sidesOf } from "./sides.mjs";
import { FINDINGS, REFUSALS } from "./texts.mjs";

const HEAD = 65536, PIECE = 1 << 20; // octets that are read of a file at once
const BEFORE = 16, AROUND = 48; // octets that are shown before the place of a refusal, and in all
const TRUNCATED = 1, TRAILING = 18;
const OTHER_MESSAGE = "The message is not at hand any more: open it again.";
const AS_IT_LIES = "It was signed as it lies in the mail: readers that first put CR LF at the end of each line, as mail has to be signed, say that it is another text.";

const NOTHING = { form: "binary", message: new Uint8Array(), content: null };

let canon, message; // the library, and the message that was read last

const read = async (file, begin, end) => new Uint8Array(await file.slice(begin, end).arrayBuffer());

/** Gives the octets of a file up to an end, in pieces. */
async function* piecesOf(file, end, progress) {
    for (let at = 0; at < end; at += PIECE) {
        const octets = await read(file, at, Math.min(at + PIECE, end));
        if (octets.length !== Math.min(PIECE, end - at)) throw new Error(`${file.name} ended at ${at + octets.length} octets: it was changed`);
        yield octets;
        progress((at + octets.length) / end);
    }
}

async function readTo(file, end, progress) {
    const octets = new Uint8Array(end);
    let at = 0;
    for await (const piece of piecesOf(file, end, progress)) {
        octets.set(piece, at);
        at += piece.length;
    }
    return octets;
}

/** Reads a file that is to be a message, and finds that in it. Of one above the limit no more is read than it takes to refuse it. */
async function messageOf(file, progress) {
    if (file.size <= LIMIT) return messageIn(await readTo(file, file.size, progress));
    const head = await read(file, 0, HEAD);
    try {
        canon.convert(head);
    } catch (error) {
        if (error instanceof Refused && error.reason !== TRUNCATED) return { form: "binary", message: head, content: null };
    }
    return { form: "binary", message: await readTo(file, LIMIT + 1, progress), content: null };
}

/** The digests of a file by these algorithms, which is read in pieces. */
async function digestsOf(file, algorithms, progress) {
    if (!algorithms.length) return {};
    const digesters = algorithms.map(it => [it, digester(it)]);
    for await (const octets of piecesOf(file, file.size, progress)) digesters.forEach(([, it]) => it.update(octets));
    return Object.fromEntries(digesters.map(([name, it]) => [name, it.digest()]));
}

/** The findings with a document, which is content or what was time-stamped, and whether it belongs to the message. */
async function compared(octets, facts, document, progress) {
    const what = facts.kind === "signed" ? "content" : "stamped", asked = canon.digestsAsked(octets);
    if (asked.contentItself) return { verdict: "unknown", why: "The time-stamp is not in the message.", name: document.name, findings: canon.check(octets).map(worded) };
    const digests = await digestsOf(document, asked[what], progress), findings = canon.checkDigests(octets, { [what]: digests });
    return { ...verdictOf(facts, findings, Object.keys(digests).length > 0), name: document.name, findings: findings.map(worded) };
}

const worded = ({ code, signer }) => ({ code, signer, ...FINDINGS[code - 1] });

/** Says how many octets follow a message; an empty text of another refusal. */
function longerBy({ reason, at }, octets) {
    if (reason !== TRAILING) return "";
    const more = octets.subarray(at - 1), areBlanks = more.every(it => [0x09, 0x0a, 0x0d, 0x20, 0x00].includes(it));
    return `The message has ${at - 1} octets. Octets after it: ${more.length}${areBlanks ? ", all of them blanks, line ends or zeros" : ""}.`;
}

/** A refusal with what it means, the octets around its place, and what the file may be. */
function refusalOf(error, { form, message: octets }) {
    const begin = Math.max(0, Math.min(error.at ?? 0, octets.length) - BEFORE), isShown = error.at !== null && !isSecret(form, octets);
    const around = isShown ? { begin, at: error.at, octets: octets.slice(begin, begin + AROUND) } : null;
    const hint = error.reason === TRUNCATED && octets.length ? "" : longerBy(error, octets) || hintOf(form, octets); // the beginning of a message is one
    return { line: error.message, around, hint, ...(REFUSALS[error.reason - 1] ?? { means: "", remedy: "" }) };
}

/** Says why there is no result. */
function whyNot(error, found = NOTHING) {
    if (error instanceof Refused) return { refusal: refusalOf(error, found) };
    if (error instanceof NoMessage) return { failure: error.message };
    if (error instanceof OutOfMemory || error instanceof RangeError) return { failure: "There is not enough memory for this file." };
    return { failure: `Something went wrong: ${error.message}` };
}

const sha256Of = octets => hexOf(digester("sha256").update(octets).digest());

/** Whether what mail has as its signature is of the mail: with CR LF at the end of each line, or as it lies there, which some tools sign. */
async function comparedInMail({ message: octets, content, asItLies }, facts, progress) {
    const name = "the text of the mail", given = it => compared(octets, facts, new File([it], name), progress);
    if (facts.kind !== "signed") return { verdict: "unknown", why: "What the mail has in the place of a signature is none.", name };
    const usual = await given(content);
    if (usual.verdict !== "differs") return usual;
    const answer = await given(asItLies);
    return answer.verdict === "fits" ? { ...answer, why: AS_IT_LIES, isAsItLies: true } : usual;
}

/** Whether what was signed beside two messages is the same: "none" if neither has anything beside it. The first was compared with its signature. */
function textsOf({ found, inMail }, other) {
    if (!found.content && !other.content) return "none";
    if (!found.content || !other.content) return "unknown";
    const signed = inMail.isAsItLies ? "asItLies" : "content";
    if (!areEqual(found[signed], other[signed])) return "other";
    return inMail.verdict === "fits" ? "same" : "unsigned";
}

/** What is said of a message. */
async function described(found, progress) {
    const { form, message: octets } = found;
    const der = canon.convert(octets), facts = factsOf(canon, octets);
    const isDer = areEqual(der, octets), inMail = found.content && (await comparedInMail(found, facts, progress));
    const findings = inMail?.findings ?? canon.check(octets).map(worded), inside = found.content ? null : verdictOnInside(facts, findings);
    const sides = isDer ? null : sidesOf(octets, der, canon.pieces(octets));
    return { form, length: octets.length, facts, isDer, der, sides, sha256: sha256Of(der), listing: canon.show(octets), findings, inMail, inside };
}

/** Each job is handed what the page gives, and the message with the number that it names. */
const JOBS = {
    async load({ module }) {
        canon = new CmsCanon(await WebAssembly.compile(module));
        return {};
    },

    async open({ file, number }, progress) {
        let found;
        message = null;
        try {
            found = await messageOf(file, progress);
            const answer = await described(found, progress);
            message = { number, found, facts: answer.facts, inMail: answer.inMail };
            return { ...answer, facts: shownOf(answer.facts) };
        } catch (error) {
            return whyNot(error, found);
        }
    },

    async document({ file, of }, progress) {
        if (message?.number !== of) return { failure: OTHER_MESSAGE };
        try {
            return await compared(message.found.message, message.facts, file, progress);
        } catch (error) {
            return whyNot(error, message.found);
        }
    },

    async other({ file, of }, progress) {
        if (message?.number !== of) return { failure: OTHER_MESSAGE };
        let found;
        try {
            found = await messageOf(file, progress);
            return { same: canon.same(message.found.message, found.message), texts: textsOf(message, found) };
        } catch (error) {
            return whyNot(error, found);
        }
    },
};

async function done({ number, job, ...words }) {
    try {
        self.postMessage({ number, answer: await JOBS[job]({ ...words, number }, part => self.postMessage({ number, part })) });
    } catch (error) {
        self.postMessage({ number, answer: whyNot(error) });
    }
}

// One job after another: each reads files, and in between the next must not begin.
let last = Promise.resolve();
self.onmessage = ({ data }) => {
    last = last.then(() => done(data));
};
