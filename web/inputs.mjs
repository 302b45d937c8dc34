// Finds the message in what a person has: octets, text in PEM (RFC 7468), or mail (S/MIME, RFC 8551). Of mail that is signed and can be read without
// special tools, what was signed is its first part, with CR LF at the end of each line, or as it lies there. What is not understood to its end is
// refused: if a text has several messages, or a mail more parts, the others would not be shown.

const LONGEST_TEXT = 1 << 26, LONGEST_LABEL = 64, HEAD = 65536; // octets
const MOST_PARTS = 100;
const SEQUENCE = 0x30; // the octet that each message begins with, and no mail
const LABEL = /^[A-Z0-9][A-Z0-9 #]*$/;
const BEGIN = "-----BEGIN ", END = "-----END ", DASHES = "-----";
/** The labels of blocks that are messages. */
export const MESSAGES = new Set(["CMS", "PKCS7", "PKCS #7 SIGNED DATA", "TIMESTAMP QUERY", "TIMESTAMP REPLY"]);
const OF_MESSAGES = /^(?:multipart\/signed|application\/(?:x-)?pkcs7-(?:mime|signature))[\t ]*(?:;|$)/i;
const SIGNED = /^multipart\/signed[\t ]*;/i;
const SIGNATURES = /^application\/(?:x-)?pkcs7-signature[\t ]*(?:;|$)/i;
const PARAMETER = /;[\t ]*([^\s=;"]+)=(?:"((?:[^"\\]|\\.)*)"|([^\s;"]+))[\t ]*/y;

/** The text says that it has a message, and has none, or more than one. */
export class NoMessage extends Error {}

function textOf(octets) {
    const pieces = [];
    for (let at = 0; at < octets.length; at += 8192) pieces.push(String.fromCharCode(...octets.subarray(at, at + 8192)));
    return pieces.join("");
}

/** The octets of text whose characters are octets. */
function octetsOf(text) {
    const octets = new Uint8Array(text.length);
    for (let at = 0; at < text.length; at++) octets[at] = text.charCodeAt(at);
    return octets;
}

function decoded(base64, what) {
    try {
        return octetsOf(atob(base64.replace(/[ \t\r\n]+/g, "")));
    } catch {
        throw new NoMessage(`${what} is no base64`);
    }
}

// ---- PEM

/** The label of the line with dashes at a place, and where what is after it begins; null if there is none. */
function labelAt(text, at, word) {
    const begin = at + word.length, end = text.slice(begin, begin + LONGEST_LABEL + DASHES.length).indexOf(DASHES);
    return end < 0 ? null : { label: text.slice(begin, begin + end), after: begin + end + DASHES.length };
}

/** Where a word is at the beginning of a line, after blanks, from a place on; -1 if it is at none. */
function lineWith(text, word, from) {
    for (let at = text.indexOf(word, from); at >= 0; at = text.indexOf(word, at + 1)) {
        const before = text.slice(Math.max(0, at - 17), at);
        if (/\n[ \t]{0,16}$/.test(before) || (at <= 16 && /^[ \t]*$/.test(before))) return at;
    }
    return -1;
}

/** What is encoded in a block, without the header that some tools write before it (RFC 1421, section 4.4). */
function withoutHeader(inside) {
    const end = /\r?\n[ \t]*\r?\n/.exec(inside);
    return end && inside.slice(0, end.index).includes(":") ? inside.slice(end.index) : inside;
}

/** The one block in PEM; null if there is none. */
function blockIn(text) {
    const at = lineWith(text, BEGIN, 0), begun = at < 0 ? null : labelAt(text, at, BEGIN);
    if (!begun) return null;
    if (!LABEL.test(begun.label)) throw new NoMessage("the text has BEGIN with a label that no tool writes");
    const line = `${END}${begun.label}${DASHES}`, end = lineWith(text, line, begun.after);
    if (end < 0) throw new NoMessage(`the text has BEGIN ${begun.label}, and no END after it`);
    if (text.indexOf(BEGIN) < at || text.indexOf(BEGIN, begun.after) >= 0) throw new NoMessage("the text has more than one block from BEGIN to END: give only the one with the message");
    return { label: begun.label, inside: withoutHeader(text.slice(begun.after, end)) };
}

// ---- mail

/** The fields of a header by their names in small letters, and what comes after it. Null if there is no header. */
function headerOf(text) {
    const end = /\r?\n\r?\n/.exec(text);
    if (!end) return null;
    const lines = text.slice(0, end.index).replace(/\r?\n[ \t]+/g, " ").split(/\r?\n/), fields = new Map();
    for (const line of lines) {
        const found = /^([!-9;-~]+):([^\r]*)$/.exec(line);
        if (!found) return null;
        const name = found[1].toLowerCase();
        fields.set(name, [...(fields.get(name) ?? []), found[2].trim()]);
    }
    return { fields, body: text.slice(end.index + end[0].length) };
}

/** The value of a field that may be there once; an empty text if it is not. */
function fieldOf({ fields }, name) {
    const values = fields.get(name) ?? [""];
    if (values.length > 1) throw new NoMessage(`the mail has ${name} more than once`);
    return values[0];
}

/** The parameters of a field by their names (RFC 2045, section 5.1). */
function parametersOf(field) {
    const found = new Map();
    let end = field.indexOf(";");
    while (end >= 0 && end < field.length) {
        PARAMETER.lastIndex = end;
        const it = PARAMETER.exec(field), name = it?.[1].toLowerCase();
        if (!it || name.includes("*")) throw new NoMessage("the mail has parameters of its content that are not understood");
        if (found.has(name)) throw new NoMessage(`the mail has the parameter ${name} more than once`);
        found.set(name, it[2] === undefined ? it[3] : it[2].replace(/\\(.)/g, "$1"));
        end = PARAMETER.lastIndex;
    }
    return found;
}

/** The parts between lines with a boundary (RFC 2046, section 5.1.1), without the line break before each of them. */
function partsOf(body, boundary) {
    const delimiter = `--${boundary}`, parts = [];
    let part = null, isClosed = false, isFollowed = false;
    for (const line of body.split("\n")) {
        const end = line.startsWith(delimiter) ? /^(--)?[ \t]*\r?$/.exec(line.slice(delimiter.length)) : null;
        if (end) {
            if (isClosed) throw new NoMessage("the mail has a part after its last one");
            if (part) parts.push(part.join("\n").replace(/\r$/, ""));
            if (parts.length > MOST_PARTS) throw new NoMessage(`the mail has more than ${MOST_PARTS} parts`);
            isClosed = end[1] === "--";
            part = isClosed ? null : [];
        } else if (part) part.push(line);
        else isFollowed ||= isClosed && line.trim() !== "";
    }
    if (!isClosed) throw new NoMessage("the mail ends before its last part does");
    if (isFollowed) throw new NoMessage("the mail has more after its last part, which readers do not show: if it is a mailbox, give one mail of it");
    return parts;
}

const withCrLf = text => text.replace(/\r?\n/g, "\r\n");

function messageOf(mail) {
    const encoding = fieldOf(mail, "content-transfer-encoding").replace(/\([^()]*\)/g, "").trim().toLowerCase() || "7bit";
    if (encoding === "base64") return decoded(mail.body, "the part with the message");
    if (encoding === "binary" || encoding === "7bit" || encoding === "8bit") return octetsOf(mail.body);
    throw new NoMessage(`the part with the message is encoded as ${encoding}`);
}

function inMail(mail, type) {
    if (!SIGNED.test(type)) return { form: "mail", message: messageOf(mail), content: null };
    const parameters = parametersOf(type), boundary = parameters.get("boundary"), outer = fieldOf(mail, "content-transfer-encoding").toLowerCase();
    if (!/^(?:application\/(?:x-)?pkcs7-signature)?$/i.test(parameters.get("protocol") ?? "")) throw new NoMessage("the mail is signed in another way");
    if (!["", "7bit", "8bit", "binary"].includes(outer)) throw new NoMessage(`signed mail is encoded as ${outer}`);
    const parts = boundary ? partsOf(mail.body, boundary) : [];
    if (parts.length !== 2) throw new NoMessage(`signed mail has two parts, and this has ${parts.length}`);
    const signature = headerOf(parts[1]);
    if (!signature || !SIGNATURES.test(fieldOf(signature, "content-type"))) throw new NoMessage("the second part of the mail is no signature");
    return { form: "mail", message: messageOf(signature), content: octetsOf(withCrLf(parts[0])), asItLies: octetsOf(parts[0]) };
}

/** Where text begins: after the byte-order mark of UTF-8, and the line that a mailbox has before each mail. */
function startOf(octets) {
    const marked = octets[0] === 0xef && octets[1] === 0xbb && octets[2] === 0xbf ? 3 : 0;
    return textOf(octets.subarray(marked, marked + 5)) === "From " ? octets.indexOf(0x0a) + 1 : marked;
}

/**
 * Returns the message that octets are or have in them, in which form it is there, and the content that was signed if mail has that beside it: as mail
 * has to be signed, with CR LF, and as it lies there.
 * Throws `NoMessage` if it is text that says that it has one, and has none, or more.
 */
export function messageIn(octets) {
    if (octets[0] === SEQUENCE) return { form: "binary", message: octets, content: null };
    const begin = startOf(octets), head = textOf(octets.subarray(begin, HEAD));
    const mail = headerOf(head), type = mail && (mail.fields.get("content-type") ?? []).find(it => OF_MESSAGES.test(it));
    const isPem = !type && head.includes(BEGIN);
    if (!type && !isPem) return { form: "binary", message: octets, content: null };
    if (octets.length > LONGEST_TEXT) throw new NoMessage(`the text has more than ${LONGEST_TEXT} octets: give the message itself`);
    const text = textOf(octets.subarray(begin));
    if (type) return inMail(headerOf(text), fieldOf(headerOf(text), "content-type"));
    const block = blockIn(text);
    if (!block) return { form: "binary", message: octets, content: null };
    return { form: `PEM (${block.label})`, message: decoded(block.inside, "the text between BEGIN and END"), content: null };
}
