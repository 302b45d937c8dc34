import { visible } from "./elements.mjs";

// The page: hands files to the worker, and shows what it says. All that is from a message is text, and never markup.
const element = id => document.getElementById(id);
const KINDS = {
    signed: "A signed message (CMS)", token: "A time-stamp token", request: "A request for a time-stamp", response: "A response of a time-stamping service",
};
const DETACHED = 9, UNVERIFIED = 18; // findings
const MOST_SHOWN = 300; // findings
const LONGEST = 3000; // characters of a value that are shown
const UNBROKEN = "None of the rules that are checked here is broken."; // the standards have more
const NOT_KNOWN = new Set([8, DETACHED, 16, 18]); // findings that say what is not known here, and break no rule

/** Makes an element with what is in it: elements and texts. */
function made(tag, attributes, ...inside) {
    const it = document.createElement(tag);
    Object.entries(attributes).forEach(([name, value]) => it.setAttribute(name, value));
    it.append(...inside.filter(part => part !== null && part !== undefined));
    return it;
}

const cut = text => (text.length > LONGEST ? `${text.slice(0, LONGEST)} .. (${text.length} characters)` : text);
function andMore(count, wrong = 0, tag = "p") {
    const said = `.. and ${count} more, which are not shown here${wrong ? `: ${wrong} of them are of something else` : ""}.`;
    return count ? [made(tag, { class: wrong ? "bad" : "unknown" }, said)] : [];
}


const rows = pairs => made("dl", {}, ...pairs.filter(([, value]) => value !== null && value !== undefined && value !== "").flatMap(
    ([name, value]) => [made("dt", {}, name), made("dd", value.startsWith("NO: ") ? { class: "bad" } : {}, cut(value))]));

const count = (number, one, more = `${one}s`) => `${number.toLocaleString("en")} ${number === 1 ? one : more}`;
const octets = number => count(number, "octet");

/** The worker, and who waits for its results. One that is busy with what nobody needs any more, or has ended, is replaced. */
class Library {
    constructor() {
        this.waiting = new Map();
        this.number = 0;
        this.module = Uint8Array.from(atob(element("module").textContent), it => it.charCodeAt(0));
        this.url = URL.createObjectURL(new Blob([JSON.parse(element("worker").textContent)], { type: "text/javascript" }));
    }

    /** Starts a worker, and drops what was asked before. */
    begin() {
        this.worker?.terminate();
        this.isStarted = false;
        this.waiting.clear();
        progressed(1);
        this.worker = new Worker(this.url);
        this.worker.onmessage = ({ data }) => this.received(data);
        this.worker.onerror = event => {
            event.preventDefault();
            this.ended();
        };
        return this.ask("load", { module: this.module }).answered;
    }

    received({ number, part, answer }) {
        this.isStarted = true;
        if (part !== undefined) return progressed(part);
        const awaits = this.waiting.get(number);
        this.waiting.delete(number);
        progressed(1);
        awaits?.(answer);
    }

    /** The worker ended by an error. It is started again, unless it has done nothing since it was started. */
    ended() {
        const waiting = [...this.waiting.values()];
        if (!this.isStarted) return failed(new Error("its worker does not start"));
        this.begin();
        waiting.forEach(awaits => awaits({ failure: "The page had to start again: the browser may be out of memory. Open the message again." }));
    }

    /** Gives the worker a job: returns its number, and a promise of the result. */
    ask(job, words) {
        const number = (this.number += 1), answered = new Promise(resolve => this.waiting.set(number, resolve));
        this.worker.postMessage({ number, job, ...words });
        return { number, answered };
    }
}

function progressed(part) {
    const bar = element("progress");
    bar.hidden = part >= 1;
    bar.value = part;
}

// ---- what is shown

/** Whose a certificate is; or why that is not known. */
function nameIn(certificate, claimed) {
    if (certificate) return certificate.subject || "an empty name";
    return claimed.length ? claimedBy(claimed) : "not known: no certificate in the message is named as its own";
}

const claimedBy = names => `not known: several certificates in the message are named as its own, of ${names.join(" and ")}`;
const OF_SIGNATURE = { true: "yes", false: "NO: it is of something else", null: "not known" };

/** A number in decimal and in hexadecimal, as tools differ. */
const numberShown = text => (/^[0-9]+$/.test(text ?? "") ? `${text} (hexadecimal ${BigInt(text).toString(16)})` : text);

function whoRows(it) {
    const own = it.certificate;
    return [
        ["Name", nameIn(own, it.claimed)], ["Issuer of the certificate", it.issuer ?? own?.issuer],
        ["Serial number", numberShown(it.serial ?? own?.serial)], ["Key identifier", it.keyIdentifier],
        ["Certificate valid", own ? `${own.from ?? "?"} to ${own.until ?? "?"}` : null],
    ];
}

function stampRows(it) {
    return it.refused ? [["Not read", it.refused]] : [
        ["Time", it.time], ["By", nameIn(it.by, it.claimed)], ["Policy", it.policy], ["Serial number", it.serial],
        ["What is wrong with it", it.broken], ["Its own signature", "not verified"], ["Is of this signature", OF_SIGNATURE[it.isOfSignature]],
        ["For what has the digest", it.imprint && `${it.imprint.digest}, by ${it.imprint.algorithm}`],
    ];
}

const attributesOf = ({ attributes: { shown, more } }) => `${shown.join(", ")}${more ? ` .. and ${more} more` : ""}`;
const partsOf = ({ shown, more, wrong }, part) => [...shown.map(part), ...andMore(more, wrong)];

function signerPart(it, title) {
    return made("div", { class: "part" }, made("h3", {}, title), rows([
        ...whoRows(it), ["Says it was signed at", it.signingTime], ["Digest algorithm", it.digestAlgorithm],
        ["Signature algorithm", it.signatureAlgorithm], ["Is of this signature", OF_SIGNATURE[it.isOfSignature]],
        [it.isOfSignature === undefined ? "Digest of the content" : "Digest of the signature", it.messageDigest], ["Attributes", attributesOf(it)],
    ]),
    ...partsOf(it.timeStamps, (stamp, index) => made("div", { class: "part" }, made("h3", {}, `Time-stamp ${index}`), rows(stampRows(stamp)))),
    ...partsOf(it.countersigners, (other, index) => signerPart(other, `Countersignature ${index}`)));
}

function factParts(facts) {
    const parts = [rows([
        ["Status", facts.status], ["Type of the content", facts.contentType],
        ["Content", facts.contentType ? (facts.contentLength === null ? "not in the message: it is a file of its own" : octets(facts.contentLength)) : null],
        ["Certificates", facts.certificates === null ? null : String(facts.certificates)], ["Policy", facts.policy], ["Nonce", facts.nonce],
        ["For what has the digest", facts.imprint && `${facts.imprint.digest}, by ${facts.imprint.algorithm}`],
    ])];
    if (facts.stamp) parts.push(made("div", { class: "part" }, made("h3", {}, "The time-stamp"), rows(stampRows(facts.stamp))));
    return [...parts, ...(facts.signers ? partsOf(facts.signers, (it, index) => signerPart(it, `Signer ${index}`)) : [])];
}

/** What to do, unless it is a command that is not at hand here. */
const remedyHere = remedy => remedy.split(". ").filter(it => it && !it.includes("`")).map(it => ` ${it.replace(/\.$/, "")}.`).join("");

function findingItem({ code, signer, name, means, remedy }, canCompare) {
    const of = signer === null ? "" : ` signer ${signer}`;
    const title = made("strong", {}, `F${code}${of} ${name}`), isKnown = !NOT_KNOWN.has(code);
    const here = code === DETACHED && canCompare ? " Choose the document below: it is compared with what was signed." : "";
    const more = [DETACHED, UNVERIFIED].includes(code) ? here : remedyHere(remedy);
    return made("li", { class: isKnown ? "bad" : "unknown" }, title, made("br", {}), means, more);
}

/** The findings; if there are too many to be shown, those that break a rule come first. */
function brokenFirst(findings) {
    return findings.length <= MOST_SHOWN ? findings : [...findings.filter(it => !NOT_KNOWN.has(it.code)), ...findings.filter(it => NOT_KNOWN.has(it.code))];
}

function findingsPart(findings, canCompare = false) {
    if (!findings.length) return made("p", {}, UNBROKEN);
    const isUnbroken = findings.every(it => NOT_KNOWN.has(it.code));
    const isUnverified = findings.some(it => it.code === UNVERIFIED);
    const title = isUnbroken ? `${UNBROKEN} ${isUnverified ? "The signatures were not verified:" : "What is not known:"}` : "Rules of the standards that it breaks:";
    return made("div", {}, made("p", {}, title), made("ul", { class: "findings" }, ...brokenFirst(findings).slice(0, MOST_SHOWN).map(it => findingItem(it, canCompare)),
        ...andMore(Math.max(0, findings.length - MOST_SHOWN), 0, "li")));
}

const NOT_VERIFIED = "Whether the signature itself is right was not verified.";
const INSIDE = {
    fits: ["good", "The content in it is what was signed: it has the digest that each signer gives.", NOT_VERIFIED],
    differs: ["bad", "The content in it is not what was signed.", ""],
    unknown: ["unknown", "It is not known whether the content in it is what was signed.", ""],
};

function insidePart({ verdict, why }) {
    const [kind, said, more] = INSIDE[verdict];
    return made("p", { class: kind, id: "inside" }, made("strong", {}, said), ` ${why}${more}`);
}

const VERDICTS = {
    fits: ["good", "It belongs to the message: the digest that the message gives is that of"],
    differs: ["bad", "It is not the document that was signed or time-stamped:"],
    unknown: ["unknown", "It is not known whether this belongs to the message:"],
    unused: ["unknown", "It was not compared:"],
};

function verdictPart({ verdict, why }, name) {
    const [kind, said] = VERDICTS[verdict];
    return made("p", { class: kind }, made("strong", {}, said), ` "${name}". ${why}${verdict === "fits" ? ` ${NOT_VERIFIED}` : ""}`);
}

const documentParts = (answer, name) => [verdictPart(answer, name), findingsPart(answer.findings)];

const OTHERS = {
    none: ["good", "It is the same message:"],
    same: ["good", "It is the same message, with the same signed text:"],
    unsigned: ["unknown", "It is the same message, with the same text beside it, which is not known to be signed:"],
    other: ["bad", "It has the same signature, and another text:"],
    unknown: ["unknown", "It has the same signature. The text of the mail was compared with nothing:"],
};

function otherParts({ same, texts }, name) {
    const [kind, said] = same ? OTHERS[texts] : ["bad", "It is another message:"];
    return [made("p", { class: kind }, made("strong", {}, said), ` "${name}"`)];
}

/** The octets around a place, in hexadecimal, with that at the place marked. */
function aroundPart({ begin, at, octets: shown }) {
    const parts = [...shown].map((it, index) => {
        const hex = it.toString(16).padStart(2, "0");
        return begin + index === at ? made("mark", {}, hex) : hex;
    });
    if (at === begin + shown.length) parts.push(made("mark", {}, "the end"));
    return made("pre", { "aria-label": "The octets around the place, in hexadecimal" }, `octets from ${begin} on:\n`, ...parts.flatMap(it => [it, " "]));
}

function refusalPart({ line, means, remedy, around, hint }) {
    return made("div", {}, made("p", { class: "bad" }, made("strong", { id: "refusal" }, line)), hint ? made("p", { id: "hint" }, hint) : null,
        hint ? null : made("p", {}, means, remedyHere(remedy)),
        around && aroundPart(around));
}

const whyPart = answer => (answer.refusal ? refusalPart(answer.refusal) : made("p", { class: "bad" }, answer.failure));

function derPart(answer, name) {
    const link = made("a", { class: "button", id: "save", download: `${name.replace(/\.(ber|der|p7s|p7m|tsr|tsq|pem|eml)$/i, "")}.der` }, "Save the DER");
    link.href = URL.createObjectURL(new Blob([answer.der], { type: "application/octet-stream" }));
    const changed = answer.isDer ? "It is in DER already: nothing is changed." : `It is not in DER: in DER it has ${octets(answer.der.length)}. Only how it ` +
        "is written is changed, such as lengths, pieces, and the order in sets; what was signed is not.";
    return made("div", {}, made("p", { id: "is-der" }, changed), rows([["SHA-256 of the DER", answer.sha256]]), made("p", {}, link));
}

const SIDES = { message: "The message as it was read", der: "The DER" };
const TAGS = { copied: "a", made: "ins", left: "del" };

/** A part in hexadecimal. One that is copied leads to where it lies on the other side. */
function sidePart(side, other, { kind, number, begin, length, octets: some }) {
    const digits = [...some].map(it => it.toString(16).padStart(2, "0")).join(" ");
    const about = { copied: "copied", made: "made", left: "left out" }[kind];
    const attributes = { title: `${octets(length)} from ${begin} on: ${about}`, ...(kind === "copied" ? { id: `${side}-${number}`, href: `#${other}-${number}` } : {}) };
    return made(TAGS[kind], attributes, length > some.length ? `${digits} .. (${octets(length)})` : digits);
}

function sidesPart(sides) {
    const columns = Object.entries(SIDES).map(([side, title]) => {
        const { shown: parts, more } = sides[side], other = side === "der" ? "message" : "der";
        return made("div", {}, made("h4", {}, title), made("pre", {}, ...parts.flatMap(it => [sidePart(side, other, it), " "])), ...andMore(more));
    });
    const key = made("p", {}, "What is copied is a link to where it lies on the other side; ", made("del", {}, "what is left out"), ", ", made("ins", {}, "what is made"), ".");
    return made("details", { id: "sides" }, made("summary", {}, "Both encodings, octet by octet"), key, made("div", { class: "sides" }, ...columns));
}

/** Whether a signer gives a digest with which a document can be compared. */
const canCompare = ({ kind, signers }) => kind === "signed" && signers.shown.some(it => it.hasSignedAttributes);

/** Says it if nobody vouches for anything. */
function nobodyPart(facts) {
    const isUnsigned = facts.signers && !facts.signers.shown.length, isUngranted = facts.kind === "response" && !facts.signers;
    if (!isUnsigned && !isUngranted) return null;
    return made("p", { class: "bad" }, made("strong", {}, isUnsigned ? "Nobody signed this message." : "No time-stamp was granted."));
}

function messageParts(answer, name) {
    const isUnsigned = answer.facts.kind === "signed" && !answer.facts.signers.shown.length;
    const title = made("h2", {}, isUnsigned ? "Certificates or content that nobody signed (CMS)" : KINDS[answer.facts.kind]);
    const details = made("details", {}, made("summary", {}, "The listing of all that is in it"), made("pre", { id: "listing" }, answer.listing));
    const parts = [title, rows([["File", name], ["Form", answer.form], ["Message", octets(answer.length)]]), ...factParts(answer.facts),
        made("h3", {}, "Is it whole, and by the rules?"), answer.inMail ? verdictPart(answer.inMail, answer.inMail.name) : null,
        answer.inside ? insidePart(answer.inside) : null, nobodyPart(answer.facts),
        findingsPart(answer.findings, canCompare(answer.facts)), made("h3", {}, "Its canonical form"), derPart(answer, name),
        answer.sides && sidesPart(answer.sides), details];
    return parts.filter(Boolean);
}

// ---- what is done

let library, message = 0, saved = null; // the number of the message that is shown or read, and where its DER is

async function opened(file) {
    if (library.waiting.size) library.begin();
    if (element("message").files[0] !== file) element("message").value = "";
    ["document", "other"].forEach(id => {
        element(id).value = "";
        element(`${id}-answer`).replaceChildren();
    });
    element("more").hidden = true;
    element("answer").replaceChildren();
    element("status").textContent = `Reading "${visible(file.name)}" (${octets(file.size)}) ..`;
    const { number, answered } = library.ask("open", { file });
    message = number;
    const answer = await answered;
    if (number === message) shown(answer, visible(file.name));
}

function shown(answer, name) {
    URL.revokeObjectURL(saved);
    const isRead = Boolean(answer.facts);
    element("answer").replaceChildren(...(isRead ? messageParts(answer, name) : [made("h2", {}, "It is refused"), whyPart(answer)]));
    saved = element("save")?.href ?? null;
    element("more").hidden = !isRead;
    element("status").textContent = isRead ? `It is read: "${name}"` : `No message can be read from "${name}"`;
    window.answer = answer;
    element("answer").focus();
}

/** Asks about the message and another file, and shows the result unless another message or file was given meanwhile. */
async function asked(job, file, parts) {
    const place = element(`${job}-answer`);
    place.replaceChildren(`Reading "${visible(file.name)}" (${octets(file.size)}) ..`);
    const { number, answered } = library.ask(job, { file, of: message });
    place.dataset.number = number;
    const of = message, answer = await answered;
    if (of !== message || place.dataset.number !== String(number)) return;
    place.replaceChildren(...(answer.failure || answer.refusal ? [whyPart(answer)] : parts(answer, visible(file.name))));
    window.answer = answer;
}

/** What is shown of a file that is not there any more is taken away, and what is awaited is not shown. */
function emptied(id) {
    if (id === "message") {
        message = 0;
        element("more").hidden = true;
        element("answer").replaceChildren();
        element("status").textContent = "Ready.";
        return;
    }
    element(`${id}-answer`).dataset.number = "";
    element(`${id}-answer`).replaceChildren();
}

/** What is done with a file by the field that it is given to. */
const ACTS = {
    message: opened,
    document: file => asked("document", file, documentParts),
    other: file => asked("other", file, otherParts),
};

function given(id) {
    const [file] = element(id).files;
    if (file) ACTS[id](file);
    else emptied(id);
}

function listenTo(id) {
    // A file that was changed on the disk and is chosen again would give no event.
    element(id).addEventListener("click", event => {
        event.target.value = "";
        emptied(id);
    });
    element(id).addEventListener("change", () => given(id));
}

/** The field that a place on the page belongs to; null if that is not clear. */
function fieldOf(place) {
    const label = place.closest?.("label"), input = label ? label.htmlFor : place.closest?.("input[type=file]")?.id;
    return Object.keys(ACTS).includes(input) ? input : place.closest?.("#more") ? null : "message";
}

/** What is dropped on a field or its label is for that field, and outside the section of the document it is the message. */
function dropped(event) {
    event.preventDefault();
    element("choose").classList.remove("over");
    const id = fieldOf(event.target), { files } = event.dataTransfer;
    if (!id) {
        element("status").textContent = "Drop the file on one of the two fields, or a message above them.";
    } else if (files.length > 1) {
        element("status").textContent = "Drop one file at a time.";
    } else if (files.length) {
        element(id).files = files;
        given(id);
    }
}

function listen() {
    Object.keys(ACTS).forEach(listenTo);
    element("text").addEventListener("input", () => {
        if (!element("message").value) emptied("message"); // what is shown is of another text
    });
    element("read-text").addEventListener("click", () => opened(new File([element("text").value], "the text")));
    const place = element("choose");
    for (const name of ["dragover", "dragenter"]) {
        document.addEventListener(name, event => {
            event.preventDefault();
            place.classList.add("over");
        });
    }
    document.addEventListener("dragleave", () => place.classList.remove("over"));
    document.addEventListener("drop", dropped);
}

/** Says that the page itself failed, and shows nothing that could be taken for a result. */
function failed(error) {
    ["answer", "document-answer", "other-answer"].forEach(id => element(id).replaceChildren());
    element("more").hidden = true;
    element("status").textContent = `Something went wrong on this page: ${error?.message ?? error}`;
}

async function begin() {
    window.addEventListener("unhandledrejection", event => failed(event.reason));
    window.addEventListener("error", event => failed(event.error ?? event));
    if (typeof WebAssembly !== "object") {
        element("status").textContent = "This browser has no WebAssembly, which this page needs. Any browser of 2022 or later has it.";
        return;
    }
    try {
        library = new Library();
        const answer = await library.begin();
        if (!answer.failure) listen();
        element("status").textContent = answer.failure ?? "Ready.";
        performance.mark("ready");
    } catch (error) {
        element("status").textContent = `This browser cannot run the page: ${error.message}`;
    }
}

begin();
