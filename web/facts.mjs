// Says what a message is, from the rows of its fields: for people, in words. `factsOf` returns plain objects.
import { DIGEST_ALGORITHMS } from "./cms_canon.mjs";
import * as Kind from "./kinds.mjs";
import { NAMES } from "./names.mjs";
import { FINDINGS } from "./texts.mjs";
import { digester } from "./digests.mjs";
import { areEqual, certificateOf, elementAt, elementsIn, hexOf, integerOf, named, nameOf, oidOf, timeOf, visible } from "./elements.mjs";

const SIGNING_TIME = "1.2.840.113549.1.9.5", MESSAGE_DIGEST = "1.2.840.113549.1.9.4", TIME_STAMP = "1.2.840.113549.1.9.16.2.14";
const TST_INFO = "1.2.840.113549.1.9.16.1.4", UNVERIFIED = 18;
const OCTET_STRING = 0x04, GENERALIZED_TIME = 0x18;
const MOST_OCTETS = 64; // that are shown of a value that is not understood
const MOST_CLAIMED = 3; // certificates that are named of one signer
const MOST_SHOWN = 300; // signers of a message that are shown, and attributes of a signer
const MOST_BELOW = 300, MOST_OF_ONE = 20; // time-stamps and countersigners: of a message, and each of them of one signer
// The names of algorithms of signatures (RFC 5754, RFC 5753, RFC 4056, RFC 8419), which listings do not have.
const SIGNATURES = new Map([
    ["1.2.840.113549.1.1.1", "RSA"], ["1.2.840.113549.1.1.4", "RSA with MD5"], ["1.2.840.113549.1.1.5", "RSA with SHA-1"], ["1.2.840.113549.1.1.10", "RSA-PSS"],
    ["1.2.840.113549.1.1.14", "RSA with SHA-224"], ["1.2.840.113549.1.1.11", "RSA with SHA-256"], ["1.2.840.113549.1.1.12", "RSA with SHA-384"],
    ["1.2.840.113549.1.1.13", "RSA with SHA-512"], ["1.2.840.10040.4.3", "DSA with SHA-1"], ["2.16.840.1.101.3.4.3.2", "DSA with SHA-256"],
    ["1.2.840.10045.4.1", "ECDSA with SHA-1"], ["1.2.840.10045.4.3.1", "ECDSA with SHA-224"], ["1.2.840.10045.4.3.2", "ECDSA with SHA-256"],
    ["1.2.840.10045.4.3.3", "ECDSA with SHA-384"], ["1.2.840.10045.4.3.4", "ECDSA with SHA-512"], ["1.3.101.112", "Ed25519"], ["1.3.101.113", "Ed448"],
]);
const STATUSES = ["granted", "granted with modifications", "rejection", "waiting", "revocation warning", "revocation notification"];

/** The rows as a tree: each with those below it. */
function treeOf(rows) {
    const top = { below: [] }, open = [top];
    for (const row of rows) {
        const node = { ...row, below: [] };
        open.length = row.level + 1;
        open[row.level].below.push(node);
        open.push(node);
    }
    return top.below;
}

const all = (node, kind) => node.below.filter(it => it.kind === kind);
const one = (node, kind) => all(node, kind)[0];

/** Reads the fields of one message, or of the content of a token. */
class Reader {
    constructor(canon, octets) {
        this.canon = canon;
        this.octets = octets;
    }

    of(row) {
        return this.octets.subarray(row.start, row.start + row.length);
    }

    /** The octets of a string that may be in segments; null if there is none. */
    string(node, kind) {
        const rows = all(node, kind);
        if (!rows.length) return null;
        const pieces = rows.map(it => this.of(it)), joined = new Uint8Array(pieces.reduce((sum, it) => sum + it.length, 0));
        pieces.reduce((at, it) => (joined.set(it, at), at + it.length), 0);
        return joined;
    }

    oid(node, kind) {
        const row = one(node, kind);
        return row ? named(oidOf(this.of(row))) : null;
    }

    integer(node, kind) {
        const row = one(node, kind);
        return row ? integerOf(this.of(row)) : null;
    }

    /** The attributes with their values; of a signer the signed ones are one element. */
    attributes(signer) {
        const unsigned = one(signer, Kind.UNSIGNED_ATTRIBUTES);
        const found = (unsigned ? all(unsigned, Kind.ATTRIBUTE) : []).map(it => ({
            oid: oidOf(this.of(it)), values: all(it, Kind.VALUE).map(value => this.of(value)), isSigned: false, node: it,
        }));
        const signed = one(signer, Kind.SIGNED_ATTRIBUTES);
        return [...(signed ? signedAttributes(this.of(signed)) : []), ...found];
    }
}

function signedAttributes(octets) {
    const found = [];
    const whole = elementAt(octets);
    for (let attribute = whole && elementAt(whole.contents); attribute; attribute = elementAt(whole.contents, attribute.end)) {
        const type = elementAt(attribute.contents), values = type && elementAt(attribute.contents, type.end);
        const inside = values?.contents ?? new Uint8Array();
        if (type) found.push({ oid: oidOf(type.contents), values: elementsIn(inside).map(it => it.octets), isSigned: true, inside });
    }
    return found;
}

/** The certificates of a message, by what signers name them by. Nobody signs them: anybody can add one with the name and number of another. */
class Certificates {
    constructor(octets) {
        this.all = octets.map(certificateOf);
        this.named = new Map();
        this.all.forEach((it, index) => {
            if (!it) return;
            const keys = [`${it.serial} ${it.issuerHex}`, ...(it.keyIdentifier === null ? [] : [it.keyIdentifier])];
            keys.forEach(key => this.add(key, octets[index], it));
        });
    }

    add(key, octets, certificate) {
        const known = this.named.get(key) ?? [];
        if (known.length === MOST_CLAIMED || known.some(it => areEqual(it.octets, octets))) return;
        this.named.set(key, [...known, { octets, certificate }]);
    }

    /** The first of those that differ and are named so: of a sound message there is at most one. */
    of(key) {
        return (this.named.get(key) ?? []).map(it => it.certificate);
    }
}

/** Who a signer is: by the certificate in the message that it names, or as it is named. Of several such certificates, `claimed` has the names. */
function whoOf(reader, signer, certificates) {
    const issuer = one(signer, Kind.ISSUER), identifier = reader.string(signer, Kind.SUBJECT_KEY_IDENTIFIER);
    const octets = issuer && reader.of(issuer), serial = issuer ? reader.integer(signer, Kind.SERIAL_NUMBER) : null;
    const keyIdentifier = issuer ? null : hexOf(identifier ?? new Uint8Array());
    const found = certificates.of(issuer ? `${serial} ${hexOf(octets)}` : keyIdentifier), certificate = found.length === 1 ? found[0] : null;
    const claimed = found.length > 1 ? found.map(it => it.subject) : [];
    return { issuer: issuer ? nameOf(octets) : null, serial, keyIdentifier, certificate, claimed };
}

/** The digests of a signature by the names of their algorithms, each made once; null by one that is not known. */
class Digests {
    constructor(octets) {
        this.octets = octets;
        this.made = new Map();
    }

    by(name) {
        if (!DIGEST_ALGORITHMS.includes(name)) return null;
        if (!this.made.has(name)) this.made.set(name, hexOf(digester(name).update(this.octets).digest()));
        return this.made.get(name);
    }
}

/** Whether a digest is that of a signature; null if that is not known. */
function isOf(signature, oid, digest) {
    const own = signature.by(NAMES.get(oid));
    return own === null || digest === null ? null : own === digest;
}

function signatureNamed(reader, node) {
    const oid = oidOf(reader.of(one(node, Kind.SIGNATURE_ALGORITHM))), name = SIGNATURES.get(oid);
    return name ? `${name} (${oid})` : named(oid);
}

/** The one value of the one attribute of a type (RFC 5652, section 11); null if there is not exactly one of each. */
function onlyValueOf([attribute, another]) {
    const value = attribute && !another ? elementAt(attribute.inside) : null;
    return value?.end === attribute?.inside.length ? value : null;
}

/** The time that a signer says; null if there is none. */
function signingTimeOf(attributes) {
    if (!attributes.length) return null;
    const value = onlyValueOf(attributes), time = value && timeOf(value.identifier, value.contents);
    return value ? time ?? `not known: ${hexOf(value.octets.subarray(0, MOST_OCTETS))} is no time in UTC` : "not known: there is not exactly one time";
}

/** What a signer says; `covered` is the signature that a countersigner covers. */
function signerOf(reader, node, certificates, covered = null) {
    const attributes = reader.attributes(node), signed = oid => attributes.filter(it => it.oid === oid && it.isSigned);
    const signature = new Digests(reader.string(node, Kind.SIGNATURE)), algorithm = one(node, Kind.SIGNER_DIGEST_ALGORITHM);
    const digest = onlyValueOf(signed(MESSAGE_DIGEST)), messageDigest = digest?.identifier === OCTET_STRING ? hexOf(digest.contents) : null;
    const countersigners = attributes.filter(it => it.node).flatMap(it => all(it.node, Kind.COUNTERSIGNATURE));
    return {
        ...whoOf(reader, node, certificates),
        digestAlgorithm: reader.oid(node, Kind.SIGNER_DIGEST_ALGORITHM), signatureAlgorithm: signatureNamed(reader, node),
        signingTime: signingTimeOf(signed(SIGNING_TIME)),
        messageDigest, isOfSignature: covered ? isOf(covered, oidOf(reader.of(algorithm)), messageDigest) : undefined,
        hasSignedAttributes: Boolean(one(node, Kind.SIGNED_ATTRIBUTES)),
        attributes: attributes.map(it => named(it.oid)),
        timeStamps: attributes.filter(it => it.oid === TIME_STAMP).flatMap(it => it.values.map(value => stampIn(reader.canon, value, signature))),
        countersigners: countersigners.map(it => signerOf(reader, it, certificates, signature)),
    };
}

/** What a time-stamp token says; of what is none, why not. */
function stampIn(canon, octets, signature) {
    try {
        const { kind, stamp, signers } = factsOf(canon, octets);
        if (kind !== "token" || !stamp || stamp.refused) return { refused: stamp?.refused ?? "it is no time-stamp token" };
        const broken = canon.check(octets).filter(it => it.code !== UNVERIFIED).map(it => `F${it.code} ${FINDINGS[it.code - 1].name}`);
        const wrong = [...(signers.length ? [] : ["nobody signed it"]), ...broken].join("; "), isOfSignature = stamp.imprint ? isOf(signature, stamp.imprint.oid, stamp.imprint.digest) : null;
        return { ...stamp, broken: wrong, isOfSignature: wrong && isOfSignature ? null : isOfSignature };
    } catch (error) {
        return { refused: error.message };
    }
}

function imprintOf(reader, node) {
    const digest = reader.string(node, Kind.HASHED_MESSAGE);
    if (!digest) return null;
    const oid = oidOf(reader.of(one(node, Kind.HASH_ALGORITHM)));
    return { oid, algorithm: named(oid), digest: hexOf(digest) };
}

/** What a TSTInfo says (RFC 3161, section 2.4.2). */
function stampOf(canon, content, signers) {
    const reader = new Reader(canon, content), [node] = treeOf(canon.tstInfoFields(content)), time = reader.of(one(node, Kind.GEN_TIME));
    return {
        time: timeOf(GENERALIZED_TIME, time) ?? visible(String.fromCharCode(...time.subarray(0, MOST_OCTETS))), policy: reader.oid(node, Kind.TST_POLICY), serial: reader.integer(node, Kind.TST_SERIAL_NUMBER),
        imprint: imprintOf(reader, node), by: signers[0]?.certificate ?? null, claimed: signers[0]?.claimed ?? [],
    };
}

function signedDataOf(reader, node) {
    const content = reader.string(node, Kind.CONTENT), contentType = one(node, Kind.CONTENT_TYPE), oid = oidOf(reader.of(contentType));
    const certificates = new Certificates(all(one(node, Kind.CERTIFICATES) ?? { below: [] }, Kind.CERTIFICATE).map(it => reader.of(it)));
    const signers = all(node, Kind.SIGNER).map(it => signerOf(reader, it, certificates));
    const facts = { contentType: named(oid), contentLength: content?.length ?? null, certificates: certificates.all, signers, isToken: oid === TST_INFO, stamp: null };
    if (!content || !facts.isToken) return facts;
    try {
        return { ...facts, stamp: stampOf(reader.canon, content, signers) };
    } catch (error) {
        return { ...facts, stamp: { refused: error.message } };
    }
}

/** Says what a message is. Throws what `fields` throws. */
export function factsOf(canon, octets) {
    const reader = new Reader(canon, octets), nodes = treeOf(canon.fields(octets)), [node] = nodes;
    if (node.kind === Kind.REQUEST) {
        const policy = reader.oid(node, Kind.REQUEST_POLICY);
        return { kind: "request", imprint: imprintOf(reader, node), policy, nonce: reader.integer(node, Kind.REQUEST_NONCE) };
    }
    if (node.kind === Kind.RESPONSE) {
        const token = one(node, Kind.SIGNED_DATA), status = reader.integer(node, Kind.STATUS);
        return { kind: "response", status: STATUSES[status] ?? status, ...(token ? signedDataOf(reader, token) : {}) };
    }
    const facts = signedDataOf(reader, node);
    return { kind: facts.isToken ? "token" : "signed", ...facts };
}

/**
 * Returns facts with as much as a page shows: first the signers, then what is below them, time-stamps that can be read first. Each list becomes
 * `{ shown, more, wrong }`: `more` are left out, and `wrong` of these are of something else than the signature that they are at.
 */
export function shownOf(facts) {
    let left = MOST_BELOW;
    const first = items => {
        const count = Math.min(items.length, MOST_OF_ONE, left);
        left -= count;
        return { shown: items.slice(0, count), more: items.length - count, wrong: items.slice(count).filter(it => it.isOfSignature === false).length };
    };
    const signers = facts.signers && { shown: facts.signers.slice(0, MOST_SHOWN).map(it => ({ ...it })), more: Math.max(0, facts.signers.length - MOST_SHOWN) };
    const others = [...(signers?.shown ?? [])];
    for (const it of others) {
        it.attributes = { shown: it.attributes.slice(0, MOST_SHOWN), more: Math.max(0, it.attributes.length - MOST_SHOWN) };
        it.timeStamps = first([...it.timeStamps.filter(stamp => !stamp.refused), ...it.timeStamps.filter(stamp => stamp.refused)]);
        it.countersigners = first(it.countersigners.map(other => ({ ...other })));
        others.push(...it.countersigners.shown);
    }
    return { ...facts, certificates: facts.certificates?.length ?? null, signers: signers ?? null };
}
