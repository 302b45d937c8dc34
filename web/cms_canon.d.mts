/** The octets that a message and its DER may have if no other limit is given: 256 MiB, the limit of the command. */
export const LIMIT: number;

/** The algorithms of digests that the library knows, by the names that Node's `crypto` has for them. */
export const DIGEST_ALGORITHMS: readonly DigestAlgorithm[];

export type DigestAlgorithm = "sha1" | "sha224" | "sha256" | "sha384" | "sha512" | "sha512-224" | "sha512-256";

/** A message is refused, or lacks what is asked for. Its `message` is the line of the command, as `refused E6 Overrun at 4`. */
export class Refused extends Error {
    private constructor();
    /** The name of the reason, as `Overrun` or `no such signer`. */
    name: string;
    /** 1 to 19 for E1 to E19; 101 to 107 as `enum cms_canon_reason` of the header has them. */
    reason: number;
    /** `E1` to `E19`, or an empty text. */
    code: string;
    /** How many octets of the message were read when it was refused by one of E1 to E19; else null. */
    at: number | null;
    /** Which message `same` refuses, 1 or 2; of another call null. The text then begins with `first: ` or `second: `. */
    which: 1 | 2 | null;
}

/** The module had no memory for a call: nothing was written. */
export class OutOfMemory extends Error {}

export interface Options {
    /** How many octets a message and its DER may have: at most 2^40. */
    limit?: number | bigint;
}

export interface Content extends Options {
    /** The content of a detached signature. It is not used if the message has content of its own, or is a request for a time-stamp. */
    content?: Uint8Array | null;
}

export interface Documents<Octets> extends Options {
    /** The content of a detached signature. It is not used if the message has content of its own, or is a request for a time-stamp. */
    content?: Octets | null;
    /** The data that were time-stamped: the message then has to be a token for them, a response with such a token, or a request for one. */
    stamped?: Octets | null;
}

/** Digests of a document by the names of their algorithms. */
export type Digests = Partial<Record<DigestAlgorithm, Uint8Array>>;

/** A rule of the standards that a message breaks. */
export interface Finding {
    /** 1 to 19 for F1 to F19. */
    code: number;
    /** The number of the signer that breaks it, in the order read, from 0; null for a rule for the message. */
    signer: number | null;
}

/** What became of messages one after another. */
export interface Many {
    /** The DER of the messages that were accepted, one after another. */
    der: Uint8Array;
    /** How many messages were accepted, and so the number of the one that is refused, from 0. */
    messages: number;
    /** How many octets these have, and so where the one that is refused begins. */
    read: number;
    /** Why the next message is refused, with its place from the first octet of that message; null if all were accepted. */
    refused: Refused | null;
}

/** How far an element reaches whose octets come in pieces. */
export interface Extent {
    /** `more`: octets are missing. `whole`: the element has `end` octets. `nothing`: after `end` octets no element begins that ends within the limit. */
    reach: "more" | "whole" | "nothing";
    /** How many octets were passed. */
    end: number;
    /** How many elements of indefinite length have not ended there. */
    unended: number;
}

/** What digests a message asks for of documents that are not in it. */
export interface DigestsAsked {
    content: DigestAlgorithm[];
    stamped: DigestAlgorithm[];
    /** Whether the content is needed itself: `check` takes it. */
    contentItself: boolean;
}

/** A field of a message, or a segment of one. */
export interface Row {
    /** As `enum cms_canon_kind` of the header. */
    kind: number;
    /** How many fields it is in. */
    level: number;
    /** Where in the message its octets begin, from 0. */
    start: number;
    /** How many octets there are. */
    length: number;
}

/** A change from a message to its DER. Places are in octets, from 0. */
export interface Change {
    /** What is changed, as `length made definite`; docs/FORMATS.md has all kinds. */
    kind: string;
    /** Where what is changed begins in the message. */
    place: number;
    /** How many octets it has there. */
    length: number;
    /** Where it begins in the DER; if it is left out, where it would. */
    derPlace: number;
    /** How many octets it has there: 0 if it is left out. */
    derLength: number;
    /** A number, by the kind: what it was, or where; of segments that are joined, how many there are. */
    first: number;
    /** Another number, by the kind: what it is now; of segments, how many octets are in them. */
    second: number;
    /** The set whose member is moved, as `digestAlgorithms`; null for another kind. */
    set: string | null;
    /** The line of the command `changes`. */
    text: string;
}

/** A piece of the DER of a message. */
export interface Piece {
    /** Where it begins, from 0: in the DER if it is made, and in the message if not. */
    place: number;
    /** How many octets it has. */
    length: number;
    /** Whether its octets are made; else they are copied from the message. */
    made: boolean;
}

/**
 * The calls of the library. All that take a message throw `Refused` if the octets are no such message, or one above the limit; `OutOfMemory` if
 * there is no memory; `TypeError` if octets are no `Uint8Array` or options no plain object, and `RangeError` if a number is none from 0 on. Nothing
 * that is handed over is kept or changed. No call verifies a signature.
 */
export class CmsCanon {
    private constructor();

    /** Returns the DER of the one message in `data`. */
    convert(data: Uint8Array, options?: Options): Uint8Array;

    /** Converts messages one right after the other. The limit is that of each. */
    convertMany(data: Uint8Array, options?: Options): Many;

    /**
     * Says how far the element reaches that `data` begins with. `before` is what the call before said of fewer of the same octets: it is believed,
     * and what was passed then is not read again.
     */
    extent(data: Uint8Array, before?: Extent | null, options?: Options): Extent;

    /** Returns the listing of a message, as the command `show` writes it. */
    show(data: Uint8Array, options?: Options): string;

    /** Returns whether two messages are the same: whether they have the same DER. */
    same(first: Uint8Array, second: Uint8Array, options?: Options): boolean;

    /** Returns the rules of the standards that a message breaks. No signature is verified: there is F18 for each that covers anything. */
    check(data: Uint8Array, options?: Documents<Uint8Array>): Finding[];

    /** Returns which digests of documents a message asks for, so that they need not be in memory. */
    digestsAsked(data: Uint8Array, options?: Options): DigestsAsked;

    /** Returns what `check` does, by digests of documents in place of their octets. A digest that is not of the document is believed. */
    checkDigests(data: Uint8Array, options?: Documents<Digests>): Finding[];

    /**
     * Returns the octets that a signature covers, which a verifier digests (RFC 5652, sections 5.4 and 11.4). `signer` is the number of the signer
     * in the order read, from 0; or that number and those of countersignatures below it.
     */
    cover(data: Uint8Array, signer: number | bigint | readonly (number | bigint)[], options?: Content): Uint8Array;

    /** Returns where each field of a message is, in the order of the definitions. */
    fields(data: Uint8Array, options?: Options): Row[];

    /** Returns what `convert` changes in a message, in its order; an empty list if it is its own DER. */
    changes(data: Uint8Array, options?: Options): Change[];

    /** Returns the same as the command `changes` writes it: a line for each change, and one that counts them and the octets; or one object of JSON. */
    listChanges(data: Uint8Array, options?: Options & { json?: boolean }): string;

    /** Returns of which pieces the DER of a message is put together, in order; of a message in DER that is one piece. */
    pieces(data: Uint8Array, options?: Options): Piece[];

    /** Returns where each field of a TSTInfo is, the content of a time-stamp token. */
    tstInfoFields(content: Uint8Array): Row[];
}

/** Loads the library: the module beside this file, or that with these octets. */
export function load(octets?: ArrayBuffer | ArrayBufferView): Promise<CmsCanon>;
