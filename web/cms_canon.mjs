// The calls of libcms_canon, by its WebAssembly module, for Node and for browsers: `load` returns a `CmsCanon` with all of them.
// cms_canon.d.mts says what each takes and returns.
//
// What is handed over is copied into the memory of the module, and what comes back is copied out of it. Pointers and lengths of the module have
// 64 bits.
import { KINDS, SETS } from "./changes.mjs";

/** The octets that a message and its DER may have if no other limit is given: 256 MiB. */
export const LIMIT = 268435456;

const MAX_LIMIT = 2 ** 40;
const DONE = 0, DIFFERENT = 1, REFUSED = 3, OUT_OF_MEMORY = 5, ROOM_TOO_SMALL = 6;
const NO_SIGNED_DATA = 101; // the first of the reasons that are none of E1 to E19
const OUTCOME = 48, MANY = 64, EXTENT = 24, FINDING = 16, ROW = 24, PIECE = 24, CHANGE = 64, ASKED = 8, DIGEST = 68; // octets of each struct of the header
const LARGE = 64 * 1024 * 1024; // octets of memory: it never shrinks, so that an instance that took more is not used again
const TEXT = new TextDecoder("utf-8", { fatal: true, ignoreBOM: true });
const REACHES = ["more", "whole", "nothing"];

/** A message is refused, or lacks what is asked for. */
export class Refused extends Error {
    constructor({ reason, name, at, which }) {
        const isOfMessage = reason < NO_SIGNED_DATA;
        const line = isOfMessage ? `refused E${reason} ${name} at ${at}` : `refused: ${name}`;
        super(`${["", "first: ", "second: "][which]}${line}`);
        this.name = name;
        this.reason = reason;
        this.code = isOfMessage ? `E${reason}` : "";
        this.at = isOfMessage ? at : null;
        this.which = which || null;
    }
}

/** The module had no memory for a call: nothing was written. */
export class OutOfMemory extends Error {
    constructor() {
        super("out of memory");
        this.name = "OutOfMemory";
    }
}

/** The algorithms of digests by their numbers, from 1, as hash algorithms are named in Node. */
export const DIGEST_ALGORITHMS = Object.freeze(["sha1", "sha224", "sha256", "sha384", "sha512", "sha512-224", "sha512-256"]);
const DIGEST_LENGTHS = [20, 28, 32, 48, 64, 28, 32]; // octets

// What a typed array is, and how many octets it has, whatever its realm, and whatever properties it was given.
const intrinsic = name => Object.getOwnPropertyDescriptor(Object.getPrototypeOf(Uint8Array.prototype), name).get;
const typeOfArray = intrinsic(Symbol.toStringTag), lengthOfArray = intrinsic("length");
const countOf = octets => lengthOfArray.call(octets);

function octetsOf(data, what) {
    if (typeOfArray.call(data) !== "Uint8Array") throw new TypeError(`${what} is a Uint8Array, not ${data === null ? "null" : typeof data}`);
    return data;
}

/** The properties of a plain object, which has no others than these: what another kind of object inherits or hides would not be heeded. */
function propertiesOf(object, names, what) {
    const above = typeof object === "object" && object !== null ? Object.getPrototypeOf(object) : object;
    if (above !== null && (typeof above !== "object" || Object.getPrototypeOf(above) !== null)) throw new TypeError(`${what} are a plain object`);
    const own = Reflect.ownKeys(object), unknown = own.find(it => !names.includes(it));
    if (unknown !== undefined) throw new TypeError(`${what}: there is none that is named ${String(unknown)}`);
    return names.map(name => (own.includes(name) ? object[name] : undefined));
}

/** Octets that may be missing, and whether there are any. */
function optionalOctets(data, what) {
    return data === undefined || data === null ? [new Uint8Array(), 0] : [octetsOf(data, what), 1];
}

/** Items as C has them, in octets that no caller has. */
class Items {
    constructor(view, count) {
        this.octets = new Uint8Array(view.buffer);
        this.count = count;
    }
}

function wholeNumber(number, most, what) {
    const isWhole = typeof number === "bigint" || Number.isSafeInteger(number);
    if (!isWhole || number < 0 || number > most) throw new RangeError(`${what} is a whole number from 0 to ${most}, not ${String(number)}`);
    return BigInt(number);
}

const NO_OPTIONS = Object.freeze({ limit: BigInt(LIMIT) });

/** The options, none of which has another name than these: one that is mistyped would leave out a check. */
function optionsOf(options, ...names) {
    if (options === undefined || options === null) return NO_OPTIONS;
    const [limit = LIMIT, ...others] = propertiesOf(options, ["limit", ...names], "options");
    return { ...Object.fromEntries(names.map((name, index) => [name, others[index]])), limit: wholeNumber(limit, MAX_LIMIT, "a limit") };
}

/** The numbers of a path. */
function pathOf(signer) {
    const path = Array.isArray(signer) ? [...signer] : [signer], view = new DataView(new ArrayBuffer(8 * path.length));
    path.forEach((it, index) => view.setBigUint64(8 * index, wholeNumber(it, 2n ** 64n - 1n, "the number of a signer"), true));
    return new Items(view, path.length);
}

/** Digests by the names of their algorithms, and whether there are any. */
function digestsOf(digests, what) {
    if (digests === undefined || digests === null) return [new Uint8Array(), 0];
    const given = propertiesOf(digests, DIGEST_ALGORITHMS, `digests of ${what}`).map((it, index) => [index, it]).filter(([, it]) => it !== undefined);
    const view = new DataView(new ArrayBuffer(given.length * DIGEST));
    given.forEach(([index, digest], place) => {
        const name = `${what}: ${DIGEST_ALGORITHMS[index]}`, length = DIGEST_LENGTHS[index];
        if (countOf(octetsOf(digest, name)) !== length) throw new RangeError(`${name} has ${length} octets, and not ${countOf(digest)}`);
        view.setUint32(place * DIGEST, index + 1, true);
        new Uint8Array(view.buffer, place * DIGEST + 4).set(digest);
    });
    return [new Items(view, given.length), 1];
}

/** The items of a written array. */
function itemsOf(octets, size, read) {
    const view = new DataView(octets.buffer, octets.byteOffset, octets.length);
    return Array.from({ length: octets.length / size }, (_, index) => read(view, index * size));
}

const findingsOf = octets => itemsOf(octets, FINDING, (view, at) => ({
    code: view.getUint32(at + 8, true), signer: view.getUint32(at + 12, true) ? Number(view.getBigUint64(at, true)) : null,
}));

const rowsOf = octets => itemsOf(octets, ROW, (view, at) => ({
    kind: view.getUint32(at + 16, true), level: view.getUint32(at + 20, true), start: Number(view.getBigUint64(at, true)),
    length: Number(view.getBigUint64(at + 8, true)),
}));

/** One instance of the module, and the memory of it that a call takes. */
class Instance {
    constructor(module) {
        this.calls = new WebAssembly.Instance(module, {}).exports;
        this.taken = [];
    }

    /** Takes so many octets. Throws `OutOfMemory` if there are none. */
    take(count) {
        const at = this.calls.cms_canon_room(BigInt(count));
        if (at === 0n) throw new OutOfMemory();
        this.taken.push(at);
        return at;
    }

    release() {
        for (const at of this.taken.splice(0).reverse()) this.calls.cms_canon_free(at);
    }

    octets(at, count) {
        return new Uint8Array(this.calls.memory.buffer, Number(at), count);
    }

    view(at, count) {
        return new DataView(this.calls.memory.buffer, Number(at), count);
    }

    /** Hands over what a call takes: octets and items by a pointer to a copy and their number, and numbers as they are. */
    handed(word) {
        if (typeof word !== "object") return [word];
        if (word instanceof Items) return [this.copied(word.octets)[0], BigInt(word.count)];
        return this.copied(word);
    }

    /** Copies octets. Their number is read here and nowhere else: code of the caller, such as a getter, can take a buffer away or resize it. */
    copied(octets) {
        const length = countOf(octets), at = this.take(length || 1);
        this.octets(at, length).set(octets);
        return [at, BigInt(length)];
    }

    /** A struct of zeros, whose status says out of memory until the call says otherwise. */
    struct(size) {
        const at = this.take(size);
        this.octets(at, size).fill(0);
        this.view(at, size).setUint32(0, OUT_OF_MEMORY, true);
        return at;
    }

    outcome(at) {
        const view = this.view(at, OUTCOME), status = view.getUint32(0, true);
        return {
            status, reason: view.getUint32(4, true), at: Number(view.getBigUint64(8, true)), octets: Number(view.getBigUint64(16, true)),
            name: status === REFUSED ? this.text(at + 24n, 24) : "",
        };
    }

    /** The text up to a zero. */
    text(at, count) {
        const octets = this.octets(at, count);
        return String.fromCharCode(...octets.subarray(0, octets.indexOf(0)));
    }
}

/** The calls of the library. */
export class CmsCanon {
    #module;
    #instance = null;

    constructor(module) {
        this.#module = module;
    }

    /** Works with an instance, which is not used again if it trapped or took much memory. */
    #with(work) {
        const instance = this.#instance ?? new Instance(this.#module);
        this.#instance = null;
        let result;
        try {
            result = work(instance);
        } catch (error) {
            if (!(error instanceof OutOfMemory || error instanceof Refused)) throw error;
            this.#keep(instance);
            throw error;
        }
        this.#keep(instance);
        return result;
    }

    #keep(instance) {
        instance.release();
        if (instance.calls.memory.buffer.byteLength <= LARGE) this.#instance = instance;
    }

    /** Calls with room for so many items of this size, and once more if they are too few. Returns the octets that were written. */
    #written(call, room, size, ...words) {
        return this.#with(instance => {
            const handed = words.flatMap(it => instance.handed(it)), at = instance.struct(OUTCOME);
            for (let items = room; ;) {
                const output = instance.take((items || 1) * size);
                instance.calls[call](...handed, output, BigInt(items), at);
                const outcome = instance.outcome(at);
                if (outcome.status !== ROOM_TOO_SMALL) return instance.octets(output, lengthOf(outcome) * size).slice();
                instance.calls.cms_canon_free(instance.taken.pop());
                items = outcome.octets;
            }
        });
    }

    convert(data, options) {
        const { limit } = optionsOf(options), octets = octetsOf(data, "a message");
        return this.#written("cms_canon_convert", countOf(octets) + 64, 1, octets, limit);
    }

    convertMany(data, options) {
        const { limit } = optionsOf(options), octets = octetsOf(data, "messages");
        return this.#with(instance => {
            const input = instance.handed(octets), at = instance.struct(MANY);
            for (let room = countOf(octets) + 64; ;) {
                const output = instance.take(room);
                instance.calls.cms_canon_convert_many(...input, limit, output, BigInt(room), at);
                const outcome = instance.outcome(at), view = instance.view(at, MANY);
                if (outcome.status === ROOM_TOO_SMALL) {
                    instance.calls.cms_canon_free(instance.taken.pop());
                    room = outcome.octets;
                    continue;
                }
                if (outcome.status !== REFUSED) lengthOf(outcome);
                return {
                    der: instance.octets(output, outcome.octets).slice(), messages: Number(view.getBigUint64(OUTCOME, true)),
                    read: Number(view.getBigUint64(OUTCOME + 8, true)), refused: outcome.status === REFUSED ? refusalOf(outcome) : null,
                };
            }
        });
    }

    extent(data, before, options) {
        const { limit } = optionsOf(options);
        const [, ...numbers] = propertiesOf(before ?? {}, ["reach", "end", "unended"], "extents");
        const begun = numbers.map(it => wholeNumber(it ?? 0, Number.MAX_SAFE_INTEGER, "a number of an extent")), octets = octetsOf(data, "octets");
        return this.#with(instance => {
            const input = instance.handed(octets), at = instance.take(EXTENT), view = () => instance.view(at, EXTENT);
            [...begun, 0n].forEach((it, index) => view().setBigUint64(8 * index, it, true));
            instance.calls.cms_canon_extent(...input, limit, at);
            const reach = REACHES[view().getUint32(16, true)];
            if (reach === undefined) throw new OutOfMemory();
            return { reach, end: Number(view().getBigUint64(0, true)), unended: Number(view().getBigUint64(8, true)) };
        });
    }

    show(data, options) {
        const { limit } = optionsOf(options), octets = octetsOf(data, "a message");
        return TEXT.decode(this.#written("cms_canon_show", 8192, 1, octets, limit));
    }

    same(first, second, options) {
        const { limit } = optionsOf(options), both = [octetsOf(first, "the first message"), octetsOf(second, "the second message")];
        return this.#with(instance => {
            const handed = both.flatMap(it => instance.handed(it)), at = instance.struct(OUTCOME);
            instance.calls.cms_canon_same(...handed, limit, at);
            const outcome = instance.outcome(at);
            if (outcome.status === DIFFERENT) return false;
            if (outcome.status === REFUSED) throw refusalOf(outcome, outcome.octets);
            lengthOf(outcome);
            return true;
        });
    }

    check(data, options) {
        const { content, stamped, limit } = optionsOf(options, "content", "stamped"), octets = octetsOf(data, "a message");
        const words = [octets, ...optionalOctets(content, "content"), ...optionalOctets(stamped, "what was stamped")];
        return findingsOf(this.#written("cms_canon_check", FINDINGS, FINDING, ...words, limit));
    }

    checkDigests(data, options) {
        const { content, stamped, limit } = optionsOf(options, "content", "stamped"), octets = octetsOf(data, "a message");
        const words = [octets, ...digestsOf(content, "content"), ...digestsOf(stamped, "what was stamped")];
        return findingsOf(this.#written("cms_canon_check_digests", FINDINGS, FINDING, ...words, limit));
    }

    digestsAsked(data, options) {
        const { limit } = optionsOf(options), octets = octetsOf(data, "a message");
        const rows = this.#written("cms_canon_digests_asked", 8, ASKED, octets, limit);
        const asked = itemsOf(rows, ASKED, (view, at) => [view.getUint32(at, true), view.getUint32(at + 4, true)]);
        const of = what => asked.filter(([it, number]) => it === what && number > 0).map(([, number]) => DIGEST_ALGORITHMS[number - 1]);
        return { content: of(1), stamped: of(2), contentItself: asked.some(([it, number]) => it === 1 && number === 0) };
    }

    cover(data, signer, options) {
        const { content, limit } = optionsOf(options, "content"), octets = octetsOf(data, "a message"), given = optionalOctets(content, "content");
        const words = [octets, pathOf(signer), ...given, limit];
        return this.#written("cms_canon_cover", countOf(octets) + countOf(given[0]) + 1, 1, ...words);
    }

    fields(data, options) {
        const { limit } = optionsOf(options), octets = octetsOf(data, "a message");
        return rowsOf(this.#written("cms_canon_fields", 256, ROW, octets, limit));
    }

    changes(data, options) {
        const { limit } = optionsOf(options), octets = octetsOf(data, "a message");
        const rows = this.#written("cms_canon_changes", 64, CHANGE, octets, limit);
        const lines = rows.length ? this.listChanges(octets, { limit }).split("\n") : [];
        const words = itemsOf(rows, CHANGE, (view, begin) => Array.from({ length: CHANGE / 8 }, (_, it) => Number(view.getBigUint64(begin + 8 * it, true))));
        return words.map(([kind, place, length, derPlace, derLength, first, second, set], index) => (
            { kind: KINDS[kind], place, length, derPlace, derLength, first, second, set: SETS[set], text: lines[index] }));
    }

    listChanges(data, options) {
        const { json, limit } = optionsOf(options, "json"), octets = octetsOf(data, "a message");
        return TEXT.decode(this.#written("cms_canon_list_changes", 8192, 1, octets, json ? 1 : 0, limit));
    }

    pieces(data, options) {
        const { limit } = optionsOf(options), octets = octetsOf(data, "a message");
        const at = (view, begin) => Number(view.getBigUint64(begin, true));
        const pieces = this.#written("cms_canon_pieces", 256, PIECE, octets, limit);
        return itemsOf(pieces, PIECE, (view, begin) => ({ place: at(view, begin), length: at(view, begin + 8), made: at(view, begin + 16) === 1 }));
    }

    tstInfoFields(content) {
        const octets = octetsOf(content, "a TSTInfo");
        return rowsOf(this.#written("cms_canon_tst_info_fields", 64, ROW, octets));
    }
}

const FINDINGS = 64; // room for a first call

function refusalOf(outcome, which = 0) {
    return new Refused({ reason: outcome.reason, name: outcome.name, at: outcome.at, which });
}

/** How many items were written. Throws if the call did not do what it was asked for. */
function lengthOf(outcome) {
    if (outcome.status === REFUSED) throw refusalOf(outcome);
    if (outcome.status !== DONE) throw new OutOfMemory();
    return outcome.octets;
}

/** Loads the module: that beside this file, or the octets of another one. */
export async function load(octets) {
    return new CmsCanon(await WebAssembly.compile(octets ?? await besideThis()));
}

async function besideThis() {
    const place = new URL("cms_canon.wasm", import.meta.url);
    if (place.protocol !== "file:") {
        const response = await fetch(place);
        if (!response.ok) throw new Error(`${place} is not there: status ${response.status}`);
        return response.arrayBuffer();
    }
    const { readFile } = await import("node:fs/promises");
    return readFile(place);
}
