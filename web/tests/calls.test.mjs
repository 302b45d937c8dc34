// What the package does around the calls: types, options, errors, and want of memory.
//     PACKAGE=FOLDER MESSAGE=FILE node --test calls.test.mjs
import assert from "node:assert/strict";
import { readFileSync } from "node:fs";
import test from "node:test";
import vm from "node:vm";
import { pathToFileURL } from "node:url";

const { CmsCanon, LIMIT, OutOfMemory, Refused, load } = await import(new URL("cms_canon.mjs", pathToFileURL(`${process.env.PACKAGE}/`)));
const module = readFileSync(`${process.env.PACKAGE}/cms_canon.wasm`);
const message = readFileSync(process.env.MESSAGE);
const canon = await load();
const der = canon.convert(message);
const ID_DATA = Buffer.from("06092a864886f70d010701", "hex");

/** A message whose content is so many zeros. */
function withContent(length) {
    const element = (identifier, ...parts) => {
        const contents = Buffer.concat(parts), size = Buffer.alloc(4);
        size.writeUInt32BE(contents.length);
        return Buffer.concat([Buffer.from([identifier, 0x84]), size, contents]);
    };
    const encapsulated = element(0x30, ID_DATA, element(0xa0, element(0x04, Buffer.alloc(length))));
    const signedData = element(0x30, Buffer.from("0201013100", "hex"), encapsulated, Buffer.from("3100", "hex"));
    return element(0x30, Buffer.from("06092a864886f70d010702", "hex"), element(0xa0, signedData));
}

test("DER is converted to itself, and is a copy", () => {
    assert.notDeepEqual(new Uint8Array(message), der);
    const again = canon.convert(der);
    assert.deepEqual(again, der);
    assert.notEqual(again.buffer, der.buffer);
    assert.equal(again.constructor, Uint8Array);
    assert.equal(canon.same(message, der), true);
});

test("a refusal says why and where", () => {
    const refused = () => canon.convert(der.subarray(0, 20));
    assert.throws(refused, it => it instanceof Refused && it instanceof Error && it.name === "Truncated" && it.code === "E1" && it.reason === 1
        && it.at === 20 && it.which === null && it.message === "refused E1 Truncated at 20");
    assert.throws(() => canon.same(der, der.subarray(0, 20)), it => it.which === 2 && it.message === "second: refused E1 Truncated at 20");
    assert.throws(() => canon.same(new Uint8Array(), der), it => it.which === 1 && it.message === "first: refused E1 Truncated at 0");
    assert.throws(() => canon.cover(der, 7), it => it.code === "" && it.at === null && it.message === "refused: no such signer");
    assert.throws(() => canon.tstInfoFields(der), it => it.reason === 105 && it.message === "refused: not a TSTInfo in DER");
});

test("the limit is heeded, and may be a number or a bigint", () => {
    for (const limit of [der.length - 1, BigInt(der.length - 1), 0]) assert.throws(() => canon.convert(der, { limit }), { code: "E2" });
    assert.deepEqual(canon.convert(der, { limit: BigInt(der.length) }), der);
    assert.deepEqual(canon.convert(der, { limit: 2 ** 40 }), der);
    assert.equal(LIMIT, 256 * 1024 * 1024);
    for (const limit of [-1, 1.5, NaN, 2 ** 40 + 1, "5", null]) assert.throws(() => canon.convert(der, { limit }), RangeError);
});

test("the changes are those of the text", () => {
    const changes = canon.changes(message), text = canon.listChanges(message);
    assert.deepEqual(changes.map(it => it.text), text.split("\n").slice(0, changes.length));
    assert.ok(text.endsWith(`, ${changes.length} changes\n`));
    assert.deepEqual({ ...changes[0] }, { kind: "length made definite", place: 0, length: 2, derPlace: 0, derLength: 4, first: der.length - 4, second: message.length - 2, set: null, text: changes[0].text });
    assert.equal(JSON.parse(canon.listChanges(message, { json: true })).changes.length, changes.length);
    assert.deepEqual([canon.changes(der), canon.listChanges(der)], [[], "no change\n"]);
});

test("the pieces, one after another, are the DER", () => {
    for (const octets of [message, der, withContent(100_000), Buffer.concat([Buffer.from([0x30, 0x80]), der.subarray(4), Buffer.alloc(2)])]) {
        const converted = canon.convert(octets), pieces = canon.pieces(octets);
        const joined = pieces.map(({ place, length, made }) => (made ? converted : octets).subarray(place, place + length));
        assert.deepEqual(new Uint8Array(Buffer.concat(joined)), converted);
        assert.equal(pieces.some(it => it.made), !Buffer.from(converted).equals(octets));
    }
    assert.deepEqual(canon.pieces(der), [{ place: 0, length: der.length, made: false }]);
});

test("what is no octets is refused", () => {
    for (const data of ["text", [48, 3], null, undefined, 5, new ArrayBuffer(4), new Uint16Array(4), {}]) {
        for (const call of ["convert", "convertMany", "show", "check", "digestsAsked", "checkDigests", "fields", "pieces", "changes", "listChanges", "tstInfoFields", "extent"]) {
            assert.throws(() => canon[call](data), TypeError, `${call} of ${data}`);
        }
        assert.throws(() => canon.same(der, data), TypeError);
        assert.throws(() => canon.cover(data, 0), TypeError);
        if (data !== null && data !== undefined) assert.throws(() => canon.check(der, { content: data }), TypeError);
    }
    for (const signer of [-1, 1.5, "0", null, undefined, [0, "1"], [2n ** 64n]]) assert.throws(() => canon.cover(der, signer), RangeError);
    assert.throws(() => canon.checkDigests(der, { content: { md5: new Uint8Array(16) } }), TypeError);
    for (const length of [0, 31, 33, 64]) assert.throws(() => canon.checkDigests(der, { content: { sha256: new Uint8Array(length) } }), RangeError);
    for (const digests of [5, new Map(), [], "text"]) assert.throws(() => canon.checkDigests(der, { content: digests }), TypeError);
    assert.throws(() => canon.checkDigests(der, { content: { sha256: "00" } }), TypeError);
});

test("an option of another name is refused", () => {
    for (const call of ["convert", "show", "check", "fields", "pieces", "changes", "listChanges", "checkDigests", "digestsAsked", "convertMany"]) {
        assert.throws(() => canon[call](der, { limits: 5 }), TypeError, call);
    }
    for (const options of [{ contents: der }, { stamp: der }, "limit"]) assert.throws(() => canon.check(der, options), TypeError);
    assert.throws(() => canon.cover(der, 0, { stamped: der }), TypeError);
    class Options {
        get content() {
            return der;
        }
    }
    const hidden = Object.defineProperty({}, "contents", { value: der }), symbol = { [Symbol("content")]: der };
    for (const options of [new Options(), Object.create({ content: der }), new Map([["content", der]]), Promise.resolve(), () => 0, 5, 5n, hidden, symbol, der]) {
        assert.throws(() => canon.check(der, options), TypeError);
    }
    assert.deepEqual(canon.check(der, Object.create(null)), canon.check(der));
    assert.throws(() => canon.same(der, der, { content: der }), TypeError);
    assert.deepEqual(canon.check(der, null), canon.check(der, {}));
});

/** Gives calls in which code of the caller does something to the octets before they are read. */
function* interrupted(octets, change) {
    for (const call of ["convert", "show", "check", "fields", "pieces", "changes", "listChanges"]) yield () => canon[call](octets, { get limit() { change(); return LIMIT; } });
    yield () => canon.checkDigests(octets, { content: { get sha256() { change(); return new Uint8Array(32); } } });
    yield () => canon.cover(octets, new Proxy([0], { get: (it, name) => (name === "0" && change(), it[name]) }));
}

test("a buffer that is taken away by the caller's own code is refused, and one that is resized is read as it is then", () => {
    for (let number = 0; number < 6; number++) {
        const octets = new Uint8Array(der), detached = [...interrupted(octets, () => structuredClone(octets.buffer, { transfer: [octets.buffer] }))];
        assert.throws(detached[number], TypeError);
        const buffer = new ArrayBuffer(der.length, { maxByteLength: der.length }), view = new Uint8Array(buffer);
        view.set(der);
        if (buffer.resizable) assert.throws([...interrupted(view, () => buffer.resize(10))][number], { code: "E1", at: 10 });
        assert.deepEqual(canon.convert(message), der);
    }
});

test("octets that say another length are read as they are", () => {
    for (const length of [0, 10, der.length - 1, der.length + 1, NaN, -1, "x"]) {
        const octets = Object.defineProperty(new Uint8Array(der), "length", { value: length });
        assert.deepEqual(canon.convert(octets), der);
        assert.equal(canon.same(octets, der), true);
        assert.deepEqual(canon.cover(octets, 0), canon.cover(der, 0));
        assert.deepEqual(canon.convertMany(octets).der, der);
        const short = Object.defineProperty(new Uint8Array(4), "length", { value: 32 });
        assert.throws(() => canon.checkDigests(der, { content: { sha256: short } }), RangeError);
    }
});

test("what is put into Object.prototype is no option", () => {
    const found = canon.check(message);
    Object.prototype.content = der;
    Object.prototype.limit = 1;
    try {
        for (const options of [undefined, {}, Object.create(null)]) assert.deepEqual(canon.check(message, options), found);
    } finally {
        delete Object.prototype.content;
        delete Object.prototype.limit;
    }
});

test("findings have a code and a signer", () => {
    assert.deepEqual(canon.check(message), [{ code: 18, signer: 0 }]);
});

test("messages one after another, and what is refused after them", () => {
    const two = Buffer.concat([message, der]);
    assert.deepEqual({ ...canon.convertMany(two), der: undefined }, { der: undefined, messages: 2, read: two.length, refused: null });
    const { der: ders, messages, read, refused } = canon.convertMany(two.subarray(0, two.length - 1));
    assert.deepEqual([Buffer.compare(ders, der), messages, read, refused.code], [0, 1, message.length, "E1"]);
    assert.equal(canon.convertMany(new Uint8Array()).messages, 0);
});

test("an extent is followed as octets come", () => {
    let extent;
    for (let length = 0; length < der.length; length++) {
        extent = canon.extent(der.subarray(0, length), extent);
        assert.equal(extent.reach, "more");
    }
    assert.deepEqual(canon.extent(der, extent), { reach: "whole", end: der.length, unended: 0 });
    for (const before of ["x", 5, [], { end: -1 }, { end: "4" }, { end: 1.5 }]) assert.throws(() => canon.extent(der, before));
    assert.equal(canon.extent(Buffer.from("04", "hex")).reach, "more");
    assert.equal(canon.extent(Buffer.from("0480", "hex")).reach, "nothing");
});

test("a long message takes an instance of its own", () => {
    const long = withContent(70_000_000), converted = canon.convert(long);
    assert.equal(converted[1], 0x84);
    assert.ok(converted.length < long.length + 64 && converted.length > 70_000_000);
    assert.deepEqual(canon.convert(message), der);
});

test("without memory nothing is written, and the next call is right", async () => {
    const compiled = await WebAssembly.compile(module);
    let stopped = 0, done = 0;
    for (let bound = 0; bound < 64; bound++) {
        const instances = [], { Instance } = WebAssembly;
        WebAssembly.Instance = class extends Instance {
            constructor(...words) {
                super(...words);
                instances.push(this);
                this.exports.cms_canon_bound(BigInt(this.exports.__heap_base.value) + BigInt(bound * 1024));
            }
        };
        const own = new CmsCanon(compiled);
        for (const call of ["convert", "show", "check", "fields", "pieces", "changes", "listChanges", "digestsAsked", "convertMany"]) {
            const wanted = canon[call](message);
            try {
                assert.deepEqual(own[call](message), wanted);
                done += 1;
            } catch (error) {
                assert.ok(error instanceof OutOfMemory, String(error));
                stopped += 1;
                instances.at(-1).exports.cms_canon_bound(1n << 40n);
                assert.deepEqual(own[call](message), wanted);
                instances.at(-1).exports.cms_canon_bound(BigInt(instances.at(-1).exports.__heap_base.value) + BigInt(bound * 1024));
            }
        }
        WebAssembly.Instance = Instance;
    }
    assert.ok(stopped > 20 && done > 20, `${stopped} stopped, ${done} done`);
});

test("octets of another realm are octets", () => {
    const other = vm.runInNewContext(`new Uint8Array([${der.join(",")}])`);
    assert.ok(!(other instanceof Uint8Array));
    assert.deepEqual(canon.convert(other), der);
});

test("a memory that does not grow is heeded, and blocks do not overlap", () => {
    const { exports } = new WebAssembly.Instance(new WebAssembly.Module(module), {});
    assert.notEqual(exports.cms_canon_room(2_000_000_000n), 0n);
    assert.equal(exports.cms_canon_room(2_300_000_000n), 0n);
    const at = exports.cms_canon_room(100n);
    assert.ok(at === 0n || Number(at) + 100 <= exports.memory.buffer.byteLength);
});

test("what is no module is refused", async () => {
    await assert.rejects(load(new Uint8Array(8)), WebAssembly.CompileError);
});
