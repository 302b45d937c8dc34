// Answers requests by the module, as tests/c/answer.c does by the library for C: one request and one answer a line. There is no `part`.
//     node answer.mjs PACKAGE
// PACKAGE is the folder of the package.
import { createInterface } from "node:readline";
import { pathToFileURL } from "node:url";

const { DIGEST_ALGORITHMS, Refused, load } = await import(new URL("cms_canon.mjs", pathToFileURL(`${process.argv[2]}/`)));
const canon = await load();
const DIGEST = 68, LENGTHS = [20, 28, 32, 48, 64, 28, 32]; // octets of struct cms_canon_digest, and of each digest

const octetsOf = word => new Uint8Array(Buffer.from(word === "-" ? "" : word, "hex"));
const optional = word => (word === "-" ? null : octetsOf(word));
const hex = octets => Buffer.from(octets).toString("hex");

function digestsOf(word) {
    if (word === "-") return null;
    const octets = octetsOf(word), view = new DataView(octets.buffer), digests = {};
    for (let at = 0; at < octets.length; at += DIGEST) {
        const number = view.getUint32(at, true) - 1;
        digests[DIGEST_ALGORITHMS[number]] = octets.subarray(at + 4, at + 4 + LENGTHS[number]);
    }
    return digests;
}

function extent(limit, data) {
    let came = 0, said = canon.extent(data.subarray(0, 0), null, { limit });
    while (said.reach === "more" && came < data.length) said = canon.extent(data.subarray(0, ++came), said, { limit });
    return `${["more", "whole", "nothing"].indexOf(said.reach)} ${came} ${said.end}`;
}

function many(limit, data) {
    const { der, messages, refused } = canon.convertMany(data, { limit });
    return refused ? `3 ${messages} ${hex(der)} message ${messages}: ${refused.message}` : `0 ${messages} ${hex(der)}`;
}

function findings(found, verdict) {
    const judged = found.filter(it => !(it.code === 18 && verdict === "good"));
    const code = it => (it.code === 18 && verdict === "bad" ? 17 : it.code);
    return ["0", ...judged.map(it => `F${code(it)}${it.signer === null ? "" : `:${it.signer}`}`)].join(" ");
}

const rows = found => ["0", ...found.map(it => `${it.kind.toString(16).padStart(2, "0")}:${it.level}:${it.start},${it.length}`)].join(" ");

const CALLS = {
    convert: (limit, data) => `0 ${hex(canon.convert(data, { limit }))}`,
    many,
    read: (limit, data) => String(canon.convertMany(data, { limit }).read),
    extent,
    cover: (limit, data, path, content) =>
        `0 ${hex(canon.cover(data, path.split(",").filter(Boolean).map(BigInt), { limit, content: optional(content) }))}`,
    show: (limit, data) => `0 ${hex(new TextEncoder().encode(canon.show(data, { limit })))}`,
    same: (limit, data, second) => (canon.same(data, octetsOf(second), { limit }) ? "0" : "1"),
    check: (limit, data, content, stamped, verdict) =>
        findings(canon.check(data, { limit, content: optional(content), stamped: optional(stamped) }), verdict),
    digests: (limit, data, content, stamped, verdict) =>
        findings(canon.checkDigests(data, { limit, content: digestsOf(content), stamped: digestsOf(stamped) }), verdict),
    fields: (limit, data) => rows(canon.fields(data, { limit })),
    "tst-info": (limit, data) => rows(canon.tstInfoFields(data)),
};

for await (const line of createInterface({ input: process.stdin, crlfDelay: Infinity })) {
    const [call, limit, data, ...more] = line.split(" ");
    let said;
    try {
        said = CALLS[call](BigInt(limit), octetsOf(data), ...more);
    } catch (error) {
        said = error instanceof Refused ? `3 ${error.message}` : `failed: ${error.stack}`;
    }
    process.stdout.write(`${said}\n`);
}
