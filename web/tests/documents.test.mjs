// When a document is said to belong to a message: tried for each kind with all findings, one, two and three at a time.
//     node --test documents.test.mjs
import assert from "node:assert/strict";
import test from "node:test";

const { verdictOf, verdictOnInside } = await import("../documents.mjs");

const SIGNER = { hasSignedAttributes: true }, WITHOUT = { hasSignedAttributes: false };
const STAMP = { imprint: { oid: "2.16.840.1.101.3.4.2.1", digest: "00" } };
const FINDINGS = Array.from({ length: 19 }, (_, index) => index + 1).flatMap(code => [null, 0, 1].map(signer => ({ code, signer })));

/** Gives all sets of at most three findings. */
function* sets() {
    yield [];
    for (let one = 0; one < FINDINGS.length; one++) {
        yield [FINDINGS[one]];
        for (let two = one + 1; two < FINDINGS.length; two++) {
            yield [FINDINGS[one], FINDINGS[two]];
            for (let three = two + 1; three < FINDINGS.length; three++) yield [FINDINGS[one], FINDINGS[two], FINDINGS[three]];
        }
    }
}

const has = (findings, codes, signers) => findings.some(it => codes.includes(it.code) && signers.includes(it.signer));

/** Tries all findings: what says that the document is another, and what leaves open whether it is the one. */
function tried(facts, differs, leavesOpen) {
    const seen = new Set();
    for (const findings of sets()) {
        const wanted = differs(findings) ? "differs" : leavesOpen(findings) ? "unknown" : "fits";
        assert.equal(verdictOf(facts, findings, true).verdict, wanted, JSON.stringify([facts, findings]));
        assert.notEqual(verdictOf(facts, findings, false).verdict, "fits", JSON.stringify([facts, findings]));
        seen.add(wanted);
    }
    assert.equal(seen.size, 3);
}

test("a message whose content is a file of its own", () => {
    const facts = { kind: "signed", contentLength: null, signers: [SIGNER, SIGNER] };
    tried(facts, it => has(it, [7], [0, 1]), it => has(it, [4, 5, 6, 8], [0, 1]));
});

test("the content that a message has in it", () => {
    const facts = { kind: "signed", contentLength: 0, signers: [SIGNER, SIGNER] };
    for (const findings of sets()) {
        const wanted = has(findings, [7], [0, 1]) ? "differs" : has(findings, [4, 5, 6, 8], [0, 1]) ? "unknown" : "fits";
        assert.equal(verdictOnInside(facts, findings).verdict, wanted, JSON.stringify(findings));
        assert.equal(verdictOnInside({ ...facts, signers: [SIGNER, WITHOUT] }, findings).verdict, wanted === "fits" ? "unknown" : wanted);
    }
    for (const none of [{ ...facts, contentLength: null }, { ...facts, signers: [] }, { kind: "request" }, { kind: "response" }]) assert.equal(verdictOnInside(none, []), null);
});

for (const kind of ["token", "response"]) {
    test(`a time-stamp in a ${kind}`, () => {
        const facts = { kind, contentLength: 5, signers: [SIGNER], stamp: STAMP };
        const isNone = it => has(it, [9, 11, 13], [null]);
        tried(facts, it => !isNone(it) && has(it, [14], [null]), it => isNone(it) || has(it, [8, 12, 19], [null]) || has(it, [4, 5, 6, 7, 8], [0]));
    });
}

test("a request", () => {
    tried({ kind: "request", ...STAMP }, it => has(it, [14], [null]), it => has(it, [8], [null]));
});

test("what nobody signed, or what says nothing of a document, fits nothing", () => {
    const kinds = {
        unknown: [
            { kind: "signed", contentLength: null, signers: [] }, { kind: "signed", contentLength: null, signers: [SIGNER, WITHOUT] },
            { kind: "token", contentLength: 5, signers: [], stamp: STAMP }, { kind: "token", contentLength: 5, signers: [WITHOUT], stamp: STAMP },
            { kind: "token", contentLength: 5, signers: [SIGNER], stamp: { refused: "not a TSTInfo in DER" } }, { kind: "response" },
            { kind: "token", contentLength: null, signers: [SIGNER], stamp: null }, { kind: "token", contentLength: 5, signers: [SIGNER], stamp: { imprint: null } },
        ],
        unused: [{ kind: "signed", contentLength: 0, signers: [SIGNER] }, { kind: "signed", contentLength: 5, signers: [] }],
    };
    for (const [wanted, some] of Object.entries(kinds)) for (const facts of some) assert.equal(verdictOf(facts, [], true).verdict, wanted, JSON.stringify(facts));
});
