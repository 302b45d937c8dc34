// SHA-1 and the SHA-2 family (FIPS 180-4) over octets that come in pieces, so that a document need not be in memory: `crypto.subtle.digest` takes all
// octets at once. The constants are calculated as the standard defines them.

const PRIMES = [];
for (let it = 2; PRIMES.length < 80; it++) if (PRIMES.every(prime => it % prime)) PRIMES.push(it);

/** The whole part of the root of a number. */
function rootOf(number, degree) {
    let low = 0n, high = 1n << 80n;
    while (high - low > 1n) {
        const middle = (low + high) >> 1n;
        if (middle ** degree <= number) low = middle;
        else high = middle;
    }
    return low;
}

/** The first 64 bits of the fraction of the root of a prime. */
const fractionOf = (prime, degree) => BigInt.asUintN(64, rootOf(BigInt(prime) << (64n * degree), degree));

const K64 = PRIMES.map(it => fractionOf(it, 3n));
const highOf = words => Int32Array.from(words, it => Number(BigInt.asIntN(32, it >> 32n)));
const lowOf = words => Int32Array.from(words, it => Number(BigInt.asIntN(32, it)));
const K_HIGH = highOf(K64), K_LOW = lowOf(K64);
const SHA_512 = PRIMES.slice(0, 8).map(it => fractionOf(it, 2n)), SHA_384 = PRIMES.slice(8, 16).map(it => fractionOf(it, 2n));
const SHA_1 = Int32Array.of(0x67452301, 0xefcdab89, 0x98badcfe, 0x10325476, 0xc3d2e1f0);

/** What all have in common: blocks, and the padding of the last one. */
class Digester {
    constructor(block, words, length) {
        this.block = new Uint8Array(block);
        this.view = new DataView(this.block.buffer);
        this.words = words;
        this.length = length;
        this.filled = 0;
        this.taken = 0n;
    }

    update(octets) {
        this.taken += BigInt(octets.length);
        for (let at = 0; at < octets.length; ) {
            const count = Math.min(this.block.length - this.filled, octets.length - at);
            this.block.set(octets.subarray(at, at + count), this.filled);
            this.filled += count;
            at += count;
            if (this.filled === this.block.length) this.compressed();
        }
        return this;
    }

    compressed() {
        this.compress();
        this.filled = 0;
    }

    digest() {
        const lengthAt = this.block.length - this.block.length / 8;
        this.block.fill(0, this.filled);
        this.block[this.filled] = 0x80;
        if (this.filled >= lengthAt) {
            this.compressed();
            this.block.fill(0);
        }
        this.view.setBigUint64(this.block.length - 8, 8n * this.taken);
        this.compressed();
        return this.written().subarray(0, this.length);
    }
}

const OF_ROUND = Int32Array.of(0x5a827999, 0x6ed9eba1, 0x8f1bbcdc, 0xca62c1d6);

/** The function of a round of SHA-1. */
function chosen(i, b, c, d) {
    if (i < 20) return (b & c) | (~b & d);
    return i >= 40 && i < 60 ? (b & c) | (b & d) | (c & d) : b ^ c ^ d;
}

/** Adds to each word. */
function add(words, ...others) {
    others.forEach((it, index) => (words[index] += it));
}

const turned = (word, by) => (word << by) | (word >>> (32 - by));

class Sha1 extends Digester {
    constructor() {
        super(64, Int32Array.from(SHA_1), 20);
        this.schedule = new Int32Array(80);
    }

    compress() {
        const w = this.schedule;
        for (let i = 0; i < 16; i++) w[i] = this.view.getInt32(4 * i);
        for (let i = 16; i < 80; i++) w[i] = turned(w[i - 3] ^ w[i - 8] ^ w[i - 14] ^ w[i - 16], 1);
        let [a, b, c, d, e] = this.words;
        for (let i = 0; i < 80; i++) {
            const sum = (turned(a, 5) + chosen(i, b, c, d) + e + OF_ROUND[Math.floor(i / 20)] + w[i]) | 0;
            e = d;
            d = c;
            c = turned(b, 30);
            b = a;
            a = sum;
        }
        add(this.words, a, b, c, d, e);
    }

    written() {
        return octetsOf(this.words);
    }
}

/** The octets of words of 32 bits. */
function octetsOf(words) {
    const view = new DataView(new ArrayBuffer(4 * words.length));
    words.forEach((it, index) => view.setInt32(4 * index, it));
    return new Uint8Array(view.buffer);
}

class Sha256 extends Digester {
    constructor(words, length) {
        super(64, Int32Array.from(words), length);
        this.schedule = new Int32Array(64);
    }

    compress() {
        const w = this.schedule;
        for (let i = 0; i < 16; i++) w[i] = this.view.getInt32(4 * i);
        for (let i = 16; i < 64; i++) {
            const one = w[i - 15], other = w[i - 2];
            const first = turned(one, 25) ^ turned(one, 14) ^ (one >>> 3), second = turned(other, 15) ^ turned(other, 13) ^ (other >>> 10);
            w[i] = w[i - 16] + first + w[i - 7] + second;
        }
        let [a, b, c, d, e, f, g, h] = this.words;
        for (let i = 0; i < 64; i++) {
            const one = (h + (turned(e, 26) ^ turned(e, 21) ^ turned(e, 7)) + ((e & f) ^ (~e & g)) + K_HIGH[i] + w[i]) | 0;
            const other = ((turned(a, 30) ^ turned(a, 19) ^ turned(a, 10)) + ((a & b) ^ (a & c) ^ (b & c))) | 0;
            h = g;
            g = f;
            f = e;
            e = (d + one) | 0;
            d = c;
            c = b;
            b = a;
            a = (one + other) | 0;
        }
        add(this.words, a, b, c, d, e, f, g, h);
    }

    written() {
        return octetsOf(this.words);
    }
}

/** A word of 64 bits is two of 32: the high one has the same place in `words` as the low one in `low`. */
class Sha512 extends Digester {
    constructor(words, length) {
        super(128, highOf(words), length);
        this.low = lowOf(words);
        this.high = new Int32Array(80);
        this.lows = new Int32Array(80);
    }

    compress() {
        this.expand();
        const { words, low } = this, [high, lows] = [Int32Array.from(words), Int32Array.from(low)];
        for (let i = 0; i < 80; i++) round(high, lows, this.high[i], this.lows[i], i);
        for (let i = 0; i < 8; i++) {
            const sum = (low[i] >>> 0) + (lows[i] >>> 0);
            low[i] = sum;
            words[i] += high[i] + carried(sum);
        }
    }

    expand() {
        const { high, lows } = this;
        for (let i = 0; i < 16; i++) {
            high[i] = this.view.getInt32(8 * i);
            lows[i] = this.view.getInt32(8 * i + 4);
        }
        for (let i = 16; i < 80; i++) {
            const oneHigh = high[i - 15], oneLow = lows[i - 15], otherHigh = high[i - 2], otherLow = lows[i - 2];
            const firstHigh = right(oneHigh, oneLow, 1) ^ right(oneHigh, oneLow, 8) ^ (oneHigh >>> 7);
            const firstLow = right(oneLow, oneHigh, 1) ^ right(oneLow, oneHigh, 8) ^ right(oneLow, oneHigh, 7);
            const secondHigh = right(otherHigh, otherLow, 19) ^ right(otherLow, otherHigh, 29) ^ (otherHigh >>> 6);
            const secondLow = right(otherLow, otherHigh, 19) ^ right(otherHigh, otherLow, 29) ^ right(otherLow, otherHigh, 6);
            const sum = (lows[i - 16] >>> 0) + (firstLow >>> 0) + (lows[i - 7] >>> 0) + (secondLow >>> 0);
            lows[i] = sum;
            high[i] = high[i - 16] + firstHigh + high[i - 7] + secondHigh + carried(sum);
        }
    }

    written() {
        return octetsOf(Int32Array.from({ length: 16 }, (_, index) => (index % 2 ? this.low : this.words)[index >> 1]));
    }
}

/** The low half of a word that is shifted right by fewer than 32 bits, whose halves these are. */
const right = (half, other, by) => (half >>> by) | (other << (32 - by));

/** What a sum of low halves adds to the high one. */
const carried = sum => Math.floor(sum / 4294967296);

/** One round of SHA-512 over the eight working variables, from a to h. */
function round(high, low, wordHigh, wordLow, i) {
    const aHigh = high[0], aLow = low[0], eHigh = high[4], eLow = low[4];
    const sumHigh = right(eHigh, eLow, 14) ^ right(eHigh, eLow, 18) ^ right(eLow, eHigh, 9);
    const sumLow = right(eLow, eHigh, 14) ^ right(eLow, eHigh, 18) ^ right(eHigh, eLow, 9);
    const chosenHigh = (eHigh & high[5]) ^ (~eHigh & high[6]), chosenLow = (eLow & low[5]) ^ (~eLow & low[6]);
    const oneLow = (low[7] >>> 0) + (sumLow >>> 0) + (chosenLow >>> 0) + (K_LOW[i] >>> 0) + (wordLow >>> 0);
    const oneHigh = (high[7] + sumHigh + chosenHigh + K_HIGH[i] + wordHigh + carried(oneLow)) | 0;
    const mixedHigh = right(aHigh, aLow, 28) ^ right(aLow, aHigh, 2) ^ right(aLow, aHigh, 7);
    const mixedLow = right(aLow, aHigh, 28) ^ right(aHigh, aLow, 2) ^ right(aHigh, aLow, 7);
    const majorHigh = (aHigh & high[1]) ^ (aHigh & high[2]) ^ (high[1] & high[2]), majorLow = (aLow & low[1]) ^ (aLow & low[2]) ^ (low[1] & low[2]);
    const otherLow = (mixedLow >>> 0) + (majorLow >>> 0), otherHigh = (mixedHigh + majorHigh + carried(otherLow)) | 0;
    for (let k = 7; k > 0; k--) {
        high[k] = high[k - 1];
        low[k] = low[k - 1];
    }
    const nextLow = (oneLow >>> 0) + (otherLow >>> 0), fifthLow = (low[4] >>> 0) + (oneLow >>> 0);
    low[0] = nextLow;
    high[0] = oneHigh + otherHigh + carried(nextLow);
    high[4] += oneHigh + carried(fifthLow);
    low[4] = fifthLow;
}

/** The first words of SHA-512/t (FIPS 180-4, section 5.3.6). */
function wordsFor(bits) {
    const made = new Sha512(SHA_512.map(it => it ^ 0xa5a5a5a5a5a5a5a5n), 64);
    const octets = made.update(new TextEncoder().encode(`SHA-512/${bits}`)).digest(), view = new DataView(octets.buffer);
    return Array.from({ length: 8 }, (_, index) => view.getBigUint64(8 * index));
}

const MAKERS = {
    sha1: () => new Sha1(),
    sha224: () => new Sha256(lowOf(SHA_384), 28),
    sha256: () => new Sha256(highOf(SHA_512), 32),
    sha384: () => new Sha512(SHA_384, 48),
    sha512: () => new Sha512(SHA_512, 64),
    "sha512-224": () => new Sha512(wordsFor(224), 28),
    "sha512-256": () => new Sha512(wordsFor(256), 32),
};

/** Begins a digest: `update(octets)` takes a piece, and `digest()` returns the digest. */
export function digester(algorithm) {
    return MAKERS[algorithm]();
}
