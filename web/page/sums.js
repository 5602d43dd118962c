// SHA-256 (FIPS 180-4), by which the page knows a story and a module again. It is here since a page of plain HTTP has
// no `crypto.subtle`.

/**
 * The first 32 bits of the fraction of a root of each of the first primes.
 * @param {number} count
 * @param {number} power
 */
function roots(count, power) {
    const found = [];
    for (let n = 2; found.length < count; n++)
        if (isPrime(n))
            found.push((n ** power % 1) * 2 ** 32 >>> 0);
    return found;
}

/** @param {number} n */
function isPrime(n) {
    for (let i = 2; i * i <= n; i++)
        if (n % i === 0)
            return false;
    return true;
}

const START = roots(8, 1 / 2);
const ROUNDS = roots(64, 1 / 3);

/**
 * @param {number} word
 * @param {number} by
 */
function turned(word, by) {
    return (word >>> by) | (word << (32 - by));
}

/**
 * The bytes with the one bit and the length after them, as words.
 * @param {Uint8Array} bytes
 */
function padded(bytes) {
    const all = new Uint8Array((bytes.length + 72) & ~63);
    all.set(bytes);
    all[bytes.length] = 0x80;
    const view = new DataView(all.buffer);
    view.setUint32(all.length - 8, Math.floor(bytes.length / 2 ** 29));
    view.setUint32(all.length - 4, bytes.length << 3);
    return view;
}

/**
 * The 64 words of a block.
 * @param {DataView} view
 * @param {number} at
 * @param {Uint32Array} words
 */
function spread(view, at, words) {
    for (let i = 0; i < 64; i++) {
        if (i < 16) {
            words[i] = view.getUint32(at + 4 * i);
            continue;
        }
        const a = words[i - 15], b = words[i - 2];
        words[i] = words[i - 16] + words[i - 7] + (turned(a, 7) ^ turned(a, 18) ^ (a >>> 3))
            + (turned(b, 17) ^ turned(b, 19) ^ (b >>> 10));
    }
}

/**
 * Adds a block to the state.
 * @param {number[]} state
 * @param {Uint32Array} words
 */
function mixed(state, words) {
    let [a, b, c, d, e, f, g, h] = state;
    for (let i = 0; i < 64; i++) {
        const one = h + (turned(e, 6) ^ turned(e, 11) ^ turned(e, 25)) + ((e & f) ^ (~e & g)) + ROUNDS[i] + words[i];
        const two = (turned(a, 2) ^ turned(a, 13) ^ turned(a, 22)) + ((a & b) ^ (a & c) ^ (b & c));
        [a, b, c, d, e, f, g, h] = [(one + two) | 0, a, b, c, (d + one) | 0, e, f, g];
    }
    return [a, b, c, d, e, f, g, h].map((word, i) => (word + state[i]) >>> 0);
}

/**
 * The SHA-256 of bytes or of a text, in hexadecimal.
 * @param {Uint8Array | string} content
 */
export function sumOf(content) {
    const view = padded(typeof content === "string" ? new TextEncoder().encode(content) : content);
    const words = new Uint32Array(64);
    let state = START;
    for (let at = 0; at < view.byteLength; at += 64) {
        spread(view, at, words);
        state = mixed(state, words);
    }
    return state.map((word) => word.toString(16).padStart(8, "0")).join("");
}
