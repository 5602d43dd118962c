// A play as an address or a file: the story's IFID, the seed, the width of its screen, and what was answered. The same
// answers give the same play, so nothing else is needed; `told` is the sum of the text, by which the page sees that it
// is so.

import { allOf, fromBase64, toBase64 } from "./bytes.js";
import { isWidth } from "./columns.js";

/** @typedef {import("./answers.js").Answer} Answer */
/**
 * A play that is shared; one that does not say its columns has the usual ones.
 * @typedef {{zkit: 1, ifid: string, name: string, story: string, seed: string, columns?: number, told: string,
 *     answers: Answer[]}} Shared
 */

export const LONGEST_LINK = 8192;
const LONGEST_PLAY = 4000000;
const LONGEST_WORD = 300;

/** No story takes a longer line, and so many answers are repeated in some seconds. */
const LONGEST_LINE = 255;
const MOST_ANSWERS = 20000;
const LAST_CHARACTER = 0x10ffff;
const FRONT = "#play=";

/**
 * A stream that packs or unpacks; null where the browser has none.
 * @param {"CompressionStream" | "DecompressionStream"} name
 */
function packer(name) {
    try {
        return new (/** @type {any} */ (self)[name])("deflate-raw");
    } catch {
        return null;
    }
}

/**
 * @param {Uint8Array} bytes
 * @param {any} through
 */
function passed(bytes, through) {
    return allOf(new Blob([bytes]).stream().pipeThrough(through), LONGEST_PLAY);
}

/** @param {Uint8Array} bytes */
function toAddress(bytes) {
    return toBase64(bytes).replace(/\+/g, "-").replace(/\//g, "_").replace(/=+$/, "");
}

/** @param {string} text */
function fromAddress(text) {
    return fromBase64(text.replace(/-/g, "+").replace(/_/g, "/"));
}

/**
 * What stands after the address of the page for a play: `1` and the packed text, or `0` and the plain one.
 * @param {Shared} play
 */
export async function addressOf(play) {
    const plain = new TextEncoder().encode(JSON.stringify(play));
    const stream = packer("CompressionStream");
    const packed = stream ? await passed(plain, stream) : null;
    return FRONT + (packed ? "1" + toAddress(packed) : "0" + toAddress(plain));
}

/** @param {any} it */
function isBase64(it) {
    try {
        return typeof it === "string" && fromBase64(it).length > 0;
    } catch {
        return false;
    }
}

/** @param {any} it */
function isAnswer(it) {
    if (typeof it === "string")
        return true;
    if (typeof it === "number")
        return Number.isInteger(it) && it >= 0 && it <= LAST_CHARACTER;
    if (!it || typeof it !== "object")
        return false;
    const isFile = typeof it.saved === "boolean" || it.restored === null || isBase64(it.restored);
    return isFile || it.undo === true || it.fresh === true;
}

/**
 * Why answers are not given to a story; "" where they may be.
 * @param {any} answers
 */
function faultOfAnswers(answers) {
    if (!Array.isArray(answers) || !answers.every(isAnswer))
        return "it is damaged";
    if (answers.length > MOST_ANSWERS)
        return `it has more than ${MOST_ANSWERS.toLocaleString("en")} lines and keys`;
    const lines = answers.filter((it) => typeof it === "string");
    if (lines.some((line) => line.length > LONGEST_LINE))
        return `it has a line of more than ${LONGEST_LINE} characters`;
    return lines.some((line) => /[\n\r]/.test(line)) ? "it has a line end inside a line" : "";
}

/**
 * Why something is not shown as a play that was shared; "" where it is one.
 * @param {any} it
 */
function faultOf(it) {
    if (it.zkit !== 1)
        return "it was made by another version of this page";
    const words = [it.ifid, it.name, it.story, it.seed, it.told];
    const isWhole = words.every((one) => typeof one === "string" && one.length <= LONGEST_WORD)
        && /^\d{1,20}$/.test(it.seed) && (it.columns === undefined || isWidth(it.columns));
    return isWhole ? faultOfAnswers(it.answers) : "it is damaged";
}

/**
 * The play of a text that anybody may have made, or in words why it is not shown; null where it is no play at all.
 * @param {string} text
 * @returns {Shared | string | null}
 */
export function playOf(text) {
    try {
        const it = JSON.parse(text);
        return it.zkit === undefined ? null : faultOf(it) || it;
    } catch {
        return null;
    }
}

/** @param {string} hash */
export function isLink(hash) {
    return hash.startsWith(FRONT);
}

/**
 * The play of an address, or in words why it is not shown; null where there is none in it, or the browser can't unpack
 * it.
 * @param {string} hash
 */
export async function playAt(hash) {
    try {
        const bytes = fromAddress(hash.slice(FRONT.length + 1));
        const stream = hash[FRONT.length] === "1" ? packer("DecompressionStream") : null;
        const plain = hash[FRONT.length] === "0" ? bytes : stream ? await passed(bytes, stream) : null;
        return plain ? playOf(new TextDecoder().decode(plain)) : null;
    } catch {
        return null;
    }
}
