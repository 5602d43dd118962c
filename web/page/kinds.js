// What a file is that is not taken as a story as it is.

/** What a Blorb file's index calls a picture: "Pict". */
const PICTURE = 0x50696374;

/**
 * Whether letters stand in a file at a place.
 * @param {Uint8Array} bytes
 * @param {number} at
 * @param {string} letters
 */
function has(bytes, at, letters) {
    return String.fromCharCode(...bytes.subarray(at, at + letters.length)) === letters;
}

/** @param {Uint8Array} bytes */
function viewOf(bytes) {
    return new DataView(bytes.buffer, bytes.byteOffset, bytes.byteLength);
}

/** @param {Uint8Array} bytes */
export function isQuetzal(bytes) {
    return has(bytes, 0, "FORM") && has(bytes, 8, "IFZS");
}

/**
 * What a chunk of a Blorb file has; null where there is none of its kind.
 * @param {Uint8Array} bytes
 * @param {string} kind
 */
function chunkOf(bytes, kind) {
    const view = viewOf(bytes);
    if (!has(bytes, 0, "FORM") || !has(bytes, 8, "IFRS"))
        return null;
    for (let at = 12; at + 8 <= bytes.length; at += 8 + view.getUint32(at + 4) + view.getUint32(at + 4) % 2)
        if (has(bytes, at, kind))
            return bytes.subarray(at + 8, at + 8 + view.getUint32(at + 4));
    return null;
}

/**
 * What a Blorb file states of its story; "" for what it does not state.
 * @param {Uint8Array} bytes
 */
export function statedIn(bytes) {
    const text = new TextDecoder().decode(chunkOf(bytes, "IFmd") || new Uint8Array());
    const metadata = new DOMParser().parseFromString(text, "application/xml");
    // (a line break in a description divides its paragraphs)
    metadata.querySelectorAll("story description br").forEach((it) => it.replaceWith("\n\n"));
    const stated = (/** @type {string} */ name) => metadata.querySelector(`story ${name}`)?.textContent?.trim() || "";
    return { title: stated("title"), author: stated("author"), blurb: stated("description") };
}

/**
 * The picture that a Blorb file has as its cover; null where there is none.
 * @param {Uint8Array} bytes
 */
export function coverIn(bytes) {
    const [number, index] = [chunkOf(bytes, "Fspc"), chunkOf(bytes, "RIdx")].map((it) => it && viewOf(it));
    if (!number || !index || number.byteLength < 4)
        return null;
    const whole = viewOf(bytes);
    for (let at = 4; at + 12 <= index.byteLength; at += 12) {
        const start = index.getUint32(at + 8);
        const isCover = index.getUint32(at) === PICTURE && index.getUint32(at + 4) === number.getUint32(0);
        if (isCover && start + 8 <= bytes.length)
            return bytes.subarray(start + 8, start + 8 + whole.getUint32(start + 4));
    }
    return null;
}

/**
 * What kind of picture bytes are; "" where a cover can't be of it.
 * @param {Uint8Array} bytes
 */
export function kindOfPicture(bytes) {
    if (has(bytes, 1, "PNG\r\n"))
        return "image/png";
    return bytes[0] === 0xff && bytes[1] === 0xd8 ? "image/jpeg" : "";
}

/**
 * Why a file is not opened as a story, of what the interpreter has no words for; "" where it may be one.
 * @param {Uint8Array} bytes
 */
export function wordsOnFile(bytes) {
    if (isQuetzal(bytes))
        return "this is a saved game. Open its story, and restore it there";
    return chunkOf(bytes, "GLUL") ? "this Blorb file contains a Glulx story, which is for another machine" : "";
}

/** By what the length in a header is multiplied, by the story's version. */
const FACTORS = [0, 0, 0, 2, 4, 4, 0, 0, 8];

/**
 * How many bytes a story lacks by the length that its header states.
 * @param {Uint8Array} story
 */
export function lacking(story) {
    const stated = (story[0x1a] << 8 | story[0x1b]) * (FACTORS[story[0]] || 0);
    return Math.max(0, stated - story.length);
}
