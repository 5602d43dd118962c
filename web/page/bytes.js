// Bytes as base64, and the bytes of a stream.

/** @param {string} text */
export function fromBase64(text) {
    return Uint8Array.from(atob(text.trim()), (character) => character.charCodeAt(0));
}

/** @param {Uint8Array} bytes */
export function toBase64(bytes) {
    let text = "";
    for (const byte of bytes)
        text += String.fromCharCode(byte);
    return btoa(text);
}

/**
 * All bytes of a stream, or null where they are more than so many.
 * @param {ReadableStream<Uint8Array>} stream
 * @param {number} most
 */
export async function allOf(stream, most) {
    const reader = stream.getReader();
    /** @type {Uint8Array[]} */
    const parts = [];
    let length = 0;
    for (;;) {
        const { done, value } = await reader.read();
        if (done)
            return new Uint8Array(await new Blob(parts).arrayBuffer());
        parts.push(value);
        length += value.length;
        if (length > most) {
            reader.cancel().catch(() => {});
            return null;
        }
    }
}
