// @ts-check
// Plays a story by the lines of an input, as `zkit play` does.
// SPDX-License-Identifier: MIT OR Apache-2.0

/** @typedef {import("./zkit.js").Game} Game */
/** @typedef {import("./zkit.js").Awaited} Awaited */

/**
 * What a play reads from and writes to.
 * @typedef {object} Devices
 * @property {Iterator<Uint8Array>} lines  the lines of the input, without their ends
 * @property {(text: Uint8Array) => void} show
 * @property {(text: Uint8Array) => void} script
 * @property {(file: Uint8Array) => boolean} keep  keeps a saved game, and says whether it did
 * @property {() => Uint8Array | null} kept  the saved game, if there is one
 */

/**
 * How a play ended: the status of `zkit play`, and the lines in which it tells why.
 * @typedef {{status: number, told: string[]}} Ending
 */

const LONGEST_LINE = 65_535;
const RUNS = 0;
const QUIT = 1;
const READ_FAILED = 4;
const OUT_OF_MEMORY = 5;
const NEW_LINE = 10;
const RETURN = 13;
const QUESTION_MARK = 63;

/** A line of the input has too many bytes. */
class TooLong extends Error {}

/**
 * @param {Uint8Array} one
 * @param {Uint8Array} other
 */
function joined(one, other) {
    const both = new Uint8Array(one.length + other.length);
    both.set(one);
    both.set(other, one.length);
    return both;
}

/**
 * A line without a return at its end. It counts for the length of a line: one that is too long with it keeps it.
 * @param {Uint8Array} line
 */
function withoutReturn(line) {
    const hasReturn = line[line.length - 1] === RETURN && line.length <= LONGEST_LINE;
    return hasReturn ? line.subarray(0, line.length - 1) : line;
}

/**
 * The lines of bytes that have an end. A return before it is none of a line. Answers the bytes after the last end.
 * @param {Uint8Array} bytes
 */
function* wholeLines(bytes) {
    let begin = 0;
    for (let end; (end = bytes.indexOf(NEW_LINE, begin)) >= 0; begin = end + 1)
        yield withoutReturn(bytes.subarray(begin, end));
    return bytes.subarray(begin);
}

/**
 * The lines of an input that comes in parts.
 * @param {Iterable<Uint8Array>} parts
 */
export function* linesOf(parts) {
    let rest = new Uint8Array(0);
    for (const part of parts)
        rest = yield* wholeLines(joined(rest, part));
    if (rest.length > 0)
        yield rest;
}

/**
 * The number of a line's first character, and that of a new line where it has none. A return that does not end a line
 * has no code, and is a question mark like all that has none.
 * @param {Uint8Array} line
 */
function firstCharacter(line) {
    const text = new TextDecoder("utf-8", { ignoreBOM: true }).decode(line.subarray(0, 4));
    return line[0] === RETURN ? QUESTION_MARK : text.codePointAt(0) ?? NEW_LINE;
}

/**
 * Answers a read by the next line, and says whether there was one.
 * @param {Game} game
 * @param {Awaited} awaited
 * @param {Devices} devices
 */
function answerRead(game, awaited, devices) {
    const { done, value } = devices.lines.next();
    if (done)
        return false;
    if (value.length > LONGEST_LINE)
        throw new TooLong();
    return awaited === "line" ? game.line(value) : game.character(firstCharacter(value));
}

/**
 * Keeps the saved game that is to be kept, and tells the story whether it is.
 * @param {Game} game
 * @param {Devices} devices
 */
function keep(game, devices) {
    const file = game.image();
    return game.saved(file !== null && devices.keep(file));
}

/**
 * Answers what a story awaits, and says whether there was an answer.
 * @param {Game} game
 * @param {Awaited} awaited
 * @param {Devices} devices
 */
function answer(game, awaited, devices) {
    switch (awaited) {
        case "save": return keep(game, devices);
        case "restore": return game.restore(devices.kept());
        case "line": case "character": return answerRead(game, awaited, devices);
        default: return awaited !== "stopped";
    }
}

/**
 * Shows the text that waits.
 * @param {Game} game
 * @param {Devices} devices
 */
function show(game, devices) {
    const text = game.textBytes();
    if (text.length > 0)
        devices.show(text);
    const script = game.transcriptBytes();
    if (script.length > 0)
        devices.script(script);
}

/**
 * Why a story has stopped.
 * @param {Game} game
 * @returns {Ending}
 */
function ending(game) {
    const status = game.status();
    if (status === RUNS || status === QUIT)
        return { status: 0, told: [] };
    return { status, told: [`zkit: ${game.words()}`, game.lastLine()] };
}

/**
 * Plays a story up to its stop, or as far as there is input.
 * @param {Game} game
 * @param {Devices} devices
 * @param {number} [slice]  how many instructions a turn may have
 * @returns {Ending}
 */
export function play(game, devices, slice) {
    try {
        let goesOn = true;
        while (goesOn) {
            const awaited = game.turn(slice);
            show(game, devices);
            if (awaited === "memory")
                return { status: OUT_OF_MEMORY, told: ["zkit: out of memory"] };
            goesOn = answer(game, awaited, devices);
        }
    } catch (error) {
        if (error instanceof TooLong)
            return { status: READ_FAILED, told: ["zkit: read failed"] };
        throw error;
    }
    return ending(game);
}
