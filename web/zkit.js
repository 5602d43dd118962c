// @ts-check
// Plays and inspects stories by zkit.wasm: the functions of include/zkit.h for a page and for Node.
// SPDX-License-Identifier: MIT OR Apache-2.0
//
// A call that traps leaves the module unusable: drop it with all its games, and make a new one.

/** @typedef {"stopped"|"line"|"character"|"save"|"restore"|"room"|"time"|"memory"} Awaited */

/**
 * How a story is played; what is left out is as `zkit_defaults` says.
 * @typedef {object} Options
 * @property {bigint | number} [seed]
 * @property {number} [frames]
 * @property {number} [words]
 * @property {number} [undo]
 * @property {number} [steps]
 * @property {number} [room]
 * @property {boolean} [upper]
 * @property {boolean} [styles]  keeps the style of the text, for `nextRun` and `runs`, and tells the story of styles
 * @property {boolean} [keys]  takes keys in `character` too: KEYS
 * @property {number} [columns]  how many characters fit on a line of the screen, 20 to 255: the story is told
 * @property {boolean} [coverage]  notes which instructions are carried out, for `coverage`
 */

/**
 * How the upper window stands.
 * @typedef {{height: number, tallest: number, row: number, column: number, selected: boolean, width: number}} Window
 */

/** @typedef {{kind: "score"|"time", name: string, first: number, second: number}} StatusLine */
/** @typedef {"reverse"|"bold"|"italic"|"fixed"} Style */
/** @typedef {"erased"|"high bleep"|"low bleep"} Before */

/**
 * A part of the screen's text that has one style, and what came before it.
 * @typedef {{text: string, styles: Style[], before: Before[]}} Run
 */

/**
 * A part of a row of the upper window that has one style.
 * @typedef {{text: string, styles: Style[]}} RowRun
 */

/** @typedef {{version: number, release: number, checksum: number, serial: string}} Story */

/**
 * Where a game stands, as `zkit_place` says.
 * @typedef {{address: number, routines: number, words: number, states: number, steps: number, reads: number,
 *     instructions: bigint}} Place
 */

/**
 * An open routine, as `zkit_routine` says, with its local variables and the words of its evaluation stack, the oldest
 * first. An address that is not known is 0.
 * @typedef {{address: number, call: number, goesOn: number, arguments: number, locals: Uint16Array,
 *     stack: Uint16Array}} Routine
 */

/**
 * An object as it stands, with the numbers of its attributes.
 * @typedef {{entry: number, parent: number, sibling: number, child: number, properties: number, attributes: number[],
 *     name: string}} StoryObject
 */

/** @typedef {{next: number, address: number, length: number}} Property */

/**
 * What the module exports. Addresses and sizes are of 64 bits, so they come as BigInt.
 * @typedef {object} Calls
 * @property {WebAssembly.Memory} memory
 * @property {(size: bigint) => bigint} zkit_take
 * @property {(at: bigint) => void} zkit_give
 * @property {() => number} zkit_version
 * @property {(options: bigint) => void} zkit_defaults
 * @property {(story: bigint, length: bigint, options: bigint, reason: bigint) => bigint} zkit_open
 * @property {(story: bigint, length: bigint, snapshot: bigint, snapshotLength: bigint, options: bigint,
 *     reason: bigint) => bigint} zkit_open_snapshot
 * @property {(story: bigint, length: bigint, reason: bigint) => bigint} zkit_story_open
 * @property {(shared: bigint, options: bigint, reason: bigint) => bigint} zkit_story_game
 * @property {(shared: bigint, snapshot: bigint, length: bigint, options: bigint, reason: bigint) => bigint}
 *     zkit_story_resume
 * @property {(shared: bigint) => void} zkit_story_close
 * @property {(game: bigint) => void} zkit_close
 * @property {(game: bigint) => number} zkit_turn
 * @property {(game: bigint, steps: number) => number} zkit_turn_for
 * @property {(game: bigint) => number} zkit_step
 * @property {Taking} zkit_text
 * @property {Taking} zkit_transcript
 * @property {(game: bigint, run: bigint) => void} zkit_next_run
 * @property {(game: bigint) => number} zkit_status
 * @property {(game: bigint) => number} zkit_reason
 * @property {(game: bigint) => number} zkit_address
 * @property {(status: number, reason: number, buffer: bigint, length: bigint) => bigint} zkit_text_of_reason
 * @property {(reason: number, buffer: bigint, length: bigint) => bigint} zkit_text_of_open
 * @property {(file: bigint, fileLength: bigint, buffer: bigint, length: bigint) => bigint} zkit_text_of_file
 * @property {(file: bigint, fileLength: bigint, buffer: bigint, length: bigint,
 *     needed: bigint) => number} zkit_story_in
 * @property {(game: bigint) => number} zkit_longest_line
 * @property {Giving} zkit_line
 * @property {(game: bigint, bytes: bigint, length: bigint, key: number) => number} zkit_line_ended
 * @property {(game: bigint, character: number) => number} zkit_character
 * @property {(game: bigint) => number} zkit_undo
 * @property {Copying} zkit_image
 * @property {(game: bigint, kept: number) => number} zkit_saved
 * @property {Giving} zkit_restore
 * @property {(game: bigint) => number} zkit_restore_none
 * @property {Copying} zkit_snapshot
 * @property {(game: bigint, undoBytes: bigint, buffer: bigint, length: bigint, needed: bigint) => number}
 *     zkit_snapshot_with_undo
 * @property {(game: bigint, reason: bigint) => bigint} zkit_clone
 * @property {(game: bigint, seed: bigint) => number} zkit_reseed
 * @property {Numbered} zkit_coverage
 * @property {(game: bigint) => bigint} zkit_waiting_text
 * @property {(game: bigint) => bigint} zkit_waiting_transcript
 * @property {(game: bigint, place: bigint) => void} zkit_place_of
 * @property {(game: bigint, number: number, routine: bigint) => number} zkit_routine_of
 * @property {Numbered} zkit_locals
 * @property {Numbered} zkit_stack
 * @property {Numbered} zkit_memory
 * @property {(game: bigint, address: number, count: number) => bigint} zkit_hash
 * @property {(game: bigint) => number} zkit_objects
 * @property {(game: bigint, object: number, figures: bigint) => number} zkit_object_of
 * @property {Numbered} zkit_object_name
 * @property {(game: bigint, object: number, number: number, property: bigint) => number} zkit_property_of
 * @property {(game: bigint, address: number, value: number) => number} zkit_set_word
 * @property {(game: bigint, object: number, parent: number) => number} zkit_move_object
 * @property {(game: bigint, rows: number) => number} zkit_split
 * @property {(game: bigint, window: bigint) => void} zkit_window_of
 * @property {OfRow} zkit_row
 * @property {OfRow} zkit_tallest_row
 * @property {OfRow} zkit_row_styles
 * @property {OfRow} zkit_tallest_row_styles
 * @property {(game: bigint, figures: bigint) => void} zkit_status_line
 * @property {Taking} zkit_status_name
 * @property {(game: bigint, story: bigint) => void} zkit_story_of
 * @property {(game: bigint, listing: number) => number} zkit_list
 * @property {(game: bigint, listing: number, most: bigint) => number} zkit_list_within
 * @property {(game: bigint, listing: number, steps: number) => number} zkit_list_for
 * @property {(game: bigint, address: number) => number} zkit_list_instruction
 * @property {Taking} zkit_listing
 */
/** @typedef {(game: bigint, buffer: bigint, length: bigint) => bigint} Taking */
/** @typedef {(game: bigint, bytes: bigint, length: bigint) => number} Giving */
/** @typedef {(at: bigint[], sizes: bigint[], options: bigint, reason: bigint) => bigint} Opening */
/** @typedef {(game: bigint, row: number, buffer: bigint, length: bigint) => bigint} OfRow */
/** @typedef {(game: bigint, number: number, buffer: bigint, length: bigint) => bigint} Numbered */
/** @typedef {(game: bigint, buffer: bigint, length: bigint, needed: bigint) => number} Copying */

/** What `list` lists, in the order of the constants ZKIT_LIST_HEADER and so on. */
export const LISTINGS = [
    "header", "map", "abbreviations", "dictionary", "objects", "tree", "ifid", "code", "findings",
    "strings", "properties", "globals", "alphabets", "extension",
];

/** The codes of keys that are not characters, by their names in a browser's `KeyboardEvent.key`. */
export const KEYS = {
    Backspace: 8, Delete: 8, Escape: 27, ArrowUp: 129, ArrowDown: 130, ArrowLeft: 131, ArrowRight: 132,
    F1: 133, F2: 134, F3: 135, F4: 136, F5: 137, F6: 138, F7: 139, F8: 140, F9: 141, F10: 142, F11: 143, F12: 144,
};

/** @type {Awaited[]} */
const AWAITED = ["stopped", "line", "character", "save", "restore", "room", "time", "memory"];

// What the functions that answer a story answer.
const DONE = 0;
const GOES_ON = 13;
const NO_ROOM = 3;
const NO_MEMORY = 4;
const NOT_A_BLORB = 8;

// Why a story has stopped.
const FAULT = 2;
const LIMIT = 3;
const OUT_OF_MEMORY = 5;
const TOO_MUCH_TEXT = 6;

// Why nothing is opened: the last reason that is the story's own, and some others.
const LAST_OF_STORY = 5;
const BAD_VERSION = 2;
const TOO_LONG = 3;
const OPEN_NO_MEMORY = 6;

/** A file of more bytes is refused as one of so many is: no version allows as many. */
const LONGEST_STORY = 524_289;

const BUFFER = 16_384;

// The sizes of the structs of zkit.h, and of the field `size` that each begins with.
const OPTIONS_SIZE = 56;
const RUN_SIZE = 24;

/** What the bits of a style and of what came before a run say, from the lowest on. */
/** @type {Style[]} */
const STYLES = ["reverse", "bold", "italic", "fixed"];
/** @type {Before[]} */
const BEFORE = ["erased", "high bleep", "low bleep"];
const WINDOW_SIZE = 32;
const FIGURES_SIZE = 24;
const STORY_SIZE = 32;
const PLACE_SIZE = 40;
const ROUTINE_SIZE = 32;
const OBJECT_SIZE = 40;
const PROPERTY_SIZE = 24;
const SIZE = 8;

const GREATEST = 0xffff_ffff;

/**
 * A number as C takes it. What is no whole number of 32 bits becomes the greatest one, which lies out of each range.
 * @param {number} number
 */
function whole(number) {
    return Number.isInteger(number) && number >= 0 && number <= GREATEST ? number : GREATEST;
}

/**
 * A seed as C takes it. Throws where it is no whole number.
 * @param {bigint | number} seed
 */
function seedOf(seed) {
    return BigInt.asUintN(64, BigInt(seed));
}

/**
 * The bytes of a file. Throws where it is none, so that no call is given anything else.
 * @param {Uint8Array | ArrayBuffer} file
 */
function bytesOf(file) {
    if (file instanceof Uint8Array)
        return file;
    if (file instanceof ArrayBuffer)
        return new Uint8Array(file);
    throw new TypeError("a file is a Uint8Array or an ArrayBuffer");
}

/**
 * The styles that a sum of them says.
 * @param {number} sum
 */
function stylesOf(sum) {
    return STYLES.filter((_, i) => sum >> i & 1);
}

/** @param {Uint8Array[]} parts */
function joined(parts) {
    const all = new Uint8Array(parts.reduce((sum, part) => sum + part.length, 0));
    let at = 0;
    for (const part of parts) {
        all.set(part, at);
        at += part.length;
    }
    return all;
}

/** A decoder that keeps each character, U+FEFF at the start too. */
function decoder() {
    return new TextDecoder("utf-8", { ignoreBOM: true });
}

/** Why a story or a snapshot is not opened: the constant of zkit.h, and the words. */
export class Refused extends Error {
    /**
     * @param {number} number
     * @param {string} words
     */
    constructor(number, words) {
        super(words);
        this.name = "Refused";
        this.number = number;
    }
}

/** The module, which all its games share. */
export class Module {
    /** @param {WebAssembly.Instance} instance */
    constructor(instance) {
        this.calls = /** @type {Calls} */ (/** @type {unknown} */ (instance.exports));
    }

    /**
     * Makes the module of the bytes of zkit.wasm.
     * @param {BufferSource} bytes
     */
    static async of(bytes) {
        return new Module((await WebAssembly.instantiate(bytes)).instance);
    }

    version() {
        return this.calls.zkit_version();
    }

    /**
     * Opens a story at its start, or throws Refused.
     * @param {Uint8Array | ArrayBuffer} story
     * @param {Options} [options]
     */
    open(story, options = {}) {
        const bytes = bytesOf(story);
        return this.game(bytes, [bytes.subarray(0, LONGEST_STORY)], options,
            (at, sizes, ...rest) => this.calls.zkit_open(at[0], sizes[0], ...rest));
    }

    /**
     * Opens a game that goes on from a snapshot, or throws Refused. The limits of the snapshot may be at most those of
     * the options; of one that is not given, that of `zkit play`. The game keeps its width.
     * @param {Uint8Array | ArrayBuffer} story
     * @param {Uint8Array | ArrayBuffer} snapshot
     * @param {Options} [options]
     */
    openSnapshot(story, snapshot, options = {}) {
        const bytes = bytesOf(story);
        return this.game(bytes, [bytes.subarray(0, LONGEST_STORY), bytesOf(snapshot)], options,
            (at, sizes, ...rest) => this.calls.zkit_open_snapshot(at[0], sizes[0], at[1], sizes[1], ...rest));
    }

    /**
     * Opens a story for games to share its file, or throws Refused.
     * @param {Uint8Array | ArrayBuffer} story
     */
    share(story) {
        const bytes = bytesOf(story);
        const buffer = this.calls.zkit_take(BigInt(BUFFER));
        if (buffer === 0n)
            throw new Refused(OPEN_NO_MEMORY, "out of memory");
        const part = bytes.subarray(0, LONGEST_STORY);
        const at = this.copied(part);
        const shared = at === 0n ? 0n : this.calls.zkit_story_open(at, BigInt(part.length), buffer);
        const reason = at === 0n ? OPEN_NO_MEMORY : this.view(buffer, 4).getUint32(0, true);
        const words = shared === 0n ? this.wordsOfRefusal(reason, bytes, buffer) : "";
        [at, buffer].filter((place) => place !== 0n).forEach((place) => this.calls.zkit_give(place));
        if (shared === 0n)
            throw new Refused(reason, words);
        return new SharedStory(this, shared);
    }

    /**
     * @param {Uint8Array} story
     * @param {Uint8Array[]} files
     * @param {Options} options
     * @param {Opening} open
     */
    game(story, files, options, open) {
        // (what is no number throws here, before memory is taken)
        const seed = options.seed === undefined ? undefined : seedOf(options.seed);
        const buffer = this.calls.zkit_take(BigInt(BUFFER));
        if (buffer === 0n)
            throw new Refused(OPEN_NO_MEMORY, "out of memory");
        const { game, reason } = this.opened(files, { ...options, seed }, buffer, open);
        if (game !== 0n)
            return new Game(this, game, buffer);
        const words = this.wordsOfRefusal(reason, story, buffer);
        this.calls.zkit_give(buffer);
        throw new Refused(reason, words);
    }

    /**
     * Why a story or a snapshot is not opened, in words, with a buffer for these.
     * @param {number} reason
     * @param {Uint8Array} story
     * @param {bigint} buffer
     */
    wordsOfRefusal(reason, story, buffer) {
        const looks = reason <= LAST_OF_STORY ? this.wordsOfFile(story, buffer) : "";
        if (looks || reason === BAD_VERSION)
            return looks || `version ${story[0]} is not played`;
        const count = this.calls.zkit_text_of_open(reason, buffer, BigInt(BUFFER));
        return decoder().decode(this.bytes(buffer, Number(count)));
    }

    /**
     * What a file is that is no story, in words; "" where its first bytes do not tell, or there is no memory.
     * @param {Uint8Array} file
     * @param {bigint} buffer
     */
    wordsOfFile(file, buffer) {
        const lead = file.subarray(0, BUFFER);
        const at = this.copied(lead);
        if (at === 0n)
            return "";
        const count = this.calls.zkit_text_of_file(at, BigInt(lead.length), buffer, BigInt(BUFFER));
        this.calls.zkit_give(at);
        return decoder().decode(this.bytes(buffer, Number(count)));
    }

    /**
     * The story that a file has: that in a Blorb file, and another file itself. Null where a Blorb file has none, or is
     * cut off. Throws Refused where that is longer than stories are, or there is no memory.
     * @param {Uint8Array | ArrayBuffer} file
     */
    storyIn(file) {
        const bytes = bytesOf(file);
        if (this.takeStory(bytes.subarray(0, BUFFER)).answer === NOT_A_BLORB)
            return bytes;
        const { answer, story, words } = this.takeStory(bytes);
        if (answer === NO_ROOM || answer === NO_MEMORY)
            throw new Refused(answer === NO_ROOM ? TOO_LONG : OPEN_NO_MEMORY, words);
        return story;
    }

    /**
     * What zkit_story_in answers, the story, and the words where that is too long or there is no memory.
     * @param {Uint8Array} file
     */
    takeStory(file) {
        const from = this.copied(file);
        const to = this.calls.zkit_take(BigInt(SIZE + LONGEST_STORY));
        const at = to + BigInt(SIZE);
        const answer = from === 0n || to === 0n ? NO_MEMORY
            : this.calls.zkit_story_in(from, BigInt(file.length), at, BigInt(LONGEST_STORY), to);
        const length = answer === DONE ? Number(this.view(to, SIZE).getBigUint64(0, true)) : 0;
        const story = answer === DONE ? this.bytes(at, length).slice() : null;
        const words = answer === NO_ROOM ? this.wordsOfRefusal(TOO_LONG, new Uint8Array(), to) : "out of memory";
        [from, to].filter((place) => place !== 0n).forEach((place) => this.calls.zkit_give(place));
        return { answer, story, words };
    }

    /**
     * The address of a game that is opened with copies of files; 0 and the reason where none is.
     * @param {Uint8Array[]} files
     * @param {Options} options
     * @param {bigint} buffer
     * @param {Opening} open
     */
    opened(files, options, buffer, open) {
        const at = files.map((file) => this.copied(file));
        const sizes = files.map((file) => BigInt(file.length));
        let game = 0n;
        let reason = OPEN_NO_MEMORY;
        if (!at.includes(0n)) {
            const words = this.optionsAt(buffer, options);
            const told = buffer + BigInt(OPTIONS_SIZE);
            game = open(at, sizes, words, told);
            reason = this.view(told, 4).getUint32(0, true);
        }
        at.filter((place) => place !== 0n).forEach((place) => this.calls.zkit_give(place));
        return { game, reason };
    }

    /**
     * Writes a `zkit_options` to an address, and answers that.
     * @param {bigint} at
     * @param {Options} options
     */
    optionsAt(at, options) {
        this.view(at, OPTIONS_SIZE).setBigUint64(0, BigInt(OPTIONS_SIZE), true);
        this.calls.zkit_defaults(at);
        const view = this.view(at, OPTIONS_SIZE);
        if (options.seed !== undefined)
            view.setBigUint64(8, seedOf(options.seed), true);
        [options.frames, options.words, options.undo, options.steps, options.room].forEach((number, i) => {
            if (number !== undefined)
                view.setUint32(16 + 4 * i, whole(number), true);
        });
        view.setUint32(36, options.upper ? 1 : 0, true);
        view.setUint32(40, options.styles ? 1 : 0, true);
        view.setUint32(44, options.keys ? 1 : 0, true);
        if (options.columns !== undefined)
            view.setUint32(48, whole(options.columns), true);
        view.setUint32(52, options.coverage ? 1 : 0, true);
        return at;
    }

    /**
     * The address of a copy of bytes, for zkit_give; 0 where there is no memory.
     * @param {Uint8Array} bytes
     */
    copied(bytes) {
        const at = this.calls.zkit_take(BigInt(bytes.length));
        if (at !== 0n)
            this.bytes(at, bytes.length).set(bytes);
        return at;
    }

    /**
     * Bytes of the module's memory. They are no longer there after a call that lets it grow: ask anew.
     * @param {bigint} at
     * @param {number} length
     */
    bytes(at, length) {
        return new Uint8Array(this.calls.memory.buffer, Number(at), length);
    }

    /**
     * The same as numbers.
     * @param {bigint} at
     * @param {number} length
     */
    view(at, length) {
        return new DataView(this.calls.memory.buffer, Number(at), length);
    }
}

/** A story that is opened once, and whose games share its file. `Module.share` makes it. */
export class SharedStory {
    /**
     * @param {Module} module
     * @param {bigint} handle
     */
    constructor(module, handle) {
        this.module = module;
        this.handle = handle;
    }

    /** The story's address, while it is open. */
    get at() {
        if (this.handle === 0n)
            throw new Error("the story is closed");
        return this.handle;
    }

    /**
     * Opens a game at the start, or throws Refused.
     * @param {Options} [options]
     */
    open(options = {}) {
        const { at } = this;
        return this.module.game(new Uint8Array(), [], options,
            (_at, _sizes, ...rest) => this.module.calls.zkit_story_game(at, ...rest));
    }

    /**
     * Opens a game that goes on from a snapshot, as `Module.openSnapshot` does.
     * @param {Uint8Array | ArrayBuffer} snapshot
     * @param {Options} [options]
     */
    openSnapshot(snapshot, options = {}) {
        const { at } = this;
        return this.module.game(new Uint8Array(), [bytesOf(snapshot)], options,
            (files, sizes, ...rest) => this.module.calls.zkit_story_resume(at, files[0], sizes[0], ...rest));
    }

    /** Gives back what the story has for itself. Its games stay. */
    close() {
        const { handle } = this;
        this.handle = 0n;
        this.module.calls.zkit_story_close(handle);
    }
}

/** A story that is played. `Module.open` makes it, and `close` gives its memory back. */
export class Game {
    /**
     * @param {Module} module
     * @param {bigint} handle
     * @param {bigint} buffer
     */
    constructor(module, handle, buffer) {
        this.module = module;
        this.calls = module.calls;
        this.handle = handle;
        this.buffer = buffer;
        this.decoder = decoder();
        this.scriptDecoder = decoder();
    }

    /** The game's address, while it is open. */
    get at() {
        if (this.handle === 0n)
            throw new Error("the game is closed");
        return this.handle;
    }

    /**
     * Runs the story until it awaits something, or for so many instructions at most, and answers what it awaits.
     * @param {number} [steps]
     * @returns {Awaited}
     */
    turn(steps) {
        const awaited = steps === undefined ? this.calls.zkit_turn(this.at)
            : this.calls.zkit_turn_for(this.at, whole(steps));
        return AWAITED[awaited];
    }

    /**
     * Carries out one instruction: its line, as `zkit disasm` shows it, and what the story awaits then. The line is
     * null where there is no memory for it.
     * @returns {{instruction: string | null, awaited: Awaited}}
     */
    step() {
        const instruction = this.instruction(this.place().address);
        return { instruction, awaited: this.turn(1) };
    }

    /** All text that waits. */
    text() {
        return this.decoder.decode(this.textBytes(), { stream: true });
    }

    /** All text that waits for the transcript. */
    transcript() {
        return this.scriptDecoder.decode(this.transcriptBytes(), { stream: true });
    }

    textBytes() {
        return this.taken(this.calls.zkit_text);
    }

    /** How many bytes the next run of the screen's text has, its styles, and what came before it, which is told once.
        */
    nextRun() {
        this.sized(RUN_SIZE);
        this.calls.zkit_next_run(this.at, this.buffer);
        const view = this.module.view(this.buffer, RUN_SIZE);
        const style = view.getUint32(16, true);
        const before = view.getUint32(20, true);
        return {
            length: Number(view.getBigUint64(8, true)),
            styles: stylesOf(style),
            before: BEFORE.filter((_, i) => before >> i + STYLES.length & 1),
        };
    }

    /**
     * All text that waits, run by run, of a game with the option `styles`. The last run may have no text, and tell what
     * came after the text.
     * @returns {Run[]}
     */
    runs() {
        const runs = [];
        for (;;) {
            const { length, styles, before } = this.nextRun();
            if (length === 0 && before.length === 0)
                return runs;
            const text = this.decoder.decode(this.taken(this.calls.zkit_text, length), { stream: true });
            runs.push({ text, styles, before });
        }
    }

    transcriptBytes() {
        return this.taken(this.calls.zkit_transcript);
    }

    /**
     * All bytes that a call gives part by part, or so many at most.
     * @param {Taking} take
     * @param {number} [most]
     */
    taken(take, most = Infinity) {
        const parts = [];
        let left = most;
        let count;
        while ((count = take(this.at, this.buffer, BigInt(Math.min(BUFFER, left)))) > 0n) {
            parts.push(this.module.bytes(this.buffer, Number(count)).slice());
            left -= Number(count);
        }
        return joined(parts);
    }

    longestLine() {
        return this.calls.zkit_longest_line(this.at);
    }

    /**
     * Answers a line without its end, and says whether it was taken.
     * @param {string | Uint8Array} line
     */
    line(line) {
        return this.given(typeof line === "string" ? new TextEncoder().encode(line) : line, this.calls.zkit_line);
    }

    /**
     * Answers a line that a key ended, 129 to 154, and says whether it was taken: the story lists keys that end lines.
     * @param {string} line
     * @param {number} key
     */
    lineEnded(line, key) {
        return this.given(new TextEncoder().encode(line),
            (game, bytes, length) => this.calls.zkit_line_ended(game, bytes, length, whole(key)));
    }

    /**
     * Answers a character by its number in Unicode, or a key by its code, and says whether it was taken.
     * @param {number} code
     */
    character(code) {
        return this.calls.zkit_character(this.at, whole(code)) === DONE;
    }

    /** Goes back to the newest state that the story has kept, and says whether there was one. */
    undo() {
        return this.calls.zkit_undo(this.at) === DONE;
    }

    /** The file of the saved game that is to be kept, or null. */
    image() {
        return this.copied(this.calls.zkit_image);
    }

    /**
     * Tells the story whether its saved game was kept.
     * @param {boolean} kept
     */
    saved(kept) {
        return this.calls.zkit_saved(this.at, kept ? 1 : 0) === DONE;
    }

    /**
     * Answers a story that awaits a saved game by its file, or by null where there is none.
     * @param {Uint8Array | null} file
     */
    restore(file) {
        return file ? this.given(file, this.calls.zkit_restore) : this.calls.zkit_restore_none(this.at) === DONE;
    }

    /**
     * A snapshot of the play, with as many states to go back to as fit in so many bytes; or null. Take the text first.
     * @param {number} [undoBytes]
     */
    snapshot(undoBytes = 0) {
        const most = BigInt(whole(undoBytes));
        return this.copied((game, ...rest) => this.calls.zkit_snapshot_with_undo(game, most, ...rest));
    }

    /** A second game that goes on from here, where the story awaits a line or a character; else null. */
    clone() {
        const buffer = this.calls.zkit_take(BigInt(BUFFER));
        if (buffer === 0n)
            return null;
        const game = this.calls.zkit_clone(this.at, buffer);
        if (game !== 0n)
            return new Game(this.module, game, buffer);
        this.calls.zkit_give(buffer);
        return null;
    }

    /**
     * Begins the random numbers anew, and says whether that was done: where a line or a character is awaited.
     * @param {bigint | number} seed
     */
    reseed(seed) {
        return this.calls.zkit_reseed(this.at, seedOf(seed)) === DONE;
    }

    /** How many bytes of text wait to be taken. */
    waitingText() {
        return Number(this.calls.zkit_waiting_text(this.at));
    }

    /** How many bytes of the transcript wait to be taken. */
    waitingTranscript() {
        return Number(this.calls.zkit_waiting_transcript(this.at));
    }

    /**
     * Where the game stands.
     * @returns {Place}
     */
    place() {
        this.sized(PLACE_SIZE);
        this.calls.zkit_place_of(this.at, this.buffer);
        const [address, routines, words, states, steps, reads] = this.numbers(6);
        const instructions = this.module.view(this.buffer + 32n, 8).getBigUint64(0, true);
        return { address, routines, words, states, steps, reads, instructions };
    }

    /**
     * The open routines, that which the story begins in first.
     * @returns {Routine[]}
     */
    routines() {
        return Array.from({ length: this.place().routines + 1 }, (_, number) => {
            this.sized(ROUTINE_SIZE);
            this.calls.zkit_routine_of(this.at, number, this.buffer);
            const [address, call, goesOn, locals, words, given] = this.numbers(6);
            return {
                address,
                call,
                goesOn,
                arguments: given,
                locals: this.wordsBy(number, locals, this.calls.zkit_locals),
                stack: this.wordsBy(number, words, this.calls.zkit_stack),
            };
        });
    }

    /**
     * So many words that a call puts into a buffer.
     * @param {number} number
     * @param {number} count
     * @param {Numbered} put
     */
    wordsBy(number, count, put) {
        const bytes = this.bytesBy(number, count, 2, put);
        return new Uint16Array(bytes.buffer, 0, bytes.length / 2);
    }

    /**
     * What a call puts into a buffer for so many items of a size; fewer where there are not so many, none where there
     * is no memory.
     * @param {number} number
     * @param {number} count
     * @param {number} size
     * @param {Numbered} put
     */
    bytesBy(number, count, size, put) {
        const handle = this.at;
        const at = this.calls.zkit_take(BigInt(size * count));
        if (at === 0n)
            return new Uint8Array();
        const there = Number(put(handle, whole(number), at, BigInt(count)));
        const bytes = this.module.bytes(at, size * there).slice();
        this.calls.zkit_give(at);
        return bytes;
    }

    /**
     * So many bytes of memory from an address on, as they are now, or as many as there are.
     * @param {number} address
     * @param {number} count
     */
    memory(address, count) {
        return this.bytesBy(address, whole(count), 1, this.calls.zkit_memory);
    }

    /**
     * The hash of so many bytes of memory from an address on, as they are now.
     * @param {number} address
     * @param {number} count
     */
    hash(address, count) {
        return BigInt.asUintN(64, this.calls.zkit_hash(this.at, whole(address), whole(count)));
    }

    /**
     * So many marks from an address on, of a game with the option `coverage`: 1 where an instruction begins that was
     * carried out.
     * @param {number} address
     * @param {number} count
     */
    coverage(address, count) {
        return this.bytesBy(address, whole(count), 1, this.calls.zkit_coverage);
    }

    /** How many objects the story has. */
    objects() {
        return this.calls.zkit_objects(this.at);
    }

    /**
     * An object as it stands, or null where there is none.
     * @param {number} object
     * @returns {StoryObject | null}
     */
    object(object) {
        this.sized(OBJECT_SIZE);
        if (this.calls.zkit_object_of(this.at, whole(object), this.buffer) !== DONE)
            return null;
        const [entry, parent, sibling, child, properties] = this.numbers(5);
        const bits = this.module.bytes(this.buffer + 28n, 8).slice();
        const attributes = Array.from({ length: 64 }, (_, i) => i).filter((i) => bits[i >> 3] >> 7 - (i & 7) & 1);
        const name = this.string(this.calls.zkit_object_name(this.at, object, this.buffer, BigInt(BUFFER)));
        return { entry, parent, sibling, child, properties, attributes, name };
    }

    /**
     * A property of an object, or null where there is none. Number 0 tells the first one as its `next`.
     * @param {number} object
     * @param {number} number
     * @returns {Property | null}
     */
    property(object, number) {
        this.sized(PROPERTY_SIZE);
        if (this.calls.zkit_property_of(this.at, whole(object), whole(number), this.buffer) !== DONE)
            return null;
        const [next, address, length] = this.numbers(3);
        return { next, address, length };
    }

    /**
     * Gives a word of dynamic memory a value, as the story could, and says whether that was done: where a line or a
     * character is awaited.
     * @param {number} address
     * @param {number} value
     */
    setWord(address, value) {
        return this.calls.zkit_set_word(this.at, whole(address), whole(value)) === DONE;
    }

    /**
     * Puts an object into another one, or for 0 into none, in the same way.
     * @param {number} object
     * @param {number} parent
     */
    moveObject(object, parent) {
        return this.calls.zkit_move_object(this.at, whole(object), whole(parent)) === DONE;
    }

    /**
     * Passes bytes to a call, and says whether they were taken.
     * @param {Uint8Array} bytes
     * @param {Giving} give
     */
    given(bytes, give) {
        const handle = this.at;
        const at = this.module.copied(bytes);
        if (at === 0n)
            return false;
        const answer = give(handle, at, BigInt(bytes.length));
        this.calls.zkit_give(at);
        return answer === DONE;
    }

    /**
     * The bytes of a file that a call copies out, or null where there is none or no memory.
     * @param {Copying} copy
     */
    copied(copy) {
        if (copy(this.at, 0n, 0n, this.buffer) !== NO_ROOM)
            return null;
        const size = this.module.view(this.buffer, 8).getBigUint64(0, true);
        const at = this.calls.zkit_take(size);
        if (at === 0n)
            return null;
        const answer = copy(this.at, at, size, this.buffer);
        const bytes = answer === DONE ? this.module.bytes(at, Number(size)).slice() : null;
        this.calls.zkit_give(at);
        return bytes;
    }

    /**
     * How the upper window stands.
     * @returns {Window}
     */
    window() {
        this.sized(WINDOW_SIZE);
        this.calls.zkit_window_of(this.at, this.buffer);
        const [height, tallest, row, column, selected, width] = this.numbers(6);
        return { height, tallest, row, column, selected: selected !== 0, width };
    }

    /**
     * Gives the upper window so many rows, as the story itself would, and says whether that was done.
     * @param {number} rows
     */
    split(rows) {
        return this.calls.zkit_split(this.at, whole(rows)) === DONE;
    }

    /** The rows of the upper window, without the spaces at their ends. */
    rows() {
        return this.rowsOf(this.window().height, this.calls.zkit_row);
    }

    /** The rows of the tallest grid since the last answer to a read. */
    tallestRows() {
        return this.rowsOf(this.window().tallest, this.calls.zkit_tallest_row);
    }

    /**
     * @param {number} height
     * @param {OfRow} put
     */
    rowsOf(height, put) {
        return Array.from({ length: height }, (_, i) => this.rowOf(i + 1, put));
    }

    /**
     * @param {number} row
     * @param {OfRow} put
     */
    rowOf(row, put) {
        return this.string(put(this.at, whole(row), this.buffer, BigInt(BUFFER)));
    }

    /**
     * A row of the upper window, from 1 on, run by run. The texts together are the row, with spaces where no character
     * stands before the last one, and with spaces in a style at its end. A row that is not shown has none.
     * @param {number} row
     */
    rowRuns(row) {
        return this.runsOf(row, this.calls.zkit_row, this.calls.zkit_row_styles);
    }

    /**
     * The same for a row of the tallest grid since the last answer to a read.
     * @param {number} row
     */
    tallestRowRuns(row) {
        return this.runsOf(row, this.calls.zkit_tallest_row, this.calls.zkit_tallest_row_styles);
    }

    /**
     * @param {number} row
     * @param {OfRow} put
     * @param {OfRow} putStyles
     * @returns {RowRun[]}
     */
    runsOf(row, put, putStyles) {
        const letters = [...this.rowOf(row, put)];
        const count = Number(putStyles(this.at, whole(row), this.buffer, BigInt(BUFFER)));
        const styles = this.module.bytes(this.buffer, count);
        /** @type {RowRun[]} */
        const runs = [];
        styles.forEach((style, i) => {
            if (i === 0 || style !== styles[i - 1])
                runs.push({ text: "", styles: stylesOf(style) });
            runs[runs.length - 1].text += letters[i] ?? " ";
        });
        return runs;
    }

    /**
     * The status line of a story of version 3; else null.
     * @returns {StatusLine | null}
     */
    statusLine() {
        this.sized(FIGURES_SIZE);
        this.calls.zkit_status_line(this.at, this.buffer);
        const [kind, first, second] = this.numbers(3);
        if (kind === 0)
            return null;
        const name = this.string(this.calls.zkit_status_name(this.at, this.buffer, BigInt(BUFFER)));
        return { kind: kind === 1 ? "score" : "time", name, first: first | 0, second: second | 0 };
    }

    /**
     * What the story's file says of it.
     * @returns {Story}
     */
    story() {
        this.sized(STORY_SIZE);
        this.calls.zkit_story_of(this.at, this.buffer);
        const [version, release, checksum] = this.numbers(3);
        const serial = String.fromCharCode(...this.module.bytes(this.buffer + 20n, 6));
        return { version, release, checksum, serial };
    }

    /**
     * A listing, one of LISTINGS, of so many bytes at most; null where there is no such one, it has more, its texts
     * have too many words, or there is no memory.
     * @param {string} listing
     * @param {number} [most]
     */
    list(listing, most) {
        const number = whole(LISTINGS.indexOf(listing));
        const answer = most === undefined ? this.calls.zkit_list(this.at, number)
            : this.calls.zkit_list_within(this.at, number, BigInt(whole(most)));
        return answer === DONE ? decoder().decode(this.taken(this.calls.zkit_listing)) : null;
    }

    /**
     * A part of a listing, one of LISTINGS, of so many steps, and whether more is to come: the first one is empty. The
     * parts together are the listing. Null where there is no such one, it has too many lines or its texts too many
     * words, or there is no memory.
     * @param {string} listing
     * @param {number} steps
     */
    listFor(listing, steps) {
        const answer = this.calls.zkit_list_for(this.at, whole(LISTINGS.indexOf(listing)), whole(steps));
        if (answer !== DONE && answer !== GOES_ON)
            return null;
        return { bytes: this.taken(this.calls.zkit_listing), goesOn: answer === GOES_ON };
    }

    /**
     * The line of the instruction at an address of memory as it is now, as `zkit disasm` shows it; null where there is
     * no memory for it, or its text has too many words.
     * @param {number} address
     */
    instruction(address) {
        const answer = this.calls.zkit_list_instruction(this.at, whole(address));
        return answer === DONE ? decoder().decode(this.taken(this.calls.zkit_listing)).trimEnd() : null;
    }

    /**
     * Begins a struct in the buffer by its size.
     * @param {number} size
     */
    sized(size) {
        this.module.view(this.buffer, SIZE).setBigUint64(0, BigInt(size), true);
    }

    /**
     * The first numbers of the struct in the buffer, after its size.
     * @param {number} count
     */
    numbers(count) {
        const view = this.module.view(this.buffer + BigInt(SIZE), 4 * count);
        return Array.from({ length: count }, (_, i) => view.getUint32(4 * i, true));
    }

    /**
     * The first bytes of the buffer as text.
     * @param {bigint} count
     */
    string(count) {
        return decoder().decode(this.module.bytes(this.buffer, Number(count)));
    }

    status() {
        return this.calls.zkit_status(this.at);
    }

    reason() {
        return this.calls.zkit_reason(this.at);
    }

    /** Where the instruction lies with the fault or limit that has stopped the story. */
    address() {
        return this.calls.zkit_address(this.at) >>> 0;
    }

    /** Why the story has stopped, in words; "" where it has not. */
    words() {
        return this.string(this.calls.zkit_text_of_reason(this.status(), this.reason(), this.buffer, BigInt(BUFFER)));
    }

    /** The line that `zkit play` writes last on standard error: "" where the story has ended by itself, or has not. */
    lastLine() {
        const status = this.status();
        if (status === FAULT || status === LIMIT) {
            const place = this.address().toString(16).padStart(5, "0");
            return `zkit: ${status === FAULT ? "fault" : "limit"} ${this.reason()} at ${place}`;
        }
        return status === OUT_OF_MEMORY || status === TOO_MUCH_TEXT ? `zkit: ${this.words()}` : "";
    }

    /** Gives all memory of the game back. It is not used any more. */
    close() {
        if (this.handle === 0n)
            return;
        this.calls.zkit_close(this.handle);
        this.calls.zkit_give(this.buffer);
        this.handle = 0n;
    }
}
