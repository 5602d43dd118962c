// The machine, in a worker: it runs a story by slices, so that a message to stop is heard at any time.

import { Module, Refused } from "../zkit.js";
import { fits, isRead } from "./answers.js";
import { fromBase64, toBase64 } from "./bytes.js";

/** @typedef {import("./answers.js").Answer} Answer */

/** So many instructions run between two looks at the messages. */
const SLICE = 500000;

/** So much text waits at most in the module; it is posted as it comes. */
const ROOM = 32768;

/** A snapshot has the limits that the page gave its story, which may be any. */
const ANY = { frames: 65535, words: 65535, undo: 64, steps: 1000000000, room: ROOM, styles: true, keys: true };

/** So many characters come at most before the reader is asked whether to go on, and where a play is repeated. */
const PAUSE = 200000;
const PAUSE_OF_REPEATED = 4000000;

/** A snapshot has all states that the story's own UNDO goes back to, however many bytes they have. */
const ALL_STATES = 0xffffffff;

/** So many milliseconds a turn that is repeated may take after it was stopped, so that it ends at a read. */
const PATIENCE = 1000;

/** So many milliseconds pass at most before what was repeated is posted, and messages are let in. */
const PART = 50;

/** So many steps has a part of a listing: some hundredths of a second. */
const LISTED_AT_ONCE = 20_000;

/** The key that an empty line of a walkthrough is. */
const ENTER = 10;

/** @type {any} */
const page = self;

/** @type {Module | null} */
let module = null;
/** @type {any} */
let game = null;
let story = new Uint8Array();
/** When a run was stopped. */
let stopped = Infinity;

/** Lets messages in. */
function breath() {
    return new Promise((resolve) => {
        const channel = new MessageChannel();
        channel.port1.onmessage = () => {
            channel.port1.close();
            resolve(null);
        };
        channel.port2.postMessage(null);
    });
}

/**
 * Puts a game in the place of the one that is played.
 * @param {(module: Module) => any} open
 */
function replace(open) {
    if (!module)
        throw new Error("there is no module yet");
    const other = open(module);
    if (game)
        game.close();
    game = other;
}

/** @type {Promise<string | null>} The listing that was asked for last. */
let last = Promise.resolve(null);

/**
 * A listing of a game's story, made in parts between which messages come in; null where it is refused.
 * @param {any} it
 * @param {string} listing
 */
async function listed(it, listing) {
    const decoder = new TextDecoder("utf-8", { ignoreBOM: true });
    let text = "";
    for (;;) {
        const part = it.listFor(listing, LISTED_AT_ONCE);
        if (!part)
            return null;
        text += decoder.decode(part.bytes, { stream: part.goesOn });
        if (!part.goesOn)
            return text;
        await breath();
    }
}

/**
 * A listing once those are made that were asked for before: a game goes on with one listing at a time.
 * @param {string} listing
 */
function listedNext(listing) {
    last = last.catch(() => null).then(() => listed(game, listing));
    return last;
}

/**
 * What a game's file says of its story.
 * @param {any} it
 */
function about(it) {
    return { ...it.story(), ifid: (it.list("ifid") || "").trim() };
}

/** The same game without the states to go back to, as a snapshot has it. */
function freshen() {
    const snapshot = game.snapshot();
    if (snapshot)
        replace((it) => it.openSnapshot(story, snapshot, ANY));
    return snapshot !== null;
}

/**
 * Gives the story an answer, and tells whether it took it.
 * @param {Answer} answer
 */
function give(answer) {
    if (typeof answer === "string")
        return game.line(answer);
    if (typeof answer === "number")
        return game.character(answer);
    if ("saved" in answer)
        return game.saved(answer.saved);
    if ("restored" in answer)
        return game.restore(answer.restored === null ? null : fromBase64(answer.restored));
    return "undo" in answer ? game.undo() : "fresh" in answer && freshen();
}

/**
 * The game that a walkthrough has saved last.
 * @type {Uint8Array | null}
 */
let walked = null;

/**
 * What a story is given for an answer: for a line of a walkthrough the line, its first character, or what the story has
 * saved itself.
 * @param {string} awaits
 * @param {Answer} answer
 * @returns {Answer}
 */
function taken(awaits, answer) {
    if (typeof answer !== "object" || !("typed" in answer))
        return answer;
    if (awaits === "save") {
        walked = game.image();
        return { saved: walked !== null };
    }
    if (awaits === "restore")
        return { restored: walked && toBase64(walked) };
    return awaits === "character" ? answer.typed.codePointAt(0) ?? ENTER : answer.typed;
}

/** @param {string} awaits */
function isReading(awaits) {
    return awaits === "line" || awaits === "character";
}

/**
 * What is seen above the text after a run: the rows, and those of a box that was taken away again before a read.
 * @param {string} awaits
 */
function seen(awaits) {
    const { height, tallest } = game.window();
    return { awaits, rows: game.rows(), box: isReading(awaits) && tallest > height ? game.tallestRows() : null };
}

/**
 * How the story stands after it has run.
 * @param {string} awaits
 */
function standing(awaits) {
    const { height, width } = game.window();
    return {
        ...seen(awaits),
        grid: Array.from({ length: height }, (_, i) => game.rowRuns(i + 1)),
        width,
        status: game.statusLine(),
        longest: awaits === "line" ? game.longestLine() : 0,
        last: awaits === "stopped" ? game.lastLine() : "",
        words: awaits === "stopped" ? game.words() : "",
        snapshot: isReading(awaits) ? game.snapshot(ALL_STATES) : null,
    };
}

/**
 * Runs the story until it awaits something, has written very much, or is stopped, and answers what it awaits.
 * @param {number} most so many characters are very much
 * @param {number} patience so many milliseconds it goes on after it was stopped
 * @param {(runs: import("../zkit.js").Run[], script: string) => void} take takes what it writes
 */
async function turned(most, patience, take) {
    let written = 0;
    for (;;) {
        const awaits = game.turn(SLICE);
        const [runs, script] = [game.runs(), game.transcript()];
        if (runs.length > 0 || script)
            take(runs, script);
        for (const { text } of runs)
            written += text.length;
        if (awaits !== "time" && awaits !== "room")
            return awaits;
        if (written >= most)
            return "pause";
        await breath();
        if (performance.now() >= stopped + patience)
            return "halt";
    }
}

/**
 * Gives the story an answer, if any, and runs it. What it writes is posted as it comes.
 * @param {Answer | null} answer
 */
async function run(answer) {
    stopped = Infinity;
    if (answer !== null && !give(answer))
        return { ...standing("refused"), snapshot: null };
    return standing(await turned(PAUSE, 0, (runs, script) => page.postMessage({ runs, script })));
}

/**
 * Runs the story as one turn of a play that is repeated, and answers what it awaits.
 * @param {object[]} turns where what came of it is added
 * @param {Answer | null} answer what it was given before
 */
async function repeated(turns, answer) {
    /** @type {import("../zkit.js").Run[]} */
    const all = [];
    let text = "";
    const awaits = await turned(PAUSE_OF_REPEATED, PATIENCE, (runs, script) => {
        all.push(...runs);
        text += script;
    });
    turns.push({ ...seen(awaits), runs: all, script: text, answer });
    return awaits;
}

/**
 * Runs the story and gives it answers as far as they fit, until it is stopped. The turns are posted by parts; what is
 * answered is how the story stands then, and how many answers it was given.
 * @param {Answer[]} answers
 */
async function replay(answers) {
    stopped = Infinity;
    let began = performance.now();
    /** @type {object[]} */
    let turns = [];
    let awaits = await repeated(turns, null);
    let given = 0;
    while (stopped === Infinity && given < answers.length) {
        const answer = taken(awaits, answers[given]);
        if (!fits(awaits, answer) || !give(answer))
            break;
        // (a walkthrough has no line for a saved game)
        given += isRead(answer) || answer === answers[given] ? 1 : 0;
        awaits = await repeated(turns, answer);
        if (performance.now() - began > PART) {
            page.postMessage({ turns, given });
            turns = [];
            await breath();
            began = performance.now();
        }
    }
    page.postMessage({ turns, given });
    return { ...standing(awaits), given };
}

/** @type {Record<string, (values: any) => any>} */
const CALLS = {
    begin: async ({ bytes }) => {
        module = await Module.of(bytes);
        return module.version();
    },
    open: ({ story: bytes, options }) => {
        replace((it) => it.open(bytes, { ...options, room: ROOM, styles: true, keys: true }));
        story = bytes;
        walked = null;
        return about(game);
    },
    storyIn: ({ file }) => /** @type {Module} */ (module).storyIn(file),
    ifid: ({ story: bytes }) => {
        const other = /** @type {Module} */ (module).open(bytes, {});
        const { ifid } = about(other);
        other.close();
        return ifid;
    },
    resume: ({ story: bytes, snapshot }) => {
        replace((it) => it.openSnapshot(bytes, snapshot, ANY));
        story = bytes;
        return about(game);
    },
    run: ({ answer }) => run(answer),
    replay: ({ answers }) => replay(answers),
    image: () => game.image(),
    list: ({ listing }) => listedNext(listing),
};

page.onmessage = async (/** @type {MessageEvent} */ event) => {
    const { number, call, values } = event.data;
    if (call === "stop") {
        stopped = performance.now();
        return;
    }
    try {
        page.postMessage({ number, result: await CALLS[call](values) });
    } catch (error) {
        const words = error instanceof Error ? error.message : String(error);
        page.postMessage({ number, [error instanceof Refused ? "refused" : "trapped"]: words });
    }
};
