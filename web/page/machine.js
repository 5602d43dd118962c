// The page's side of the worker that runs a story: calls that answer promises.

import { at } from "./at.js";
import { fromBase64 } from "./bytes.js";

/** @typedef {import("./answers.js").Answer} Answer */
/** @typedef {import("../zkit.js").Run} Run */
/** @typedef {import("../zkit.js").RowRun} RowRun */
/** @typedef {{kind: "score" | "time", name: string, first: number, second: number}} StatusLine */

/**
 * How a story stands after it has run.
 * @typedef {object} Standing
 * @property {"stopped" | "line" | "character" | "save" | "restore" | "memory" | "pause" | "halt" | "refused"} awaits
 * @property {string[]} rows
 * @property {string[] | null} box the rows of a grid that was taken away again before the read
 * @property {RowRun[][]} grid the rows, run by run
 * @property {number} width how many columns they have
 * @property {StatusLine | null} status
 * @property {number} longest
 * @property {string} last
 * @property {string} words
 * @property {Uint8Array | null} snapshot
 */

/**
 * What came of an answer of a play that is repeated; null before the first one.
 * @typedef {Pick<Standing, "awaits" | "rows" | "box"> & {runs: Run[], script: string, answer: Answer | null}} Turn
 */
/** @typedef {{version: number, release: number, checksum: number, serial: string, ifid: string}} About */

/** The machine's words on a story or a snapshot that it does not open. */
export class NotOpened extends Error {}

/** The module has failed: the worker is of no use any more. */
export class Trapped extends Error {}

/** The bytes of the module, which stand in the page. */
export function moduleBytes() {
    return fromBase64(at("module-bytes").textContent || "");
}

let source = "";

/** The address of the worker's script, which stands in the page too. */
function workerAddress() {
    source = source || URL.createObjectURL(
        new Blob([at("worker-source").textContent || ""], { type: "text/javascript" }));
    return source;
}

/** A worker with a module. */
export class Machine {
    constructor() {
        /** @type {Map<number, {resolve: (it: any) => void, reject: (error: Error) => void}>} */
        this.waiting = new Map();
        this.number = 0;
        /** @type {(part: any) => void} */
        this.onPart = () => {};
        this.worker = new Worker(workerAddress());
        this.worker.onmessage = (event) => this.heard(event.data);
        this.worker.onerror = (event) => this.fail(event.message || "the worker has failed");
        this.begun = this.call("begin", { bytes: moduleBytes() });
    }

    /** @param {any} data */
    heard(data) {
        if (data.number === undefined) {
            this.onPart(data);
            return;
        }
        const call = this.waiting.get(data.number);
        this.waiting.delete(data.number);
        if (!call)
            return;
        if (data.refused !== undefined)
            call.reject(new NotOpened(data.refused));
        else if (data.trapped !== undefined)
            call.reject(new Trapped(data.trapped));
        else
            call.resolve(data.result);
    }

    /** @param {string} words */
    fail(words) {
        for (const call of this.waiting.values())
            call.reject(new Trapped(words));
        this.waiting.clear();
    }

    /**
     * @param {string} call
     * @param {object} [values]
     * @returns {Promise<any>}
     */
    call(call, values = {}) {
        const number = ++this.number;
        this.worker.postMessage({ number, call, values });
        return new Promise((resolve, reject) => this.waiting.set(number, { resolve, reject }));
    }

    /**
     * @param {Uint8Array} story
     * @param {object} options
     * @returns {Promise<About>}
     */
    open(story, options) {
        return this.call("open", { story, options });
    }

    /**
     * @param {Uint8Array} story
     * @param {Uint8Array} snapshot
     * @returns {Promise<About>}
     */
    resume(story, snapshot) {
        return this.call("resume", { story, snapshot });
    }

    /**
     * Gives the story an answer, if any, and runs it.
     * @param {Answer | null} answer
     * @param {(runs: Run[], script: string) => void} onText
     * @returns {Promise<Standing>}
     */
    run(answer, onText) {
        this.onPart = ({ runs, script }) => onText(runs, script);
        return this.call("run", { answer });
    }

    /**
     * Runs the story and gives it answers as far as they fit.
     * @param {Answer[]} answers
     * @param {(turns: Turn[], given: number) => void} onTurns takes what came before the first answer, and of each one,
     *     and how many were given
     * @returns {Promise<Standing & {given: number}>}
     */
    replay(answers, onTurns) {
        this.onPart = ({ turns, given }) => onTurns(turns, given);
        return this.call("replay", { answers });
    }

    /** Lets a run end soon. */
    stop() {
        this.worker.postMessage({ call: "stop" });
    }

    /** @returns {Promise<Uint8Array | null>} */
    image() {
        return this.call("image");
    }

    /**
     * The story that a file has; null where it is a Blorb file without one.
     * @param {Uint8Array} file
     * @returns {Promise<Uint8Array | null>}
     */
    storyIn(file) {
        return this.call("storyIn", { file });
    }

    /**
     * The IFID of a story, which is not played for that.
     * @param {Uint8Array} story
     * @returns {Promise<string>}
     */
    ifid(story) {
        return this.call("ifid", { story });
    }

    /**
     * @param {string} listing
     * @returns {Promise<string | null>}
     */
    list(listing) {
        return this.call("list", { listing });
    }

    /** Ends the worker, whatever it does. */
    drop() {
        this.worker.terminate();
        this.fail("the worker was stopped");
    }
}
