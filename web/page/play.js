// A play: the story that runs, what was answered, and the ways back. What is answered is recorded, since the same
// answers give the same play: that is what a link has, and how the reader goes back to any line.

import { agreed, at, speak, tell } from "./at.js";
import { isRead } from "./answers.js";
import { hideOver, showOver, showPaused, showRunning, wordsOfEnd } from "./bars.js";
import { toBase64 } from "./bytes.js";
import { USUAL } from "./columns.js";
import { Machine, Trapped } from "./machine.js";
import { boxText } from "./screen.js";
import { sound } from "./sound.js";
import { sumOf } from "./sums.js";

/** @typedef {import("./answers.js").Answer} Answer */
/** @typedef {import("./machine.js").Standing} Standing */
/** @typedef {import("./machine.js").About} About */
/** @typedef {import("./resume.js").Kept} Kept */
/** @typedef {{name: string, bytes: Uint8Array, title?: string, author?: string}} File */

/**
 * A place to go back to: how all stood at a read.
 * @typedef {object} Mark
 * @property {Uint8Array | null} snapshot
 * @property {number} answers
 * @property {import("./log.js").Mark} log
 * @property {string} chain
 * @property {number} script how long the story's own transcript was
 */

/**
 * What a play asks the reader for and tells the page.
 * @typedef {object} Reader
 * @property {(image: Uint8Array) => Promise<boolean>} save
 * @property {() => Promise<Uint8Array | null>} restore
 * @property {() => void} opened
 * @property {() => void} changed
 * @property {(standing: Standing) => void} turned
 */

/** The reader can stop a story at any time, so it may run for longer than `zkit play` lets it by itself. */
const OPTIONS = { steps: 1000000000 };

/** So often a story asks for saved games before the reader is asked whether to go on. */
const MOST_FILES = 3;

/** So many states to go back to are kept. */
const MARKS = 32;

/** After so many milliseconds the page says that the story runs. */
const SOON = 300;

/** Why a story has paused that nobody has stopped.
 * @type {Record<string, string>}
 */
const PAUSED = {
    pause: "The story has printed a lot without asking for input.",
    memory: "The story can't go on: there is no memory left.",
};

/** Something else was begun meanwhile. */
export class Left extends Error {}

/**
 * The last one of some marks from which so many answers can be reached without the start of the story; if there is one.
 * @param {(Mark | null)[]} marks in the order of their answers
 * @param {number} count
 */
function nearest(marks, count) {
    const found = marks.filter((mark) => mark && mark.snapshot && mark.answers <= count);
    return found.length > 0 ? found[found.length - 1] : null;
}

export class Play {
    /**
     * @param {import("./log.js").Log} log
     * @param {import("./screen.js").Screen} screen
     * @param {import("./input.js").Input} input
     * @param {Reader} reader
     */
    constructor(log, screen, input, reader) {
        this.log = log;
        this.screen = screen;
        this.input = input;
        this.reader = reader;
        /** @type {Machine | null} */
        this.machine = null;
        /** @type {File | null} */
        this.story = null;
        this.ifid = "";
        this.sum = "";
        this.seed = "1";
        this.columns = USUAL;
        /** The title that the story shows at its start. */
        this.title = "";
        /** @type {Standing | null} */
        this.standing = null;
        this.isBusy = false;
        /** Whether the reader has stopped what is repeated. */
        this.isHalted = false;
        /** How many answers of what was repeated last the story was not given. */
        this.left = 0;
        /**
         * The answers that came after the one that was gone back to.
         * @type {Answer[]}
         */
        this.later = [];
        this.round = 0;
        this.script = "";
        /** @type {About | null} */
        this.about = null;
        /** @type {Answer[]} */
        this.answers = [];
        /** @type {Mark[]} */
        this.marks = [];
        /** @type {Mark | null} */
        this.here = null;
        this.chain = "";
        /**
         * The last bleep since the read before.
         * @type {import("../zkit.js").Before | null}
         */
        this.bleep = null;
        this.turnText = "";
        /** @type {string[]} */
        this.lastRows = [];
        /**
         * The saved game that the story gets where it asks for one.
         * @type {Uint8Array | null}
         */
        this.chosen = null;
        at("stop").addEventListener("click", () => this.stop());
        at("go-on").addEventListener("click", () => this.go(null));
        at("step-back").addEventListener("click", () => this.back());
        at("over-back").addEventListener("click", () => this.back());
    }

    stop() {
        this.isHalted = true;
        if (this.machine)
            this.machine.stop();
    }

    /** Nothing was answered yet. */
    empty() {
        this.answers = [];
        this.later = [];
        this.marks = [];
        this.here = null;
        this.chain = "";
        this.turnText = "";
        this.lastRows = [];
    }

    /** What the story is called: by its file's own words, by its first bold line, or by its file's name. */
    name() {
        return this.story ? this.story.title || this.title || this.story.name : "zkit";
    }

    /** How many lines and keys the reader has given. */
    reads() {
        return this.answers.filter(isRead).length;
    }

    /** @param {boolean} isBusy */
    beBusy(isBusy) {
        this.isBusy = isBusy;
        at("play").dataset.busy = String(isBusy);
    }

    /**
     * What a promise gives, unless something else was begun meanwhile.
     * @template T
     * @param {Promise<T>} promise
     * @returns {Promise<T>}
     */
    async unlessLeft(promise) {
        const round = this.round;
        const it = await promise.catch((error) => {
            throw round === this.round ? error : new Left();
        });
        if (round !== this.round)
            throw new Left();
        return it;
    }

    /** A machine that does nothing at the moment. Whatever ran before is left. */
    async idleMachine() {
        this.round++;
        if (this.machine && this.isBusy) {
            this.machine.drop();
            this.machine = null;
        }
        this.beBusy(true);
        showRunning("");
        const machine = this.machine || new Machine();
        this.machine = machine;
        await this.unlessLeft(machine.begun);
        return machine;
    }

    /**
     * Opens a story at its start and gives it answers. Where it is not opened, NotOpened is thrown and the play before
     * it goes on.
     * @param {File} story
     * @param {string} seed
     * @param {number} columns how many the story is told
     * @param {Answer[]} [answers]
     * @param {Answer[]} [later] the answers after these, for the list of lines
     */
    async start(story, seed, columns, answers = [], later = []) {
        const wasBusy = this.isBusy;
        const machine = await this.idleMachine();
        try {
            const options = { ...OPTIONS, seed: BigInt(seed), columns };
            this.take(story, await this.unlessLeft(machine.open(story.bytes, options)), seed, columns);
        } catch (error) {
            if (!(error instanceof Left))
                await this.stay(wasBusy || error instanceof Trapped);
            throw error;
        }
        this.log.clear(columns);
        this.empty();
        this.later = later;
        this.reader.changed();
        this.input.remember(answers);
        await this.guarded(() => this.replay(answers));
    }

    /**
     * Goes to where so many of some answers were given: from the nearest snapshot of this play, or else from the start
     * of the story. The others can still be gone to.
     * @param {Answer[]} answers
     * @param {number} count
     */
    async goTo(answers, count) {
        const story = /** @type {File} */ (this.story);
        const mark = nearest([...this.marks, this.here], count);
        if (!mark) {
            await this.start(story, this.seed, this.columns, answers.slice(0, count), answers.slice(count));
            return;
        }
        const machine = await this.idleMachine();
        await this.unlessLeft(machine.resume(story.bytes, /** @type {Uint8Array} */ (mark.snapshot)));
        this.answers = answers.slice(0, mark.answers);
        this.later = answers.slice(count);
        this.marks = this.marks.filter((it) => it.answers < mark.answers);
        this.log.cut(mark.log);
        this.chain = mark.chain;
        this.script = this.script.slice(0, mark.script);
        this.turnText = "";
        this.here = null;
        await this.guarded(() => this.replay(answers.slice(mark.answers, count)));
    }

    /**
     * The story that a file has; null where it is a Blorb file without one. The play goes on meanwhile.
     * @param {Uint8Array} file
     */
    async storyIn(file) {
        this.machine = this.machine || new Machine();
        await this.machine.begun;
        return this.machine.storyIn(file);
    }

    /**
     * The IFID of a story; NotOpened is thrown where it is none. The play goes on meanwhile.
     * @param {Uint8Array} bytes
     * @returns {Promise<string>}
     */
    async ifidOf(bytes) {
        this.machine = this.machine || new Machine();
        await this.machine.begun;
        return this.machine.ifid(bytes);
    }

    /**
     * Goes on with the play before, where another one was not opened.
     * @param {boolean} isLost whether the machine has it no more
     */
    async stay(isLost) {
        if (!isLost) {
            this.beBusy(false);
            return;
        }
        this.dropMachine();
        await this.toLastRead();
    }

    /** Goes on from the last read, with a machine that may be another one. */
    async toLastRead() {
        if (this.here)
            await this.goTo([...this.answers, ...this.later], this.here.answers);
    }

    /** Ends the machine; the next use makes another one. */
    dropMachine() {
        if (this.machine)
            this.machine.drop();
        this.machine = null;
        this.beBusy(false);
        showRunning("");
    }

    /**
     * Goes on with a play that was kept.
     * @param {File} story
     * @param {Kept} play
     */
    async resume(story, play) {
        const machine = await this.idleMachine();
        const about = await this.unlessLeft(machine.resume(story.bytes, /** @type {Uint8Array} */ (play.snapshot)));
        this.take(story, about, play.seed, play.columns ?? USUAL);
        this.empty();
        this.log.fill(play.log, this.columns);
        this.title = play.title || "";
        this.answers = play.answers;
        this.input.remember(play.answers);
        this.chain = play.chain;
        this.lastRows = play.box;
        if (!play.hasStates)
            this.freshened();
        await this.guarded(async () => this.settle(await this.step(null)));
    }

    /**
     * @param {File} story
     * @param {About} about
     * @param {string} seed
     * @param {number} columns
     */
    take(story, about, seed, columns) {
        this.story = story;
        this.about = about;
        this.ifid = about.ifid;
        this.sum = sumOf(story.bytes);
        this.seed = seed;
        this.columns = columns;
        this.script = this.title = "";
        this.reader.opened();
    }

    /** Notes that the states are gone that the story's own UNDO goes back to: a play was kept without them. */
    freshened() {
        const last = this.answers[this.answers.length - 1];
        const isNoted = typeof last === "object" && "fresh" in last;
        if (this.answers.length > 0 && !isNoted)
            this.answers.push({ fresh: true });
    }

    /**
     * Does something with the machine; where that fails, goes on from the last read with a new one.
     * @param {() => Promise<void>} does
     */
    async guarded(does) {
        try {
            await does();
        } catch (error) {
            if (error instanceof Left)
                return;
            this.dropMachine();
            if (!(error instanceof Trapped))
                throw error;
            await this.toLastRead();
            tell(`The interpreter failed (${error.message}) and was restarted.`, true);
        }
    }

    /** Awaits no answer while the story runs. */
    rest() {
        this.beBusy(true);
        this.input.rest();
        hideOver();
    }

    /**
     * Gives the story an answer and runs it.
     * @param {Answer | null} answer
     */
    async step(answer) {
        const round = this.round;
        const machine = /** @type {Machine} */ (this.machine);
        this.rest();
        const soon = setTimeout(() => showRunning("The story is running."), SOON);
        try {
            return await this.unlessLeft(machine.run(answer, (runs, script) => this.written(round, runs, script)));
        } finally {
            clearTimeout(soon);
            if (round === this.round)
                showRunning("");
        }
    }

    /**
     * @param {number} round
     * @param {import("./machine.js").Run[]} runs
     * @param {string} script
     */
    written(round, runs, script) {
        if (round !== this.round)
            return;
        this.turnText += runs.map((run) => run.text).join("");
        this.script += script;
        this.log.runs(runs);
        for (const { before } of runs)
            this.bleep = before.find((it) => it !== "erased") || this.bleep;
    }

    /**
     * Takes the reader's answer to a read.
     * @param {string | number} answer
     */
    async give(answer) {
        if (this.isBusy || !this.here)
            return;
        tell("");
        this.later = [];
        await this.go(answer);
    }

    /**
     * Restores a saved game by the story's own command.
     * @param {Uint8Array} image
     */
    async restoreGame(image) {
        if (this.isBusy || !this.standing || this.standing.awaits !== "line") {
            tell("The story awaits no command. Restore the game when it does.", true);
            return;
        }
        this.chosen = image;
        await this.give("restore");
        if (this.chosen)
            tell("The story did not take the command RESTORE. Type its own command to restore a game.", true);
        this.chosen = null;
    }

    /**
     * Gives an answer, if any, and goes on to the next read.
     * @param {Answer | null} answer
     */
    async go(answer) {
        await this.guarded(async () => {
            if (answer !== null)
                this.note(answer);
            this.settle(await this.answerFiles(await this.step(answer)));
        });
    }

    /**
     * Saves and restores as the story asks for it, until it asks for something else. A reader who has enough of that
     * can stop it.
     * @param {Standing} standing
     * @returns {Promise<Standing>}
     */
    async answerFiles(standing) {
        let now = standing;
        for (let count = 1; now.awaits === "save" || now.awaits === "restore"; count++) {
            const words = "The story keeps asking for saved games.";
            if (count > MOST_FILES && !await this.unlessLeft(agreed("Go on?", words, "Go on", "Stop it")))
                return { ...now, awaits: "halt" };
            const next = await this.unlessLeft(this.fileAnswer(now.awaits));
            this.answers.push(next);
            now = await this.step(next);
        }
        return now;
    }

    /**
     * What is answered where the story saves or restores.
     * @param {"save" | "restore"} what
     * @returns {Promise<Answer>}
     */
    async fileAnswer(what) {
        if (what === "save") {
            const image = await /** @type {Machine} */ (this.machine).image();
            return { saved: image !== null && await this.reader.save(image) };
        }
        const image = this.chosen || await this.reader.restore();
        this.chosen = null;
        return { restored: image && toBase64(image) };
    }

    /**
     * Records an answer to a read.
     * @param {Answer} answer
     */
    record(answer) {
        if (this.here && this.here.snapshot) {
            this.marks.push(this.here);
            this.marks.splice(0, this.marks.length - MARKS);
        }
        this.answers.push(answer);
    }

    /**
     * Records an answer to a read, and shows it.
     * @param {Answer} answer
     */
    note(answer) {
        this.record(answer);
        if (typeof answer === "string")
            this.log.typed(answer);
        else if (typeof answer === "object")
            this.log.undone();
        else
            this.log.pressed();
    }

    /**
     * Runs the story and gives it all answers of a record, as far as they fit and the reader does not stop it. Nothing
     * is drawn meanwhile. Where it asks for saved games after these, the reader is asked.
     * @param {Answer[]} answers
     */
    async replay(answers) {
        const standing = answers.length > 0 ? await this.repeat(answers) : await this.step(null);
        this.settle(await this.answerFiles(standing));
    }

    /** @param {Answer[]} answers */
    async repeat(answers) {
        const [machine, round, began] = [/** @type {Machine} */ (this.machine), this.round, Date.now()];
        this.rest();
        this.isHalted = false;
        this.log.isStill = true;
        const { given, ...standing } = await this.unlessLeft(machine.replay(answers, (turns, count) => {
            if (round !== this.round)
                return;
            turns.forEach((turn) => this.repeated(round, turn));
            if (Date.now() - began > SOON)
                showRunning(`Repeating the play: ${count} of ${answers.length}.`);
        }));
        this.left = answers.length - given;
        if (this.isHalted)
            this.later = [...answers.slice(given), ...this.later];
        showRunning("");
        return standing;
    }

    /**
     * Takes an answer that was given again, if any, and what came of it.
     * @param {number} round
     * @param {import("./machine.js").Turn} turn
     */
    repeated(round, { runs, script, answer, ...turn }) {
        if (answer !== null && isRead(answer))
            this.note(answer);
        else if (answer !== null)
            this.answers.push(answer);
        this.written(round, runs, script);
        if (turn.awaits === "line" || turn.awaits === "character")
            this.reach({ ...turn, snapshot: null });
    }

    /**
     * Notes that the story reads, or has ended.
     * @param {Pick<Standing, "awaits" | "rows" | "box" | "snapshot">} standing
     */
    reach(standing) {
        if (this.turnText)
            this.chain = sumOf(this.chain + this.turnText);
        this.turnText = "";
        if (standing.awaits === "line")
            this.log.hold();
        if (standing.box)
            this.showBox(standing.box, standing.rows.length);
        this.lastRows = standing.box || standing.rows;
        if (standing.awaits === "stopped")
            return;
        // (a story may await a key first; the name of a place is bold too)
        const bold = this.reads() <= 1 && !this.title ? this.log.boldLine() : "";
        if (bold && !standing.rows.some((row) => row.includes(bold)))
            this.title = bold;
        this.here = {
            snapshot: standing.snapshot, answers: this.answers.length, log: this.log.mark(), chain: this.chain,
            script: this.script.length,
        };
    }

    /**
     * Shows a box once: not again where it stood there at the read before.
     * @param {string[]} rows
     * @param {number} height
     */
    showBox(rows, height) {
        const text = boxText(rows.slice(height));
        if (text.length && rows.join("\n") !== this.lastRows.join("\n"))
            this.log.box(text);
    }

    /**
     * Shows how the story stands after a run.
     * @param {Standing} standing
     */
    settle(standing) {
        this.standing = standing;
        this.beBusy(false);
        const news = this.screen.show(standing);
        if (this.bleep)
            sound(this.bleep);
        this.bleep = null;
        const { awaits } = standing;
        const reads = awaits === "line" || awaits === "character";
        if (reads || awaits === "stopped")
            this.reach(standing);
        this.log.draw();
        if (reads)
            this.input.await(awaits, this.log.held, standing.longest);
        speak(reads ? news : [...news, this.showStop(standing)]);
        // (what stands below the text may have come or gone)
        this.log.resized();
        this.reader.changed();
        this.reader.turned(standing);
    }

    /**
     * Shows that the story does not go on by itself, and answers why.
     * @param {Standing} standing
     */
    showStop(standing) {
        this.input.hide();
        if (standing.awaits === "stopped") {
            const words = wordsOfEnd(standing);
            showOver(words, this.here !== null);
            return words;
        }
        const words = PAUSED[standing.awaits] || "You have stopped the story.";
        showPaused(words, this.here !== null);
        return words;
    }

    /** Goes back to before the last answer: by the story's own state, or else by a snapshot of a read before. */
    async undo() {
        const awaits = this.standing ? this.standing.awaits : "stopped";
        if (this.isBusy || (awaits !== "line" && awaits !== "character")) {
            await this.back();
            return;
        }
        await this.guarded(async () => {
            const mark = this.log.mark();
            this.log.undone();
            const standing = await this.step({ undo: true });
            if (standing.awaits === "refused") {
                this.log.cut(mark);
                this.beBusy(false);
                await this.backToLast();
                return;
            }
            this.later = [];
            this.record({ undo: true });
            this.settle(standing);
        });
    }

    /** Back to the last read, from a story that has stopped or was stopped. */
    async back() {
        if (!this.here)
            return;
        await this.guarded(() => this.toLastRead());
        tell("Went back one step.");
    }

    async backToLast() {
        const last = this.answers.map(isRead).lastIndexOf(true);
        if (last < 0) {
            tell("There is nothing to go back to.");
            this.settle(await this.step(null));
            return;
        }
        await this.goTo([...this.answers, ...this.later], last);
        tell("Went back one step.");
    }

    /**
     * What is kept for a reload.
     * @param {string} module
     * @returns {Kept | null}
     */
    kept(module) {
        const awaits = this.standing ? this.standing.awaits : "stopped";
        if (!this.here || this.isBusy || (awaits !== "line" && awaits !== "character"))
            return null;
        return {
            module, story: this.sum, ifid: this.ifid, seed: this.seed, columns: this.columns, title: this.title,
            name: this.name(),
            answers: this.answers.slice(0, this.here.answers), chain: this.here.chain,
            snapshot: this.here.snapshot, hasStates: true, log: this.log.kept(),
            box: this.lastRows, date: Date.now(),
        };
    }

    /** @returns {import("./link.js").Shared} */
    shared() {
        const { name } = /** @type {File} */ (this.story);
        const [story, told] = [this.sum, this.chain].map((sum) => sum.slice(0, 16));
        const { ifid, seed, columns, answers } = this;
        return { zkit: 1, ifid, name, story, seed, columns, told, answers };
    }
}
