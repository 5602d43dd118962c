// What the reader types: a line with those before it, or a character.

import { lineOf } from "./answers.js";
import { at, field } from "./at.js";

const line = field("line");
const form = /** @type {HTMLFormElement} */ (at("ask"));
const scroller = at("scroller");
const ENTER = 10;
const SPACE = 32;
const LONGEST = 255;

/**
 * Keys that are no characters, by their codes in a story's character set. (The function keys are left to the browser.)
 * @type {Record<string, number>}
 */
const KEYS = { Backspace: 8, Delete: 8, Escape: 27, ArrowUp: 129, ArrowDown: 130, ArrowLeft: 131, ArrowRight: 132 };

/** A prompt of more characters than this stands above the field. */
const SHORT = 12;

export class Input {
    /** @param {(answer: string | number) => void} answer */
    constructor(answer) {
        this.answer = answer;
        /** @type {"line" | "character" | ""} */
        this.awaits = "";
        /** @type {string[]} */
        this.lines = [];
        this.place = 0;
        /**
         * Lines that the reader has sent before the story asked for them.
         * @type {string[]}
         */
        this.early = [];
        // (Enter in the line presses the button, also where a frame allows no forms)
        at("enter").addEventListener("click", (event) => this.submit(event));
        line.addEventListener("input", () => this.takeCharacter());
        document.addEventListener("paste", (event) => this.paste(event));
        line.addEventListener("keydown", (event) => this.keyInLine(event));
        at("space").addEventListener("click", () => this.give(SPACE));
        document.addEventListener("keydown", (event) => this.keyAnywhere(event));
        line.addEventListener("focus", putCaret);
        document.addEventListener("close", putCaret, true);
    }

    /**
     * @param {"line" | "character"} what
     * @param {string} prompt
     * @param {number} longest
     */
    await(what, prompt, longest) {
        const isLine = what === "line";
        const words = prompt.trim();
        this.awaits = what;
        at("prompt").textContent = isLine && words && words.length <= SHORT ? words : "›";
        at("asked").textContent = !isLine ? "Press a key" : words.length > SHORT ? words : "What do you do?";
        at("asked").classList.toggle("usual", isLine && words.length <= SHORT);
        at("space").hidden = isLine;
        line.maxLength = isLine ? Math.max(1, longest) : LONGEST;
        this.place = this.lines.length;
        this.show();
        const early = isLine ? this.early.shift() : undefined;
        if (early === undefined)
            this.early = [];
        else
            this.give(early);
        this.takeCharacter();
    }

    /**
     * Has the lines of a play for the arrows.
     * @param {import("./answers.js").Answer[]} answers
     */
    remember(answers) {
        this.lines = /** @type {string[]} */ (answers.map(lineOf).filter((it) => it));
    }

    show() {
        form.hidden = false;
        if (document.querySelector("dialog[open]"))
            return;
        line.focus({ preventScroll: true });
        putCaret();
    }

    /** Awaits nothing for now; what is typed meanwhile stays. */
    rest() {
        this.awaits = "";
    }

    /** Awaits nothing any more. */
    hide() {
        this.awaits = "";
        this.early = [];
        line.value = "";
        form.hidden = true;
    }

    /** @param {string | number} answer */
    give(answer) {
        if (this.awaits !== (typeof answer === "string" ? "line" : "character"))
            return;
        this.answer(answer);
    }

    /** @param {Event} event */
    submit(event) {
        event.preventDefault();
        const text = line.value;
        line.value = "";
        if (this.awaits === "character")
            this.give(text.codePointAt(0) ?? ENTER);
        else
            this.takeLine(text);
    }

    /** @param {string} text */
    takeLine(text) {
        if (text && this.lines[this.lines.length - 1] !== text)
            this.lines.push(text);
        if (this.awaits === "line")
            this.give(text);
        else
            this.early.push(text);
    }

    /**
     * Sends each line of a text that is pasted where nothing else takes it; what stands behind the last line end stays
     * in the field.
     * @param {ClipboardEvent} event
     */
    paste(event) {
        const text = event.clipboardData ? event.clipboardData.getData("text/plain") : "";
        const [first, ...rest] = text.split(/\r\n|\r|\n/);
        const isHere = document.activeElement === line;
        if (form.hidden || at("play").hidden || this.awaits === "character" || isHere && rest.length === 0
            || !isHere && isTaken(/** @type {HTMLElement} */ (event.target), 0))
            return;
        event.preventDefault();
        line.focus({ preventScroll: true });
        line.setRangeText(first, line.selectionStart || 0, line.selectionEnd || 0, "end");
        const lines = [line.value, ...rest].map((it) => it.slice(0, line.maxLength));
        line.value = lines.pop() || "";
        lines.forEach((it) => this.takeLine(it));
    }

    /** Gives the first character of the field to a story that awaits one; those after it wait for the next time. */
    takeCharacter() {
        const [first, ...rest] = line.value;
        if (this.awaits !== "character" || first === undefined)
            return;
        line.value = rest.join("");
        this.give(/** @type {number} */ (first.codePointAt(0)));
    }

    /** @param {KeyboardEvent} event */
    keyInLine(event) {
        const code = codeOf(event);
        if (this.awaits === "character" && code !== null && event.key in KEYS) {
            event.preventDefault();
            this.give(code);
            return;
        }
        const up = { ArrowUp: -1, ArrowDown: 1 }[event.key];
        const page = { PageUp: -1, PageDown: 1 }[event.key];
        if (page) {
            event.preventDefault();
            scroller.scrollBy(0, page * (scroller.clientHeight - 40));
        }
        if (up && this.awaits === "line") {
            event.preventDefault();
            this.place = Math.max(0, Math.min(this.lines.length, this.place + up));
            line.value = this.lines[this.place] ?? "";
        }
    }

    /**
     * A key that is pressed where nothing else takes it goes into the line, or to a story that awaits a character.
     * @param {KeyboardEvent} event
     */
    keyAnywhere(event) {
        const target = /** @type {HTMLElement} */ (event.target);
        const code = codeOf(event);
        if (code === null || !this.awaits || at("play").hidden || isTaken(target, code))
            return;
        if (this.awaits === "character") {
            event.preventDefault();
            this.give(code);
        } else if (!(event.key in KEYS) && (target !== scroller || code !== SPACE)) {
            line.focus({ preventScroll: true });
        }
    }
}

/** Where a window is closed by the mouse, Chromium gives the focus back to the line, but not the caret. */
function putCaret() {
    if (document.activeElement === line)
        line.setSelectionRange(line.selectionStart, line.selectionEnd);
}

/**
 * The character of a key, or its code in a story's character set; null where it has none.
 * @param {KeyboardEvent} event
 */
function codeOf(event) {
    if (event.ctrlKey || event.metaKey || event.altKey || event.isComposing)
        return null;
    if (event.key === "Enter" || event.key in KEYS)
        return KEYS[event.key] ?? ENTER;
    return [...event.key].length === 1 ? event.key.codePointAt(0) ?? null : null;
}

/**
 * Whether something else takes the key that is pressed: of all keys, a button and a link take Enter and Space.
 * @param {HTMLElement} target
 * @param {number} code
 */
function isTaken(target, code) {
    const takers = code === ENTER || code === SPACE ? "input, select, button, a" : "input, select";
    return target.closest(takers) !== null || document.querySelector("dialog[open]") !== null;
}
