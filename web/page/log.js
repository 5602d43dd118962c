// The text of the story. All of it is kept as blocks of pieces, one block for each answer or each screenful; only the
// newest blocks stand in the page, and older ones come back where the reader scrolls up to them.

import { at, made } from "./at.js";
import { USUAL } from "./columns.js";
import { Width } from "./reflow.js";

/** @typedef {"text" | "prompt" | "typed" | "note" | "box"} Kind */
/** @typedef {import("./machine.js").Run} Run */
/** @typedef {{from: number, to: number, styles: string[]}} Range a part of a text that is not in roman */
/** @typedef {{kind: Kind, text: string, ranges?: Range[]}} Piece */
/** @typedef {{blocks: number, held: string, turn: number, cleared: number}} Mark */
/**
 * What a reload has; once it told no more than the first two.
 * @typedef {{blocks: Piece[][], held: string, turn?: number, cleared?: number}} KeptLog
 */

/** So many characters a block has at most, about. */
const BLOCK = 6000;

/** So many blocks stand in the page, and so many more come at a time. */
const SHOWN = 40;

/** After so many milliseconds the text of a story that still runs is drawn. */
const SOON = 100;

/** So many characters are kept for a reload at most. */
const KEPT = 1000000;

/**
 * Where a text may be divided: after the last line that ends in so many characters, or after the first line.
 * @param {string} text
 * @param {number} most
 */
function endOfPart(text, most) {
    if (text.length <= most)
        return text.length;
    return text.lastIndexOf("\n", most - 1) + 1 || text.indexOf("\n") + 1 || text.length;
}

/**
 * The parts of a line that stand in one style each. The line begins at an index of its text, of which the first
 * characters are left out.
 * @param {string} line
 * @param {number} begin
 * @param {Range[]} ranges
 * @param {number} drawn
 */
function styled(line, begin, ranges, drawn) {
    const parts = [];
    let done = Math.min(line.length, Math.max(0, drawn - begin));
    for (const { from, to, styles } of ranges) {
        const start = Math.max(from - begin, done);
        const end = Math.min(to - begin, line.length);
        if (start >= end)
            continue;
        parts.push(line.slice(done, start), made("span", styles.join(" "), line.slice(start, end)));
        done = end;
    }
    parts.push(line.slice(done));
    return parts.filter((part) => part !== "");
}

/**
 * What a reader looks at, by how far the text is scrolled, and how far it was for the newest turn and can be at most.
 * @param {number} top
 * @param {number} turn
 * @param {number} bottom
 * @returns {"turn" | "end" | "before"}
 */
function lookedAt(top, turn, bottom) {
    if (Math.abs(top - turn) < 2)
        return "turn";
    return top > bottom - 2 ? "end" : "before";
}

const scroller = at("scroller");

function sizeOfView() {
    return `${scroller.clientWidth} ${scroller.clientHeight}`;
}

const older = at("older");
const log = at("log");

export class Log {
    constructor() {
        /** @type {Piece[][]} */
        this.blocks = [];
        /** The part of a line after which the story reads. */
        this.held = "";
        this.width = new Width(USUAL);
        /** The first block that stands in the page, and the first in the part whose additions are spoken. */
        this.first = 0;
        this.firstNew = 0;
        /** The block that the newest answer began, and the first one since the window was erased. */
        this.turn = 0;
        this.cleared = 0;
        this.isDue = false;
        /** Whether nothing is drawn: a play is repeated. */
        this.isStill = false;
        /** How far the text was scrolled for the newest turn, and what the reader looks at since. */
        this.top = 0;
        /** @type {"turn" | "end" | "before"} */
        this.look = "turn";
        /** The size of the view when that was noted. */
        this.size = sizeOfView();
        scroller.addEventListener("scroll", () => this.scrolled());
        new ResizeObserver(() => this.resized()).observe(scroller);
    }

    /** @param {number} columns how many the story is told */
    clear(columns) {
        this.blocks = [];
        this.held = "";
        this.width = new Width(columns);
        this.first = this.firstNew = this.turn = this.cleared = 0;
        this.isStill = false;
        older.replaceChildren();
        log.replaceChildren();
    }

    /**
     * @param {Kind} kind
     * @param {string} text
     * @param {string[]} styles
     */
    add(kind, text, styles = []) {
        if (!text)
            return;
        const block = this.blocks[this.blocks.length - 1] || this.newBlock();
        let piece = block[block.length - 1];
        if (!piece || piece.kind !== kind || kind !== "text")
            block.push(piece = { kind, text: "" });
        piece.text += text;
        if (styles.length > 0) {
            piece.ranges = piece.ranges || [];
            piece.ranges.push({ from: piece.text.length - text.length, to: piece.text.length, styles });
        }
        this.due();
    }

    newBlock() {
        /** @type {Piece[]} */
        const block = [];
        this.blocks.push(block);
        return block;
    }

    /**
     * Adds what the story has written.
     * @param {Run[]} runs
     */
    runs(runs) {
        this.width.see(runs.map((run) => run.text).join(""));
        for (const { text, styles, before } of runs) {
            if (before.includes("erased"))
                this.erased();
            if (text)
                this.text(text, styles);
        }
    }

    /** Begins a part that is read from its start: the story has erased what stood before. */
    erased() {
        this.release();
        this.newBlock();
        this.turn = this.cleared = this.blocks.length - 1;
        this.due();
    }

    /**
     * Adds a text in a style.
     * @param {string} text
     * @param {string[]} styles
     */
    text(text, styles) {
        this.release();
        for (let rest = text; rest;) {
            const size = (this.blocks[this.blocks.length - 1] || []).reduce((sum, piece) => sum + piece.text.length, 0);
            const end = endOfPart(rest, Math.max(BLOCK - size, 1));
            this.add("text", rest.slice(0, end), styles);
            rest = rest.slice(end);
            if (rest)
                this.newBlock();
        }
    }

    /** Holds the part of a line that stands before the reader's own. */
    hold() {
        const block = this.blocks[this.blocks.length - 1] || [];
        const last = block[block.length - 1];
        if (!last || last.kind !== "text" || this.held)
            return;
        this.held = last.text.slice(last.text.lastIndexOf("\n") + 1);
        last.text = last.text.slice(0, last.text.length - this.held.length);
        this.due();
    }

    /** Begins a block with what was held. */
    release() {
        const held = this.held;
        this.held = "";
        if (held) {
            this.newBlock();
            this.add("prompt", held);
        }
    }

    /**
     * Adds a line that the reader typed.
     * @param {string} line
     */
    typed(line) {
        if (this.held)
            this.release();
        else
            this.newBlock();
        this.turn = this.blocks.length - 1;
        this.add("typed", line + "\n");
    }

    /** Begins the part that a key brings. */
    pressed() {
        this.newBlock();
        this.turn = this.blocks.length - 1;
    }

    /** Begins the part that the page's Undo brings, behind the prompt that it answers. */
    undone() {
        if (this.held)
            this.release();
        else
            this.newBlock();
        this.turn = this.blocks.length - 1;
        this.add("note", "(Undo)\n");
    }

    /**
     * Adds a box that the story drew over its text.
     * @param {string[]} rows
     */
    box(rows) {
        this.newBlock();
        this.add("box", rows.join("\n"));
    }

    /** @returns {Mark} */
    mark() {
        return { blocks: this.blocks.length, held: this.held, turn: this.turn, cleared: this.cleared };
    }

    /**
     * Takes away what came after a mark.
     * @param {Mark} mark
     */
    cut(mark) {
        this.blocks.length = Math.min(this.blocks.length, mark.blocks);
        this.held = mark.held;
        this.turn = mark.turn;
        this.cleared = mark.cleared;
        this.isStill = true;
    }

    /**
     * The newest text, for a reload.
     * @returns {KeptLog}
     */
    kept() {
        let size = 0;
        let first = this.blocks.length;
        while (first > 0 && size < KEPT)
            size += this.blocks[--first].reduce((sum, piece) => sum + piece.text.length, 0);
        const [turn, cleared] = [this.turn, this.cleared].map((i) => Math.max(0, i - first));
        return { blocks: this.blocks.slice(first), held: this.held, turn, cleared };
    }

    /**
     * @param {KeptLog} it
     * @param {number} columns
     */
    fill(it, columns) {
        this.clear(columns);
        this.blocks = it.blocks;
        this.held = it.held;
        this.turn = it.turn ?? Math.max(0, it.blocks.length - 1);
        this.cleared = it.cleared ?? 0;
        for (const piece of it.blocks.flat().filter((one) => one.kind === "text"))
            this.width.see(piece.text);
        this.showEnd();
    }

    /** The first line that is bold as a whole; "" where there is none. */
    boldLine() {
        for (const { text, ranges = [] } of this.blocks.flat())
            for (const { from, to, styles } of ranges) {
                const bold = text.slice(from, to);
                const start = from + bold.length - bold.trimStart().length;
                const line = text.slice(text.lastIndexOf("\n", start - 1) + 1).split("\n")[0].trim();
                if (styles.includes("bold") && line && line === bold.trim())
                    return line;
            }
        return "";
    }

    /** The story's text with the lines that were typed. */
    transcript() {
        const told = this.blocks.flat().filter(({ kind }) => kind === "text" || kind === "prompt" || kind === "typed");
        return told.map((piece) => piece.text).join("") + this.held;
    }

    /** Draws soon what has changed, if the story runs so long. */
    due() {
        if (this.isDue || this.isStill)
            return;
        this.isDue = true;
        setTimeout(() => {
            if (this.isDue && !this.isStill)
                this.draw(false);
        }, SOON);
    }

    /**
     * Draws what does not stand in the page yet. What stands there is not touched, so that all is spoken once.
     * @param {boolean} [isWhole] whether that is all; of a story that runs, its last line may go on
     */
    draw(isWhole = true) {
        this.isDue = false;
        const last = this.firstNew + log.children.length - 1;
        if (this.isStill || this.blocks.length - last > 2 * SHOWN) {
            this.showEnd();
            return;
        }
        const isLow = this.bottom() - scroller.scrollTop < 80;
        if (last >= this.first)
            this.drawBlock(last, /** @type {HTMLElement} */ (this.elementOf(last)), isWhole);
        for (let i = last + 1; i < this.blocks.length; i++)
            log.append(this.drawBlock(i, made("div", "turn"), isWhole));
        if (isLow || this.turn >= last || log.children.length > 2 * SHOWN)
            this.trim();
        this.goToTurn();
    }

    /** Shows the newest blocks alone, which are not new: nothing of them is spoken. */
    showEnd() {
        this.isStill = false;
        this.first = Math.max(0, this.blocks.length - SHOWN);
        this.firstNew = this.blocks.length;
        log.replaceChildren();
        older.replaceChildren(...this.drawn(this.first, this.firstNew));
        this.goToTurn();
    }

    /** Takes out what is no longer looked at. */
    trim() {
        while (older.children.length + log.children.length > SHOWN) {
            const it = older.firstElementChild || log.firstElementChild;
            if (it && it.parentElement === log)
                this.firstNew++;
            this.first++;
            it?.remove();
        }
    }

    /**
     * The element of a block; null where it does not stand in the page.
     * @param {number} i
     */
    elementOf(i) {
        const it = i < this.firstNew ? older.children[i - this.first] : log.children[i - this.firstNew];
        return /** @type {HTMLElement | null} */ (it || null);
    }

    /**
     * New elements of blocks.
     * @param {number} from
     * @param {number} to
     */
    drawn(from, to) {
        return this.blocks.slice(from, to).map((_, i) => this.drawBlock(from + i, made("div", "turn")));
    }

    /** How far the text can be scrolled. */
    bottom() {
        return scroller.scrollHeight - scroller.clientHeight;
    }

    /**
     * How far is scrolled where a block stands at the top; infinitely far where it does not stand in the page.
     * @param {number} i
     */
    topOf(i) {
        const element = this.elementOf(i);
        return element ? element.offsetTop - scroller.offsetTop - 16 : Infinity;
    }

    /** Scrolls so that the newest answer's text is read from its start, and nothing is seen that was erased before. */
    goToTurn() {
        const top = this.topOf(this.cleared);
        const erased = top > 16 && top < Infinity ? top : 0;
        const end = erased + scroller.clientHeight - parseFloat(getComputedStyle(scroller).paddingBottom);
        log.style.minHeight = erased > 0 ? `${Math.max(0, end + scroller.offsetTop - log.offsetTop)}px` : "";
        scroller.scrollTop = Math.max(erased, Math.min(this.bottom(), this.topOf(this.turn)));
        this.top = scroller.scrollTop;
        this.look = "turn";
    }

    /** Keeps in view what the reader looks at where the view grows or shrinks, as by a keyboard on the screen. */
    resized() {
        this.size = sizeOfView();
        if (this.look === "turn")
            this.goToTurn();
        else if (this.look === "end")
            scroller.scrollTop = this.bottom();
    }

    /** Puts older blocks back where the reader comes near them. */
    scrolled() {
        // (a view that grows scrolls by itself)
        if (this.size === sizeOfView())
            this.look = lookedAt(scroller.scrollTop, this.top, this.bottom());
        if (scroller.scrollTop > scroller.clientHeight || this.first === 0)
            return;
        const from = Math.max(0, this.first - SHOWN);
        const height = scroller.scrollHeight;
        const top = scroller.scrollTop;
        older.prepend(...this.drawn(from, this.first));
        this.first = from;
        scroller.scrollTop = top + scroller.scrollHeight - height;
    }

    /**
     * Draws what an element does not have yet of its block.
     * @param {number} i
     * @param {HTMLElement} element
     * @param {boolean} [isWhole]
     */
    drawBlock(i, element, isWhole = true) {
        this.blocks[i].forEach((piece, place, block) => {
            const isOpen = !isWhole && i === this.blocks.length - 1 && place === block.length - 1;
            const end = isOpen ? piece.text.lastIndexOf("\n") : piece.text.length;
            const old = /** @type {HTMLElement | undefined} */ (element.children[place]);
            const span = old || made("span", piece.kind);
            if (piece.kind === "text")
                this.drawText(span, piece, end, this.gapAt(i, place));
            else if (!old)
                drawOther(span, piece);
            if (!old)
                element.append(span);
        });
        return element;
    }

    /**
     * How many characters a piece begins with that are not seen: the blank lines at the very start.
     * @param {number} i
     * @param {number} place
     */
    gapAt(i, place) {
        const before = [...this.blocks.slice(0, i), this.blocks[i].slice(0, place)];
        const isFirst = before.every((block) => block.every(({ text }) => !text.trim()));
        return isFirst ? (/^(?:[ \t]*\n)*/.exec(this.blocks[i][place].text) || [""])[0].length : 0;
    }

    /**
     * Draws what an element does not have yet of a text, up to an index of it.
     * @param {HTMLElement} span
     * @param {Piece} piece
     * @param {number} end
     * @param {number} gap
     */
    drawText(span, { text, ranges = [] }, end, gap) {
        // (what was drawn has become the prompt)
        if ((span.textContent || "").length > text.length)
            span.replaceChildren();
        if (gap > 0 && end >= gap && !span.hasChildNodes()) {
            const blank = made("span", "", text.slice(0, gap));
            blank.hidden = true;
            span.append(blank);
        }
        const drawn = (span.textContent || "").length;
        const lines = text.slice(0, Math.max(0, end)).split("\n");
        const parts = document.createDocumentFragment();
        let begin = 0;
        lines.forEach((line, i) => {
            parts.append(...styled(line, begin, ranges, drawn));
            begin += line.length + 1;
            if (i < lines.length - 1 && begin > drawn)
                parts.append(this.lineEnd(line, lines[i + 1], begin, ranges));
        });
        parts.normalize();
        span.append(parts);
    }

    /**
     * The end of a line, before the next one: one that the story has made early is drawn as a space.
     * @param {string} line
     * @param {string} next
     * @param {number} end where the next line begins in its text
     * @param {Range[]} ranges
     */
    lineEnd(line, next, end, ranges) {
        const inLine = ranges.filter(({ from, to }) => from < end && to > end - line.length - 2);
        const isFixed = inLine.some(({ styles }) => styles.includes("fixed"));
        return !isFixed && this.width.joins(line, next) ? made("span", "soft", "\n") : "\n";
    }
}

/**
 * Draws a piece that is no text. A line that was typed is a heading, by which a screen reader moves from turn to turn.
 * @param {HTMLElement} span
 * @param {Piece} piece
 */
function drawOther(span, { kind, text }) {
    span.textContent = text;
    if (kind === "typed" && text.trim()) {
        span.setAttribute("role", "heading");
        span.setAttribute("aria-level", "2");
    }
    if (kind === "box")
        span.style.setProperty("--columns", String(Math.max(...text.split("\n").map((row) => row.length))));
}
