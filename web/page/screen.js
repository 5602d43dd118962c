// The status line and the upper window, above the text: a grid of characters with their styles, or a bar where there is
// no room for a grid and the rows have few parts.

import { at, made } from "./at.js";
import { SMALLEST, USUAL, heightOf } from "./columns.js";

/** @typedef {import("./machine.js").RowRun} RowRun */
/** @typedef {import("./machine.js").Standing} Standing */
/** @typedef {import("./machine.js").StatusLine} StatusLine */

const upper = at("upper");

/**
 * The parts of a row: what stands between three spaces and more.
 * @param {string} row
 */
function parts(row) {
    return row.trim().split(/ {3,}/).filter((part) => part);
}

/**
 * The parts of a status line.
 * @param {StatusLine} status
 */
function statusParts({ kind, name, first, second }) {
    const time = `${first}:${String(second).padStart(2, "0")}`;
    return [name, kind === "time" ? `Time: ${time}` : `Score: ${first}  Turns: ${second}`];
}

/** What changes with each turn, and is not told. */
const COUNTS = /^(turns|moves|time)\b/i;

/**
 * What is told of parts that have changed: those that were not there before.
 * @param {string[]} before
 * @param {string[]} now
 */
function news(before, now) {
    return now.filter((part) => !before.includes(part) && !COUNTS.test(part));
}

/**
 * Whether something is seen of a run.
 * @param {RowRun} run
 */
function isSeen({ text, styles }) {
    return text.trim() !== "" || styles.includes("reverse");
}

/**
 * Whether a row is in reverse over so many columns.
 * @param {RowRun[]} runs
 * @param {number} width
 */
function isReverse(runs, width) {
    const length = runs.reduce((sum, { text }) => sum + text.length, 0);
    return length >= width && runs.every(({ styles }) => styles.includes("reverse"));
}

/**
 * What shows a run.
 * @param {RowRun} run
 */
function drawn({ text, styles }) {
    return styles.length > 0 ? made("span", styles.join(" "), text) : text;
}

/**
 * The rows of a box without what is empty around its text.
 * @param {string[]} rows
 */
export function boxText(rows) {
    const first = rows.findIndex((row) => row.trim());
    if (first < 0)
        return [];
    const last = rows.length - [...rows].reverse().findIndex((row) => row.trim());
    const inner = rows.slice(first, last).map((row) => row.trimEnd());
    const margin = Math.min(...inner.filter((row) => row).map((row) => row.length - row.trimStart().length));
    return inner.map((row) => row.slice(margin));
}

/**
 * How many places of a row have ink.
 * @param {RowRun[]} runs
 */
function inkOf(runs) {
    return runs.reduce((sum, { text, styles }) =>
        sum + (styles.includes("reverse") ? text : text.replaceAll(" ", "")).length, 0);
}

/**
 * The row that was marked, as that of a menu where a key moves the mark: it has the most ink more than before.
 * @param {RowRun[][]} before
 * @param {RowRun[][]} now
 */
function markedRow(before, now) {
    if (before.length !== now.length)
        return 0;
    const more = now.map((runs, i) => inkOf(runs) - inkOf(before[i]));
    const most = Math.max(0, ...more);
    return most > 0 ? more.indexOf(most) : null;
}

/** So many pixels are seen above and below a row that is marked. */
const EDGE = 3;

export class Screen {
    constructor() {
        /** @type {string[]} */
        this.rows = [];
        /** @type {RowRun[][]} */
        this.grid = [];
        this.width = USUAL;
        /** @type {StatusLine | null} */
        this.status = null;
        /**
         * What stands there, in parts.
         * @type {string[]}
         */
        this.parts = [];
        /** The row that was marked last, which is kept in sight. */
        this.marked = 0;
        addEventListener("resize", () => this.draw());
    }

    /**
     * Shows the rows, and answers in words what is new in them.
     * @param {Pick<Standing, "rows" | "grid" | "width" | "status">} standing
     */
    show({ rows, grid, width, status }) {
        const before = this.parts;
        this.marked = markedRow(this.grid, grid) ?? this.marked;
        Object.assign(this, { rows, grid, width, status });
        this.parts = [...status ? statusParts(status) : [], ...rows].flatMap((row) => row.trim().split(/ {2,}/))
            .filter((part) => part);
        this.draw();
        return news(before, this.parts).map((part) => /[.!?]$/.test(part) ? part : `${part}.`);
    }

    /** What the status says of where the reader is. */
    place() {
        if (this.status)
            return this.status.name;
        return parts(this.rows[0] || "")[0] || "";
    }

    /** The text of the status line, with three spaces between its parts. */
    line() {
        return (this.status ? statusParts(this.status) : parts(this.rows[0] || "")).join("   ");
    }

    draw() {
        const isEmpty = !this.status && !this.grid.flat().some(isSeen);
        const top = upper.scrollTop;
        upper.hidden = isEmpty;
        upper.replaceChildren();
        upper.classList.remove("inked");
        if (isEmpty)
            return;
        if (this.status)
            upper.append(this.bar(statusParts(this.status)));
        if (this.rows.length)
            this.drawRows();
        upper.tabIndex = upper.scrollWidth > upper.clientWidth || upper.scrollHeight > upper.clientHeight ? 0 : -1;
        this.showMarked(top);
    }

    /**
     * Scrolls as little as needed until the marked row is seen, where not all rows have room.
     * @param {number} top how far the rows were scrolled before
     */
    showMarked(top) {
        const grid = /** @type {HTMLElement | null} */ (upper.querySelector(".grid"));
        if (!grid || upper.scrollHeight <= upper.clientHeight)
            return;
        const height = grid.offsetHeight / this.grid.length;
        // (a row in reverse is a little higher than the others)
        const start = grid.offsetTop - upper.offsetTop + height * this.marked - EDGE;
        const least = start + height + 2 * EDGE - upper.clientHeight;
        upper.scrollTop = this.marked > 0 ? Math.min(start, Math.max(top, least)) : 0;
    }

    drawRows() {
        const size = heightOf(this.width);
        const isBar = size < SMALLEST && this.rows.length <= 2 && this.rows.every((row) => parts(row).length <= 3);
        if (isBar) {
            upper.append(...this.rows.map((row) => this.bar(parts(row))));
            return;
        }
        const grid = made("pre", "grid");
        grid.append(...this.grid.flatMap((runs, i) => [i > 0 ? "\n" : "", ...runs.map(drawn)]));
        grid.style.fontSize = `${Math.max(SMALLEST, size)}px`;
        upper.append(grid);
        // (the ground around rows that are in reverse as a whole looks like theirs)
        upper.classList.toggle("inked", !this.status && this.grid.every((runs) => isReverse(runs, this.width)));
    }

    /** @param {string[]} texts */
    bar(texts) {
        const bar = made("div", "bar");
        bar.append(...texts.filter((text) => text).map((text) => made("span", "", text)));
        return bar;
    }
}
