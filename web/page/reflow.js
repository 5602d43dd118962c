// Whether a story ended a line early because its screen was full. That can be told where the story wraps its own text:
// no line is longer than a screen, the longest ones nearly fill one, and the next word would not have fitted.

import { USUAL } from "./columns.js";

const NEARLY = 0.75;

/** The width that a story wraps its text to, by the lines that it has shown. */
export class Width {
    /** @param {number} columns how many the story was told; it may have wrapped to the usual ones all the same */
    constructor(columns) {
        this.screens = [columns, USUAL];
        this.longest = 0;
    }

    /** @param {string} text */
    see(text) {
        for (const line of text.split("\n"))
            this.longest = Math.max(this.longest, line.length);
    }

    /**
     * Whether a line goes on in the next one, so that both may be shown as one.
     * @param {string} line
     * @param {string} next
     */
    joins(line, next) {
        const word = /^[^\s]+/.exec(next);
        const isWrapped = this.screens.some((columns) => this.longest >= NEARLY * columns && this.longest <= columns);
        return isWrapped && word !== null && !/^\s/.test(line) && line.length + 1 + word[0].length > this.longest;
    }
}
