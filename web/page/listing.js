// A listing of any length: its lines are put into the page by parts, when the reader comes near them.

import { made } from "./at.js";

/** So many lines are in a part. */
const PART = 200;

export class Listing {
    /** @param {HTMLElement} element */
    constructor(element) {
        this.element = element;
        /** @type {number[]} */
        this.shown = [];
        /** @type {(line: number) => (Node | string)[]} */
        this.draw = () => [];
        const near = { root: element, rootMargin: "800px 0px" };
        this.observer = new IntersectionObserver((entries) => this.seen(entries), near);
    }

    /**
     * Shows lines, by their numbers.
     * @param {number[]} lines
     * @param {(line: number) => (Node | string)[]} draw what stands in a line
     */
    show(lines, draw) {
        this.shown = lines;
        this.draw = draw;
        this.observer.disconnect();
        const height = parseFloat(getComputedStyle(this.element).lineHeight);
        const parts = [];
        for (let at = 0; at < lines.length; at += PART) {
            const part = made("div", "part");
            part.dataset.at = String(at);
            part.style.minHeight = `${height * Math.min(PART, lines.length - at)}px`;
            parts.push(part);
        }
        this.element.replaceChildren(...parts);
        parts.slice(0, 1).forEach((part) => this.fill(part));
        parts.forEach((part) => this.observer.observe(part));
    }

    /** @param {IntersectionObserverEntry[]} entries */
    seen(entries) {
        for (const entry of entries)
            if (entry.isIntersecting)
                this.fill(/** @type {HTMLElement} */ (entry.target));
    }

    /** @param {HTMLElement} part */
    fill(part) {
        if (part.childElementCount > 0)
            return;
        const at = Number(part.dataset.at);
        part.append(...this.shown.slice(at, at + PART).map((line) => {
            const row = made("span", "row-line");
            row.dataset.line = String(line);
            row.append(...this.draw(line), "\n");
            return row;
        }));
    }

    /**
     * Scrolls to a line, and marks it.
     * @param {number} line
     */
    goTo(line) {
        const place = this.shown.indexOf(line);
        const part = /** @type {HTMLElement | undefined} */ (this.element.children[Math.floor(place / PART)]);
        if (place < 0 || !part)
            return;
        this.fill(part);
        for (const old of this.element.querySelectorAll(".meant"))
            old.classList.remove("meant");
        const row = /** @type {HTMLElement} */ (part.children[place % PART]);
        row.classList.add("meant");
        row.scrollIntoView({ block: "center" });
    }
}
