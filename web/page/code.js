// A disassembly whose addresses are links.

import { made } from "./at.js";

/**
 * By what a packed address is multiplied, by the story's version.
 * @type {Record<number, number>}
 */
const FACTORS = { 3: 2, 4: 4, 5: 4, 8: 8 };

/** What may be an address in a line: one that is written as such, or the first constant of a call. */
const ADDRESS = /([ ?~])([0-9a-f]{5})(?= |$)|(^[0-9a-f]{5} call\w* #)([0-9a-f]{4})\b/g;

export class Code {
    /**
     * @param {string[]} lines
     * @param {Uint8Array} story
     * @param {(line: number) => void} goTo
     */
    constructor(lines, story, goTo) {
        this.lines = lines;
        this.story = story;
        this.goTo = goTo;
        this.places = new Map(lines.map((line, i) => [parseInt(line.slice(0, 5), 16), i]));
    }

    /**
     * The line of an address; undefined where it is not listed.
     * @param {string} address
     */
    place(address) {
        return address.length === 5 ? this.places.get(parseInt(address, 16)) : this.routine(parseInt(address, 16));
    }

    /**
     * The line of a routine's first instruction, after its local variables.
     * @param {number} packed
     */
    routine(packed) {
        const version = this.story[0];
        const address = packed * FACTORS[version];
        return this.places.get(address + 1 + (version < 5 ? 2 * this.story[address] : 0));
    }

    /**
     * What stands in a line: its text, with links. A text between quotes has none.
     * @param {number} line
     * @returns {(Node | string)[]}
     */
    draw(line) {
        const text = this.lines[line];
        const quote = text.indexOf('"');
        const code = quote < 0 ? text : text.slice(0, quote);
        /** @type {(Node | string)[]} */
        const parts = [];
        let done = 0;
        for (const found of code.matchAll(ADDRESS)) {
            const address = found[2] || found[4];
            const place = this.place(address);
            if (place === undefined)
                continue;
            const end = (found.index || 0) + found[0].length;
            parts.push(code.slice(done, end - address.length), this.link(address, place));
            done = end;
        }
        return [...parts, text.slice(done)];
    }

    /**
     * @param {string} address
     * @param {number} place
     */
    link(address, place) {
        const link = /** @type {HTMLAnchorElement} */ (made("a", "", address));
        link.href = `#${this.lines[place].slice(0, 5)}`;
        link.addEventListener("click", (event) => {
            event.preventDefault();
            this.goTo(place);
        });
        return link;
    }
}
