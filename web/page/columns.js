// How many columns the screen of a story has: as many as the page has room for when the play begins.

import { at, made } from "./at.js";

/** The width of a story's screen where nothing is said of it. */
export const USUAL = 80;

const LEAST = 20;
const MOST = 255;

/** The heights of letters in pixels, for text of medium size: the smallest, those of a narrow page, the greatest. */
export const SMALLEST = 11;
const NARROW = 12;
const GREATEST = 14;

const upper = at("upper");
const main = /** @type {HTMLElement} */ (at("play").parentElement);

/**
 * So many pixels an element has on both sides of what stands in it.
 * @param {HTMLElement} element
 */
function sidesOf(element) {
    const { paddingLeft, paddingRight } = getComputedStyle(element);
    return parseFloat(paddingLeft) + parseFloat(paddingRight);
}

/** So many pixels a row of the upper window has, whether that is shown or not. */
function room() {
    return main.clientWidth - sidesOf(main) - sidesOf(upper);
}

/** The size of text, as the reader has set it: 1 for medium. */
function scale() {
    return parseFloat(getComputedStyle(document.documentElement).fontSize) / 16;
}

let ratio = 0;

/** How wide a letter of the upper window is beside its height. */
function widthOfLetter() {
    if (ratio === 0) {
        const probe = made("pre", "grid probe", "0".repeat(10));
        main.append(probe);
        ratio = probe.getBoundingClientRect().width / 1000;
        probe.remove();
    }
    return ratio;
}

/**
 * The greatest height of letters by which so many columns have room, in pixels.
 * @param {number} columns
 */
export function heightOf(columns) {
    return Math.min(GREATEST * scale(), (room() - 1) / columns / widthOfLetter());
}

/**
 * How many columns there is room for. A line of a wide page has about 70 letters, so the usual columns are all that fit
 * there, by smaller ones.
 */
function columnsNow() {
    const fit = (/** @type {number} */ height) => Math.floor((room() - 1) / (height * scale() * widthOfLetter()));
    return fit(SMALLEST) < USUAL ? Math.max(LEAST, fit(NARROW)) : USUAL;
}

/**
 * Whether something is the width of a screen.
 * @param {any} it
 */
export function isWidth(it) {
    return Number.isInteger(it) && it >= LEAST && it <= MOST;
}

/**
 * Whether a story reads an array of the header somewhere: 0 and a number stand behind the opcode for that, in either
 * order, or they are given to a routine, as Inform does.
 * @param {Uint8Array} story
 * @param {number} opcode
 * @param {number} number
 */
function reads(story, opcode, number) {
    return story.some((byte, i) => byte + story[i + 1] === number && byte * story[i + 1] === 0
        && (story[i - 1] === opcode || story[i - 4] === 0xe0 && story[i - 3] === 0x17));
}

/** The opcodes `loadb` and `loadw`, with the place of the width in the header as a byte and as a word. */
const PLACES = [[0x10, 33], [0x0f, 17]];

/**
 * How many columns a story is told. One that never looks for them has a screen of the usual width: it places its text
 * for that.
 * @param {Uint8Array} story
 */
export function columnsFor(story) {
    return PLACES.some(([opcode, number]) => reads(story, opcode, number)) ? columnsNow() : USUAL;
}
