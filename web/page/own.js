// A page of its own for a story: what its author has put into it, each part as base64 where no browser runs it.

import { fromBase64 } from "./bytes.js";
import { coverIn, statedIn } from "./kinds.js";

/**
 * What an author says of a story; "" and null for what nobody says.
 * @typedef {{title: string, author: string, blurb: string, cover: Uint8Array | null}} About
 */

/** @param {string} name */
function elementOf(name) {
    return document.getElementById(`own-${name}`);
}

/** Whether this page is one story's own. */
export function isOwnPage() {
    return elementOf("story") !== null;
}

/** The parts that can't be read. */
const damaged = new Set();

/**
 * The bytes of a part; null where there is none, or it can't be read.
 * @param {string} name
 */
function bytesOf(name) {
    const element = elementOf(name);
    try {
        return element && fromBase64(element.textContent || "");
    } catch {
        damaged.add(`own-${name}`);
        return null;
    }
}

/** @param {string} name */
function textOf(name) {
    return new TextDecoder().decode(bytesOf(name) || new Uint8Array());
}

/** In words, which parts of the page could not be read; "" for none. */
export function wordsOnDamage() {
    const names = [...damaged].join(", ");
    return names && `This page is damaged and can't be read as a whole: ${names}.`;
}

/** The story's file; null where it can't be read. */
export function ownFile() {
    const bytes = bytesOf("story");
    return bytes && { name: textOf("file").trim() || "story", bytes };
}

/**
 * What the author says of the story in this page, or else in the story's file.
 * @param {Uint8Array} file
 * @returns {About}
 */
export function aboutOwn(file) {
    const stated = statedIn(file);
    return {
        title: textOf("title").trim() || stated.title,
        author: textOf("author").trim() || stated.author,
        blurb: textOf("blurb").trim() || stated.blurb,
        cover: bytesOf("cover") || coverIn(file),
    };
}

/** What no walkthrough types: comments, and what it asks of an answer. */
const SET_APART = /^(# |#$|!~? )/;

/** The seed and the lines of the author's walkthrough; null where there is none. */
export function ownWalkthrough() {
    const text = textOf("walkthrough");
    const lines = text.split(/\r?\n/).filter((line) => !SET_APART.test(line)).map((line) => line.replace(/^\\/, ""));
    // (a line end ends the last line, and begins no other one)
    if (lines[lines.length - 1] === "")
        lines.pop();
    const [, seed = ""] = /^# seed: *(\d{1,20})\s*$/m.exec(text) || [];
    return lines.length > 0 ? { seed, lines } : null;
}
