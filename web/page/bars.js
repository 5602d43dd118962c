// What stands in the place of the line where the story runs, has paused, or has ended.

import { at } from "./at.js";

/**
 * Says that the story runs; "" for no more.
 * @param {string} words
 */
export function showRunning(words) {
    at("running").hidden = words === "";
    at("running-words").textContent = words;
    at("stop").hidden = false;
    at("go-on").hidden = at("step-back").hidden = true;
}

/**
 * Says that the story has paused.
 * @param {string} words
 * @param {boolean} hasWayBack
 */
export function showPaused(words, hasWayBack) {
    showRunning(words);
    at("stop").hidden = true;
    at("go-on").hidden = false;
    at("step-back").hidden = !hasWayBack;
    at("go-on").focus();
}

/**
 * How a story has ended, and why.
 * @param {import("./machine.js").Standing} standing
 */
export function wordsOfEnd({ words, last }) {
    return last ? `The story has stopped: ${words || last} (${last}).` : "The story has ended.";
}

/**
 * Says that the story has ended.
 * @param {string} words
 * @param {boolean} hasWayBack
 */
export function showOver(words, hasWayBack) {
    at("over").hidden = false;
    at("over-words").textContent = words;
    at("over-back").hidden = !hasWayBack;
    at("over-again").focus();
}

export function hideOver() {
    at("over").hidden = true;
}
