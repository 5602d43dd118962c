// A page in a frame. The frame may allow nothing but scripts: no forms, and nothing that is kept.

import { at } from "./at.js";

const isFramed = parent !== window;

/** Says in a frame what of a saved game lasts. */
export function prepareFrame() {
    if (isFramed)
        at("not-lasting").textContent = "This frame keeps nothing after you close the page. Save the game as a file. "
            + "If no file comes, the site around the frame allows none.";
}

/**
 * Tells the page around the frame how the story stands after a turn.
 * @param {number} turns
 * @param {string} line
 * @param {"line" | "key" | "stopped"} awaits
 */
export function tellParent(turns, line, awaits) {
    if (isFramed)
        parent.postMessage({ zkit: "turn", turns, line, awaits }, "*");
}
