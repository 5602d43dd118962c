// The title page of a story that has a page of its own.

import { at, made } from "./at.js";
import { toBase64 } from "./bytes.js";
import { kindOfPicture } from "./kinds.js";

/** @typedef {import("./own.js").About} About */

/**
 * Whether there is something to show before the story begins.
 * @param {About} about
 */
export function hasFront({ blurb, cover }) {
    return blurb !== "" || cover !== null;
}

/**
 * Puts a cover into the title page; one that the browser can't draw is not shown.
 * @param {Uint8Array | null} cover
 * @param {string} title
 */
function fillCover(cover, title) {
    const picture = /** @type {HTMLImageElement} */ (at("front-cover"));
    const kind = cover ? kindOfPicture(cover) : "";
    picture.hidden = true;
    picture.alt = `Cover of ${title}`;
    picture.onload = () => {
        picture.hidden = false;
    };
    if (cover && kind)
        picture.src = `data:${kind};base64,${toBase64(cover)}`;
}

/**
 * Puts into the title page what the author says of a story.
 * @param {About} about
 * @param {string} name what the story is called where nobody says its title
 */
export function fillFront({ title, author, blurb, cover }, name) {
    at("front-title").textContent = title || name;
    at("front-author").textContent = author && `by ${author}`;
    at("front-author").hidden = author === "";
    const paragraphs = blurb.split(/\n\s*\n/).filter((it) => it.trim());
    at("front-blurb").replaceChildren(...paragraphs.map((it) => made("p", "", it)));
    fillCover(cover, title || name);
}

/**
 * Shows the title page in place of the play.
 * @param {string} button what its button says; "" for no button
 */
export function showFront(button) {
    at("front").hidden = false;
    at("head").hidden = at("play").hidden = at("welcome").hidden = true;
    at("front-play").hidden = button === "";
    at("front-play").textContent = button;
    at("front-play").focus();
}

/** Shows the page without its title page. */
export function hideFront() {
    at("front").hidden = true;
    at("head").hidden = false;
}
