// The lines of a play: a list to go back by, and the link that shows the play to others.

import { lineOf } from "./answers.js";
import { at, closed, dialog, giveFile, made, madeButton, stem } from "./at.js";
import { addressForLinks } from "./fetching.js";
import { LONGEST_LINK, addressOf } from "./link.js";

/** @typedef {import("./answers.js").Answer} Answer */

const KEYS = new Map([[10, "Enter"], [13, "Enter"], [32, "Space"]]);

/**
 * What a list shows for an answer to a read; null for what the reader did not type.
 * @param {Answer} answer
 */
function wordsOf(answer) {
    const line = lineOf(answer);
    if (line !== null)
        return line || "(an empty line)";
    if (typeof answer === "number")
        return `key ${KEYS.get(answer) || String.fromCodePoint(answer)}`;
    return typeof answer === "object" && "undo" in answer ? "(Undo)" : null;
}

/**
 * Copies a text, and tells whether that was possible.
 * @param {string} text
 */
async function copied(text) {
    try {
        await navigator.clipboard.writeText(text);
        return true;
    } catch {
        return false;
    }
}

/**
 * An entry of the list; one that came after where the play is now looks so.
 * @param {string} words
 * @param {boolean} isLater
 * @param {() => void} does
 */
function entryOf(words, isLater, does) {
    const item = made("li", isLater ? "later" : "");
    item.append(madeButton("", words, () => {
        dialog("lines").close();
        does();
    }));
    return item;
}

/**
 * Shows the lines of a play and its link.
 * @param {import("./play.js").Play} play
 * @param {(answers: Answer[], count: number) => void} goTo goes to where the first ones of the answers were given
 */
export async function showLines(play, goTo) {
    const shared = play.shared();
    const all = [...shared.answers, ...play.later];
    const items = all.flatMap((answer, i) => {
        const words = wordsOf(answer);
        return words === null ? [] : [entryOf(words, i >= shared.answers.length, () => goTo(all, i))];
    });
    if (play.later.length)
        items.push(entryOf("(the end of the list)", true, () => goTo(all, all.length)));
    at("line-list").replaceChildren(...items);
    const address = addressForLinks() + await addressOf(shared);
    const isShort = address.length <= LONGEST_LINK;
    at("copy-link").hidden = !isShort;
    at("copy-link").textContent = "Copy a link to this play";
    at("copy-link").onclick = async () => {
        at("copy-link").textContent = await copied(address) ? "Copied" : "Copy it from the address bar";
        history.replaceState(null, "", address);
    };
    at("play-file").onclick = () => giveFile(JSON.stringify(shared), `${stem(shared.name)}.play.json`);
    const list = at("line-list");
    setTimeout(() => list.scrollTo(0, list.scrollHeight), 0);
    await closed(dialog("lines"));
}
