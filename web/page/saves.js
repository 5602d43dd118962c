// Saved games: slots with names in the browser, and Quetzal files for other interpreters.

import {
    agreed, at, bytesOf, chosenFile, closed, dialog, field, giveFile, made, madeButton, stem, tell,
} from "./at.js";
import { isQuetzal } from "./kinds.js";
import { forget, isLasting, keep, kept, names } from "./store.js";

/** @typedef {{name: string, game: string, place: string, line: number, date: number, image: Uint8Array}} Slot */
/** @typedef {{sum: string, game: string, place: string, line: number}} Of */

const saving = dialog("saving");
const restoring = dialog("restoring");

/**
 * @param {string} sum
 * @param {string} name
 */
function keyOf(sum, name) {
    return `${sum} ${name}`;
}

/**
 * The slots of a story, the newest first.
 * @param {string} sum
 * @returns {Promise<Slot[]>}
 */
async function slotsOf(sum) {
    const keys = await names("saves", keyOf(sum, ""));
    const slots = await Promise.all(keys.map((key) => kept("saves", key)));
    return slots.filter((slot) => slot).sort((a, b) => b.date - a.date);
}

/** @param {Slot} slot */
function wordsOn(slot) {
    const date = new Date(slot.date).toLocaleString([], { dateStyle: "medium", timeStyle: "short" });
    const line = slot.line >= 0 ? `line ${slot.line}` : "";
    return [slot.place, line, `${slot.image.length.toLocaleString()} bytes`, date].filter((word) => word).join(" · ");
}

/**
 * A slot's name and what is known of it.
 * @param {Slot} slot
 * @param {HTMLElement} element
 */
function described(slot, element) {
    element.append(made("b", "name", slot.name), made("span", "", `${slot.game} · ${wordsOn(slot)}`));
    return element;
}

/**
 * Whether a slot may be written: it is free, or the reader agrees.
 * @param {Of} of
 * @param {string} name
 */
async function mayWrite(of, name) {
    const old = await kept("saves", keyOf(of.sum, name));
    return !old || await agreed("Replace the saved game?", `${name}: ${wordsOn(old)}`, "Replace it", "Keep it");
}

/**
 * @param {Of} of
 * @param {string} name
 * @param {Uint8Array} image
 */
async function write(of, name, image) {
    const slot = { name, game: of.game, place: of.place, line: of.line, date: Date.now(), image };
    const isKept = await keep("saves", keyOf(of.sum, name), slot);
    if (!isKept)
        tell("The browser has no room for the saved game. Save it as a file.", true);
    return isKept;
}

/**
 * Asks where a game is to be saved, and tells whether it was.
 * @param {Of} of
 * @param {Uint8Array} image
 */
export async function askSave(of, image) {
    const slots = await slotsOf(of.sum);
    at("not-lasting").hidden = await isLasting();
    field("save-name").value = `${of.place || "Game"}, line ${of.line}`;
    at("saving-list-head").hidden = slots.length === 0;
    at("saving-slots").replaceChildren(...slots.map((slot) => {
        const item = made("li");
        item.append(described(slot, madeButton("pick", "", () => {
            field("save-name").value = slot.name;
            saving.close("keep");
        })));
        return item;
    }));
    for (;;) {
        const how = await closed(saving);
        const name = field("save-name").value.trim() || "Game";
        if (how === "file")
            giveFile(image, `${stem(of.game)}.qzl`);
        if (how !== "keep")
            return how === "file";
        if (await mayWrite(of, name))
            return write(of, name, image);
    }
}

/**
 * A line of the list of saved games.
 * @param {Of} of
 * @param {Slot} slot
 * @param {(slot: Slot) => void} pick
 */
function listed(of, slot, pick) {
    const item = made("li");
    const out = madeButton("", "File", () => giveFile(slot.image, `${stem(slot.name)}.qzl`));
    const drop = madeButton("", "Remove", async () => {
        if (!await agreed("Remove the saved game?", `${slot.name}: ${wordsOn(slot)}`, "Remove it", "Keep it"))
            return;
        await forget("saves", keyOf(of.sum, slot.name));
        item.remove();
    });
    out.setAttribute("aria-label", `Save ${slot.name} as a file`);
    drop.setAttribute("aria-label", `Remove ${slot.name}`);
    item.append(described(slot, madeButton("pick", "", () => pick(slot))), out, drop);
    return item;
}

/**
 * @param {Of} of
 * @param {boolean} isAsked whether the story asks for a game
 * @param {(slot: Slot) => void} pick
 */
async function fillList(of, isAsked, pick) {
    const slots = await slotsOf(of.sum);
    at("restoring-head").textContent = isAsked ? "Restore a game" : "Saved games";
    at("no-slots").hidden = slots.length > 0;
    at("restore-none").hidden = !isAsked;
    at("slots").replaceChildren(...slots.map((slot) => listed(of, slot, pick)));
}

/**
 * What becomes of a file that is chosen while the list is open.
 * @param {(file: File) => void} take
 */
function awaitFile(take) {
    field("saved-file").onchange = () => {
        const file = chosenFile(field("saved-file"));
        if (file)
            take(file);
    };
}

/**
 * Asks which game is to be restored: its file, or null where none is.
 * @param {Of} of
 * @returns {Promise<Uint8Array | null>}
 */
export async function askRestore(of) {
    /** @type {Uint8Array | null} */
    let found = null;
    await fillList(of, true, (slot) => {
        found = slot.image;
        restoring.close("kept");
    });
    awaitFile(async (file) => {
        found = await bytesOf(file);
        restoring.close("file");
    });
    await closed(restoring);
    return found;
}

/**
 * Keeps a file of another interpreter in a slot.
 * @param {Of} of
 * @param {File} file
 * @param {(slot: Slot) => void} pick
 */
async function bringIn(of, file, pick) {
    const image = await bytesOf(file);
    const name = stem(file.name);
    if (!isQuetzal(image)) {
        restoring.close();
        tell(`${file.name} is not a Quetzal saved game.`, true);
    } else if (await mayWrite(of, name)) {
        await write({ ...of, place: "", line: -1 }, name, image);
        await fillList(of, false, pick);
    }
}

/**
 * Shows the saved games of a story, and answers the one that the reader chooses, or null.
 * @param {Of} of
 * @returns {Promise<Uint8Array | null>}
 */
export async function showSaves(of) {
    /** @type {Uint8Array | null} */
    let found = null;
    const pick = (/** @type {Slot} */ slot) => {
        found = slot.image;
        restoring.close("kept");
    };
    await fillList(of, false, pick);
    awaitFile((file) => bringIn(of, file, pick));
    await closed(restoring);
    return found;
}

/** Makes the buttons of both dialogs work. */
export function prepareSaves() {
    at("save-out").addEventListener("click", () => saving.close("file"));
    at("save-none").addEventListener("click", () => saving.close("none"));
    at("restore-none").addEventListener("click", () => restoring.close("none"));
    at("save-in").addEventListener("click", () => {
        field("saved-file").value = "";
        field("saved-file").click();
    });
}
