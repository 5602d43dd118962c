// "Look inside": what zkit lists of a story's file, each listing as the program has it, some with a drawing above. A
// machine of its own makes them, so that the play goes on whatever they cost.

import { at, closed, dialog, field, giveFile, made, madeButton, stem } from "./at.js";
import { Code } from "./code.js";
import { Listing } from "./listing.js";
import { Machine } from "./machine.js";
import { drawMap, drawMeanings } from "./drawings.js";

/** @typedef {import("./play.js").File} StoryFile */

/**
 * The listings with the names of their tabs, and what they are.
 * @type {Record<string, [string, string]>}
 */
const TABS = {
    findings: ["Check", "Results of the checks."],
    header: ["Header", "The fields at the start of the file."],
    map: ["Map", "Where the parts of the story begin, to scale. Choose a part to go to its listing."],
    objects: ["Objects", "Each object with its links, its attributes, and its properties as number:length."],
    tree: ["Tree", "The object tree."],
    dictionary: ["Dictionary", "The words that the story knows, with their addresses."],
    abbreviations: ["Texts", "The abbreviations that the story's texts use."],
    code: ["Code", "The instructions that a run can reach from the start. Choose an address to go to its line."],
};

const listing = new Listing(at("listing"));

/** @type {StoryFile | null} */
let story = null;
/** @type {Machine | null} */
let machine = null;
/** Until the machine has opened the story. */
let opening = Promise.resolve();
/** @type {Map<string, Promise<string | null>>} */
let listings = new Map();
let shown = "";
let text = "";
/** @type {string[]} */
let lines = [];
/** @type {Set<number>} */
let folded = new Set();
/** @type {Code | null} */
let code = null;

/**
 * The text of a listing, which is made once.
 * @param {string} name
 */
function listed(name) {
    const before = listings.get(name);
    const now = before || opening.then(() => machine ? machine.list(name) : null);
    listings.set(name, now);
    return now;
}

/**
 * How far a line of the tree is indented.
 * @param {number} line
 */
function depth(line) {
    return (lines[line] || "").search(/\S|$/);
}

/**
 * A line of the tree, with a button where there is something below it.
 * @param {number} line
 * @returns {(Node | string)[]}
 */
function treeLine(line) {
    const indent = lines[line].slice(0, depth(line));
    const rest = lines[line].slice(depth(line));
    if (line + 1 >= lines.length || depth(line + 1) <= depth(line))
        return [indent, made("span", "leaf"), rest];
    const button = madeButton("fold", "", () => {
        if (!folded.delete(line))
            folded.add(line);
        showLines();
        const again = /** @type {HTMLElement | null} */ (at("listing").querySelector(`[data-line="${line}"] .fold`));
        if (again)
            again.focus();
    });
    button.setAttribute("aria-expanded", String(!folded.has(line)));
    button.setAttribute("aria-label", `What is in ${rest}`);
    return [indent, button, rest];
}

/** The lines of the tree that are not folded away. */
function openLines() {
    const open = [];
    let below = Infinity;
    for (let line = 0; line < lines.length; line++) {
        if (depth(line) > below)
            continue;
        below = folded.has(line) ? depth(line) : Infinity;
        open.push(line);
    }
    return open;
}

/** Shows the lines with what is looked for. */
function showLines() {
    const wanted = field("find").value.toLowerCase();
    const top = at("listing").scrollTop;
    const all = shown === "tree" ? openLines() : lines.map((_, line) => line);
    const found = wanted ? all.filter((line) => lines[line].toLowerCase().includes(wanted)) : all;
    const links = shown === "code" ? code : null;
    listing.show(found, shown === "tree" ? treeLine : links ? (line) => links.draw(line) : (line) => [lines[line]]);
    at("listing").scrollTop = top;
}

/** @param {number} line */
function goTo(line) {
    field("find").value = "";
    showLines();
    listing.goTo(line);
    at("listing").focus({ preventScroll: true });
}

/**
 * Shows a listing that something on another one leads to.
 * @param {string} name
 */
function leadTo(name) {
    show(name);
    at(`tab-${name}`).focus();
}

/** What stands above a listing. */
async function drawAbove() {
    const drawing = at("drawing");
    drawing.replaceChildren();
    if (shown === "findings")
        drawing.append(drawMeanings(lines));
    if (shown === "map" && story)
        drawing.append(...drawMap(lines, story.bytes.length, leadTo));
    drawing.hidden = drawing.childElementCount === 0;
    const ifid = shown === "header" ? await listed("ifid") : "";
    if (ifid)
        at("panel-words").textContent += ` The story's IFID is ${ifid.trim()}.`;
}

/** @param {string} name */
function chooseTab(name) {
    for (const tab of /** @type {NodeListOf<HTMLElement>} */ (at("tabs").querySelectorAll("[role=tab]"))) {
        const isChosen = tab.dataset.listing === name;
        tab.setAttribute("aria-selected", String(isChosen));
        tab.tabIndex = isChosen ? 0 : -1;
        if (isChosen)
            at("panel").setAttribute("aria-labelledby", tab.id);
    }
}

/** @param {string} name */
async function show(name) {
    shown = name;
    chooseTab(name);
    at("panel").setAttribute("aria-busy", "true");
    at("panel-words").textContent = "Making the listing…";
    at("listing").replaceChildren();
    at("drawing").hidden = true;
    try {
        const found = await listed(name);
        if (shown === name)
            await fill(name, found);
    } catch (error) {
        at("panel-words").textContent = `Can't make this listing: ${error instanceof Error ? error.message : error}.`;
    }
    at("panel").setAttribute("aria-busy", String(shown !== name));
}

/**
 * Shows a listing that was made; null where there was no memory for it.
 * @param {string} name
 * @param {string | null} found
 */
async function fill(name, found) {
    text = found || "";
    lines = text.split("\n").slice(0, -1);
    folded = new Set();
    field("find").value = "";
    code = name === "code" && story ? new Code(lines, story.bytes, goTo) : null;
    at("panel-words").textContent = found === null ? "There is not enough memory for this listing." : TABS[name][1];
    at("finds").hidden = lines.length === 0;
    at("listing").hidden = lines.length === 0;
    at("listing").scrollTop = 0;
    showLines();
    await drawAbove();
}

/** @param {KeyboardEvent} event */
function keyInTabs(event) {
    const tabs = /** @type {HTMLElement[]} */ ([...at("tabs").children]);
    const here = tabs.findIndex((tab) => tab === document.activeElement);
    const places = { ArrowLeft: here - 1, ArrowRight: here + 1, Home: 0, End: tabs.length - 1 };
    const place = places[/** @type {keyof typeof places} */ (event.key)];
    if (place === undefined)
        return;
    event.preventDefault();
    const tab = tabs[(place + tabs.length) % tabs.length];
    tab.focus();
    tab.click();
}

/** Makes the tabs. */
export function prepareInside() {
    at("tabs").append(...Object.entries(TABS).map(([name, [words]]) => {
        const tab = madeButton("", words, () => show(name));
        tab.id = `tab-${name}`;
        tab.dataset.listing = name;
        tab.setAttribute("role", "tab");
        tab.setAttribute("aria-controls", "panel");
        return tab;
    }));
    at("tabs").addEventListener("keydown", keyInTabs);
    field("find").addEventListener("input", showLines);
    at("listing-out").addEventListener("click", () => giveFile(text, `${stem(story ? story.name : "")}.${shown}.txt`));
}

/**
 * Shows what is in a story.
 * @param {StoryFile} it
 */
export async function showInside(it) {
    story = it;
    listings = new Map();
    const own = new Machine();
    machine = own;
    opening = own.begun.then(() => own.open(it.bytes, {})).then(() => {});
    const end = closed(dialog("inside"));
    at("inside-head").textContent = `Inside ${it.name}`;
    show("findings");
    at("tab-findings").focus();
    await end;
    own.drop();
    machine = null;
}
