// What is drawn above a listing: the map to scale, and what findings mean.

import { made, madeButton } from "./at.js";

/** Each with enough difference from its neighbours, on light and on dark. */
const COLOURS = ["#7a8f5a", "#b4884a", "#4f7f92", "#9b5d5d", "#6d6aa0", "#4c8f78", "#a3749b", "#8a8172"];

/**
 * What each finding means.
 * @type {Record<string, string>}
 */
const MEANINGS = {
    C1: "the sum of the file's bytes is not the checksum that its header states",
    C2: "the header states more bytes than the file has",
    C3: "the dictionary says that it is sorted, and the key of this entry is not above the one before it",
    C4: "there is no dictionary at the address that the header names, or not all of it can be read",
    C5: "the parent, the sibling or the child of this object has a number past the last object",
    C6: "the child list of this object is circular",
    C7: "the properties of this object do not end in readable data",
    C8: "this text, or one of its abbreviations, has no end in the story",
    C9: "an abbreviation of this text uses an abbreviation",
    C10: "code leads to this address, and there is no instruction here",
    C11: "this instruction branches or jumps out of the story, or calls an address with no routine",
    C12: "this instruction has a byte below the static base, or calls an address that lies there",
};

/**
 * What begins at each place of the map, and the listing that shows it; "" for none.
 * @type {Record<string, [string, string]>}
 */
const PARTS = {
    header: ["the fields that describe the story", "header"],
    abbreviations: ["texts that other texts use", "abbreviations"],
    objects: ["rooms, things and people, with their properties", "objects"],
    globals: ["the story's global variables", ""],
    static: ["data that the story can't change", ""],
    dictionary: ["the words that the story knows", "dictionary"],
    high: ["routines and texts", "code"],
    start: ["the first instruction that runs", "code"],
};

/**
 * An entry of the legend: a button, where a listing shows the part.
 * @param {string} words
 * @param {string} name
 * @param {(listing: string) => void} leadTo
 */
function entryOf(words, name, leadTo) {
    const listing = PARTS[name]?.[1] || "";
    const entry = made("li", "", listing ? "" : words);
    if (listing)
        entry.append(madeButton("", words, () => leadTo(listing)));
    return entry;
}

/**
 * The file as a bar, with a legend. What is pressed leads to its listing, in the bar too; the legend has it for the
 * keyboard.
 * @param {string[]} lines
 * @param {number} length
 * @param {(listing: string) => void} leadTo
 */
export function drawMap(lines, length, leadTo) {
    const starts = lines.map((line) => parseInt(line.slice(0, 5), 16));
    const scale = made("div", "scale");
    const legend = made("ul", "legend");
    scale.setAttribute("aria-hidden", "true");
    lines.forEach((line, i) => {
        const end = i + 1 < lines.length ? starts[i + 1] : length;
        const size = Math.max(0, end - starts[i]);
        const [name, bar] = [line.slice(6), made("i")];
        const words = `${name}, ${size.toLocaleString()} ${size === 1 ? "byte" : "bytes"}`;
        const entry = entryOf(words, name, leadTo);
        bar.title = entry.title = PARTS[name] ? `${name}: ${PARTS[name][0]}` : name;
        bar.addEventListener("click", () => entry.querySelector("button")?.click());
        bar.style.left = `${100 * starts[i] / length}%`;
        bar.style.width = `${100 * size / length}%`;
        for (const element of [bar, entry])
            element.style.setProperty("--colour", COLOURS[i % COLOURS.length]);
        scale.append(bar);
        legend.append(entry);
    });
    return [scale, legend];
}

/**
 * What the findings mean, each kind once.
 * @param {string[]} lines
 */
export function drawMeanings(lines) {
    const kinds = [...new Set(lines.map((line) => line.split(" ")[0]))];
    const list = made("ul", "meaning");
    const words = kinds.map((kind) => `${kind}: ${MEANINGS[kind] || "Unknown finding."}`);
    list.append(...words.map((text) => made("li", "", text)));
    if (kinds.length === 0)
        list.append(made("li", "", "These checks found nothing wrong."));
    return list;
}
