// What a reload goes on with: the story, the text, and a snapshot of the last read, each with the sums of the module
// and the story that it was made by.

import { forget, keep, kept, names } from "./store.js";
import { sumOf } from "./sums.js";

/** @typedef {import("./answers.js").Answer} Answer */
/** @typedef {{name: string, ifid: string, bytes: Uint8Array}} Story */

/**
 * A play as it is kept.
 * @typedef {object} Kept
 * @property {string} module the sum of the module
 * @property {string} story the sum of the story
 * @property {string} ifid
 * @property {string} seed
 * @property {number} [columns] how many the story was told; the usual ones where that is not said
 * @property {Answer[]} answers
 * @property {string} chain the sum of all text
 * @property {Uint8Array | null} snapshot
 * @property {boolean} [hasStates] whether the snapshot has the states that the story's own UNDO goes back to
 * @property {any} log
 * @property {string[]} box
 * @property {number} date
 * @property {string} [title] the title that the story shows at its start
 * @property {string} [name] what the story is called
 * @property {string} [page] the page that has kept it
 */

const LAST = "last";

/** So many stories are kept with a play at most. */
const MOST = 12;

/**
 * @param {string} ifid
 * @param {string} sum
 */
function storyKey(ifid, sum) {
    return `${ifid} ${sum}`;
}

/**
 * @param {Story} story
 * @param {string} sum
 */
export async function keepStory(story, sum) {
    await keep("stories", storyKey(story.ifid, sum), story);
}

/** The story whose play was kept last. */
let lastStory = "";

/** This page among all that keep plays, as in other tabs. */
const PAGE = String(Math.random());

/**
 * Which play of each story this page has kept or seen last. Where another one is kept, another page goes on with it.
 * @type {Map<string, string>}
 */
const seen = new Map();

/** @param {Kept | null} play */
function stampOf(play) {
    return play ? `${play.page} ${play.date}` : "";
}

/**
 * Takes the play of a story that is kept as the one that this page goes on with, or puts another one in its place.
 * @param {string} sum
 */
export async function seePlay(sum) {
    seen.set(sum, stampOf(await keptPlay(sum)));
}

/**
 * Whether two plays of a story stand at the same place.
 * @param {Kept} one
 * @param {Kept} other
 */
function isSame(one, other) {
    return one.chain === other.chain && one.seed === other.seed && one.columns === other.columns
        && JSON.stringify(one.answers) === JSON.stringify(other.answers);
}

/**
 * Keeps a play, unless another page has kept one of the same story meanwhile or there is no room, and tells so.
 * @param {Kept} play
 * @returns {Promise<"kept" | "full" | "elsewhere">}
 */
export async function keepPlay(play) {
    const before = await keptPlay(play.story);
    if (before && stampOf(before) !== seen.get(play.story))
        return "elsewhere";
    if (before && isSame(before, play))
        return "kept";
    const own = { ...play, page: PAGE };
    if (!await keep("plays", play.story, own))
        return "full";
    seen.set(play.story, stampOf(own));
    if (lastStory !== play.story)
        await keep("plays", LAST, { story: play.story, ifid: play.ifid });
    lastStory = play.story;
    return "kept";
}

/**
 * The plays that are kept, the newest first.
 * @returns {Promise<Kept[]>}
 */
export async function allPlays() {
    const sums = (await names("plays")).filter((name) => name !== LAST);
    const plays = await Promise.all(sums.map((sum) => kept("plays", sum)));
    return plays.filter((play) => play).sort((a, b) => b.date - a.date);
}

/** Forgets the oldest plays, and stories without one. */
export async function tidy() {
    const old = (await allPlays()).slice(MOST);
    await Promise.all(old.map((play) => forget("plays", play.story)));
    await Promise.all(old.map((play) => forget("stories", storyKey(play.ifid, play.story))));
}

/**
 * The play of a story that is kept, if any.
 * @param {string} sum
 * @returns {Promise<Kept | null>}
 */
export function keptPlay(sum) {
    return kept("plays", sum);
}

/**
 * The play that the reader was in, with its story, whose sum is looked at; null where there is none.
 * @returns {Promise<{play: Kept, story: Story} | null>}
 */
export async function lastPlay() {
    const last = await kept("plays", LAST);
    if (!last)
        return null;
    const play = await keptPlay(last.story);
    const story = play && await storyOfPlay(play);
    return play && story ? { play, story } : null;
}

/**
 * The story of a play; null where it is not kept, or has changed.
 * @param {Kept} play
 * @returns {Promise<Story | null>}
 */
export async function storyOfPlay(play) {
    const story = await kept("stories", storyKey(play.ifid, play.story));
    return story && sumOf(story.bytes) === play.story ? story : null;
}

/**
 * A story that is kept, by its IFID.
 * @param {string} ifid
 * @returns {Promise<Story | null>}
 */
export async function storyOf(ifid) {
    const [key] = await names("stories", `${ifid} `);
    return key ? kept("stories", key) : null;
}
