// Opening: a story from a file or an address, the page's own story, a play of a link, or what the reader had open
// before.

import { isRead } from "./answers.js";
import { agreed, at, bytesOf, field, made, madeButton, tell } from "./at.js";
import { fromBase64 } from "./bytes.js";
import { USUAL, columnsFor } from "./columns.js";
import { NotFetched, fetched, storyAddress } from "./fetching.js";
import { fillFront, hasFront, showFront } from "./front.js";
import { lacking, statedIn, wordsOnFile } from "./kinds.js";
import { isLink, playAt, playOf } from "./link.js";
import { NotOpened } from "./machine.js";
import { aboutOwn, isOwnPage, ownFile, ownWalkthrough, wordsOnDamage } from "./own.js";
import { Left } from "./play.js";
import { allPlays, keepStory, keptPlay, lastPlay, seePlay, storyOf, storyOfPlay, tidy } from "./resume.js";
import { sumOf } from "./sums.js";

/** @typedef {import("./link.js").Shared} Shared */
/** @typedef {import("./play.js").File} StoryFile */

const EXAMPLE = { name: "lighthouse.z5", title: "The Lamp on Skärvø", ifid: "ZCODE-1-261122-009F" };
const SEED = "1";

export function example() {
    return { name: EXAMPLE.name, title: EXAMPLE.title, bytes: fromBase64(at("example-bytes").textContent || "") };
}

/**
 * Does what may find that a story is not opened, says so, and tells whether it was done.
 * @param {string} name
 * @param {() => Promise<void>} does
 */
async function trying(name, does) {
    try {
        await does();
        return true;
    } catch (error) {
        if (error instanceof Left)
            return false;
        if (!(error instanceof NotOpened)) {
            tell(`The page has failed: ${error instanceof Error ? error.message : error}`, true);
            throw error;
        }
        tell(`${name}: not a story: ${error.message}`, true);
        return false;
    }
}

/** The seed that the reader has set, or the usual one where that is none. */
function seed() {
    const text = field("seed").value.trim();
    const isSeed = /^\d{1,20}$/.test(text) && BigInt(text) < 2n ** 64n;
    field("seed").value = isSeed ? text : SEED;
    return field("seed").value;
}

/** Whether the reader goes on with the play of before. */
function goesOn() {
    return agreed("Continue?", "You have played this story here before.", "Continue where I was", "Start over");
}

/**
 * Whether the reader agrees that another play takes the place of an own one.
 * @param {string} what
 * @param {number} lines how many the own one has
 */
function mayReplace(what, lines) {
    const count = lines === 1 ? "1 line" : `${lines} lines`;
    const words = `It replaces your own play of this story, which has ${count}.`;
    return agreed(`Show the ${what}?`, words, "Show it", "Keep mine");
}

/**
 * How much a story lacks that was cut off, in words; "" for a whole one.
 * @param {StoryFile} story
 */
function wordsOnLack({ name, bytes }) {
    const lacks = lacking(bytes);
    const all = bytes.length + lacks;
    return lacks === 0 ? "" : `${name} is cut off: ${lacks.toLocaleString("en")} of its `
        + `${all.toLocaleString("en")} bytes are missing.`;
}

export class Opening {
    /**
     * @param {import("./play.js").Play} play
     * @param {string} moduleSum
     * @param {() => void} changed
     */
    constructor(play, moduleSum, changed) {
        this.play = play;
        this.moduleSum = moduleSum;
        this.changed = changed;
        /**
         * A play of a link whose story the reader has still to choose.
         * @type {Shared | null}
         */
        this.awaited = null;
        /**
         * The story that was fetched last, with its address.
         * @type {{address: string, story: StoryFile} | null}
         */
        this.fetched = null;
        /**
         * The story of a page of its own, with its IFID.
         * @type {(StoryFile & {ifid: string}) | null}
         */
        this.own = null;
    }

    /**
     * Starts a story and keeps it.
     * @param {StoryFile} story
     * @param {import("./answers.js").Answer[]} [answers]
     * @param {string} [withSeed]
     * @param {number} [columns]
     */
    async start(story, answers = [], withSeed = seed(), columns = columnsFor(story.bytes)) {
        return trying(story.name, async () => {
            tell("");
            await seePlay(sumOf(story.bytes));
            await this.play.start(story, withSeed, columns, answers);
            await keepStory({ ...story, ifid: this.play.ifid }, this.play.sum);
            this.changed();
            await tidy();
        });
    }

    /**
     * Whether a story is opened: it is the one of the link that waits for it, or none waits, or the reader wants it all
     * the same.
     * @param {StoryFile} story
     */
    async isWanted(story) {
        if (!this.awaited)
            return true;
        const ifid = await this.play.ifidOf(story.bytes);
        if (ifid === this.awaited.ifid)
            return true;
        const words = `Its IFID is ${ifid}, but that of the shared play is ${this.awaited.ifid}.`;
        const isPlayed = await agreed("Play a different story?", words, "Play it", "No");
        if (isPlayed)
            this.awaited = null;
        return isPlayed;
    }

    /**
     * Opens a story: with the play of a link, or where the reader was before, or at its start.
     * @param {StoryFile} story
     */
    async open(story) {
        await trying(story.name, async () => {
            if (!await this.isWanted(story))
                return;
            const before = await keptPlay(sumOf(story.bytes));
            if (this.awaited) {
                const shared = this.awaited;
                this.awaited = null;
                await this.showShared(shared, story);
            } else if (before && before.answers.length && await goesOn()) {
                await this.goOn(story, before);
            } else {
                await this.start(story);
            }
        });
    }

    /**
     * Goes on with a play that was kept: by its snapshot, or where another module made it by its answers.
     * @param {StoryFile} story
     * @param {import("./resume.js").Kept} kept
     */
    async goOn(story, kept) {
        field("seed").value = kept.seed;
        await seePlay(kept.story);
        try {
            if (kept.module === this.moduleSum && kept.snapshot) {
                await this.play.resume(story, kept);
                return;
            }
        } catch (error) {
            if (!(error instanceof NotOpened))
                throw error;
        }
        await this.start(story, kept.answers, kept.seed, kept.columns ?? USUAL);
    }

    /**
     * Opens what a file has: a story, a Blorb with one, or a play.
     * @param {File} file
     */
    async openFile(file) {
        const bytes = await bytesOf(file);
        const shared = bytes[0] === 0x7b ? playOf(new TextDecoder().decode(bytes)) : null;
        if (shared) {
            await this.offer(shared, file.name);
        } else if (isOwnPage()) {
            tell(`${file.name}: this page has its own story, and opens only plays of it.`, true);
        } else {
            await trying(file.name, async () => {
                const story = await this.storyIn(file.name, bytes);
                if (story)
                    await this.openWhole(story);
            });
        }
    }

    /**
     * The story that a file has, a Blorb file or its own; null where there is none, and why is told.
     * @param {string} name
     * @param {Uint8Array} file
     * @returns {Promise<StoryFile | null>}
     */
    async storyIn(name, file) {
        const words = wordsOnFile(file);
        if (words) {
            tell(`${name}: ${words}.`, true);
            return null;
        }
        const bytes = await this.play.storyIn(file);
        if (!bytes) {
            tell(`${name}: this Blorb file contains no story, or it was cut off.`, true);
            return null;
        }
        const { title, author } = statedIn(file);
        return { name, bytes, title, author };
    }

    /**
     * Opens a story. Where it was cut off, says so, and asks before it takes the place of a play that is on.
     * @param {StoryFile} story
     */
    async openWhole(story) {
        const words = wordsOnLack(story);
        if (words && this.play.story && !await agreed("Play a story that is cut off?", words, "Play it", "No"))
            return;
        await this.open(story);
        if (words && this.play.story && this.play.story.bytes === story.bytes)
            tell(words, true);
    }

    /**
     * Shows a play of a link or a file, if its story is here; else asks for that. Where it is not shown, says why, and
     * answers no.
     * @param {Shared | string} shared
     * @param {string} name
     */
    async offer(shared, name) {
        const words = typeof shared === "string" ? shared : this.wordsOnOther(shared);
        if (typeof shared === "string" || words) {
            tell(`${name}: this play can't be shown: ${words}.`, true);
            return false;
        }
        const story = await this.storyOfShared(shared);
        if (story)
            await this.showShared(shared, story);
        else
            this.awaitStory(shared);
        return true;
    }

    /**
     * Why a page with its own story does not show a play: it is of another one. "" where it may.
     * @param {Shared} shared
     */
    wordsOnOther({ ifid }) {
        return isOwnPage() && ifid !== this.own?.ifid ? `it is of another story, whose IFID is ${ifid}` : "";
    }

    /**
     * The story of a shared play, if it is here.
     * @param {Shared} shared
     * @returns {Promise<StoryFile | null>}
     */
    async storyOfShared({ ifid }) {
        if (this.own)
            return this.own;
        return ifid === EXAMPLE.ifid ? example() : storyOf(ifid);
    }

    /**
     * Asks for the story of a shared play.
     * @param {Shared} shared
     */
    awaitStory(shared) {
        this.awaited = shared;
        const lines = shared.answers.filter(isRead).length;
        const words = `This is a play of ${shared.name}, ${lines} lines long. `
            + `To see it, choose that story's file; its IFID is ${shared.ifid}.`;
        if (this.play.story)
            tell(words);
        else
            at("invitation").textContent = words;
    }

    /**
     * Shows a play that was shared, where the reader agrees that it takes the place of the own one.
     * @param {Shared} shared
     * @param {StoryFile} story
     */
    async showShared(shared, story) {
        const own = await keptPlay(sumOf(story.bytes));
        const isInIt = own && JSON.stringify(shared.answers).startsWith(JSON.stringify(own.answers).slice(0, -1));
        if (own && !isInIt && !await mayReplace("shared play", own.answers.filter(isRead).length)) {
            if (!this.play.story)
                await this.goOn(story, own);
            return;
        }
        field("seed").value = shared.seed;
        if (!await this.start(story, shared.answers, shared.seed, shared.columns ?? USUAL))
            return;
        if (this.play.chain.slice(0, 16) === shared.told)
            tell("This is the shared play, letter by letter. Continue from here, or from any of its lines.");
        else
            tell("The story's text is not the same as in the shared play. Is this the right story file?", true);
    }

    /** Shows what the page begins with: its own story, what its address names, or the last play, if there is one. */
    async begin() {
        addEventListener("hashchange", () => this.openAddress());
        field("seed").value = SEED;
        if (isOwnPage()) {
            await this.beginOwn();
            return;
        }
        const address = storyAddress(location);
        const isShown = address ? await this.openFetched(address) : await this.openLink();
        if (isShown)
            return;
        const last = await lastPlay();
        if (last)
            await this.goOn(last.story, last.play);
        else
            await this.showFirst();
    }

    /** Shows what has come into the page's address: a play, or the address of a story. */
    async openAddress() {
        const address = location.hash.startsWith("#story=") && !isOwnPage() ? storyAddress(location) : "";
        await (address ? this.openFetched(address) : this.openLink());
    }

    /**
     * Fetches a story and opens it, with the play that the page's address may have too.
     * @param {string} address
     */
    async openFetched(address) {
        if (!this.play.story)
            await this.showFirst();
        tell("");
        const link = await this.takeLink();
        if (typeof link === "string")
            await this.offer(link, "The link");
        const [words, shared] = [at("told").textContent, typeof link === "string" ? null : link];
        const { round } = this.play;
        const it = await this.fetch(address);
        if (it && round === this.play.round) {
            this.awaited = shared;
            await (shared ? this.openWhole(it.story) : this.openAtOnce(it.story));
        } else if (shared && round === this.play.round) {
            await this.offer(shared, "The link");
        }
        if (words)
            tell(words, true);
        return true;
    }

    /**
     * Fetches a story by its address; null where that is not possible, and why is told.
     * @param {string} address
     * @returns {Promise<{story: StoryFile} | null>}
     */
    async fetch(address) {
        this.fetched = null;
        try {
            tell("Fetching the story…");
            const { name, bytes } = await fetched(address);
            tell("");
            await trying(name, async () => {
                const story = await this.storyIn(name, bytes);
                this.fetched = story && { address, story };
            });
        } catch (error) {
            if (!(error instanceof NotFetched))
                throw error;
            tell(error.message, true);
        }
        return this.fetched;
    }

    /**
     * Whether a story is the one that was fetched last.
     * @param {StoryFile} story
     */
    isFetched(story) {
        return this.fetched !== null && this.fetched.story.bytes === story.bytes;
    }

    /**
     * Opens a story where the reader was in it before, or at its start, and asks nothing.
     * @param {StoryFile} story
     */
    async openAtOnce(story) {
        const before = await keptPlay(sumOf(story.bytes));
        if (before && before.answers.length)
            await trying(story.name, () => this.goOn(story, before));
        else
            await this.openWhole(story);
    }

    /** Begins with the page's own story: with the play of its address, where the reader was before, or at its start. */
    async beginOwn() {
        const file = ownFile();
        const about = aboutOwn(file ? file.bytes : new Uint8Array());
        const { title, author } = about;
        at("open").hidden = true;
        fillFront(about, file ? file.name : "");
        const isStory = file !== null && await trying(file.name, async () => {
            const story = await this.storyIn(file.name, file.bytes);
            if (story)
                this.own = { ...story, title, author, ifid: await this.play.ifidOf(story.bytes) };
        });
        if (isStory && this.own)
            await this.openOwn(this.own, hasFront(about));
        else
            showFront("");
        if (wordsOnDamage())
            tell(wordsOnDamage(), true);
    }

    /**
     * @param {StoryFile} own
     * @param {boolean} hasTitlePage
     */
    async openOwn(own, hasTitlePage) {
        at("open-play").hidden = false;
        at("show-front").hidden = !hasTitlePage;
        at("walkthrough").hidden = ownWalkthrough() === null;
        at("open").autofocus = false;
        at(hasTitlePage ? "show-front" : "restart").autofocus = true;
        if (await this.openLink())
            return;
        const words = at("told").textContent || wordsOnLack(own);
        const before = await keptPlay(sumOf(own.bytes));
        if (hasTitlePage && !(before && before.answers.length))
            showFront("Play");
        else
            await this.openAtOnce(own);
        if (words)
            tell(words, true);
    }

    /** Begins the page's own story, whose title page was shown. */
    async startOwn() {
        if (this.own)
            await this.openAtOnce(this.own);
    }

    /** Shows the title page again. */
    showFront() {
        showFront("Continue");
    }

    /** Shows the walkthrough that the author has put into the page, as a play of a link is shown. */
    async showWalkthrough() {
        const [story, walkthrough, lines] = [this.own, ownWalkthrough(), this.play.reads()];
        if (!story || !walkthrough || lines > 0 && !await mayReplace("walkthrough", lines))
            return;
        field("seed").value = walkthrough.seed || SEED;
        if (!await this.start(story, walkthrough.lines.map((typed) => ({ typed })), seed()))
            return;
        const { left, isHalted } = this.play;
        const count = walkthrough.lines.length;
        if (left > 0 && !isHalted)
            tell(`The story took only ${count - left} of the walkthrough's ${count} lines.`, true);
        else
            tell(`${left > 0 ? "You have stopped the walkthrough" : "This is the walkthrough"}. `
                + "Continue from here, or from any of its lines.");
    }

    /** Shows the first page, with the stories that were played here. */
    async showFirst() {
        const plays = await allPlays();
        at("recent").hidden = plays.length === 0;
        at("recent-list").replaceChildren(...plays.map((play) => {
            const item = made("li");
            item.append(madeButton("pick", "", () => this.continuePlay(play)));
            const date = new Date(play.date).toLocaleString([], { dateStyle: "medium", timeStyle: "short" });
            const words = `line ${play.answers.filter(isRead).length} · ${date}`;
            item.children[0].append(made("b", "name", play.name || play.ifid), made("span", "", words));
            return item;
        }));
        at("to-play").hidden = !this.play.story;
        at("welcome").hidden = false;
        at("play").hidden = at("tools").hidden = true;
        if (this.play.story)
            at("choose").focus();
    }

    /**
     * Goes on with a play of the list on the first page.
     * @param {import("./resume.js").Kept} play
     */
    async continuePlay(play) {
        const story = await storyOfPlay(play);
        if (story)
            await trying(story.name, () => this.goOn(story, play));
        else
            tell("The story of this play is no longer here. Choose its file.", true);
    }

    /** Takes the play out of the page's address; null where there is none, or why it is not shown was told. */
    async takeLink() {
        if (!isLink(location.hash))
            return null;
        const shared = await playAt(location.hash);
        history.replaceState(null, "", location.href.replace(/#.*/, ""));
        if (!shared)
            tell("The link can't be read: it is cut off, or this browser is too old for it.", true);
        return shared;
    }

    /** Shows the play that is in the page's address, and answers whether it is shown, or its story asked for. */
    async openLink() {
        const shared = await this.takeLink();
        return shared !== null && await this.offer(shared, "The link");
    }

    async restart() {
        const { story } = this.play;
        const isNew = this.play.reads() === 0;
        if (story && (isNew || await agreed("Restart?", "The story starts over.", "Restart", "Go on")))
            await this.start(story);
    }

    /**
     * Goes to where the first ones of some answers were given; the others can still be gone to.
     * @param {import("./answers.js").Answer[]} answers
     * @param {number} count
     */
    async goTo(answers, count) {
        const { story } = this.play;
        if (!story)
            return;
        tell("");
        await trying(story.name, () => this.play.goTo(answers, count));
    }
}
