// The page: lets its parts work together.

import {
    agreed, at, chosenFile, closeWindows, dialog, field, giveFile, prepareWindows, stem, tell,
} from "./at.js";
import { storyAddress, withoutStory } from "./fetching.js";
import { prepareFrame, tellParent } from "./frame.js";
import { hideFront } from "./front.js";
import { prepareInside, showInside } from "./inside.js";
import { Input } from "./input.js";
import { showLines } from "./lines.js";
import { isLink } from "./link.js";
import { Log } from "./log.js";
import { prepareLook } from "./look.js";
import { moduleBytes } from "./machine.js";
import { Opening, example } from "./opening.js";
import { isOwnPage } from "./own.js";
import { Play } from "./play.js";
import { keepPlay, keptPlay, seePlay } from "./resume.js";
import { askRestore, askSave, prepareSaves, showSaves } from "./saves.js";
import { Screen } from "./screen.js";
import { sumOf } from "./sums.js";
import { prepareView } from "./view.js";

const log = new Log();
const screen = new Screen();
/** @type {Input} */
const input = new Input((answer) => play.give(answer));
/** @type {Play} */
const play = new Play(log, screen, input, {
    save: (image) => askSave(ofPlay(), image),
    restore: () => askRestore(ofPlay()),
    opened,
    changed,
    turned,
});
const moduleSum = sumOf(moduleBytes());

const opening = new Opening(play, moduleSum, changed);

/** What a saved game says of where it was saved. */
function ofPlay() {
    const game = play.story ? play.story.name : "";
    return { sum: play.sum, game, place: screen.place(), line: play.reads() };
}

/** Shows the part of the page for a play before anything is drawn or measured in it. */
function opened() {
    closeWindows();
    showTitle();
    showPlay();
    // (a reload opens what is played, and not the story of the address)
    if (storyAddress(location) && play.story && !opening.isFetched(play.story))
        history.replaceState(null, "", withoutStory(location.href));
}

function showTitle() {
    const author = play.story ? play.story.author : "";
    at("title").textContent = play.name();
    at("title").title = play.story ? play.story.name : "";
    at("author").textContent = author ? `by ${author}` : "";
    at("author").hidden = !author;
    document.title = isOwnPage() ? play.name() : `${play.name()} · zkit`;
}

/** What the page around a frame is told of what a story awaits after a turn.
 * @type {Record<string, "line" | "key" | "stopped">}
 */
const AWAITED = { line: "line", character: "key", stopped: "stopped" };

/** @param {import("./machine.js").Standing} standing */
function turned({ awaits }) {
    if (AWAITED[awaits])
        tellParent(play.reads(), screen.line(), AWAITED[awaits]);
}

function showPlay() {
    hideFront();
    at("welcome").hidden = true;
    at("play").hidden = at("tools").hidden = false;
}

/** Shows and keeps what has changed in the play. */
function changed() {
    showTitle();
    at("script").hidden = play.script === "";
    if (isLink(location.hash))
        history.replaceState(null, "", location.href.replace(/#.*/, ""));
    const isKeeping = due !== null;
    due = play.kept(moduleSum) || due;
    if (due && !isKeeping)
        keepAll();
}

/**
 * The play that has still to be kept.
 * @type {import("./resume.js").Kept | null}
 */
let due = null;
let isFull = false;

/** Keeps the newest play, one after another. */
async function keepAll() {
    for (let now = due; now; now = due === now ? null : due) {
        const came = await keepPlay(now);
        if (came === "elsewhere")
            await chooseTab(now);
        if (came === "full" && !isFull)
            tell("The browser has no room to keep this play. Save the game as a file before you leave.", true);
        isFull = came === "full";
    }
    due = null;
}

/**
 * Asks which play of a story goes on, where another page has kept one meanwhile.
 * @param {import("./resume.js").Kept} now
 */
async function chooseTab(now) {
    const words = "You play this story in another tab or window too. Only one of the plays is kept.";
    const isThis = await agreed("Which play goes on?", words, "This one", "The other one");
    await seePlay(now.story);
    if (isThis) {
        await keepPlay(now);
        return;
    }
    const other = await keptPlay(now.story);
    if (other && play.story && play.sum === now.story)
        await opening.goOn(play.story, other);
}

/**
 * @param {string} id
 * @param {() => void} does
 */
function onClick(id, does) {
    at(id).addEventListener("click", () => {
        if (dialog("menu").open)
            dialog("menu").close();
        does();
    });
}

function backToPlay() {
    showPlay();
    if (input.awaits)
        input.show();
    // (of these at most one is shown)
    for (const id of ["stop", "go-on", "over-again"])
        at(id).focus();
}

function openLines() {
    showLines(play, (answers, count) => opening.goTo(answers, count));
}

function openInside() {
    if (play.story)
        showInside(play.story);
}

function choose() {
    field("story-file").value = "";
    field("story-file").click();
}

function prepareButtons() {
    onClick("choose", choose);
    onClick("open", () => opening.showFirst());
    onClick("to-play", backToPlay);
    onClick("front-play", () => play.story ? backToPlay() : opening.startOwn());
    onClick("show-front", () => opening.showFront());
    onClick("walkthrough", () => opening.showWalkthrough());
    onClick("open-play", choose);
    onClick("example", () => opening.open(example()));
    onClick("undo", () => play.undo());
    onClick("restart", () => opening.restart());
    onClick("over-again", () => play.story && opening.start(play.story));
    onClick("show-lines", openLines);
    onClick("menu-lines", openLines);
    onClick("show-inside", openInside);
    onClick("menu-inside", openInside);
    onClick("show-saves", async () => {
        const image = await showSaves(ofPlay());
        if (image)
            await play.restoreGame(image);
    });
    onClick("transcript", () => giveFile(log.transcript(), `${stem(ofPlay().game)}.txt`));
    onClick("script", () => giveFile(play.script, `${stem(ofPlay().game)}.script.txt`));
    at("show-menu").addEventListener("click", () => {
        const release = play.about ? play.about.release : 0;
        at("about").textContent = `${ofPlay().game}, release ${release}, IFID ${play.ifid}, line ${play.reads()}`;
        dialog("menu").showModal();
    });
    field("story-file").addEventListener("change", () => {
        const file = chosenFile(field("story-file"));
        if (file)
            opening.openFile(file);
    });
}

function prepareDrop() {
    for (const kind of ["dragenter", "dragover"])
        addEventListener(kind, (event) => {
            event.preventDefault();
            document.body.classList.add("dragged");
        });
    for (const kind of ["dragleave", "drop"])
        addEventListener(kind, () => document.body.classList.remove("dragged"));
    addEventListener("drop", (event) => {
        event.preventDefault();
        const file = event.dataTransfer ? event.dataTransfer.files[0] : null;
        if (!file)
            return;
        closeWindows();
        opening.openFile(file);
    });
}

// (without scripts the page shows nothing but what it needs)
at("welcome").hidden = isOwnPage();
prepareWindows();
prepareFrame();
prepareLook();
prepareView();
prepareSaves();
prepareInside();
prepareButtons();
prepareDrop();
opening.begin().finally(() => {
    document.documentElement.dataset.ready = "yes";
});
