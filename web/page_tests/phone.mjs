// An evening with a phone: a story from its start to its end by a finger, with all that a newcomer may try, and what is
// seen then: no word is cut, and nothing is too small to be tapped.

import { EXAMPLES, SCREEN, holds, join, linesOf, native, pause, same } from "./page.mjs";

const Z5 = join(EXAMPLES, "lighthouse.z5");
const SIZE = [360, 640];
const WITH_KEYBOARD = [360, 370];

const lastTyped = () => [...document.querySelectorAll("#scroller .typed")].pop()?.textContent.trimEnd() ?? "";
const isOpen = () => document.querySelector("dialog[open]") !== null;
const joined = (lines) => lines.map((line) => `${line}\n`).join("");

/** Does something with a phone's view. */
async function onPhone(page, does) {
    await page.browser.size(...SIZE);
    try {
        await does();
    } finally {
        await page.browser.size(1100, 800);
    }
}

/** Gives the page another view, as a keyboard or a turn of the phone does. */
async function views(page, size) {
    await page.browser.size(...size);
    await page.until((height) => Math.abs(innerHeight - height) < 100, size[1]);
    await pause(100);
}

/** Until no window stands over the page, and the story reads. */
async function goneOn(page) {
    await page.until(() => !document.querySelector("dialog[open]"));
    await page.rests();
}

/** The newest turn is seen, what is typed goes to the line, and nothing is wider than the view. */
async function inSight(page, what) {
    await page.seesNewest(`the newest turn is not seen ${what}`);
    same(await page.focus(), "line 0", `the focus ${what}`);
    await fits(page, what);
}

async function fits(page, what) {
    const wide = await page.run(() => [document.documentElement, ...document.querySelectorAll("dialog[open]")]
        .map((it) => it.scrollWidth - it.clientWidth).filter((it) => it > 0).join());
    same(wide, "", `how many pixels are too many ${what}`);
}

/** In the page: the texts that are cut off where they stand. (Letters may be a little higher than their line.) */
function cutInPage(selectors) {
    return [...document.querySelectorAll(selectors)].filter((it) => {
        const spare = parseFloat(getComputedStyle(it).fontSize) / 3;
        return it.getClientRects().length
            && (it.scrollWidth > it.clientWidth + 1 || it.scrollHeight > it.clientHeight + spare);
    }).map((it) => it.id || it.textContent).join();
}

/** In the page: the controls that a finger misses. */
function smallInPage() {
    const isSmall = ({ width, height }) => width < 24 || height < 24;
    return [...(document.querySelector("dialog[open]") || document).querySelectorAll("button, input, select")]
        .filter((it) => it.getClientRects().length && isSmall(it.getBoundingClientRect()))
        .map((it) => it.id || it.textContent || it.className).join();
}

/** Opens a window of the menu by a finger. */
async function opens(page, button, window) {
    await page.tap("#show-menu");
    await page.tap(`#${button}`);
    await page.shown(window);
}

async function leaves(page, window) {
    await page.tap(`#${window} .head button`);
    await goneOn(page);
}

/** Chooses in the menu by keys, as a picker of the system can't be driven. */
async function picks(page, id, key) {
    await page.tap("#show-menu");
    await page.until(isOpen);
    for (let i = 0; i < 20 && await page.run(() => document.activeElement.id) !== id; i++)
        await page.browser.press("Tab");
    await page.browser.press(key);
    await fits(page, `in the menu after ${key} on ${id}`);
    await leaves(page, "menu");
}

/** Types lines, every third one sent by a finger, and looks after each whether the story is in sight. */
async function plays(page, lines, what) {
    for (const [i, line] of lines.entries()) {
        await page.browser.write(line);
        if (i % 3 === 2 && await page.isShown("enter"))
            await page.tap("#enter");
        else
            await page.browser.press("Enter");
        await page.rests();
        await inSight(page, `after ${line}, ${what}`);
    }
}

/** Parts of the play: how the phone is held, the lines from and to, and what comes first. */
const PARTS = [
    ["with a keyboard", 0, 14, async (page) => {
        await page.tap("#line");
        await views(page, WITH_KEYBOARD);
    }],
    ["with large text in the dark", 14, 20, async (page) => {
        await views(page, SIZE);
        await picks(page, "theme", "End");
        await picks(page, "size", "End");
        same(await page.run(cutInPage, "#title, .bar span, #enter"), "", "what is cut in large text");
    }],
    ["with the phone on its side", 20, 24, (page) => views(page, [640, 360])],
    ["with the phone upright again", 24, 28, async (page) => {
        await views(page, SIZE);
        await picks(page, "size", "Home");
    }],
];

/** Saves by a name, and restores it by a finger later. */
async function saves(page) {
    await page.send("save");
    await page.shown("saving");
    await page.fill("save-name", "Before the lamp");
    await views(page, WITH_KEYBOARD);
    await fits(page, "in the window for a name");
    await page.tap("#keep");
    await goneOn(page);
    await views(page, SIZE);
    await inSight(page, "after a game was saved");
}

/** Undo, History and Look inside by a finger: the story is in sight after each. */
async function looksAround(page) {
    const last = await page.run(lastTyped);
    await page.tap("#undo");
    await page.until(() => document.getElementById("told").textContent === "Went back one step.");
    await page.rests();
    holds(await page.run(lastTyped) !== last, "the line that was taken back is still there");
    await inSight(page, "after Undo");
    await opens(page, "menu-lines", "lines");
    same(await page.run(smallInPage), "", "what is too small in the list of lines");
    await page.tap("#line-list li:last-child button");
    await goneOn(page);
    await page.until((it) => [...document.querySelectorAll("#scroller .typed")].pop()?.textContent === `${it}\n`, last);
    await inSight(page, "after the end of the list was chosen");
    await opens(page, "menu-inside", "inside");
    for (const tab of ["map", "tree"]) {
        await page.tap(`#tab-${tab}`);
        await page.until((it) => document.querySelector("[aria-selected=true]").id === `tab-${it}`
            && document.getElementById("panel").getAttribute("aria-busy") === "false", tab);
        same(await page.run(smallInPage), "", `what is too small in ${tab}`);
        await fits(page, `in ${tab}`);
    }
    await leaves(page, "inside");
}

/** A whole story on a phone, with a saved game, a reload, and all windows. */
async function evening(page) {
    const lines = linesOf(join(EXAMPLES, "lighthouse.walkthrough")).slice(0, 44).filter((line) => line);
    await onPhone(page, async () => {
        await page.fresh();
        await page.tap("#example");
        await page.rests();
        for (const [what, from, to, prepare] of PARTS) {
            await prepare(page);
            await plays(page, lines.slice(from, to), what);
        }
        await saves(page);
        await plays(page, lines.slice(28, 34), "after a game was saved");
        await page.keeps(35);
        await page.reload();
        await page.rests();
        await inSight(page, "after a reload");
        await plays(page, lines.slice(34), "after a reload");
        const file = join(page.browser.folder, "profile", "evening.qzl");
        const all = [...lines.slice(0, 28), "save", ...lines.slice(28), "restore", "look"];
        await looksAround(page);
        await page.send("restore");
        await page.shown("restoring");
        same(await page.run(cutInPage, "#slots .pick, #slots .pick span"), "", "what is cut in the saved games");
        await page.tap("#slots .pick");
        await goneOn(page);
        await plays(page, ["look"], "after a game was restored");
        same(await page.transcript(), native(["play", "--echo", "--save", file, Z5], joined(all)).text,
            "the transcript");
    });
}

/** In the page: how many pixels the first rows of names of saved games have, and where their buttons stand. */
function slotInPage() {
    const [pick, ...buttons] = [...document.querySelectorAll("#slots li:first-child button")]
        .map((it) => it.getBoundingClientRect());
    return { width: pick.width, height: pick.height, tops: buttons.map((it) => it.top - pick.bottom) };
}

/** The windows have room for their words in text of each size, and a saved game stands over its buttons. */
async function windowsOfLargeText(page) {
    await onPhone(page, async () => {
        await page.fresh();
        await page.tap("#example");
        await page.rests();
        await page.sayAll(["examine the old lighthouse through the window", "look", "save"]);
        await page.tap("#keep");
        await goneOn(page);
        for (const key of ["Home", "ArrowDown", "ArrowDown", "ArrowDown"]) {
            await picks(page, "size", key);
            await page.tap("#show-menu");
            same(await page.run(cutInPage, "#menu button, #menu label, #menu p"), "", `what is cut after ${key}`);
            holds(await page.run(isWholeInPage), `a choice of the menu is cut after ${key}`);
            await leaves(page, "menu");
            await opens(page, "show-saves", "restoring");
            await fits(page, `in the saved games after ${key}`);
            const { width, height, tops } = await page.run(slotInPage);
            holds(width > 2 * height && tops.every((it) => it >= 0 && it < 20),
                `a saved game has ${width} by ${height} pixels, and its buttons stand ${tops} below it`);
            await leaves(page, "restoring");
            await opens(page, "menu-lines", "lines");
            await fits(page, `in the list of lines after ${key}`);
            await leaves(page, "lines");
        }
    });
}

/** In the page: whether each choice of the menu has room for its longest words. */
function isWholeInPage() {
    return [...document.querySelectorAll("#menu select")].every((it) => {
        const { width } = it.getBoundingClientRect();
        const free = it.cloneNode(true);
        free.id = "";
        it.parentElement.append(free);
        Object.assign(free.style, { position: "absolute", width: "min-content" });
        const least = free.getBoundingClientRect().width;
        free.remove();
        return width >= least - 1;
    });
}

/** A quotation is whole on a phone: its letters are as small as its rows need. */
async function wholeBox(page) {
    await onPhone(page, async () => {
        await page.fresh();
        await page.open(join(EXAMPLES, "box.z5"));
        const [over, size] = await page.run(() => {
            const box = document.querySelector(".turn .box");
            return [box.scrollWidth - box.clientWidth, parseFloat(getComputedStyle(box).fontSize)];
        });
        holds(over <= 0 && size >= 9, `the box is ${over} pixels too wide, with letters of ${size} pixels`);
        await inSightAtStart(page);
    });
}

/** A story that has only begun is seen from its start. */
async function inSightAtStart(page) {
    same(await page.run(() => document.getElementById("scroller").scrollTop), 0, "how far the text is scrolled");
    same(await page.focus(), "line 0", "the focus and the caret");
}

/** In the page: whether the row of a menu that is marked is seen as a whole. */
function markIsSeen() {
    const { top, bottom } = document.getElementById("upper").getBoundingClientRect();
    const mark = [...document.querySelectorAll("#upper .reverse")].pop().getBoundingClientRect();
    return mark.top >= top - 1 && mark.bottom <= bottom + 1;
}

/** Where a keyboard leaves too little room for a menu, the row that is marked is in sight, whichever it is. */
async function markInSight(page) {
    await onPhone(page, async () => {
        await page.fresh();
        await page.open(SCREEN);
        await page.say("look");
        await page.browser.size(360, 190);
        await page.until(() => innerHeight < 300);
        await pause(100);
        holds(await page.run(() => {
            const upper = document.getElementById("upper");
            return upper.scrollHeight > upper.clientHeight;
        }), "all of the menu has room");
        for (const key of ["ArrowDown", "ArrowDown", "ArrowUp", "ArrowUp", "ArrowDown", "ArrowDown"]) {
            await page.browser.press(key);
            await page.rests();
            holds(await page.run(markIsSeen), `the marked row is not seen after ${key}`);
        }
        await views(page, SIZE);
        holds(await page.run(markIsSeen), "the marked row is not seen without the keyboard");
    });
}

/** A number in the list of lines stands beside the first row of its line. */
async function numbersOfLines(page) {
    await onPhone(page, async () => {
        await page.fresh();
        await page.tap("#example");
        await page.rests();
        await page.sayAll(["look", "examine the old lighthouse on the hill through the window"]);
        await opens(page, "menu-lines", "lines");
        const [one, two] = await page.run(() => [...document.querySelectorAll("#line-list button")].map((it) => {
            const { top, height } = it.getBoundingClientRect();
            return { height, from: top - it.parentElement.getBoundingClientRect().top };
        }));
        holds(two.height > one.height, "the second line has one row");
        same(await page.run(() => getComputedStyle(document.querySelector("#line-list button")).verticalAlign), "top");
        holds(one.from < 2 && two.from < 2, `the lines begin ${one.from} and ${two.from} pixels below their numbers`);
        await leaves(page, "lines");
    });
}

/** A hundred lines by keys, saved by a name, kept over a reload, gone on with, and restored. */
async function hundredLines(page) {
    const lines = Array.from({ length: 100 }, (_, i) =>
        ["look", "open bag", "north", "south", "inventory", "close bag"][i % 6]);
    const later = ["north", "west", "inventory"];
    const file = join(page.browser.folder, "profile", "hundred.qzl");
    await page.fresh();
    await page.click("#example");
    await page.rests();
    await page.sayAll(lines);
    await page.send("save");
    await page.shown("saving");
    await page.fill("save-name", "A hundred lines");
    await page.browser.press("Enter");
    await goneOn(page);
    await page.keeps(101);
    await page.reload();
    await page.rests();
    await inSight(page, "after a reload of a hundred lines");
    await page.sayAll(later);
    await page.send("restore");
    await page.shown("restoring");
    const slot = await page.run(() => document.querySelector("#slots .pick").innerText);
    holds(slot.startsWith("A hundred lines") && slot.includes("line 101"), `the saved game is called ${slot}`);
    await page.click("#slots .pick");
    await goneOn(page);
    await inSight(page, "after a game of a hundred lines was restored");
    await page.say("inventory");
    const all = [...lines, "save", ...later, "restore", "inventory"];
    same(await page.transcript(), native(["play", "--echo", "--save", file, Z5], joined(all)).text, "the transcript");
    await page.lines();
    same(await page.run(() => document.querySelectorAll("#line-list li").length), all.length, "the lines of the list");
    await page.leave();
}

export const PHONE = [
    ["an evening with a phone", evening],
    ["windows with text of each size on a phone", windowsOfLargeText],
    ["a quotation is whole on a phone", wholeBox],
    ["the marked row of a menu stays in sight", markInSight],
    ["numbers of lines", numbersOfLines],
    ["a hundred lines, a saved game and a reload", hundredLines],
];
