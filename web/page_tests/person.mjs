// What a person meets: where the focus is and what is typed then, what is seen of the newest turn, and what is spoken.
// All is done by keys, the mouse and fingers of the browser.

import { EXAMPLES, MENU, holds, join, native, pause, readFileSync, same } from "./page.mjs";
import { blorb } from "./keeping.mjs";
import { counting, telling, titled } from "./stories.mjs";

const Z5 = join(EXAMPLES, "lighthouse.z5");

const lastTyped = () => [...document.querySelectorAll("#scroller .typed")].pop()?.textContent.trimEnd() ?? "";
const isOpen = () => document.querySelector("dialog[open]") !== null;

/** Until no window stands over the page, and the story reads. */
async function goneOn(page) {
    await page.until(() => !document.querySelector("dialog[open]"));
    await page.rests();
}

/** Types a line without a look at where it goes: all of it stands in the line, and Enter sends it. */
async function typesOn(page, line, what) {
    await page.browser.write(line);
    same(await page.focus(), `line ${line.length}`, `the focus and the caret ${what}`);
    same(await page.run(() => document.getElementById("line").value), line, `the line ${what}`);
    await page.browser.press("Enter");
    await page.rests();
    same(await page.run(lastTyped), line, `what was typed ${what}`);
}

/** How a window is left: by a hand on one of its buttons, or by a key. */
const LEAVES = {
    "the mouse": (page, button) => page.click(button),
    "a finger": (page, button) => page.tap(button),
};

/**
 * After a game was saved or restored, or was not, the caret is in the line, and what is typed next is its next line.
 */
async function typesAfterSaving(page) {
    await page.fresh();
    await page.click("#example");
    await page.rests();
    const tries = [["save", "#save-none"], ["save", "#saving .head button"], ["save", "#keep"],
        ["restore", "#restore-none"],
        ["restore", "#restoring .head button"], ["restore", "#slots .pick"], ["save", "#saving-slots .pick"]];
    for (const [how, leave] of Object.entries(LEAVES))
        for (const [command, button] of tries) {
            await page.say(command);
            await page.until(isOpen);
            await leave(page, button);
            await page.until(() => !document.querySelector("#saving[open], #restoring[open]"));
            await page.rests();
            // (a game of this name may be here already)
            if (await page.isShown("asking"))
                await leave(page, "#asking-yes");
            await goneOn(page);
            same((await page.focus()).split(" ")[0], "line",
                `the focus after ${command} was left by ${how} on ${button}`);
            await typesOn(page, "examine letter", `after ${command} was left by ${how} on ${button}`);
        }
}

/** Letters that come before the story has read again, while the window closes, are not lost either. */
async function typesAtOnce(page) {
    await page.fresh();
    await page.click("#example");
    await page.rests();
    const leaves = { ...LEAVES, "Enter": (it) => it.browser.press("Enter"), "Escape": (it) =>
        it.browser.press("Escape") };
    for (const [how, leave] of Object.entries(leaves)) {
        await page.say("save");
        await page.until(isOpen);
        await page.fill("save-name", `by ${how}`);
        await leave(page, "#keep");
        // (a tap is one some time after the finger has left)
        if (how === "a finger")
            await page.until(() => !document.querySelector("dialog[open]"));
        await page.browser.write("wait");
        await page.browser.press("Enter");
        await goneOn(page);
        same(await page.run(lastTyped), "wait", `what was typed at once after a game was saved by ${how}`);
    }
}

/** A window that is left by the mouse, a finger or a key gives the line to letters, and a space in them stays. */
async function typesAfterWindows(page) {
    await page.fresh();
    await page.open(MENU);
    const leaves = { ...LEAVES, Escape: (it) => it.leave() };
    for (const [how, leave] of Object.entries(leaves))
        for (const button of ["#show-lines", "#show-menu", "#show-inside"]) {
            await (how === "a finger" ? page.tap(button) : page.click(button));
            await page.until(isOpen);
            await leave(page, "dialog[open] .head button");
            await goneOn(page);
            await typesOn(page, "look up", `after ${button} was left by ${how}`);
        }
    same(await page.transcript(), native(["play", "--echo", MENU], "look up\n".repeat(9)).text, "the transcript");
    holds(!await page.run(isOpen), "a window is open");
}

const WALK = ["open bag", "take letter", "north", "look", "west", "look", "east", "inventory", "look"];

/** Plays so far that the text scrolls, and waits until that is kept. */
async function walked(page) {
    await page.fresh();
    await page.click("#example");
    await page.rests();
    await page.sayAll(WALK);
    await page.seesNewest("the newest turn is not seen while it is played");
    await page.keeps(WALK.length);
}

/** What a page shows that goes on with a play: its newest turn, its line with the caret, its rows by its width. */
async function goesOnInSight(page, what) {
    await page.rests();
    await page.seesNewest(`the newest turn is not seen ${what}`);
    same(await page.focus(), "line 0", `the focus ${what}`);
    const isNarrow = await page.run(() => innerWidth < 600);
    same(await page.run(() => document.querySelectorAll("#upper .grid").length), isNarrow ? 0 : 1, `the grids ${what}`);
    await typesOn(page, "look", what);
    await page.keeps(WALK.length + 1);
}

/** After a reload and in a new tab the reader is where the play was: nothing has to be clicked or scrolled. */
async function backInSight(page) {
    for (const width of [1100, 360]) {
        await page.browser.size(width, 640);
        try {
            await walked(page);
            await page.reload();
            await goesOnInSight(page, `after a reload at ${width} pixels`);
            await page.click("#undo");
            await page.rests();
            await page.keeps(WALK.length);
            const before = await page.browser.tab();
            try {
                await page.browser.go(page.url);
                await page.ready();
                await goesOnInSight(page, `in a new tab at ${width} pixels`);
            } finally {
                await page.browser.goTo(before, true);
            }
        } finally {
            await page.browser.size(1100, 800);
        }
    }
}

/** In the page: notes what the worker is asked for, the snapshots that it gives, and the parts that are drawn. */
function watchInPage() {
    window.seen = { calls: [], snapshots: 0, drawn: 0 };
    const post = Worker.prototype.postMessage;
    Worker.prototype.postMessage = function(message) {
        window.seen.calls.push(message.call);
        this.addEventListener("message", ({ data }) => {
            window.seen.snapshots += data.number === message.number && data.result?.snapshot ? 1 : 0;
        });
        return post.apply(this, arguments);
    };
    new MutationObserver((changes) => {
        window.seen.drawn += changes.reduce((sum, { addedNodes }) =>
            sum + [...addedNodes].filter((it) => it.className === "turn").length, 0);
    }).observe(document.getElementById("scroller"), { childList: true, subtree: true });
}

/** The play of the page as a file that is shared. */
async function sharedFile(page) {
    await page.lines();
    const file = JSON.parse(readFileSync(await page.fileAfter(() => page.click("#play-file"))));
    await page.leave();
    return file;
}

/** Goes back to before a line of the list, by the mouse. */
async function backTo(page, line) {
    await page.lines();
    await page.click(`#line-list li:nth-child(${line}) button`);
    await page.until(() => !document.querySelector("dialog[open]"));
    await page.rests();
}

/** A play of 1,000 lines is repeated without snapshots and drawings in between, and so in a moment. */
async function repeatsAtOnce(page) {
    const lines = Array.from({ length: 1000 }, (_, i) =>
        ["look", "open bag", "north", "south", "inventory", "close bag"][i % 6]);
    const text = (count) => native(["play", "--echo", Z5], lines.slice(0, count).map((it) => `${it}\n`).join("")).text;
    await page.fresh();
    await page.click("#example");
    await page.rests();
    const file = await sharedFile(page);
    await page.run(watchInPage);
    const began = Date.now();
    await page.drop(Buffer.from(JSON.stringify({ ...file, answers: lines })), "long.play.json");
    await page.until(() => document.getElementById("told").textContent.includes("shared play"));
    await page.rests();
    const took = Date.now() - began;
    const seen = await page.run(() => window.seen);
    same(seen.snapshots, 1, "the number of snapshots that were taken");
    holds(seen.drawn <= 41, `${seen.drawn} parts were drawn`);
    await page.seesNewest("the newest turn is not seen");
    same(await page.focus(), "line 0", "the focus and the caret");
    same(await page.transcript(), text(1000), "the transcript");
    await page.lines();
    const again = Date.now();
    await page.click("#line-list li:nth-child(501) button");
    await page.until(() => !document.querySelector("dialog[open]"));
    await page.rests();
    const back = Date.now() - again;
    same(await page.transcript(), text(500), "the transcript before line 501");
    return `1000 lines in ${took} ms, back to line 501 in ${back} ms`;
}

/** Going back begins at the nearest snapshot, and the story's own UNDO goes as far as before. */
async function goesFromNearest(page) {
    await page.fresh();
    await page.click("#example");
    await page.rests();
    await page.sayAll(["undo on", "north", "west", "look"]);
    await page.run(watchInPage);
    for (const line of [4, 3]) {
        await backTo(page, line);
        same(await page.focus(), "line 0", `the focus before line ${line}`);
        await page.seesNewest(`the newest turn is not seen before line ${line}`);
    }
    holds(!(await page.run(() => window.seen.calls)).includes("open"), "the story was begun again");
    const text = (...lines) => native(["play", "--echo", Z5], lines.map((it) => `${it}\n`).join("")).text;
    await page.say("undo");
    same(await page.transcript(), text("undo on", "north", "undo"), "the transcript after UNDO");
    await page.keeps(3);
    await page.reload();
    await page.rests();
    await page.say("undo");
    same(await page.transcript(), text("undo on", "north", "undo", "undo"), "the transcript after a reload and UNDO");
}

/** A play that takes long to repeat says how far it is, and can be stopped; the lines after that can be gone to. */
async function stopsRepeating(page) {
    await page.fresh();
    // (turns so short that the one in which Stop is pressed ends at its read, also on a slow machine)
    await page.drop(counting("Done.\n>", "", 40), "counts.z5");
    await page.until(() => document.getElementById("title").title === "counts.z5");
    await page.rests();
    const file = await sharedFile(page);
    const answers = Array.from({ length: 999 }, (_, i) => `line ${i}`);
    await page.drop(Buffer.from(JSON.stringify({ ...file, answers })), "slow.play.json");
    await page.until(() =>
        /^Repeating the play: [1-9]\d* of 999\.$/.test(document.getElementById("running-words").textContent));
    await page.click("#stop");
    await page.until(() => !document.getElementById("ask").hidden && document.getElementById("running").hidden);
    await page.rests();
    same(await page.focus(), "line 0", "the focus and the caret after Stop");
    await page.lines();
    const [given, later] = await page.run(() => ["li:not(.later)", "li.later"].map((kind) =>
        document.querySelectorAll(`#line-list ${kind}`).length));
    same(given + later, 1000, "the number of lines, with the end of the list");
    holds(given > 0 && later > 1, `${given} lines and ${later} later ones`);
    await page.leave();
    await page.say("on");
    same(await page.run(lastTyped), "on", "what was typed after Stop");
    return `stopped after ${given} of 999`;
}

/** Each turn is spoken once, and all of it; the status line where it changes, and each line is a heading. */
async function hearsTurns(page) {
    const lines = ["open bag", "inventory", "north", "look", "west", "examine me", "east"];
    const place = async () => (await page.text("upper")).trim().split(/ {3,}/)[0];
    await page.fresh();
    await page.hear();
    await page.click("#example");
    await page.rests();
    let text = native(["play", "--echo", Z5]).text;
    const first = await page.heard();
    same(first.log, text.slice(0, -1), "what is spoken of the beginning");
    same(first.said, "Jetty. Score: 0.", "what is spoken of the status line at the beginning");
    let before = await place();
    for (const [i, line] of lines.entries()) {
        await page.say(line);
        const here = await place();
        const now = native(["play", "--echo", Z5], lines.slice(0, i + 1).map((it) => `${it}\n`).join("")).text;
        const { log, said } = await page.heard();
        same(log, `>${now.slice(text.length, -1)}`, `what is spoken of '${line}'`);
        same(said, here === before ? "" : `${here}.`, `what is spoken of the status line after '${line}'`);
        [text, before] = [now, here];
    }
    holds(before !== "Jetty", "the place has not changed");
    const headings = await page.run(() =>
        [...document.querySelectorAll("#scroller [role=heading]")].map((it) => it.textContent.trim()));
    same(headings.join(), lines.join(), "the headings of the text");
}

/**
 * What is not new is not spoken again: not after a reload, not where the reader goes back, not where a play is shown.
 */
async function hearsNothingAgain(page) {
    await page.fresh();
    await page.open(MENU);
    await page.sayAll(["hello", "roll", "hello"]);
    const file = await sharedFile(page);
    await page.hear();
    await page.click("#undo");
    await page.until(() => document.getElementById("told").textContent !== "");
    await page.rests();
    let heard = await page.heard();
    same(`${heard.log}|${heard.told}`, "|Went back one step.", "what is spoken of Undo");
    await page.say("hello");
    same((await page.heard()).log, ">hello\nNothing happens.\n\n", "what is spoken after Undo");
    await backTo(page, 2);
    same((await page.heard()).log, "", "what is spoken where the reader goes back");
    await page.drop(Buffer.from(JSON.stringify(file)), "a.play.json");
    await page.until(() => document.getElementById("told").textContent.includes("letter by letter"));
    await page.rests();
    heard = await page.heard();
    same(heard.log, "", "what is spoken of a play that is shown");
    holds(heard.told.split("|").length === 1, `this is told of a play that is shown: ${heard.told}`);
    await page.keeps(3);
    await page.reload();
    await page.rests();
    await page.hear();
    await page.say("hello");
    same((await page.heard()).log, ">hello\nNothing happens.\n\n", "what is spoken after a reload");
    holds((await page.run(() => document.querySelectorAll("#scroller .typed").length)) === 4,
        "older lines are gone from the page");
}

/** The end, a fault, and why a story has paused are spoken, once each. */
async function hearsEnds(page) {
    await page.fresh();
    await page.open(MENU);
    await page.hear();
    await page.say("quit");
    same((await page.heard()).said, "The story has ended.", "what is spoken of the end");
    same(await page.text("over-words"), "The story has ended.");
    await page.click("#over-back");
    await page.rests();
    await page.heard();
    await page.say("break");
    const fault = await page.text("over-words");
    holds(fault.startsWith("The story has stopped: "), fault);
    same((await page.heard()).said, fault, "what is spoken of a fault");
    await page.click("#over-back");
    await page.rests();
    await page.heard();
    await page.say("print");
    await page.until(() => document.getElementById("running-words").textContent.includes("printed a lot"));
    same((await page.heard()).said, "The story has printed a lot without asking for input.",
        "what is spoken of a pause");
    await page.click("#step-back");
    await page.rests();
    await page.send("turn");
    await page.shown("stop");
    await page.heard();
    await page.click("#stop");
    await page.until(() => !document.getElementById("go-on").hidden);
    same((await page.heard()).said, "You have stopped the story.", "what is spoken of a stop");
}

/** Text that comes while the story still runs is shown and spoken as it comes, and none of it twice. */
async function hearsParts(page) {
    await page.fresh();
    await page.hear();
    await page.drop(counting("Done.\nNow what?\n>", "First.\nWait"), "parts.z5");
    await page.until(() => document.getElementById("scroller").textContent.includes("First."));
    await page.rests();
    same((await page.heardParts()).join("|"), "First.|\nWaitDone.\nNow what?\n", "what is spoken part by part");
    await page.say("go");
    same((await page.heard()).log, ">go\nFirst.\nWaitDone.\nNow what?\n", "what is spoken of the next turn");
}

/** In the page: how many lines of the story are seen whole. */
function linesSeen() {
    const { top, bottom } = document.getElementById("scroller").getBoundingClientRect();
    const tops = new Set();
    for (const text of document.querySelectorAll("#scroller .text")) {
        const range = document.createRange();
        range.selectNodeContents(text);
        for (const it of range.getClientRects())
            if (it.width > 0 && it.top >= top - 1 && it.bottom <= Math.min(bottom, innerHeight) + 1)
                tops.add(Math.round(it.top));
    }
    return tops.size;
}

/** Does something with a view of another size. */
async function inView(page, width, height, does) {
    await page.browser.size(width, height);
    try {
        await does();
    } finally {
        await page.browser.size(1100, 800);
    }
}

/** Where the keyboard of a phone takes a part of the view, the newest turn stays in it; what else is read, too. */
async function keyboardOnScreen(page) {
    await inView(page, 360, 640, async () => {
        await walked(page);
        await page.tap("#line");
        for (const height of [360, 300, 640]) {
            await page.browser.size(360, height);
            await page.until((it) => Math.abs(innerHeight - it) < 100, height);
            await pause(100);
            await page.seesNewest(`the newest turn is not seen in a view of ${height} pixels`);
        }
        await page.browser.press("PageUp");
        await pause(100);
        const top = await page.run(() => document.getElementById("scroller").scrollTop);
        await page.browser.size(360, 360);
        await page.until(() => innerHeight <= 400);
        await pause(100);
        same(await page.run(() => document.getElementById("scroller").scrollTop), top,
            "where the reader has scrolled to");
    });
}

/**
 * In the page: a visual viewport that a keyboard has made lower, as some phones have it. No driver can open a keyboard.
 */
function lowerInPage(height, scale) {
    Object.defineProperty(visualViewport, "height", { value: height, configurable: true });
    Object.defineProperty(visualViewport, "scale", { value: scale, configurable: true });
    visualViewport.dispatchEvent(new Event("resize"));
}

/** The same where the browser makes the visual viewport alone lower; zooming by two fingers changes nothing. */
async function keyboardOverPage(page) {
    const bottom = () => page.run(() => document.getElementById("ask").getBoundingClientRect().bottom);
    await inView(page, 360, 640, async () => {
        await walked(page);
        const whole = await bottom();
        await page.run(lowerInPage, 330, 1);
        await page.until(() => document.getElementById("ask").getBoundingClientRect().bottom <= 330);
        await page.seesNewest("the newest turn is not seen above the keyboard");
        await typesOn(page, "look", "above the keyboard");
        await page.run(lowerInPage, 200, 2);
        same(await bottom(), whole, "the end of the page where the reader has zoomed in");
        await page.run(lowerInPage, await page.run(() => innerHeight), 1);
        same(await bottom(), whole, "the end of the page without the keyboard");
        await page.reload();
    });
}

/** On its side, a phone shows text where the head was; Undo and the menu are there to be tapped all the same. */
async function onItsSide(page) {
    await inView(page, 640, 360, async () => {
        await walked(page);
        const top = () => page.run(() => document.getElementById("upper").getBoundingClientRect().top);
        holds(await top() < 16, `the status line is at ${await top()}`);
        holds(await page.run(linesSeen) >= 5, `${await page.run(linesSeen)} lines are seen`);
        await page.seesNewest("the newest turn is not seen");
        await page.tap("#undo");
        await page.until((count) => document.querySelectorAll("#scroller .typed").length === count, WALK.length - 1);
        await page.tap("#show-menu");
        await page.until(isOpen);
        await page.tap("#menu .head button");
        await goneOn(page);
        await page.tap("#line");
        await typesOn(page, "look", "on its side");
        await page.browser.write("wait");
        await page.tap("#enter");
        await page.rests();
        same(await page.run(lastTyped), "wait", "what was sent by Enter");
    });
}

/** With a zoom of 400 per cent more than one line of the story is seen. (Firefox makes no window as narrow.) */
async function muchZoom(page) {
    const found = [];
    for (const height of [256, 180])
        await inView(page, 320, height, async () => {
            await walked(page);
            const count = await page.run(linesSeen);
            holds(count > 1, `${count} lines are seen in a view of ${height} pixels`);
            await typesOn(page, "look", "in a low view");
            const wide = await page.run(() => document.documentElement.scrollWidth - innerWidth);
            holds(wide <= 0, `the page is ${wide} pixels too wide`);
            found.push(count);
        });
    return `${found.join(" and ")} lines`;
}

/** No field has letters into which a phone zooms. */
async function largeFields(page) {
    await page.fresh();
    await page.click("#example");
    await page.rests();
    const small = await page.run(() => [...document.querySelectorAll("input:not([type=file]), select")]
        .filter((it) => parseFloat(getComputedStyle(it).fontSize) < 16).map((it) => it.id).join());
    same(small, "", "the fields of small letters");
}

/** Blank lines at the start are not seen, and stand in the transcript as they came; those after that are seen. */
async function blankStart(page) {
    await page.fresh();
    for (const [i, gap] of ["", "\n\n\n\n \n\n"].entries()) {
        const text = `${gap}A room.\n\n\nA door.\n>`;
        await page.drop(telling(text), `blank${i}.z5`);
        await page.until((name) => document.getElementById("title").title === name, `blank${i}.z5`);
        await page.rests();
        const [from, to] = await page.run(() => {
            const it = document.querySelector("#scroller .text");
            const { top, height } = it.getBoundingClientRect();
            return [top - document.getElementById("scroller").getBoundingClientRect().top,
                height / parseFloat(getComputedStyle(it).lineHeight)];
        });
        holds(from < 40 && to > 3.5 && to < 4.5, `the text is at ${from}, and ${to} lines high`);
        same(await page.transcript(), text, "the transcript");
    }
}

/** The page's Undo leaves each prompt whole: the one that it answers, and the one of the next line. */
async function undoneWhole(page) {
    await page.fresh();
    await page.click("#example");
    await page.rests();
    await page.sayAll(["undo on", "north"]);
    await page.hear();
    await page.click("#undo");
    await page.rests();
    const { log } = await page.heard();
    holds(log.startsWith(">(Undo)\nThat turn is taken back.\n\nJetty\n"), `this is spoken of Undo: ${log}`);
    same(await page.text("prompt"), ">", "the prompt after Undo");
    await page.say("look");
    const last = await page.run(() => [...[...document.querySelectorAll("#scroller .turn")].pop().children]
        .slice(0, 2).map((it) => `${it.className}:${it.textContent}`).join("|"));
    same(last, "prompt:>|typed:look\n", "the line after Undo");
    const text = await page.transcript();
    const file = await sharedFile(page);
    await page.fresh();
    await page.drop(Buffer.from(JSON.stringify(file)), "undone.play.json");
    await page.until(() => document.getElementById("told").textContent.includes("letter by letter"));
    same(await page.transcript(), text, "the transcript of the play that is repeated");
    holds((await page.text("scroller")).includes(">(Undo)\nThat turn"),
        "the prompt is not whole in the play that is repeated");
}

/** A text of several lines that is pasted is as many lines; what stands behind the last line end waits for Enter. */
async function pastes(page) {
    await page.fresh();
    await page.click("#example");
    await page.rests();
    await page.browser.write("open ");
    await page.browser.paste("bag\ntake letter\r\n\nnor");
    await page.until(() => document.querySelectorAll("#scroller .typed").length === 3);
    await page.rests();
    same(await page.focus(), "line 3", "the focus and the caret after a paste");
    await page.browser.write("th");
    await page.browser.press("Enter");
    await page.rests();
    const lines = "open bag\ntake letter\n\nnorth\n";
    same(await page.transcript(), native(["play", "--echo", Z5], lines).text, "the transcript");
    await page.browser.paste("look");
    await page.until(() => document.getElementById("line").value === "look");
    same(await page.run(lastTyped), "north", "what was typed last where one line is pasted");
}

/** A browser that has no room for a play says so once, as it does for a saved game. */
async function fullStore(page) {
    const words = "The browser has no room to keep this play. Save the game as a file before you leave.";
    await page.fresh();
    await page.open(MENU);
    await page.keeps(0);
    await page.hear();
    await page.run(() => {
        IDBObjectStore.prototype.put = () => {
            throw new DOMException("full", "QuotaExceededError");
        };
    });
    await page.say("hello");
    await page.until((it) => document.getElementById("told").textContent === it, words);
    same((await page.heard()).told, words, "what is told of a full store");
    await page.say("roll");
    await page.rests();
    same(await page.told(), "", "what is told after the next line");
}

/** A file that is dropped while a window stands over the page closes it, and what is typed goes to the new story. */
async function dropsClose(page) {
    for (const button of ["show-menu", "show-lines", "show-inside"]) {
        await page.fresh();
        await page.open(MENU);
        await page.click(`#${button}`);
        await page.until(isOpen);
        await page.drop(readFileSync(Z5), "dropped.z5");
        await page.until(() => document.getElementById("title").title === "dropped.z5");
        await goneOn(page);
        await typesOn(page, "look", `after a drop over the window of ${button}`);
    }
    await page.click("#show-menu");
    await page.until(isOpen);
    await page.drop(Buffer.from("no story"), "tale.txt");
    await page.until(() => document.getElementById("told").textContent.startsWith("tale.txt: not a story"));
    holds(!await page.run(isOpen), "the menu hides what is told of a file");
}

/** 'Saved games' in the menu restores the one that is chosen, by the story's own command. */
async function restoresFromMenu(page) {
    await page.fresh();
    await page.click("#example");
    await page.rests();
    await page.sayAll(["open bag", "take letter", "save"]);
    await page.click("#keep");
    await goneOn(page);
    await page.say("north");
    for (const leave of Object.values(LEAVES)) {
        await page.menu("show-saves");
        await page.until(isOpen);
        await leave(page, "#slots .pick");
        await page.until(() => [...document.querySelectorAll("#scroller .typed")].pop().textContent === "restore\n");
        await goneOn(page);
        same((await page.text("upper")).trim().split(/ {3,}/)[0], "Jetty", "the place that was restored");
        await typesOn(page, "inventory", "after a game was restored from the menu");
        await page.say("north");
    }
    holds((await page.text("scroller")).includes("a letter"), "the letter is not there");
    await page.open(MENU);
    await page.menu("show-saves");
    await page.choose(`${Z5}.dfrotz`, "saved-file");
    await page.click("#slots .pick");
    await page.until(() =>
        document.getElementById("told").textContent.startsWith("The story did not take the command RESTORE."));
    await page.say("menu");
    await page.menu("show-saves");
    await page.click("#slots .pick");
    await page.until(() => document.getElementById("told").textContent.startsWith("The story awaits no command."));
}

/**
 * A saved game, a story for another machine and a story that was cut off have their own words; the play that is on
 * stays.
 */
async function otherFiles(page) {
    const story = readFileSync(Z5);
    const glulx = Buffer.concat([Buffer.from("Glul"), Buffer.alloc(500)]);
    const chunk = Buffer.concat([Buffer.from("GLUL\0\0\0\x04"), glulx.subarray(0, 4)]);
    const other = Buffer.concat([Buffer.from("FORM\0\0\0\x1aIFRSAUTH\0\0\0\x01a\0"), chunk]);
    const tries = [
        [readFileSync(`${Z5}.dfrotz`), "game.qzl", "this is a saved game. Open its story, and restore it there."],
        [glulx, "other.ulx", "not a story: it is a Glulx story, which is for another machine"],
        [other, "other.gblorb", "this Blorb file contains a Glulx story, which is for another machine."],
    ];
    const cut = story.subarray(0, story.length - 1000);
    const whole = story.readUInt16BE(0x1a) * 4;
    const [missing, all] = [whole - cut.length, whole].map((it) => it.toLocaleString("en"));
    const lacks = `cut.z5 is cut off: ${missing} of its ${all} bytes are missing.`;
    await page.fresh();
    await page.drop(cut, "cut.z5");
    await page.until((it) => document.getElementById("told").textContent === it, lacks);
    await page.open(MENU);
    await page.say("hello");
    for (const [bytes, name, words] of tries) {
        await page.drop(bytes, name);
        await page.until((it) => document.getElementById("told").textContent === it, `${name}: ${words}`);
    }
    await page.drop(cut, "cut.z5");
    await page.asks("Play a story that is cut off?", "Play it", "No");
    same(await page.text("asking-words"), lacks);
    await page.click("#asking-no");
    await goneOn(page);
    await typesOn(page, "roll", "after files that are no stories");
    same(await page.transcript(), native(["play", "--echo", MENU], "hello\nroll\n").text, "the transcript");
}

/** Where two tabs play one story, the one that goes on later asks which play is kept. */
async function twoTabs(page) {
    const typed = () => [...document.querySelectorAll("#scroller .typed")].map((it) => it.textContent.trim()).join();
    const asked = ["Which play goes on?", "This one", "The other one"];
    await page.fresh();
    await page.open(MENU);
    await page.say("first");
    await page.keeps(1);
    const one = await page.browser.tab();
    await page.browser.go(page.url);
    await page.ready();
    await page.rests();
    await page.sayAll(["second", "next"]);
    await page.keeps(3);
    const two = await page.browser.goTo(one);
    await page.say("other");
    await page.asks(...asked);
    await page.click("#asking-no");
    await page.until(() => document.querySelectorAll("#scroller .typed").length === 3);
    await goneOn(page);
    same(await page.run(typed), "first,second,next", "the lines of the other play");
    await typesOn(page, "fourth", "after the other play was chosen");
    await page.keeps(4);
    await page.browser.goTo(two);
    await page.say("own");
    await page.asks(...asked);
    await page.click("#asking-yes");
    await goneOn(page);
    await typesOn(page, "else", "after this play was chosen");
    await page.keeps(5);
    await page.reload();
    await page.rests();
    same(await page.run(typed), "first,second,next,own,else", "the lines after a reload");
    await page.browser.goTo(one, true);
}

/** The head shows what a story is called: by its Blorb file, by its first bold line, or else by its file's name. */
async function titles(page) {
    const metadata = `<?xml version="1.0"?><ifindex xmlns="http://babel.ifarchive.org/protocol/iFiction/"><story>
        <bibliographic><title>Salt &amp; Sky</title></bibliographic></story></ifindex>`;
    const tries = [
        [titled("A BOLD TALE", "Once.\n>"), "bold.z5", "A BOLD TALE"], [telling("Once.\n>"), "plain.z5", "plain.z5"],
        [blorb(titled("A BOLD TALE", "Twice.\n>"), metadata), "salt.zblorb", "Salt & Sky"],
        [titled("\n\nA LATE TALE", "\nOnce.\n>"), "late.z5", "A LATE TALE"],
        [titled("Bold", " words.\n>"), "words.z5", "Bold"],
    ];
    await page.fresh();
    for (const [story, name, wanted] of tries) {
        await page.drop(story, name);
        await page.until((it) => document.getElementById("title").title === it, name);
        await page.rests();
        same(await page.text("title"), wanted, `the head of ${name}`);
        same(await page.run(() => document.title), `${wanted} · zkit`, `the title of the page with ${name}`);
    }
    await page.drop(tries[2][0], "salt.zblorb");
    await page.until(() => document.getElementById("title").title === "salt.zblorb");
    await page.rests();
    await page.say("look");
    await page.keeps(1);
    await page.reload();
    await page.rests();
    same(await page.text("title"), "Salt & Sky", "the head after a reload");
}

/**
 * The first page lists what was played here, the newest first; one of these is gone on with by the mouse or a finger.
 */
async function recentStories(page) {
    const listed = () =>
        page.run(() => [...document.querySelectorAll("#recent-list .name")].map((it) => it.textContent).join());
    await page.fresh();
    same(await page.isShown("recent"), false, "whether a list of nothing is shown");
    await page.click("#example");
    await page.rests();
    await page.sayAll(WALK);
    await page.keeps(WALK.length);
    await page.open(MENU);
    await page.say("hello");
    await page.keeps(1);
    for (const [how, choose] of Object.entries(LEAVES)) {
        await page.menu("open");
        await page.shown("recent");
        same(await listed(), "menu.z5,The Lamp on Skärvø", "the stories that were played");
        same((await page.focus()).split(" ")[0], "choose", "the focus on the first page");
        await choose(page, "#to-play");
        await page.shown("play");
        await typesOn(page, "hello", `back in the play by ${how}`);
        await page.menu("open");
        await choose(page, "#recent-list li:last-child button");
        await page.until(() => document.getElementById("title").title === "lighthouse.z5");
        await page.rests();
        same(await page.text("title"), "The Lamp on Skärvø", "the head");
        await page.seesNewest(`the newest turn is not seen after a story was chosen by ${how}`);
        await typesOn(page, "look", `after a story was chosen by ${how}`);
        await page.menu("open");
        await choose(page, "#recent-list li:last-child button");
        await page.until(() => document.getElementById("title").title === "menu.z5");
        await page.rests();
        await page.say("hello");
    }
}

/** The page says which zkit it is and under which licences; no sentence of it stands twice. */
async function wordsOfPage(page) {
    await page.fresh();
    const sentences = await page.run(() => {
        const blocks = [...document.querySelectorAll("p, li, h1, h2, h3")].map((it) =>
            it.textContent.replace(/\s+/g, " ").trim());
        return blocks.flatMap((it) => it.split(/(?<=[.!?:]) /)).filter((it) => it.split(" ").length > 3);
    });
    const twice = sentences.filter((it, i) => sentences.indexOf(it) !== i);
    same(twice.join("|"), "", "the sentences that stand twice");
    const clauses = sentences.flatMap((it) => it.match(/Only a deterministic interpreter/g) ?? []);
    holds(clauses.length < 2, "a promise stands twice");
    const licences = "You may use it under the MIT License or the Apache License 2.0.";
    const words = `${native(["--version"]).text.trim()}. ${licences}`;
    holds((await page.text("welcome")).includes(words), await page.text("welcome"));
}

/** In the page: how many letters the lines of the story's first text have, but for the last one. */
function lettersInPage() {
    const text = document.querySelector("#scroller .text").firstChild;
    const range = document.createRange();
    const tops = new Map();
    for (let i = 0; i < text.length; i++) {
        range.setStart(text, i);
        range.setEnd(text, i + 1);
        const { top } = range.getBoundingClientRect();
        tops.set(top, (tops.get(top) ?? 0) + 1);
    }
    return [...tops.values()].slice(0, -2);
}

/** A line of the story has 65 to 75 letters where there is room, and text of another size is so for all of the page. */
async function measure(page) {
    const sentence = "The path winds between rocks and heather, and north of it stands the lighthouse of the island. ";
    const words = `${sentence.repeat(9)}\n>`;
    await page.fresh();
    await page.drop(telling(words), "long.z5");
    await page.until(() => document.getElementById("title").title === "long.z5");
    await page.rests();
    const letters = await page.run(lettersInPage);
    const mean = letters.reduce((sum, it) => sum + it, 0) / letters.length;
    holds(mean >= 65 && mean <= 75, `a line has ${mean} letters`);
    const sizes = () => page.run(() => ["title", "show-menu", "scroller", "line", "asked", "enter"].map((id) =>
        parseFloat(getComputedStyle(document.getElementById(id)).fontSize)));
    const before = await sizes();
    await page.click("#show-menu");
    for (let i = 0; i < 20 && await page.run(() => document.activeElement.id) !== "size"; i++)
        await page.browser.press("Tab");
    await page.browser.press("End");
    await page.until(() => document.getElementById("size").value === "1.5");
    const after = await sizes();
    same(after.map((it, i) => Math.round(10 * it / before[i])).join(), before.map(() => 15).join(),
        "the sizes of letters");
    await page.leave();
    return `${Math.round(mean)} letters`;
}

export const PERSON = [
    ["typing after a game was saved", typesAfterSaving],
    ["typing at once after a game was saved", typesAtOnce],
    ["typing after a window was left", typesAfterWindows],
    ["a reload and a new tab show the newest turn", backInSight],
    ["a play that is repeated at once", repeatsAtOnce],
    ["going back from the nearest snapshot", goesFromNearest],
    ["a play that is stopped while it is repeated", stopsRepeating],
    ["each turn is spoken once", hearsTurns],
    ["nothing is spoken again", hearsNothingAgain],
    ["ends and pauses are spoken", hearsEnds],
    ["parts of a turn are spoken as they come", hearsParts],
    ["a keyboard on the screen", keyboardOnScreen],
    ["a keyboard over the page", keyboardOverPage],
    ["a phone on its side", onItsSide],
    ["much zoom", muchZoom],
    ["fields of large letters", largeFields],
    ["blank lines at the start", blankStart],
    ["Undo leaves prompts whole", undoneWhole],
    ["a paste of several lines", pastes],
    ["a store that is full", fullStore],
    ["files that are dropped over a window", dropsClose],
    ["saved games are restored from the menu", restoresFromMenu],
    ["files that are no whole stories", otherFiles],
    ["two tabs of one story", twoTabs],
    ["the head has the story's title", titles],
    ["stories that were played here", recentStories],
    ["the words of the page", wordsOfPage],
    ["the measure and the size of text", measure],
];
