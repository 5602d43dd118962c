// How a reader uses the page: lines, keys and the arrows, Undo and the list of lines, other stories, and what is
// inside.

import { randomBytes } from "node:crypto";
import { writeFileSync } from "node:fs";
import { EXAMPLES, MENU, ROOT, basename, holds, join, native, readFileSync, same } from "./page.mjs";
import { asking, counting, repeating, restoring, styled, telling, tellingStatus } from "./stories.mjs";

const Z5 = join(EXAMPLES, "lighthouse.z5");

const typedLines = () =>
    [...document.querySelectorAll("#scroller .typed")].map((it) => it.textContent.trimEnd()).join();
const lineNow = () => document.getElementById("line").value;

/** Drops a story, and waits for its first read. */
async function play(page, story, name) {
    await page.drop(story, name);
    await page.until((title) => document.getElementById("title").title === title, name);
    await page.rests();
}

/** Lines that are typed while the story runs are its next answers. */
async function typedAhead(page) {
    await page.fresh();
    await play(page, counting("Done.\n>"), "counts.z5");
    const lines = ["one", "two", "two", "three", "four"];
    for (const line of lines)
        await page.send(line);
    await page.until((wanted) => [...document.querySelectorAll("#scroller .typed")].length === wanted, lines.length);
    await page.rests();
    same(await page.run(typedLines), lines.join(), "the lines that were typed ahead");
}

/** The arrows lead through the lines, each once where it came twice, to the first one and past the last one. */
async function arrows(page) {
    await page.fresh();
    await page.open(MENU);
    await page.sayAll(["look", "hello", "hello", "", "jump"]);
    const keys = [["ArrowUp", "jump"], ["ArrowUp", "hello"], ["ArrowUp", "look"], ["ArrowUp", "look"],
        ["ArrowDown", "hello"],
        ["ArrowDown", "jump"], ["ArrowDown", ""], ["ArrowDown", ""], ["ArrowUp", "jump"]];
    for (const [i, [key, line]] of keys.entries()) {
        await page.browser.press(key);
        same(await page.run(lineNow), line, `the line after arrow ${i + 1}`);
    }
}

/** A short prompt stands before the field, and a longer one above it. The field takes as much as the story does. */
async function prompts(page) {
    await page.fresh();
    const tries = [[">", ">", "What do you do?"], ["Your choice:", "Your choice:", "What do you do?"],
        ["Your choices:", "›", "Your choices:"], ["", "›", "What do you do?"]];
    for (const [i, [prompt, short, asked]] of tries.entries()) {
        await play(page, telling(`A room.\n${prompt}`), `prompt${i}.z5`);
        same(await page.text("prompt"), short, `what stands before the field for '${prompt}'`);
        same(await page.text("asked"), asked, `what stands above it for '${prompt}'`);
    }
    await page.browser.write("x".repeat(83));
    same((await page.run(lineNow)).length, 80, "the length of a line for a story that takes 80 letters");
}

/** Keys have buttons, and each has its word in the list of lines. */
async function keysByButtons(page) {
    await page.fresh();
    await page.open(MENU);
    await page.sayAll(["", "menu"]);
    await page.click("#space");
    await page.rests();
    await page.browser.press("n");
    await page.rests();
    await page.click("#enter");
    await page.until(() => document.getElementById("scroller").textContent.includes("A test did."));
    await page.rests();
    await page.browser.press("q");
    await page.until(() => document.getElementById("asked").textContent !== "Press a key");
    same(await page.isShown("space"), false, "whether a line has a button for Space");
    await page.lines();
    const list = await page.run(() =>
        [...document.querySelectorAll("#line-list li")].map((it) => it.textContent).join());
    same(list, "(an empty line),menu,key Space,key n,key Enter,key q", "the list of lines");
}

/** A letter that is typed goes into the line wherever the focus was left, but for what a button takes. */
async function lettersAnywhere(page) {
    await page.fresh();
    await page.open(MENU);
    const leave = { escape: () => page.leave(), mouse: () => page.click("dialog[open] .head button") };
    for (const [button, id] of [["show-lines", "show-lines"], ["show-menu", "show-menu"],
        ["show-inside", "show-inside"]])
        for (const [how, does] of Object.entries(leave)) {
            await page.click(`#${button}`);
            await page.until(() => document.querySelector("dialog[open]"));
            await does();
            await page.until((it) => document.activeElement.id === it && !document.querySelector("dialog[open]"), id);
            await page.say("look");
            same((await page.run(typedLines)).split(",").pop(), "look",
                `what was typed after ${button} was left by ${how}`);
        }
    await page.lines();
    await page.leave();
    await page.browser.press("Enter");
    await page.shown("lines");
}

/** Undo goes back further than the page keeps states, and an Undo of the story's own states counts as an answer. */
async function undoFar(page) {
    await page.fresh();
    await page.open(MENU);
    await page.sayAll(Array.from({ length: 35 }, (_, i) => i % 5 ? "roll" : "hello"));
    for (let left = 34; left > 0; left--) {
        await page.click("#undo");
        await page.until((count) => document.getElementById("play").dataset.busy === "false"
            && document.querySelectorAll("#scroller .typed").length === count, left);
    }
    same(await page.transcript(), native(["play", "--echo", MENU], "hello\n").text, "the transcript");
    await page.open(Z5);
    await page.sayAll(["undo on", "north"]);
    await page.click("#undo");
    await page.rests();
    await page.say("look");
    await page.lines();
    const list = await page.run(() =>
        [...document.querySelectorAll("#line-list li")].map((it) => it.textContent).join());
    same(list, "undo on,north,(Undo),look", "the list of lines");
    await page.leave();
    await page.click("#show-menu");
    holds((await page.text("about")).endsWith(", line 4"), await page.text("about"));
}

/** An end has a way back and a way to begin again. */
async function ends(page) {
    await page.fresh();
    await page.open(MENU);
    for (const [button, typed] of [["over-back", "roll"], ["over-again", ""]]) {
        await page.sayAll(button === "over-back" ? ["roll", "quit"] : ["quit"]);
        await page.click(`#${button}`);
        await page.until(() => !document.getElementById("ask").hidden);
        await page.rests();
        same(await page.isShown("over"), false, "whether the end is still shown");
        same(await page.run(typedLines), typed, `the lines after ${button}`);
    }
    await page.say("break");
    same(await page.isShown("over-back"), true, "whether a fault has a way back");
    await play(page, Buffer.concat([telling("").subarray(0, 0x800), Buffer.from([0xba])]), "quits.z5");
    same(await page.isShown("over-back"), false, "whether an end without a read has a way back");
}

/** A story that asks for saved games without end can be stopped. */
async function endlessSaves(page) {
    await page.fresh();
    await play(page, asking(), "asks.z5");
    await page.say("go");
    const refuseSave = async () => {
        await page.shown("saving");
        await page.click("#save-none");
    };
    for (let i = 0; i < 3; i++)
        await refuseSave();
    await page.asks("Go on?", "Go on", "Stop it");
    same(await page.text("asking-words"), "The story keeps asking for saved games.");
    await page.click("#asking-yes");
    await refuseSave();
    await page.click("#asking-no");
    await page.until(() => document.getElementById("running-words").textContent === "You have stopped the story.");
    same(await page.isShown("go-on"), true, "whether the story can go on");
}

/** A story may ask for a saved game before it reads: the reader is asked each time, and what was answered is kept. */
async function restoresFirst(page) {
    const story = restoring(2, "Begun.\n>");
    const file = join(page.browser.folder, "profile", "restores.z5");
    writeFileSync(file, story);
    const wanted = (lines) => native(["play", "--echo", file], lines).text;
    await page.fresh();
    await page.drop(story, "restores.z5");
    for (let i = 0; i < 2; i++) {
        await page.shown("restoring");
        await page.click("#restore-none");
    }
    await page.until(() => document.getElementById("scroller").textContent.includes("Begun."));
    await page.rests();
    same(await page.run(() => document.querySelector("dialog[open]")?.id ?? ""), "", "the window at the first read");
    await page.sayAll(["one", "two"]);
    same(await page.transcript(), wanted("one\ntwo\n"), "the transcript");
    await page.lines();
    await page.click("#line-list li:last-child button");
    await page.until(() => document.querySelectorAll("#scroller .typed").length === 1);
    await page.rests();
    same(await page.run(() => document.querySelector("dialog[open]")?.id ?? ""), "",
        "the window where a line is gone to");
    same(await page.transcript(), wanted("one\n"), "the transcript before the second line");
}

/** A window that a story has opened and that is left for another story answers nothing there. */
async function leftQuestion(page) {
    await page.fresh();
    await play(page, asking(), "asks.z5");
    await page.say("go");
    await page.shown("saving");
    await page.drop(readFileSync(MENU), "menu.z5");
    await page.until(() => document.getElementById("title").title === "menu.z5");
    await page.until(() => document.getElementById("scroller").textContent.includes("A hall."));
    await page.leave();
    await page.rests();
    await page.say("roll");
    same(await page.transcript(), native(["play", "--echo", MENU], "roll\n").text, "the transcript of the other story");
}

/** A text is divided where a line ends, also where a line is longer than a part of the text. */
async function longLines(page) {
    await page.fresh();
    const text = `${"x".repeat(7000)}\nsecond\nthird\n${"y".repeat(3000)}\n${"z".repeat(5000)}\nlast\n`;
    await play(page, telling(`${text}>`), "lines.z5");
    const parts = await page.run(() =>
        [...document.querySelectorAll("#scroller .turn span.text")].map((it) => it.textContent));
    same(parts.join(""), text, "the text");
    holds(parts.length > 1 && parts.every((part) => part.endsWith("\n")),
        `${parts.map((part) => part.slice(-9)).join("|")}`);
}

/** Text has its styles, beside others in a line too, and what comes after an erasure stands in a part of its own. */
async function styles(page) {
    const parts = () => {
        const styleOf = (node) => node.nodeType === Node.TEXT_NODE ? "" : `${node.className}:`;
        return [...document.querySelectorAll("#scroller .text")].map((text) =>
            [...text.childNodes].map((node) => styleOf(node) + node.textContent).join("|")).join("/");
    };
    const looks = () =>
        ["bold", "italic"].map((style) => getComputedStyle(document.querySelector(`#scroller .${style}`)))
        .map((look) => `${look.fontWeight} ${look.fontStyle}`).join();
    await page.fresh();
    await play(page, styled(), "styled.z5");
    same(await page.run(parts), "bold:hi|hi/italic:ä", "the text at the first read");
    same(await page.run(looks), "700 normal,400 italic", "how it looks");
    await page.browser.press("x");
    await page.until(() => document.getElementById("over-words").textContent === "The story has ended.");
    same(await page.run(parts), "bold:hi|hi/italic:ä/italic fixed:hi", "the text at the end");
}

/** What an answer brings is read from its start: the line that was typed is seen, and not the end of a long text. */
async function startOfAnswer(page) {
    await page.fresh();
    await play(page, repeating("On and on it goes.\n", 99), "long.z5");
    await page.say("further");
    const [top, bottom, line, left] = await page.run(() => {
        const scroller = document.getElementById("scroller");
        const around = scroller.getBoundingClientRect();
        const typed = document.querySelector("#scroller .typed").getBoundingClientRect();
        return [around.top, around.bottom, typed.top,
            scroller.scrollHeight - scroller.clientHeight - scroller.scrollTop];
    });
    holds(line >= top && line < top + (bottom - top) / 4, `the line is at ${line} between ${top} and ${bottom}`);
    holds(left > 100, `${left} pixels are left to read`);
}

/** While a file is dragged over the page, the page says where it may be dropped; no longer once it has gone. */
async function draggedFile(page) {
    const outlined = () => page.run(() => document.body.classList.contains("dragged"));
    const drag = (kind) =>
        page.run((name) => !dispatchEvent(new DragEvent(name, { bubbles: true, cancelable: true })), kind);
    await page.fresh();
    for (const [kind, isOver] of [["dragenter", true], ["dragleave", false], ["dragover", true], ["drop", false]]) {
        same(await drag(kind), kind !== "dragleave", `whether the page takes ${kind}`);
        same(await outlined(), isOver, `whether the page is marked after ${kind}`);
    }
    same(await page.isShown("welcome"), true, "whether the page still asks for a story");
}

/** A story may run for longer than `zkit play` lets it by itself. */
async function longRun(page) {
    await page.fresh();
    await play(page, counting("Done.\n>"), "counts.z5");
    holds((await page.text("scroller")).includes("Done."), await page.text("scroller"));
}

/** Where a story was played before, the reader goes on or starts over. */
async function continues(page) {
    await page.fresh();
    await page.open(MENU);
    await page.sayAll(["roll", "hello"]);
    const text = await page.transcript();
    for (const [button, wanted] of [["asking-yes", text], ["asking-no", native(["play", MENU]).text]]) {
        await page.keeps(2);
        await page.open(Z5);
        await page.choose(MENU);
        await page.asks("Continue?", "Continue where I was", "Start over");
        same(await page.text("asking-words"), "You have played this story here before.");
        await page.click(`#${button}`);
        await page.until(() => document.getElementById("title").title === "menu.z5");
        await page.rests();
        same(await page.transcript(), wanted, `the transcript after ${button}`);
    }
}

/** Whether the browser keeps so many stories. */
function keepsStories(count) {
    return new Promise((resolve) => {
        const request = indexedDB.open("zkit");
        request.onsuccess = () => {
            const asked = request.result.transaction("stories").objectStore("stories").count();
            asked.onsuccess = () => {
                request.result.close();
                resolve(asked.result === count);
            };
        };
    });
}

/** The twelve newest plays are kept, and their stories. */
async function twelvePlays(page) {
    await page.fresh();
    const story = (i) => telling(`This is story ${i}.\n>`);
    for (let i = 0; i <= 12; i++) {
        await play(page, story(i), `story${i}.z5`);
        await page.say("hello");
    }
    await page.until(keepsStories, 12);
    await page.drop(story(1), "story1.z5");
    await page.shown("asking");
    await page.click("#asking-yes");
    await page.until(() => document.getElementById("title").title === "story1.z5");
    await page.rests();
    await play(page, story(0), "story0.z5");
    same(await page.run(() => document.querySelector("dialog[open]")?.id ?? ""), "",
        "the window at a play that is not kept");
    same(await page.run(typedLines), "", "the lines of a play that is not kept");
}

/** The play of a file waits for its own story; another one is played where the reader wants it. */
async function otherStory(page) {
    await page.fresh();
    await page.open(MENU);
    await page.sayAll(["roll", "roll"]);
    const text = await page.transcript();
    await page.lines();
    const bytes = readFileSync(await page.fileAfter(() => page.click("#play-file")));
    const ifids = [MENU, Z5].map((path) => native(["info", "--ifid", path]).text.replace(/^\[ifid\]\n/, "").trim());
    await page.fresh();
    await page.drop(bytes, "menu.play.json");
    await page.until(() => document.getElementById("invitation").textContent.includes("IFID"));
    const words = "This is a play of menu.z5, 2 lines long. "
        + `To see it, choose that story's file; its IFID is ${ifids[0]}.`;
    same(await page.text("invitation"), words);
    await page.choose(Z5);
    await page.asks("Play a different story?", "Play it", "No");
    same(await page.text("asking-words"), `Its IFID is ${ifids[1]}, but that of the shared play is ${ifids[0]}.`);
    await page.click("#asking-no");
    same(await page.isShown("play"), false, "whether the other story is played");
    await page.choose(MENU);
    await page.until(() => document.getElementById("told").textContent.includes("letter by letter"));
    same(await page.transcript(), text, "the transcript");
    await page.fresh();
    await page.drop(bytes, "menu.play.json");
    await page.until(() => document.getElementById("invitation").textContent.includes("IFID"));
    await page.choose(Z5);
    await page.click("#asking-yes");
    await page.until(() => document.getElementById("title").title === "lighthouse.z5");
    await page.rests();
    same(await page.transcript(), native(["play", Z5]).text, "the transcript of the other story");
}

/** A play that goes on from one's own takes its place at once; of another one the reader is asked. */
async function ownPlayInIt(page) {
    await page.fresh();
    await page.open(MENU);
    await page.say("roll");
    await page.lines();
    const file = JSON.parse(readFileSync(await page.fileAfter(() => page.click("#play-file"))));
    await page.leave();
    const give = (answers) => page.drop(Buffer.from(JSON.stringify({ ...file, answers })), "other.play.json");
    await give(["rolls", "hello"]);
    await page.asks("Show the shared play?", "Show it", "Keep mine");
    await page.click("#asking-no");
    await page.until(() => !document.querySelector("dialog[open]"));
    same(await page.run(typedLines), "roll", "the lines of the play that was kept");
    await give(["roll", "hello"]);
    await page.until(() => document.querySelectorAll("#scroller .typed").length === 2);
    await page.rests();
    same(await page.run(typedLines), "roll,hello", "the lines of the play that goes on from there");
}

/** A link is offered up to 8,192 characters, and has only such as an address may have. */
async function longestLink(page) {
    await page.fresh();
    await page.open(MENU);
    await page.lines();
    const file = JSON.parse(readFileSync(await page.fileAfter(() => page.click("#play-file"))));
    await page.leave();
    const letters = (count) =>
        Array.from({ length: count / 50 }, () => `x${randomBytes(60).toString("base64").slice(0, 49)}`);
    for (const [count, isOffered] of [[7200, true], [9000, false]]) {
        const answers = letters(count);
        await page.drop(Buffer.from(JSON.stringify({ ...file, answers })), "long.play.json");
        if (!isOffered)
            await page.click("#asking-yes");
        await page.until((lines) => document.getElementById("told").textContent.includes("not the same")
            && [...document.querySelectorAll("#scroller .typed")].pop()?.textContent === `${lines.pop()}\n`, answers);
        await page.lines();
        await page.until(() => document.querySelector("#lines[open] #line-list li"));
        const isShown = await page.until(() => document.getElementById("copy-link").onclick
            && [document.getElementById("copy-link").getClientRects().length > 0]);
        same(isShown[0], isOffered, `whether ${count} letters make a link`);
        if (isOffered) {
            await page.click("#copy-link");
            const hash = await page.until(() => location.hash);
            holds(/^#play=1[\w-]+$/.test(hash), `an address has other characters: ${hash.slice(0, 200)}`);
        }
        await page.leave();
    }
}

/** A play that anybody may have made is taken where each part of it is what it should be. */
async function strangePlays(page) {
    await page.fresh();
    const play0 = { zkit: 1, ifid: "ZCODE-1-261127-15E0", name: "x", story: "", seed: "1", told: "", answers: [] };
    const bad = [
        { zkit: "1" }, { ifid: 1 }, { name: null }, { story: 1 }, { told: 1 }, { seed: 1 }, { seed: "" },
        { seed: "-1" },
        { seed: "1".repeat(21) }, { answers: "look" }, { answers: [null] }, { answers: [1.5] }, { answers: [0x110000] },
        { answers: [{}] }, { answers: [{ saved: 1 }] }, { answers: [{ restored: "" }] }, { answers: [{ undo: 1 }] },
        { answers: [{ fresh: false }] }, { name: "x".repeat(301) },
    ];
    for (const [i, part] of bad.entries()) {
        await page.drop(Buffer.from(JSON.stringify({ ...play0, ...part })), `bad${i}.json`);
        const words = part.zkit ? "it was made by another version of this page" : "it is damaged";
        await page.until((it) => document.getElementById("told").textContent === it,
            `bad${i}.json: this play can't be shown: ${words}.`);
    }
    const answers = ["look", 0x10ffff, 0, { saved: true }, { restored: null }, { restored: "AA==" }, { undo: true },
        { fresh: true }];
    const longest = Array.from({ length: 20000 - answers.length }, (_, i) => i ? "x" : "x".repeat(255));
    const good = { name: "y".repeat(300), seed: "1".repeat(20), answers: [...answers, ...longest] };
    await page.drop(Buffer.from(JSON.stringify({ ...play0, ...good })), "good.json");
    await page.until(() => document.getElementById("invitation").textContent.includes("yyy, 19996 lines long"));
}

/** A seed is a number up to 2^64 - 1; another text gives the usual one. */
async function seeds(page) {
    await page.fresh();
    await page.open(MENU);
    const tries = [["4294967303", "4294967303"], ["18446744073709551615", "18446744073709551615"],
        ["18446744073709551616", "1"],
        ["twelve", "1"], ["0", "0"]];
    for (const [typed, seed] of tries) {
        await page.restart(() => page.fill("seed", typed));
        await page.say("roll");
        same(await page.transcript(), native(["play", "--echo", "--seed", seed, MENU], "roll\n").text,
            `the seed ${typed}`);
    }
}

/** The status line of version 3, and rows in a narrow page. */
async function statusLines(page) {
    const bar = () =>
        page.run(() => [...document.querySelectorAll("#upper .bar span")].map((it) => it.textContent).join("|"));
    await page.fresh();
    const figures = [[0, -5, 300, "ab|Score: -5  Turns: 300"], [2, 13, 5, "ab|Time: 13:05"]];
    for (const [flags, first, second, wanted] of figures) {
        await play(page, tellingStatus(flags, first, second), `status${flags}.z3`);
        same(await bar(), wanted, "the status line");
    }
    await page.open(MENU);
    same(await page.run(() => document.querySelectorAll("#upper .grid").length), 1,
        "the number of grids in a wide page");
    await page.browser.size(360, 640);
    try {
        await page.until(() => !document.querySelector("#upper .grid"));
        same(await bar(), "The hall|Turns: 0", "the row in a narrow page");
        await page.say("menu");
        same(await page.run(() => document.querySelectorAll("#upper .grid").length), 1,
            "the number of grids of a tall window");
    } finally {
        await page.browser.size(1100, 800);
    }
}

/** What the page says of a story and of a play: its title, the words in the menu, and the names of files. */
async function names(page) {
    await page.fresh();
    await play(page, readFileSync(MENU), "a.b.z5");
    await page.sayAll(["roll", "hello"]);
    same(await page.run(() => document.title), "a.b.z5 · zkit", "the title");
    await page.click("#show-menu");
    const ifid = native(["info", "--ifid", MENU]).text.replace(/^\[ifid\]\n/, "").trim();
    same(await page.text("about"), `a.b.z5, release 1, IFID ${ifid}, line 2`);
    same(basename(await page.fileAfter(() => page.click("#transcript"))), "a.b.txt");
    await page.lines();
    same(basename(await page.fileAfter(() => page.click("#play-file"))), "a.b.play.json");
    await page.leave();
    await page.click("#show-inside");
    await page.click("#tab-header");
    await page.until(() => document.getElementById("panel-words").textContent.includes("IFID"));
    same(await page.text("panel-words"), `The fields at the start of the file. The story's IFID is ${ifid}.`);
    same(basename(await page.fileAfter(() => page.click("#listing-out"))), "a.b.header.txt");
}

/** The tabs by keys, and a search that takes small letters for capital ones. */
async function tabs(page) {
    await page.fresh();
    await page.open(Z5);
    await page.click("#show-inside");
    await page.until(() => document.activeElement?.id === "tab-findings");
    const keys = [["End", "code"], ["ArrowRight", "findings"], ["ArrowLeft", "code"], ["ArrowLeft", "abbreviations"],
        ["Home", "findings"], ["ArrowRight", "header"], ["ArrowRight", "map"]];
    for (const [key, name] of keys) {
        await page.browser.press(key);
        same(await page.run(() => document.activeElement.id), `tab-${name}`, `the tab after ${key}`);
        same(await page.run(() => document.querySelector("[aria-selected=true]").id), `tab-${name}`,
            `the tab shown after ${key}`);
    }
    await page.until(() => document.getElementById("panel").getAttribute("aria-busy") === "false");
    const tabNames = await page.run(() => [...document.querySelectorAll("[role=tab]")].map((it) => it.textContent));
    same(tabNames.join(), "Check,Header,Map,Objects,Tree,Dictionary,Texts,Code", "the names of the tabs");
    const controls = await page.run(() =>
        [...document.querySelectorAll("[role=tab]")].map((it) => it.getAttribute("aria-controls")));
    same([...new Set(controls)].join(), "panel", "what the tabs control");
    const length = readFileSync(Z5).length;
    const lines = native(["info", "--map", Z5]).text.trimEnd().split("\n").slice(1);
    const starts = [...lines.map((line) => parseInt(line.slice(0, 5), 16)), length];
    const sizes = lines.map((line, i) =>
        `${line.slice(6)}, ${(starts[i + 1] - starts[i]).toLocaleString("en-US")} bytes`);
    const legend = await page.run(() =>
        [...document.querySelectorAll(".legend li")].map((it) => it.textContent.replace(/ byte$/, " bytes")));
    same(legend.join("|"), sizes.join("|"), "the legend of the map");
    for (const [tab, word] of [["dictionary", "LANTERN"], ["tree", "jetty"], ["tree", "JETTY"]]) {
        await page.click(`#tab-${tab}`);
        await page.until(() => document.getElementById("panel").getAttribute("aria-busy") === "false");
        await page.click("#find");
        await page.browser.write(word);
        await page.until((it) =>
            [...document.querySelectorAll("#listing .row-line")].map((row) => row.textContent.toLowerCase()).join()
            .match(new RegExp(`^[^,]*${it}\\b[^,]*$`)), word.toLowerCase());
    }
}

/** What a part of the map is, and the tab that it leads to. */
const PARTS = {
    header: ["the fields that describe the story", "header"],
    abbreviations: ["texts that other texts use", "abbreviations"],
    objects: ["rooms, things and people, with their properties", "objects"],
    globals: ["the story's global variables", ""],
    static: ["data that the story can't change", ""], dictionary: ["the words that the story knows", "dictionary"],
    high: ["routines and texts", "code"], start: ["the first instruction that runs", "code"],
};

/** The parts of the map say what they are, and lead to their listings: by the mouse, a finger and a key. */
async function mapLeads(page) {
    const map = async () => {
        await page.click("#tab-map");
        await page.until(() => document.querySelector(".legend button"));
    };
    const leads = async (tab, how) => {
        await page.until((it) => document.querySelector("[aria-selected=true]").id === `tab-${it}`, tab);
        await page.until(() => document.getElementById("panel").getAttribute("aria-busy") === "false");
        same(await page.focus(), `tab-${tab} -`, `the focus after ${how}`);
        holds(await page.run(() => document.querySelector("#listing .row-line")), `${tab} has no lines after ${how}`);
    };
    await page.fresh();
    await page.open(Z5);
    await page.click("#show-inside");
    await map();
    const titles = (selector) =>
        page.run((it) => [...document.querySelectorAll(it)].map(({ title }) => title).join("|"), selector);
    same(await page.text("panel-words"),
        "Where the parts of the story begin, to scale. Choose a part to go to its listing.");
    const wanted = Object.entries(PARTS).map(([name, [words]]) => `${name}: ${words}`).join("|");
    same(await titles(".legend li"), wanted, "the titles in the legend");
    same(await titles(".scale i"), wanted, "the titles in the bar");
    for (const [i, [name, [, tab]]] of Object.entries(PARTS).entries()) {
        const entry = `.legend li:nth-child(${i + 1})`;
        const hasButton = await page.run((it) => document.querySelector(`${it} button`) !== null, entry);
        same(hasButton, tab !== "", `whether ${name} leads to a listing`);
        if (!hasButton)
            continue;
        await page.click(`${entry} button`);
        await leads(tab, `a click on ${name}`);
        await map();
        await page.tap(`${entry} button`);
        await leads(tab, `a tap on ${name}`);
        await map();
    }
    await page.click(".scale i:nth-child(3)");
    await leads("objects", "a click in the bar");
    await map();
    await page.browser.press("Tab");
    while (await page.run(() => !document.activeElement.closest(".legend")))
        await page.browser.press("Tab");
    await page.browser.press("Enter");
    await leads("header", "Enter in the legend");
}

/** What each finding means is what the notes of the program say. */
async function meanings(page) {
    const story = readFileSync(Z5);
    const spoilt = (seed) => {
        const bytes = Buffer.from(story);
        for (let i = 0, state = seed; i < 200; i++) {
            state = (state * 69069 + 1) % 2 ** 32;
            bytes[64 + (state >>> 8) % (bytes.length - 64)] = state >>> 4 & 0xff;
        }
        return bytes;
    };
    const noWords = Buffer.from(story);
    noWords.fill(0xff, 8, 10);
    const stories = [story.subarray(0, story.length - 2000), noWords, ...SPOILT.map(spoilt)];
    const seen = new Set();
    await page.fresh();
    for (const [i, bytes] of stories.entries()) {
        const file = join(page.browser.folder, "profile", `spoilt${i}.z5`);
        writeFileSync(file, bytes);
        const notes = native(["check", "--notes", file]).text.trimEnd().split("\n");
        const wanted = notes.map((line) => `${line.split(" ")[0]}: ${line.replace(/^.*?; (object \d+: )?/, "")}`);
        await page.drop(bytes, basename(file));
        await page.until((name) => document.getElementById("title").title === name, basename(file));
        await page.click("#show-inside");
        await page.until(() => document.getElementById("panel").getAttribute("aria-busy") === "false");
        const found = await page.run(() => [...document.querySelectorAll("#drawing li")].map((it) => it.textContent));
        same(found.join("\n"), [...new Set(wanted)].join("\n"), "what the findings mean");
        found.forEach((line) => seen.add(line.split(":")[0]));
        await page.leave();
    }
    const kinds = readFileSync(join(ROOT, "docs/manual/listings.md"), "utf8").match(/^\| `C\d+` /gm).map((it) =>
        it.slice(3, -2));
    same([...seen].sort().join(), kinds.sort().join(), "the kinds of findings that were shown");
}

/** Damage that shows, with that of the first two stories, every kind of finding. */
const SPOILT = [102];

/** By what a packed address is multiplied (section 1.2.3). */
const FACTORS = { 3: 2, 4: 4, 5: 4, 8: 8 };

/** The links of lines that call a routine, as far as the listing has its first instruction (section 5.2). */
function linksOf(rows, listing, story, version) {
    const places = new Set(listing.map((line) => line.slice(0, 5)));
    return rows.flatMap((row) => {
        const [, packed] = /^[0-9a-f]{5} call\w* #([0-9a-f]{4})\b/.exec(row) ?? [];
        const routine = parseInt(packed, 16) * FACTORS[version];
        const place = packed && (routine + 1 + (version < 5 ? 2 * story[routine] : 0)).toString(16).padStart(5, "0");
        return places.has(place) ? [`${packed} ${place}`] : [];
    });
}

/** A link in the code leads to its address, or past the local variables of the routine that is called. */
async function codeLinks(page) {
    await page.fresh();
    const counts = [];
    for (const version of Object.keys(FACTORS)) {
        const path = join(EXAMPLES, `lighthouse.z${version}`);
        await page.open(path);
        await page.click("#show-inside");
        await page.click("#tab-code");
        await page.until(() => document.querySelector("#listing a"));
        const links = await page.run(() =>
            [...document.querySelectorAll("#listing a")].map((it) => `${it.textContent} ${it.hash.slice(1)}`));
        const rows = await page.run(() =>
            [...document.querySelectorAll("#listing .row-line")].map((it) => it.textContent.trimEnd()));
        const wanted = linksOf(rows, native(["disasm", path]).text.split("\n"), readFileSync(path), version);
        same(links.filter((link) => /^....\s/.test(link)).join(), wanted.join(),
            `the links to routines in version ${version}`);
        const others = links.filter((link) => !/^....\s/.test(link) && link.slice(0, 5) !== link.slice(6));
        same(others.join(), "", `the links to another address in version ${version}`);
        holds(wanted.length > 5, `version ${version} has ${wanted.length} links to routines`);
        counts.push(wanted.length);
        await page.leave();
    }
    return `${counts.join(", ")} links to routines`;
}

export const USING = [
    ["lines that are typed ahead", typedAhead],
    ["the arrows", arrows],
    ["prompts, and the longest line", prompts],
    ["keys by buttons, and the list of lines", keysByButtons],
    ["letters go to the line from anywhere", lettersAnywhere],
    ["undo further than there are states", undoFar],
    ["the ways on from an end", ends],
    ["a story that saves without end", endlessSaves],
    ["a story that restores before it reads", restoresFirst],
    ["a question that is left for another story", leftQuestion],
    ["lines that are longer than a part", longLines],
    ["styles, and what is erased", styles],
    ["an answer is read from its start", startOfAnswer],
    ["a file that is dragged", draggedFile],
    ["a story that runs for long", longRun],
    ["a story that was played before", continues],
    ["the twelve newest plays", twelvePlays],
    ["a play and another story", otherStory],
    ["a play that goes on from one's own", ownPlayInIt],
    ["the longest link", longestLink],
    ["plays with one part that is none", strangePlays],
    ["seeds", seeds],
    ["status lines, and rows in a narrow page", statusLines],
    ["titles and names of files", names],
    ["tabs by keys, and the sizes of the map", tabs],
    ["the parts of the map lead to their listings", mapLeads],
    ["what findings mean", meanings],
    ["links in the code", codeLinks],
];
