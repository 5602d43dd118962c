// What is tested, each by the page's own controls.

import { randomBytes } from "node:crypto";
import { writeFileSync } from "node:fs";
import { contrast, named } from "./access.mjs";
import { KEEPING, blorb, spoilInPage } from "./keeping.mjs";
import {
    EXAMPLES, MENU, basename, holds, join, linesOf, native, pause, readFileSync, same, sameWithKeys,
} from "./page.mjs";
import { OWN } from "./own.mjs";
import { PERSON } from "./person.mjs";
import { PHONE } from "./phone.mjs";
import { PROGRAMS } from "./program.mjs";
import { SCREENS } from "./screens.mjs";
import { SITES } from "./sites.mjs";
import { echoingKeys, readingKeys, telling } from "./stories.mjs";
import { USING } from "./using.mjs";

const z = (version) => join(EXAMPLES, `lighthouse.z${version}`);
const WALKTHROUGH = join(EXAMPLES, "lighthouse.walkthrough");
const SAVES = join(EXAMPLES, "lighthouse.saves");
const LISTINGS = {
    findings: ["check"], header: ["info", "--header"], map: ["info", "--map"], objects: ["info", "--objects"],
    tree: ["info", "--tree"], dictionary: ["info", "--dictionary"], abbreviations: ["info", "--abbreviations"],
    code: ["disasm"],
};

function joined(lines) {
    return lines.map((line) => `${line}\n`).join("");
}

/** What the program lists, without the section's name. */
function listed(words, story) {
    return native([...words, story]).text.replace(/^\[\w+\]\n/, "");
}

async function starts(page) {
    const began = Date.now();
    await page.browser.go(page.url);
    await page.ready();
    const ready = Date.now() - began;
    await page.click("#example");
    await page.until(() => document.getElementById("scroller").textContent.includes("Jetty")
        && !document.getElementById("ask").hidden);
    return `ready after ${ready} ms, the first room after ${Date.now() - began} ms`;
}

async function fetchesNothing(page) {
    await page.fresh();
    const tries = await page.run(() => fetch("https://example.org/").then(() => "went out", () => "refused"));
    same(tries, "refused");
    const policy = await page.run(() => document.querySelector("meta[http-equiv]").content);
    holds(policy.startsWith("default-src 'none'") && !policy.includes("unsafe-inline"), policy);
    const others = await page.run(() =>
        performance.getEntriesByType("resource").filter((it) => !/^(blob|data):/.test(it.name)).length);
    same(others, 0, "the number of files that were fetched");
}

/** Scrolls up to the first text, and compares all of it. */
async function olderText(page, version) {
    const before = await page.run(() => document.querySelectorAll(".turn").length);
    holds(before <= 41, `${before} blocks stand in the page`);
    await page.until(() => {
        const scroller = document.getElementById("scroller");
        const isFirst = document.querySelector(".turn").textContent.startsWith("It is November");
        scroller.scrollTop = 0;
        scroller.dispatchEvent(new Event("scroll"));
        return isFirst;
    });
    same(await page.shownText(), readFileSync(join(EXAMPLES, `lighthouse.z${version}.txt`), "utf8"),
        "the text in the page");
}

async function walkthrough(page, version) {
    await page.fresh();
    await page.open(z(version));
    const lines = linesOf(WALKTHROUGH);
    await page.sayAll(lines);
    same(await page.text("over-words"), "The story has ended.");
    const wanted = native(["play", "--echo", z(version)], joined(lines)).text;
    sameWithKeys(await page.transcript(), wanted, 1);
    await olderText(page, version);
    return `${lines.length} lines`;
}

/** Whether a line is the name of a saved game, which other interpreters ask for by a line. */
function isName(lines, i) {
    return /^(save|restore)$/.test(lines[i - 1] || "") && /\.\w+$/.test(lines[i]);
}

/** Saves or restores by the window that has opened. */
async function byWindow(page) {
    const isSaving = await page.isShown("saving");
    await page.click(isSaving ? "#keep" : "#slots .pick");
    await page.until(() => document.getElementById("asking").open || !document.querySelector("dialog[open]"));
    if (await page.isShown("asking"))
        await page.click("#asking-yes");
    await page.until(() => !document.querySelector("dialog[open]"));
    await page.rests();
}

async function game(page, path, commands) {
    await page.fresh();
    await page.open(path);
    const all = linesOf(commands);
    const lines = all.filter((_, i) => !isName(all, i));
    for (const line of lines) {
        await page.say(line);
        if (await page.run(() => document.querySelector("dialog[open]") !== null))
            await byWindow(page);
    }
    const saved = join(page.browser.folder, "profile", "native.qzl");
    const wanted = native(["play", "--echo", "--save", saved, path], joined(lines)).text;
    sameWithKeys(await page.transcript(), wanted, 9);
    return `${lines.length} lines`;
}

async function saveAndRestore(page, version) {
    await page.fresh();
    await page.open(z(version));
    for (const line of linesOf(SAVES)) {
        await page.say(line);
        if (line === "save") {
            await page.shown("saving");
            await page.fill("save-name", "before the path");
            await page.click("#keep");
            await page.rests();
        } else if (line === "restore") {
            await page.until(() => document.querySelector("#slots .pick"));
            await page.click("#slots .pick");
            await page.until(() => !document.getElementById("restoring").open);
            await page.rests();
        }
    }
    const text = (await page.shownText());
    same(text, readFileSync(join(EXAMPLES, `lighthouse.z${version}.saves.txt`), "utf8"), "the text");
}

async function replacedSlot(page) {
    await page.fresh();
    await page.open(z(5));
    const save = async () => {
        await page.say("save");
        await page.shown("saving");
        await page.fill("save-name", "one");
        await page.click("#keep");
    };
    await save();
    await page.until(() => !document.getElementById("saving").open);
    await page.say("open bag");
    await save();
    await page.asks("Replace the saved game?", "Replace it", "Keep it");
    holds((await page.text("asking-words")).startsWith("one: Jetty · line 1 ·"), await page.text("asking-words"));
    await page.click("#asking-no");
    await page.shown("saving");
    await page.click("#keep");
    await page.shown("asking");
    await page.click("#asking-yes");
    await page.until(() => !document.querySelector("dialog[open]"));
    await page.rests();
    await page.menu("show-saves");
    await page.shown("restoring");
    same(await page.run(() => document.querySelectorAll("#slots li").length), 1, "the number of slots");
    holds((await page.text("slots")).includes("line 3"), await page.text("slots"));
    await page.click("#slots li button:last-child");
    await page.shown("asking");
    await page.click("#asking-yes");
    await page.until(() => document.querySelectorAll("#slots li").length === 0);
}

async function quetzalOut(page) {
    await page.fresh();
    await page.open(z(5));
    await page.sayAll(["open bag", "take letter", "north", "save"]);
    await page.shown("saving");
    const file = await page.fileAfter(() => page.click("#save-out"));
    await page.rests();
    const text = native(["play", "--save", file, z(5)], "restore\nlook\ninventory\n").text;
    holds(text.includes("Shore Path") && text.includes("a letter"), text.slice(-300));
    return basename(file);
}

async function quetzalIn(page, version) {
    await page.fresh();
    await page.open(z(version));
    await page.say("restore");
    await page.shown("restoring");
    await page.choose(join(EXAMPLES, `lighthouse.z${version}.dfrotz`), "saved-file");
    await page.until(() => !document.getElementById("restoring").open);
    await page.rests();
    await page.sayAll(["look", "inventory"]);
    const saved = join(EXAMPLES, `lighthouse.z${version}.dfrotz`);
    const { text } = native(["play", "--save", saved, z(version)], "restore\nlook\ninventory\n");
    same(await page.shownText(), text.slice(0, -1), "the text");
}

async function reload(page) {
    await page.fresh();
    await page.open(MENU);
    await page.sayAll(["roll", "hello", "roll"]);
    const before = await page.text("scroller");
    await page.keeps(3);
    await page.reload();
    await page.rests();
    same(await page.text("scroller"), before, "the log after a reload");
    same(await page.text("title"), "menu.z5");
    await page.say("roll");
    same(await page.transcript(), native(["play", "--echo", MENU], "roll\nhello\nroll\nroll\n").text, "the transcript");
}

async function reloadOfAnotherModule(page) {
    await page.fresh();
    await page.open(MENU);
    await page.sayAll(["roll", "roll"]);
    await page.keeps(2);
    await page.run(spoilInPage, "plays", "module");
    await page.reload();
    await page.rests();
    await page.say("roll");
    same(await page.transcript(), native(["play", "--echo", MENU], "roll\nroll\nroll\n").text, "the transcript");
}

async function link(page) {
    await page.fresh();
    await page.open(MENU);
    await page.restart(() => page.fill("seed", "7"));
    await page.sayAll(["roll", "é", "roll", "menu"]);
    for (const key of ["n", "Enter", "q"]) {
        await page.browser.press(key);
        await page.rests();
        if (key === "n") {
            await page.keeps(5);
            await page.reload();
            await page.rests();
        }
    }
    await page.say("roll");
    const text = await page.transcript();
    const address = await linkOf(page);
    await page.fresh(address);
    holds((await page.text("invitation")).includes("IFID"), "the page does not ask for the story");
    await page.open(MENU);
    await page.until(() => document.getElementById("told").textContent.includes("letter by letter"));
    same(await page.transcript(), text, "the transcript of the link");
    await page.lines();
    await page.click("#line-list li:last-child button");
    await page.rests();
    await page.say("hello");
    same(await page.transcript(), text.replace(/roll\n[^>]*>$/, "hello\nNothing happens.\n\n>"),
        "the transcript that goes on");
    await page.lines();
    same(await page.run(() => document.querySelectorAll("#line-list .later").length), 0,
        "the number of later lines after an answer");
    return `${address.length} characters`;
}

/** The address of a link to the play. */
async function linkOf(page) {
    await page.lines();
    await page.click("#copy-link");
    const address = await page.until(() => location.hash.startsWith("#play=") && location.hash);
    await page.leave();
    return address;
}

async function linkWithSaves(page) {
    await page.fresh();
    await page.open(z(5));
    for (const [i, line] of [...linesOf(SAVES).slice(0, -2), "north", "save"].entries()) {
        await page.say(line);
        if (await page.run(() => document.querySelector("dialog[open]") !== null))
            await byWindow(page);
        if (i === 8) {
            await page.keeps(9);
            await page.reload();
            await page.rests();
        }
    }
    await page.click("#undo");
    await page.rests();
    const text = await page.transcript();
    const address = await linkOf(page);
    await page.fresh(address);
    await page.until(() => document.getElementById("told").textContent.includes("letter by letter"));
    same(await page.transcript(), text, "the transcript of the link");
    return `${address.length} characters`;
}

async function longPlay(page) {
    await page.fresh();
    await page.open(MENU);
    const file = JSON.parse(readFileSync(await page.fileAfter(async () => {
        await page.lines();
        await page.click("#play-file");
    })));
    await page.leave();
    const lines = Array.from({ length: 1000 }, (_, i) => i % 2 ? "roll" : `x${randomBytes(20).toString("hex")}`);
    await page.drop(Buffer.from(JSON.stringify({ ...file, answers: lines })), "long.play.json");
    const began = Date.now();
    await page.until(() => document.getElementById("told").textContent.includes("not the same as in the shared play"));
    const took = Date.now() - began;
    same(await page.transcript(), native(["play", "--echo", MENU], joined(lines)).text, "the transcript");
    await page.lines();
    same(await page.isShown("copy-link"), false, "whether a link can be copied");
    same(await page.run(() => document.querySelectorAll("#line-list li").length), 1000, "the number of lines");
    await page.leave();
    const blocks = await page.run(() => document.querySelectorAll(".turn").length);
    holds(blocks <= 81, `${blocks} blocks stand in the page`);
    return `1000 lines in ${took} ms`;
}

async function linesBackAndForth(page) {
    await page.fresh();
    await page.open(MENU);
    await page.sayAll(["roll", "roll", "roll"]);
    const text = await page.transcript();
    const choose = async (place) => {
        await page.lines();
        await page.click(`#line-list li:nth-child(${place + 1}) button`);
        await page.until(() => !document.querySelector("dialog[open]"));
        await page.rests();
    };
    await choose(1);
    same(await page.transcript(), native(["play", "--echo", MENU], "roll\n").text,
        "the transcript before the second line");
    await page.lines();
    const looks = await page.run(() =>
        [...document.querySelectorAll("#line-list li")].map((it) => `${it.textContent}:${it.className}`));
    same(looks.join(), "roll:,roll:later,roll:later,(the end of the list):later",
        "which lines look given, and which later");
    await page.leave();
    await choose(3);
    same(await page.transcript(), text, "the transcript at the end again");
    await page.lines();
    same(await page.run(() => document.querySelectorAll("#line-list li").length), 3, "how many lines there are then");
}

async function linkOfOwnStory(page) {
    await page.fresh();
    await page.click("#example");
    await page.rests();
    await page.say("look");
    const address = await linkOf(page);
    await page.sayAll(["inventory", "north"]);
    same(await page.run(() => location.hash), "", "the address after an answer");
    await page.keeps(3);
    await page.browser.go(page.url + address);
    await page.asks("Show the shared play?", "Show it", "Keep mine");
    same(await page.text("asking-words"), "It replaces your own play of this story, which has 3 lines.");
    await page.click("#asking-yes");
    await page.until(() => document.getElementById("told").textContent.includes("letter by letter"));
    await page.say("inventory");
    same(await page.transcript(), native(["play", "--echo", z(5)], "look\ninventory\n").text, "the transcript");
}

async function failure(page) {
    await page.fresh();
    await page.open(MENU);
    await page.say("roll");
    await page.run(() => {
        const post = Worker.prototype.postMessage;
        Worker.prototype.postMessage = function(message) {
            Worker.prototype.postMessage = post;
            post.call(this, { ...message, call: "nothing of the kind" });
        };
    });
    await page.say("roll");
    await page.until(() => document.getElementById("told").textContent.includes("was restarted"));
    await page.rests();
    await page.say("roll");
    same(await page.transcript(), native(["play", "--echo", MENU], "roll\nroll\n").text, "the transcript");
}

async function script(page) {
    await page.fresh();
    const story = readFileSync(z(5));
    story[17] |= 1;
    await page.drop(story, "scripted.z5");
    await page.until(() => document.getElementById("title").title === "scripted.z5");
    await page.rests();
    await page.sayAll(["open the bag", "inventory"]);
    const found = readFileSync(await page.fileAfter(() => page.menu("script")), "utf8");
    const [file, wanted] = ["scripted.z5", "script.txt"].map((name) => join(page.browser.folder, "profile", name));
    writeFileSync(file, story);
    native(["play", "--script", wanted, file], "open the bag\ninventory\n");
    same(found, readFileSync(wanted, "utf8"), "the story's transcript");
}

async function playFile(page) {
    await page.fresh();
    await page.open(MENU);
    await page.sayAll(["roll", "roll"]);
    const text = await page.transcript();
    await page.lines();
    const file = await page.fileAfter(() => page.click("#play-file"));
    const bytes = readFileSync(file);
    await page.fresh();
    await page.drop(bytes, basename(file));
    await page.until(() => document.getElementById("invitation").textContent.includes("IFID"));
    await page.open(MENU);
    await page.until(() => document.getElementById("told").textContent.includes("letter by letter"));
    same(await page.transcript(), text, "the transcript of the file");
}

async function badPlays(page) {
    await page.fresh();
    const play = { zkit: 1, ifid: "ZCODE-1-261127-15E0", name: "x", story: "", seed: "1", told: "", answers: [] };
    const [spoilt, other, text] = ["it is damaged", "it was made by another version of this page",
        "not a story: it is a text file"];
    const bad = [
        [{ answers: [-1] }, spoilt], [{ answers: [{ restored: "%" }] }, spoilt], [{ answers: [[]] }, spoilt],
        [{ seed: "x" }, spoilt], [{ name: "x".repeat(999) }, spoilt], [{ zkit: 2 }, other], [{ zkit: undefined }, text],
        [{ answers: Array(20001).fill("look") }, "it has more than 20,000 lines and keys"],
        [{ answers: ["look", "x".repeat(256)] }, "it has a line of more than 255 characters"],
        [{ answers: ["look\nlook"] }, "it has a line end inside a line"],
        [{ answers: ["look\r"] }, "it has a line end inside a line"],
    ];
    for (const [i, [part, words]] of bad.entries()) {
        await page.drop(Buffer.from(JSON.stringify({ ...play, ...part })), `bad${i}.json`);
        await page.until((wanted) => document.getElementById("told").textContent === wanted,
            `bad${i}.json: ${words === text ? "" : "this play can't be shown: "}${words}${words === text ? "" : "."}`);
    }
}

/** A link to a play that is not shown has its words too, and the play that is on stays. */
async function refusedLink(page) {
    const play = { zkit: 1, ifid: "ZCODE-1-261127-15E0", name: "x", story: "", seed: "1", told: "",
        answers: ["x".repeat(256)] };
    const hash = `#play=0${Buffer.from(JSON.stringify(play)).toString("base64url")}`;
    const words = "The link: this play can't be shown: it has a line of more than 255 characters.";
    await page.fresh(hash);
    same(await page.told(), words);
    await page.open(MENU);
    await page.say("hello");
    await page.keeps(1);
    await page.run((it) => { location.hash = it; }, hash);
    await page.until((it) => document.getElementById("told").textContent === it, words);
    await page.say("roll");
    same(await page.transcript(), native(["play", "--echo", MENU], "hello\nroll\n").text, "the transcript");
}

async function badLink(page) {
    await page.fresh("#play=1abc");
    const words = "The link can't be read: it is cut off, or this browser is too old for it.";
    same(await page.told(), words);
    await page.open(MENU);
    await page.say("hello");
    await page.keeps(1);
    await page.browser.go(`${page.url}#play=1abc`);
    await page.ready();
    same(await page.told(), words);
    same(await page.text("title"), "menu.z5", "the story after a link that is cut off");
    holds((await page.text("scroller")).includes(">hello"), await page.text("scroller"));
}

async function storyKeys(page) {
    await page.fresh();
    await page.drop(readingKeys(), "keys.z5");
    await page.rests();
    same(await page.text("asked"), "Press a key");
    await page.browser.press("ArrowUp");
    await page.until(() => document.getElementById("prompt").textContent === "129");
    await page.rests();
    same(await page.text("asked"), "What do you do?", "what is asked after a cursor key");
    await page.browser.press("ArrowUp");
    await page.say("x");
    await page.until(() => document.getElementById("scroller").textContent.includes("13"));
    await page.drop(echoingKeys(), "echo.z5");
    await page.until(() => document.getElementById("title").textContent === "echo.z5");
    await page.rests();
    await page.until(() => document.getElementById("asked").textContent === "Press a key");
    for (const [key, code] of [["ArrowLeft", 131], ["Escape", 27], ["Backspace", 8], ["a", 97]]) {
        await page.browser.press(key);
        await page.until((it) => document.getElementById("scroller").textContent.trim().endsWith(`${it}`), code);
        await page.rests();
    }
}

async function box(page) {
    await page.fresh();
    await page.open(join(EXAMPLES, "box.z5"));
    const text = await page.run(() => [...document.querySelectorAll(".box")].map((it) => it.textContent).join("|"));
    holds(text.startsWith("Through me the way into the city of woe,\n") && text.includes("-- Dante, Inferno"),
        JSON.stringify(text));
    same((await page.text("upper")).replace(/\s+/g, " ").trim(), "The gate Turns: 0", "the status line");
    await page.say("look");
    same(await page.run(() => document.querySelectorAll(".box").length), 1, "the number of boxes");
}

async function menu(page) {
    await page.fresh();
    await page.open(MENU);
    await page.say("menu");
    same(await page.text("asked"), "Press a key");
    holds((await page.text("upper")).includes("     > How to walk\n       Who made it"), await page.text("upper"));
    await page.browser.press("n");
    await page.until(() => document.getElementById("upper").textContent.includes("> Who made it"));
    await page.browser.press("Enter");
    await page.until(() => document.getElementById("scroller").textContent.includes("A test did."));
    // keys that the browser takes for itself are not the story's
    for (const key of [{ ctrlKey: true }, { metaKey: true }, { altKey: true }, { isComposing: true }])
        await page.run((it) =>
            !document.body.dispatchEvent(new KeyboardEvent("keydown", { key: "q", bubbles: true, ...it })), key);
    await page.rests();
    same(await page.text("asked"), "Press a key", "what is asked after keys of the browser");
    await page.browser.press("q");
    await page.until(() => document.getElementById("asked").textContent !== "Press a key");
    same((await page.text("upper")).trim(), "The hall" + " ".repeat(60) + "Turns: 0");
    same(await page.run(() => document.querySelectorAll(".box").length), 0, "the number of boxes");
}

async function blorbFile(page) {
    await page.fresh();
    const file = blorb(readFileSync(z(8)));
    await page.drop(file, "lighthouse.zblorb");
    await page.until(() => document.getElementById("title").title === "lighthouse.zblorb");
    await page.rests();
    holds((await page.text("scroller")).includes("Jetty"), "the story does not begin");
    await page.drop(file.subarray(0, 9000), "cut.zblorb");
    await page.until(() => document.getElementById("told").textContent.includes("cut off"));
    await page.say("look");
}

async function damaged(page) {
    await page.fresh();
    await page.drop(Buffer.from("Once upon a time there was a text. ".repeat(9)), "tale.txt");
    await page.until(() => document.getElementById("told").textContent === "tale.txt: not a story: it is a text file");
    await page.drop(Buffer.alloc(2000, 6), "six.z6");
    await page.until(() =>
        document.getElementById("told").textContent === "six.z6: not a story: version 6 is not played");
    const hello = readFileSync(join(EXAMPLES, "hello.z3"));
    hello[hello.readUInt16BE(6)] = 0;
    await page.drop(hello, "hello.z3");
    await page.until(() => !document.getElementById("over").hidden);
    const words = await page.text("over-words");
    holds(words.includes("no such opcode in this version (zkit: fault 2 at "), words);
    await page.click("#show-inside");
    await page.until(() => document.getElementById("drawing").textContent.includes("C10:"));
    return words;
}

async function withoutEnd(page) {
    await page.fresh();
    await page.open(MENU);
    await page.send("turn");
    await page.until(() => !document.getElementById("stop").hidden && !document.getElementById("running").hidden);
    await page.click("#stop");
    await page.until(() => document.getElementById("running-words").textContent.includes("stopped"));
    same(await page.isShown("stop"), false, "whether a story that has stopped can be stopped");
    await page.click("#step-back");
    await page.until(() => !document.getElementById("ask").hidden);
    await page.say("print");
    await page.until(() => document.getElementById("running-words").textContent.includes("printed a lot"));
    await page.click("#go-on");
    await page.until(() => document.getElementById("play").dataset.busy === "false");
    await page.until(() => document.getElementById("running-words").textContent.includes("printed a lot"));
    const blocks = await page.run(() => document.querySelectorAll(".turn").length);
    holds(blocks <= 81, `${blocks} blocks stand in the page`);
    await page.click("#step-back");
    await page.until(() => !document.getElementById("ask").hidden);
    await page.say("roll");
    same(await page.transcript(), native(["play", "--echo", MENU], "roll\n").text, "the transcript");
}

/** A story that finds no memory once: the worker's turn answers so, as the module would. */
async function withoutMemory(page) {
    await page.fresh();
    await page.run(() => {
        const source = document.getElementById("worker-source");
        const turn = "game.turn(SLICE)";
        if (!source.textContent.includes(turn))
            throw new Error("the worker has another turn");
        source.textContent = `let short = 1;\n${source.textContent.replace(turn, `short-- > 0 ? "memory" : ${turn}`)}`;
    });
    await page.choose(z(5));
    await page.until(() => document.getElementById("running-words").textContent.includes("no memory left"));
    holds(await page.run(() => document.activeElement.id) === "go-on", "the focus is on the button that goes on");
    await page.click("#go-on");
    await page.rests();
    await page.say("open bag");
    same(await page.transcript(), native(["play", "--echo", z(5)], "open bag\n").text, "the transcript");
}

async function undo(page, version) {
    await page.fresh();
    await page.open(z(version));
    await page.sayAll(["open bag", "north"]);
    await page.click("#undo");
    await page.rests();
    await page.until(() => !document.getElementById("scroller").textContent.includes("Shore Path"));
    await page.say("look");
    same(await page.transcript(), native(["play", "--echo", z(version)], "open bag\nlook\n").text, "the transcript");
}

async function undoAfterReload(page) {
    await page.fresh();
    await page.open(MENU);
    await page.click("#undo");
    await page.until(() => document.getElementById("told").textContent === "There is nothing to go back to.");
    await page.rests();
    await page.sayAll(["roll", "roll"]);
    await page.keeps(2);
    await page.reload();
    await page.rests();
    await page.click("#undo");
    await page.until(() => document.querySelectorAll("#scroller .typed").length === 1);
    await page.rests();
    await page.say("roll");
    same(await page.transcript(), native(["play", "--echo", MENU], "roll\nroll\n").text, "the transcript");
}

async function undoOfStory(page) {
    await page.fresh();
    await page.open(z(5));
    await page.sayAll(["undo on", "north"]);
    await page.click("#undo");
    await page.until(() => document.querySelectorAll("#scroller .turn").length > 3);
    await page.rests();
    await page.say("look");
    const text = await page.transcript();
    holds(text.slice(text.lastIndexOf(">look")).startsWith(">look\nJetty\nThe planks"),
        "the story is not where it was");
}

async function restartAndSeed(page) {
    await page.fresh();
    await page.open(MENU);
    await page.say("roll");
    await page.menu("restart");
    await page.asks("Restart?", "Restart", "Go on");
    same(await page.text("asking-words"), "The story starts over.");
    await page.click("#asking-no");
    await page.until(() => !document.querySelector("dialog[open]"));
    same(await page.transcript(), native(["play", "--echo", MENU], "roll\n").text,
        "the transcript of a play that goes on");
    await page.restart(() => page.fill("seed", "12"));
    await page.say("roll");
    same(await page.transcript(), native(["play", "--echo", "--seed", "12", MENU], "roll\n").text, "the transcript");
}

async function settings(page) {
    await page.fresh();
    await page.open(MENU);
    const choose = (id, value) => page.run((name, it) => {
        const select = document.getElementById(name);
        select.value = it;
        select.dispatchEvent(new Event("change"));
    }, id, value);
    const looks = () => page.run(() => {
        const { backgroundColor } = getComputedStyle(document.body);
        return `${backgroundColor} ${getComputedStyle(document.getElementById("log")).fontSize}`;
    });
    const before = await looks();
    await choose("theme", "dark");
    const dark = await looks();
    await choose("size", "1.5");
    const after = await looks();
    holds(dark !== before && after !== dark, `${before}, ${dark} and ${after} are not three looks`);
    await page.reload();
    await page.rests();
    same(await looks(), after, "how the page looks after a reload");
    holds(before !== after, before);
    return `${before} to ${after}`;
}

async function inside(page, path) {
    await page.fresh();
    await page.open(path);
    await page.click("#show-inside");
    for (const [name, words] of Object.entries(LISTINGS)) {
        await page.click(`#tab-${name}`);
        await page.until(() => document.getElementById("panel").getAttribute("aria-busy") === "false");
        const about = await page.text("panel-words");
        holds(/^[A-Z].*\.$/.test(about), `the words of ${name}: ${about}`);
        const wanted = listed(words, path);
        if (wanted)
            same(readFileSync(await page.fileAfter(() => page.click("#listing-out")), "utf8"), wanted, name);
        const text = await page.run(async () => {
            const listing = document.getElementById("listing");
            for (const part of listing.children) {
                part.scrollIntoView();
                for (let i = 0; i < 100 && part.childElementCount === 0; i++)
                    await new Promise((resolve) => setTimeout(resolve, 10));
            }
            return listing.textContent;
        });
        same(text, wanted, `${name} in the page`);
    }
}

/** The lines of a tree without those below the first one that has some below it. */
function withoutFirst(tree) {
    const lines = tree.split("\n").slice(0, -1);
    const depths = lines.map((line) => line.search(/\S/));
    const first = depths.findIndex((depth, i) => depths[i + 1] > depth);
    const end = depths.findIndex((depth, i) => i > first && depth <= depths[first]);
    return joined(lines.filter((_, i) => i <= first || end >= 0 && i >= end));
}

async function insideWorks(page) {
    await page.fresh();
    await page.open(z(5));
    await page.click("#show-inside");
    await page.until(() => document.getElementById("drawing").textContent.includes("found nothing wrong"));
    await page.click("#tab-map");
    await page.until(() => document.querySelectorAll(".scale i").length === 8);
    const widths = await page.run(() =>
        [...document.querySelectorAll(".scale i")].map((it) => parseFloat(it.style.width)));
    holds(Math.abs(widths.reduce((sum, it) => sum + it, 0) - 100) < 0.01, `the bar is ${widths}`);
    const colours = await page.run(() =>
        [...document.querySelectorAll(".scale i")].map((it) => getComputedStyle(it).backgroundColor));
    same(new Set(colours).size, 8, "the number of colours of the bar");
    await page.click("#tab-tree");
    await page.until(() => document.querySelector("#listing .fold"));
    await page.click("#listing .fold");
    await page.until(() => !document.getElementById("listing").textContent.includes("postbag"));
    const focus = await page.run(() =>
        [document.activeElement.className, document.activeElement.getAttribute("aria-expanded")]);
    same(focus.join(), "fold,false", "where the focus is after a line was folded");
    const rows = await page.run(() =>
        [...document.querySelectorAll("#listing .row-line")].map((it) => it.textContent).join(""));
    same(rows, withoutFirst(listed(["info", "--tree"], z(5))), "the tree without what is in its first line");
    await page.click("#listing .fold");
    await page.until(() => document.getElementById("listing").textContent.includes("postbag"));
    await page.click("#tab-dictionary");
    await page.until(() => document.getElementById("panel").getAttribute("aria-busy") === "false");
    await page.click("#find");
    await page.browser.write("lantern");
    await page.until(() => document.querySelectorAll("#listing .row-line").length === 1);
    await page.click("#tab-code");
    await page.until(() => document.querySelector("#listing a"));
    const wanted = await page.run(() => document.querySelector("#listing a").getAttribute("href").slice(1));
    await page.click("#listing a");
    const found = await page.until(() => document.querySelector(".meant")?.textContent);
    same(found.slice(0, 5), wanted, "the line of a link");
    const bad = await page.run(() => [...document.querySelectorAll("#listing a")]
        .filter((it) => !/^#[0-9a-f]{5}$/.test(it.getAttribute("href"))).length);
    same(bad, 0, "the number of links to nowhere");
}

async function keyboard(page) {
    await page.fresh();
    const walk = async (id, isBack = false) => {
        for (let i = 0; i < 30; i++) {
            await page.browser.press("Tab", isBack);
            if (await page.run((name) => document.activeElement?.id === name, id))
                return;
        }
        throw new Error(`Tab does not lead to ${id}`);
    };
    await walk("example");
    await page.browser.press("Enter");
    await page.until(() => document.activeElement?.id === "line");
    await page.browser.write("inventory");
    await page.browser.press("Enter");
    await page.rests();
    await page.browser.write("look");
    await page.browser.press("Enter");
    await page.rests();
    await page.browser.press("ArrowUp");
    await page.browser.press("ArrowUp");
    same(await page.run(() => document.getElementById("line").value), "inventory", "the line before the last");
    await page.browser.press("ArrowDown");
    same(await page.run(() => document.getElementById("line").value), "look", "the last line");
    await walk("show-menu", true);
    await page.browser.press("Enter");
    await page.shown("menu");
    await walk("menu-inside");
    await page.browser.press("Enter");
    await page.until(() => document.activeElement?.id === "tab-findings");
    await page.browser.press("ArrowRight");
    same(await page.run(() => document.activeElement.id), "tab-header", "the tab after the first");
    await page.browser.press("Escape");
    await page.until(() => !document.querySelector("dialog[open]"));
    await walk("scroller");
    await page.browser.write("x");
    same(await page.run(() => document.activeElement.id), "line", "where a letter goes");
}

/** Lines that a story has wrapped are joined, and a story that wraps nothing stays as it is. */
async function reflow(page) {
    await page.fresh();
    await page.open(z(5));
    const joins = () => page.run(() => [...document.querySelectorAll("#scroller .soft")].length);
    const count = await joins();
    holds(count >= 5, `${count} lines were joined`);
    const text = await page.run(() => document.getElementById("scroller").innerText);
    holds(text.includes("Your boat tugs at its rope.") && text.includes("HELP gives help.\n"), text);
    await page.say("open bag");
    const before = [await joins(), await page.text("prompt"), await page.text("scroller")];
    await page.keeps(1);
    await page.reload();
    await page.rests();
    const after = [await joins(), await page.text("prompt"), await page.text("scroller")];
    same(after.join(), before.join(), "the joined lines, the prompt and the text after a reload");
    await page.open(MENU);
    await page.say("hello");
    same(await joins(), 0, "the number of joined lines of a story that does not wrap");
}

/**
 * Lines beside the width of a story, which is that of its longest line: how long a line is, the word after it, and
 * whether both are joined. A word that would have fitted was not wrapped.
 */
const WRAPS = [
    [70, "x".repeat(60), "y".repeat(9), false], [70, "x".repeat(60), "y".repeat(10), true],
    [70, "x".repeat(69), "y", true],
    [70, "x".repeat(60), ` ${"y".repeat(30)}`, false], [70, ` ${"x".repeat(65)}`, "y".repeat(9), false],
    [70, "x".repeat(60), `y ${"y".repeat(30)}`, false], [59, "x".repeat(58), "y".repeat(9), false],
    [60, "x".repeat(58), "y", false], [60, "x".repeat(58), "yy", true], [80, "x".repeat(70), "y".repeat(9), false],
    [80, "x".repeat(70), "y".repeat(10), true], [81, "x".repeat(80), "y".repeat(9), false],
];

async function wraps(page) {
    await page.fresh();
    for (const width of new Set(WRAPS.map(([of]) => of))) {
        const tries = WRAPS.filter(([of]) => of === width);
        const parts = tries.map(([, line, next]) => `${line}\n${next}\n\n`);
        await page.drop(telling(`${"w".repeat(width)}\n\n${parts.join("")}>`), `wide${width}.z5`);
        await page.until((name) => document.getElementById("title").title === name, `wide${width}.z5`);
        await page.rests();
        const softs = await page.run(() => [...document.querySelectorAll("#scroller .soft")].map((it) => {
            const before = it.previousSibling.textContent.split("\n").pop();
            return `${before}+${it.nextSibling.textContent.split("\n")[0]}`;
        }));
        const wanted = tries.filter(([, , , isJoined]) => isJoined).map(([, line, next]) => `${line}+${next}`);
        same(softs.join("|"), wanted.join("|"), `the lines that are joined at a width of ${width}`);
        holds((await page.transcript()).includes(parts.join("")),
            "the transcript does not keep the lines as they came");
    }
}

async function narrow(page) {
    await page.browser.size(360, 640);
    const fits = async (what) => {
        const wide = await page.run(() => [document.documentElement, ...document.querySelectorAll("dialog[open]")]
            .map((it) => it.scrollWidth - it.clientWidth).filter((it) => it > 0));
        holds(wide.length === 0, `${what} is ${wide} pixels too wide`);
    };
    try {
        await page.fresh();
        await fits("the first page");
        await page.open(MENU);
        await page.say("menu");
        await fits("a menu");
        await page.browser.press("q");
        await page.rests();
        await page.say("hello");
        await fits("the play");
        await page.click("#show-menu");
        await fits("menu");
        await page.leave();
        const windows = { "menu-lines": "lines", "show-saves": "restoring", "menu-inside": "inside" };
        for (const [button, window] of Object.entries(windows)) {
            await page.menu(button);
            await page.shown(window);
            await pause(200);
            await fits(window);
            await page.leave();
        }
    } finally {
        await page.browser.size(1100, 800);
    }
}

export const CASES = [
    ["starts", starts],
    ["fetches nothing", fetchesNothing],
    ...[3, 4, 5, 8].map((version) => [`walkthrough of version ${version}`, (page) => walkthrough(page, version)]),
    ...[3, 4, 5, 8].map((version) =>
        [`save and restore in version ${version}`, (page) => saveAndRestore(page, version)]),
    ["a slot is replaced only where the reader agrees", replacedSlot],
    ["a saved game goes out as a file", quetzalOut],
    ...[3, 4, 5, 8].map((version) =>
        [`a game that dfrotz saved, version ${version}`, (page) => quetzalIn(page, version)]),
    ["a reload goes on", reload],
    ["a reload goes on where the module is another", reloadOfAnotherModule],
    ["a link", link],
    ["a link to a play with saved games, a reload and undo", linkWithSaves],
    ["a link to a story with a play of one's own", linkOfOwnStory],
    ["a long play", longPlay],
    ["back to a line, and to the end again", linesBackAndForth],
    ["a play as a file", playFile],
    ["a link that is cut off", badLink],
    ["a link to a play that is not shown", refusedLink],
    ["plays that are none", badPlays],
    ["a box", box],
    ["a menu", menu],
    ["keys that are no characters", storyKeys],
    ["a Blorb file", blorbFile],
    ["damaged files", damaged],
    ["stories without end", withoutEnd],
    ["a story that finds no memory", withoutMemory],
    ["a failure of the machine", failure],
    ["the story's own transcript", script],
    ["undo in version 3", (page) => undo(page, 3)],
    ["undo in version 5", (page) => undo(page, 5)],
    ["undo after a reload", undoAfterReload],
    ["undo by the story's states", undoOfStory],
    ["restart and seed", restartAndSeed],
    ["text size, and dark", settings],
    ["listings of version 5", (page) => inside(page, z(5))],
    ["listings of version 3", (page) => inside(page, z(3))],
    ["drawings, folds, search and links inside", insideWorks],
    ["keyboard alone", keyboard],
    ["lines that a story has wrapped", reflow],
    ["lines that just fit, and that just do not", wraps],
    ...KEEPING,
    ...USING,
    ...PERSON,
    ...PHONE,
    ...SCREENS,
    ...OWN,
    ...PROGRAMS,
    ...SITES,
    ["360 pixels wide", narrow],
    ["contrast of all texts", contrast],
    ["roles and names", named],
];

export function gamesIn(folder, files) {
    const stories = files.filter((name) => /\.z[3458]$/.test(name));
    return stories.map((name) => {
        const commands = join(folder, `${name.replace(/[-.].*/, "")}.txt`);
        return [`the game ${name}`, (page) => game(page, join(folder, name), commands)];
    });
}
