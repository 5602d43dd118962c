// What the browser keeps: the play that a reload goes on with, saved games, and what is no longer there.

import { writeFileSync } from "node:fs";
import { fileURLToPath } from "node:url";
import { EXAMPLES, MENU, Page, holds, join, native, readFileSync, same } from "./page.mjs";
import { repeating } from "./stories.mjs";

const Z5 = join(EXAMPLES, "lighthouse.z5");

/** A chunk of a Blorb file. */
export function chunk(name, data) {
    const head = Buffer.alloc(8);
    head.write(name, "latin1");
    head.writeUInt32BE(data.length, 4);
    return Buffer.concat([head, data, Buffer.alloc(data.length % 2)]);
}

/** A Blorb file around a story. */
export function blorb(story, metadata = "") {
    const index = Buffer.alloc(16);
    index.writeUInt32BE(1);
    index.write("Exec", 4, "latin1");
    index.writeUInt32BE(12 + 24 + 12, 12);
    const more = metadata ? [chunk("IFmd", Buffer.from(metadata))] : [];
    const parts = [chunk("RIdx", index), chunk("AUTH", Buffer.from("odd")), chunk("ZCOD", story), ...more];
    const body = Buffer.concat([Buffer.from("IFRS"), ...parts]);
    return chunk("FORM", body);
}

/** In the page: changes a field in all that is on a shelf, a text by another one, and bytes in the last of them. */
export function spoilInPage(shelf, field) {
    return new Promise((resolve) => {
        const request = indexedDB.open("zkit");
        request.onsuccess = () => {
            const store = request.result.transaction(shelf, "readwrite").objectStore(shelf);
            store.openCursor().onsuccess = ({ target: { result: cursor } }) => {
                if (!cursor)
                    return resolve(request.result.close());
                const it = cursor.value;
                const last = it[field] ? it[field].length - 1 : 0;
                const spoilt = typeof it[field] === "string" ? "another"
                    : it[field]?.map((byte, i) => i === last ? byte ^ 1 : byte);
                cursor.update({ ...it, [field]: spoilt });
                return cursor.continue();
            };
        };
    });
}

/** A story that is kept is the one that was played, by its sum; another one is not played on. */
async function changedStory(page) {
    await page.fresh();
    await page.open(MENU);
    await page.say("hello");
    await page.keeps(1);
    await page.reload();
    await page.rests();
    same(await page.text("title"), "menu.z5", "the story after a reload");
    await page.run(spoilInPage, "stories", "bytes");
    await page.reload();
    holds(await page.isShown("welcome") && !await page.isShown("play"), "a story that has changed is played on");
}

/** The newest million characters are kept for a reload, and not much more. */
async function longReload(page) {
    const most = 1000000;
    const line = `${"On and on it goes. ".repeat(6)}\n`;
    await page.fresh();
    await page.drop(repeating(line, 1500), "long.z5");
    await page.until(() => document.getElementById("title").title === "long.z5");
    await page.rests();
    await page.sayAll(["one", "two", "three", "four", "five", "six"]);
    const before = await page.transcript();
    holds(before.length > most + 100000, `it has ${before.length} characters`);
    await page.keeps(6);
    await page.reload();
    await page.rests();
    const after = await page.transcript();
    holds(before.endsWith(after), "the text after a reload is another one");
    holds(after.length >= most && after.length < most + 10000, `${after.length} characters are kept`);
}

/** A play that goes on after reloads has it in its answers once, however often it was loaded. */
async function twoReloads(page) {
    await page.fresh();
    await page.open(MENU);
    await page.say("roll");
    for (const place of ["first", "second"]) {
        await page.keeps(1);
        await page.reload();
        await page.rests();
        same(await page.text("title"), "menu.z5", `the story after the ${place} reload`);
    }
    await page.lines();
    const file = JSON.parse(readFileSync(await page.fileAfter(() => page.click("#play-file"))));
    same(JSON.stringify(file.answers), '["roll"]', "the answers of the play");
}

/** Saves a game by the page's window, with a name. */
async function save(page, name) {
    await page.say("save");
    await page.shown("saving");
    await page.fill("save-name", name);
    await page.click("#keep");
    await page.until(() => !document.querySelector("dialog[open]"));
    await page.rests();
}

/** The names of the saved games that the page lists, and what stands below them. */
async function listedSaves(page) {
    await page.menu("show-saves");
    await page.shown("restoring");
    const names = await page.run(() => [...document.querySelectorAll("#slots .name")].map((it) => it.textContent));
    same(await page.isShown("no-slots"), names.length === 0, "whether the page says that there are none");
    return names.join();
}

/** A saved game that is removed is gone, and another one is restored. */
async function forgets(page, isLasting) {
    await page.browser.go(page.url);
    await page.ready();
    await page.click("#example");
    await page.rests();
    await page.say("save");
    await page.shown("saving");
    same(await page.isShown("not-lasting"), !isLasting, "whether the page says that nothing is kept");
    await page.leave();
    await page.rests();
    same(await page.transcript(), native(["play", "--echo", Z5], "save\n").text,
        "the transcript of a game that is not saved");
    await page.say("open bag");
    await save(page, "first");
    await page.say("take letter");
    await save(page, "second");
    same(await listedSaves(page), "second,first", "the saved games");
    await page.click("#slots li:first-child button:last-child");
    await page.asks("Remove the saved game?", "Remove it", "Keep it");
    await page.click("#asking-no");
    await page.until(() => !document.getElementById("asking").open);
    same(await page.run(() => document.querySelectorAll("#slots li").length), 2,
        "the number of saved games that are kept");
    await page.click("#slots li:first-child button:last-child");
    await page.click("#asking-yes");
    await page.until(() => document.querySelectorAll("#slots li").length === 1);
    await page.leave();
    same(await listedSaves(page), "first", "the saved games after one was removed");
    await page.leave();
    await page.say("restore");
    await page.click("#slots .pick");
    await page.until(() => !document.querySelector("dialog[open]"));
    await page.rests();
    await page.say("inventory");
    const [found, wanted] = [await page.transcript(), native(["play", "--echo", Z5], "open bag\ninventory\n").text]
        .map((text) => text.slice(text.lastIndexOf(">inventory")));
    same(found, wanted, "what was restored");
}

/**
 * How a browser keeps nothing, as in some private windows: it refuses, it fails, or its store can't be opened twice.
 */
const KEEPS_NOTHING = {
    "it is refused": `for (const name of ["indexedDB", "localStorage"])
        Object.defineProperty(window, name, { get() { throw new DOMException("no", "SecurityError"); } });`,
    "it fails": `IDBFactory.prototype.open = () => {
        const request = {};
        setTimeout(() => request.onerror(new Event("error")));
        return request;
    };`,
    "it is blocked": `IDBFactory.prototype.open = () => {
        const request = {};
        setTimeout(() => request.onblocked(new Event("blocked")));
        return request;
    };`,
};

/** The page in a browser that keeps nothing. */
async function forgetsAll(page, how) {
    const file = join(page.browser.folder, "profile", "page.html");
    const text = readFileSync(fileURLToPath(page.url), "utf8");
    writeFileSync(file, text.replace("<head>", () => `<head><script>${KEEPS_NOTHING[how]}</script>`));
    const own = new Page(page.browser, file);
    await forgets(own, false);
    await own.reload();
    holds(await own.isShown("welcome"), "a play is kept where nothing is");
    await own.click("#example");
    await own.rests();
    same(await listedSaves(own), "", "the saved games after a reload");
}

/** Files that are taken as saved games, and what is told of the others. */
async function savedFiles(page) {
    const story = readFileSync(Z5);
    const quetzal = readFileSync(`${Z5}.dfrotz`);
    const files = {
        "Blorb.qzl": blorb(story), "story.qzl": story, "text.qzl": Buffer.from("a saved game"),
        "empty.qzl": Buffer.alloc(0),
        "other.qzl": Buffer.from("LIST0000IFZS"), "short.qzl": quetzal.subarray(0, 11),
    };
    await page.fresh();
    await page.click("#example");
    await page.rests();
    for (const [name, bytes] of Object.entries(files)) {
        const file = join(page.browser.folder, "profile", name);
        writeFileSync(file, bytes);
        same(await listedSaves(page), "", "the saved games");
        await page.choose(file, "saved-file");
        await page.until((it) => document.getElementById("told").textContent === `${it} is not a Quetzal saved game.`,
            name);
        await page.until(() => !document.querySelector("dialog[open]"));
    }
    same(await listedSaves(page), "", "the saved games");
    await page.choose(`${Z5}.dfrotz`, "saved-file");
    await page.until(() => document.querySelectorAll("#slots li").length === 1);
    await page.leave();
    same(await listedSaves(page), "lighthouse.z5", "the saved games");
    holds(!/line -?\d/.test(await page.text("slots")), await page.text("slots"));
    await page.leave();
    await page.say("restore");
    await page.click("#slots .pick");
    await page.until(() => !document.querySelector("dialog[open]"));
    await page.rests();
    await page.sayAll(["look", "inventory"]);
    const { text } = native(["play", "--save", `${Z5}.dfrotz`, Z5], "restore\nlook\ninventory\n");
    same(await page.shownText(), text.slice(0, -1), "the text");
}

/** A question that is asked at once after another one, before that one's event: each has its own answer. */
async function askedAtOnce(page) {
    await page.fresh();
    await page.click("#example");
    await page.rests();
    for (const name of ["first", "second", "third"])
        await save(page, name);
    same(await listedSaves(page), "third,second,first", "the saved games");
    await page.click("#slots li:first-child button:last-child");
    await page.shown("asking");
    await page.run(() => {
        document.getElementById("asking-no").click();
        document.querySelector("#slots li:last-child button:last-child").click();
    });
    await page.until(() => document.getElementById("asking-words").textContent.startsWith("first:"));
    await page.click("#asking-yes");
    await page.until(() => document.querySelectorAll("#slots li").length < 3);
    await page.leave();
    same(await listedSaves(page), "third,second", "the saved games after the last one was removed");
}

export const KEEPING = [
    ["a kept story that has changed", changedStory],
    ["a reload of a long text", longReload],
    ["two reloads", twoReloads],
    ["saved games that are removed", async (page) => (await page.fresh(), forgets(page, true))],
    ["a question right after another one", askedAtOnce],
    ...Object.keys(KEEPS_NOTHING).map((how) =>
        [`a browser that keeps nothing: ${how}`, (page) => forgetsAll(page, how)]),
    ["files that are no saved games", savedFiles],
];
