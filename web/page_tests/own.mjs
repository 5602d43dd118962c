// A page of its own for a story: what its author has put into it is shown, and the story is played as on any page.

import { createHash } from "node:crypto";
import { writeFileSync } from "node:fs";
import { deflateSync, crc32 } from "node:zlib";
import { contrastsInPage, namesInPage } from "./access.mjs";
import { chunk } from "./keeping.mjs";
import { ownPage, pageWith, textOf, withParts } from "./making.mjs";
import { EXAMPLES, MENU, holds, join, native, pause, readFileSync, same } from "./page.mjs";
import { counting, telling } from "./stories.mjs";

const Z5 = join(EXAMPLES, "lighthouse.z5");
const STORY = readFileSync(Z5);
const LAMP = { story: STORY, file: "lighthouse.z5" };
const NAMED = { ...LAMP, title: "Salt & <i>Sky</i>", author: "Åse Berg" };
const BLURB = "The lamp has gone out.\n\nNobody on the island\nknows why.\n";

const told = (page, words) => page.until((it) => document.getElementById("told").textContent === it, words);
const typedLines = () =>
    [...document.querySelectorAll("#scroller .typed")].map((it) => it.textContent.trimEnd()).join();
const joined = (lines) => lines.map((line) => `${line}\n`).join("");
const played = (story, lines, ...options) => native(["play", "--echo", ...options, story], joined(lines)).text;

/** A picture: a PNG file of some width and height, in one colour. */
export function picture(width, height) {
    const part = (name, data) => {
        const bytes = Buffer.concat([Buffer.alloc(4), Buffer.from(name, "latin1"), data, Buffer.alloc(4)]);
        bytes.writeUInt32BE(data.length);
        bytes.writeUInt32BE(crc32(bytes.subarray(4, -4)), bytes.length - 4);
        return bytes;
    };
    const head = Buffer.from([0, 0, 0, 0, 0, 0, 0, 0, 8, 2, 0, 0, 0]);
    head.writeUInt32BE(width);
    head.writeUInt32BE(height, 4);
    const row = Buffer.concat([Buffer.from([0]), ...Array.from({ length: width }, () => Buffer.from([52, 96, 120]))]);
    const rows = Buffer.concat(Array.from({ length: height }, () => row));
    const parts = [part("IHDR", head), part("IDAT", deflateSync(rows)), part("IEND", Buffer.alloc(0))];
    return Buffer.concat([Buffer.from("\x89PNG\r\n\x1a\n", "latin1"), ...parts]);
}

/** A Blorb file with a story, what it states of it, and a cover as its picture of a number. */
function blorbWithCover(story, metadata, cover, number) {
    const word = (value) => {
        const bytes = Buffer.alloc(4);
        bytes.writeUInt32BE(value);
        return bytes;
    };
    const parts = [chunk("ZCOD", story), chunk("PNG ", Buffer.from("another")), chunk("PNG ", cover)];
    const first = 12 + 8 + 4 + 3 * 12;
    const starts = parts.map((_, i) => first + Buffer.concat(parts.slice(0, i)).length);
    const entry = (use, of, start) => Buffer.concat([Buffer.from(use), word(of), word(start)]);
    const entries = [entry("Exec", 0, starts[0]), entry("Pict", number + 1, starts[1]),
        entry("Pict", number, starts[2])];
    const index = chunk("RIdx", Buffer.concat([word(3), ...entries]));
    const others = [chunk("Fspc", word(number)), chunk("IFmd", Buffer.from(metadata))];
    return chunk("FORM", Buffer.concat([Buffer.from("IFRS"), index, ...parts, ...others]));
}

/** The sums by which the policy lets the page's script and its style be used. */
function sumsOf(text) {
    const sum = (content) => `'sha256-${createHash("sha256").update(content).digest("base64")}'`;
    const all = (pattern) => [...text.matchAll(pattern)].map((it) => sum(it[1])).join(" ");
    return [all(/<script>([^]*?)<\/script>/g), all(/<style>([^]*?)<\/style>/g)];
}

/** The story is opened at once under its title, and played; the page is the author's, and offers no other story. */
async function opensAtOnce(page) {
    const own = ownPage(page, NAMED);
    await own.fresh();
    await own.rests();
    same(await own.text("title"), NAMED.title, "the head");
    same(await own.text("author"), "by Åse Berg", "what stands beside it");
    same(await own.run(() => document.title), NAMED.title, "the title of the page");
    const [title, author] = await own.run(() => ["title", "author"].map((id) => {
        const { right, left, bottom } = document.getElementById(id).getBoundingClientRect();
        return { right, left, bottom };
    }));
    holds(author.left >= title.right && Math.abs(author.bottom - title.bottom) < 9,
        "the author is not beside the title");
    same(await own.focus(), "line 0", "the focus and the caret");
    await own.say("look");
    same(await own.transcript(), played(Z5, ["look"]), "the transcript");
    await own.click("#show-menu");
    const shown = await own.run(() => [...document.querySelectorAll("#menu .items button")]
        .filter((it) => it.getClientRects().length).map((it) => it.textContent).join());
    same(shown, "Restart,History and link,Saved games,Save transcript,Look inside,Open a play from a file", "the menu");
    same((await own.focus()).split(" ")[0], "restart", "the focus in the menu");
    const ifid = native(["info", "--ifid", Z5]).text.replace(/^\[ifid\]\n/, "").trim();
    same((await own.text("about")).replace(/release \d+/, "release"), `lighthouse.z5, release, IFID ${ifid}, line 1`);
    await own.leave();
    await own.keeps(1);
    await own.reload();
    await own.rests();
    same(await own.run(typedLines), "look", "the lines after a reload");
    same(await own.text("author"), "by Åse Berg", "the author after a reload");
    holds(!await own.isShown("welcome"), "the page asks for a story");
    await own.drop(readFileSync(MENU), "menu.z5");
    await told(own, "menu.z5: this page has its own story, and opens only plays of it.");
    await own.say("inventory");
    same(await own.run(typedLines), "look,inventory", "the lines after another story was refused");
}

/** What is put into the page changes nothing that runs in it, and its title is text. */
async function staysWithinPolicy(page) {
    const [before, after] = [textOf(page), withParts(textOf(page), { ...NAMED, blurb: BLURB }, NAMED.title)];
    holds(after.includes("<title>Salt &amp; &lt;i&gt;Sky&lt;/i&gt;</title>"), "the title is not as it should be");
    same(after.match(/<title>/g).length, 1, "the number of titles");
    same(sumsOf(after).join("|"), sumsOf(before).join("|"), "the sums of what runs");
    const policy = after.match(/content="(default-src[^"]*)"/)[1];
    for (const sum of sumsOf(after))
        holds(policy.includes(sum), `the policy has no ${sum}`);
    const own = ownPage(page, { ...NAMED, blurb: BLURB });
    await own.fresh();
    await own.run(() => {
        const script = document.createElement("script");
        script.textContent = "window.ran = true;";
        document.body.append(script);
    });
    same(await own.run(() => window.ran ?? false), false, "whether another script runs");
}

/** The text and the size of the picture on the title page. */
function coverOf(own) {
    return own.run(() => {
        const { alt, naturalWidth, naturalHeight } = document.getElementById("front-cover");
        return [alt, naturalWidth, naturalHeight].join();
    });
}

/** Where there is a cover or a blurb, a page with the title, the author and a button comes first. */
async function titlePage(page) {
    const own = ownPage(page, { ...NAMED, blurb: BLURB, cover: picture(120, 180) });
    await own.fresh();
    await own.until(() => document.getElementById("front-cover").getClientRects().length > 0);
    same(await own.focus(), "front-play -", "the focus");
    const texts = await Promise.all(["title", "author", "play"].map((part) => own.text(`front-${part}`)));
    same(texts.join("|"), "Salt & <i>Sky</i>|by Åse Berg|Play", "the title page");
    const blurb = await own.run(() =>
        [...document.querySelectorAll("#front-blurb p")].map((it) => it.innerText).join("|"));
    same(blurb, "The lamp has gone out.|Nobody on the island knows why.", "the paragraphs");
    same(await coverOf(own), "Cover of Salt & <i>Sky</i>,120,180", "the cover");
    for (const id of ["play", "welcome", "head"])
        same(await own.isShown(id), false, `whether ${id} is shown`);
    same(await own.told(), "", "what is told");
    await own.hear();
    await own.browser.press("Enter");
    await own.rests();
    same(await own.focus(), "line 0", "the focus after Play");
    same((await own.heard()).log, played(Z5, []).slice(0, -1), "what is spoken after Play");
    await own.say("look");
    await own.keeps(1);
    await own.reload();
    await own.rests();
    same(await own.run(typedLines), "look", "a reload goes on, without the title page");
    same(await own.text("show-front"), "Title page", "the button in the menu");
    const leaves = [() => own.browser.press("Enter"), () => own.click("#front-play"), () => own.tap("#front-play")];
    for (const leave of leaves) {
        await own.menu("show-front");
        same([await own.text("front-play"), await own.focus()].join(), "Continue,front-play -", "the title page again");
        await own.browser.paste("north\n");
        await leave();
        await own.shown("play");
        holds(!await own.isShown("front") && await own.isShown("head"), "the title page is still there");
        await own.say("inventory");
    }
    same(await own.run(typedLines), "look,inventory,inventory,inventory", "the lines that were typed");
    await own.restart();
    same(await own.focus(), "line 0", "the focus after a restart");
}

/** After the end, the title page leads back to what stands in the place of the line. */
async function titlePageAfterEnd(page) {
    const ended = ownPage(page, { story: readFileSync(MENU), file: "menu.z5", title: "Hall", blurb: "A hall." });
    await ended.fresh();
    await ended.browser.press("Enter");
    await ended.rests();
    await ended.say("quit");
    await ended.menu("show-front");
    await ended.browser.press("Enter");
    await ended.shown("over");
    same(await ended.focus(), "over-again -", "the focus after the title page where the story has ended");
    holds(!await ended.isShown("ask"), "a line is asked for after the end");
}

/** The title page on a phone: all of it fits, the button is seen with the cover, and each text can be read. */
async function titlePageOnPhone(page) {
    const own = ownPage(page, { ...NAMED, blurb: BLURB.repeat(9), cover: picture(600, 900) });
    await own.browser.size(360, 640);
    try {
        await own.fresh();
        await own.until(() => document.getElementById("front-cover").getClientRects().length > 0);
        const wide = await own.run(() => document.documentElement.scrollWidth - innerWidth);
        holds(wide <= 0, `the page is ${wide} pixels too wide`);
        const [top, bottom] = await own.run(() => [document.getElementById("front-cover").getBoundingClientRect().top,
            document.getElementById("front-play").getBoundingClientRect().bottom]);
        holds(top >= 0 && bottom <= 640, `the cover begins at ${top}, and the button ends at ${bottom}`);
        for (const theme of ["light", "dark"]) {
            await own.run((value) => { document.documentElement.dataset.theme = value; }, theme);
            await pause(160);
            for (const [name, ratio] of await own.run(contrastsInPage))
                holds(ratio >= 4.5, `${theme}: ${name} has ${ratio}`);
        }
        for (const [role, name, id] of await own.run(namesInPage))
            holds(name || role === "status", `${role} ${id} has no name`);
        await own.tap("#front-play");
        await own.rests();
        const fits = await own.run(() => document.documentElement.scrollWidth - innerWidth <= 0
            && document.getElementById("author").getBoundingClientRect().right <= innerWidth);
        holds(fits, "the head is too wide");
    } finally {
        await own.browser.size(1100, 800);
    }
}

/** What a Blorb file states of its story, and its cover, stand where the author says nothing else. */
async function statedByBlorb(page) {
    const metadata = `<?xml version="1.0"?><ifindex xmlns="http://babel.ifarchive.org/protocol/iFiction/"><story>
        <bibliographic><title>Salt</title><author>A. &amp; B.</author>
        <description>One.<br/>Two.</description></bibliographic></story></ifindex>`;
    const file = blorbWithCover(STORY, metadata, picture(30, 40), 7);
    const seen = async (own) => {
        await own.fresh();
        await own.until(() => document.getElementById("front-cover").getClientRects().length > 0);
        const parts = await own.run(() => [...document.querySelectorAll("#front-title, #front-author, #front-blurb p")]
            .map((it) => it.textContent));
        return [...parts, await own.run(() => document.getElementById("front-cover").naturalWidth)].join("|");
    };
    same(await seen(ownPage(page, { story: file, file: "salt.zblorb" })), "Salt|by A. & B.|One.|Two.|30",
        "what the file states");
    const own = ownPage(page,
        { story: file, file: "salt.zblorb", title: "Sky", author: "C.", blurb: "Three.", cover: picture(50, 9) });
    same(await seen(own), "Sky|by C.|Three.|50", "what the author says");
    await own.browser.press("Enter");
    await own.rests();
    same([await own.text("title"), await own.text("author")].join(), "Sky,by C.", "the head");
    await page.fresh();
    await page.drop(file, "salt.zblorb");
    await page.until(() => document.getElementById("title").title === "salt.zblorb");
    await page.rests();
    same([await page.text("title"), await page.text("author")].join(), "Salt,by A. & B.",
        "the head of the page for all");
    await page.click("#undo");
    await page.menu("open");
    await page.click("#example");
    await page.until(() => document.getElementById("title").title === "lighthouse.z5");
    same(await page.isShown("author"), false, "whether a story without an author has one");
}

/**
 * The walkthrough shows itself as a play: its comments and checks are not typed, keys are keys, and its seed counts.
 */
async function walkthrough(page) {
    const text = "\ufeff# seed: 7\n#\n# (of a test)\nroll\n! You\n!~ no\n\\# odd\n#version\n\nmenu\nn\n\nq\r\nroll\n";
    const own = ownPage(page, { story: readFileSync(MENU), file: "menu.z5", title: "Hall", walkthrough: text });
    await own.fresh();
    await own.rests();
    await own.say("hello");
    same(await own.text("walkthrough"), "Walkthrough", "the button in the menu");
    await own.menu("walkthrough");
    await own.asks("Show the walkthrough?", "Show it", "Keep mine");
    same(await own.text("asking-words"), "It replaces your own play of this story, which has 1 line.");
    await own.click("#asking-no");
    await own.until(() => !document.querySelector("dialog[open]"));
    same(await own.run(typedLines), "hello", "the lines that stay");
    await own.menu("walkthrough");
    await own.click("#asking-yes");
    await told(own, "This is the walkthrough. Continue from here, or from any of its lines.");
    await own.rests();
    same(await own.focus(), "line 0", "the focus and the caret");
    await own.seesNewest("the newest turn is not seen");
    const lines = ["roll", "# odd", "#version", "", "menu", "n", "", "q", "roll"];
    const shown = (await own.transcript()).split("\n").filter((line) => line.startsWith(">")).join();
    same(shown, ">roll,># odd,>#version,>,>menu,>roll,>", "the lines of the walkthrough");
    const rolls = (it) => it.split("\n").filter((line) => /roll|\d/.test(line)).join();
    same(rolls(await own.transcript()), rolls(played(MENU, lines, "--seed", "7")), "what was rolled");
    await own.lines();
    const list = await own.run(() =>
        [...document.querySelectorAll("#line-list li")].map((it) => it.textContent).join());
    same(list, "roll,# odd,#version,(an empty line),menu,key n,key Enter,key q,roll", "the list of lines");
    await own.click("#line-list li:nth-child(2) button");
    await own.until(() => document.querySelectorAll("#scroller .typed").length === 1);
    await own.rests();
    await own.say("hello");
    same(await own.transcript(), played(MENU, ["roll", "hello"], "--seed", "7"),
        "the play that goes on from its second line");
}

/** A walkthrough that saves and restores does so by itself; a story that ends before the last line says so. */
async function walkthroughWithSaves(page) {
    const lines = ["open bag", "save", "take letter", "north", "restore", "inventory"];
    const own = ownPage(page, { ...LAMP, title: "Lamp", walkthrough: joined(lines) });
    await own.fresh();
    await own.rests();
    await own.menu("walkthrough");
    await told(own, "This is the walkthrough. Continue from here, or from any of its lines.");
    await own.rests();
    const file = join(page.browser.folder, "profile", "walked.qzl");
    same(await own.transcript(), played(Z5, lines, "--save", file), "the transcript");
    await own.lines();
    await own.click("#copy-link");
    const hash = await own.until(() => location.hash.startsWith("#play=") && location.hash);
    await own.fresh(hash);
    await told(own, "This is the shared play, letter by letter. Continue from here, or from any of its lines.");
    const ends = ownPage(page,
        { story: readFileSync(MENU), file: "menu.z5", title: "Hall", walkthrough: "hello\nquit\nhello" });
    await ends.fresh();
    await ends.rests();
    await ends.menu("walkthrough");
    await told(ends, "The story took only 2 of the walkthrough's 3 lines.");
    same(await ends.text("over-words"), "The story has ended.");
}

/** A long walkthrough says how far it is, and can be stopped; its other lines can still be gone to. */
async function stopsWalkthrough(page) {
    const lines = Array.from({ length: 999 }, (_, i) => `line ${i}`);
    const own = ownPage(page, { story: counting("Done.\n>", "", 40), file: "counts.z5", walkthrough: joined(lines) });
    await own.fresh();
    await own.rests();
    await own.menu("walkthrough");
    await own.until(() =>
        /^Repeating the play: [1-9]\d* of 999\.$/.test(document.getElementById("running-words").textContent));
    await own.click("#stop");
    await told(own, "You have stopped the walkthrough. Continue from here, or from any of its lines.");
    await own.rests();
    const typed = (await own.run(typedLines)).split(",");
    same(typed.join(), lines.slice(0, typed.length).join(), "the lines that were given");
    await own.lines();
    same(await own.run(() => document.querySelectorAll("#line-list li").length), 1000,
        "the lines, with the end of the list");
    await own.click(`#line-list li:nth-child(${typed.length + 2}) button`);
    await own.until((count) => document.querySelectorAll("#scroller .typed").length === count, typed.length + 1);
    await own.rests();
    same((await own.run(typedLines)).split(",").pop(), lines[typed.length], "the line that was gone to");
}

/** A link to a play of the page opens it at once; a play of another story has words, and the story begins. */
async function linksOfOwn(page) {
    const own = ownPage(page, { ...NAMED, blurb: BLURB });
    await own.fresh();
    await own.browser.press("Enter");
    await own.rests();
    await own.sayAll(["open bag", "look"]);
    const text = await own.transcript();
    await own.lines();
    await own.click("#copy-link");
    const hash = await own.until(() => location.hash.startsWith("#play=") && location.hash);
    const file = await own.fileAfter(() => own.click("#play-file"));
    const bytes = readFileSync(file);
    await own.fresh(hash);
    await told(own, "This is the shared play, letter by letter. Continue from here, or from any of its lines.");
    same(await own.focus(), "line 0", "the focus and the caret");
    same(await own.transcript(), text, "the transcript of the link");
    const other = { ...JSON.parse(bytes), ifid: "ZCODE-1-261127-15E0" };
    const words = "this play can't be shown: it is of another story, whose IFID is ZCODE-1-261127-15E0.";
    await own.drop(Buffer.from(JSON.stringify(other)), "other.play.json");
    await told(own, `other.play.json: ${words}`);
    same(await own.transcript(), text, "the transcript after another story's play");
    await own.fresh(`#play=0${Buffer.from(JSON.stringify(other)).toString("base64url")}`);
    same(await own.told(), `The link: ${words}`);
    same(await own.focus(), "front-play -", "the focus after a link to another story's play");
    const path = join(page.browser.folder, "profile", "a.play.json");
    writeFileSync(path, bytes);
    await own.browser.press("Enter");
    await own.rests();
    await own.choose(path);
    await told(own, "This is the shared play, letter by letter. Continue from here, or from any of its lines.");
    same(await own.transcript(), text, "the transcript of the file");
}

/** What is damaged in the page has words, and so has a story that is none. */
async function damagedOwn(page) {
    const damage = (name, given) => pageWith(page, withParts(textOf(page), given, "Lamp")
        .replace(new RegExp(`(id="own-${name}">)[^<]*`), "$1*"));
    const words = (name) => `This page is damaged and can't be read as a whole: own-${name}.`;
    const parts = { ...NAMED, blurb: BLURB, cover: picture(9, 9), walkthrough: "look\n" };
    const story = damage("story", parts);
    await story.fresh();
    same(await story.told(), words("story"));
    same(await story.text("front-title"), NAMED.title, "the title");
    for (const id of ["front-play", "welcome", "play"])
        same(await story.isShown(id), false, `whether ${id} is shown`);
    const cover = damage("cover", parts);
    await cover.fresh();
    same(await cover.told(), words("cover"));
    same(await cover.isShown("front-cover"), false, "whether a cover is shown");
    await cover.browser.press("Enter");
    await cover.rests();
    await cover.say("look");
    const text = Buffer.from("Once upon a time there was a text. ".repeat(9));
    const tries = [[text, "a.txt", "a.txt: not a story: it is a text file"],
        [Buffer.alloc(2000, 6), "six.z6", "six.z6: not a story: version 6 is not played"]];
    for (const [bytes, file, wanted] of tries) {
        const own = ownPage(page, { ...NAMED, story: bytes, file });
        await own.fresh();
        same(await own.told(), wanted);
        same(await own.isShown("front-play"), false, "whether a story that is none can be played");
    }
    const picturesThatAreNone = [picture(9, 9).subarray(0, 20), Buffer.from("a text")];
    for (const bytes of picturesThatAreNone) {
        const own = ownPage(page, { ...NAMED, cover: bytes });
        await own.fresh();
        await pause(300);
        same(await own.isShown("front-cover"), false, "whether a cover that is none is shown");
        same(await own.focus(), "front-play -", "the focus");
    }
    const cut = ownPage(page, { ...LAMP, story: STORY.subarray(0, STORY.length - 1000), title: "Lamp" });
    await cut.fresh();
    await cut.rests();
    holds((await cut.told()).startsWith("lighthouse.z5 is cut off: "), await cut.told());
}

/** A story without a title is called what it calls itself, or as its file. */
async function untitled(page) {
    const own = ownPage(page, { story: telling("Once.\n>"), file: "tales/é.z5" }, "é");
    await own.fresh();
    await own.rests();
    same(await own.text("title"), "tales/é.z5", "the head");
    same(await own.isShown("author"), false, "whether an author is shown where none is said");
    await own.click("#show-menu");
    same(await own.isShown("walkthrough"), false, "whether there is a walkthrough where none is given");
    same(await own.isShown("show-front"), false, "whether there is a title page where none is given");
}

export const OWN = [
    ["a page of its own", opensAtOnce],
    ["a page of its own keeps to the policy", staysWithinPolicy],
    ["a page of its own without a title", untitled],
    ["a title page", titlePage],
    ["a title page after the end", titlePageAfterEnd],
    ["a title page on a phone", titlePageOnPhone],
    ["what a Blorb file states", statedByBlorb],
    ["an author's walkthrough", walkthrough],
    ["an author's walkthrough with saved games", walkthroughWithSaves],
    ["an author's walkthrough that is stopped", stopsWalkthrough],
    ["links of a page of its own", linksOfOwn],
    ["damage in a page of its own", damagedOwn],
];
