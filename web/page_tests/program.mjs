// A page that the program makes by `zkit page` out of the page beside it.

import { spawnSync } from "node:child_process";
import { readFileSync, rmSync, writeFileSync } from "node:fs";
import { dirname } from "node:path";
import { withParts } from "./making.mjs";
import { picture } from "./own.mjs";
import { EXAMPLES, Page, ROOT, holds, join, linesOf, native, same } from "./page.mjs";

const PROGRAM = process.env.ZKIT || join(ROOT, "dist/zkit");
const Z5 = join(EXAMPLES, "lighthouse.z5");
const WALKTHROUGH = join(EXAMPLES, "lighthouse.walkthrough");
const BLURB = "The lamp has gone out.\n\nNobody on the island\nknows why, & <nobody> asks.\n";
const TITLE = "Salt & <i>Sky</i>";

const typedLines = () =>
    [...document.querySelectorAll("#scroller .typed")].map((it) => it.textContent.trimEnd()).join();

function runProgram(words) {
    const { status, stderr, error } = spawnSync(PROGRAM, words, { encoding: "utf8" });
    return { status: error ? error.code : status, said: stderr };
}

/** Files in the browser's folder: a page to be made, and what is put into it. */
function filesFor(page, parts) {
    const path = (name) => join(page.browser.folder, "profile", name);
    for (const [name, content] of Object.entries(parts))
        writeFileSync(path(name), content);
    rmSync(path("made.html"), { force: true });
    return path;
}

/** Where the program's page differs from the one that these tests make of the same parts. */
function sameBytes(file, parts, title) {
    const text = readFileSync(join(dirname(PROGRAM), "zkit.html"), "utf8");
    same(readFileSync(file, "utf8"), withParts(text, parts, title), "the page that the program makes");
}

/** The story and its file's name alone: the title is that name. */
function leastPage(path) {
    const { status, said } = runProgram(["page", Z5, path("made.html")]);
    same(status, 0, `the status with these words: ${said}`);
    sameBytes(path("made.html"), { story: readFileSync(Z5), file: "lighthouse.z5" }, "lighthouse.z5");
    rmSync(path("made.html"));
}

/** A page with all that an author may give: the same bytes as the tests' own, and it is played. */
async function madeByProgram(page) {
    if (runProgram(["page", "--help"]).status !== 0)
        return `left out, as ${PROGRAM} does not know 'page'`;
    const cover = picture(120, 180);
    const path = filesFor(page, { "cover.png": cover, "blurb.txt": BLURB });
    leastPage(path);
    const options = ["--title", TITLE, "--author", "Åse Berg", "--blurb", path("blurb.txt"), "--cover",
        path("cover.png"), "--walkthrough", WALKTHROUGH];
    const { status, said } = runProgram(["page", ...options, Z5, path("made.html")]);
    same(status, 0, `the status with these words: ${said}`);
    sameBytes(path("made.html"), {
        story: readFileSync(Z5), file: "lighthouse.z5", title: TITLE, author: "Åse Berg", blurb: BLURB, cover,
        walkthrough: readFileSync(WALKTHROUGH),
    }, TITLE);
    await playsMade(new Page(page.browser, path("made.html")));
    return "";
}

/** Two turns on the page, a reload, and the walkthrough that is offered. */
async function playsMade(own) {
    await own.fresh();
    await own.until(() => document.getElementById("front-cover").getClientRects().length > 0);
    const texts = await Promise.all(["title", "author", "play"].map((part) => own.text(`front-${part}`)));
    same(texts.join("|"), `${TITLE}|by Åse Berg|Play`, "the title page");
    same(await own.run(() => document.querySelectorAll("#front-blurb p").length), 2, "the paragraphs");
    same(await own.focus(), "front-play -", "the focus on the title page");
    await own.hear();
    await own.browser.press("Enter");
    await own.rests();
    same(await own.focus(), "line 0", "the focus after Play");
    holds((await own.heard()).log.startsWith("It is November"), "the start of the story is not spoken");
    await own.sayAll(["open bag", "north"]);
    await own.seesNewest("the newest turn is not seen");
    same(await own.transcript(), native(["play", "--echo", Z5], "open bag\nnorth\n").text, "the transcript");
    await own.keeps(2);
    await own.reload();
    await own.rests();
    same(await own.run(typedLines), "open bag,north", "the lines after a reload");
    same(await own.focus(), "line 0", "the focus after a reload");
    await own.menu("walkthrough");
    await own.click("#asking-yes");
    await own.until(() => document.getElementById("told").textContent.startsWith("This is the walkthrough."));
    const lines = linesOf(WALKTHROUGH).map((line) => `${line}\n`).join("");
    const end = native(["play", Z5], lines).text.trimEnd().split("\n").filter((line) => line.startsWith("***")).pop();
    holds((await own.text("scroller")).includes(end), `the walkthrough does not come to "${end}"`);
}

export const PROGRAMS = [["a page that the program makes", madeByProgram]];
