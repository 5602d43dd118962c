// Takes the pictures of the manual.

import { join } from "node:path";
import { EXAMPLES, MENU, Page, pause } from "./page.mjs";

const LIGHTHOUSE = join(EXAMPLES, "lighthouse.z5");
const LINES = ["open bag", "read letter", "take letter", "north"];

async function play(page, story, lines) {
    await page.fresh();
    await page.open(story);
    await page.sayAll(lines);
}

async function inside(page, tab) {
    await page.click("#show-inside");
    await page.until(() => document.getElementById("panel").getAttribute("aria-busy") === "false");
    await page.click(`#tab-${tab}`);
    await page.until(() => document.getElementById("panel").getAttribute("aria-busy") === "false");
}

/** Each picture: its name, its width and height, whether it is dark, and how the page comes to show it. */
const PICTURES = [
    ["first", 800, 440, false, (page) => page.fresh()],
    ["wide", 800, 600, false, (page) => play(page, LIGHTHOUSE, LINES)],
    ["dark", 800, 600, true, (page) => play(page, LIGHTHOUSE, LINES)],
    ["phone", 360, 640, false, (page) => play(page, LIGHTHOUSE, LINES)],
    ["box", 800, 440, false, (page) => play(page, join(EXAMPLES, "box.z5"), [])],
    ["menu", 800, 440, false, (page) => play(page, MENU, ["menu"])],
    ["phone-menu", 360, 640, true, (page) => play(page, MENU, ["menu"])],
    ["options", 800, 600, false, async (page) => {
        await play(page, LIGHTHOUSE, LINES);
        await page.click("#show-menu");
    }],
    ["lines", 800, 600, false, async (page) => {
        await play(page, LIGHTHOUSE, LINES);
        await page.click("#show-lines");
    }],
    ["saves", 800, 600, false, async (page) => {
        await play(page, LIGHTHOUSE, [...LINES, "save"]);
        await page.click("#keep");
        await page.rests();
        await page.sayAll(["west", "save"]);
    }],
    ["inside-map", 800, 600, false, async (page) => {
        await play(page, LIGHTHOUSE, LINES);
        await inside(page, "map");
    }],
    ["inside-tree", 800, 600, true, async (page) => {
        await play(page, LIGHTHOUSE, LINES);
        await inside(page, "tree");
    }],
    ["inside-code", 800, 600, false, async (page) => {
        await play(page, LIGHTHOUSE, LINES);
        await inside(page, "code");
    }],
];

export async function takePictures(Browser, file, folder) {
    const browser = await Browser.launch();
    try {
        for (const [name, width, height, isDark, does] of PICTURES) {
            const page = new Page(browser, file);
            await browser.size(width, height);
            await browser.dark(isDark);
            await does(page);
            await pause(400);
            await browser.shot(join(folder, `browser-${name}.png`));
        }
    } finally {
        await browser.close();
    }
    return 0;
}
