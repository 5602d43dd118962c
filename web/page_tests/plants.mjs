// Runs tests in pages that conformance/plant_web.py has changed, each up to the first test that refuses it.
//
// Each line of standard input is {"page": FILE, "cases": [[NAME, WAIT, LIMIT]..]}, with milliseconds. For each case a
// line comes out: {"name": .., "refused": .., "came": [..], "ms": ..}, and after the last one {"end": true}.

import { createInterface } from "node:readline";
import { CASES } from "./cases.mjs";
import { Chromium } from "./chromium.mjs";
import { LONGEST, Page } from "./page.mjs";

/** What never comes is waited for once more, and so many times longer: a machine may have much else to do. */
const LONGER = 4;

const does = new Map(CASES);

function tell(it) {
    process.stdout.write(`${JSON.stringify(it)}\n`);
}

/** A browser, and what the page in it has said by its marks. */
async function launched() {
    const browser = await Chromium.launch();
    await browser.size(1100, 800);
    const { pipe } = browser;
    const heard = pipe.heard.bind(pipe);
    browser.came = new Set();
    pipe.heard = (it) => {
        const words = it.method === "Runtime.consoleAPICalled" ? String(it.params.args[0]?.value) : "";
        if (words.startsWith("came "))
            browser.came.add(words.slice(5));
        heard(it);
    };
    return browser;
}

/** What a case refuses, or "". */
async function refusalOf(browser, file, name, limit) {
    const page = new Page(browser, file);
    let timer;
    const late = new Promise((_, reject) => {
        timer = setTimeout(() => reject(new Error("no end")), limit);
    });
    const errors = browser.errors().length;
    const run = async () => {
        // (other tests begin so by themselves)
        if (name === "starts")
            await page.fresh();
        await does.get(name)(page);
    };
    try {
        await Promise.race([run(), late]);
    } catch (error) {
        return error.message || "an error";
    } finally {
        clearTimeout(timer);
    }
    return browser.errors().slice(errors).find((it) => !it.includes("Content Security Policy")) ?? "";
}

async function main() {
    let browser = await launched();
    tell({ ready: true });
    for await (const line of createInterface({ input: process.stdin })) {
        const { page, cases } = JSON.parse(line);
        for (const [name, wait, limit] of cases) {
            LONGEST.wait = wait;
            browser.came.clear();
            const began = Date.now();
            let refused = await refusalOf(browser, page, name, limit);
            if (refused.startsWith("this never held")) {
                LONGEST.wait = LONGER * wait;
                refused = await refusalOf(browser, page, name, LONGER * limit);
            }
            tell({ name, refused: refused.slice(0, 300), came: [...browser.came], ms: Date.now() - began });
            if (refused === "no end") {
                await browser.close();
                browser = await launched();
            }
            if (refused)
                break;
        }
        tell({ end: true });
    }
    await browser.close();
    process.exit();
}

main();
