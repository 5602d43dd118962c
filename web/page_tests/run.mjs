// Runs the tests in each browser that is here, both at a time.

import { spawnSync } from "node:child_process";
import { existsSync, readdirSync } from "node:fs";
import { join, resolve } from "node:path";
import * as chromium from "./chromium.mjs";
import * as firefox from "./firefox.mjs";
import { CASES, gamesIn } from "./cases.mjs";
import { Page, ROOT } from "./page.mjs";
import { takePictures } from "./pictures.mjs";

const BROWSERS = [[chromium.Chromium, chromium.program()], [firefox.Firefox, firefox.program()]];
const SIZE = [1100, 800];

function optionsOf(words) {
    const options = { page: join(ROOT, "dist/zkit.html"), only: "", case: "", pictures: "", games: "" };
    for (let i = 0; i < words.length; i++) {
        const name = words[i].replace(/^--/, "");
        if (name !== words[i] && name in options)
            options[name] = words[++i];
        else
            options.games = resolve(words[i]);
    }
    options.page = resolve(options.page);
    return options;
}

/** The tools that look at the sources, and how they are called. */
const TOOLS = [
    ["the TypeScript compiler", "tsc", ["-p", join(ROOT, "web/page")]],
    ["eslint", "eslint", ["-f", "unix", "--no-eslintrc", "-c", join(ROOT, "web/eslint.json"), "--ext", ".js,.mjs",
        join(ROOT, "web/page"),
        join(ROOT, "web/page_tests")]],
];

/** Looks at the sources by a tool, if it is here. */
function runTool([name, program, words]) {
    // (Debian's eslint finds its parts by this path where another Node is the first one)
    const env = { ...process.env, NODE_PATH: "/usr/share/nodejs:/usr/lib/nodejs" };
    const it = spawnSync(program, words, { encoding: "utf8", env });
    if (it.error) {
        console.log(`Left out: ${name} is not here.`);
        return 0;
    }
    console.log(it.status === 0 ? `ok   ${name} finds nothing` : `FAIL ${name}:\n${it.stdout}${it.stderr}`);
    return it.status === 0 ? 0 : 1;
}

/** So many milliseconds a test may take; a browser that takes longer does not answer any more. */
const LIMIT = 600000;
const LATE = `nothing came in ${LIMIT / 1000} s`;

/** So often a case that failed is run again. */
const AGAIN = 2;

/** What a promise gives, where it comes in time. */
function inTime(promise) {
    let timer;
    const late = new Promise((_, reject) => {
        timer = setTimeout(() => reject(new Error(LATE)), LIMIT);
    });
    return Promise.race([promise, late]).finally(() => clearTimeout(timer));
}

async function runCase(page, name, does) {
    const began = Date.now();
    try {
        const words = await inTime(does(page));
        return [true, `${name}${words ? `: ${words}` : ""} (${Date.now() - began} ms)`];
    } catch (error) {
        return [false, `${name}: ${error.message}`];
    }
}

/** Runs cases in a browser of their own: how many errors there were, and which cases failed. */
async function runBrowser(Browser, options, cases) {
    const browser = await inTime(Browser.launch());
    const version = await inTime(browser.version());
    const failed = [];
    try {
        await browser.size(...SIZE);
        for (const it of cases) {
            const [passed, words] = await runCase(new Page(browser, options.page), ...it);
            console.log(`${passed ? "ok  " : "FAIL"} ${version}: ${words}`);
            if (!passed)
                failed.push(it);
            if (words.includes(LATE))
                return { errors: 1, failed: [] };
        }
        const errors = browser.errors().filter((it) => !it.includes("Content Security Policy"));
        errors.forEach((it) => console.log(`FAIL ${version}: an error in the page: ${it}`));
        return { errors: errors.length, failed };
    } finally {
        await inTime(browser.close());
    }
}

/**
 * Runs cases in all browsers at a time, and those that failed again in one browser after the other, twice at most: what
 * is wrong with the page fails each time, and what was short of time on a slow machine does not. Gives how many failed.
 */
async function runAll(browsers, options, cases) {
    const first = await Promise.all(browsers.map((Browser) => runBrowser(Browser, options, cases)));
    let sum = 0;
    for (const [i, { errors, failed }] of first.entries()) {
        sum += errors;
        let left = failed;
        for (let more = 0; more < AGAIN && left.length > 0; more++) {
            console.log(`again, with no other browser beside: ${left.map(([name]) => name).join(", ")}`);
            const next = await runBrowser(browsers[i], options, left);
            sum += next.errors;
            left = next.failed;
        }
        sum += left.length;
    }
    return sum;
}

export async function main(words) {
    const options = optionsOf(words);
    if (!existsSync(options.page)) {
        console.log(`The page ${options.page} is not there: nothing is tested.`);
        return 1;
    }
    const wanted = BROWSERS.filter(([Browser]) => !options.only || Browser.name.toLowerCase() === options.only);
    wanted.filter(([, program]) => !program).forEach(([{ name }]) => console.log(`Left out: ${name} is not here.`));
    const here = wanted.filter(([, program]) => program);
    if (options.pictures)
        return takePictures(here[0][0], options.page, options.pictures);
    const games = options.games ? gamesIn(options.games, readdirSync(options.games)) : [];
    const cases = [...CASES, ...games].filter(([name]) => name.includes(options.case));
    const began = Date.now();
    const tools = options.case ? [] : TOOLS.map(runTool);
    const found = tools.reduce((all, count) => all + count, 0);
    const sum = found + await runAll(here.map(([Browser]) => Browser), options, cases);
    const seconds = Math.round((Date.now() - began) / 1000);
    console.log(`${here.length} browsers, ${cases.length} tests each, ${sum} failed, ${seconds} s`);
    return sum > 0 ? 1 : 0;
}
