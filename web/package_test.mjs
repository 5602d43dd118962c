#!/usr/bin/env node
// Installs the package for JavaScript from its file, and runs the example of its README as it is printed, in Node and in
// each browser that is here, beside the program. Its types are looked at where there is the TypeScript compiler.
//
// usage: web/package_test.mjs PACKAGE PROGRAM

import { execFileSync, spawnSync } from "node:child_process";
import { copyFileSync, mkdtempSync, readFileSync, rmSync, writeFileSync } from "node:fs";
import { createServer } from "node:http";
import { tmpdir } from "node:os";
import { extname, join, resolve } from "node:path";
import { fileURLToPath } from "node:url";
import * as chromium from "./page_tests/chromium.mjs";
import * as firefox from "./page_tests/firefox.mjs";

const STORY = fileURLToPath(new URL("../examples/lighthouse.z5", import.meta.url));
const [PACKAGE, PROGRAM] = process.argv.slice(2).map((path) => resolve(path));
const TYPES = { ".js": "text/javascript", ".html": "text/html", ".wasm": "application/wasm" };
const PAGE = `<!doctype html><meta charset="utf-8"><pre id="shown"></pre>
<script>console.log = (text) => { document.getElementById("shown").append(text + "\\n"); };</script>
<script type="importmap">{ "imports": { "zkit": "./node_modules/zkit/index.js" } }</script>
<script type="module" src="first.js"></script>
`;
const USE = `import { KEYS, load, Refused, type Game, type RowRun } from "zkit";
const game: Game = (await load()).open(new Uint8Array(3), { seed: 7n, keys: true, columns: 40 });
export const code: number = KEYS.ArrowUp;
export const awaited: "line" | string = game.turn();
export const row: RowRun[] = game.window().width > 20 ? game.rowRuns(1) : game.tallestRowRuns(1);
export const isRefused = (it: unknown): boolean => it instanceof Refused;
`;

const folder = mkdtempSync(join(tmpdir(), "zkit-package-"));

function want(isSo, words) {
    if (!isSo)
        throw new Error(words);
    console.log(`ok   ${words}`);
}

/** What the example shows by the program: the text of two turns, each as console.log ends it. */
function wanted() {
    const shown = (input) => execFileSync(PROGRAM, ["play", "--seed", "7", STORY], { input, encoding: "utf8" });
    const [first, both] = [shown(""), shown("open bag\n")];
    return `${first}\n${both.slice(first.length)}\n`;
}

function install() {
    writeFileSync(join(folder, "package.json"), '{"type": "module", "private": true}');
    execFileSync("npm", ["install", "--offline", "--silent", "--no-audit", "--no-fund", PACKAGE], { cwd: folder });
    const readme = readFileSync(join(folder, "node_modules/zkit/README.md"), "utf8");
    writeFileSync(join(folder, "first.js"), /```js\n([^]*?)```/.exec(readme)[1]);
    writeFileSync(join(folder, "index.html"), PAGE);
    copyFileSync(STORY, join(folder, "lighthouse.z5"));
}

/** Says whether a script of TypeScript is taken. */
function compiles(text) {
    writeFileSync(join(folder, "use.ts"), text);
    const words = ["--noEmit", "--strict", "--skipLibCheck", "--module", "nodenext", "--moduleResolution", "nodenext",
        "--target", "es2022", "--lib", "es2022,dom", "use.ts"];
    return spawnSync("tsc", words, { cwd: folder }).status === 0;
}

function types() {
    if (spawnSync("tsc", ["--version"]).error) {
        console.log("left out, as there is no command tsc: the types of the package");
        return;
    }
    want(compiles(USE), "its types take a program that is right");
    want(!compiles(`${USE}game.line(5);\n`), "and refuse one that gives a number for a line");
}

function serve() {
    const server = createServer((request, answer) => {
        try {
            const path = join(folder, new URL(request.url, "http://here").pathname.replace(/\/$/, "/index.html"));
            const bytes = readFileSync(path);
            answer.writeHead(200, { "Content-Type": TYPES[extname(path)] ?? "application/octet-stream" }).end(bytes);
        } catch {
            answer.writeHead(404).end();
        }
    });
    return new Promise((done) => server.listen(0, "127.0.0.1", () => done(server)));
}

async function inBrowser(Browser, text) {
    const server = await serve();
    const browser = await Browser.launch();
    try {
        await browser.go(`http://127.0.0.1:${server.address().port}/`);
        let shown = "";
        for (let i = 0; i < 200 && shown.length < text.length; i++) {
            await new Promise((done) => setTimeout(done, 50));
            shown = await browser.run(() => document.getElementById("shown")?.textContent ?? "");
        }
        want(shown === text, `the example runs as printed in ${Browser.name}`);
    } finally {
        await browser.close();
        server.close();
    }
}

try {
    install();
    const text = wanted();
    const shown = execFileSync(process.execPath, ["first.js"], { cwd: folder, encoding: "utf8" });
    want(shown === text, "the example runs as printed in Node");
    types();
    for (const [Browser, program] of [[chromium.Chromium, chromium.program()], [firefox.Firefox, firefox.program()]])
        if (program)
            await inBrowser(Browser, text);
} finally {
    rmSync(folder, { recursive: true, force: true });
}
