#!/usr/bin/env node
// Tests of zkit.wasm in Node, beside the program. web/test makes what they take, and runs them.
// SPDX-License-Identifier: MIT OR Apache-2.0
//
// usage: web/tests.js MODULE PROGRAM FOLDER COUNT [TEST]...
//
// FOLDER has what conformance/run.py --write and generated.py with COUNT write, the stories of
// examples/embed/large.cases and, where there is a C compiler, the program kept. Where tests are named, these are run
// in that order, up to the first check that fails.
import { spawnSync } from "child_process";
import { createHash } from "crypto";
import fs from "fs";
import path from "path";
import { fileURLToPath } from "url";
import { sumOf } from "./page/sums.js";
import {
    readingKeys, restoringWindow, styled, stylingCells, telling, tellingStatus, tellingStyles, tellingWidth,
} from "./page_tests/stories.mjs";
import { linesOf, play } from "./player.js";
import { KEYS, LISTINGS, Module, Refused } from "./zkit.js";

const [MODULE, PROGRAM, FOLDER, COUNT, ...NAMES] = process.argv.slice(2);
const EXAMPLES = fileURLToPath(new URL("../examples", import.meta.url));
const PLAY = fileURLToPath(new URL("play.js", import.meta.url));
const MENU = fs.readFileSync(new URL("page_tests/menu.z5", import.meta.url));
const VERSIONS = [3, 4, 5, 8];
const CAP = 64 << 20;
const PAGE = 65_536;
const RUNS = 0;
const QUIT = 1;
const UNDO_BYTES = 1 << 20;
const LONGEST = 512 << 20;
const NONE = Buffer.alloc(0);
const LAST_LINE = /^zkit: (refused|fault|limit) \d|^zkit: (read failed|write failed|out of memory)$/;

const code = fs.readFileSync(MODULE);
let bad = 0;
let checks = 0;

function want(holds, what) {
    checks++;
    if (holds)
        return;
    bad++;
    process.stderr.write(`differs: ${what}\n`);
    if (NAMES.length > 0)
        process.exit(1);
}

const same = (one, other) => Buffer.compare(one, other) === 0;
const example = (name) => fs.readFileSync(path.join(EXAMPLES, name));
const made = (name) => fs.readFileSync(path.join(FOLDER, name));
const sizeOf = (module) => module.calls.memory.buffer.byteLength;

const secondsSince = (begin) => `${((performance.now() - begin) / 1000).toFixed(1)} s`;

/**
 * Plays a story by the module. `saved` is the saved game that is there before, `keeps` says whether there is a place
 * for one, and `slice` how many instructions a turn has.
 */
function byModule(module, story, options, input, { saved = null, keeps = true, slice = undefined } = {}) {
    const shown = [];
    const script = [];
    const game = module.open(story, options);
    const ending = play(game, {
        lines: linesOf([input]),
        show: (text) => shown.push(text),
        script: (text) => script.push(text),
        keep: (file) => (keeps ? (saved = file, true) : false),
        kept: () => saved,
    }, slice);
    game.close();
    const last = ending.told.slice(-1).join();
    const told = ending.told.join("\n");
    return { shown: Buffer.concat(shown), script: Buffer.concat(script), saved, status: ending.status, last, told };
}

function run(words, input = NONE) {
    const { stdout, stderr, status } = spawnSync(PROGRAM, words, { input, maxBuffer: LONGEST, timeout: 60_000 });
    return { shown: stdout, status, told: String(stderr).trimEnd().split("\n") };
}

/** What is at a path, if anything; it goes away. */
function taken(file) {
    if (!fs.existsSync(file))
        return null;
    const bytes = fs.readFileSync(file);
    fs.unlinkSync(file);
    return bytes;
}

/** Plays a story by the program, with files for its saved game and its transcript. */
function byProgram(story, words, input) {
    const [file, save, script] = ["played", "played.save", "played.script"].map((name) => path.join(FOLDER, name));
    fs.writeFileSync(file, story);
    const { shown, status, told } = run(["play", ...words, "--save", save, "--script", script, file], input);
    const last = LAST_LINE.test(told[told.length - 1]) ? told[told.length - 1] : "";
    return { shown, script: taken(script) ?? NONE, saved: taken(save), status, last, told: told.slice(-2).join("\n") };
}

/** By `zkit_restore` the upper window keeps its height: the blank rows are shown that `zkit play --upper` has not. */
const KEPT_WINDOW = { row: " a restore takes the upper window away ", shown: "hi\n| \n| \n" };

/** Plays each row in both of its ways. */
function rows(module) {
    const plays = JSON.parse(String(made("rows.json")));
    for (const { name, story, input, options, save, screen, script, status, line } of plays) {
        const came = mayBeRefused(module, made(story), options, made(input), save);
        const shown = name.includes(KEPT_WINDOW.row) ? KEPT_WINDOW.shown : screen;
        const isSame = String(came.shown) === shown && (script === null || String(came.script) === script);
        want(isSame && came.status === status && came.last === line, `row ${name}`);
    }
}

/** Tells where two plays differ, if they do. */
function wantSame(came, wanted, what) {
    want(same(came.shown, wanted.shown), `${what}: the text`);
    want(same(came.script, wanted.script), `${what}: the transcript`);
    want(same(came.saved ?? NONE, wanted.saved ?? NONE), `${what}: the saved game`);
    want(came.last === wanted.last && came.status === wanted.status, `${what}: ${came.last} for ${wanted.last}`);
}

/** The game by its walkthrough and its saves, whole and in slices with little room, and with a game of dfrotz. */
function gameOf(module, version) {
    const name = `lighthouse.z${version}`;
    const story = example(name);
    for (const [lines, text] of [["walkthrough", "txt"], ["saves", "saves.txt"]]) {
        const wanted = example(`${name}.${text}`);
        const input = example(`lighthouse.${lines}`);
        want(same(byModule(module, story, {}, input).shown, wanted), `${name}: ${text}`);
        const sliced = byModule(module, story, { room: 64 }, input, { slice: 1000 });
        want(same(sliced.shown, wanted), `${name}: ${text} in slices`);
    }
    const refused = byModule(module, story, {}, Buffer.from("save\nlook\n"), { keeps: false });
    const file = path.join(EXAMPLES, name);
    want(same(refused.shown, run(["play", "--save", "/nowhere/x", file], "save\nlook\n").shown), `${name}, not saved`);
    const input = Buffer.from("restore\ninventory\nlook\n");
    const { shown } = byModule(module, story, {}, input, { saved: example(`${name}.dfrotz`) });
    want(shown.includes(">You have with you:\n  a letter\n  a postbag\n\n>Shore Path\n"), `${name}, saved by dfrotz`);
}

function examples(module) {
    VERSIONS.forEach((version) => gameOf(module, version));
    want(same(byModule(module, example("streams.z5"), {}, NONE).shown, example("streams.z5.txt")), "streams.z5");
    for (const name of fs.readdirSync(EXAMPLES).filter((file) => /\.z[3458]$/.test(file))) {
        const story = example(name);
        const came = byModule(module, story, { upper: true, seed: 7n }, example("lighthouse.walkthrough"));
        const words = ["--upper", "--seed", "7"];
        wantSame(came, byProgram(story, words, example("lighthouse.walkthrough")), `${name} with its upper window`);
    }
}

/** What is drawn beside the text. */
function windows(module) {
    const box = module.open(example("box.z5"));
    want(box.turn(1) === "time", "a turn of one instruction");
    want(box.turn() === "line" && box.window().height === 1 && box.window().tallest > 4, "the box: its height");
    want(box.tallestRows().some((row) => row.includes("Through me the way into the city")), "the box: its text");
    want(box.rows().join() === " The gate".padEnd(69) + "Turns: 0", "the box: the row that is left");
    box.close();
    const game = module.open(example("lighthouse.z3"));
    want(game.turn() === "line" && game.text().includes("Jetty"), "the game of version 3 begins");
    const { kind, name, first, second } = game.statusLine() ?? {};
    want([kind, name, first, second].join() === "score,Jetty,0,0", "its status line");
    want(game.story().version === 3 && game.story().serial === "261122" && game.longestLine() > 20, "its story");
    want(!game.character(65) && game.image() === null && game.words() + game.lastLine() === "", "it awaits a line");
    game.close();
    const narrow = module.open(example("lighthouse.z5"), { room: 64 });
    want(narrow.turn() === "room" && narrow.textBytes().length >= 64, "a story that awaits room for its text");
    narrow.close();
    want(module.version() === 0x000100, "the version");
}

/** The lines of a listing by the program. */
function byProgramListed(listing, file) {
    if (listing === "code")
        return run(["disasm", file]).shown.toString();
    if (listing === "findings")
        return run(["check", file]).shown.toString();
    return run(["info", `--${listing}`, file]).shown.toString().replace(/^\[[a-z]+\]\n/, "");
}

/** The parts of a listing together. */
function inParts(game, listing) {
    const parts = [];
    let part;
    do {
        part = game.listFor(listing, 500);
        parts.push(part.bytes);
    } while (part.goesOn);
    return Buffer.concat(parts).toString();
}

function listingsOf(module, file) {
    const game = module.open(fs.readFileSync(file));
    for (const listing of LISTINGS) {
        const told = byProgramListed(listing, file);
        want(game.list(listing) === told, `${path.basename(file)}: ${listing}`);
        want(inParts(game, listing) === told, `${path.basename(file)}: ${listing}, in parts`);
    }
    want(game.list("nothing") === null && game.listFor("nothing", 1) === null, "there is no such listing");
    const bytes = Buffer.from(game.list("ifid") ?? "").length;
    want(game.list("ifid", bytes) !== null, "a listing has as many bytes as it may");
    game.calls.zkit_list(game.at, LISTINGS.indexOf("ifid"));
    want(game.list("ifid", bytes - 1) === null, "a listing has a byte more than it may");
    want(game.taken(module.calls.zkit_listing).length === 0, "a listing that is refused leaves nothing");
    game.close();
}

function listings(module) {
    for (const name of fs.readdirSync(EXAMPLES).filter((file) => /\.z[3458]$/.test(file)))
        listingsOf(module, path.join(EXAMPLES, name));
    for (let number = 0; number < Math.min(COUNT, 40); number++)
        if (run(["info", "--ifid", path.join(FOLDER, `${number}.story`)]).status === 0)
            listingsOf(module, path.join(FOLDER, `${number}.story`));
}

function refusalOf(open) {
    try {
        open().close();
    } catch (error) {
        if (error instanceof Refused)
            return error;
        throw error;
    }
    return { number: 0, message: "" };
}

function refusedAsByProgram(module, name, story) {
    const file = path.join(FOLDER, "refused");
    fs.writeFileSync(file, story);
    const { told } = run(["play", file]);
    const { number, message } = refusalOf(() => module.open(story));
    const words = [`zkit: ${file}: not a story: ${message}`, `zkit: refused ${number}`];
    want(told.join("\n") === words.join("\n"), `refused: ${name}`);
}

function refusals(module) {
    const story = example("lighthouse.z5");
    const set = (...bytes) => bytes.reduce((all, [at, byte]) => (all[at] = byte, all), Buffer.from(story));
    refusedAsByProgram(module, "no bytes", NONE);
    refusedAsByProgram(module, "too short", story.subarray(0, 63));
    refusedAsByProgram(module, "version 6", set([0, 6]));
    refusedAsByProgram(module, "too long", Buffer.concat([story, Buffer.alloc(300_000)]));
    refusedAsByProgram(module, "very long", Buffer.concat([story, Buffer.alloc(80 << 20)]));
    refusedAsByProgram(module, "static base", set([14, 0], [15, 16]));
    refusedAsByProgram(module, "start", set([6, 255], [7, 255]));
    refusedAsByProgram(module, "Blorb", Buffer.concat([Buffer.from("FORM0000IFRS"), story]));
    refusedAsByProgram(module, "Glulx", Buffer.concat([Buffer.from("Glul"), story]));
    refusedAsByProgram(module, "gzip", Buffer.concat([Buffer.from([31, 139]), story]));
    refusedAsByProgram(module, "zip", Buffer.concat([Buffer.from("PK\x03\x04"), story]));
    refusedAsByProgram(module, "text", Buffer.from("Dear reader, this is no story at all.\n".repeat(9)));
    const limits = [{ frames: 0 }, { frames: 65_536 }, { words: -1 }, { undo: 65 }, { steps: 2 ** 32 }, { room: 0 }];
    for (const options of limits)
        want(refusalOf(() => module.open(story, options)).number === 7, `refused: ${JSON.stringify(options)}`);
}

/** The words for each reason why nothing is opened, as examples/embed/tries.txt has them for the library for C. */
function wordsOfReasons(module) {
    const [, part] = String(example("embed/tries.txt")).split("why nothing is opened, in words\n");
    const words = part.split("\n").filter((line) => line.startsWith("  its words: ")).map((line) => line.slice(14, -1));
    const buffer = module.calls.zkit_take(16_384n);
    const story = example("lighthouse.z5");
    for (const reason of [1, 3, 4, 5, 6, 7, 8, 9, 10, 11])
        want(module.wordsOfRefusal(reason, story, buffer) === words[reason], `the words of reason ${reason}`);
    want(module.wordsOfRefusal(2, story, buffer) === "version 5 is not played", "the words of reason 2");
    module.calls.zkit_give(buffer);
    const options = { frames: 0 };
    const refused = refusalOf(() => module.open(story, options));
    want(refused.message === words[7] && refused.name === "Refused", "the words of a limit out of its range");
    want(refusalOf(() => module.openSnapshot(story, story)).message === words[8], "the words of what is no snapshot");
}

/** Files that are no stories, shorter than a header and longer: the words are those of the program. */
function refusedFiles(module) {
    const fronts = [
        "FORM\0\0\0\x40IFRS", "Glul\0\x03\x01\x03", "\x1f\x8b\x08", "PK\x03\x04", "Dear reader, ", "\x06\0", "\0",
        "\xff",
    ];
    for (const front of fronts)
        for (const length of [front.length, 63, 64, 2000])
            for (const rest of [0, 0x20]) {
                const file = Buffer.concat([Buffer.from(front, "latin1"), Buffer.alloc(length, rest)]);
                const name = `${JSON.stringify(front)} of ${length} bytes, and ${rest}`;
                refusedAsByProgram(module, name, file.subarray(0, length));
            }
}

/** Limits at the ends of their ranges, and the longest story of each version, as zkit.h has them. */
function limits(module) {
    const story = example("hello.z3");
    const number = (options) => refusalOf(() => module.open(story, options)).number;
    for (const [version, most] of [[3, 131_072], [4, 262_144], [5, 262_144], [8, 524_288]])
        for (const [length, reason] of [[most, 0], [most + 1, 3]]) {
            const long = Buffer.concat([example(`lighthouse.z${version}`), Buffer.alloc(length)]).subarray(0, length);
            want(refusalOf(() => module.open(long)).number === reason, `version ${version} of ${length} bytes`);
        }
    const ranges = {
        frames: [1, 65_535], words: [0, 65_535], undo: [0, 64], steps: [1, 1e9], room: [1, 2 ** 31 - 1],
        columns: [20, 255],
    };
    for (const [name, [least, most]] of Object.entries(ranges)) {
        for (const value of [least, most])
            want(number({ [name]: value }) === 0, `${name} of ${value} is taken`);
        for (const value of [least - 1, most + 1, most + 0.5, NaN, 2 ** 32 + most])
            want(number({ [name]: value }) === 7, `${name} of ${value} is refused`);
    }
}

/** Seeds of up to 64 bits give the numbers that they give the program. */
function seeds(module) {
    const input = Buffer.from("roll\nroll\nroll\n");
    const seen = new Set();
    for (const seed of [0n, 1n, 7n, 2n ** 32n - 1n, 2n ** 32n, 2n ** 32n + 7n, 2n ** 63n + 7n, 2n ** 64n - 1n]) {
        const came = byModule(module, MENU, { seed }, input);
        wantSame(came, byProgram(MENU, ["--seed", `${seed}`], input), `the seed ${seed}`);
        seen.add(String(came.shown));
    }
    want(seen.size === 8, "each seed gives other numbers");
    const { told } = byModule(module, MENU, {}, Buffer.from("break\n"));
    const isSame = told === byProgram(MENU, [], Buffer.from("break\n")).told;
    want(isSame && told.startsWith("zkit: division by zero\n"), `the words of a fault: ${told}`);
}

/** A story that reads characters, and prints each. */
function echoing() {
    const story = telling(" ".repeat(9));
    // read_char 1 -> global 0; print_char global 0; jump back to the first
    story.set([0xf6, 0x7f, 1, 0x10, 0xe5, 0xbf, 0x10, 0x8c, 0xff, 0xf8], 0x800);
    return story;
}

/** A story of a version that reads a line into the bytes at 00200, and ends. */
function reading(version) {
    const story = telling(" ".repeat(9));
    // read 0200 0300 -> global 0; quit. Version 3, where a read has no result: loadb #ba #00 -> global 1; quit
    story.set([0xe4, 0x0f, 0x02, 0, 0x03, 0, 0x10, 0xba, 0, 0x11, 0xba], 0x800);
    story[0] = version;
    story[0x300] = 1;
    // the dictionary, without a word
    story.set([0x03, 0x80], 8);
    story[0x381] = 9;
    return story;
}

/** A byte order mark is a character without a code, at the start of an input too. */
function marks(module) {
    for (const [input, shown] of [["\ufeffab\nc\n", "?c"], ["\ufeff", "?"], ["\ufeff\r\na\n", "?a"]])
        want(String(byModule(module, echoing(), {}, Buffer.from(input)).shown) === shown, `a mark: ${shown}`);
    const [line, long] = ["\ufeff", "\ufeff" + "x".repeat(65_533)].map((it) => Buffer.from(it));
    want(same(Buffer.concat([...linesOf(parts(line, 1))]), line), "a mark in parts");
    want(byModule(module, echoing(), {}, long).last === "zkit: read failed", "a mark counts for the length of a line");
    for (const [version, first] of [[3, 0x201], [5, 0x202], [8, 0x202]]) {
        const game = module.open(reading(version));
        play(game, { lines: linesOf([Buffer.from("\ufefflook\n")]) });
        want(String(Buffer.from(game.memory(first, 5))) === "?look", `a mark in a line of version ${version}`);
        game.close();
    }
}

/** Lines as they may come: their ends, their lengths and their bytes. */
function inputs(module) {
    const long = (length, rest = "") => Buffer.from("x".repeat(length) + rest);
    const lines = [
        "look\r\ninventory\r\n", "look\n\n\r\nlook", "look\r\r\n", "\xe4\xf6\n\xff\n", "look\tx\n\0\n",
        "\u{1F600}\n", "\rq\nq\n", "\r", "\r\r\nq\n", "q\r", "roll\n\ufeffroll\n", "q\n\ufeffq\nq\n",
    ];
    const marks = [[0xef], [0xef, 0xbb], [0xef, 0xbb, 10, 0xbf, 10], [0xef, 0xef, 0xbb, 0xbf, 10, 113, 10], [0xbb, 10]];
    const all = [
        NONE, ...[...marks, ...lines].map((it) => Buffer.from(it)), ...lines.map((text) => Buffer.from(text, "latin1")),
        long(65_535), long(65_536), long(65_535, "\nlook\n"), long(70_000), long(65_535, "\r\nlook\n"),
        long(65_534, "\r\nlook\n"), long(65_535, "\r"),
    ];
    const echo = echoing();
    for (const [i, input] of all.entries()) {
        const z5 = example("lighthouse.z5");
        for (const [name, story, before] of [["a line", z5, ""], ["keys", echo, ""], ["both", MENU, "menu\n"]]) {
            const typed = Buffer.concat([Buffer.from(before), input]);
            wantSame(byModule(module, story, {}, typed), byProgram(story, [], typed), `input ${i} as ${name}`);
        }
        for (const size of [1, 3]) {
            const [came, wanted] = [parts(input, size), [input]].map((it) => Buffer.concat([...linesOf(it)]));
            want(same(came, wanted), `input ${i} in parts of ${size}`);
        }
    }
    const short = { turn: () => "memory", textBytes: () => NONE, transcriptBytes: () => NONE };
    const { status, told } = play(short, { lines: linesOf([]) });
    want(status === 5 && told.join() === "zkit: out of memory", "a story without memory for its text");
    for (const byte of [0x61, 0xef, 0xbb]) {
        const typed = (function* () {
            yield Buffer.from([byte, 10]);
            want(false, `the line of the byte ${byte} is there before the next one is typed`);
        })();
        want(linesOf(typed).next().value[0] === byte, `a line of the byte ${byte}`);
    }
}

/** Bytes in a thousand parts of a size, and the rest. */
function parts(bytes, size) {
    const first = Array.from({ length: 1000 }, (_, i) => bytes.subarray(i * size, (i + 1) * size));
    return [...first, bytes.subarray(1000 * size)];
}

/** The command web/play.js ends as `zkit play`: its text, its status and its last line, and what it writes. */
function commands() {
    const file = (name, bytes) => (fs.writeFileSync(path.join(FOLDER, name), bytes), path.join(FOLDER, name));
    const [menu, z5] = [file("menu.z5", MENU), path.join(EXAMPLES, "lighthouse.z5")];
    const script = Buffer.from(example("lighthouse.z5"));
    script[17] |= 1;
    const tries = [
        [[menu], "roll\nbreak\n"], [["--seed", "4294967303", menu], "roll\n"], [["--steps", "99", menu], "turn\n"],
        [["--frames", "1", z5], "look\n"], [["--words", "20", z5], "look\n"], [["--upper", z5], "north\nlook\n"],
        [["--undo", "0", z5], "undo on\nlook\nundo\n"], [["--undo", "1", z5], "undo on\nlook\nlook\nundo\nundo\n"],
        [[z5], "save\nrestore\n"], [["--save", "@", z5], "open bag\nsave\nnorth\nrestore\nlook\n"],
        [["--save", "/nowhere/x", z5], "save\nrestore\n"], [["--script", "/nowhere/x", z5], "look\n"],
        [["--script", "@", file("scripted.z5", script)], "look\n"], [["/nowhere/x.z5"], ""], [[z5], "x".repeat(65_536)],
        [[file("none.z5", "A text that is no story.")], ""], [[file("six.z6", Buffer.alloc(99, 6))], ""],
    ];
    const kept = path.join(FOLDER, "kept.command");
    for (const [words, input] of tries) {
        const all = words.map((word) => (word === "@" ? kept : word));
        const starts = [[process.execPath, PLAY, "--module", MODULE], [PROGRAM, "play"]];
        const [came, wanted] = starts.map(([command, ...front]) => {
            const { stdout, stderr, status } = spawnSync(command, [...front, ...all], { input, maxBuffer: LONGEST });
            const last = String(stderr).trimEnd().split("\n").pop();
            return [status, LAST_LINE.test(last) ? last : "", String(stdout), String(taken(kept))].join("\n");
        });
        want(came === wanted, `web/play.js ${words.join(" ")}: ${came.slice(0, 40)} for ${wanted.slice(0, 40)}`);
    }
    const wrong = [
        [], ["--seed", "x", z5], ["--steps"], [z5, z5], ["--nothing", z5], [z5, "--save"], [z5, "--seed"],
        [z5, "--steps"], [z5, "--frames", "x"], [z5, "--words", "1x"], [z5, "--undo", "-1"], [z5, "12"],
    ];
    for (const words of wrong) {
        const { status, stderr, stdout } = spawnSync(process.execPath, [PLAY, ...words]);
        const isTold = String(stderr).startsWith("usage: web/play.js [--module FILE]") && String(stdout) === "";
        want(status === 1 && isTold, `web/play.js ${words.join(" ")} is refused`);
    }
}

/** SHA-256 of the page beside that of Node, about the ends of its blocks. */
function sums() {
    for (const length of [...Array.from({ length: 140 }, (_, i) => i), 1000, 65_535, 1_000_003]) {
        const bytes = Buffer.from(Array.from({ length }, (_, i) => (i * 7 + length) & 0xff));
        want(sumOf(bytes) === createHash("sha256").update(bytes).digest("hex"), `the sum of ${length} bytes`);
    }
    want(sumOf("Skärvø €") === createHash("sha256").update("Skärvø €").digest("hex"), "the sum of a text");
}

/** Status lines and a window whose figures differ. */
function figures(module) {
    for (const [flags, first, second, kind] of [[0, -5, 300, "score"], [2, 13, 5, "time"]]) {
        const game = module.open(tellingStatus(flags, first, second));
        game.turn();
        const line = JSON.stringify({ kind, name: "ab", first, second });
        want(JSON.stringify(game.statusLine()) === line, `a status line: ${kind}`);
        want(!game.undo() && !game.saved(true) && !game.restore(null), "there is no state, and no saved game");
        game.close();
        game.close();
        let thrown = "";
        try {
            game.turn();
        } catch (error) {
            thrown = error.message;
        }
        want(thrown === "the game is closed", "a game that is closed is not played");
    }
    // split_window 4; set_window 1; set_cursor 3 7; print_char 'c'; read_char 1 -> global 0
    const story = telling(" ".repeat(9));
    story.set([0xea, 0x7f, 4, 0xeb, 0x7f, 1, 0xef, 0x5f, 3, 7, 0xe5, 0x7f, 0x63, 0xf6, 0x7f, 1, 0x10, 0xba], 0x800);
    const game = module.open(story);
    want(game.turn() === "character", "a story reads while it writes in the window");
    const window = { height: 4, tallest: 4, row: 3, column: 8, selected: true, width: 80 };
    want(JSON.stringify(game.window()) === JSON.stringify(window), "a window");
    want(game.rows().join() === ",,      c," && game.tallestRows().join() === ",,      c,", "its rows");
    game.close();
}

/** The last line of a story that has stopped for lack of memory or by too much text, as zkit.h numbers these. */
function lastLines(module) {
    const game = module.open(example("hello.z3"));
    const most = "zkit: an instruction shows more text than there may be";
    for (const [status, line] of [[0, ""], [1, ""], [5, "zkit: out of memory"], [6, most]]) {
        game.status = () => status;
        want(game.lastLine() === line, `the last line of status ${status}`);
    }
    game.close();
}

/** A text that begins with U+FEFF keeps it: it is a character like others there. */
function firstCharacters(module) {
    const story = telling(" ".repeat(9));
    story[17] |= 1;
    // print_unicode $FEFF; print_char 'a'; quit
    story.set([0xbe, 0x0b, 0x3f, 0xfe, 0xff, 0xe5, 0x7f, 0x61, 0xba], 0x800);
    const game = module.open(story);
    want(game.turn() === "stopped" && game.text() === "\ufeffa", "a text that begins with U+FEFF");
    want(game.transcript() === "\ufeffa", "a transcript that begins with U+FEFF");
    game.close();
}

/** A chunk of a Blorb file. */
function chunk(name, content) {
    const head = Buffer.alloc(8);
    head.write(name, "latin1");
    head.writeUInt32BE(content.length, 4);
    return Buffer.concat([head, content, Buffer.alloc(content.length % 2)]);
}

/** A Blorb file with an executable of a kind. */
function blorb(kind, executable) {
    const index = Buffer.alloc(16);
    index.writeUInt32BE(1);
    index.write("Exec", 4, "latin1");
    index.writeUInt32BE(12 + 24, 12);
    return chunk("FORM", Buffer.concat([Buffer.from("IFRS"), chunk("RIdx", index), chunk(kind, executable)]));
}

/** The story of a Blorb file is taken out of it, and each other file is itself. */
function blorbs(module) {
    const first = sizeOf(module);
    const story = example("lighthouse.z5");
    const file = blorb("ZCOD", story);
    const is = (it, bytes) => it !== null && Buffer.compare(Buffer.from(it), bytes) === 0;
    want(is(module.storyIn(file), story), "a story in a Blorb file");
    want(is(module.storyIn(Buffer.concat([file, NONE, Buffer.from("more")])), story), "bytes behind a Blorb file");
    for (const other of [NONE, story, file.subarray(0, 7), Buffer.from("FORM0000AIFF"), Buffer.alloc(80 << 20)])
        want(module.storyIn(other) === other, "a file that is no Blorb file");
    for (const none of [file.subarray(0, 12), file.subarray(0, file.length - 1), blorb("GLUL", story)])
        want(module.storyIn(none) === null, "a Blorb file without a story");
    wantAllFree(module, first, "stories in files");
    const long = refusalOf(() => module.storyIn(blorb("ZCOD", Buffer.alloc(524_290))));
    want(long.number === 3 && long.message === "the file is too long for its version", "a story that is too long");
    const great = refusalOf(() => module.storyIn(blorb("ZCOD", Buffer.alloc(80 << 20))));
    want(great.number === 6 && great.message === "out of memory", "a Blorb file that is longer than memory");
}

/** Plays a story where each line is answered by a game of its own. `next` answers one. */
function fromSnapshots(lines, next) {
    let shown = "";
    let snapshot = null;
    for (const line of [null, ...lines]) {
        const step = next(snapshot, line);
        shown += step.shown;
        snapshot = step.snapshot;
        if (snapshot === null)
            break;
    }
    return shown;
}

/** Answers a line, and plays up to the next read. */
function nextByModule(module, story, snapshot, line) {
    const game = snapshot === null ? module.open(story) : module.openSnapshot(story, snapshot);
    if (line !== null && game.turn() === "line")
        game.line(line);
    else if (line !== null)
        game.character(line.codePointAt(0) ?? 10);
    let shown = "";
    let awaited;
    do {
        awaited = game.turn();
        shown += game.text();
    } while (awaited === "save" ? game.saved(false) : awaited === "restore" ? game.restore(null) : awaited === "room");
    const takenOfIt = awaited === "stopped" ? null : game.snapshot(UNDO_BYTES);
    game.close();
    return { shown, snapshot: takenOfIt };
}

/** The same by examples/embed/kept.c, which is linked with the library for C. */
function nextByLibrary(file, snapshot, line) {
    const kept = path.join(FOLDER, "snapshot");
    if (snapshot !== null)
        fs.writeFileSync(kept, snapshot);
    const words = [file, kept, ...(line === null ? [] : [line])];
    const { stdout } = spawnSync(path.join(FOLDER, "kept"), words);
    return { shown: stdout.toString(), snapshot: taken(kept) };
}

/** The walkthrough of a version; from 5 on each turn is kept, and one is taken back. */
function linesWithUndo(version) {
    const lines = example("lighthouse.walkthrough").toString().trimEnd().split("\n");
    return version < 5 ? lines.filter((line) => line !== "undo") : ["undo on", ...lines];
}

function snapshots(module) {
    const hasLibrary = fs.existsSync(path.join(FOLDER, "kept"));
    for (const version of VERSIONS) {
        const lines = linesWithUndo(version);
        const file = path.join(EXAMPLES, `lighthouse.z${version}`);
        const story = fs.readFileSync(file);
        const wanted = run(["play", file], Buffer.from(lines.join("\n"))).shown.toString();
        const here = (snapshot, line) => nextByModule(module, story, snapshot, line);
        let turn = 0;
        const both = (snapshot, line) =>
            (turn++ % 2 ? nextByLibrary(file, snapshot, line) : here(snapshot, line));
        want(fromSnapshots(lines, here) === wanted, `${file} from snapshots`);
        want(!hasLibrary || fromSnapshots(lines, both) === wanted, `${file} from the library's snapshots and back`);
    }
    if (!hasLibrary)
        console.log("left out, as there is no command cc: snapshots that the library for C opens");
}

function snapshotRefusals(module) {
    const story = example("lighthouse.z5");
    const { snapshot } = nextByModule(module, story, null, null);
    const refused = (bytes, of = story) => refusalOf(() => module.openSnapshot(of, bytes)).number;
    want(refused(snapshot) === 0, "a snapshot is opened");
    want(refused(Buffer.from("no snapshot at all, but a text")) === 8, "what is no snapshot is refused");
    want(refused(snapshot, example("lighthouse.z4")) === 10, "a snapshot of another story is refused");
    want(refused(snapshot.map((byte, at) => (at === 900 ? byte ^ 1 : byte))) === 11, "a damaged snapshot is refused");
    want(refused(snapshot.subarray(0, 1000)) === 11, "a snapshot that is cut off is refused");
}

/** The text of a game after a line: up to the next read or the stop. */
function said(game, line) {
    want(game.line(line), `${line} is taken`);
    game.turn();
    return game.text();
}

/** A clone and its first game each show what a game alone shows, in whatever order they are played and closed. */
function clones(module) {
    const first = sizeOf(module);
    const alone = (lines) => {
        const game = module.open(example("lighthouse.z5"));
        game.turn();
        game.text();
        const shown = lines.map((line) => said(game, line)).join("");
        game.close();
        return shown;
    };
    const game = module.open(example("lighthouse.z5"));
    want(game.clone() === null, "there is no clone before the first turn");
    game.turn();
    want(game.waitingText() > 0, "text waits");
    const early = game.clone();
    want(early.waitingText() === 0 && early.waitingTranscript() === 0, "a clone has no text");
    game.text();
    want(game.waitingText() === 0, "no text waits once it was taken");
    let shown = said(game, "undo on") + said(game, "north");
    const late = game.clone();
    want(late.place().states === game.place().states, "a clone has the same states to go back to");
    want(late.place().instructions === 0n && game.place().instructions > 0n, "a clone counts its own instructions");
    shown += said(game, "look");
    game.close();
    want(shown === alone(["undo on", "north", "look"]), "the first game");
    want(said(early, "inventory") === alone(["inventory"]), "an early clone");
    early.close();
    want(said(late, "undo") + said(late, "inventory")
        === alone(["undo on", "north", "undo", "inventory"]).slice(alone(["undo on", "north"]).length), "a late clone");
    want(late.reseed(7n), "a clone gets other random numbers");
    late.close();
    wantAllFree(module, first, "clones");
}

/** Games of a story that is opened once show what games show that open it for themselves, and stay without it. */
function shared(module) {
    const first = sizeOf(module);
    const bytes = example("lighthouse.z5");
    const story = module.share(bytes);
    const [one, other] = [story.open({ seed: 7, columns: 60 }), module.open(bytes, { seed: 7, columns: 60 })];
    [one, other].forEach((game) => game.turn());
    want(one.text() === other.text() && one.window().width === 60, "the opening of a game of a shared story");
    want(said(one, "north") === said(other, "north"), "a turn of it");
    const later = story.openSnapshot(one.snapshot());
    later.turn();
    const refused = (open) => refusalOf(open).number;
    want(refused(() => story.openSnapshot(new Uint8Array(9))) === 8, "what is no snapshot is refused");
    want(refused(() => story.open({ frames: 0 })) === 7, "a limit out of its range is refused");
    want(refused(() => module.share(bytes.subarray(0, 63))) === 1, "what is no story is not shared");
    story.close();
    story.close();
    try {
        story.open();
        want(false, "a closed story opens no game");
    } catch (error) {
        want(error.message === "the story is closed", "a closed story");
    }
    want(said(later, "look") === said(other, "look"), "a game from a snapshot of it");
    [one, other, later].forEach((game) => game.close());
    wantAllFree(module, first, "shared stories");
}

/** A turn step by step carries out what `zkit disasm` lists, and shows what the turn shows. */
function steps(module) {
    const file = path.join(EXAMPLES, "lighthouse.z5");
    const code = new Set(run(["disasm", "--all", file]).shown.toString().split("\n"));
    const [one, other] = [module.open(fs.readFileSync(file)), module.open(fs.readFileSync(file))];
    let [awaited, count] = ["time", 0];
    for (; awaited === "time"; count++) {
        const { address } = one.place();
        const { instruction, awaited: next } = one.step();
        want(code.has(instruction) && parseInt(instruction, 16) === address, `the instruction ${instruction}`);
        awaited = next;
    }
    other.turn();
    want(awaited === "line" && count > 100, "the steps of the opening");
    want(one.text() === other.text() && one.place().instructions === other.place().instructions, "its text");
    want(one.instruction(0xffffffff) !== null, "an address past the story");
    [one, other].forEach((game) => game.close());
}

/** A changed game has the change, and nothing that the story could not do is done. */
function changes(module) {
    const game = module.open(example("lighthouse.z5"));
    want(!game.setWord(0x400, 7) && !game.moveObject(7, 8), "nothing is changed before the first read");
    game.turn();
    const base = game.memory(14, 2).reduce((sum, byte) => 256 * sum + byte);
    const before = game.hash(0, base);
    want(game.setWord(base - 2, 0xabcd) && game.memory(base - 2, 2).join() === "171,205", "the last word");
    want(!game.setWord(base - 1, 7) && !game.setWord(base, 7) && !game.setWord(100, 65_536), "no such words");
    want(game.hash(0, base) !== before, "the hash of a changed game");
    const names = Array.from({ length: game.objects() }, (_, i) => game.object(i + 1).name);
    const name = (words) => 1 + names.indexOf(words);
    want(game.moveObject(name("letter"), name("yourself")), "an object is moved");
    want(game.object(name("letter")).parent === name("yourself"), "it is there");
    want(game.moveObject(name("letter"), 0) && game.object(name("letter")).parent === 0, "it is nowhere");
    want(!game.moveObject(5_000, 1) && !game.moveObject(1, 70_000), "no such objects");
    game.close();
}

/** The objects of a story as `zkit info --objects` lists them: number, name, parent, sibling and child. */
function looks(module) {
    for (const version of VERSIONS) {
        const file = path.join(EXAMPLES, `lighthouse.z${version}`);
        const story = fs.readFileSync(file);
        const game = module.open(story, { coverage: true });
        const listed = run(["info", "--objects", file]).shown.toString();
        const names = Array.from({ length: game.objects() }, (_, i) => game.object(i + 1).name);
        want(names.every((name) => listed.includes(name)), `${file}: the names of objects`);
        want(names.length > 5 && names.some((name) => name === "Jetty"), `${file}: the number of objects`);
        want(game.object(0) === null && game.object(65_536) === null, `${file}: no such objects`);
        want(game.memory(0, 1)[0] === version && game.memory(story.length, 9).length === 0, `${file}: memory`);
        want(game.hash(0, 0) === 0xcbf29ce484222325n, `${file}: the hash of nothing`);
        want(game.coverage(0, story.length).every((mark) => mark === 0), `${file}: nothing was carried out`);
        game.turn();
        const { address, routines, reads } = game.place();
        want(game.coverage(address, 1)[0] === 1, `${file}: the instruction that waits was carried out`);
        want(game.routines().length === routines + 1 && reads === 0, `${file}: where it stands`);
        const [main] = game.routines();
        want(main.address === 0 && main.call === 0, `${file}: the routine that it begins in`);
        const list = [];
        for (let it = game.property(1, 0); it?.next; it = game.property(1, it.next))
            list.push(it.next);
        want(list.every((number, i) => i === 0 || number < list[i - 1]), `${file}: properties go down`);
        want(game.property(1, 99) === null, `${file}: no such property`);
        game.close();
    }
}

/** Looks whether all that the memory has grown by can be had in one piece: then no game has kept any of it. */
function wantAllFree(module, first, what) {
    const grown = sizeOf(module) - first;
    const all = module.calls.zkit_take(BigInt(grown - 16));
    want(all !== 0n && sizeOf(module) === first + grown, `${what}: all memory is free again`);
    module.calls.zkit_give(all);
}

/** Opens, plays and closes a thousand games. */
function thousand(module) {
    const first = sizeOf(module);
    const lines = example("lighthouse.walkthrough").subarray(0, 400);
    const stories = ["lighthouse.z3", "lighthouse.z5", "lighthouse.z8", "streams.z5", "box.z5"].map(example);
    let grown = 0;
    for (let number = 0; number < 1000; number++) {
        byModule(module, stories[number % stories.length], { seed: BigInt(number), undo: number % 17 }, lines);
        if (number === 99)
            grown = sizeOf(module);
    }
    want(sizeOf(module) === grown, `a thousand games: ${grown} bytes, and then ${sizeOf(module)}`);
    wantAllFree(module, first, "a thousand games");
    console.log(`        ${grown} bytes of memory after a hundred games and after a thousand`);
}

/** Asks for something again and again, up to the first time that it is not so. */
function wantEach(count, holds, what) {
    let turn = 0;
    while (turn < count && holds())
        turn++;
    want(turn === count, `${what}: ${turn} times of ${count}`);
}

/** A story that prints without end: its text is taken or left, in whole turns and in slices. */
function loop(module) {
    const game = module.open(made("loop.z5"), { steps: 1_000_000_000 });
    wantEach(6, () => game.turn() === "room" && game.textBytes().length >= 1 << 20, "it prints, and awaits room");
    wantEach(100, () => game.turn() === "room", "it waits where its text is left");
    game.textBytes();
    wantEach(1000, () => game.turn(1000) === "time", "it gives the time back");
    game.close();
}

/** An instruction that prints forty million letters and pauses in their middle, and a listing of as many. */
function long(module) {
    const game = module.open(made("long.z5"));
    want(game.turn(1) === "time", "the turn of an instruction ends in the middle of its text");
    let letters = game.textBytes().length;
    want(letters > 0 && letters <= 1002, "it has shown a thousand letters");
    let awaited = game.turn();
    for (; awaited === "room"; awaited = game.turn())
        letters += game.textBytes().length;
    letters += game.textBytes().length;
    want(awaited === "stopped" && game.status() === QUIT, "it ends");
    want(letters === 40_500_000, `it has shown all of them: ${letters}`);
    want(game.list("code") === null, "there is no memory for a listing of so many letters");
    want(game.list("code", 1 << 20) === null, "it has more bytes than it may");
    want(game.list("header") !== null, "another one is listed after it");
    game.close();
}

/** The greatest story, which keeps as many states as it may. */
function greatest(module) {
    const game = module.open(made("greatest.z8"), { undo: 64, frames: 65_535, words: 65_535 });
    wantEach(80, () => game.turn() === "character" && game.character(97), "it reads on");
    want(game.turn() === "character" && game.snapshot() !== null && game.undo(), "it goes back");
    game.close();
}

function large(module) {
    const first = sizeOf(module);
    for (const look of [loop, greatest, long]) {
        const begin = performance.now();
        look(module);
        want(sizeOf(module) <= CAP, `${look.name}: at most 64 MB`);
        console.log(`        ${look.name}: ${sizeOf(module)} bytes of memory, ${secondsSince(begin)}`);
    }
    wantAllFree(module, first, "large stories");
}

/** Takes all memory that there is, from large pieces to small ones. */
function takeAll(module) {
    const takenPieces = [];
    for (let size = 1 << 24; size >= 1;) {
        const at = module.calls.zkit_take(BigInt(size));
        if (at === 0n)
            size = Math.floor(size / 4);
        else
            takenPieces.push(at);
    }
    return takenPieces;
}

/** What comes of calls where there is no memory, and after it is there again. */
function full(module) {
    const first = sizeOf(module);
    const story = example("lighthouse.z5");
    const [game, other] = [module.open(story), module.open(story)];
    want(game.turn() === "line" && game.text() !== "" && other.turn() === "line", "two games begin");
    const pieces = takeAll(module);
    want(sizeOf(module) > CAP - (1 << 20) && sizeOf(module) <= CAP, "all memory is taken");
    want(refusalOf(() => module.open(story)).number === 6, "a story is refused");
    want(game.snapshot() === null && game.list("code") === null && !game.line("look"), "calls are refused");
    module.calls.zkit_give(pieces.pop());
    let awaited = "line";
    for (let turn = 0; turn < 1000 && other.line("x") && awaited === "line"; turn++)
        awaited = other.turn();
    want(awaited === "memory" && other.status() === RUNS, "a story waits where there is no room for its text");
    const before = other.text();
    pieces.forEach((at) => module.calls.zkit_give(at));
    want(other.turn() === "line" && (before + other.text()).endsWith(">"), "it goes on once there is");
    want(game.line("look") && game.turn() === "line" && game.text().includes("The planks"), "the other one goes on");
    [game, other].forEach((one) => one.close());
    wantAllFree(module, first, "a full memory");
}

/** A module whose requests for memory are refused from one on: `refuse(0, call)` refuses all that a call makes. */
function refusing(module) {
    const { calls } = module;
    let left = Infinity;
    module.calls = { ...calls, zkit_take: (size) => (left-- > 0 ? calls.zkit_take(size) : 0n) };
    return (count, call) => {
        left = count;
        try {
            return call();
        } finally {
            left = Infinity;
        }
    };
}

/** Each request for memory of the calls that open is refused: they say so, and keep none. */
function refusedRequests(module) {
    const first = sizeOf(module);
    const story = example("lighthouse.z5");
    const file = blorb("ZCOD", story);
    const { snapshot } = nextByModule(module, story, null, null);
    const refuse = refusing(module);
    const opens = [
        [2, () => module.open(story)], [3, () => module.openSnapshot(story, snapshot)], [4, () => module.storyIn(file)],
    ];
    for (const [requests, open] of opens)
        for (let count = 0; count < requests; count++) {
            const { number, message } = refuse(count, () => refusalOf(open));
            want(number === 6 && message === "out of memory", `${open}: request ${count} is refused`);
            wantAllFree(module, first, `${open} with ${count} requests`);
        }
    const text = Buffer.from("Dear reader, this is no story at all.\n".repeat(9));
    const { number, message } = refuse(2, () => refusalOf(() => module.open(text)));
    want(number === 2 && message === "version 68 is not played", "a text whose words there is no memory for");
    wantAllFree(module, first, "a text");
}

/** Calls of a game for which there is no memory leave it as it was. */
function refusedCalls(module) {
    const first = sizeOf(module);
    const game = module.open(example("lighthouse.z5"));
    const refuse = refusing(module);
    const calls = game.calls;
    game.calls = module.calls;
    want(game.turn() === "line" && !refuse(0, () => game.line("save")), "a line is not given");
    want(refuse(0, () => game.snapshot()) === null && game.snapshot() !== null, "a snapshot is not made");
    want(game.line("save") && game.turn() === "save", "the story saves");
    want(refuse(0, () => game.image()) === null, "a saved game is not made");
    const image = game.image();
    want(image !== null && game.saved(true) && game.turn() === "line", "it is saved");
    want(game.line("restore") && game.turn() === "restore", "the story restores");
    want(!refuse(0, () => game.restore(image)) && game.restore(image), "a saved game is not given, and then is");
    want(game.turn() === "line", "the story goes on");
    game.calls = calls;
    game.close();
    wantAllFree(module, first, "calls that are refused");
}

/** Plays a story by the module; one that is refused ends as the program does. */
function mayBeRefused(module, story, options, input, keeps = true) {
    try {
        return byModule(module, story, options, input, { keeps });
    } catch (error) {
        if (!(error instanceof Refused))
            throw error;
        return { shown: NONE, script: NONE, saved: null, status: 1, last: `zkit: refused ${error.number}` };
    }
}

function generated(module) {
    const ends = {};
    for (let number = 0; number < COUNT; number++) {
        const story = made(`${number}.story`);
        const input = made(`${number}.input`);
        const upper = number % 3 === 0;
        const words = ["--seed", `${number}`, "--steps", "100000", "--undo", "2", ...(upper ? ["--upper"] : [])];
        const options = { seed: BigInt(number), steps: 100_000, undo: 2, upper };
        const came = mayBeRefused(module, story, options, input);
        wantSame(came, byProgram(story, words, input), `generated story ${number}`);
        const end = came.last.replace(/ at .*/, "") || (came.status === 0 ? "no last line" : "too much text");
        ends[end] = (ends[end] ?? 0) + 1;
    }
    console.log("        " + Object.entries(ends).sort().map(([end, count]) => `${count} ${end}`).join(", "));
}

/** The runs of a text with styles, erasures and bleeps. */
function styles(module) {
    const story = styled();
    const run = (text, styles, before) => ({ text, styles, before });
    const wanted = [run("hi", ["bold"], []), run("hi", [], []), run("ä", ["italic"], ["erased", "low bleep"]),
        run("", [], ["erased", "high bleep"])];
    const game = module.open(story, { styles: true });
    want(game.turn() === "character", "styles: a character is read");
    want(JSON.stringify(game.runs()) === JSON.stringify(wanted), "styles: the runs");
    want(game.runs().length === 0, "styles: no run is told twice");
    game.character(120);
    game.turn();
    want(JSON.stringify(game.runs()) === JSON.stringify([run("hi", ["italic", "fixed"], [])]), "styles: a fixed pitch");
    game.close();
    const plain = module.open(story);
    plain.turn();
    want(JSON.stringify(plain.runs()) === JSON.stringify([run("hihiä", [], [])]), "styles: one run without the option");
    plain.close();
}

/**
 * The width of the screen is told to the story, in characters and in units (sections 8.4 and 11.1), and the rows of its
 * upper window have it; what is printed past it is dropped.
 */
function widths(module) {
    for (const character of ["x", "\u20ac"])
        for (const width of [80, 20, 40, 255]) {
            const options = width === 80 ? {} : { columns: width };
            const story = tellingWidth(character.codePointAt(0));
            const game = module.open(story, options);
            want(game.turn() === "character" && game.text() === `${width} ${width} `, `widths: ${width} is told`);
            const row = character.repeat(width);
            const runs = JSON.stringify([{ text: row, styles: [] }]);
            const is = (it) => it.window().width === width && it.window().column === width + 1
                && it.rows().join() === row && JSON.stringify(it.rowRuns(1)) === runs;
            want(is(game), `widths: a row of ${width} of ${character}`);
            const again = module.openSnapshot(story, game.snapshot(), { columns: 30 });
            want(is(again), `widths: a row of ${width} of ${character} from a snapshot`);
            again.close();
            game.close();
        }
}

/** A story is told of styles (section 11.1), and has a font of a fixed pitch (section 8.1), where a host wants it. */
function fonts(module) {
    const run = (text, styles) => ({ text, styles, before: [] });
    const told = [
        [{ styles: true }, [run("28 ", []), run("1 a4 0 ", ["fixed"]), run("4 b1 ", [])]],
        [{}, [run("16 0 a1 0 1 b1 ", [])]],
    ];
    for (const [options, runs] of told) {
        const game = module.open(tellingStyles(), options);
        want(game.turn() === "character", "fonts: a character is read");
        const came = JSON.stringify(game.runs());
        want(came === JSON.stringify(runs), `fonts: ${came}`);
        game.close();
    }
}

/** The styles of the upper window's cells (section 8.7.1): spaces in reverse are seen, also at the end of a row. */
function cells(module) {
    const run = (text, ...those) => ({ text, styles: those });
    const first = [
        run("ab  ", "reverse"), run("   "), run("c", "bold"), run("\u20ac", "bold", "italic"), run("e", "fixed"),
        run("f"),
    ];
    const rows = [first, [], [run(" "), run("   ", "reverse")], []];
    for (const options of [{ styles: true }, {}]) {
        const game = module.open(stylingCells(), options);
        const are = (get) => JSON.stringify([1, 2, 3, 4].map(get)) === JSON.stringify(rows);
        want(game.turn() === "character" && game.rows().join() === "ab     c\u20acef,,", "cells: the rows");
        want(are((row) => game.rowRuns(row)) && are((row) => game.tallestRowRuns(row)), "cells: their runs");
        for (const none of [0, -1, 1.5, 256, 257, 2 ** 32 + 1])
            want(game.rowRuns(none).length + game.tallestRowRuns(none).length === 0, `cells: no row ${none}`);
        game.character(120);
        want(game.turn() === "character" && game.window().tallest === 3, "cells: the rows are taken away");
        want(game.rowRuns(1).length === 0 && are((row) => game.tallestRowRuns(row)), "cells: the tallest rows' runs");
        game.close();
    }
}

/** Keys that are no characters, and lines that a key ends. */
function keys(module) {
    const story = readingKeys();
    const play = (options, character, key) => {
        const game = module.open(story, options);
        game.turn();
        want(!game.lineEnded("go", key), "keys: no line is awaited yet");
        want(game.character(character), "keys: a character is taken");
        game.turn();
        const taken = game.lineEnded("go", key);
        const text = game.turn() === "stopped" ? game.text() : "";
        game.close();
        return [taken, text];
    };
    const wantPlay = (came, taken, text, name) => want(came[0] === taken && came[1] === text, `keys: ${name}: ${came}`);
    wantPlay(play({}, KEYS.ArrowUp, KEYS.ArrowDown), true, "63 130", "without the option");
    wantPlay(play({ keys: true }, KEYS.ArrowUp, KEYS.ArrowDown), true, "129 130", "with the option");
    wantPlay(play({ keys: true }, KEYS.Escape, 13), true, "27 13", "a new line");
    wantPlay(play({ keys: true }, KEYS.Delete, KEYS.ArrowUp), false, "", "a key that ends no line");
    wantPlay(play({ keys: true }, KEYS.F12, 1.5), false, "", "no key");
}

/** What is no file or no number is refused before memory is taken for it, and a number may be a seed. */
function badArguments(module) {
    const story = example("lighthouse.z5");
    const wrong = [
        () => module.open("story"), () => module.open(story, { seed: 1.5 }), () => module.open(story, { seed: "x" }),
        () => module.open(story, null), () => module.openSnapshot(story, "snapshot"), () => module.storyIn(5),
    ];
    const refuses = (call) => {
        try {
            call();
        } catch (error) {
            return !(error instanceof Refused);
        }
        return false;
    };
    want(wrong.every(refuses), "bad arguments: each is refused");
    const before = module.calls.memory.buffer.byteLength;
    for (let i = 0; i < 3000; i++)
        wrong.forEach(refuses);
    want(module.calls.memory.buffer.byteLength === before, "bad arguments: no memory is kept");
    const numbers = (seed) => {
        const game = module.open(story, { seed });
        game.turn();
        const snapshot = game.snapshot();
        game.close();
        return Buffer.from(snapshot).toString("hex");
    };
    want(numbers(7) === numbers(7n) && numbers(7) !== numbers(8), "bad arguments: a seed may be a number");
    want(numbers(0) === numbers(0n), "bad arguments: so may 0");
    const other = module.open(story.buffer.slice(story.byteOffset, story.byteOffset + story.length));
    want(other.turn() === "line", "bad arguments: an ArrayBuffer is a file");
    other.close();
}

/** The upper window keeps its height after a restore, and a host gives it any. */
function split(module) {
    const game = module.open(restoringWindow());
    game.turn();
    const file = game.image();
    game.saved(true);
    want(game.turn() === "restore" && game.window().height === 1, "split: a row before the restore");
    game.restore(file);
    want(game.window().height === 1, "split: a row after it");
    want(game.turn() === "character" && game.window().height === 1, "split: a row at the read");
    want(game.split(2) && game.window().height === 2, "split: another row");
    want(game.split(-1) && game.window().height === 255, "split: no more than 255");
    game.close();
}

/** The page's worker: it goes on from its own snapshots, with the limits that the page gives. */
async function worker() {
    const waiting = new Map();
    let calls = 0;
    let shown = [];
    const hear = ({ number, runs, ...came }) => number === undefined ? shown.push(...runs) : waiting.get(number)(came);
    globalThis.self = { postMessage: hear };
    await import("./page/worker.js");
    const call = (name, values) => new Promise((resolve) => {
        waiting.set(++calls, resolve);
        globalThis.self.onmessage({ data: { number: calls, call: name, values } });
    });
    const story = example("lighthouse.z5");
    await call("begin", { bytes: code });
    await call("open", { story, options: { steps: 1_000_000_000 } });
    await call("run", { answer: null });
    const { result } = await call("run", { answer: "open bag" });
    want(result.awaits === "line" && result.snapshot !== null, "the worker has a snapshot of a read");
    const { refused } = await call("resume", { story, snapshot: result.snapshot });
    want(refused === undefined, `it opens its own snapshot: ${refused}`);
    await call("run", { answer: null });
    shown = [];
    const next = await call("run", { answer: "take letter" });
    const text = shown.map((run) => run.text).join("");
    want(next.result.awaits === "line" && text.includes("Taken."), "it goes on from there");
    shown = [];
    await call("run", { answer: "north" });
    const bold = shown.filter((run) => run.styles.includes("bold")).map((run) => run.text);
    want(bold.join("|") === "Shore Path", `it tells what is bold: ${bold.join("|")}`);
    const fresh = await call("run", { answer: { fresh: true } });
    want(fresh.result.awaits === "line", "it goes on from a snapshot of its own in place of an answer");
    await call("open", { story: restoringWindow(), options: {} });
    await call("run", { answer: null });
    const saved = Buffer.from((await call("image", {})).result).toString("base64");
    await call("run", { answer: { saved: true } });
    const back = await call("run", { answer: { restored: saved } });
    want(back.result.awaits === "character" && back.result.rows.length === 1, "it gives the upper window back");
    await call("open", { story: stylingCells(), options: { columns: 40 } });
    const { result: { width, grid, rows: texts } } = await call("run", { answer: null });
    want(width === 40 && texts.join() === "ab     c\u20acef,,", "it tells the width and the rows of the upper window");
    want(grid.length === 3 && grid[1].length === 0 && grid[2][1].styles.join() === "reverse", "and their styles");
    await call("open", { story: readingKeys(), options: {} });
    await call("run", { answer: null });
    shown = [];
    await call("run", { answer: KEYS.ArrowLeft });
    want(shown.map((run) => run.text).join("") === "131 ", "it gives keys");
}

async function main() {
    const tests = [
        rows, examples, windows, listings, refusals, wordsOfReasons, refusedFiles, limits, seeds, inputs, marks,
        commands, sums, figures, styles, widths, fonts, cells, keys, split, badArguments, firstCharacters, lastLines,
        blorbs, snapshots, snapshotRefusals, clones, shared, steps, changes, looks, thousand, large, full,
        refusedRequests, refusedCalls, worker, generated,
    ];
    for (const test of NAMES.length === 0 ? tests : NAMES.map((name) => tests.find((it) => it.name === name))) {
        const begin = performance.now();
        const before = checks;
        await test(await Module.of(code));
        console.log(`${test.name}: ${checks - before} checks, ${secondsSince(begin)}`);
    }
    process.exitCode = bad > 0 ? 1 : 0;
    console.log(`${checks - bad} of ${checks} checks hold`);
}

await main();
