#!/usr/bin/env node
// Plays a story in Node by zkit.wasm: the lines of standard input answer it, its text goes to standard output.
// SPDX-License-Identifier: MIT OR Apache-2.0
import fs from "fs";
import { fileURLToPath } from "url";
import { linesOf, play } from "./player.js";
import { Module, Refused } from "./zkit.js";

const USAGE = `usage: web/play.js [--module FILE] [--seed n] [--frames n] [--words n] [--undo n] [--steps n] [--upper]
                   [--save FILE] [--script FILE] STORY

The module is dist/zkit.wasm, or FILE. The other options, the last line on standard error and the status are those of
zkit play.`;
const MODULE = fileURLToPath(new URL("../dist/zkit.wasm", import.meta.url));
const NUMBERS = ["--frames", "--words", "--undo", "--steps"];
const FILES = ["--module", "--save", "--script"];
const USAGE_STATUS = 1;
const REFUSED_STATUS = 1;
const DEVICE_FAILED = 4;
const OUT_OF_MEMORY = 5;
const OPEN_NO_MEMORY = 6;
const PART = 65_536;

/** Ends with lines on standard error. */
class Ended extends Error {
    constructor(status, ...told) {
        super(told.join("\n"));
        this.status = status;
    }
}

/** What the words of the command line say. */
function readWords(words) {
    const said = { module: MODULE, save: null, script: null, story: null, options: {} };
    while (words.length > 0) {
        const word = words.shift();
        if (word === "--upper")
            said.options.upper = true;
        else if (word === "--seed" && /^\d+$/.test(words[0]))
            said.options.seed = BigInt(words.shift());
        else if (NUMBERS.includes(word) && /^\d+$/.test(words[0]))
            said.options[word.slice(2)] = Number(words.shift());
        else if (FILES.includes(word) && words.length > 0)
            said[word.slice(2)] = words.shift();
        else if (!word.startsWith("-") && said.story === null)
            said.story = word;
        else
            throw new Ended(USAGE_STATUS, USAGE);
    }
    if (said.story === null)
        throw new Ended(USAGE_STATUS, USAGE);
    return said;
}

/** What a call of the system answers; where it fails, that is told in a last line. */
function attempt(call, last) {
    try {
        return call();
    } catch (error) {
        throw new Ended(DEVICE_FAILED, `zkit: ${error.message}`, last);
    }
}

const read = (call) => attempt(call, "zkit: read failed");
const written = (call) => attempt(call, "zkit: write failed");

/** Opens the story, or tells why it is none. */
function open(module, path, story, options) {
    try {
        return module.open(story, options);
    } catch (error) {
        if (!(error instanceof Refused))
            throw error;
        if (error.number === OPEN_NO_MEMORY)
            throw new Ended(OUT_OF_MEMORY, "zkit: out of memory");
        const words = `zkit: ${path}: not a story: ${error.message}`;
        throw new Ended(REFUSED_STATUS, words, `zkit: refused ${error.number}`);
    }
}

/** Standard input, part by part. */
function* input() {
    const part = Buffer.alloc(PART);
    for (let count; (count = read(() => fs.readSync(0, part))) > 0;)
        yield part.subarray(0, count);
}

/** Writes all bytes to a file that is open. */
function write(file, bytes) {
    for (let at = 0; at < bytes.length;)
        at += written(() => fs.writeSync(file, bytes, at));
}

/** Keeps a saved game in a file, if there is one for it, and says whether it did. */
function keep(path, file) {
    if (path === null)
        return false;
    try {
        fs.writeFileSync(path, file);
        return true;
    } catch (error) {
        process.stderr.write(`zkit: ${error.message}\n`);
        return false;
    }
}

/** The saved game, if there is one. */
function kept(path) {
    try {
        return path === null ? null : fs.readFileSync(path);
    } catch (error) {
        process.stderr.write(`zkit: ${error.message}\n`);
        return null;
    }
}

function devicesOf({ save, script }) {
    const transcript = script === null ? null : written(() => fs.openSync(script, "w"));
    return {
        lines: linesOf(input()),
        show: (text) => write(1, text),
        script: (text) => transcript === null || write(transcript, text),
        keep: (file) => keep(save, file),
        kept: () => kept(save),
    };
}

async function main(words) {
    const said = readWords(words);
    const story = read(() => fs.readFileSync(said.story));
    const module = await Module.of(read(() => fs.readFileSync(said.module)));
    const game = open(module, said.story, story, said.options);
    const { status, told } = play(game, devicesOf(said));
    game.close();
    if (status !== 0)
        throw new Ended(status, ...told);
}

main(process.argv.slice(2)).catch((error) => {
    if (!(error instanceof Ended))
        throw error;
    process.stderr.write(error.message + "\n");
    process.exitCode = error.status;
});
