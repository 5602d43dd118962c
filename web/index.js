// @ts-check
// The package for JavaScript: the calls of zkit.js, and the module that lies beside it.
// SPDX-License-Identifier: MIT OR Apache-2.0
import { Module } from "./zkit.js";

export * from "./zkit.js";

/**
 * Node's module of files, by a name that no bundler looks into.
 * @type {string}
 */
const FILES = "node:fs/promises";

/**
 * The bytes of a file by its address, in a page and in Node.
 * @param {URL | string} address
 */
export async function bytesAt(address) {
    const url = new URL(address);
    if (url.protocol === "file:") {
        const { readFile } = await import(FILES);
        return new Uint8Array(await readFile(url));
    }
    const answer = await fetch(url);
    if (!answer.ok)
        throw new Error(`${url} can't be fetched: ${answer.status} ${answer.statusText}`);
    return new Uint8Array(await answer.arrayBuffer());
}

/** Makes the module of zkit.wasm, which lies beside this file. */
export async function load() {
    return Module.of(await bytesAt(new URL("zkit.wasm", import.meta.url)));
}
