// A story by its address, which stands in that of the page: `?story=tale.z5` or `#story=tale.z5`. It comes from the
// page's own site alone, and nothing else is fetched.

import { allOf } from "./bytes.js";

/** So many bytes a file has at most. */
const LONGEST = 60000000;

/** So much of an address is shown. */
const SHOWN = 100;

/** Why a story was not fetched, in words. */
export class NotFetched extends Error {}

/**
 * The address of a story in that of the page; "" where there is none.
 * @param {{search: string, hash: string}} place
 */
export function storyAddress({ search, hash }) {
    const inHash = hash.startsWith("#story=") ? new URLSearchParams(hash.slice(1)).get("story") : "";
    return inHash || new URLSearchParams(search).get("story") || "";
}

/**
 * The address of the page without that of a story.
 * @param {string} href
 */
export function withoutStory(href) {
    const url = new URL(href);
    if (url.hash.startsWith("#story="))
        url.hash = "";
    url.searchParams.delete("story");
    return url.href;
}

/** The address of the page for a link to its play, whose story comes from the same address as now. */
export function addressForLinks() {
    const address = storyAddress(location);
    const url = new URL(location.href);
    if (address)
        url.searchParams.set("story", address);
    return url.href.replace(/#.*/, "");
}

/**
 * An address on the page's own site.
 * @param {string} address
 */
function ownAddress(address) {
    const short = address.length > SHOWN ? `${address.slice(0, SHOWN)}…` : address;
    if (location.protocol === "file:")
        throw new NotFetched(`A page on a disk can't fetch a story. Choose the file of ${short} instead.`);
    try {
        const url = new URL(address, location.href);
        if (url.origin === location.origin)
            return url;
    } catch {
        throw new NotFetched(`This is no address of a story: ${short}`);
    }
    throw new NotFetched(`This page fetches stories from its own site alone, and this one is elsewhere: ${short}`);
}

/**
 * The last part of an address, as a name of a file.
 * @param {URL} url
 */
function nameOf({ pathname }) {
    const last = pathname.split("/").pop() || "story";
    try {
        return decodeURIComponent(last);
    } catch {
        return last;
    }
}

/**
 * What promises a part of an answer; where none comes, says so.
 * @template T
 * @param {Promise<T>} promise
 * @param {string} words
 */
function orWords(promise, words) {
    return promise.catch(() => {
        throw new NotFetched(words);
    });
}

/**
 * Fetches a story's file. Where that is not possible, NotFetched says why.
 * @param {string} address
 */
export async function fetched(address) {
    const url = ownAddress(address);
    const name = nameOf(url);
    // (a frame that its site keeps apart has no origin)
    const none = self.origin === "null" ? "no answer came, or this frame may not have it"
        : "no answer came, or it led to another site";
    const answer = await orWords(fetch(url.href), `${name} can't be fetched: ${none}.`);
    if (!answer.ok || !answer.body) {
        const words = answer.status === 404 ? "the site has no such file" : "the site refuses it";
        throw new NotFetched(`${name} can't be fetched: ${words} (status ${answer.status}).`);
    }
    const bytes = await orWords(allOf(answer.body, LONGEST), `${name} can't be fetched: the answer broke off.`);
    if (!bytes)
        throw new NotFetched(`${name} is too long: a story's file may have up to ${LONGEST / 1000000} MB.`);
    return { name, bytes };
}
