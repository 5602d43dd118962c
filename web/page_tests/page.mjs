// The page as the tests use it: by its own controls.

import { spawnSync } from "node:child_process";
import { readFileSync, readdirSync, rmSync, statSync } from "node:fs";
import { basename, join } from "node:path";
import { fileURLToPath } from "node:url";

export const ROOT = join(fileURLToPath(import.meta.url), "../../..");
export const EXAMPLES = join(ROOT, "examples");
export const MENU = join(ROOT, "web/page_tests/menu.z5");
export const SCREEN = join(ROOT, "web/page_tests/screen.z5");
const ZKIT = join(ROOT, "dist/zkit");

/** So many milliseconds a test waits at most for what is to come. */
export const LONGEST = { wait: 100000 };

export const pause = (time) => new Promise((resolve) => setTimeout(resolve, time));

/** What the program says: standard output, whatever its status. */
export function native(words, input = "") {
    const it = spawnSync(ZKIT, words, { input, maxBuffer: 1 << 28 });
    return { text: it.stdout.toString(), last: it.stderr.toString().trim().split("\n").pop() };
}

export function linesOf(path) {
    return readFileSync(path, "utf8").split("\n").slice(0, -1);
}

export function same(found, wanted, what = "it") {
    if (found === wanted)
        return;
    const [a, b] = [String(found), String(wanted)];
    let at = 0;
    while (at < a.length && a[at] === b[at])
        at++;
    const part = (text) => JSON.stringify(text.slice(Math.max(0, at - 30), at + 90));
    throw new Error(`${what} differs at ${at}: ${part(a)} and not ${part(b)}`);
}

export function holds(condition, words) {
    if (!condition)
        throw new Error(words);
}

/** In the page: whether the newest turn is read from its start: its line, or where none was typed its first text. */
function newestIsSeen() {
    const scroller = document.getElementById("scroller");
    const around = scroller.getBoundingClientRect();
    const [it] = [...scroller.querySelectorAll(".typed, .note")].slice(-1);
    const { top, bottom } = (it || scroller.querySelector(".text")).getBoundingClientRect();
    const left = scroller.scrollHeight - scroller.scrollTop - scroller.clientHeight;
    const isLow = left < 2 || top < around.top + 100;
    return scroller.clientHeight > 0 && top >= around.top && bottom <= around.bottom && isLow;
}

/**
 * In the page: notes what a screen reader speaks from now on: what is added to a live region or changed in it, as often
 * as that happens.
 */
function hearInPage() {
    window.spoken = [];
    const regionOf = (node) => {
        const element = node.nodeType === Node.TEXT_NODE ? node.parentElement : node;
        return element?.closest("[aria-live], [role=log], [role=status]");
    };
    const speak = (region, text) => {
        if (region && region.getClientRects().length && !region.closest("[aria-busy=true]") && text)
            window.spoken.push([region.id, text]);
    };
    new MutationObserver((changes) => {
        // (what was added with its parent is spoken with it)
        const seen = new Set();
        for (const { target, addedNodes } of changes) {
            if (target.nodeType === Node.TEXT_NODE)
                speak(regionOf(target), target.data);
            for (const node of addedNodes)
                if (target.isConnected && !seen.has(target))
                    speak(regionOf(target), node.textContent);
            for (const node of addedNodes)
                [node, ...node.querySelectorAll?.("*") ?? []].forEach((it) => seen.add(it));
        }
    }).observe(document.body, { childList: true, characterData: true, subtree: true });
}

/**
 * In the page of an address: takes away all that the browser keeps of it. The page itself keeps nothing any more. Tells
 * whether that was done; it is not in another page, or where the browser answers nothing in so many milliseconds.
 */
function forgetInPage(url, patience) {
    if (location.href.split("#")[0] !== url)
        return false;
    Storage.prototype.setItem = () => {};
    localStorage.clear();
    return new Promise((resolve) => {
        setTimeout(() => resolve(false), patience);
        const request = indexedDB.open("zkit");
        request.onsuccess = () => {
            const all = [...request.result.objectStoreNames];
            const clearing = all.length ? request.result.transaction(all, "readwrite") : null;
            IDBDatabase.prototype.transaction = () => {
                throw new Error("nothing is kept any more");
            };
            all.forEach((name) => clearing.objectStore(name).clear());
            const done = () => (request.result.close(), resolve(true));
            clearing ? clearing.oncomplete = done : done();
        };
    });
}

/** In the page: where an element may be clicked; null where it is not seen, or something lies over it. */
function placeInPage(selector) {
    const it = document.querySelector(selector);
    it.scrollIntoView({ block: "nearest" });
    const { left, top, width, height } = it.getBoundingClientRect();
    const place = [left + width / 2, top + height / 2].map(Math.round);
    const found = width > 0 && document.elementFromPoint(...place);
    return found && it.contains(found) ? place : null;
}

export class Page {
    constructor(browser, file) {
        this.browser = browser;
        this.url = `file://${file}`;
    }

    run(does, ...values) {
        return this.browser.run(does, ...values);
    }

    async until(does, ...values) {
        const end = Date.now() + LONGEST.wait;
        for (let wait = 2; Date.now() < end; wait = Math.min(100, wait * 2)) {
            // (while a page is loading there is nothing to run in)
            const it = await this.run(does, ...values).catch(() => null);
            if (it)
                return it;
            await pause(wait);
        }
        throw new Error(`this never held: ${does} of ${JSON.stringify(values)}; the page says: ${await this.told()}`);
    }

    ready() {
        return this.until(() => document.documentElement.dataset.ready === "yes");
    }

    /** Opens the page as one that was never here. */
    async fresh(hash = "") {
        if (!await this.run(forgetInPage, this.url, 2000).catch(() => false)) {
            await this.browser.go(this.url);
            await this.ready();
            holds(await this.run(forgetInPage, this.url, LONGEST.wait), "the browser does not forget the page");
        }
        await this.browser.go(this.url + hash);
        await this.ready();
    }

    async reload() {
        await this.browser.reload();
        await this.ready();
    }

    told() {
        return this.text("told");
    }

    text(id) {
        return this.run((name) => document.getElementById(name).textContent, id);
    }

    isShown(id) {
        return this.run((name) => document.getElementById(name).getClientRects().length > 0, id);
    }

    shown(id) {
        return this.until((name) => document.getElementById(name).getClientRects().length > 0, id);
    }

    /** Waits until a question is asked, and looks whether it is this one, with these answers. */
    async asks(head, yes, no) {
        await this.shown("asking");
        const words = await Promise.all(["head", "yes", "no"].map((part) => this.text(`asking-${part}`)));
        same(words.join(" | "), [head, yes, no].join(" | "), "the question");
    }

    /** Clicks by the mouse on the first element of a kind, once it is seen and nothing lies over it. */
    async click(selector) {
        await this.browser.mouse(...await this.until(placeInPage, selector));
    }

    /** Taps by a finger in the same way. */
    async tap(selector) {
        await this.browser.touch(...await this.until(placeInPage, selector));
    }

    /**
     * Waits until the newest turn is seen from its line on, as much of it as the view takes: the page scrolls once it is
     * drawn. Where it never is, these words tell it.
     */
    async seesNewest(words) {
        await this.until(newestIsSeen).catch(() => {
            throw new Error(words);
        });
    }

    /** Notes from now on what a screen reader speaks. */
    hear() {
        return this.run(hearInPage);
    }

    /** What was spoken since this was asked before: the texts of each live region. */
    async heard() {
        const all = await this.run(() => window.spoken.splice(0));
        const of = (id) => all.filter(([region]) => region === id).map(([, text]) => text);
        return { log: of("log").join(""), said: of("spoken").join("|"), told: of("told").join("|") };
    }

    /** The texts of the log that were spoken one after the other since this was asked before. */
    async heardParts() {
        const all = await this.run(() => window.spoken.splice(0));
        return all.filter(([region]) => region === "log").map(([, text]) => text);
    }

    /** What has the focus, and where the caret is in it. */
    focus() {
        return this.run(() => {
            const it = document.activeElement;
            return `${it?.id || it?.tagName} ${it?.selectionStart ?? "-"}`;
        });
    }

    /** Chooses a button of the menu. */
    async menu(id) {
        await this.click("#show-menu");
        await this.click(`#${id}`);
    }

    /**
     * Begins the story anew by the menu, in which something may be set before, and agrees where that is asked. A story
     * without a line looks the same before and after: it has begun anew once the text that was there is gone.
     */
    async restart(sets = async () => {}) {
        await this.run(() =>
            [...document.getElementById("log").children].forEach((it) => it.classList.add("of-before")));
        await this.click("#show-menu");
        await sets();
        await this.click("#restart");
        await this.until(() => document.getElementById("asking").open || !document.querySelector(".of-before"));
        if (await this.isShown("asking"))
            await this.click("#asking-yes");
        await this.until(() => !document.querySelector(".of-before, dialog[open]"));
        await this.rests();
    }

    /** Opens the list of lines, which comes once its link is made. */
    async lines() {
        await this.click("#show-lines");
        await this.shown("lines");
    }

    /** Leaves the window that is open. */
    async leave() {
        await this.browser.press("Escape");
        await this.until(() => !document.querySelector("dialog[open]"));
    }

    /** Types into a field in place of what stands there. */
    async fill(id, text) {
        await this.click(`#${id}`);
        await this.browser.press("End");
        for (let left = await this.run((name) => document.getElementById(name).value.length, id); left > 0; left--)
            await this.browser.press("Backspace");
        await this.browser.write(text);
    }

    /** Until the story awaits a line or a key, or has ended. */
    rests() {
        return this.until(() => document.getElementById("play").dataset.busy === "false"
            && ["ask", "over", "running"].some((id) => !document.getElementById(id).hidden)
            || document.querySelector("dialog[open]") !== null);
    }

    /** Until the browser has kept a play with so many lines and keys. */
    keeps(count) {
        return this.until((wanted) => new Promise((resolve) => {
            const request = indexedDB.open("zkit");
            request.onsuccess = () => {
                const asked = request.result.transaction("plays").objectStore("plays").getAll();
                asked.onsuccess = ({ target: { result } }) => {
                    request.result.close();
                    const reads = (it) =>
                        it.answers.filter((answer) => typeof answer !== "object" || "undo" in answer).length;
                    resolve(result.some((it) => it.answers && reads(it) === wanted));
                };
            };
        }), count);
    }

    /** Chooses a file; a saved game in the window with the button for it, which is open only once it takes one. */
    async choose(path, id = "story-file") {
        if (id === "saved-file")
            await this.shown("restoring");
        await this.browser.choose(id, path);
    }

    /** Opens a story by the page's field for files, and waits for its first read. */
    async open(path) {
        await this.choose(path);
        await this.until((name) => document.getElementById("title").title === name, basename(path));
        await this.rests();
    }

    /** Drops bytes as a file. */
    drop(bytes, name) {
        return this.run((content, title) => {
            const file = new File([Uint8Array.from(atob(content), (it) => it.charCodeAt(0))], title);
            const data = new DataTransfer();
            data.items.add(file);
            dispatchEvent(new DragEvent("drop", { dataTransfer: data, bubbles: true, cancelable: true }));
        }, Buffer.from(bytes).toString("base64"), name);
    }

    /** Types a line where the page has put the focus. */
    async send(line) {
        if (line)
            await this.browser.write(line);
        await this.browser.press("Enter");
    }

    /** The same, and waits for what the story does. */
    async say(line) {
        await this.send(line);
        await this.rests();
    }

    async sayAll(lines) {
        for (const line of lines)
            await this.say(line);
    }

    /** The file that the page has given after something was done: the same in two looks, as Firefox renames it. */
    async fileAfter(does) {
        const folder = this.browser.folder;
        const files = () => readdirSync(folder).filter((name) => name !== "profile")
            .map((name) => ({ name, size: statSync(join(folder, name), { throwIfNoEntry: false })?.size }));
        files().forEach(({ name }) => rmSync(join(folder, name), { recursive: true, force: true }));
        await does();
        let before = "";
        for (const end = Date.now() + LONGEST.wait; Date.now() < end; await pause(20)) {
            const seen = files();
            const isStill = JSON.stringify(seen) === before;
            const isWhole = !seen.some(({ name }) => /\.(part|crdownload)$/.test(name));
            const found = seen.find(({ name }) => /\.(txt|qzl|json)$/.test(name));
            if (isStill && isWhole && found && (found.name.endsWith("findings.txt") || found.size))
                return join(folder, found.name);
            before = JSON.stringify(seen);
        }
        throw new Error("no file came");
    }

    async transcript() {
        return readFileSync(await this.fileAfter(() => this.menu("transcript")), "utf8");
    }

    /** The text of the log in the page, without what was typed. */
    shownText() {
        return this.run(() => [...document.querySelectorAll(".turn span.text, .turn span.prompt")]
            .map((span) => span.textContent).join(""));
    }
}

/**
 * Compares the page's transcript with `zkit play --echo`, which shows an empty line for Enter where a key is awaited.
 */
export function sameWithKeys(found, wanted, keys) {
    let rest = wanted;
    for (let i = 0; i < keys; i++) {
        let at = 0;
        while (at < found.length && found[at] === rest[at])
            at++;
        if (at === rest.length || rest[at] !== "\n")
            break;
        rest = rest.slice(0, at) + rest.slice(at + 1);
    }
    same(found, rest, "the transcript");
}

export { basename, join, readFileSync };
