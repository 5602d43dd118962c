// Headless Chromium, driven by its debugging pipe.

import { spawn } from "node:child_process";
import { existsSync, mkdtempSync, rmSync, writeFileSync } from "node:fs";
import { tmpdir } from "node:os";
import { join } from "node:path";

const PROGRAMS = ["/usr/lib/chromium/chromium", "/usr/bin/chromium", "/usr/bin/chromium-browser",
    "/usr/bin/google-chrome"];
const KEYS = {
    Enter: ["Enter", 13, "\r"], Tab: ["Tab", 9, ""], Escape: ["Escape", 27, ""], " ": ["Space", 32, " "],
    ArrowUp: ["ArrowUp", 38, ""], ArrowDown: ["ArrowDown", 40, ""], ArrowRight: ["ArrowRight", 39, ""],
    ArrowLeft: ["ArrowLeft", 37, ""], Backspace: ["Backspace", 8, ""],
    PageUp: ["PageUp", 33, ""], PageDown: ["PageDown", 34, ""], Home: ["Home", 36, ""], End: ["End", 35, ""],
};

/**
 * What a key is by its name: its place, its number and its text. Only letters and digits have a number that is theirs.
 */
function keyOf(name) {
    const upper = name.toUpperCase();
    return KEYS[name] || [`Key${upper}`, /^[A-Z0-9]$/.test(upper) ? upper.charCodeAt(0) : 0, name];
}

export function program() {
    return process.env.CHROMIUM || PROGRAMS.find((path) => existsSync(path));
}

/** The pipe: messages with a zero after each. */
class Pipe {
    constructor(child) {
        this.out = child.stdio[3];
        this.waiting = new Map();
        this.number = 0;
        this.errors = [];
        let rest = "";
        child.stdio[4].on("data", (data) => {
            const parts = (rest + data).split("\0");
            rest = parts.pop();
            parts.forEach((part) => this.heard(JSON.parse(part)));
        });
    }

    heard(it) {
        if (it.id) {
            const call = this.waiting.get(it.id);
            this.waiting.delete(it.id);
            it.error ? call.reject(new Error(it.error.message)) : call.resolve(it.result);
        } else if (it.method === "Runtime.exceptionThrown") {
            this.errors.push(it.params.exceptionDetails.exception?.description || it.params.exceptionDetails.text);
        } else if (it.method === "Log.entryAdded" && it.params.entry.level === "error") {
            this.errors.push(it.params.entry.text);
        }
    }

    send(method, params = {}, sessionId = undefined) {
        const id = ++this.number;
        this.out.write(JSON.stringify({ id, method, params, sessionId }) + "\0");
        return new Promise((resolve, reject) => this.waiting.set(id, { resolve, reject }));
    }
}

export class Chromium {
    static get name() {
        return "Chromium";
    }

    static async launch() {
        const folder = mkdtempSync(join(tmpdir(), "zkit-chromium-"));
        const child = spawn(program(),
            ["--headless=new", "--no-sandbox", "--disable-gpu", "--remote-debugging-pipe", "--no-first-run",
            `--user-data-dir=${folder}/profile`, "--disable-dev-shm-usage", "--hide-scrollbars", "about:blank"],
        { stdio: ["ignore", "ignore", "ignore", "pipe", "pipe"] });
        const browser = new Chromium();
        Object.assign(browser, { folder, child, pipe: new Pipe(child) });
        await browser.pipe.send("Browser.setDownloadBehavior", { behavior: "allow", downloadPath: folder });
        await browser.open();
        return browser;
    }

    async open() {
        const { targetId } = await this.pipe.send("Target.createTarget", { url: "about:blank" });
        const { sessionId } = await this.pipe.send("Target.attachToTarget", { targetId, flatten: true });
        this.here = { targetId, call: (method, params) => this.pipe.send(method, params, sessionId) };
        this.call = this.here.call;
        await Promise.all(["Page.enable", "Runtime.enable", "Log.enable", "DOM.enable"].map((method) =>
            this.call(method)));
    }

    /** Opens another tab of the same size and goes to it, and answers the one before. */
    async tab() {
        const before = this.here;
        await this.open();
        await this.size(...this.sized);
        return before;
    }

    /** Goes to a tab, and answers the one before, which is closed if that is wanted. */
    async goTo(tab, isClosing = false) {
        const before = this.here;
        this.here = tab;
        this.call = tab.call;
        await this.pipe.send("Target.activateTarget", { targetId: tab.targetId });
        if (isClosing)
            await this.pipe.send("Target.closeTarget", { targetId: before.targetId });
        return before;
    }

    version() {
        return this.pipe.send("Browser.getVersion").then((it) => it.product);
    }

    errors() {
        return this.pipe.errors;
    }

    async size(width, height, scale = 1) {
        this.sized = [width, height, scale];
        await this.call("Emulation.setDeviceMetricsOverride",
            { width, height, deviceScaleFactor: scale, mobile: false });
    }

    async dark(isDark) {
        const value = isDark ? "dark" : "light";
        await this.call("Emulation.setEmulatedMedia", { features: [{ name: "prefers-color-scheme", value }] });
    }

    async go(url) {
        await this.call("Page.navigate", { url: "about:blank" });
        await this.call("Page.navigate", { url });
    }

    async reload() {
        await this.run(() => { delete document.documentElement.dataset.ready; });
        await this.call("Page.reload");
    }

    /** Goes into the page's frame, which no other page may look into: what is run from now on runs there. */
    async intoFrame() {
        const { targetInfos } = await this.pipe.send("Target.getTargets");
        const { targetId } = targetInfos.find(({ type }) => type === "iframe");
        const { sessionId } = await this.pipe.send("Target.attachToTarget", { targetId, flatten: true });
        this.inFrame = (method, params) => this.pipe.send(method, params, sessionId);
    }

    async outOfFrame() {
        this.inFrame = null;
    }

    async run(does, ...values) {
        const call = this.inFrame || this.call;
        const expression = `(${does})(${values.map((value) => JSON.stringify(value)).join(",")})`;
        const it = await call("Runtime.evaluate",
            { expression, awaitPromise: true, returnByValue: true, userGesture: true });
        if (it.exceptionDetails)
            throw new Error(it.exceptionDetails.exception?.description || it.exceptionDetails.text);
        return it.result.value;
    }

    async write(text) {
        await Promise.all([...text].map((key) => this.press(key)));
    }

    async press(key, isShifted = false) {
        const [code, number, text] = keyOf(key);
        const it = { key, code, windowsVirtualKeyCode: number, modifiers: isShifted ? 8 : 0 };
        const down = { type: text ? "keyDown" : "rawKeyDown", text: text || undefined, ...it };
        await Promise.all([down, { type: "keyUp", ...it }].map((event) => this.call("Input.dispatchKeyEvent", event)));
    }

    /** Puts a text on the clipboard, and pastes it by the keys. */
    async paste(text) {
        await this.pipe.send("Browser.grantPermissions",
            { permissions: ["clipboardReadWrite", "clipboardSanitizedWrite"] });
        await this.run((it) => navigator.clipboard.writeText(it), text);
        const it = { key: "v", code: "KeyV", windowsVirtualKeyCode: 86, modifiers: 2 };
        await this.call("Input.dispatchKeyEvent", { type: "rawKeyDown", commands: ["paste"], ...it });
        await this.call("Input.dispatchKeyEvent", { type: "keyUp", ...it });
    }

    /** Clicks at a place by the mouse. */
    async mouse(x, y) {
        const events = ["mouseMoved", "mousePressed", "mouseReleased"].map((type) =>
            ({ type, x, y, button: "left", clickCount: 1 }));
        await Promise.all(events.map((event) => this.call("Input.dispatchMouseEvent", event)));
    }

    /** Taps at a place by a finger. */
    async touch(x, y) {
        await this.call("Emulation.setTouchEmulationEnabled", { enabled: true });
        const touch = (type, touchPoints) => this.call("Input.dispatchTouchEvent", { type, touchPoints });
        await Promise.all([touch("touchStart", [{ x, y }]), touch("touchEnd", [])]);
        await this.call("Emulation.setTouchEmulationEnabled", { enabled: false });
    }

    async choose(id, path) {
        const { root } = await this.call("DOM.getDocument");
        const { nodeId } = await this.call("DOM.querySelector", { nodeId: root.nodeId, selector: `#${id}` });
        await this.call("DOM.setFileInputFiles", { nodeId, files: [path] });
    }

    async shot(path) {
        const { data } = await this.call("Page.captureScreenshot", { format: "png" });
        writeFileSync(path, Buffer.from(data, "base64"));
    }

    async close() {
        const ended = new Promise((resolve) => this.child.once("exit", resolve));
        this.pipe.send("Browser.close").catch(() => {});
        setTimeout(() => this.child.kill(), 3000).unref();
        await ended;
        rmSync(this.folder, { recursive: true, force: true });
    }
}
