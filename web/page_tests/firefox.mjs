// Headless Firefox, driven by its Marionette protocol.

import { spawn } from "node:child_process";
import { existsSync, mkdirSync, mkdtempSync, readFileSync, rmSync, writeFileSync } from "node:fs";
import { connect } from "node:net";
import { tmpdir } from "node:os";
import { join } from "node:path";

const PROGRAMS = ["/usr/bin/firefox-esr", "/usr/bin/firefox"];
const KEYS = {
    Enter: "\uE007", Tab: "\uE004", Escape: "\uE00C", ArrowUp: "\uE013", ArrowDown: "\uE015", ArrowRight: "\uE014",
    ArrowLeft: "\uE012", Backspace: "\uE003", PageUp: "\uE00E", PageDown: "\uE00F", Home: "\uE011", End: "\uE010",
};
const SHIFT = "\uE008";
const CONTROL = "\uE009";
const ELEMENT = "element-6066-11e4-a52e-4f735466cecf";

export function program() {
    return process.env.FIREFOX || PROGRAMS.find((path) => existsSync(path));
}

function preferences(folder) {
    const set = {
        "marionette.port": 0, "browser.download.folderList": 2, "browser.download.dir": folder,
        "browser.helperApps.neverAsk.saveToDisk": "application/octet-stream", "browser.download.alwaysOpenPanel": false,
        "browser.shell.checkDefaultBrowser": false, "datareporting.policy.dataSubmissionEnabled": false,
        "app.update.enabled": false, "network.captive-portal-service.enabled": false, "browser.startup.page": 0,
        "dom.events.testing.asyncClipboard": true,
    };
    return Object.entries(set).map(([name, value]) => `user_pref("${name}", ${JSON.stringify(value)});\n`).join("");
}

const pause = (time) => new Promise((resolve) => setTimeout(resolve, time));

/** The port that Firefox has chosen, once it has. */
async function portOf(profile) {
    for (let i = 0; i < 300; i++) {
        const path = join(profile, "MarionetteActivePort");
        const port = existsSync(path) ? Number(readFileSync(path, "utf8")) : 0;
        if (port)
            return port;
        await pause(100);
    }
    throw new Error("Firefox does not start");
}

/** The connection: messages with their length before each. */
class Wire {
    constructor(socket) {
        this.socket = socket;
        this.waiting = new Map();
        this.number = 0;
        this.rest = Buffer.alloc(0);
        socket.on("data", (data) => this.heard(data));
        socket.on("error", () => {});
    }

    heard(data) {
        this.rest = Buffer.concat([this.rest, data]);
        for (;;) {
            const colon = this.rest.indexOf(58);
            const end = colon + 1 + Number(this.rest.subarray(0, Math.max(0, colon)).toString());
            if (colon < 0 || this.rest.length < end)
                return;
            const it = JSON.parse(this.rest.subarray(colon + 1, end).toString());
            this.rest = this.rest.subarray(end);
            if (Array.isArray(it))
                this.answered(it);
        }
    }

    answered([, number, error, result]) {
        const call = this.waiting.get(number);
        this.waiting.delete(number);
        error ? call.reject(new Error(error.message)) : call.resolve(result);
    }

    send(command, parameters = {}) {
        const message = Buffer.from(JSON.stringify([0, ++this.number, command, parameters]));
        this.socket.write(Buffer.concat([Buffer.from(`${message.length}:`), message]));
        return new Promise((resolve, reject) => this.waiting.set(this.number, { resolve, reject }));
    }
}

export class Firefox {
    static get name() {
        return "Firefox";
    }

    static async launch() {
        const folder = mkdtempSync(join(tmpdir(), "zkit-firefox-"));
        const profile = join(folder, "profile");
        mkdirSync(profile);
        writeFileSync(join(profile, "user.js"), preferences(folder));
        const child = spawn(program(), ["--headless", "--marionette", "--profile", profile],
            { stdio: "ignore", env: { ...process.env, HOME: folder } });
        const socket = connect(await portOf(profile), "127.0.0.1");
        const browser = new Firefox();
        Object.assign(browser, { folder, child, wire: new Wire(socket) });
        const { capabilities } = await browser.wire.send("WebDriver:NewSession", { capabilities: { alwaysMatch: {} } });
        browser.number = `Firefox/${capabilities.browserVersion}`;
        return browser;
    }

    async version() {
        return this.number;
    }

    errors() {
        return [];
    }

    async size(width, height) {
        await this.wire.send("WebDriver:SetWindowRect", { width, height });
        const [w, h] = await this.run(() => [innerWidth, innerHeight]);
        await this.wire.send("WebDriver:SetWindowRect", { width: 2 * width - w, height: 2 * height - h });
    }

    /** Opens another tab and goes to it, and answers the one before. */
    async tab() {
        const { handle } = await this.wire.send("WebDriver:NewWindow", { type: "tab" });
        return this.goTo(handle);
    }

    /** Goes to a tab, and answers the one before, which is closed if that is wanted. */
    async goTo(handle, isClosing = false) {
        const { value: before } = await this.wire.send("WebDriver:GetWindowHandle");
        if (isClosing)
            await this.wire.send("WebDriver:CloseWindow");
        await this.wire.send("WebDriver:SwitchToWindow", { handle });
        return before;
    }

    async go(url) {
        await this.wire.send("WebDriver:Navigate", { url: "about:blank" });
        await this.wire.send("WebDriver:Navigate", { url });
    }

    async reload() {
        await this.wire.send("WebDriver:Refresh");
    }

    /** Goes into the page's frame, which no other page may look into: what is run from now on runs there. */
    async intoFrame() {
        const { value } = await this.wire.send("WebDriver:FindElement", { using: "css selector", value: "iframe" });
        await this.wire.send("WebDriver:SwitchToFrame", { element: value[ELEMENT] });
    }

    async outOfFrame() {
        await this.wire.send("WebDriver:SwitchToFrame", { id: null });
    }

    async run(does, ...values) {
        const script = `return (${does})(...arguments)`;
        return (await this.wire.send("WebDriver:ExecuteScript", { script, args: values })).value;
    }

    async keys(text, before = [], after = []) {
        const pressed = [...text].flatMap((value) => [{ type: "keyDown", value }, { type: "keyUp", value }]);
        const actions = [...before, ...pressed, ...after];
        await this.wire.send("WebDriver:PerformActions", { actions: [{ type: "key", id: "keys", actions }] });
    }

    async write(text) {
        await this.keys(text);
    }

    async press(key, isShifted = false) {
        const shift = [{ type: "keyDown", value: SHIFT }];
        await this.keys(KEYS[key] || key, isShifted ? shift : [], isShifted ? [{ ...shift[0], type: "keyUp" }] : []);
    }

    /** Puts a text on the clipboard, and pastes it by the keys. */
    async paste(text) {
        await this.run((it) => navigator.clipboard.writeText(it), text);
        await this.keys("v", [{ type: "keyDown", value: CONTROL }], [{ type: "keyUp", value: CONTROL }]);
    }

    /** Clicks at a place by the mouse. */
    async mouse(x, y) {
        const actions = [{ type: "pointerMove", x, y }, { type: "pointerDown", button: 0 },
            { type: "pointerUp", button: 0 }];
        await this.wire.send("WebDriver:PerformActions", { actions: [{ type: "pointer", id: "mouse", actions }] });
    }

    /** Taps at a place by a finger. */
    async touch(x, y) {
        const actions = [{ type: "pointerMove", x, y }, { type: "pointerDown", button: 0 },
            { type: "pointerUp", button: 0 }];
        const finger = { type: "pointer", id: "finger", parameters: { pointerType: "touch" }, actions };
        await this.wire.send("WebDriver:PerformActions", { actions: [finger] });
    }

    async choose(id, path) {
        const { value } = await this.wire.send("WebDriver:FindElement", { using: "css selector", value: `#${id}` });
        await this.wire.send("WebDriver:ElementSendKeys", { id: value[ELEMENT], text: path });
    }

    async shot(path) {
        const { value } = await this.wire.send("WebDriver:TakeScreenshot", { full: false });
        writeFileSync(path, Buffer.from(value, "base64"));
    }

    async close() {
        const ended = new Promise((resolve) => this.child.once("exit", resolve));
        this.wire.send("Marionette:Quit", { flags: ["eForceQuit"] }).catch(() => {});
        setTimeout(() => this.child.kill(), 5000).unref();
        await ended;
        rmSync(this.folder, { recursive: true, force: true });
    }
}
