// Contrast and names, as the page draws them.

import { MENU, SCREEN, holds, pause } from "./page.mjs";

const LEAST = 4.5;

/** In the page: each text that is seen, with the contrast to its ground. */
export function contrastsInPage() {
    const channels = (colour) => (colour.match(/[\d.]+/g) || []).map(Number);
    const linear = (value) => value <= 10.31475 ? value / 255 / 12.92 : ((value / 255 + 0.055) / 1.055) ** 2.4;
    const light = ([r, g, b]) => 0.2126 * linear(r) + 0.7152 * linear(g) + 0.0722 * linear(b);
    const ground = (element) => {
        for (let it = element; it; it = it.parentElement) {
            const [r, g, b, a = 1] = channels(getComputedStyle(it).backgroundColor);
            if (a === 1)
                return [r, g, b];
        }
        return channels(getComputedStyle(document.body).backgroundColor);
    };
    const found = new Map();
    const look = (element, text) => {
        const style = getComputedStyle(element);
        const [a, b] = [light(channels(style.color)), light(ground(element))].sort((x, y) => y - x);
        const mark = element.id ? `#${element.id}` : `.${String(element.className).split(" ")[0]}`;
        const name = element.tagName.toLowerCase() + mark;
        found.set(name, Math.min(found.get(name) ?? Infinity, Math.round(100 * (a + 0.05) / (b + 0.05)) / 100));
        return text;
    };
    const top = document.querySelector("dialog[open]") || document.body;
    const walker = document.createTreeWalker(top, NodeFilter.SHOW_TEXT);
    while (walker.nextNode()) {
        const { parentElement, data } = walker.currentNode;
        if (data.trim() && parentElement.getClientRects().length)
            look(parentElement, data);
    }
    for (const input of top.querySelectorAll("input"))
        if (input.getClientRects().length)
            look(input, input.value);
    return [...found];
}

/** Goes through what the page can show, and looks at each. */
async function through(page, look) {
    await page.fresh();
    await look("the first page");
    await page.drop(Buffer.from("no story"), "tale.txt");
    await page.until(() => document.getElementById("told").textContent !== "");
    await look("a refusal");
    await page.open(MENU);
    await page.sayAll(["hello", "roll"]);
    await look("the play");
    for (const [open, window] of [["", "menu"], ["menu-lines", "lines"], ["show-saves", "restoring"]]) {
        await (open ? page.menu(open) : page.click("#show-menu"));
        await page.shown(window);
        await pause(150);
        await look(window);
        await page.leave();
    }
    await page.click("#show-inside");
    for (const name of ["findings", "header", "map", "tree", "code"]) {
        await page.click(`#tab-${name}`);
        await page.until(() => document.getElementById("panel").getAttribute("aria-busy") === "false");
        await pause(150);
        await look(`inside: ${name}`);
    }
    await page.leave();
    await page.say("break");
    await look("the end");
    await page.open(SCREEN);
    await page.sayAll(["styles", "look"]);
    await look("a screen with styles");
}

export async function contrast(page) {
    let least = Infinity;
    let count = 0;
    for (const theme of ["light", "dark"]) {
        await through(page, async (what) => {
            await page.run((value) => { document.documentElement.dataset.theme = value; }, theme);
            await pause(160);
            for (const [name, ratio] of await page.run(contrastsInPage)) {
                holds(ratio >= LEAST, `${what}, ${theme}: ${name} has ${ratio}`);
                least = Math.min(least, ratio);
                count++;
            }
        });
    }
    return `${count} measured, the least is ${least}`;
}

/** In the page: what can be used, with its role and its name. */
export function namesInPage() {
    const textOf = (ids) => ids.split(" ").map((id) => document.getElementById(id)?.textContent.trim()).join(" ");
    const top = document.querySelector("dialog[open]") || document.body;
    const all = [...top.querySelectorAll("button, input, select, a, [role], dialog"), ...top === document.body ? []
        : [top]];
    return all.filter((it) => it.getClientRects().length && !(it.type === "file")).map((it) => {
        const own = { A: "link", INPUT: "textbox", SELECT: "combobox" }[it.tagName] || it.tagName.toLowerCase();
        const role = it.getAttribute("role") || own;
        const label = it.labels?.[0]?.textContent.trim();
        const others = it.getAttribute("aria-labelledby");
        const text = ["BUTTON", "A"].includes(it.tagName) || ["status", "heading"].includes(role)
            ? it.textContent.trim() : "";
        const name = it.getAttribute("aria-label") || (others && textOf(others)) || label || text;
        return [role, name, it.id];
    });
}

export async function named(page) {
    const roles = new Map();
    await through(page, async (what) => {
        for (const [role, name, id] of await page.run(namesInPage)) {
            holds(name || role === "status", `${what}: ${role} ${id} has no name`);
            roles.set(role, (roles.get(role) || new Set()).add(name));
        }
    });
    const heads = [...roles].map(([role, names]) =>
        `${role} (${[...names].filter((name) => name.length < 30).slice(0, 4).join(", ")})`);
    return process.env.ROLES ? heads.join("; ") : [...roles].map(([role, names]) => `${names.size} ${role}`).join(", ");
}
