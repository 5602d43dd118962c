// What tests make around the page: a page of its own for a story, as `zkit page` makes it, and a site that has files.

import { readFileSync, writeFileSync } from "node:fs";
import { createServer } from "node:http";
import { fileURLToPath } from "node:url";
import { Page, join } from "./page.mjs";

const EMPTY = '<script type="text/plain" id="own"></script>';
const escaped = (text) => text.replace(/&/g, "&amp;").replace(/</g, "&lt;").replace(/>/g, "&gt;");

/** The text of the page with a story's parts in it, each by its name, and with its title. */
export function withParts(text, parts, title) {
    const all = Object.entries(parts).map(([name, content]) =>
        `<script type="text/plain" id="own-${name}">${Buffer.from(content).toString("base64")}</script>`);
    return text.replace(EMPTY, () => all.join("")).replace("<title>zkit</title>", () =>
        `<title>${escaped(title)}</title>`);
}

export function textOf(page) {
    return readFileSync(fileURLToPath(page.url), "utf8");
}

/** A page with another text than the one that is tested. */
export function pageWith(page, text, name = "own.html") {
    const file = join(page.browser.folder, "profile", name);
    writeFileSync(file, text);
    return new Page(page.browser, file);
}

/** A page of its own for a story. */
export function ownPage(page, parts, title = parts.title ?? parts.file) {
    return pageWith(page, withParts(textOf(page), parts, title));
}

/**
 * A site of this machine: each path with what answers a request, or with what is answered. It notes what it is asked.
 */
export async function siteOf(files) {
    const asked = [];
    const server = createServer((request, response) => {
        const path = request.url.replace(/\?.*/, "");
        asked.push(request.url);
        const answer = files[path];
        if (typeof answer === "function") {
            answer(request, response);
            return;
        }
        const type = path.endsWith(".html") ? "text/html" : "application/octet-stream";
        response.writeHead(answer === undefined ? 404 : 200, { "Content-Type": type });
        response.end(answer);
    });
    await new Promise((resolve) => server.listen(0, "127.0.0.1", resolve));
    const close = () => {
        server.closeAllConnections();
        return new Promise((resolve) => server.close(resolve));
    };
    return { asked, close, address: `http://127.0.0.1:${server.address().port}` };
}

/** The page at an address of a site. */
export function pageAt(page, url) {
    const own = new Page(page.browser, "");
    own.url = url;
    return own;
}
