// The page on a site: stories that it fetches by their addresses, and the page in a frame. What the site is asked for
// is looked at, request by request.

import { pageAt, siteOf, textOf, withParts } from "./making.mjs";
import { EXAMPLES, MENU, holds, join, native, pause, readFileSync, same } from "./page.mjs";

const Z5 = join(EXAMPLES, "lighthouse.z5");
const STORY = readFileSync(Z5);
const SHARED = "This is the shared play, letter by letter. Continue from here, or from any of its lines.";

const told = (page, words) => page.until((it) => document.getElementById("told").textContent === it, words);
const typedLines = () =>
    [...document.querySelectorAll("#scroller .typed")].map((it) => it.textContent.trimEnd()).join();
const played = (lines) => native(["play", "--echo", Z5], lines.map((line) => `${line}\n`).join("")).text;

/** Until a story of some file name is played. */
async function plays(page, name) {
    await page.until((it) => document.getElementById("title").title === it, name);
    await page.rests();
}

/** Does something at a site, and closes it then. What a browser says of failed requests is expected. */
async function atSite(page, files, does) {
    const site = await siteOf({ "/zkit.html": textOf(page), ...files });
    try {
        await does(site, pageAt(page, `${site.address}/zkit.html`));
    } finally {
        await site.close();
        const errors = page.browser.errors();
        errors.splice(0, errors.length, ...errors.filter((it) => !it.startsWith("Failed to load resource")));
    }
}

/** A story is fetched by its address and opened at once; a reload goes on, and a link has the address too. */
async function byAddress(page) {
    await atSite(page, { "/tales/the%20lamp.z5": STORY }, async (site, own) => {
        await own.fresh();
        const address = "?story=tales%2Fthe+lamp.z5";
        site.asked.length = 0;
        await own.browser.go(own.url + address);
        await plays(own, "the lamp.z5");
        same(await own.focus(), "line 0", "the focus and the caret");
        same(await own.told(), "", "what is told");
        await own.sayAll(["open bag", "look"]);
        await own.keeps(2);
        await own.reload();
        await plays(own, "the lamp.z5");
        same(await own.run(typedLines), "open bag,look", "the lines after a reload");
        await own.click("#show-inside");
        await own.until(() => document.getElementById("panel").getAttribute("aria-busy") === "false");
        await own.leave();
        same(await own.transcript(), played(["open bag", "look"]), "the transcript");
        const asked = [`/zkit.html${address}`, "/tales/the%20lamp.z5"];
        same(site.asked.join(), [...asked, ...asked].join(), "what the site was asked for");
        await own.lines();
        await own.click("#copy-link");
        const link = await own.until(() => location.hash.startsWith("#play=") && location.search + location.hash);
        holds(link.startsWith(`${address}#play=`), link);
        await own.fresh();
        await own.browser.go(own.url + link);
        await told(own, SHARED);
        same(await own.run(() => location.search + location.hash), address, "the address of the page");
        same(await own.transcript(), played(["open bag", "look"]), "the transcript of the link");
        await own.open(MENU);
        same(await own.run(() => location.search), "", "the address of the page with another story");
        await own.keeps(0);
        await own.reload();
        await plays(own, "menu.z5");
    });
}

/** The same by what stands after the #, also where the page is open already; a link to its play has the address. */
async function byHash(page) {
    await atSite(page, { "/a.z5": STORY, "/menu.z5": readFileSync(MENU) }, async (site, own) => {
        await own.fresh();
        await own.browser.go(`${own.url}#story=a.z5`);
        await plays(own, "a.z5");
        await own.say("look");
        same(await own.run(() => location.hash), "#story=a.z5", "the address after an answer");
        await own.lines();
        await own.click("#copy-link");
        const link = await own.until(() => location.hash.startsWith("#play=") && location.search + location.hash);
        holds(link.startsWith("?story=a.z5#play="), link);
        await own.leave();
        await own.run(() => { location.hash = "#story=/menu.z5"; });
        await plays(own, "menu.z5");
        await own.say("roll");
        await own.keeps(1);
        await own.run(() => { location.hash = "#story=a.z5"; });
        await plays(own, "a.z5");
        same(await own.run(typedLines), "look", "the lines of the story that was played before");
        same(await own.focus(), "line 0", "the focus and the caret");
        await own.run(() => { location.hash = "#line"; });
        await pause(300);
        same(site.asked.filter((it) => it.endsWith(".z5")).join(), "/a.z5,/menu.z5,/a.z5",
            "the stories that were fetched");
    });
}

/** What a site may answer in place of a story, and what the page says then. */
const ANSWERS = {
    "none.z5": [undefined, "none.z5 can't be fetched: the site has no such file (status 404)."],
    "broken.z5": [(_, it) => it.writeHead(500).end(), "broken.z5 can't be fetched: the site refuses it (status 500)."],
    "gone.z5": [(_, it) => it.socket.destroy(), "gone.z5 can't be fetched: no answer came, or it led to another site."],
    "half.z5": [(_, it) => {
        it.writeHead(200, { "Content-Length": 9000 });
        it.write(STORY.subarray(0, 4000));
        setTimeout(() => it.socket.destroy(), 200);
    }, "half.z5 can't be fetched: the answer broke off."],
    "text.z5": ["Once upon a time there was a text.\n".repeat(9), "text.z5: not a story: it is a text file"],
    "saved.z5": [readFileSync(`${Z5}.dfrotz`), "saved.z5: this is a saved game. Open its story, and restore it there."],
};

/** Where a story can't be fetched, the page says why, and asks no other site; a story can be chosen then. */
async function notFetched(page) {
    const answers = Object.entries(ANSWERS).map(([name, [answer]]) => [`/${name}`, answer]);
    await atSite(page, Object.fromEntries(answers), async (site, own) => {
        const other = await siteOf({ "/a.z5": STORY });
        try {
            await own.fresh();
            const elsewhere = "This page fetches stories from its own site alone, and this one is elsewhere: ";
            const tries = [...Object.entries(ANSWERS).map(([name, [, words]]) => [name, words]),
                [`${other.address}/a.z5`, `${elsewhere}${other.address}/a.z5`],
                ["data:,x", `${elsewhere}data:,x`], [`//${"x".repeat(200)}`, `${elsewhere}//${"x".repeat(98)}…`],
                ["http://", "This is no address of a story: http://"]];
            for (const [address, words] of tries) {
                await own.browser.go(`${own.url}?story=${encodeURIComponent(address)}`);
                await own.ready();
                same(await own.told(), words, `what is told of ${address}`);
                holds(await own.isShown("choose"), "no story can be chosen");
            }
            await own.open(MENU);
            same(await own.run(() => location.search), "", "the address of the page with another story");
            same(other.asked.join(), "", "what the other site was asked for");
        } finally {
            await other.close();
        }
    });
}

/** An answer that leads to another site is not followed, and one without an end is not taken. */
async function strangeAnswers(page) {
    const other = await siteOf({ "/a.z5": STORY });
    let sent = 0;
    const endless = (_, response) => {
        const more = () => {
            sent += 1000000;
            if (!response.destroyed)
                response.write(Buffer.alloc(1000000), more);
        };
        response.writeHead(200);
        more();
    };
    const leads = (to) => (_, response) => response.writeHead(302, { Location: to }).end();
    const files = { "/away.z5": leads(`${other.address}/a.z5`), "/near.z5": leads("/a.z5"), "/a.z5": STORY,
        "/long.z5": endless };
    try {
        await atSite(page, files, async (site, own) => {
            await own.fresh("?story=away.z5");
            same(await own.told(), "away.z5 can't be fetched: no answer came, or it led to another site.");
            same(other.asked.join(), "", "what the other site was asked for");
            await own.fresh("?story=long.z5");
            same(await own.told(), "long.z5 is too long: a story's file may have up to 60 MB.");
            holds(sent < 400000000, `${sent} bytes were sent`);
            await own.fresh("?story=near.z5");
            await plays(own, "near.z5");
        });
    } finally {
        await other.close();
    }
}

/** While an answer is awaited the page says so, and another story can be opened, which stays. */
async function slowAnswer(page) {
    let answer = null;
    const files = { "/slow.z5": (_, response) => { answer = response; } };
    await atSite(page, files, async (site, own) => {
        await own.fresh();
        await own.browser.go(`${own.url}?story=slow.z5`);
        await told(own, "Fetching the story…");
        await own.click("#example");
        await plays(own, "lighthouse.z5");
        await own.say("look");
        answer.end(readFileSync(MENU));
        await own.ready();
        same(await own.text("title"), "The Lamp on Skärvø", "the story after the answer came");
        same(await own.run(typedLines), "look", "its lines");
    });
}

/** A page on a disk fetches nothing, and says so; a page of its own has no use for an address. */
async function fetchesNothingElse(page) {
    await page.fresh("?story=a.z5");
    same(await page.told(), "A page on a disk can't fetch a story. Choose the file of a.z5 instead.");
    holds(await page.isShown("choose"), "no story can be chosen");
    const says = "sends nothing, and fetches nothing but a story that its address names, from its own site alone";
    holds((await page.text("welcome")).replace(/\s+/g, " ").includes(says), await page.text("welcome"));
    const text = withParts(textOf(page), { story: readFileSync(MENU), file: "menu.z5", title: "Hall" }, "Hall");
    await atSite(page, { "/own.html": text, "/a.z5": STORY }, async (site) => {
        const own = pageAt(page, `${site.address}/own.html`);
        await own.fresh();
        for (const place of ["?story=a.z5", "#story=a.z5"]) {
            await own.browser.go(own.url + place);
            await plays(own, "menu.z5");
        }
        await own.run(() => { location.hash = "#story=/a.z5"; });
        await pause(300);
        same(await own.text("title"), "Hall", "the head");
        holds(site.asked.every((it) => it.startsWith("/own.html")), site.asked.join());
    });
}

/** A page around the page in a frame, which may do nothing but run scripts. */
const AROUND = `<!doctype html><html lang="en"><title>Around</title><link rel="icon" href="data:,">
<script>window.heard = []; addEventListener("message", ({ data }) => heard.push(data));</script>
<iframe title="A story" sandbox="allow-scripts" style="position: fixed; inset: 0; width: 100%; height: 100%; border: 0"
src="`;

/** In the page: notes what fails in it from its beginning on. */
const FAILS = `<script>window.failed = [];
addEventListener("error", ({ message }) => failed.push(message));
addEventListener("unhandledrejection", ({ reason }) => failed.push(String(reason)));</script>`;

/** Goes to a page with a frame, does something in there, and answers what the page around it has heard. */
async function inFrame(page, files, place, does) {
    await atSite(page, { ...files, "/around.html": `${AROUND}${place}"></iframe>` }, async (site) => {
        const own = pageAt(page, `${site.address}/around.html`);
        await own.browser.go(own.url);
        await own.until(() => window.heard?.length > 0);
        await own.browser.intoFrame();
        const heard = async () => {
            await own.browser.outOfFrame();
            const all = await own.run(() => window.heard.splice(0).map((it) => JSON.stringify(it)).join());
            await own.browser.intoFrame();
            return all;
        };
        try {
            await does(own, heard);
            same(await own.run(() => window.failed.join()), "", "what has failed");
        } finally {
            await own.browser.outOfFrame();
        }
    });
}

/** In a frame that allows only scripts Enter and all buttons work, and the page around it hears of each turn. */
async function framed(page) {
    const parts = { story: readFileSync(MENU), file: "menu.z5", title: "Hall" };
    const text = withParts(textOf(page), parts, "Hall").replace("<head>", () => `<head>${FAILS}`);
    const turn = (turns, line, awaits) => JSON.stringify({ zkit: "turn", turns, line, awaits });
    await inFrame(page, { "/own.html": text }, "own.html", async (own, heard) => {
        same(await heard(), turn(0, "The hall   Turns: 0", "line"), "what is heard of the beginning");
        await own.click("#line");
        await own.say("hello");
        same(await heard(), turn(1, "The hall   Turns: 0", "line"), "what is heard of a line");
        await own.browser.write("menu");
        await own.click("#enter");
        await own.rests();
        same(await heard(), turn(2, "About this", "key"), "what is heard of a key that is awaited");
        await own.browser.press("q");
        await own.rests();
        await heard();
        await own.click("#undo");
        await own.rests();
        same(await own.run(typedLines), "hello,menu", "the lines after Undo");
        await own.browser.press("q");
        await own.rests();
        await own.say("quit");
        holds((await heard()).endsWith(turn(4, "The hall   Turns: 0", "stopped")), "the end was not heard");
        await own.browser.press("Enter");
        await own.until(() => !document.querySelector("#scroller .typed"));
        await own.rests();
        same(await own.focus(), "line 0", "the focus after a restart");
    });
}

/** Windows in such a frame are left by their buttons too, and saved games stay as long as the page is open. */
async function savesInFrame(page) {
    const parts = { story: STORY, file: "lighthouse.z5", title: "Lamp" };
    const text = withParts(textOf(page), parts, "Lamp").replace("<head>", () => `<head>${FAILS}`);
    const words = "This frame keeps nothing after you close the page. Save the game as a file. "
        + "If no file comes, the site around the frame allows none.";
    await inFrame(page, { "/own.html": text }, "own.html", async (own) => {
        const gone = () => own.until(() => !document.querySelector("dialog[open]"));
        await own.click("#line");
        for (const leave of [() => own.browser.press("Enter"), () => own.click("#saving .head button"),
            () => own.click("#keep")]) {
            await own.say("save");
            await own.shown("saving");
            holds(await own.isShown("not-lasting"), "the page does not say that nothing is kept");
            same(await own.text("not-lasting"), words);
            await leave();
            await own.until(() => !document.getElementById("saving").open);
            await own.rests();
            if (await own.isShown("asking"))
                await own.click("#asking-yes");
            await gone();
            await own.rests();
            same((await own.focus()).split(" ")[0], "line", "the focus after the window was left");
        }
        await own.say("open bag");
        await own.say("restore");
        await own.click("#slots .pick");
        await gone();
        await own.rests();
        await own.say("inventory");
        holds((await own.text("scroller")).includes("a postbag (closed)"), "the game was not restored");
        await own.menu("restart");
        await own.click("#asking-no");
        await gone();
        await own.click("#show-menu");
        await own.click("#menu .head button");
        await gone();
        await own.menu("menu-lines");
        await own.click("#copy-link");
        await own.until(() =>
            /^(Copied|Copy it from the address bar)$/.test(document.getElementById("copy-link").textContent));
        await own.leave();
        same(await own.told(), "", "what is told");
    });
}

/** A frame that is kept apart from its site has a story of that only where the site gives it to any origin. */
async function fetchesInFrame(page) {
    const text = textOf(page).replace("<head>", () => `<head>${FAILS}`);
    const open = (_, response) => response.writeHead(200, { "Access-Control-Allow-Origin": "*" }).end(STORY);
    await inFrame(page, { "/page.html": text, "/a.z5": open }, "page.html?story=a.z5", async (own) => {
        await plays(own, "a.z5");
    });
    const files = { "/page.html": text, "/a.z5": STORY };
    await atSite(page, { ...files, "/around.html": `${AROUND}page.html?story=a.z5"></iframe>` }, async (site) => {
        const own = pageAt(page, `${site.address}/around.html`);
        await own.browser.go(own.url);
        await own.until(() => document.querySelector("iframe"));
        await pause(1000);
        await own.browser.intoFrame();
        try {
            await told(own, "a.z5 can't be fetched: no answer came, or this frame may not have it.");
            same(await own.run(() => window.failed.join()), "", "what has failed");
        } finally {
            await own.browser.outOfFrame();
        }
    });
}

/** Without JavaScript a page says what it needs, and shows nothing else to choose from. */
async function withoutScripts(page) {
    const parts = { story: STORY, file: "a.z5", title: "Lamp" };
    const files = { "/own.html": withParts(textOf(page), parts, "Lamp") };
    for (const name of ["own.html", "zkit.html"]) {
        const around = `${AROUND.replace("allow-scripts", "")}${name}"></iframe>`;
        await atSite(page, { ...files, "/around.html": around }, async (site) => {
            const own = pageAt(page, `${site.address}/around.html`);
            await own.browser.go(own.url);
            await own.until(() => document.querySelector("iframe"));
            await pause(1000);
            await own.browser.intoFrame();
            try {
                const text = await own.run(() => document.querySelector("main").innerText.trim());
                same(text,
                    "This page needs JavaScript to play a story. Allow it in the browser, and load the page again.");
            } finally {
                await own.browser.outOfFrame();
            }
        });
    }
    await page.fresh();
    holds(!(await page.run(() => document.body.innerText)).includes("JavaScript"), "the page asks for JavaScript");
}

/** A page that is in no frame tells nobody of its turns. */
async function notFramed(page) {
    await page.fresh();
    await page.run(() => {
        window.heard = [];
        addEventListener("message", ({ data }) => window.heard.push(data));
    });
    await page.click("#example");
    await page.rests();
    await page.say("look");
    same(await page.run(() => JSON.stringify(window.heard)), "[]", "what the page tells itself");
}

export const SITES = [
    ["a story by its address", byAddress],
    ["a story by its address after the #", byHash],
    ["stories that can't be fetched", notFetched],
    ["answers that lead away or have no end", strangeAnswers],
    ["an answer that comes late", slowAnswer],
    ["a page on a disk, and one of its own, fetch nothing", fetchesNothingElse],
    ["a frame without forms", framed],
    ["saved games in a frame that keeps nothing", savesInFrame],
    ["a story by its address in a frame", fetchesInFrame],
    ["a page without JavaScript", withoutScripts],
    ["a page in no frame", notFramed],
];
