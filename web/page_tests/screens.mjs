// The screen of a story: its width, by the page's, and the styles of both windows. It is screen.z5 that is played, by
// keys, the mouse and the size of the browser's window.

import { EXAMPLES, MENU, SCREEN, holds, join, native, pause, readFileSync, same } from "./page.mjs";
import { looking } from "./stories.mjs";

const WIDE = [1100, 800];
const PHONE = [360, 640];

/** In the page: how the upper window is drawn: its rows with their styles, and the sizes of what is there. */
function upperInPage() {
    const upper = document.getElementById("upper");
    const [grid] = upper.querySelectorAll(".grid");
    const looks = (it) => {
        const { fontWeight, fontStyle, color, backgroundColor } = getComputedStyle(it);
        const ground = backgroundColor === "rgba(0, 0, 0, 0)" ? "" : `${color} on ${backgroundColor}`;
        return `${fontWeight} ${fontStyle} ${ground}`;
    };
    const rows = [[]];
    for (const node of grid ? grid.childNodes : [])
        node.textContent.split("\n").forEach((text, i) => {
            if (i > 0)
                rows.push([]);
            const isText = node.nodeType === Node.TEXT_NODE;
            if (text)
                rows[rows.length - 1].push(isText ? { kind: "", text }
                    : { kind: node.className, text, looks: looks(node), width: node.getBoundingClientRect().width });
        });
    const { paddingLeft, paddingRight } = getComputedStyle(upper);
    return {
        rows, bars: [...upper.querySelectorAll(".bar span")].map((it) => it.textContent).join("|"),
        hasGrid: Boolean(grid),
        size: grid ? parseFloat(getComputedStyle(grid).fontSize) : 0, tab: upper.tabIndex,
        room: upper.clientWidth - parseFloat(paddingLeft) - parseFloat(paddingRight),
        hidden: upper.scrollWidth - upper.clientWidth,
        over: document.documentElement.scrollWidth - document.documentElement.clientWidth,
        ground: getComputedStyle(upper).backgroundColor, ink: getComputedStyle(document.body).color,
        paper: getComputedStyle(document.body).backgroundColor,
    };
}

const upperOf = (page) => page.run(upperInPage);

/** How many columns the story was told, by its own words. */
async function toldColumns(page) {
    const [, columns] = /Its screen has (\d+) columns/.exec(await page.text("scroller")) ?? [];
    return Number(columns);
}

/** A row of so many columns with its text from the second one on. */
const rowOf = (text, columns) => ` ${text}`.padEnd(columns);

/** The status line by screen.inf: its right part begins ten columns before the last one. */
const statusOf = (turns, columns) => rowOf("The glass room", columns).slice(0, columns - 11)
    + `Turns: ${turns}`.padEnd(11);

/** Looks whether nothing has to be scrolled sideways. */
function wantFits({ hidden, over, tab }, what) {
    holds(hidden <= 0 && over <= 0, `${what}: ${hidden} pixels of the window and ${over} of the page are hidden`);
    same(tab, -1, `${what}: whether the upper window is a stop of Tab, since it scrolls`);
}

/** Looks whether a row is in reverse over so many columns, and is all in it. */
function wantReverse({ rows, size, ink, paper, ...upper }, row, text, columns, what) {
    const [run, ...others] = rows[row];
    same(others.length, 0, `${what}: the parts of the row after the first`);
    same(`${run.kind}|${run.text}`, `reverse|${text}`, `${what}: the row`);
    same(text.length, columns, `${what}: its letters`);
    same(run.looks, `400 normal ${paper} on ${ink}`, `${what}: how it looks`);
    const letter = run.width / columns;
    holds(letter > 0.5 * size && letter < 0.7 * size, `${what}: a letter is ${letter} wide and ${size} high`);
    holds(run.width <= upper.room && run.width > 0, `${what}: it is ${run.width} wide where there are ${upper.room}`);
}

/** Does something with a window of a size. */
async function inWindow(page, [width, height], does) {
    await page.browser.size(width, height);
    try {
        return await does();
    } finally {
        await page.browser.size(...WIDE);
    }
}

/** Opens the story in a page that was never here. */
async function opened(page) {
    await page.fresh();
    await page.open(SCREEN);
    return toldColumns(page);
}

/** The story is told as many columns as fit, and its status line stands over all of them. */
async function statusLine(page) {
    const found = [];
    for (const size of [WIDE, PHONE, [640, 360]])
        await inWindow(page, size, async () => {
            const columns = await opened(page);
            const what = `a page of ${size[0]} pixels`;
            const upper = await upperOf(page);
            wantFits(upper, what);
            wantReverse(upper, 0, statusOf(0, columns), columns, what);
            same(upper.rows.length, 1, `${what}: the number of rows`);
            same(upper.ground, upper.ink, `${what}: the ground around it`);
            // (80 columns, or as many as fit by letters of 12 pixels; Firefox makes no window as narrow)
            const isNarrow = size === PHONE;
            holds(isNarrow ? columns >= 35 && columns < 80 : columns >= 80, `${what}: ${columns} columns are told`);
            holds(upper.size >= (isNarrow ? 12 : 11), `${what}: the letters are ${upper.size} high`);
            const one = 12 * upper.rows[0][0].width / columns / upper.size;
            holds(!isNarrow || (columns + 1) * one > upper.room - 1,
                `${what}: there is room for more than ${columns} columns`);
            same(await page.focus(), "line 0", `${what}: the focus`);
            await page.say("styles");
            wantReverse(await upperOf(page), 0, statusOf(1, columns), columns, `${what}, after a line`);
            await page.seesNewest(`${what}: the newest turn is not seen`);
            found.push(columns);
        });
    return `${found.join(", ")} columns`;
}

/** A menu by the cursor keys: its head is bold, and the place is a row in reverse over the whole width. */
async function menu(page) {
    for (const size of [WIDE, PHONE])
        await inWindow(page, size, async () => {
            const columns = await opened(page);
            const what = `a menu in ${columns} columns`;
            const chosen = async (place) => {
                const upper = await upperOf(page);
                const names = ["the sea", "the sky", "the lamp"];
                wantFits(upper, what);
                holds(upper.ground !== upper.ink, `${what}: the ground is in reverse too`);
                wantReverse(upper, place + 1, rowOf(names[place - 1], columns), columns, `${what}, place ${place}`);
                const others = upper.rows.slice(2).map((row) => row.map(({ kind, text }) => `${kind}${text}`).join());
                names.forEach((name, i) => i === place - 1
                    || same(others[i], ` ${name}`, `${what}: the row of ${name}`));
                const head = upper.rows[0].map(({ kind, text }) => `${kind}|${text}`).join();
                same(head, `|${" ".repeat(Math.floor((columns - 11) / 2))},bold|What to see`, `${what}: its head`);
                same(upper.rows[0][1].looks, "700 normal ", `${what}: how its head looks`);
                same(upper.rows[1].length, 0, `${what}: the parts of the empty row`);
                same(await page.text("asked"), "Press a key", `${what}: what is asked`);
            };
            await page.send("look");
            await page.until(() => document.getElementById("asked").textContent === "Press a key");
            await chosen(1);
            for (const [key, place] of [["ArrowDown", 2], ["ArrowDown", 3], ["ArrowUp", 2]]) {
                await page.browser.press(key);
                await page.until((name) => document.querySelector("#upper .reverse")?.textContent.trim() === name,
                    ["the sea", "the sky", "the lamp"][place - 1]);
                await page.rests();
                await chosen(place);
            }
            await page.browser.press("Enter");
            await page.until(() => document.getElementById("scroller").textContent.includes("You look at the sky."));
            await page.rests();
            const italics = await page.run(() =>
                [...document.querySelectorAll("#scroller .italic")].map((it) => it.textContent).join());
            same(italics, "the sky", `${what}: what is italic below it`);
            await page.browser.press("ArrowLeft");
            await page.until(() => document.getElementById("asked").textContent !== "Press a key");
            await page.rests();
            wantReverse(await upperOf(page), 0, statusOf(1, columns), columns, `${what}, after it`);
            same(await page.focus(), "line 0", `${what}: the focus after it`);
        });
}

/** Text has all styles and the font of a fixed pitch, and what is erased makes room for what comes. */
async function lower(page) {
    await opened(page);
    holds((await page.text("scroller")).includes("80 columns, bold text, italic text, text of a fixed pitch."),
        await page.text("scroller"));
    same(await page.text("title"), "A ROOM OF GLASS", "the head of the page");
    await page.say("styles");
    const parts = await page.run(() => {
        const last = [...document.querySelectorAll("#scroller .text")].pop();
        return [...last.children].map((it) => {
            const { fontWeight, fontStyle, fontFamily } = getComputedStyle(it);
            return `${it.className}:${it.textContent}:${fontWeight} ${fontStyle} ${/mono/i.test(fontFamily)}`;
        }).join("|");
    });
    same(parts, "bold:Bold:700 normal false|italic:italic:400 italic false|reverse:reverse:400 normal false"
        + "|fixed:fixed:400 normal true|fixed:font 4 after font 1:400 normal true", "the styles of the text");
    holds((await page.text("scroller")).includes("fixed and font 4 after font 1 and font 1 after font 4.\n"),
        "what set_font answers");
}

/** In the page: the lines of the story that are seen, as far as they are. */
function seenInPage() {
    const { top, bottom } = document.getElementById("scroller").getBoundingClientRect();
    const seen = [...document.querySelectorAll("#scroller .text, #scroller .typed")].filter((it) => {
        const rects = [...it.getClientRects()];
        return rects.some((rect) => rect.bottom > top + 16 && rect.top < bottom && rect.height > 0)
            && it.textContent.trim();
    });
    return seen.map((it) => it.textContent.trim().replace(/[\s,.][^]*/, "")).join();
}

/** What is erased is not seen any more until the reader scrolls up; what comes stands at the top, and more below it. */
async function erased(page) {
    for (const size of [WIDE, PHONE])
        await inWindow(page, size, async () => {
            await opened(page);
            await page.say("nothing");
            const wants = async (wanted, what) =>
                same(await page.run(seenInPage), wanted, `what is seen ${what} in ${size[0]} pixels`);
            await wants("A,nothing,Nothing", "before an erasure");
            await page.say("clear");
            await wants("All", "after an erasure");
            const top = await page.run(() =>
                [...document.querySelectorAll("#scroller .text")].pop().getBoundingClientRect().top
                - document.getElementById("scroller").getBoundingClientRect().top);
            holds(top >= 0 && top < 40, `the text after an erasure is at ${top}`);
            same(await page.focus(), "line 0", "the focus after an erasure");
            await page.say("high");
            await wants("All,high,High", "a line after an erasure");
            await page.keeps(3);
            await page.reload();
            await page.rests();
            await wants("All,high,High", "after a reload");
            await page.browser.press("PageUp");
            await page.until(() => document.getElementById("scroller").scrollTop === 0);
            holds((await page.run(seenInPage)).startsWith("A,nothing,Nothing"), "what was erased can't be scrolled to");
            for (const [left, seen] of [[2, "All"], [1, "A,nothing,Nothing"]]) {
                await page.click("#undo");
                await page.until((count) => document.querySelectorAll("#scroller .typed").length === count, left);
                await page.rests();
                await wants(seen, "after Undo");
            }
            await page.say("clear");
            for (let i = 0; i < 12; i++)
                await page.say("nothing");
            await page.seesNewest("the newest turn is not seen below an erasure");
        });
}

/** In the page: notes the tones that are sounded. No driver can hear them. */
function listenInPage() {
    window.tones = [];
    const node = { connect: (to) => to, start() {}, stop() {}, gain: {} };
    window.AudioContext = class {
        constructor() {
            Object.assign(this, { currentTime: 0, destination: node, createGain: () => node });
        }

        createOscillator() {
            const frequency = { set value(it) { window.tones.push(it); } };
            return { ...node, frequency };
        }
    };
}

/** A high and a low bleep sound, each once, also by a key in a menu. */
async function bleeps(page) {
    await opened(page);
    await page.run(listenInPage);
    await page.sayAll(["high", "deep", "nothing"]);
    const [high, low, ...more] = await page.run(() => window.tones);
    holds(high > low && more.length === 0, `these tones were sounded: ${[high, low, ...more]}`);
    await page.say("look");
    await page.browser.press("ArrowUp");
    await page.until(() => window.tones.length > 2);
    same(await page.run(() => window.tones.slice(2).join()), `${high}`, "the tone of a key that leads nowhere");
}

/** What is spoken of the upper window is its text, whatever its styles are. */
async function spoken(page) {
    await page.fresh();
    await page.hear();
    await page.open(SCREEN);
    same((await page.heard()).said, "The glass room.", "what is spoken of the status line");
    await page.say("styles");
    same((await page.heard()).said, "", "what is spoken of it after a line");
    await page.say("look");
    same((await page.heard()).said, "What to see. the sea. the sky. the lamp.", "what is spoken of a menu");
    await page.browser.press("ArrowDown");
    await page.until(() => document.querySelector("#upper .reverse").textContent.trim() === "the sky");
    await page.rests();
    same((await page.heard()).said, "", "what is spoken where the place in it is another");
    await page.browser.press("Escape");
    await page.until(() => document.getElementById("asked").textContent !== "Press a key");
    await page.rests();
    same((await page.heard()).said, "The glass room.", "what is spoken after it");
}

/** Goes on in a page of another size with the play that is kept, and answers its upper window. */
async function reloaded(page, size) {
    await page.keeps(1);
    await page.browser.size(...size);
    await page.reload();
    await page.rests();
    return upperOf(page);
}

/** A play that goes on from a snapshot keeps its width in a page of another one, and so where the reader goes back. */
async function otherPage(page) {
    await page.browser.size(...WIDE);
    try {
        same(await opened(page), 80, "the columns in a wide page");
        await page.say("styles");
        let upper = await reloaded(page, PHONE);
        same(`${upper.hasGrid} ${upper.bars}`, "false The glass room|Turns: 1",
            "the status line of 80 columns in a narrow page");
        wantFits(upper, "the status line of 80 columns in a narrow page");
        await page.say("look");
        upper = await upperOf(page);
        holds(upper.hidden > 0 && upper.over <= 0 && upper.size >= 11, "a menu of 80 columns is not one that scrolls");
        same(upper.tab, 0, "whether a menu that scrolls is a stop of Tab");
        same(upper.rows[2][0].text, rowOf("the sea", 80), "the row of the place in a menu of 80 columns");
        await page.browser.press("Escape");
        await page.until(() => document.getElementById("asked").textContent !== "Press a key");
        await page.rests();
        await page.menu("menu-lines");
        await page.shown("lines");
        await page.click("#line-list li:nth-child(1) button");
        await page.until(() => document.querySelectorAll("#scroller .typed").length === 0);
        await page.rests();
        same(await toldColumns(page), 80, "the columns where the reader has gone back to the start");
        await page.restart();
        const columns = await toldColumns(page);
        holds(columns < 80, `${columns} columns are told after a new start in a narrow page`);
        wantReverse(await upperOf(page), 0, statusOf(0, columns), columns, "the status line after a new start");
        await page.say("styles");
        upper = await reloaded(page, WIDE);
        wantReverse(upper, 0, statusOf(1, columns), columns, "the status line of a narrow page in a wide one");
        wantFits(upper, "the status line of a narrow page in a wide one");
        return `80 and ${columns} columns`;
    } finally {
        await page.browser.size(...WIDE);
    }
}

/** The play of the page as a file that is shared. (A narrow page has the list in its menu.) */
async function sharedFile(page) {
    await page.menu("menu-lines");
    await page.shown("lines");
    const file = JSON.parse(readFileSync(await page.fileAfter(() => page.click("#play-file"))));
    await page.leave();
    return file;
}

/** Shows a play of a file, and answers what is told of it. */
async function shown(page, file) {
    await page.drop(Buffer.from(JSON.stringify(file)), "a.play.json");
    await page.until(() => !document.getElementById("invitation").textContent.includes("zkit plays")
        || document.getElementById("told").textContent !== "");
    await page.open(SCREEN);
    await page.until(() => document.getElementById("told").textContent !== "");
    return page.told();
}

/**
 * A play that is shared has its width, so that its text is the same in a page of another one; without one it has 80.
 */
async function sharedPlay(page) {
    const narrow = await inWindow(page, PHONE, async () => {
        await opened(page);
        await page.sayAll(["styles", "clear"]);
        return sharedFile(page);
    });
    const wide = await inWindow(page, WIDE, async () => {
        await page.fresh();
        const words = await shown(page, narrow);
        holds(words.includes("letter by letter"), `of a play in ${narrow.columns} columns: ${words}`);
        same((await upperOf(page)).rows[0][0].text, statusOf(2, narrow.columns),
            "the status line of a play that is shown");
        await opened(page);
        await page.say("clear");
        return sharedFile(page);
    });
    same(wide.columns, 80, "the columns of a play in a wide page");
    await inWindow(page, PHONE, async () => {
        await page.fresh();
        const words = await shown(page, { ...wide, columns: undefined });
        holds(words.includes("letter by letter"), `of a play that says no columns: ${words}`);
        await page.fresh();
        for (const columns of [19, 256, 40.5, "80", null]) {
            await page.drop(Buffer.from(JSON.stringify({ ...wide, columns })), `wide${columns}.json`);
            await page.until((it) => document.getElementById("told").textContent === it,
                `wide${columns}.json: this play can't be shown: it is damaged.`);
        }
    });
    return `${narrow.columns} and ${wide.columns} columns`;
}

/** Drops a story, and waits for its first read. */
async function dropped(page, story, name) {
    await page.drop(story, name);
    await page.until((title) => document.getElementById("title").title === title, name);
    await page.rests();
}

/**
 * Code that looks for the width, and code that does not: loadb 0 33, loadb 33 0, loadw 0 17, loadw 17 0, a call of a
 * routine with 0 and 33; loadb 0 32, loadb 1 33, loadw 0 33, loadw 33 0, loadb 17 0, add 0 33, a call with 1 and 33.
 */
const LOOKS = [
    [[0x10, 0, 33, 0x10], true], [[0x10, 33, 0, 0x10], true], [[0x0f, 0, 17, 0x10], true], [[0x0f, 17, 0, 0x10], true],
    [[0xe0, 0x17, 0, 0, 0, 33, 0x10], true], [[0x10, 0, 32, 0x10], false], [[0x10, 1, 33, 0x10], false],
    [[0x0f, 0, 33, 0x10], false], [[0x0f, 33, 0, 0x10], false], [[0x10, 17, 0, 0x10], false],
    [[0x14, 0, 33, 0x10], false],
    [[0xe0, 0x17, 0, 0, 1, 33, 0x10], false],
];

/** A story that does not look for the width places its text for 80 columns, and gets them in a narrow page too. */
async function usualWidth(page) {
    await inWindow(page, PHONE, async () => {
        await page.fresh();
        await page.open(MENU);
        same((await upperOf(page)).bars, "The hall|Turns: 0",
            "the status line of a story that does not look for the width");
        await page.say("roll");
        same(await page.transcript(), native(["play", "--echo", MENU], "roll\n").text, "its transcript");
        for (const [i, [code, isLooking]] of LOOKS.entries()) {
            await dropped(page, looking(code, "Once.\n>"), `looks${i}.z5`);
            const { columns } = await sharedFile(page);
            holds(isLooking ? columns >= 20 && columns < 80 : columns === 80,
                `${columns} columns for the code ${code}`);
        }
    });
}

/** Lines that a story has wrapped to the width that it was told are joined, as those of 80 columns are. */
async function wrapped(page) {
    await inWindow(page, PHONE, async () => {
        const columns = await opened(page);
        const least = Math.ceil(0.75 * columns);
        const parts = (width) => [[width - 10, 9], [width - 10, 10], [width - 1, 1]]
            .map(([line, next]) => `${"x".repeat(line)}\n${"y".repeat(next)}\n\n`);
        for (const [width, count] of [[columns, 2], [least, 2], [least - 1, 0], [columns + 1, 0], [80, 2], [81, 0]]) {
            const story = looking([0x10, 0, 33, 0x10], `${"w".repeat(width)}\n\n${parts(width).join("")}>`);
            await dropped(page, story, `wraps${width}.z5`);
            const softs = await page.run(() => [...document.querySelectorAll("#scroller .soft")].map((it) =>
                it.nextSibling.textContent.split("\n")[0].length).join());
            const isUsual = width >= 60 && width <= 80;
            same(softs, count || isUsual ? "10,1" : "",
                `the lines of ${width} letters that are joined in ${columns} columns`);
        }
    });
}

/** Larger text has fewer columns in a narrow page, and none of them has to be scrolled to. */
async function largeText(page) {
    const found = [];
    await inWindow(page, PHONE, async () => {
        for (const [width, keys] of [[360, []], [360, ["End"]], [220, ["End"]]]) {
            // (Firefox makes no window as narrow)
            await page.browser.size(width, 640).catch(() => {});
            await page.fresh();
            await page.click("#example");
            await page.rests();
            await page.click("#show-menu");
            for (let i = 0; i < 20 && await page.run(() => document.activeElement.id) !== "size"; i++)
                await page.browser.press("Tab");
            for (const key of keys)
                await page.browser.press(key);
            await page.leave();
            await page.open(SCREEN);
            const columns = await toldColumns(page);
            const upper = await upperOf(page);
            found.push([columns, upper.size]);
            holds(columns >= 20, `${columns} columns are told`);
            wantReverse(upper, 0, statusOf(0, columns), columns, `text of size ${found.length}`);
            wantFits({ ...upper, over: width < 300 ? 0 : upper.over }, `text of size ${found.length}`);
        }
        const [[columns, size], [fewer, larger]] = found;
        holds(fewer < columns && fewer >= 20 && larger > 1.3 * size,
            `${columns} columns of ${size}, and ${fewer} of ${larger}`);
    });
    return found.map(([columns, size]) => `${columns} columns of ${Math.round(size * 10) / 10} pixels`).join(", ");
}

/** In a page that becomes narrower or wider the window stays whole, as far as letters can be smaller. */
async function turned(page) {
    await inWindow(page, PHONE, async () => {
        const columns = await opened(page);
        for (const size of [[640, 360], [360, 640]]) {
            await page.browser.size(...size);
            await page.until((isWide) => innerWidth > 600 === isWide, size[0] > 600);
            await pause(100);
            const upper = await upperOf(page);
            wantReverse(upper, 0, statusOf(0, columns), columns, `a page that was turned to ${size[0]} pixels`);
            wantFits(upper, `a page that was turned to ${size[0]} pixels`);
        }
    });
}

/** A quotation in a box, and the status line beside it, are whole in a narrow page too. */
async function narrowBox(page) {
    await inWindow(page, PHONE, async () => {
        await page.fresh();
        await page.open(join(EXAMPLES, "box.z5"));
        const upper = await upperOf(page);
        const text = upper.rows[0].map((run) => run.text).join("");
        const { columns } = await sharedFile(page);
        same(text, rowOf("The gate", columns - 11) + "Turns: 0", "the status line");
        wantFits(upper, "the status line");
        const box = await page.run(() => [...document.querySelectorAll(".box")].map((it) => it.textContent).join("|"));
        same(box, "Through me the way into the city of woe,\nthrough me the way into eternal pain\n\n"
            + "                 -- Dante, Inferno", "the box");
    });
}

export const SCREENS = [
    ["a status line of the page's width", statusLine],
    ["a menu in reverse, by the cursor keys", menu],
    ["all styles and a font", lower],
    ["what is erased", erased],
    ["bleeps", bleeps],
    ["what is spoken of a screen with styles", spoken],
    ["a snapshot of another width", otherPage],
    ["a shared play of another width", sharedPlay],
    ["a story that does not look for the width", usualWidth],
    ["lines that are wrapped to another width", wrapped],
    ["columns of larger text", largeText],
    ["a phone that is turned", turned],
    ["a box in a narrow page", narrowBox],
];
