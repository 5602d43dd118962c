// Small stories that a test makes: of version 5, with their code at 00800 and the buffer of a line at 00200.

const CODE = 0x800;
const LINE = 0x200;
const READ = [0xe4, 0x1f, LINE >> 8, LINE & 0xff, 0, 0x10];
const READ_CHARACTER = [0xf6, 0x7f, 0x01, 0x10];
const NEW_LINE = 13;

/** print_char for each character of a text. */
function printed(text) {
    return [...text].flatMap((letter) => [0xe5, 0x7f, letter === "\n" ? NEW_LINE : letter.charCodeAt(0)]);
}

/** A word of 16 bits, as two bytes. */
function word(value) {
    return [value >> 8 & 0xff, value & 0xff];
}

/** A jump back over so many bytes before it. */
function jumpBack(count) {
    return [0x8c, ...word(-count - 1)];
}

/** set_text_style of a number. */
const style = (number) => [0xf1, 0x7f, number];

/** set_cursor to a row and a column. */
const cursor = (row, column) => [0xef, 0x5f, row, column];

/** print_num of a variable, and a space. */
const told = (variable) => [0xe6, 0xbf, variable, ...printed(" ")];

function storyOf(code) {
    const story = Buffer.alloc(CODE + code.length);
    story[0] = 5;
    story.set([0x08, 0, 0x08, 0], 4);
    story.set([0x01, 0, 0x04, 0, 0x08, 0], 0x0a);
    story[0x19] = 0x40;
    story.write("261129", 0x12, "latin1");
    story[LINE] = 80;
    story.set(code, CODE);
    return story;
}

/** A story that prints a text, and then reads lines. */
export function telling(text) {
    return storyOf([...printed(text), ...READ, ...jumpBack(READ.length)]);
}

/** A story that prints a text so many times before each line that it reads. */
export function repeating(text, count) {
    const print = printed(text);
    // inc_chk global 1, count ?~ back to the text
    const back = [0xc5, 0x4f, 0x11, ...word(count - 1), ...word(-(print.length + 5) & 0x3fff)];
    const all = [0x0d, 0x11, 0, ...print, ...back, ...READ];
    return storyOf([...all, ...jumpBack(all.length)]);
}

/**
 * A story that shows text in bold and in roman, erases the screen, sounds a low bleep, shows an italic letter, sounds a
 * high bleep, erases the lower window, reads a character and shows text with a fixed pitch.
 */
export function styled() {
    const bleep = (number) => [0xf5, 0x7f, number];
    const hi = [0xb2, 0xb5, 0xc5];
    return storyOf([...style(2), ...hi, ...style(0), ...hi, 0xed, 0x3f, 0xff, 0xff, ...bleep(2), ...style(4),
        0xbe, 0x0b, 0x7f, 0xe4, ...bleep(1), 0xed, 0x7f, 0x00, 0xf6, 0x7f, 0x01, 0x10, 0xe2, 0x57, 0x00, 0x11, 0x02,
        ...hi, 0xba]);
}

/**
 * A story that shows the width of the screen by the bytes 21 and 22 of its header, in characters and in units, writes
 * 260 characters of a number in the first row of its upper window, and reads a character.
 */
export function tellingWidth(character) {
    const print = [0xbe, 0x0b, 0x3f, ...word(character)];
    // loadb 0 33 -> global 0; loadw 0 17 -> global 0
    const bytes = [0x10, 0x00, 0x21, 0x10, ...told(0x10), 0x0f, 0x00, 0x11, 0x10, ...told(0x10)];
    // split_window 1; set_window 1; store global 1, 0; the character; inc_chk global 1, 259 ?~ back to it
    const row = [0xea, 0x7f, 0x01, 0xeb, 0x7f, 0x01, 0x0d, 0x11, 0x00, ...print,
        0xc5, 0x4f, 0x11, ...word(259), ...word(-(print.length + 5) & 0x3fff)];
    return storyOf([...bytes, ...row, ...READ_CHARACTER, 0xba]);
}

/** A story that has some code, such as one that looks for the width, and then prints a text and reads lines. */
export function looking(code, text) {
    return storyOf([...code, ...printed(text), ...READ, ...jumpBack(READ.length)]);
}

/**
 * A story that shows Flags 1 and what set_font answers to 4, 0, 3, 1 and 0, with a letter in the first font and in the
 * last one, and reads a character.
 */
export function tellingStyles() {
    const font = (number) => [0xbe, 0x04, 0x7f, number, 0x10, ...told(0x10)];
    // loadb 0 1 -> global 0
    return storyOf([0x10, 0x00, 0x01, 0x10, ...told(0x10), ...font(4), ...printed("a"), ...font(0), ...font(3),
        ...font(1),
        ...printed("b"), ...font(0), ...READ_CHARACTER, 0xba]);
}

/**
 * A story with three rows in its upper window: in the first one letters of several styles after each other, with spaces
 * in reverse and in roman; in the second one nothing but spaces; in the third one nothing but spaces in reverse. It
 * reads a character, takes the rows away, and reads another one.
 */
export function stylingCells() {
    const first = [...cursor(1, 1), ...style(1), ...printed("ab  "), ...style(0), ...cursor(1, 8), ...style(2),
        ...printed("c"),
        ...style(4), 0xbe, 0x0b, 0x3f, ...word(0x20ac), ...style(0), ...style(8), ...printed("e"), ...style(0),
        ...printed("f")];
    const others = [...cursor(2, 1), ...printed("    "), ...cursor(3, 2), ...style(1), ...printed("   "), ...style(0)];
    return storyOf([0xea, 0x7f, 0x03, 0xeb, 0x7f, 0x01, ...first, ...others, 0xeb, 0x7f, 0x00, ...READ_CHARACTER,
        0xea, 0x7f, 0x00, ...READ_CHARACTER, 0xba]);
}

/**
 * A story that reads a character and then a line, and shows the code of the one, and of what ended the other. Its table
 * of terminating characters has the key "cursor down".
 */
export function readingKeys() {
    const number = (variable) => [0xe6, 0xbf, variable];
    const story = storyOf([0xf6, 0x7f, 0x01, 0x10, ...number(0x10), ...printed(" "), ...READ, ...number(0x10), 0xba]);
    story.set(word(0x180), 0x2e);
    story[0x180] = 130;
    return story;
}

/** A story that reads characters, and shows the code of each on a line. */
export function echoingKeys() {
    return storyOf([0xf6, 0x7f, 0x01, 0x10, 0xe6, 0xbf, 0x10, 0xbb, ...jumpBack(8)]);
}

/** A story with a row in its upper window that saves, restores, and reads a character. */
export function restoringWindow() {
    // split_window 1; save -> global 16; je global 16, 2 ?read; restore -> global 17; read: read_char 1 -> global 18;
    // quit
    return storyOf([0xea, 0x7f, 0x01, 0xbe, 0x00, 0xff, 0x10, 0x41, 0x10, 0x02, 0xc6, 0xbe, 0x01, 0xff, 0x11,
        0xf6, 0x7f, 0x01, 0x12, 0xba]);
}

/** A story that prints a line in bold and a text in roman, and then reads lines. */
export function titled(title, text) {
    return storyOf([...style(2), ...printed(title), ...style(0), ...printed(`\n${text}`), ...READ,
        ...jumpBack(READ.length)]);
}

/** A story that reads a line, and then saves again and again, whatever is answered. */
export function asking() {
    return storyOf([...printed(">"), ...READ, 0xbe, 0x00, 0xff, 0x10, ...jumpBack(4)]);
}

/** A story that restores so many times, whatever is answered, and then prints a text and reads lines. */
export function restoring(count, text) {
    const restores = Array.from({ length: count }, () => [0xbe, 0x01, 0xff, 0x10]).flat();
    return storyOf([...restores, ...printed(text), ...READ, ...jumpBack(READ.length)]);
}

/**
 * A story that prints a text, runs twelve million instructions and prints another one before each line that it reads:
 * 30,000 for each round.
 */
export function counting(text, before = "", rounds = 400) {
    // store global 1, 0; store global 0, 0; inc_chk global 0, 30000 ?~ again; inc_chk global 1, the rounds less one ?~
    // back to the second one
    const count = [0x0d, 0x11, 0, 0x0d, 0x10, 0, 0xc5, 0x4f, 0x10, 0x75, 0x30, 0x3f, 0xfb, 0xc5, 0x4f, 0x11,
        ...word(rounds - 1), 0x3f, 0xf1];
    // storeb LINE, 1, 0: what was typed before is not kept as the beginning of the next line (section 15, read)
    const empties = [0xe2, 0x17, ...word(LINE), 1, 0];
    const all = [...printed(before), ...count, ...printed(text), ...empties, ...READ];
    return storyOf([...all, ...jumpBack(all.length)]);
}

/** A story of version 3 whose place is "ab", with two figures of its status line. */
export function tellingStatus(flags, first, second) {
    const code = [...printed("A room.\n>"), 0xe4, 0x0f, LINE >> 8, LINE & 0xff, 0x03, 0x00];
    const story = storyOf([...code, ...jumpBack(6)]);
    story.set([3, flags]);
    story[0x300] = 5;
    story.set([0x01, 0x80], 0x13e + 7);
    story.set([0x01, 0x98, 0xe5], 0x180);
    story.set([...word(1), ...word(first), ...word(second)], 0x400);
    return story;
}
