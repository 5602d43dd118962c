// What a story was answered: a line, a character by its number, whether its saved game was kept, a saved game that it
// restores, the page's Undo, or that the game was opened anew by a snapshot. These make a play again. A line of a
// walkthrough is `typed`: it becomes one of these by what the story awaits.

/**
 * @typedef {string | number | {saved: boolean} | {restored: string | null} | {undo: true} | {fresh: true}
 *     | {typed: string}} Answer
 */

/**
 * Whether an answer is the reader's to a read, and so one of the lines of the play.
 * @param {Answer} answer
 */
export function isRead(answer) {
    return typeof answer !== "object" || "undo" in answer || "typed" in answer;
}

/**
 * The line of an answer; null where it is none.
 * @param {Answer} answer
 */
export function lineOf(answer) {
    if (typeof answer === "object")
        return "typed" in answer ? answer.typed : null;
    return typeof answer === "string" ? answer : null;
}

/**
 * Whether an answer answers what is awaited.
 * @param {string} awaits
 * @param {Answer} answer
 */
export function fits(awaits, answer) {
    if (typeof answer !== "object")
        return awaits === (typeof answer === "string" ? "line" : "character");
    if ("saved" in answer || "restored" in answer)
        return awaits === ("saved" in answer ? "save" : "restore");
    return awaits === "line" || awaits === "character";
}
