// What all parts of the page use: its elements, questions, words, and files.

/**
 * The page's element of an id.
 * @param {string} id
 */
export function at(id) {
    const element = document.getElementById(id);
    if (!element)
        throw new Error(`the page has no ${id}`);
    return element;
}

/** @param {string} id */
export function field(id) {
    return /** @type {HTMLInputElement} */ (at(id));
}

/** @param {string} id */
export function dialog(id) {
    return /** @type {HTMLDialogElement} */ (at(id));
}

/**
 * A new element with a class and a text.
 * @param {string} tag
 * @param {string} [kind]
 * @param {string} [text]
 */
export function made(tag, kind = "", text = "") {
    const element = document.createElement(tag);
    if (kind)
        element.className = kind;
    if (text)
        element.textContent = text;
    return element;
}

/**
 * A new button that does something.
 * @param {string} kind
 * @param {string} text
 * @param {() => void} does
 */
export function madeButton(kind, text, does) {
    const button = /** @type {HTMLButtonElement} */ (made("button", kind, text));
    button.type = "button";
    button.addEventListener("click", does);
    return button;
}

/**
 * What ends the question that a dialog was shown for last.
 * @type {WeakMap<HTMLDialogElement, () => void>}
 */
const ends = new WeakMap();

/**
 * Shows a dialog, and answers the value that it was closed with: "none" where it was left. Its event comes some time
 * after its end, when it may stand there again: a question takes its own value, and not the event of the one before.
 * @param {HTMLDialogElement} it
 * @returns {Promise<string>}
 */
export function closed(it) {
    ends.get(it)?.();
    it.returnValue = "none";
    it.showModal();
    return new Promise((resolve) => {
        const end = () => {
            if (it.open)
                return;
            it.removeEventListener("close", end);
            resolve(it.returnValue || "none");
        };
        ends.set(it, end);
        it.addEventListener("close", end);
    });
}

/**
 * Asks a question that is answered by yes or no.
 * @param {string} head
 * @param {string} words
 * @param {string} [yes]
 * @param {string} [no]
 */
export async function agreed(head, words, yes = "Yes", no = "No") {
    at("asking-head").textContent = head;
    at("asking-words").textContent = words;
    at("asking-yes").textContent = yes;
    at("asking-no").textContent = no;
    return await closed(dialog("asking")) === "yes";
}

/** Closes all windows; a question is answered by no. */
export function closeWindows() {
    for (const it of /** @type {NodeListOf<HTMLDialogElement>} */ (document.querySelectorAll("dialog[open]")))
        it.close();
}

/**
 * Says something short in the page's line for it.
 * @param {string} words
 * @param {boolean} [isAlarm]
 */
export function tell(words, isAlarm = false) {
    at("told").textContent = words;
    at("told").classList.toggle("alarm", isAlarm);
}

/**
 * Says something to a screen reader alone, of what is seen elsewhere.
 * @param {string[]} words
 */
export function speak(words) {
    at("spoken").textContent = words.join(" ");
}

/**
 * Gives the reader a file.
 * @param {BlobPart} content
 * @param {string} name
 */
export function giveFile(content, name) {
    const link = document.createElement("a");
    link.href = URL.createObjectURL(new Blob([content], { type: "application/octet-stream" }));
    link.download = name;
    link.click();
    setTimeout(() => URL.revokeObjectURL(link.href), 10000);
}

/**
 * The file that was chosen in a field for files, which is emptied, so that the same one can be chosen again.
 * @param {HTMLInputElement} input
 */
export function chosenFile(input) {
    const file = input.files ? input.files[0] : null;
    return file || null;
}

/** @param {Blob} file */
export async function bytesOf(file) {
    return new Uint8Array(await file.arrayBuffer());
}

/**
 * A file's name without what is after its last dot.
 * @param {string} name
 */
export function stem(name) {
    return name.replace(/\.[^.]*$/, "") || "story";
}

/** Lets the buttons of windows close them by a click: a frame may allow no forms. */
export function prepareWindows() {
    for (const form of /** @type {NodeListOf<HTMLFormElement>} */ (document.querySelectorAll("form[method=dialog]")))
        form.addEventListener("click", (event) => {
            const button = /** @type {HTMLElement} */ (event.target).closest("button");
            if (!button || button.type !== "submit")
                return;
            event.preventDefault();
            if (form.reportValidity())
                /** @type {HTMLDialogElement} */ (form.closest("dialog")).close(button.value);
        });
}
