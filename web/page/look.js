// How the page looks: the size of the text, and light or dark. Both are kept in the browser, if it keeps anything.

import { at } from "./at.js";

const root = document.documentElement;

/** @param {string} name */
function kept(name) {
    try {
        return localStorage.getItem(`zkit ${name}`);
    } catch {
        return null;
    }
}

/**
 * @param {string} name
 * @param {string} value
 */
function keep(name, value) {
    try {
        localStorage.setItem(`zkit ${name}`, value);
    } catch {
        // It counts as long as the page is open.
    }
}

/** @type {Record<string, (value: string) => void>} */
const USES = {
    size: (value) => {
        root.style.setProperty("--size", value);
        dispatchEvent(new Event("resize"));
    },
    theme: (value) => {
        root.dataset.theme = value;
    },
};

/** Makes the choices work, and uses those that were made before. */
export function prepareLook() {
    for (const [name, use] of Object.entries(USES)) {
        const choice = /** @type {HTMLSelectElement} */ (at(name));
        const values = [...choice.options].map((option) => option.value);
        const before = kept(name);
        choice.value = before !== null && values.includes(before) ? before : name === "size" ? "1" : "";
        use(choice.value);
        choice.addEventListener("change", () => {
            use(choice.value);
            keep(name, choice.value);
        });
    }
}
