// What the browser keeps, in IndexedDB. Where it keeps nothing (a private window, or as the reader set it), all is kept
// as long as the page is open, and `isLasting` says so.

/** @typedef {"stories" | "plays" | "saves"} Shelf */

/** @type {Shelf[]} */
const SHELVES = ["stories", "plays", "saves"];

/** @type {Record<Shelf, Map<string, any>>} */
const memory = { stories: new Map(), plays: new Map(), saves: new Map() };

/** @type {Promise<IDBDatabase | null> | null} */
let opening = null;

/** @returns {Promise<IDBDatabase | null>} */
function opened() {
    opening = opening || new Promise((resolve) => {
        try {
            const request = indexedDB.open("zkit", 1);
            request.onupgradeneeded = () => SHELVES.forEach((shelf) => request.result.createObjectStore(shelf));
            request.onsuccess = () => resolve(request.result);
            request.onerror = request.onblocked = () => resolve(null);
        } catch {
            resolve(null);
        }
    });
    return opening;
}

/** Whether what is kept is there tomorrow. */
export async function isLasting() {
    return await opened() !== null;
}

/**
 * One request of a shelf, and its answer.
 * @param {Shelf} shelf
 * @param {IDBTransactionMode} mode
 * @param {(store: IDBObjectStore) => IDBRequest} use
 * @returns {Promise<any>}
 */
async function asked(shelf, mode, use) {
    const database = await opened();
    if (!database)
        return null;
    return new Promise((resolve, reject) => {
        const transaction = database.transaction(shelf, mode);
        const request = use(transaction.objectStore(shelf));
        transaction.oncomplete = () => resolve(request.result);
        transaction.onerror = transaction.onabort = () => reject(transaction.error || request.error);
    });
}

/**
 * Keeps a value below a name, and tells whether it could.
 * @param {Shelf} shelf
 * @param {string} name
 * @param {any} value
 */
export async function keep(shelf, name, value) {
    try {
        const isKept = await asked(shelf, "readwrite", (store) => store.put(value, name)) !== null;
        memory[shelf].delete(name);
        if (!isKept)
            memory[shelf].set(name, value);
        return true;
    } catch {
        return false;
    }
}

/**
 * @param {Shelf} shelf
 * @param {string} name
 */
export async function kept(shelf, name) {
    const found = await asked(shelf, "readonly", (store) => store.get(name)).catch(() => null);
    return found ?? memory[shelf].get(name) ?? null;
}

/**
 * @param {Shelf} shelf
 * @param {string} name
 */
export async function forget(shelf, name) {
    memory[shelf].delete(name);
    await asked(shelf, "readwrite", (store) => store.delete(name)).catch(() => null);
}

/**
 * The names of a shelf that begin with some text, in their order.
 * @param {Shelf} shelf
 * @param {string} [front]
 * @returns {Promise<string[]>}
 */
export async function names(shelf, front = "") {
    const found = await asked(shelf, "readonly", (store) => store.getAllKeys()).catch(() => null) ?? [];
    const all = new Set([...found.map(String), ...memory[shelf].keys()]);
    return [...all].filter((name) => name.startsWith(front)).sort();
}
