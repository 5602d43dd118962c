// How much of the page is seen. A keyboard on the screen takes a part from below; some browsers make the page itself
// lower then, and others say so by the visual viewport alone.

const root = document.documentElement;

/**
 * The height that the page has where less of it is seen than it has by itself; "" where all is seen, or the reader has
 * zoomed into a part of it.
 * @param {{height: number, scale: number}} view
 * @param {number} whole
 */
function heightOf({ height, scale }, whole) {
    return Math.abs(scale - 1) > 0.01 || height > whole - 1 ? "" : `${Math.floor(height)}px`;
}

/** Lets the page have the height that is seen of it. */
export function prepareView() {
    const view = window.visualViewport;
    if (!view)
        return;
    view.addEventListener("resize", () => {
        const height = heightOf(view, innerHeight);
        root.style.setProperty("--view", height);
        // (a browser that has only moved the page up shows its top again)
        if (height)
            scrollTo(0, 0);
    });
}
