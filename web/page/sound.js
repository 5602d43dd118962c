// The bleeps of a story: short tones, where the browser lets the page sound any.

const HIGH = 880;
const LOW = 440;
const SECONDS = .12;

/** @type {AudioContext | null} */
let context = null;

/** @param {import("../zkit.js").Before} bleep */
export function sound(bleep) {
    if (!window.AudioContext)
        return;
    context = context || new AudioContext();
    const tone = context.createOscillator();
    const gain = context.createGain();
    tone.frequency.value = bleep === "high bleep" ? HIGH : LOW;
    gain.gain.value = .1;
    tone.connect(gain).connect(context.destination);
    tone.start();
    tone.stop(context.currentTime + SECONDS);
}
