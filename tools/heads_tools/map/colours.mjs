// Colours: scales of numbers, and the colours of kinds and lines, on light and on dark ground.
import { ZONES, BELOW } from "./scene.mjs";
import { round_numbers, short } from "./numbers.mjs";

const ramp = (text) => text.split(" ").map((colour) => [0, 2, 4].map((at) => parseInt(colour.slice(at, at + 2), 16)));
const HEADS = ramp("440154 482878 3e4989 31688e 26828e 1f9e89 35b779 6ece58 b5de2b fde725");
const WIDTHS = ramp("fcfdbf feca8d fd9668 f1605d cd4071 9e2f7f 721f81 440f76 180f3d");
const CHANGES = ramp("2166ac 4393c3 92c5de d1e5f0 f7f7f7 fddbc7 f4a582 d6604d b2182b");
const ZONE = ramp("a6cee3 fdbf6f b2df8a cab2d6 fb9a99 ffff99 d1d1e0 e5d8bd 8dd3c7 fccde5");
const LOG_FROM = 100, CHANGE_PART = 100;

export const LIGHT = {
    ink: "#1b2a33", soft: "#56666f", page: "#ffffff", line: "#c3ced3", none: [226, 230, 232], ground: "#dde3e6",
    below: [[219, 231, 240], [192, 57, 43], [240, 199, 94]],
    lines: ["#0072b2", "#d55e00", "#008f68", "#b0508a", "#8a6d00", "#5b4fb5"],
};
export const DARK = {
    ink: "#e4ebee", soft: "#a3b1b8", page: "#1a2429", line: "#3b4a52", none: [52, 64, 71], ground: "#2c3a42",
    below: [[70, 92, 108], [231, 98, 82], [240, 199, 94]],
    lines: ["#56b4e9", "#f5923e", "#35c79b", "#e08cc0", "#e0c14a", "#a9a0f0"],
};
/** Marks of entries: the form and the colour of each kind. */
export const MARKS = {
    WEL: ["triangle", "#d7263d"], RIV: ["square", "#2c6fdb"], DRN: ["square", "#2a9d5c"],
    GHB: ["diamond", "#ef8a17"], CHD: ["square", "#8e44ad"],
};

function mixed(colours, part) {
    const place = Math.min(Math.max(part, 0), 1) * (colours.length - 1), at = Math.min(Math.floor(place), colours.length - 2);
    return colours[at].map((value, n) => Math.round(value + (colours[at + 1][n] - value) * (place - at)));
}

/** A scale: the part of a number on its way from the least to the greatest (`part`), its colour, and numbers to be shown. */
class Scale {
    constructor(colours, ends, part, numbers) {
        Object.assign(this, { colours, ends, part, numbers });
    }

    colour(value) {
        return mixed(this.colours, this.part(value));
    }

    at(part) {
        return mixed(this.colours, part);
    }
}

function linear(colours, least, most) {
    const span = most - least;
    const numbers = span > 0 ? round_numbers(least, most, 4) : [least];
    return new Scale(colours, [least, most], (value) => (span > 0 ? (value - least) / span : 0.5), numbers);
}

/** Powers of ten, for widths that differ a hundredfold. A width of 0 has the colour of the least. */
function logarithmic(colours, least, most) {
    const [low, high] = [Math.log10(least), Math.log10(most)];
    const numbers = round_numbers(low, high, 4).filter(Number.isInteger).map((power) => 10 ** power);
    const part = (value) => (value > 0 ? (Math.log10(value) - low) / (high - low) : 0);
    return new Scale(colours, [least, most], part, numbers);
}

/** Changes: white at 0, and towards it a scale on which 0.01 to 0.02 is as long as 1 to 2. */
function around_nought(colours, least, most) {
    const size = Math.max(-least, most) || 1, unit = size / CHANGE_PART;
    const length = (value) => Math.sign(value) * Math.log1p(Math.abs(value) / unit) / Math.log1p(CHANGE_PART);
    const numbers = [-size, -size / 10, 0, size / 10, size].map((value) => +value.toPrecision(2));
    return new Scale(colours, [-size, size], (value) => 0.5 + length(value) / 2, numbers);
}

/** The scale for a side of a field between two ends; `above` is the least number above 0. */
export function scale_for(kind, side, [least, most, above]) {
    if (side === "width") {
        return above > 0 && most > LOG_FROM * above ? logarithmic(WIDTHS, above, most) : linear(WIDTHS, Math.min(least, 0), most);
    }
    if (kind === "head") return linear(HEADS, least, most);
    return around_nought(kind === "fall" ? CHANGES : [...CHANGES].reverse(), least, most);
}

export function zone_colour(zone, palette) {
    return zone > 0 ? ZONE[(zone - 1) % ZONE.length] : palette.none;
}

/** The names and colours of what a map shows that is no number. */
export function kinds_of(shows, scene, palette) {
    if (shows === BELOW) {
        const names = ["at or above its top", "upper head below its top", "lower head alone below its top"];
        return names.map((name, n) => [name, palette.below[n]]);
    }
    if (shows !== ZONES) return [];
    const zones = [...new Set(scene.zones)].filter((zone) => zone > 0).sort((a, b) => a - b);
    return zones.slice(0, 12).map((zone) => [`zone ${zone}`, zone_colour(zone, palette)]);
}

export function number_text(value) {
    const is_small = Math.abs(value) < 1e-4 && value !== 0;
    return is_small ? value.toExponential(1).replace(".0e", "e").replace("e-", "e\u2212") : short(value, 4);
}
