// The scale of colours below a map, and its kinds.
import { kinds_of, number_text } from "./colours.mjs";
import { write } from "./chart.mjs";

const BAR = 12, SIDE = 28;

/** A bar of a scale's colours with its numbers, and what it is of, in a box of the canvas. */
export function draw_scale(context, [left, top, width], scale, about, palette) {
    const from = left + SIDE, room = width - 2 * SIDE;
    for (let n = 0; n < room; n++) {
        context.fillStyle = `rgb(${scale.at(n / (room - 1))})`;
        context.fillRect(from + n, top, 1.5, BAR);
    }
    let free = -Infinity;
    for (const value of [scale.ends[0], ...scale.numbers, scale.ends[1]]) {
        const x = from + Math.min(1, Math.max(0, scale.part(value))) * room, text = number_text(value);
        context.font = "12px system-ui, sans-serif";
        const half = context.measureText(text).width / 2 + 5;
        const is_end = value === scale.ends[1];
        if (x - half < free || (!is_end && x + 2 * half > from + room && value !== scale.ends[0])) continue;
        free = x + half;
        context.fillStyle = palette.soft;
        context.fillRect(x - 0.5, top + BAR, 1, 4);
        write(context, text, x, top + BAR + 12, palette, { align: "center", font: "12px system-ui, sans-serif", colour: palette.soft });
    }
    write(context, about, from, top + BAR + 30, palette, { font: "12px system-ui, sans-serif", colour: palette.soft });
}

/** Kinds of cells with their colours, in lines of a width. Returns the height. */
export function draw_kinds(context, [left, top, width], kinds, palette) {
    let [x, y] = [left, top + 8];
    context.font = "13px system-ui, sans-serif";
    for (const [name, colour, count] of kinds) {
        const text = count === undefined ? name : `${name}: ${count}`, needs = context.measureText(text).width + 34;
        if (x + needs > left + width && x > left) [x, y] = [left, y + 20];
        context.fillStyle = `rgb(${colour})`;
        context.fillRect(x, y - 6, 12, 12);
        context.strokeStyle = palette.soft;
        context.lineWidth = 0.5;
        context.strokeRect(x, y - 6, 12, 12);
        write(context, text, x + 18, y, palette);
        x += needs;
    }
    return y + 12 - top;
}

/** The kinds of a layer with how many cells each has. */
export function kinds_here(scene, shows, layer, step, palette) {
    const [first, end] = scene.places_of(layer), counts = new Map();
    const kind_of = shows === "below" ? (place) => scene.below(step, place) : (place) => scene.zones[place];
    for (let place = first; place < end; place++) counts.set(kind_of(place), (counts.get(kind_of(place)) ?? 0) + 1);
    const numbers = shows === "below" ? [0, 1, 2] : [...new Set(scene.zones)].filter((zone) => zone > 0).sort((a, b) => a - b);
    return kinds_of(shows, scene, palette).map(([name, colour], n) => [name, colour, counts.get(numbers[n]) ?? 0]);
}
