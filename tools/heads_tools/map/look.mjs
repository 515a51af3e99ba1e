// What a map shows of its scene: which layer, step and quantity, in which colours, with which contours.
import { scale_for, zone_colour, DARK, LIGHT } from "./colours.mjs";
import { contours } from "./contours.mjs";
import { round_numbers, with_unit } from "./numbers.mjs";
import { BELOW, SIDES, ZONES } from "./scene.mjs";

const LEVELS = 10, FEW = 4, SHADES = 1024;

/** The quantities that a scene has, as values of a choice with their names. */
export function choices_of(scene) {
    const words = { head: ["lower", "upper", "upper less lower"], fall: ["least", "greatest", "greatest less least"] };
    const found = scene.fields.flatMap(({ name, kind }, field) =>
        SIDES.map((side, n) => [`${field} ${side}`, `${(words[kind] ?? words.fall)[n]} ${n < 2 || scene.fields.length > 1 ? name : ""}`.trim()]));
    if (scene.tops) found.push([BELOW, "heads below the cell's top"]);
    if (scene.zones) found.push([ZONES, "zones"]);
    return found;
}

export class Look {
    /** shows: a value of choices_of; is_alone: the colours are those of this layer and step alone. */
    constructor(scene, layer, step, shows, is_alone) {
        Object.assign(this, { scene, layer, step, shows, is_alone });
        const [field, side] = shows.split(" ");
        this.has_numbers = side !== undefined;
        Object.assign(this, { field: this.has_numbers ? Number(field) : 0, side: side ?? "low" });
        this.range = is_alone ? scene.range_here(this.field, this.side, layer, step) : scene.range(this.field, this.side);
        this.scale = scale_for(scene.fields[this.field].kind, this.side, this.range);
    }

    value(place) {
        return this.scene.value(this.field, this.side, this.step, place);
    }

    /** The colour of a cell with flow. */
    colour(place, palette) {
        if (this.shows === BELOW) return palette.below[this.scene.below(this.step, place)];
        if (this.shows === ZONES) return zone_colour(this.scene.zones[place], palette);
        return this.scale.colour(this.value(place));
    }

    /** A colour of 32 bits for each cell of the layer's grid. */
    colours(palette) {
        const { rows, columns, places } = this.scene, first = this.layer * rows * columns;
        const bits = ([red, green, blue]) => ((255 << 24) | (blue << 16) | (green << 8) | red) >>> 0;
        const table = Uint32Array.from({ length: SHADES }, (_, n) => bits(this.scale.at(n / (SHADES - 1))));
        const none = bits(palette.none), found = new Uint32Array(rows * columns).fill(none);
        for (let n = 0; n < found.length; n++) {
            const place = places[first + n];
            if (place < 0) continue;
            found[n] = this.has_numbers ? table[this.#shade(place)] : bits(this.colour(place, palette));
        }
        return found;
    }

    #shade(place) {
        return Math.round(Math.min(Math.max(this.scale.part(this.value(place)), 0), 1) * (SHADES - 1));
    }

    /**
     * The contours of the layer, at the round numbers of the scale, or of the layer's range where few of those fall into it;
     * nothing where they are too ragged to be drawn.
     */
    contours() {
        const { rows, columns, places, x, y } = this.scene, first = this.layer * rows * columns;
        if (!this.has_numbers || rows < 2 || columns < 2) return [];
        const values = new Float64Array(rows * columns).fill(NaN);
        for (let n = 0; n < values.length; n++) if (places[first + n] >= 0) values[n] = this.value(places[first + n]);
        const middles = (edges) => Array.from(edges).slice(1).map((edge, n) => (edge + edges[n]) / 2);
        return contours({ values, rows, columns, x: middles(x), y: middles(y) }, this.#levels(values));
    }

    #levels(values) {
        let least = Infinity, most = -Infinity;
        for (const value of values) {
            if (Number.isNaN(value)) continue;
            least = Math.min(least, value);
            most = Math.max(most, value);
        }
        const within = (numbers) => numbers.filter((level) => level > least && level < most);
        if (!(most - least > 1e-9 * Math.max(Math.abs(most), 1e-3))) return [];
        const whole = within(this.scale.levels ?? round_numbers(...this.scale.ends, LEVELS));
        return whole.length < FEW ? within(round_numbers(least, most, LEVELS - 2)) : whole;
    }

    /** Layer, step, and what the colours are of. */
    get title() {
        return `Layer ${this.layer + 1}, ${step_name(this.scene, this.step)}: ${this.about}`;
    }

    /** What the colours are of. */
    get about() {
        const name = choices_of(this.scene).find(([value]) => value === this.shows)[1];
        return `${name}, ${this.scene.unit}; ${this.is_alone ? "this layer and step" : "all layers and steps"}; grey: no flow`;
    }
}

/** The step's name: period, step, and the time at its end. */
export function step_name(scene, step) {
    const [period, number, end] = scene.steps[step];
    return `period ${period} step ${number}${scene.time ? `, ${with_unit(+end.toPrecision(6), scene.time)}` : ""}`;
}

export function palette_of(is_paper) {
    return !is_paper && matchMedia("(prefers-color-scheme: dark)").matches ? DARK : LIGHT;
}
