// What a map is of: a grid, its steps, and quantities with a lower and an upper number for each cell and step.
import { value_of } from "./numbers.mjs";

export const BELOW = "below";
export const ZONES = "zones";
export const SIDES = ["low", "high", "width"];

/**
 * Layers, rows, columns and cells are counted from 0; a cell's place is its number among the cells with flow. `data` has
 *
 *     shape     layers, rows, columns
 *     x, y      the edges of columns from the west and of rows from the north, in `unit`; `is_true`: they are the model's
 *     unit      of heads and lengths; `time`: of times, empty where they aren't known
 *     steps     period, step and time at the end of each
 *     cells     the numbers of the cells with flow, ascending
 *     fields    quantities: `name`, `kind` (head, fall or change), and `low` and `high`, BigInt64Array of 10^-9, steps by
 *               cells; or `less`, the numbers of two fields of which it is the difference with bounds
 *     tops, bottoms   of each cell with flow, in 10^-9, or null; a top is rounded up
 *     zones     of each cell with flow, or null
 *     is_certified   whether the pairs of heads are certified
 *     marks     entries by kind: `kind`, `name`, and their `cells`, which are numbers in the grid
 */
export class Scene {
    constructor(data) {
        Object.assign(this, data);
        [this.layers, this.rows, this.columns] = data.shape;
        this.count = data.cells.length;
        this.last = data.steps.length - 1;
        this.places = new Int32Array(this.layers * this.rows * this.columns).fill(-1);
        data.cells.forEach((cell, place) => (this.places[cell] = place));
        this.filled = [...new Set(Array.from(data.cells, (cell) => this.layer_of(cell)))].sort((a, b) => a - b);
        this.found = new Map();
    }

    layer_of(cell) {
        return Math.floor(cell / (this.rows * this.columns));
    }

    /** The place of a cell, -1 where it has no flow or there is none. */
    place(layer, row, column) {
        const is_within = row >= 0 && row < this.rows && column >= 0 && column < this.columns && layer >= 0;
        return is_within ? this.places[(layer * this.rows + row) * this.columns + column] ?? -1 : -1;
    }

    /** Layer, row and column of a place. */
    cell(place) {
        const cell = this.cells[place], rest = cell % (this.rows * this.columns);
        return [this.layer_of(cell), Math.floor(rest / this.columns), rest % this.columns];
    }

    name(place) {
        const [layer, row, column] = this.cell(place).map((number) => number + 1);
        return `layer ${layer} row ${row} column ${column}`;
    }

    low(field, step, place) {
        const { low, less } = this.fields[field], at = step * this.count + place;
        return less ? this.low(less[0], step, place) - this.high(less[1], step, place) : low[at];
    }

    high(field, step, place) {
        const { high, less } = this.fields[field], at = step * this.count + place;
        return less ? this.high(less[0], step, place) - this.low(less[1], step, place) : high[at];
    }

    width(field, step, place) {
        return this.high(field, step, place) - this.low(field, step, place);
    }

    /** Lower number (`low`), upper number (`high`) or their difference (`width`) as a double. */
    value(field, side, step, place) {
        return value_of(this[side](field, step, place));
    }

    /** Of the field 0, which is the heads: 1 where the upper head lies below the cell's top, 2 where the lower one alone does, else 0. */
    below(step, place) {
        if (!this.tops || this.low(0, step, place) >= this.tops[place]) return 0;
        return this.high(0, step, place) < this.tops[place] ? 1 : 2;
    }

    /** The places of a layer's cells: they follow one another. */
    places_of(layer) {
        const first = this.cells.findIndex((cell) => this.layer_of(cell) === layer);
        if (first < 0) return [0, 0];
        let end = first;
        while (end < this.count && this.layer_of(this.cells[end]) === layer) end++;
        return [first, end];
    }

    /** The least and the greatest value of all layers and steps, and the least that is above 0. */
    range(field, side) {
        const key = `${field} ${side}`;
        if (!this.found.has(key)) this.found.set(key, this.#range_of(field, side, 0, this.steps.length, 0, this.count));
        return this.found.get(key);
    }

    /** The same of one layer and step. */
    range_here(field, side, layer, step) {
        return this.#range_of(field, side, step, step + 1, ...this.places_of(layer));
    }

    #range_of(field, side, step, last_step, first, end) {
        let least = null, most = null, above = null;
        const value_at = this.#reader(field, side);
        for (let at = step; at < last_step; at++) {
            for (let place = first; place < end; place++) {
                const value = value_at(at, place);
                if (least === null || value < least) least = value;
                if (most === null || value > most) most = value;
                if (value > 0n && (above === null || value < above)) above = value;
            }
        }
        return least === null ? [0, 1, 0] : [least, most, above ?? 0n].map(value_of);
    }

    /** Reads a side of a field by step and place. */
    #reader(field, side) {
        const { low, high, less } = this.fields[field], { count } = this;
        if (less) return (step, place) => this[side](field, step, place);
        if (side === "width") return (step, place) => high[step * count + place] - low[step * count + place];
        const values = side === "low" ? low : high;
        return (step, place) => values[step * count + place];
    }
}
