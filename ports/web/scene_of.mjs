// What the map shows of a listing: its pairs, and the grid, elevations, times and entries of its deck, where that is known.
import { Scene } from "../../tools/heads_tools/map/scene.mjs";
import { deck_of, units_of } from "./deck.mjs";
import { pairs_of, unit_of } from "./listing.mjs";
import { zones_of } from "./zones.mjs";

const LENGTHS = ["length units", "ft", "m", "cm"];
const TIMES = ["time units", "s", "min", "h", "d", "a"];

/** The grid of a listing whose deck isn't known: squares of one size. */
function squares(cells) {
    const shape = [0, 1, 2].map((part) => cells.reduce((most, cell) => Math.max(most, cell[part]), 1));
    const edges = (count) => Array.from({ length: count + 1 }, (_, n) => n);
    return { shape, x: edges(shape[2]), y: edges(shape[1]), tops: null, bottoms: null, times: new Map(), marks: [] };
}

/** Elevations of layers as those of cells, in 10^-9; each word is taken apart once. */
function of_cells(layers, cells, columns) {
    const found = new Map();
    const units = (word) => {
        if (!found.has(word)) found.set(word, units_of(word));
        return found.get(word);
    };
    return layers && BigInt64Array.from(cells, ([layer, row, column]) => units(layers[layer - 1][(row - 1) * columns + column - 1]));
}

/**
 * The scene of a listing that a run here wrote whole, or that a check here certified, with the count of all its steps;
 * nothing where it has no step or no cell. `deck`: what `heads write` wrote of its deck, or nothing; `time`: ITMUNI;
 * `title`, `verdict` and `source`: for a picture of the map. `zones`: the bytes of the zone file that the program read, and
 * `open` what finds a file that it names; they need the deck.
 */
export function scene_of_listing(listing, deck, { time = 0, title, verdict, source, zones, open }) {
    const pairs = pairs_of(listing);
    if (!pairs) return undefined;
    const grid = deck ? deck_of(deck) : squares(pairs.cells), [, rows, columns] = grid.shape;
    const steps = pairs.steps.map(({ period, step }, n) => [period, step, grid.times.get(`${period} ${step}`) ?? n + 1]);
    const cells = Int32Array.from(pairs.cells, ([layer, row, column]) => ((layer - 1) * rows + row - 1) * columns + column - 1);
    const of_grid = zones && deck ? zones_of(zones, grid.shape, open) : undefined;
    return new Scene({
        title, verdict, source, steps, is_certified: true, all_steps: pairs.count,
        shape: grid.shape, x: grid.x, y: grid.y, is_true: Boolean(deck), marks: grid.marks,
        unit: LENGTHS[unit_of(listing)] ?? LENGTHS[0],
        time: deck ? TIMES[time] ?? TIMES[0] : "",
        cells,
        fields: [{ name: "head", kind: "head", low: pairs.low, high: pairs.high }],
        tops: of_cells(grid.tops, pairs.cells, columns),
        bottoms: of_cells(grid.bottoms, pairs.cells, columns),
        zones: of_grid ? cells.map((cell) => of_grid[cell]) : null,
    });
}
