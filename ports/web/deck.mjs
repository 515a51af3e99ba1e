// A deck in the one spelling of `heads write`: its grid, its elevations, the times of its steps, and its entries.

const NEWLINE = 10, PLACES = 9;
const LISTS = { "p.wel": ["WEL", "well"], "p.riv": ["RIV", "river"], "p.drn": ["DRN", "drain"], "p.ghb": ["GHB", "general head"], "p.chd": ["CHD", "given head"] };
const latin = new TextDecoder("latin1");

/** The lines of the files of a deck. */
class Lines {
    constructor(bytes) {
        this.bytes = bytes;
        this.at = 0;
    }

    next() {
        const end = this.bytes.indexOf(NEWLINE, this.at), line = latin.decode(this.bytes.subarray(this.at, end));
        this.at = end + 1;
        return line;
    }

    words() {
        return this.next().split(" ");
    }

    /** Goes on to the next line `FILE name`; the name, or nothing at the end. */
    file() {
        while (this.at < this.bytes.length) {
            const line = this.next();
            if (line.startsWith("FILE ")) return line.slice(5);
        }
        return undefined;
    }

    /** An array of so many rows, as words. */
    array(rows) {
        this.next();
        return Array.from({ length: rows }, () => this.words()).flat();
    }
}

/** A number of this spelling, digits and an exponent, as the least whole number of 10^-9 that isn't below it. */
export function units_of(word) {
    const [digits, exponent] = word.split("E"), power = Number(exponent) + PLACES, value = BigInt(digits);
    if (power >= 0) return value * 10n ** BigInt(power);
    const by = 10n ** BigInt(-power), quotient = value / by;
    return value > 0n && value % by !== 0n ? quotient + 1n : quotient;
}

function edges_of(words) {
    const edges = [0];
    for (const word of words) edges.push(edges.at(-1) + Number(word));
    return edges;
}

/** The time at the end of each step, by its period and number. */
function times_of(periods) {
    const times = new Map();
    let begin = 0;
    periods.forEach(([length, count, factor], period) => {
        const grown = (steps) => (factor === 1 ? steps : (factor ** steps - 1) / (factor - 1));
        for (let step = 1; step <= count; step++) {
            const end = step === count ? length : (length * grown(step)) / grown(count);
            times.set(`${period + 1} ${step}`, begin + end);
        }
        begin += length;
    });
    return times;
}

function grid_of(lines) {
    const [layers, rows, columns, count] = lines.words().map(Number), beds = lines.words().map(Number);
    const x = edges_of(lines.array(1)), y = edges_of(lines.array(1)), tops = [lines.array(rows)], bottoms = [];
    for (let layer = 0; layer < layers; layer++) {
        bottoms.push(lines.array(rows));
        tops.push(beds[layer] ? lines.array(rows) : bottoms[layer]);
    }
    const periods = Array.from({ length: count }, () => lines.words().slice(0, 3).map(Number));
    return { shape: [layers, rows, columns], x, y, tops: tops.slice(0, layers), bottoms, times: times_of(periods), periods: count };
}

/** The cells of the constant heads. */
function constant_heads(lines, [layers, rows, columns]) {
    lines.next();
    const cells = [];
    for (let layer = 0; layer < layers; layer++) {
        lines.array(rows).forEach((word, n) => word.startsWith("-") && cells.push(layer * rows * columns + n));
    }
    return cells;
}

/** The cells of a list in the last period that has entries. */
function entries_of(lines, { shape: [, rows, columns], periods }) {
    let found = [];
    lines.next();
    for (let period = 0; period < periods; period++) {
        const [count] = lines.words().map(Number), cells = Array.from({ length: count }, () => lines.words().slice(0, 3).map(Number));
        if (count) found = cells;
    }
    return found.map(([layer, row, column]) => ((layer - 1) * rows + row - 1) * columns + column - 1);
}

/** What a map takes of a deck: shape, x, y, tops and bottoms by layers, times, marks. */
export function deck_of(bytes) {
    const lines = new Lines(bytes), marks = new Map();
    let grid;
    for (let name = lines.file(); name; name = lines.file()) {
        if (name === "p.dis") grid = grid_of(lines);
        if (name === "p.bas") marks.set("CHD", constant_heads(lines, grid.shape));
        if (!LISTS[name]) continue;
        const [kind] = LISTS[name];
        marks.set(kind, [...(marks.get(kind) ?? []), ...entries_of(lines, grid)]);
    }
    const named = Object.values(LISTS).map(([kind, name]) => ({ kind, name, cells: [...new Set(marks.get(kind) ?? [])] }));
    return { ...grid, marks: named.filter(({ cells }) => cells.length) };
}
