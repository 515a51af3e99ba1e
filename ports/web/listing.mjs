// A listing as bytes: its steps, its cells, and both heads of each cell as whole numbers of 10^-9.

const NEWLINE = 10, BLANK = 32, MINUS = 45, NOUGHT = 48, HEAD = 72, STEP = 83;
const ONE = 1e9, EXACT = 9_000_000, MOST_PAIRS = 4_000_000;
const latin = new TextDecoder("latin1");

/** The text of the line that begins at this place. */
export function line_at(bytes, at) {
    const end = bytes.indexOf(NEWLINE, at);
    return latin.decode(bytes.subarray(at, end < 0 ? bytes.length : end));
}

export function last_line(bytes) {
    const end = bytes.length - (bytes[bytes.length - 1] === NEWLINE ? 1 : 0);
    return latin.decode(bytes.subarray(bytes.lastIndexOf(NEWLINE, end - 1) + 1, end));
}

/** The unit of lengths that the first line names: LENUNI. */
export function unit_of(bytes) {
    return Number(line_at(bytes, 0).split(" ")[5]);
}

/** Where each step begins, and its period and number. */
export function steps_of(bytes) {
    const steps = [];
    for (let at = 0; at >= 0 && at < bytes.length; at = bytes.indexOf(NEWLINE, at) + 1 || -1) {
        if (bytes[at] !== STEP) continue;
        const [word, period, step] = line_at(bytes, at).split(" ");
        if (word === "STEP") steps.push({ at, period: Number(period), step: Number(step) });
    }
    return steps;
}

/** Reads the numbers of lines in turn. */
class Numbers {
    constructor(bytes, at) {
        Object.assign(this, { bytes, at });
    }

    /** A whole number above 0, and what parts it from the next. */
    whole() {
        let value = 0;
        for (; this.bytes[this.at] >= NOUGHT; this.at++) value = 10 * value + this.bytes[this.at] - NOUGHT;
        this.at++;
        return value;
    }

    /** A decimal with nine places, in 10^-9. */
    units() {
        const is_below = this.bytes[this.at] === MINUS;
        if (is_below) this.at++;
        const whole = this.whole(), part = this.whole();
        const size = whole < EXACT ? BigInt(whole * ONE + part) : BigInt(whole) * BigInt(ONE) + BigInt(part);
        return is_below ? -size : size;
    }
}

/** The cells of a step: layer, row and column of each, from 1. */
function cells_of(bytes, step) {
    const cells = [], numbers = new Numbers(bytes, bytes.indexOf(NEWLINE, step.at) + 1);
    while (bytes[numbers.at] === HEAD) {
        numbers.at += 5;
        cells.push([numbers.whole(), numbers.whole(), numbers.whole()]);
        numbers.units();
        numbers.units();
    }
    return cells;
}

/**
 * The pairs of a listing: its cells, the steps that are kept (all, or as many as there is room for, the last among them),
 * and `low` and `high`, steps by cells. Nothing where it has no step, or no cell with flow.
 */
export function pairs_of(bytes) {
    const all = steps_of(bytes), cells = all.length ? cells_of(bytes, all[0]) : [];
    if (!cells.length || cells.length > MOST_PAIRS) return undefined;
    const every = Math.ceil((all.length * cells.length) / MOST_PAIRS);
    const steps = all.filter((_, n) => (all.length - 1 - n) % every === 0), size = steps.length * cells.length;
    const low = new BigInt64Array(size), high = new BigInt64Array(size);
    let place = 0;
    for (const step of steps) {
        const numbers = new Numbers(bytes, bytes.indexOf(NEWLINE, step.at) + 1);
        for (let n = 0; n < cells.length; n++, place++) {
            for (let blanks = 0; blanks < 4; blanks++) numbers.at = bytes.indexOf(BLANK, numbers.at) + 1;
            low[place] = numbers.units();
            high[place] = numbers.units();
        }
    }
    return { cells, steps, count: all.length, low, high };
}
