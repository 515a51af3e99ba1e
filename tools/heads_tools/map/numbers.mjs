// Decimals and round numbers.

const PLACES = 9, ONE = 10n ** BigInt(PLACES);

/** A whole number of 10^-9 with all its nine decimals. */
export function decimal(units) {
    const size = units < 0n ? -units : units;
    return `${units < 0n ? "-" : ""}${size / ONE}.${String(size % ONE).padStart(PLACES, "0")}`;
}

/** A whole number of 10^-9 as the nearest double, for colours and curves. */
export function value_of(units) {
    return Number(units) / 1e9;
}

/** A number with up to `digits` significant digits, without an exponent where it needs none. */
export function short(value, digits = 5) {
    return String(+value.toPrecision(digits));
}

/** Round numbers between two ends, about as many as are asked for: 1, 2, 2.5 or 5 times a power of ten apart. */
export function round_numbers(least, most, count) {
    const rough = (most - least) / count;
    if (!(rough > 0) || !Number.isFinite(rough)) return [];
    const power = 10 ** Math.floor(Math.log10(rough));
    const step = power * [1, 2, 2.5, 5, 10].find((factor) => factor * power >= rough * 0.999);
    const first = Math.ceil(least / step - 1e-9), last = Math.floor(most / step + 1e-9);
    if (!Number.isFinite(first) || last - first > 1000) return [];
    return Array.from({ length: last - first + 1 }, (_, n) => +((first + n) * step).toPrecision(12));
}

/** The place of a value among edges that ascend: n, where it lies from edges[n] to edges[n + 1]. */
export function index_of(edges, value) {
    let low = 0, high = edges.length - 1;
    while (high - low > 1) {
        const middle = (low + high) >> 1;
        if (edges[middle] <= value) low = middle;
        else high = middle;
    }
    return low;
}

/** A number with its unit; of one `time units` are a `time unit`. */
export function with_unit(number, unit) {
    return `${number} ${number === 1 ? unit.replace(/ units$/, " unit") : unit}`;
}

/** A number with its noun: `1 cell`, `3 cells`. */
export function counted(count, noun) {
    return `${count} ${noun}${count === 1 ? "" : "s"}`;
}
