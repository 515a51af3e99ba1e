// The zones of a zone file that the program has read: a whole number for each cell, layer by layer.

const latin = new TextDecoder("latin1"), PARTED = /[\s,]+/;

/** The lines of a file. Blank ones count for nothing. */
class Lines {
    constructor(bytes) {
        this.lines = latin.decode(bytes).split("\n").map((line) => line.split(PARTED).filter(Boolean));
        this.at = 0;
    }

    next() {
        while (this.at < this.lines.length) {
            const words = this.lines[this.at++];
            if (words.length) return words;
        }
        return undefined;
    }

    /** So many values, from a new line on; `r*c` is r times c. What is left of the last line isn't read. */
    values(count) {
        const found = [];
        while (found.length < count) {
            for (const word of this.next()) {
                const [times, value] = word.includes("*") ? word.split("*") : [1, word];
                for (let n = Math.min(Number(times), count - found.length); n > 0; n--) found.push(Number(value));
            }
        }
        return found;
    }
}

/** The zones of a layer. `open`: the bytes of a file that the record names. */
function layer_of(lines, count, open) {
    const [kind, ...words] = lines.next(), word = kind.toUpperCase();
    if (word === "CONSTANT") return Array(count).fill(Number(words[0]));
    const is_open = word === "OPEN/CLOSE", factor = Number(words[is_open ? 1 : 0]);
    const values = (is_open ? new Lines(open(words[0])) : lines).values(count);
    return factor === 0 ? values : values.map((value) => value * factor);
}

/** The zones of all cells of a grid [layers, rows, columns]; nothing where they can't be read. */
export function zones_of(bytes, [layers, rows, columns], open) {
    try {
        const lines = new Lines(bytes), found = Array.from({ length: layers }, () => layer_of(lines, rows * columns, open)).flat();
        return found.every(Number.isInteger) ? Int32Array.from(found) : undefined;
    } catch {
        return undefined;
    }
}
