// Contours: lines of equal value through the middles of cells.

/** The corners of a square in turn, and the sides between them, which are named by their first corner's number. */
const TURN = [[0, 0], [0, 1], [1, 1], [1, 0]];
const MOST_PARTS = 100_000;

/** Where a level crosses the side between two corners. */
function crossing(grid, level, [r1, c1], [r2, c2]) {
    const a = grid.values[r1 * grid.columns + c1], b = grid.values[r2 * grid.columns + c2], part = (level - a) / (b - a);
    return [grid.x[c1] + part * (grid.x[c2] - grid.x[c1]), grid.y[r1] + part * (grid.y[r2] - grid.y[r1])];
}

/** A name for the side between two corners that is the same from both of its squares. */
function side_name(grid, [r1, c1], [r2, c2]) {
    const first = Math.min(r1 * grid.columns + c1, r2 * grid.columns + c2);
    return 2 * first + (r1 === r2 ? 0 : 1);
}

/** The pairs of sides that a level's lines join in a square. */
function joined_sides(corners, level) {
    const is_above = corners.map((value) => value >= level);
    const cut = [0, 1, 2, 3].filter((n) => is_above[n] !== is_above[(n + 1) % 4]);
    if (cut.length < 4) return cut.length ? [cut] : [];
    const is_middle_above = corners.reduce((sum, value) => sum + value, 0) / 4 >= level;
    return is_middle_above === is_above[0] ? [[0, 1], [2, 3]] : [[3, 0], [1, 2]];
}

/** A part of a level's line in a square: two names of sides, with a point on each. */
function part_of(grid, level, row, column, sides) {
    return sides.map((side) => {
        const end = [side, (side + 1) % 4].map((n) => [row + TURN[n][0], column + TURN[n][1]]);
        return { name: side_name(grid, ...end), point: crossing(grid, level, ...end) };
    });
}

/** The parts of all levels' lines, square by square; nothing where they are so many that they would hide the map. */
function parts_of(grid, levels) {
    const parts = levels.map(() => []), { values, rows, columns } = grid;
    let count = 0;
    for (let row = 0; row + 1 < rows; row++) {
        for (let column = 0; column + 1 < columns; column++) {
            const at = row * columns + column;
            const a = values[at], b = values[at + 1], c = values[at + columns + 1], d = values[at + columns];
            const least = Math.min(a, b, c, d), most = Math.max(a, b, c, d);
            if (!(most > least) || most < levels[0] || least >= levels.at(-1)) continue;
            for (let n = 0; n < levels.length; n++) {
                if (!(most >= levels[n] && least < levels[n])) continue;
                for (const sides of joined_sides([a, b, c, d], levels[n])) parts[n].push(part_of(grid, levels[n], row, column, sides));
                if (++count > MOST_PARTS) return undefined;
            }
        }
    }
    return parts;
}

/** Follows parts from a side on to the line's end. */
function follow(start, first, meeting, used) {
    const line = [];
    for (let name = start, part = first; part !== undefined; ) {
        used.add(part);
        const other = part.find((end) => end.name !== name) ?? part[1];
        line.push(other.point);
        name = other.name;
        part = meeting.get(name).find((next) => !used.has(next));
    }
    return line;
}

/** Joins parts into lines. */
function lines_of(parts) {
    const meeting = new Map(), used = new Set(), lines = [];
    for (const part of parts) {
        for (const { name } of part) {
            if (meeting.has(name)) meeting.get(name).push(part);
            else meeting.set(name, [part]);
        }
    }
    for (const part of parts) {
        if (used.has(part)) continue;
        const [a] = part, forward = follow(a.name, part, meeting, used);
        const back = meeting.get(a.name).find((next) => !used.has(next));
        const before = back ? follow(a.name, back, meeting, used).reverse() : [];
        lines.push([...before, a.point, ...forward]);
    }
    return lines;
}

/**
 * The lines of each level, of which the levels ascend; nothing where they are too ragged to be drawn. `grid`: values by rows
 * and columns, NaN where there are none, and the middles x and y of the columns and rows. A square with a corner without a
 * value has no line.
 */
export function contours(grid, levels) {
    const parts = levels.length ? parts_of(grid, levels) : [];
    return parts && levels.map((level, n) => ({ level, lines: lines_of(parts[n]) }));
}
