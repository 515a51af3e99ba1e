// The map of a layer: cells in colours, contours, marks, and frames around cells.
import { MARKS, number_text } from "./colours.mjs";
import { write } from "./chart.mjs";
import { index_of, short } from "./numbers.mjs";

const WIDE = 5, FLAT = 0.4, LABEL_ROOM = 44, LEAST_LABELLED = 70, GRID_FROM = 9;

/** How a part of the grid lies in a box of the canvas: left, top, width, height. `view` is x0, y0, x1, y1 in lengths. */
export class Frame {
    constructor(scene, view, [left, top, width, height]) {
        Object.assign(this, { scene, view, left, top, width, height });
        this.across = width / (view[2] - view[0]);
        this.down = height / (view[3] - view[1]);
    }

    x(length) {
        return this.left + (length - this.view[0]) * this.across;
    }

    y(length) {
        return this.top + (length - this.view[1]) * this.down;
    }

    /** The row and column at a place of the canvas, or nothing outside. */
    cell_at(x, y) {
        const length = this.view[0] + (x - this.left) / this.across, depth = this.view[1] + (y - this.top) / this.down;
        const { x: edges, y: levels } = this.scene;
        if (length < edges[0] || depth < levels[0] || length >= edges.at(-1) || depth >= levels.at(-1)) return undefined;
        return [index_of(levels, depth), index_of(edges, length)];
    }

    /** The box of a cell on the canvas. */
    box(row, column) {
        const { x, y } = this.scene;
        return [this.x(x[column]), this.y(y[row]), this.x(x[column + 1]), this.y(y[row + 1])];
    }
}

/** The whole grid. */
export function whole(scene) {
    return [0, 0, scene.x.at(-1), scene.y.at(-1)];
}

/** The height of a map of this width, in true proportions where it isn't a strip; and whether it is so. */
export function height_for(scene, view, width, most) {
    const ratio = (view[3] - view[1]) / (view[2] - view[0]);
    const is_true = ratio > 1 / WIDE && ratio < WIDE / 2;
    if (scene.rows === 1) return [Math.min(most, 60), false, width];
    if (scene.columns === 1) return [most, false, Math.min(width, 80)];
    if (!is_true) return [Math.min(most, width * FLAT), false, width];
    return width * ratio > most ? [most, true, most / ratio] : [width * ratio, true, width];
}

/** Paints the cells of a layer: `colours` has a colour for each cell of its grid, as 32 bits. */
export function paint_cells(context, frame, colours) {
    const { scene } = frame, ratio = context.getTransform().a;
    const width = Math.max(1, Math.round(frame.width * ratio)), height = Math.max(1, Math.round(frame.height * ratio));
    const image = new ImageData(width, height), points = new Uint32Array(image.data.buffer);
    const column_of = Int32Array.from({ length: width }, (_, n) => index_of(scene.x, frame.view[0] + (n + 0.5) / ratio / frame.across));
    for (let y = 0; y < height; y++) {
        const row = index_of(scene.y, frame.view[1] + (y + 0.5) / ratio / frame.down) * scene.columns;
        for (let x = 0; x < width; x++) points[y * width + x] = colours[row + column_of[x]];
    }
    const picture = new OffscreenCanvas(width, height);
    picture.getContext("2d").putImageData(image, 0, 0);
    context.imageSmoothingEnabled = false;
    context.drawImage(picture, frame.left, frame.top, frame.width, frame.height);
}

/** Thin lines between cells, where they are large enough. */
export function draw_grid(context, frame, palette) {
    const { scene } = frame, [, top, , bottom] = frame.box(0, 0);
    if (frame.width / scene.columns < GRID_FROM || (bottom - top) < GRID_FROM) return;
    context.save();
    Object.assign(context, { strokeStyle: palette.page, lineWidth: 0.5, globalAlpha: 0.35 });
    context.beginPath();
    for (const x of scene.x) context.moveTo(frame.x(x), frame.top), context.lineTo(frame.x(x), frame.top + frame.height);
    for (const y of scene.y) context.moveTo(frame.left, frame.y(y)), context.lineTo(frame.left + frame.width, frame.y(y));
    context.stroke();
    context.restore();
}

/** Contours with their numbers, which stand apart from one another. */
export function draw_contours(context, frame, contours, palette) {
    const spots = [], long = [], text = { align: "center", font: "12px system-ui, sans-serif", colour: "#111", has_edge: true };
    for (const { level, lines } of contours) {
        for (const line of lines) {
            const points = line.map(([x, y]) => [frame.x(x), frame.y(y)]);
            draw_line(context, points);
            const length = points.reduce((sum, [x, y], n) => sum + (n ? Math.hypot(x - points[n - 1][0], y - points[n - 1][1]) : 0), 0);
            if (length > LEAST_LABELLED) long.push([length, level, points]);
        }
    }
    for (const [, level, points] of long.sort((a, b) => b[0] - a[0])) {
        const spot = points.find(([x, y], n) => n >= points.length / 2 && is_free(frame, spots, x, y));
        if (!spot) continue;
        spots.push(spot);
        write(context, number_text(level), ...spot, { ...palette, page: "#fff" }, text);
    }
}

/** A dark line with a light edge, so that it is seen on all colours. */
function draw_line(context, points) {
    context.save();
    for (const [colour, width, alpha] of [["#fff", 2.4, 0.3], ["#111", 0.9, 0.9]]) {
        Object.assign(context, { strokeStyle: colour, lineWidth: width, lineJoin: "round", globalAlpha: alpha });
        context.beginPath();
        for (const [x, y] of points) context.lineTo(x, y);
        context.stroke();
    }
    context.restore();
}

function is_free(frame, spots, x, y) {
    const { left, top, width, height } = frame;
    const is_within = x > left + 18 && y > top + 10 && x < left + width - 18 && y < top + height - 10;
    return is_within && spots.every(([u, v]) => Math.hypot(x - u, y - v) > LABEL_ROOM);
}

/** A mark of a kind at a place, with a white edge. */
export function draw_mark(context, kind, x, y, size) {
    const [form, colour] = MARKS[kind], half = size / 2;
    Object.assign(context, { fillStyle: colour, strokeStyle: "#fff", lineWidth: size > 5 ? 1.2 : 0 });
    context.beginPath();
    if (form === "square") context.rect(x - half, y - half, size, size);
    if (form === "diamond") for (const [u, v] of [[0, -1], [1, 0], [0, 1], [-1, 0]]) context.lineTo(x + u * half * 1.2, y + v * half * 1.2);
    if (form === "triangle") for (const [u, v] of [[-1, -0.8], [1, -0.8], [0, 1]]) context.lineTo(x + u * half * 1.15, y + v * half * 1.15);
    context.closePath();
    if (size > 5) context.stroke();
    context.fill();
}

/** The marks of a layer, of the kinds that are shown. */
export function draw_marks(context, frame, layer, kinds) {
    const { scene } = frame, per_layer = scene.rows * scene.columns;
    for (const { kind, cells } of scene.marks) {
        if (!kinds.has(kind)) continue;
        for (const cell of cells) {
            if (scene.layer_of(cell) !== layer) continue;
            const rest = cell % per_layer, [x1, y1, x2, y2] = frame.box(Math.floor(rest / scene.columns), rest % scene.columns);
            const room = Math.min(x2 - x1, y2 - y1), least = kind === "WEL" ? 7 : 2;
            draw_mark(context, kind, (x1 + x2) / 2, (y1 + y2) / 2, Math.min(12, Math.max(least, room * 0.55)));
        }
    }
}

/** A frame around a cell, of at least six points. */
export function draw_frame(context, frame, row, column, colour) {
    const [x1, y1, x2, y2] = frame.box(row, column), size = (a, b) => Math.max(6, b - a);
    const box = [(x1 + x2 - size(x1, x2)) / 2, (y1 + y2 - size(y1, y2)) / 2, size(x1, x2), size(y1, y2)];
    for (const [stroke, width] of [["#fff", 5], ["#111", 3.4], [colour, 2.2]]) {
        Object.assign(context, { strokeStyle: stroke, lineWidth: width });
        context.strokeRect(...box);
    }
}

/** A bar of a round length, where the map has the model's own lengths. */
export function draw_length(context, frame, palette) {
    const { scene } = frame, most = (frame.view[2] - frame.view[0]) / 4, power = 10 ** Math.floor(Math.log10(most));
    const length = power * [5, 2, 1].find((factor) => factor * power <= most), width = length * frame.across;
    const [x, y] = [frame.left + 10, frame.top + frame.height - 10];
    for (const [colour, thick] of [[palette.page, 5], [palette.ink, 2]]) {
        Object.assign(context, { strokeStyle: colour, lineWidth: thick });
        context.beginPath();
        for (const [u, v] of [[x, y - 5], [x, y], [x + width, y], [x + width, y - 5]]) context.lineTo(u, v);
        context.stroke();
    }
    write(context, `${short(length)} ${scene.unit}`, x + width / 2, y - 10, palette, { align: "center", has_edge: true });
}
