// Curves of cells over time, and sections along a row or a column.
import { Chart, with_room, write } from "./chart.mjs";
import { value_of } from "./numbers.mjs";
import { draw_mark } from "./plan.mjs";

/** The time at the end of a step, or its number where no times are known. */
export function time_of(scene, step) {
    return scene.time ? scene.steps[step][2] : step + 1;
}

/** Lower and upper numbers of a field over time at some places; a line where the current step ends. Returns the chart. */
export function draw_hydrographs(context, box, scene, field, places, step, palette) {
    const steps = scene.steps.map((_, n) => n);
    const curves = places.map((place) =>
        steps.map((n) => [time_of(scene, n), scene.value(field, "low", n, place), scene.value(field, "high", n, place)]));
    const begin = scene.time ? 0 : 1, values = curves.flat().flatMap(([, low, high]) => [low, high]);
    const chart = new Chart(context, box, [begin, time_of(scene, scene.last)], with_room(values), palette);
    chart.axes(scene.time ? `time, ${scene.time}` : "step", `${scene.fields[field].name}, ${scene.unit}`);
    curves.forEach((points, n) => {
        const colour = palette.lines[n % palette.lines.length];
        chart.band(points, colour);
        for (const side of [1, 2]) chart.curve(points.map((point) => [point[0], point[side]]), colour, 1.4);
    });
    const now = chart.x(time_of(scene, step));
    chart.rule(now, chart.top, now, chart.top + chart.height, palette.soft, 1, [4, 3]);
    return chart;
}

/** A section: the places of its cells layer by layer, and the edges along it. */
export function section_of(scene, is_row, number) {
    const count = is_row ? scene.columns : scene.rows, whole = is_row ? scene.x : scene.y;
    const places = Array.from({ length: scene.layers }, (_, layer) =>
        Array.from({ length: count }, (_, n) => (is_row ? scene.place(layer, number, n) : scene.place(layer, n, number))));
    return { is_row, number, places, edges: whole, middles: Array.from(whole).slice(1).map((edge, n) => (edge + whole[n]) / 2) };
}

/** What a section is called, from its left to its right. */
export function section_name({ is_row, number }) {
    return is_row ? `Row ${number + 1}, from west to east` : `Column ${number + 1}, from north to south`;
}

/** The heads along a section, a band for each layer. */
export function draw_section_heads(context, box, scene, section, field, step, palette) {
    const { places, middles, edges } = section;
    const lines = places.map((row) => row.map((place, n) => place < 0
        ? [middles[n], NaN, NaN]
        : [middles[n], scene.value(field, "low", step, place), scene.value(field, "high", step, place)]));
    const values = lines.flat().flatMap(([, low, high]) => [low, high]);
    const chart = new Chart(context, box, [edges[0], edges.at(-1)], with_room(values), palette);
    chart.axes(`distance, ${scene.unit}`, `${scene.fields[field].name}, ${scene.unit}`);
    lines.forEach((points, layer) => {
        const colour = palette.lines[layer % palette.lines.length];
        chart.band(points, colour);
        for (const side of [1, 2]) chart.curve(points.map((point) => [point[0], point[side]]), colour, 1.5);
    });
    return chart;
}

/** The cells of a section between their tops and bottoms, in the colours of the map; marks in the midst of cells. */
export function draw_section_cells(context, box, scene, section, colour_of, kinds, palette) {
    const { places, edges } = section, inside = places.flat().filter((place) => place >= 0);
    const ends = with_room(inside.flatMap((place) => [value_of(scene.tops[place]), value_of(scene.bottoms[place])]), 0.03);
    const chart = new Chart(context, box, [edges[0], edges.at(-1)], ends, palette);
    chart.axes(`distance, ${scene.unit}`, `elevation, ${scene.unit}`);
    context.fillStyle = `rgb(${palette.none})`;
    context.fillRect(chart.left, chart.top, chart.width, chart.height);
    const marked = marks_by_cell(scene, kinds);
    for (const row of places) {
        row.forEach((place, n) => {
            if (place < 0) return;
            const [x1, x2] = [chart.x(edges[n]), chart.x(edges[n + 1])];
            const [y1, y2] = [chart.y(value_of(scene.tops[place])), chart.y(value_of(scene.bottoms[place]))];
            context.fillStyle = `rgb(${colour_of(place)})`;
            context.fillRect(x1, y1, x2 - x1 + 0.5, y2 - y1);
        });
    }
    for (const row of places) draw_tops(chart, scene, row, edges, palette);
    for (const row of places) row.forEach((place, n) => {
        const kind = place >= 0 && marked.get(scene.cells[place]);
        const middle = kind && value_of((scene.tops[place] + scene.bottoms[place]) / 2n);
        if (kind) draw_mark(context, kind, chart.x((edges[n] + edges[n + 1]) / 2), chart.y(middle), 8);
    });
    return chart;
}

/** The tops and bottoms of a layer's cells as thin lines. */
function draw_tops(chart, scene, row, edges, palette) {
    row.forEach((place, n) => {
        if (place < 0) return;
        for (const level of [scene.tops[place], scene.bottoms[place]]) {
            const y = chart.y(value_of(level));
            chart.rule(chart.x(edges[n]), y, chart.x(edges[n + 1]), y, palette.soft, 0.7);
        }
    });
}

function marks_by_cell(scene, kinds) {
    const found = new Map();
    for (const { kind, cells } of scene.marks) if (kinds.has(kind)) for (const cell of cells) found.set(cell, kind);
    return found;
}

/** A line down a chart at a cell of a section. */
export function draw_place(chart, section, number, palette) {
    const x = chart.x(section.middles[number]);
    chart.rule(x, chart.top, x, chart.top + chart.height, palette.soft, 1, [4, 3]);
}

/** Names with their colours, in lines of a width; the height that they take. */
export function draw_names(context, [left, top, width], names, palette) {
    let [x, y] = [left, top + 8];
    context.font = "13px system-ui, sans-serif";
    names.forEach((name, n) => {
        const needs = context.measureText(name).width + 40;
        if (x + needs > left + width && x > left) [x, y] = [left, y + 20];
        context.fillStyle = palette.lines[n % palette.lines.length];
        context.fillRect(x, y - 2, 16, 4);
        write(context, name, x + 22, y, palette);
        x += needs;
    });
    return y + 12 - top;
}

/** The kinds of marks that a layer has, with their names, for a line below a map. */
export function draw_mark_names(context, [left, top], marks, palette) {
    let x = left;
    for (const { kind, name } of marks) {
        draw_mark(context, kind, x + 6, top + 8, 10);
        write(context, name, x + 16, top + 8, palette);
        context.font = "13px system-ui, sans-serif";
        x += context.measureText(name).width + 36;
    }
}
