// What stands beside a map: the kept cells, their curves over time, and a section through the last of them.
import { context_of } from "./chart.mjs";
import { draw_hydrographs, draw_names, draw_place, draw_section_cells, draw_section_heads, section_name, section_of } from "./curves.mjs";

const CHART = 230, LEAST = 260;

/** Draws all of it; `map` has its state and its elements. */
export function draw_beside(map) {
    const { scene, palette, kept } = map, width = Math.max(LEAST, map.hint.parentElement.clientWidth), along = section_at(map);
    show_kept(map);
    map.hydrographs.hidden = !kept.length || scene.last === 0;
    if (!map.hydrographs.hidden) {
        map.hydrographs.querySelector("figcaption").textContent = `${scene.fields[map.look.field].name} over time`;
        const context = context_of(map.hydrographs.querySelector("canvas"), width, CHART);
        map.curves = draw_hydrographs(context, [0, 0, width, CHART], scene, map.look.field, kept, map.step, palette);
    }
    map.section.hidden = !along;
    if (!along) return;
    map.section.querySelector("span").textContent = section_name(along);
    map.section.querySelector("button").hidden = scene.rows === 1 || scene.columns === 1;
    const context = context_of(map.section.querySelector("canvas"), width, section_height(map));
    draw_section(map, context, [0, 0, width], along, palette);
}

/** A button for each kept cell, which lets it go. */
function show_kept(map) {
    const { kept_list, kept, scene, palette } = map;
    kept_list.hidden = !kept.length;
    kept_list.replaceChildren(...kept.map((place, n) => {
        const button = document.createElement("button"), line = document.createElement("span");
        line.textContent = "\u2501";
        line.style.color = palette.lines[n % palette.lines.length];
        Object.assign(button, { type: "button", title: "let this cell go", onclick: () => map.keep(place) });
        button.append(line, scene.name(place), " \u00d7");
        return button;
    }));
}

/** The section through the last kept cell, or the only one of a model of one row or column; else nothing. */
export function section_at({ scene, kept, is_turned }) {
    const is_line = scene.rows === 1 || scene.columns === 1;
    if (!kept.length && !is_line) return undefined;
    const [, row, column] = kept.length ? scene.cell(kept.at(-1)) : [0, 0, 0];
    const is_row = scene.columns > 1 && (scene.rows === 1 || !is_turned);
    return section_of(scene, is_row, is_row ? row : column);
}

export function section_height({ scene }) {
    const names = scene.layers > 1 ? 30 + 20 * Math.floor(scene.layers / 4) : 0;
    return CHART + names + (scene.tops && scene.bottoms ? CHART : 0);
}

/** The heads along a section, and below them its cells in the colours of the map, where their elevations are known. */
export function draw_section({ scene, look, kept, step, kinds }, context, [left, top, width], along, palette) {
    const charts = [draw_section_heads(context, [left, top, width, CHART], scene, along, look.field, step, palette)];
    let below = top + CHART;
    if (scene.layers > 1) {
        const names = scene.filled.map((layer) => `layer ${layer + 1}`);
        below += draw_names(context, [left + 66, below, width - 80], names, palette) + 10;
    }
    if (scene.tops && scene.bottoms) {
        const colour = (place) => look.colour(place, palette);
        charts.push(draw_section_cells(context, [left, below, width, CHART], scene, along, colour, kinds, palette));
    }
    if (!kept.length) return;
    const [, row, column] = scene.cell(kept.at(-1));
    for (const chart of charts) draw_place(chart, along, along.is_row ? column : row, palette);
}
