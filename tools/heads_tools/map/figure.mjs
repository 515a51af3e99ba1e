// What is seen as one picture on white ground, to be kept or printed.
import { draw_section, section_at, section_height } from "./beside.mjs";
import { LIGHT } from "./colours.mjs";
import { write } from "./chart.mjs";
import { draw_hydrographs, draw_mark_names, draw_names, section_name } from "./curves.mjs";
import { draw_kinds, draw_scale, kinds_here } from "./legend.mjs";
import { Frame, height_for, whole } from "./plan.mjs";
import { pairs_text } from "./words.mjs";

const WIDE = 1000, EDGE = 24, MOST = 800, CHART = 240, RATIO = 2, LINE = 20;
const PLAIN = "13px system-ui, sans-serif", STRONG = "600 14px system-ui, sans-serif", TITLE = "600 19px system-ui, sans-serif";

/** A text in lines of the picture's width. */
function in_lines(text, font) {
    const context = new OffscreenCanvas(1, 1).getContext("2d"), lines = [""];
    context.font = font;
    for (const word of text.split(" ")) {
        const longer = `${lines.at(-1)} ${word}`.trim();
        if (context.measureText(longer).width <= WIDE - 2 * EDGE) lines[lines.length - 1] = longer;
        else lines.push(word);
    }
    return lines;
}

/** A part of the picture with a text. */
function text_part(text, font = PLAIN, size = LINE) {
    const lines = in_lines(text, font);
    return [size * lines.length, (context, top) => lines.forEach((line, n) => write(context, line, EDGE, top + size * n + 10, LIGHT, { font }))];
}

/** The picture of a map: title, map, scale, marks, kept cells with their curves, and a section. */
export function figure_of(map) {
    const parts = parts_of(map), height = parts.reduce((sum, [size]) => sum + size, 2 * EDGE);
    const picture = new OffscreenCanvas(WIDE * RATIO, height * RATIO), context = picture.getContext("2d");
    context.setTransform(RATIO, 0, 0, RATIO, 0, 0);
    context.fillStyle = LIGHT.page;
    context.fillRect(0, 0, WIDE, height);
    let top = EDGE;
    for (const [size, draw] of parts) {
        draw(context, top);
        top += size;
    }
    return picture;
}

/** The heights of the picture's parts, and how each is drawn. */
function parts_of(map) {
    const { scene, look } = map, room = WIDE - 2 * EDGE, [tall, , wide] = height_for(scene, whole(scene), room, MOST);
    const kinds = look.has_numbers ? [] : kinds_here(scene, look.shows, map.layer, map.step, LIGHT);
    const marks = scene.marks.filter(({ kind }) => map.kinds.has(kind)), along = section_at(map);
    const parts = [
        text_part(scene.title ?? "heads", TITLE, 28),
        ...(scene.verdict ? [text_part(scene.verdict)] : []),
        text_part(look.title, STRONG, 26),
        [tall + 14, (context, top) => map.paint(context, new Frame(scene, map.view, [EDGE, top, wide, tall]), LIGHT)],
    ];
    if (look.has_numbers) parts.push([54, (context, top) => draw_scale(context, [EDGE, top, 520], look.scale, look.about, LIGHT)]);
    else parts.push([44, (context, top) => draw_kinds(context, [EDGE, top, room], kinds, LIGHT)]);
    if (marks.length) parts.push([28, (context, top) => draw_mark_names(context, [EDGE, top], marks, LIGHT)]);
    for (const place of map.kept) parts.push(text_part(pairs_text(scene, map.step, place)));
    if (map.kept.length && scene.last) {
        const names = map.kept.map((place) => scene.name(place));
        parts.push([CHART + 10, (context, top) =>
            draw_hydrographs(context, [EDGE, top + 10, room, CHART], scene, look.field, map.kept, map.step, LIGHT)]);
        parts.push([30 + 20 * Math.floor(names.length / 4), (context, top) => draw_names(context, [EDGE + 66, top, room - 66], names, LIGHT)]);
    }
    if (along) parts.push(text_part(section_name(along), STRONG, 24));
    if (along) parts.push([section_height(map) + 10, (context, top) => draw_section(map, context, [EDGE, top + 10, room], along, LIGHT)]);
    if (scene.source) parts.push(text_part(scene.source));
    return parts;
}
