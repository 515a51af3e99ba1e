// A scene out of a page's data, whose arrays are packed (map_data.py).
import { Scene } from "./scene.mjs";

const BYTES = 8;

/**
 * Whole numbers, steps by cells, out of a text: differences along the cells in the first step, and from step to step in the
 * others; their bytes in the order of their size, deflated.
 */
async function unpacked(text, count) {
    const packed = Uint8Array.from(atob(text), (letter) => letter.charCodeAt(0));
    const stream = new Blob([packed]).stream().pipeThrough(new DecompressionStream("deflate"));
    const sizes = new Uint8Array(await new Response(stream).arrayBuffer()), length = sizes.length / BYTES;
    const bytes = new Uint8Array(sizes.length);
    for (let size = 0; size < BYTES; size++) {
        for (let at = 0; at < length; at++) bytes[BYTES * at + size] = sizes[size * length + at];
    }
    const values = new BigInt64Array(bytes.buffer);
    for (let at = 1; at < Math.min(count, length); at++) values[at] += values[at - 1];
    for (let at = count; at < length; at++) values[at] += values[at - count];
    return values;
}

/** Elevations, which are packed without the zeros that all of them end with. */
async function elevations(packed, count) {
    if (!packed) return null;
    const factor = BigInt(packed.factor), values = await unpacked(packed.values, count);
    return values.map((value) => value * factor);
}

async function field_of({ name, kind, low, width, less }, count) {
    if (less) return { name, kind, less };
    const lower = await unpacked(low, count), widths = await unpacked(width, count);
    return { name, kind, low: lower, high: lower.map((value, at) => value + widths[at]) };
}

export async function scene_of(data) {
    const count = data.count, cells = Int32Array.from(await unpacked(data.cells, count), Number);
    const zones = data.zones && Int32Array.from(await unpacked(data.zones, count), Number);
    const fields = await Promise.all(data.fields.map((field) => field_of(field, count)));
    const [tops, bottoms] = [await elevations(data.tops, count), await elevations(data.bottoms, count)];
    return new Scene({ ...data, cells, zones, fields, tops, bottoms });
}
