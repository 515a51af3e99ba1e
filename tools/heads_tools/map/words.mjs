// What is said of a cell: the listing's own digits, and what else is known of it.
import { counted, decimal } from "./numbers.mjs";

/** What a cell below its top is said to be; of exact heads certified pairs alone say it. */
function told_of_top(scene, kind) {
    if (kind === 1) return `${scene.is_certified ? "every exact" : "the upper"} head lies below the cell's top`;
    return kind === 2 ? "the lower head alone lies below the cell's top" : "";
}

/** The pair of each quantity, with all its digits. */
export function pairs_text(scene, step, place) {
    const pairs = scene.fields.map(({ name }, field) =>
        `${name} from ${decimal(scene.low(field, step, place))} to ${decimal(scene.high(field, step, place))} ${scene.unit}`);
    return `${scene.name(place)}: ${pairs.join("; ")}`;
}

/** How wide the pair is, the cell's top and bottom, its zone and its entries. */
export function more_text(scene, step, place) {
    const parts = [`${decimal(scene.width(0, step, place))} ${scene.unit} wide`];
    if (scene.tops && scene.bottoms) {
        parts.push(`cell from ${plain(scene.bottoms[place])} to ${plain(scene.tops[place])} ${scene.unit}`);
    }
    const told = told_of_top(scene, scene.below(step, place));
    if (told) parts.push(told);
    if (scene.zones) parts.push(`zone ${scene.zones[place]}`);
    for (const { name, cells } of scene.marks) {
        const count = cells.filter((cell) => cell === scene.cells[place]).length;
        if (count) parts.push(count > 1 ? counted(count, name) : name);
    }
    return parts.join("; ");
}

/** A decimal without zeros at its end. */
function plain(units) {
    return decimal(units).replace(/\.?0+$/, "");
}
