// The map of a listing on a page: its choices, and what it draws. parts.html has its elements.
import { draw_beside } from "./beside.mjs";
import { context_of } from "./chart.mjs";
import { figure_of } from "./figure.mjs";
import { Hands } from "./hands.mjs";
import { draw_kinds, draw_scale, kinds_here } from "./legend.mjs";
import { choices_of, Look, palette_of, step_name } from "./look.mjs";
import { counted } from "./numbers.mjs";
import {
    draw_contours, draw_frame, draw_grid, draw_length, draw_mark, draw_marks, Frame, height_for, paint_cells, whole,
} from "./plan.mjs";
import { more_text, pairs_text } from "./words.mjs";

const MOST_KEPT = 6, CLOSER = 1.6, LEAST_MAP = 220, KEPT_FOR = 60_000;

export class HeadMap {
    constructor(root) {
        this.root = root;
        const found = (selector) => root.querySelector(selector);
        this.form = found(".choices").elements;
        const names = ["scale", "said", "when", "marks", "caption", "hydrographs", "section", "hint", "ragged"];
        for (const name of names) this[name] = found(`.${name}`);
        [this.canvas, this.kept_list] = [found(".map"), found(".kept")];
        found(".choices").onsubmit = (event) => event.preventDefault();
        this.#listen(found);
        new Hands(this);
    }

    /** Shows a scene from its last step on; `asked`: layer, step, shows and cells of a link, all counted from 1. */
    show(scene, asked = {}) {
        Object.assign(this, { scene, view: whole(scene), kept: [], cursor: undefined, is_turned: scene.columns === 1 });
        this.base = undefined;
        const options = (pairs) => pairs.map(([value, text]) => new Option(text, value));
        this.form.layer.replaceChildren(...options(scene.filled.map((layer) => [layer, layer + 1])));
        this.form.shows.replaceChildren(...options(choices_of(scene)));
        this.form.step.max = scene.last;
        this.form.step.value = Math.min(Math.max((asked.step ?? scene.steps.length) - 1, 0), scene.last);
        if (scene.filled.includes(asked.layer - 1)) this.form.layer.value = asked.layer - 1;
        if (choices_of(scene).some(([value]) => value === asked.shows)) this.form.shows.value = asked.shows;
        this.root.querySelector(".layers").hidden = scene.filled.length < 2;
        this.root.querySelector(".steps").hidden = scene.last === 0;
        this.#show_marks();
        for (const [layer, row, column] of asked.cells ?? []) {
            const place = scene.place(layer - 1, row - 1, column - 1);
            if (place >= 0) this.kept.push(place);
        }
        if (this.kept.length) this.cursor = scene.cell(this.kept.at(-1)).slice(1);
        this.draw();
        this.#say();
    }

    get layer() {
        return Number(this.form.layer.value);
    }

    get step() {
        return Number(this.form.step.value);
    }

    /** The kinds of marks that are chosen. */
    get kinds() {
        return new Set([...this.marks.querySelectorAll("input:checked")].map((box) => box.value));
    }

    /** The place that the cursor is at, -1 for none. */
    get place() {
        return this.cursor ? this.scene.place(this.layer, ...this.cursor) : -1;
    }

    draw(is_paper = false) {
        if (!this.scene || !this.root.clientWidth) return;
        this.palette = palette_of(is_paper);
        this.look = new Look(this.scene, this.layer, this.step, this.form.shows.value, this.form.alone.checked);
        const contours = this.form.contours.checked ? this.look.contours() : [];
        this.contours = contours ?? [];
        this.ragged.hidden = contours !== undefined;
        this.when.textContent = step_name(this.scene, this.step);
        this.caption.textContent = this.look.title;
        this.form.alone.parentElement.hidden = !this.look.has_numbers;
        this.form.contours.parentElement.hidden = !this.look.has_numbers || Math.min(this.scene.rows, this.scene.columns) < 2;
        this.#draw_map();
        this.#draw_scale();
        draw_beside(this);
    }

    /** The map in a box of a canvas, as it is seen. */
    paint(context, frame, palette) {
        paint_cells(context, frame, this.look.colours(palette));
        context.save();
        context.beginPath();
        context.rect(frame.left, frame.top, frame.width, frame.height);
        context.clip();
        draw_grid(context, frame, palette);
        draw_contours(context, frame, this.contours, palette);
        draw_marks(context, frame, this.layer, this.kinds);
        if (this.is_true && this.scene.is_true) draw_length(context, frame, palette);
        this.kept.forEach((place, n) => {
            const [layer, row, column] = this.scene.cell(place);
            if (layer === this.layer) draw_frame(context, frame, row, column, palette.lines[n % palette.lines.length]);
        });
        context.restore();
    }

    #draw_map() {
        const room = this.canvas.parentElement.clientWidth, most = Math.max(LEAST_MAP, 0.72 * window.innerHeight);
        const [height, is_true, width] = height_for(this.scene, whole(this.scene), room, most);
        this.is_true = is_true;
        this.frame = new Frame(this.scene, this.view, [0, 0, width, height]);
        const context = context_of(this.canvas, width, height);
        this.paint(context, this.frame, this.palette);
        this.base = new OffscreenCanvas(this.canvas.width, this.canvas.height);
        this.base.getContext("2d").drawImage(this.canvas, 0, 0);
        this.canvas.classList.toggle("near", this.is_near);
        this.#draw_cursor();
    }

    /** What was painted, with a frame around the cell that is spoken of. */
    #draw_cursor() {
        const context = this.canvas.getContext("2d");
        context.save();
        context.resetTransform();
        context.drawImage(this.base, 0, 0);
        context.restore();
        if (this.cursor) draw_frame(context, this.frame, ...this.cursor, "#fff");
    }

    #draw_scale() {
        const width = this.canvas.parentElement.clientWidth, { look, palette } = this;
        this.scale.setAttribute("aria-label", look.has_numbers ? `Scale: ${look.about}` : "");
        if (look.has_numbers) {
            draw_scale(context_of(this.scale, width, 50), [0, 2, Math.min(width, 460)], look.scale, look.about, palette);
            return;
        }
        const kinds = kinds_here(this.scene, look.shows, this.layer, this.step, palette);
        const height = draw_kinds(context_of(this.scale, width, 10), [0, 0, width], kinds, palette);
        draw_kinds(context_of(this.scale, width, height), [0, 0, width], kinds, palette);
        this.scale.setAttribute("aria-label", kinds.map(([name, , count]) => `${name}: ${counted(count, "cell")}`).join("; "));
    }

    #show_marks() {
        this.marks.replaceChildren(...this.scene.marks.map(({ kind, name }) => {
            const label = document.createElement("label"), box = document.createElement("input");
            const picture = document.createElement("canvas");
            label.className = "mark";
            Object.assign(box, { type: "checkbox", value: kind, checked: true, onchange: () => this.draw() });
            draw_mark(context_of(picture, 14, 14), kind, 7, 7, 10);
            label.append(box, picture, name);
            return label;
        }));
    }

    #say() {
        const place = this.place;
        if (!this.cursor) this.said.textContent = "Point at a cell, or go by the arrow keys.";
        else if (place < 0) {
            const [row, column] = this.cursor;
            this.said.textContent = `layer ${this.layer + 1} row ${row + 1} column ${column + 1}: no flow, so the listing has no line of it`;
        } else {
            const pair = document.createElement("span"), more = document.createElement("span");
            [pair.className, pair.textContent] = ["pair", pairs_text(this.scene, this.step, place)];
            [more.className, more.textContent] = ["more", more_text(this.scene, this.step, place)];
            this.said.replaceChildren(pair, document.createElement("br"), more);
        }
    }

    /** Speaks of a cell of the layer: row and column. */
    point(cell) {
        this.cursor = cell;
        this.#draw_cursor();
        this.#say();
    }

    /** Keeps a cell, or lets it go. */
    keep(place) {
        if (place < 0) return;
        const others = this.kept.filter((other) => other !== place);
        this.kept = others.length < this.kept.length ? others : [...others, place].slice(-MOST_KEPT);
        this.draw();
    }

    /** Whether a part of the grid alone is shown. */
    get is_near() {
        return this.view.some((edge, n) => edge !== whole(this.scene)[n]);
    }

    /** Goes closer to a point of the grid, or farther from it. */
    zoom(factor, at) {
        const [x0, y0, x1, y1] = this.view, [, , wide, tall] = whole(this.scene);
        const part = Math.min(1, (x1 - x0) / factor / wide), width = part * wide, height = part * tall;
        const [x, y] = at ?? [(x0 + x1) / 2, (y0 + y1) / 2];
        this.move_to(x - ((x - x0) / (x1 - x0)) * width, y - ((y - y0) / (y1 - y0)) * height, width, height);
    }

    /** Shows a part of the grid from x and y on, which stays within the grid. */
    move_to(x, y, width, height) {
        const [, , wide, tall] = whole(this.scene), within = (value, most) => Math.min(Math.max(value, 0), most);
        const [left, top] = [within(x, wide - width), within(y, tall - height)];
        this.view = width >= wide ? whole(this.scene) : [left, top, left + width, top + height];
        this.draw();
    }

    #listen(found) {
        const { form } = this;
        form.layer.onchange = form.step.oninput = form.shows.onchange = () => this.change();
        form.contours.onchange = form.alone.onchange = () => this.draw();
        form.before.onclick = () => this.turn("step", -1);
        form.after.onclick = () => this.turn("step", 1);
        const button = (name, action) => (found(`[name=${name}]`).onclick = action);
        button("in", () => this.zoom(CLOSER));
        button("out", () => this.zoom(1 / CLOSER));
        button("whole", () => this.zoom(0));
        button("turn", () => ((this.is_turned = !this.is_turned), this.draw()));
        button("figure", () => this.save_figure());
        button("print", () => window.print());
        new ResizeObserver(() => this.root.clientWidth !== this.wide && ((this.wide = this.root.clientWidth), this.draw())).observe(this.root);
        window.addEventListener("beforeprint", () => this.draw(true));
        window.addEventListener("afterprint", () => this.draw());
        matchMedia("(prefers-color-scheme: dark)").addEventListener("change", () => this.draw());
    }

    /** Another layer, step or quantity was chosen. */
    change() {
        this.draw();
        this.#say();
    }

    /** The next layer or step, or the one before. */
    turn(name, by) {
        const field = this.form[name], values = name === "layer" ? this.scene.filled : this.scene.steps.map((_, n) => n);
        const next = values[values.indexOf(Number(field.value)) + by];
        if (next === undefined) return;
        field.value = next;
        this.change();
    }

    save_figure() {
        const link = document.createElement("a");
        figure_of(this).convertToBlob({ type: "image/png" }).then((blob) => {
            Object.assign(link, { href: URL.createObjectURL(blob), download: "map.png" });
            link.click();
            setTimeout(() => URL.revokeObjectURL(link.href), KEPT_FOR);
        });
    }
}

