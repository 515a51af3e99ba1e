// What is done to a map by keys and by a pointer.
import { time_of } from "./curves.mjs";

const CLOSER = 1.6, DRAGGED = 4, WHEEL = 1.15;
const ARROWS = { ArrowUp: [-1, 0], ArrowDown: [1, 0], ArrowLeft: [0, -1], ArrowRight: [0, 1] };

export class Hands {
    constructor(map) {
        this.map = map;
        const when_shown = (action) => (event) => map.scene && action(event);
        map.canvas.onkeydown = when_shown((event) => this.#key(event));
        map.canvas.onpointerdown = when_shown((event) => this.#press(event));
        map.canvas.onpointermove = when_shown((event) => this.#move(event));
        map.canvas.onclick = when_shown((event) => this.#click(event));
        map.canvas.onwheel = when_shown((event) => this.#wheel(event));
        map.hydrographs.querySelector("canvas").onclick = (event) => this.#choose_step(event);
    }

    #wheel(event) {
        if (!event.ctrlKey) return;
        event.preventDefault();
        this.map.zoom(event.deltaY < 0 ? WHEEL : 1 / WHEEL, this.#length_at(event));
    }

    #key(event) {
        const by = ARROWS[event.key], { scene } = this.map, within = (value, most) => Math.min(Math.max(value, 0), most - 1);
        const [row, column] = this.map.cursor ?? [0, by ? -by[1] : 0];
        const actions = {
            Enter: () => this.map.keep(this.map.place), " ": () => this.map.keep(this.map.place),
            PageUp: () => this.map.turn("layer", -1), PageDown: () => this.map.turn("layer", 1),
            ",": () => this.map.turn("step", -1), ".": () => this.map.turn("step", 1),
            "+": () => this.map.zoom(CLOSER, this.#cursor_length), "-": () => this.map.zoom(1 / CLOSER), 0: () => this.map.zoom(0),
            Escape: () => ((this.map.kept = []), this.map.draw()),
        };
        if (event.ctrlKey || event.metaKey || event.altKey || !(by || actions[event.key])) return;
        event.preventDefault();
        if (by) this.map.point([within(row + by[0], scene.rows), within(column + by[1], scene.columns)]);
        else actions[event.key]();
    }

    get #cursor_length() {
        if (!this.map.cursor) return undefined;
        const [row, column] = this.map.cursor, { x, y } = this.map.scene;
        return [(x[column] + x[column + 1]) / 2, (y[row] + y[row + 1]) / 2];
    }

    #spot(event) {
        const box = this.map.canvas.getBoundingClientRect();
        return [((event.clientX - box.left) * this.map.frame.width) / box.width, ((event.clientY - box.top) * this.map.frame.height) / box.height];
    }

    #length_at(event) {
        const [x, y] = this.#spot(event);
        return [this.map.view[0] + x / this.map.frame.across, this.map.view[1] + y / this.map.frame.down];
    }

    #press(event) {
        this.dragged = { from: this.#spot(event), view: this.map.view, is_far: false };
    }

    #move(event) {
        const spot = this.#spot(event), { dragged } = this;
        if (event.buttons && dragged && this.map.is_near) {
            const [dx, dy] = [spot[0] - dragged.from[0], spot[1] - dragged.from[1]];
            dragged.is_far ||= Math.hypot(dx, dy) > DRAGGED;
            const [x0, y0, x1, y1] = dragged.view;
            if (dragged.is_far) this.map.move_to(x0 - dx / this.map.frame.across, y0 - dy / this.map.frame.down, x1 - x0, y1 - y0);
            return;
        }
        const cell = this.map.frame.cell_at(...spot);
        if (cell) this.map.point(cell);
    }

    #click(event) {
        const cell = this.map.frame.cell_at(...this.#spot(event));
        if (!cell || this.dragged?.is_far) return;
        this.map.point(cell);
        this.map.keep(this.map.place);
    }

    /** The step whose end is nearest to a place on the curves over time. */
    #choose_step(event) {
        const box = event.target.getBoundingClientRect(), time = this.map.curves.value_at(event.clientX - box.left);
        const off = this.map.scene.steps.map((_, n) => Math.abs(time_of(this.map.scene, n) - time));
        this.map.form.step.value = off.indexOf(Math.min(...off));
        this.map.change();
    }
}
