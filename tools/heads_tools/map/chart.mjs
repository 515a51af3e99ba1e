// Axes with curves, on a canvas whose unit is a point of the page.
import { number_text } from "./colours.mjs";
import { round_numbers } from "./numbers.mjs";

export const FONT = "13px system-ui, sans-serif";
const LEFT = 66, RIGHT = 22, TOP = 10, BOTTOM = 36;

/** Sizes a canvas of the page, and returns its context in points of the page. */
export function context_of(canvas, width, height) {
    const ratio = window.devicePixelRatio || 1;
    Object.assign(canvas, { width: Math.round(width * ratio), height: Math.round(height * ratio) });
    Object.assign(canvas.style, { width: `${width}px`, height: `${height}px` });
    const context = canvas.getContext("2d");
    context.setTransform(ratio, 0, 0, ratio, 0, 0);
    return context;
}

/** Text with an edge in the colour of the ground, so that it can be read on any. */
export function write(context, text, x, y, palette, options = {}) {
    const { align = "left", font = FONT, colour = palette.ink, has_edge = false } = options;
    Object.assign(context, { font, textAlign: align, textBaseline: "middle", fillStyle: colour });
    if (has_edge) {
        Object.assign(context, { strokeStyle: palette.page, lineWidth: 3.5, lineJoin: "round" });
        context.strokeText(text, x, y);
    }
    context.fillText(text, x, y);
}

/** The least and the greatest of numbers, with a little room around them. */
export function with_room(values, part = 0.06) {
    let least = Infinity, most = -Infinity;
    for (const value of values) {
        if (!Number.isFinite(value)) continue;
        least = Math.min(least, value);
        most = Math.max(most, value);
    }
    if (least > most) return [0, 1];
    const room = most > least ? part * (most - least) : Math.max(Math.abs(most) * 1e-4, 1e-6);
    return [least - room, most + room];
}

export class Chart {
    /** A chart in a box of the canvas: left, top, width, height; the ends of both axes. */
    constructor(context, [left, top, width, height], across, up, palette) {
        Object.assign(this, { context, across, up, palette });
        Object.assign(this, { left: left + LEFT, top: top + TOP, width: width - LEFT - RIGHT, height: height - TOP - BOTTOM });
    }

    x(value) {
        return this.left + ((value - this.across[0]) / (this.across[1] - this.across[0] || 1)) * this.width;
    }

    y(value) {
        return this.top + this.height - ((value - this.up[0]) / (this.up[1] - this.up[0] || 1)) * this.height;
    }

    /** The value on the axis across at a place of the canvas. */
    value_at(x) {
        return this.across[0] + ((x - this.left) / this.width) * (this.across[1] - this.across[0]);
    }

    /** Both axes with round numbers, and what each is of. */
    axes(below, beside) {
        const { context, palette } = this, end = this.top + this.height;
        context.lineWidth = 1;
        for (const value of round_numbers(...this.up, Math.max(2, this.height / 42))) {
            this.rule(this.left, this.y(value), this.left + this.width, this.y(value), palette.line, 0.6);
            write(context, this.text_of(value, this.up), this.left - 6, this.y(value), palette, { align: "right", colour: palette.soft });
        }
        for (const value of round_numbers(...this.across, Math.max(2, this.width / 90))) {
            this.rule(this.x(value), end, this.x(value), end + 4, palette.soft, 1);
            write(context, number_text(value), this.x(value), end + 12, palette, { align: "center", colour: palette.soft });
        }
        this.rule(this.left, end, this.left + this.width, end, palette.soft, 1);
        write(context, below, this.left + this.width, end + 28, palette, { align: "right", colour: palette.soft });
        context.save();
        context.translate(this.left - 58, this.top + this.height / 2);
        context.rotate(-Math.PI / 2);
        write(context, beside, 0, 0, palette, { align: "center", colour: palette.soft });
        context.restore();
    }

    /** A number of an axis with as many decimals as its range needs. */
    text_of(value, [least, most]) {
        const places = Math.min(9, Math.max(0, 2 - Math.floor(Math.log10(most - least || 1))));
        return Math.abs(value) >= 1e6 || (most - least) < 1e-8 ? number_text(value) : String(+value.toFixed(places));
    }

    rule(x1, y1, x2, y2, colour, width, dash = []) {
        const { context } = this;
        Object.assign(context, { strokeStyle: colour, lineWidth: width });
        context.setLineDash(dash);
        context.beginPath();
        context.moveTo(x1, y1);
        context.lineTo(x2, y2);
        context.stroke();
        context.setLineDash([]);
    }

    /** A curve through points, cut where one has no value. */
    curve(points, colour, width = 1.6, dash = []) {
        const { context } = this;
        Object.assign(context, { strokeStyle: colour, lineWidth: width, lineJoin: "round" });
        context.setLineDash(dash);
        context.beginPath();
        let is_begun = false;
        for (const [x, y] of points) {
            if (!Number.isFinite(y)) is_begun = false;
            else if (is_begun) context.lineTo(this.x(x), this.y(y));
            else context.moveTo(this.x(x), this.y(y));
            is_begun = Number.isFinite(y);
        }
        context.stroke();
        context.setLineDash([]);
    }

    /** What lies between a lower and an upper curve: points of a place, a lower and an upper value, cut as a curve is. */
    band(points, colour) {
        const { context } = this;
        Object.assign(context, { fillStyle: colour, globalAlpha: 0.28 });
        for (const part of parts_with_values(points)) {
            context.beginPath();
            for (const [x, low] of part) context.lineTo(this.x(x), this.y(low));
            for (const [x, , high] of part.reverse()) context.lineTo(this.x(x), this.y(high));
            context.fill();
        }
        context.globalAlpha = 1;
    }
}

function parts_with_values(points) {
    const parts = [[]];
    for (const point of points) {
        if (Number.isFinite(point[1])) parts.at(-1).push(point);
        else if (parts.at(-1).length) parts.push([]);
    }
    return parts.filter((part) => part.length > 1);
}
