// Which part of the gas is seen.
import { clamp, rectangle } from "./shapes.js";
import { Painter } from "./painter.js";

const MOST = 64;           // pixels a cell

export class Viewport extends Painter {
  left = 0;                // the cell at the canvas' left edge, with a fraction
  top = 0;
  fitted = false;          // true for the whole lattice, or the rectangle that is seen
  onFrame = () => this.draw();
  #frame = null;           // asked for, and not yet there

  constructor(canvas) {
    super();
    Object.assign(this, { canvas, context: canvas.getContext("2d") });
  }

  redraw() {
    this.#frame ??= requestAnimationFrame(() => {
      this.#frame = null;
      this.onFrame();
    });
  }

  get size() { return [this.canvas.clientWidth, this.canvas.clientHeight]; }

  fit(rect = null) {
    if (!this.picture) return;
    const [x, y, w, h] = rect || [0, 0, this.picture.width, this.picture.height], [cw, ch] = this.size;
    const fit = Math.min((cw - 8) / w, (ch - 8) / h);
    this.scale = Math.min(fit >= 1 ? Math.floor(fit * 8) / 8 : fit, MOST);
    this.left = x + w / 2 - cw / this.scale / 2;
    this.top = y + h / 2 - ch / this.scale / 2;
    this.fitted = rect || true;
    this.redraw();
  }

  zoom(factor, px = this.size[0] / 2, py = this.size[1] / 2) {
    if (!this.picture) return;
    const { scale, picture: { width, height }, size: [cw, ch] } = this;
    this.scale = clamp(scale * factor, Math.min(cw / width, ch / height) * .75, MOST);
    this.pan(px - px * this.scale / scale, py - py * this.scale / scale);
  }

  pan(dx, dy) {
    const { scale, picture: { width, height }, size: [cw, ch] } = this;
    const bound = (from, side, shown) => shown >= side ? clamp(from, side - shown, 0)
      : clamp(from, -shown * .1, side - shown * .9);
    this.fitted = false;
    this.left = bound(this.left - dx / scale, width, cw / scale);
    this.top = bound(this.top - dy / scale, height, ch / scale);
    this.redraw();
  }

  /** Moves so that a cell is seen. */
  follow([x, y]) {
    const { scale, size: [cw, ch] } = this, [px, py] = this.box([x + .5, y + .5, 0, 0]);
    const dx = clamp(px, scale, cw - scale) - px, dy = clamp(py, scale, ch - scale) - py;
    if (dx || dy) this.pan(dx, dy);
  }

  /** Moves a cell that is out of sight into the middle. */
  keepInSight([x, y]) {
    const { size: [cw, ch] } = this, [px, py] = this.box([x + .5, y + .5, 0, 0]);
    if (px < 0 || py < 0 || px > cw || py > ch) this.pan(cw / 2 - px, ch / 2 - py);
  }

  holds([x, y]) { return x >= 0 && y >= 0 && x < this.picture.width && y < this.picture.height; }

  /** A rectangle of cells in CSS pixels of the canvas. */
  box([x, y, w, h]) {
    return [(x - this.left) * this.scale, (y - this.top) * this.scale, w * this.scale, h * this.scale];
  }

  /** The cell at a place in CSS pixels of the canvas. */
  cellAt(px, py) { return [this.left + px / this.scale, this.top + py / this.scale].map(Math.floor); }

  visible() {
    const [x0, y0, w, h] = rectangle(this.cellAt(0, 0), this.cellAt(...this.size), this.picture);
    return { x0, y0, x1: x0 + w, y1: y0 + h };
  }
}
