// What is drawn: the cells, and above them grid, ports, probes and marks.
import { COLOURS, DARK_MAT, KINDS, ZOOM } from "./facts.js";
import { TEXTS, told } from "./texts.js";
import { SANS, at } from "./elements.js";
import { state } from "./state.js";
import { clamp } from "./shapes.js";
import { Viewport } from "./viewport.js";
import { drawFlow } from "./flow.js";

const T = TEXTS.view;

const MONO = "600 14px ui-monospace, 'DejaVu Sans Mono', 'Liberation Mono', monospace";
const ARROW = new Path2D("M-1-1 1 1M.05 1H1V.05");       // right and down

class View extends Viewport {
  selection = null;        // what is being drawn: { rects, colour, reach, line, bad }
  cursor = null;           // the cell of drawing by keys
  trail = [];              // cells of a particle that is followed
  layers = [];             // what draws above all else
  onDraw = () => {};       // called after each drawing

  /** Where a lesson asks for a first obstacle; gone with the first gesture. */
  get ghost() {
    const isAsked = !state.tried && state.tool === state.lesson.tool && !this.obstacles.some(Boolean);
    return isAsked && state.lesson.ghost;
  }

  /** Whether blocks are drawn. They change at each tick: if the gas plays, they would flash. */
  get hasMarks() {
    const { playing, rate } = this.picture ?? {};
    const isNear = this.scale >= ZOOM.grid && state.mode !== "density";
    return isNear && !this.isCalm && !(playing && rate > 6);
  }

  select(selection = null) { this.selection = selection; this.redraw(); }

  draw() {
    const { canvas, context: c, picture, scale, size: [cw, ch] } = this, ratio = devicePixelRatio || 1;
    const [width, height] = this.size.map((side) => Math.round(side * ratio));
    const isDensity = state.mode === "density";
    if (canvas.width !== width || canvas.height !== height) Object.assign(canvas, { width, height });
    c.setTransform(ratio, 0, 0, ratio, 0, 0);
    this.fill(state.isDark ? DARK_MAT : COLOURS.mat, [0, 0, cw, ch]);
    if (!picture) return;
    const all = this.box([0, 0, picture.width, picture.height]), pixels = scale * ratio, least = 1 / scale;
    const shown = isDensity ? this.paintDensity() : pixels <= .5 ? this.paintHalf()
      : this.paintCells(this.visible());
    Object.assign(c, { imageSmoothingEnabled: pixels < 1 && !isDensity, imageSmoothingQuality: "low" });
    c.drawImage(shown, ...all);
    for (const [[x, y, w, h], kind] of isDensity ? this.solids() : [])
      this.fill(COLOURS[KINDS[kind]], this.box([x, y, Math.max(w, least), Math.max(h, least)]));
    this.frame([all[0] - .5, all[1] - .5, all[2] + 1, all[3] + 1], [COLOURS.edge, 1]);
    if (scale >= ZOOM.grid && !isDensity) this.drawGrid();
    for (const drain of this.ports.drains) this.outline(drain, COLOURS.drainEdge, TEXTS.kinds.drain);
    for (const source of this.ports.sources) this.outline(source, COLOURS.sourceEdge,
      source[4] === 1 ? TEXTS.kinds.source : told(T.every, { period: source[4] }));
    for (const { rect, key } of picture.probes)
      this.outline(rect, COLOURS.ink, told(TEXTS.readings.probe, { key }), [5, 3]);
    drawFlow(this);
    this.drawTracers();
    if (this.trail.length) this.drawTrail();
    if (this.cursor) this.outline([...this.cursor, 1, 1], COLOURS.cursor);
    if (this.ghost && !this.selection) this.drawGhost();
    for (const layer of this.layers) layer();
    if (this.selection) this.drawSelection();
    this.onDraw();
  }

  fill(colour, box) {
    this.context.fillStyle = colour;
    this.context.fillRect(...box);
  }

  /** Strokes a path in each of these looks: [colour, width, dashes]. */
  stroke(path, ...looks) {
    const { context: c } = this;
    for (const [strokeStyle, lineWidth, dash = []] of looks) {
      Object.assign(c, { strokeStyle, lineWidth });
      c.setLineDash(dash);
      c.stroke(path);
    }
  }

  frame(box, ...looks) { this.stroke(outlined(box), ...looks); }

  drawGrid() {
    const { scale } = this, t = this.parity, { x0, y0, x1, y1 } = this.visible();
    const [left, top, w, h] = this.box([x0, y0, x1 - x0, y1 - y0]);
    const at = (cells, from) => Math.round((cells - from) * scale) + .5;
    const lines = (x, y, step, ...look) => {
      let path = "";
      for (; x <= x1; x += step) path += `M${at(x, this.left)} ${top}v${h}`;
      for (; y <= y1; y += step) path += `M${left} ${at(y, this.top)}h${w}`;
      this.stroke(new Path2D(path), look);
    };
    lines(x0, y0, 1, COLOURS.grid, 1);
    if (!this.hasMarks) return;
    lines(x0 + ((x0 + t) & 1), y0 + ((y0 + t) & 1), 2, COLOURS.blocks, scale >= 22 ? 2 : 1.25);
    if (scale >= ZOOM.arrows) this.drawArrows(x0, y0, x1, y1);
    this.drawMarks(x0 - 1 + ((x0 - 1 + t) & 1), y0 - 1 + ((y0 - 1 + t) & 1), x1, y1);
  }

  /** A ring round each block in which particles collide, dashed where they bounce. */
  drawMarks(x0, y0, x1, y1) {
    const { context: c } = this, { width, height } = this.picture, { ink, white, halo } = COLOURS;
    const looks = { collides: [[white, 5], [ink, 2.5]], bounces: [[halo, 4], [ink, 2, [4, 3]]] };
    c.save();
    c.clip(outlined(this.box([0, 0, width, height])));
    for (let y = y0; y < y1; y += 2) for (let x = x0; x < x1; x += 2) {
      const [bx, by, w] = this.box([x, y, 2, 2]);
      const look = looks[this.fate((x + width) % width, (y + height) % height)] ?? [];
      this.stroke(outlined([bx + 1.5, by + 1.5, w - 3, w - 3], this.scale / 2.5), ...look);
    }
    c.restore();
  }

  /** An arrow in each particle: dark on yellow, orange and sky blue. */
  drawArrows(x0, y0, x1, y1) {
    const { context: c, scale } = this, r = scale * .27, light = new Path2D(), dark = new Path2D();
    for (let y = y0; y < y1; y++) for (let x = x0; x < x1; x++) {
      if (!this.has(x, y)) continue;
      const [vx, vy] = this.way(x, y), [e, f] = this.box([x + .5, y + .5, 0, 0]);
      const isYellow = state.mode === "velocity" && vx !== vy;
      (isYellow || this.isSolidAt(x, y) ? dark : light).addPath(ARROW, { a: vx * r, d: vy * r, e, f });
    }
    c.save();
    c.lineCap = c.lineJoin = "round";
    this.stroke(light, [COLOURS.white, Math.max(1.25, scale / 14)]);
    this.stroke(dark, [COLOURS.ink, Math.max(1.25, scale / 14)]);
    c.restore();
  }

  /** The line through the middles of cells, broken where it leaves the lattice on one side. */
  wayOf(cells) {
    const path = new Path2D();
    cells.forEach(([x, y], k) => {
      const [a, b] = cells[k - 1] ?? [x, y], isNear = Math.abs(a - x) <= 1 && Math.abs(b - y) <= 1;
      const [px, py] = this.box([x + .5, y + .5, 0, 0]);
      if (k && isNear) path.lineTo(px, py); else path.moveTo(px, py);
    });
    return path;
  }

  drawTrail() {
    const { scale, trail } = this;
    this.stroke(this.wayOf(trail), [COLOURS.mark, Math.max(2, scale / 8)]);
    this.outline([...trail.at(-1), 1, 1], COLOURS.mark);
  }

  /** Rings with the way behind them: white and dark, so that they are seen on each colour. */
  drawTracers() {
    const { context: c, scale } = this, radius = Math.max(2.5, scale * .45);
    for (const cells of this.tracers) {
      const [x, y] = this.box([cells.at(-1)[0] + .5, cells.at(-1)[1] + .5, 0, 0]), ring = new Path2D();
      ring.arc(x, y, radius, 0, 2 * Math.PI);
      this.stroke(this.wayOf(cells), [COLOURS.white, 3], [COLOURS.ink, 1.25]);
      c.fillStyle = COLOURS.white;
      c.fill(ring);
      this.stroke(ring, [COLOURS.ink, 2]);
    }
  }

  outline(rect, colour, name = "", dash = []) {
    const { context: c } = this, box = this.box(rect), [x, y, w, h] = box;
    this.frame(box, [COLOURS.white, 3.5, dash], [colour, 1.75, dash]);
    if (!name || h < 14 || w < 11) return;
    c.save();
    this.tag(name, colour, (wide) => {
      if (h <= wide || w >= wide + 8)
        return w > wide + 4 && h > 24 ? [x + 3, y + 3] : [x - .9, y < 18 ? y + 2 : y - 18];
      // narrow ports have their name upright
      c.translate(x + w / 2, y + h / 2);
      c.rotate(-Math.PI / 2);
      return [-wide / 2, -8];
    });
    c.restore();
  }

  /** Writes a text on a ground. `place` tells the upper left corner when the width is known. */
  tag(text, colour, place, { font = `600 12px ${SANS}`, height = 16, pad = 4 } = {}) {
    const { context: c } = this;
    Object.assign(c, { font, textBaseline: "middle", fillStyle: colour });
    const width = c.measureText(text).width + 2 * pad, [x, y] = place(width);
    c.fill(outlined([x, y, width, height], height / 5));
    c.fillStyle = COLOURS.white;
    c.fillText(text, x + pad, y + height / 2 + .5);
  }

  drawGhost() {
    const box = this.box(this.ghost), [x, y, w, h] = box;
    this.fill(COLOURS.ghost, box);
    this.frame(box, [COLOURS.mark, 2, [6, 4]]);
    this.tag(T.draw, COLOURS.mark, (wide) => [x + w / 2 - wide / 2, y + h + 6],
      { font: `600 13px ${SANS}`, height: 21, pad: 6 });
  }

  /** What is being drawn. A dashed line shows where a wall stops particles: one cell more on each side. */
  drawSelection() {
    const { context: c, selection: { rects, colour, reach, line, bad }, size: [cw, ch] } = this;
    const isOne = rects.length === 1, [x, y, w, h] = rects[0], [left, top, , tall] = this.box(rects.at(-1));
    c.globalAlpha = .68;
    for (const rect of rects) this.fill(colour, this.box(rect));
    c.globalAlpha = 1;
    if (isOne) this.frame(this.box(rects[0]), [COLOURS.white, 4], [bad ? COLOURS.bad : COLOURS.ink, 2]);
    if (isOne && reach && this.scale >= 4)
      this.frame(this.box([x - 1, y - 1, w + 2, h + 2]), [COLOURS.mark, 1.5, [4, 4]]);
    const below = top + tall + 12, above = top - 38 > 0 ? top - 38 : 6;
    if (!bad) this.tag(line, COLOURS.ink,
      (wide) => [clamp(left, 4, cw - wide - 4), below + 26 < ch ? below : above],
      { font: MONO, height: 26, pad: 8 });
  }
}

function outlined(box, radius = 0) {
  const path = new Path2D();
  path.roundRect(...box, radius);
  return path;
}

export const view = new View(at("gas"));
state.on(["isDark"], () => view.redraw());
state.on(["picture"], () => { if (!state.picture) view.forget(); });
