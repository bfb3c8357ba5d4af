// Pixels of a gas: packed bits into ImageData, one pixel a cell, 2 by 2 cells or a square.
import { COLOURS, KINDS, RAMP } from "./facts.js";
import { h } from "./elements.js";
import { state } from "./state.js";
import { clamp } from "./shapes.js";
import { Cells, countSquares, isSolid } from "./cells.js";

const rgb = (r, g, b) => (255 << 24 | b << 16 | g << 8 | r) >>> 0;      // as ImageData has it, little-endian
export const parts = (hex) => [1, 3, 5].map((k) => parseInt(hex.slice(k, k + 2), 16));
const C = Object.fromEntries(Object.entries(COLOURS).map(([name, hex]) => [name, rgb(...parts(hex))]));
const GROUNDS = KINDS.map((name) => C[name || "empty"]);
const WHOLE = 4;           // pictures of a mean, which a stream of a period of four ticks leaves as it is
const STALE = 16;          // pictures after which one is too old for a mean
const HELD = 500;          // milliseconds from a mean of fewer pictures to the next
const FLASHING = 21800;    // pixels that may change more than three times a second
const BIG = 1 << 20;       // cells from which no mean of pictures is made
const MEAN = 8;            // pictures of a mean density

function mix(pixels, weights) {
  const whole = weights.reduce((a, b) => a + b);
  return rgb(...[0, 8, 16].map((shift) =>
    Math.round(pixels.reduce((sum, pixel, k) => sum + weights[k] * (pixel >>> shift & 255), 0) / whole)));
}

const STOPS = RAMP.map((hex) => rgb(...parts(hex)));
const SHADES = Uint32Array.from({ length: 256 }, (_, n) => {
  const place = n / 85, low = Math.min(Math.floor(place), 2);
  return mix(STOPS.slice(low, low + 2), [low + 1 - place, place - low]);
});

class Sheet {
  constructor() { this.canvas = h("canvas"); this.context = this.canvas.getContext("2d"); }

  resize(width, height) {
    if (this.image?.width === width && this.image.height === height) return;
    Object.assign(this.canvas, { width, height });
    this.image = new ImageData(width, height);
    this.pixels = new Uint32Array(this.image.data.buffer);
  }

  put(...part) { this.context.putImageData(this.image, 0, 0, ...part); return this.canvas; }
}

export class Painter extends Cells {
  scale = 8;               // CSS pixels a cell
  shades = [0, 1];         // the densities of the first and the last shade
  recent = [];             // the last pictures of four ticks
  isCalm = false;          // their mean is drawn
  meant = [];              // those of the mean that was drawn last
  fewerAt = -HELD;         // when a mean of fewer pictures was drawn last
  isLast = false;          // the next picture is of another gas
  isHeld = false;          // the gas was paused, and is shown as it was when it played
  past = [];               // counts of the last pictures for a mean density
  tracers = [];            // the last cells of some particles of a stream
  full = new Sheet();
  half = new Sheet();
  coarse = new Sheet();

  setPicture(picture) {
    const isResized = super.setPicture(picture);
    this.remember(picture, isResized || this.isLast);
    if (isResized) this.full.resize(picture.width, picture.height);
    if (isResized || this.isLast) this.past = [];
    this.isLast = false;
    return isResized;
  }

  /** Another gas comes with the next picture: nothing of this one is drawn with it. */
  forget() { Object.assign(this, { isLast: true, tracers: [] }); }

  /**
   * Keeps the last pictures of four ticks for a mean, where single ticks would flash: WCAG 2.3.1. A pause
   * shows what was shown, until the gas is stepped or its particles are changed.
   */
  remember(p, isOther) {
    const last = isOther ? null : this.recent.at(-1), isBefore = !last || p.number < last.number;
    this.isHeld = !p.playing && !isBefore && (last.playing || this.isHeld && p.tick === last.tick
      && p.particles.every((byte, k) => byte === last.particles[k]));
    const isNew = isBefore || !p.playing && !this.isHeld, steps = p.playing ? p.steps : last?.steps;
    const canFlash = p.playing && p.rate > 3 && p.width * p.height <= BIG;
    // one of each, also when pictures are skipped
    const phase = Math.floor(p.tick / Math.max(steps ?? 1, 1)) & 3;
    const kept = this.recent.filter((r) => !isNew && r.phase !== phase && p.number - r.number < STALE);
    const { number, tick, playing, particles } = p;
    this.recent = [...kept, { phase, number, tick, playing, particles, steps }];
    this.isCalm = this.isHeld ? this.isCalm
      : canFlash && (this.isCalm && !isNew || 2 * p.tally[0] * this.scale ** 2 > FLASHING);
    if (isNew || !this.isCalm) this.meant = [];
  }

  /**
   * The pictures whose mean is drawn. If a slow machine skips some, the mean of the others has other colours.
   * Two such means a second don't flash, with all that moves above them. Until the next the last one stays.
   */
  get blended() {
    const { recent, meant, fewerAt, isHeld } = this, now = document.timeline.currentTime;
    const isWhole = recent.length === WHOLE;
    if (!isWhole && meant.length > 0 && (isHeld || now < fewerAt + HELD)) return meant;
    Object.assign(this, { meant: recent, fewerAt: isWhole ? fewerAt : now });
    return recent;
  }

  /** Packed bits to pixels for the cells that are seen: the last picture, or the mean of the last. */
  paintCells({ x0, y0, x1, y1 }, isMean = this.isCalm) {
    const { picture: { width }, ground, full: { pixels } } = this;
    const shown = isMean ? this.blended : this.recent.slice(-1), colours = this.means(shown);
    const [a, b, c, d] = [0, 1, 2, 3].map((k) => (shown[k] ?? shown[0]).particles);
    for (let y = y0; y < y1; y++) for (let x = x0, cell = y * width + x0; x < x1; x++, cell++) {
      const at = cell >> 3, bit = 7 - (x & 7);
      const held = a[at] >> bit & 1 | (b[at] >> bit & 1) << 1
        | (c[at] >> bit & 1) << 2 | (d[at] >> bit & 1) << 3;
      pixels[cell] = colours[ground[cell] << 6 | (y & 1) << 5 | (x & 1) << 4 | held];
    }
    return this.full.put(x0, y0, x1 - x0, y1 - y0);
  }

  /** The colour of a particle in a cell of a kind. */
  colourOf(kind, x, y, tick) {
    return isSolid(kind) ? C.hit : state.mode !== "velocity" ? C.particle
      : [C.rightDown, C.leftDown, C.rightUp, C.leftUp][(y + tick & 1) << 1 | x + tick & 1];
  }

  /** The mean colours of each ground, parity of row and column, and pattern of pictures. */
  means(pictures) {
    const weights = pictures.map(() => 1);
    return Uint32Array.from({ length: 320 }, (_, n) => mix(pictures.map(({ tick }, k) =>
      n >> k & 1 ? this.colourOf(n >> 6, n >> 4, n >> 5, tick) : GROUNDS[n >> 6]), weights));
  }

  /** Half as wide and high, for big lattices: a pixel is the mean of 2 by 2 cells. */
  paintHalf() {
    const { picture: { width, height, particles }, half } = this, bytes = width / 8;
    half.resize(width / 2, height / 2);
    const { pixels } = half, colours = this.patterns(), ground = this.halfGround ??= this.halve();
    for (let y = 0, k = 0; y < height; y += 2) for (let at = y * bytes; at < (y + 1) * bytes; at++) {
      const upper = particles[at], lower = particles[at + bytes];
      for (let bits = 6; bits >= 0; bits -= 2, k++)
        pixels[k] = colours[ground[k] << 4 | (upper >> bits & 3) << 2 | lower >> bits & 3];
    }
    return half.put();
  }

  /** What 2 by 2 cells lie on together. */
  halve() {
    const { picture: { width, height }, ground } = this, halves = new Uint8Array(ground.length / 4);
    for (let y = 0, k = 0; y < height; y += 2) for (let x = 0; x < width; x += 2, k++) {
      const cell = y * width + x, below = cell + width;
      halves[k] = Math.max(ground[cell], ground[cell + 1], ground[below], ground[below + 1]);
    }
    return halves;
  }

  /** The mean colours of the patterns of 2 by 2 cells on each ground: upper left is bit 3. */
  patterns() {
    const { tick } = this.picture, even = [1, 1, 1, 1];
    const colour = (n, k) => n >> (3 - k) & 1 ? this.colourOf(n >> 4, k & 1, k >> 1, tick) : GROUNDS[n >> 4];
    return Uint32Array.from({ length: 80 }, (_, n) => isSolid(n >> 4) ? GROUNDS[n >> 4]
      : mix(even.map((_one, k) => colour(n, k)), even));
  }

  paintDensity() {
    const { width, height, number } = this.picture, { square: q, range, isMean } = state;
    const past = this.past.filter((one) => one.square === q && one.number !== number);
    this.past = [...past, { number, square: q, counts: countSquares(this.picture, q) }]
      .slice(isMean ? -MEAN : -1);
    this.coarse.resize(width / q, height / q);
    const { pixels } = this.coarse, sums = new Float32Array(pixels.length);
    for (const { counts } of this.past) for (let k = 0; k < sums.length; k++) sums[k] += counts[k];
    const whole = q * q * this.past.length;
    this.shades = range === "middle" ? [.25, .75] : range === "full" ? [0, 1]
      : [Math.min, Math.max].map((pick) => sums.reduce((a, b) => pick(a, b)) / whole);
    const [low, high] = this.shades, factor = 255 / ((high - low) * whole || 1);
    for (let k = 0; k < sums.length; k++)
      pixels[k] = SHADES[clamp(Math.round((sums[k] - low * whole) * factor), 0, 255)];
    return this.coarse.put();
  }
}
