// A gas of the page's engine: cells, the block rule and sums. Nothing here is proved.
// A row is width/32 words. The left cell is the highest bit, as in FORMATS.md, "Rows of cells".

const LEFT = 0xAAAAAAAA | 0;           // even columns of a word

function popcount(v) {
  v -= (v >>> 1) & 0x55555555;
  v = (v & 0x33333333) + ((v >>> 2) & 0x33333333);
  return Math.imul((v + (v >>> 4)) & 0x0F0F0F0F, 0x01010101) >>> 24;
}

/** The mask of columns x .. x+w-1 in word k. */
function span(x, w, k) {
  const from = Math.max(x - 32 * k, 0), to = Math.min(x + w - 32 * k, 32);
  return to === 32 ? -1 >>> from : (-1 >>> from) & ~(-1 >>> to);
}

/** Particles, walls, obstacles and ports of one torus. */
export class Gas {
  drains = [];
  sources = [];
  solids = [];             // of each parity, made when first needed; another list after each edit

  constructor(width, height, tick = 0) {
    const words = width / 32, cells = () => new Int32Array(words * height);
    Object.assign(this, { width, height, tick, words, particles: cells(), walls: cells(), obstacles: cells(),
      spare: cells() });
  }

  get parity() { return this.tick & 1; }
  get hasPorts() { return this.drains.length + this.sources.length > 0; }

  has(x, y, set = this.particles) { return set[y * this.words + (x >> 5)] >>> (31 - x % 32) & 1; }
  isSolidAt(x, y) { return this.has(x, y, this.walls) || this.has(x, y, this.obstacles); }

  fill(set, [x, y, w, h], on) {
    for (let k = x >> 5; k <= (x + w - 1) >> 5; k++) {
      const mask = span(x, w, k);
      for (let at = y * this.words + k; at < (y + h) * this.words; at += this.words)
        set[at] = on ? set[at] | mask : set[at] & ~mask;
    }
  }

  /** Moves cells left and up by one, where odd blocks lie as even ones, or back if `by` is -1. */
  move(set, by, out) {
    const { words, height } = this, last = words - 1;
    for (let y = 0; y < height; y++) {
      const from = y * words, to = (y + height - by) % height * words;
      for (let k = 0; k < words; k++) out[to + k] = by > 0
        ? set[from + k] << 1 | set[from + (k < last ? k + 1 : 0)] >>> 31
        : set[from + k] >>> 1 | set[from + (k > 0 ? k - 1 : last)] << 31;
    }
    return out;
  }

  /** The cells of solid blocks: all as `move` lays them, of obstacles, of walls; and a rectangle around. */
  solid() {
    const { words, height, parity, particles: { length } } = this, all = new Int32Array(length);
    const blocks = (set) => {
      const out = parity ? this.move(set, 1, new Int32Array(length)) : set.slice();
      for (let y = 0; y < height; y += 2) for (let a = y * words, b = a + words, end = b; a < end; a++, b++) {
        const both = out[a] | out[b], left = (both | both << 1) & LEFT;
        all[a] = all[b] |= out[a] = out[b] = left | left >>> 1;
      }
      return parity ? this.move(out, -1, new Int32Array(length)) : out;
    };
    const walls = blocks(this.walls), obstacles = blocks(this.obstacles), has = (v, k) => v | obstacles[k];
    const top = Math.floor(walls.findIndex(has) / words), last = Math.floor(walls.findLastIndex(has) / words);
    return { all, obstacles, walls: walls.map((v, k) => v & ~obstacles[k]),
      rect: top >= 0 && [0, top, this.width, last - top + 1] };
  }

  /** Applies the block rule of the present tick. Returns the cells of solid blocks, whose particles stay. */
  turn() {
    const { words, height, parity, particles } = this, solid = this.solids[parity] ??= this.solid();
    const set = parity ? this.move(particles, 1, this.spare) : particles, { all } = solid;
    for (let y = 0; y < height; y += 2) for (let a = y * words, b = a + words, end = b; a < end; a++, b++) {
      const u = set[a], l = set[b], stays = all[a];
      const ul = u & LEFT, ur = (u << 1) & LEFT, ll = l & LEFT, lr = (l << 1) & LEFT;
      const lone = (ul ^ ur) & ~((ul ^ lr) | (ur ^ ll));
      set[a] = u & stays | (lr ^ lone | (ll ^ lone) >>> 1) & ~stays;
      set[b] = l & stays | (ur ^ lone | (ul ^ lone) >>> 1) & ~stays;
    }
    if (parity) this.move(set, -1, particles);
    return solid;
  }

  /** [count, px, py] in a rectangle, of cells of a set that are in another too, or aren't if `not` is -1. */
  sums([x, y, w, h] = [0, 0, this.width, this.height], set = this.particles, other = set, not = 0) {
    const t = this.parity, out = [0, 0, 0], first = x >> 5, count = ((x + w - 1) >> 5) - first + 1;
    const masks = Int32Array.from({ length: count }, (_, k) => span(x, w, first + k));
    for (let j = y; j < y + h; j++) {
      let even = 0, odd = 0;
      for (let k = 0, at = j * this.words + first; k < count; k++, at++) {
        const v = set[at] & (other[at] ^ not) & masks[k];
        if (v === 0) continue;
        even += popcount(v & LEFT);
        odd += popcount(v & ~LEFT);
      }
      out[0] += even + odd;
      out[1] += t ? odd - even : even - odd;
      out[2] += (j + t) % 2 ? -(even + odd) : even + odd;
    }
    return out;
  }
}

/** A set of cells as bytes, rows 0 to height-1, the left cell in the highest bit. */
export function toBytes(set) {
  const view = new DataView(new ArrayBuffer(4 * set.length));
  set.forEach((word, k) => view.setInt32(4 * k, word));
  return new Uint8Array(view.buffer);
}

export const hexOf = (words) => Array.from(words, (v) => (v >>> 0).toString(16).padStart(8, "0")).join("");
