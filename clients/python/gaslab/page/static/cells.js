// The gas of the last picture: what is in its cells, and what its blocks do next.
import { KINDS } from "./facts.js";
import { cover, paint } from "./shapes.js";

const [, DRAIN, SOURCE, WALL, OBSTACLE] = KINDS.keys();            // of several that meet, the last is seen
export const isSolid = (kind) => kind >= WALL;
const POP = [0, 1, 1, 2, 1, 2, 2, 3, 1, 2, 2, 3, 2, 3, 3, 4];      // particles in four cells

/** The side of a square for densities, by the size of a lattice. */
export const squareOf = ({ width, height }) =>
  width * height <= 1 << 16 ? 4 : width * height <= 1 << 20 ? 8 : 16;

/** How many particles are in each square of q by q cells. */
export function countSquares({ width, height, particles }, q) {
  const across = width / q, counts = new Uint16Array(across * height / q);
  for (let y = 0, at = 0; y < height; y++) for (let x = 0; x < width; x += 8, at++) {
    const first = Math.floor(y / q) * across;
    counts[first + Math.floor(x / q)] += POP[particles[at] >> 4];
    counts[first + Math.floor((x + 4) / q)] += POP[particles[at] & 15];
  }
  return counts;
}

export class Cells {
  picture = null;
  walls = null;
  obstacles = null;
  ports = { drains: [], sources: [] };

  get hasPorts() { return this.ports.drains.length + this.ports.sources.length > 0; }

  /** Takes a picture in. Returns whether it has other sides than the one before. */
  setPicture(picture) {
    const { width, height } = picture, { picture: before } = this;
    const isResized = before?.width !== width || before.height !== height;
    if (isResized && !(picture.walls && picture.ports)) throw new RangeError("walls and ports");
    const { walls = this.walls, obstacles = this.obstacles, ports = this.ports } = picture;
    Object.assign(this, { picture, walls, obstacles, ports });
    if (picture.walls || picture.ports) this.remark();
    return isResized;
  }

  /** Finds what each cell lies on. */
  remark() {
    const { picture: { width, height }, walls, obstacles, ports: { drains, sources } } = this;
    const ground = new Uint8Array(width * height);           // a place in KINDS
    for (const drain of drains) paint(ground, width, drain, DRAIN);
    for (const source of sources) paint(ground, width, source, SOURCE);
    for (let at = 0, cell = 0; at < walls.length; at++) for (let bit = 128; bit; bit >>= 1, cell++)
      if ((walls[at] | obstacles[at]) & bit) ground[cell] = obstacles[at] & bit ? OBSTACLE : WALL;
    Object.assign(this, { ground, rectangles: null, halfGround: null });
  }

  get parity() { return this.picture.tick & 1; }

  has(x, y) {
    const at = y * this.picture.width + x;
    return this.picture.particles[at >> 3] >> (7 - (at & 7)) & 1;
  }

  /** The way of a particle in a cell at the present tick: [1 right or -1 left, 1 down or -1 up]. */
  way(x, y) { const t = this.parity; return [(x + t) & 1 ? -1 : 1, (y + t) & 1 ? -1 : 1]; }
  isSolidAt(x, y) { return isSolid(this.ground[y * this.picture.width + x]); }

  /** What a block of this gas, or of one of the same size, does in a step: a name in FATES. */
  fate(x, y, gas = this) {
    const { width, height } = this.picture;
    const cells = [0, 1, 2, 3].map((k) => [(x + (k & 1)) % width, (y + (k >> 1)) % height]);
    const held = cells.map((cell) => gas.has(...cell)), n = held.filter(Boolean).length;
    if (n === 0) return "empty";
    if (cells.some((cell) => gas.isSolidAt(...cell))) return "bounces";
    return n === 2 && held[0] === held[3] ? "collides" : "passes";
  }

  /** Walls and obstacles as rectangles with their kind, found once after each edit. */
  solids() {
    const { picture: { width, height }, ground } = this;
    return this.rectangles ??= [WALL, OBSTACLE].flatMap((kind) =>
      cover([0, 0, width, height], (x, y) => ground[y * width + x] === kind).map((rect) => [rect, kind]));
  }
}
