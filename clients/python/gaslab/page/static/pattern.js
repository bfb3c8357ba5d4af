// Patterns: the particles, walls and obstacles of a rectangle, with names of cells.
import { clamp, cover, paint } from "./shapes.js";
import { isWithin } from "./frame.js";

export const MOST_CELLS = 1 << 16;     // of a pattern
const LONGEST_NAME = 24, MOST_NAMES = 32, MOST_AFTER = 4096;
const KINDS = ["put", "wall", "block"];          // each is a command, and has the rectangles that it fills

/** A name without what a list of names is cut at. */
export const cleaned = (name) => name.replace(/[\s,]+/g, " ").trim().slice(0, LONGEST_NAME);

/** The pattern of a rectangle. `phase` tells on which side of its block a particle in the corner is. */
export function patternOf({ picture: { width, tick, particles }, walls, obstacles }, [x, y, w, h]) {
  const rects = (set) => cover([x, y, w, h], (i, j) => set[(j * width + i) >> 3] >> (7 - (i & 7)) & 1)
    .map(([i, j, ...sides]) => [i - x, j - y, ...sides]);
  return { name: "", w, h, phase: [(x + tick) & 1, (y + tick) & 1], put: rects(particles), wall: rects(walls),
    block: rects(obstacles), names: [] };
}

function mapped(pattern, changed, move) {
  const rects = Object.fromEntries(KINDS.map((kind) => [kind, pattern[kind].map(move)]));
  const names = pattern.names.map((one) => {
    const [x, y] = move([one.x, one.y, 1, 1]);
    return { ...one, x, y };
  });
  return { ...pattern, ...rects, names, ...changed };
}

/** A pattern turned by a quarter to the right. Blocks stay blocks, so what it does is turned too. */
export function turned(pattern) {
  const { w, h, phase: [a, b] } = pattern;
  return mapped(pattern, { w: h, h: w, phase: [(b + h) & 1, a] }, ([x, y, i, j]) => [h - y - j, x, j, i]);
}

/** A pattern with left and right exchanged. */
export function mirrored(pattern) {
  const { w, phase: [a, b] } = pattern;
  return mapped(pattern, { phase: [(a + w) & 1, b] }, ([x, y, i, j]) => [w - x - i, y, i, j]);
}

/** The parity that columns and rows of a pattern's corner need at a tick. */
export const parityOf = ({ phase }, { tick }) => phase.map((side) => (side + tick) & 1);

/** The corner nearest to a wanted one at which a pattern does what it did, or null if there is none. */
export function nearest(pattern, wanted, picture) {
  const free = [picture.width - pattern.w, picture.height - pattern.h], parity = parityOf(pattern, picture);
  const corner = wanted.map((v, k) => {
    const near = clamp(v, 0, free[k]), isFit = (near & 1) === parity[k];
    return isFit ? near : near < free[k] && v >= near || near === 0 ? near + 1 : near - 1;
  });
  return corner.every((v, k) => v >= 0 && v <= free[k]) ? corner : null;
}

/** Commands that add a pattern at a corner: rows where these are fewer. `has` tells what is full before. */
export function commands(pattern, [x, y], width, has) {
  const lines = (kind) => pattern[kind].map(([i, j, w, h]) => `${kind} ${x + i} ${y + j} ${w} ${h}`);
  const solids = [...lines("wall"), ...lines("block")];
  if (pattern.put.length <= pattern.h) return [...lines("put"), ...solids];
  const full = new Uint8Array(pattern.w * pattern.h);
  for (const rect of pattern.put) paint(full, pattern.w, rect, 1);
  const isFull = (i, j) => i >= 0 && i < pattern.w && full[j * pattern.w + i] || has(x + i, y + j);
  return [...Array.from({ length: pattern.h }, (_, j) => {
    const bits = Array.from({ length: width }, (_cell, i) => Number(Boolean(isFull(i - x, j)))).join("");
    return `row ${y + j} ${bits.replace(/.{4}/g, (four) => parseInt(four, 2).toString(16))}`;
  }), ...solids];
}

const isCount = (n, most) => Number.isInteger(n) && n >= 0 && n <= most;

const isText = (name) => typeof name === "string" && name !== "" && cleaned(name) === name;

function isName({ kind, name, x, y, after }, { w, h }) {
  return ["input", "output"].includes(kind) && isText(name)
    && isCount(x, w - 1) && isCount(y, h - 1) && isCount(after, MOST_AFTER);
}

function isPattern(it) {
  if (!(isCount(it?.w, 4096) && isCount(it.h, 4096))) return false;
  const area = it.w * it.h, isFew = (all, most) => Array.isArray(all) && all.length <= most;
  const isRect = (rect) => Array.isArray(rect) && rect.length === 4 && rect.every((n) => isCount(n, 4096))
    && isWithin(rect, { width: it.w, height: it.h });
  return area > 0 && area <= MOST_CELLS && isText(it.name)
    && isFew(it.phase, 2) && it.phase.length === 2 && it.phase.every((n) => isCount(n, 1))
    && KINDS.every((kind) => isFew(it[kind], MOST_CELLS) && it[kind].every(isRect))
    && isFew(it.names, MOST_NAMES) && it.names.every((one) => one && isName(one, it));
}

/** The text of a file of patterns. */
export const fileOf = (patterns) => `${JSON.stringify({ gaslab: "patterns 1", patterns }, null, 1)}\n`;

/** The patterns of such a text, or null if it is none. */
export function patternsIn(text) {
  let found = null;
  try { found = JSON.parse(text); } catch { return null; }
  const { gaslab, patterns } = found ?? {};
  if (gaslab !== "patterns 1" || !Array.isArray(patterns) || !patterns.every(isPattern)) return null;
  return patterns.map(({ name, about = "", w, h, phase, put, wall, block, names }) => ({ name,
    about: String(about).slice(0, 200), w, h, phase, put, wall, block,
    names: names.map(({ kind, name: called, x, y, after }) => ({ kind, name: called, x, y, after })) }));
}
