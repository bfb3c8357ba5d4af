// Some particles of a stream that plays, followed: the mean of its pictures alone stands still.
import { toBytes } from "./gas.js";
import { Lab, fromSnapshot } from "./engine.js";
import { state } from "./state.js";
import { clamp } from "./shapes.js";
import { view } from "./view.js";
import { snapshotOf } from "./files.js";
import { nextCell } from "./following.js";

const MANY = 16, FEW = 6;       // particles, by the size at which the gas is seen
const TAIL = 8;                 // cells of the way behind each
const CELLS = 1 << 16;          // of the largest lattice in which they are followed
const WORK = 1 << 18;           // cells, times steps between two pictures, over which they are followed
const TRIES = 40;               // cells that are looked at for another particle
let lab = null;                 // the gas of the last picture, from which it is stepped to the next

/** One more particle: one that a source sent, or any if few are followed. None if no such cell is found. */
function another() {
  const { tracers, scale, picture: { width, height }, ports: { sources } } = view;
  const most = clamp(Math.round(2 * scale), FEW, MANY);
  if (tracers.length >= most) return [];
  for (let k = 0; k < TRIES; k++) {
    const [x, y, w, h] = tracers.length < most / 2 ? [0, 0, width, height]
      : sources[Math.floor(Math.random() * sources.length)];
    const cell = [x + Math.floor(Math.random() * w), y + Math.floor(Math.random() * h)];
    if (view.has(...cell) && !view.isSolidAt(...cell)) return [[cell]];
  }
  return [];
}

/** Moves all to the present tick. None is left if the gas was changed meanwhile. */
function moveAll({ tick, particles }) {
  const { gas } = lab;
  let all = view.tracers;
  while (gas.tick < tick) {
    all = all.map((way) => [...way.slice(1 - TAIL), nextCell(gas, way.at(-1))]);
    lab.forward();
    all = all.filter((way) => gas.has(...way.at(-1)));
  }
  return toBytes(gas.particles).every((byte, k) => byte === particles[k]) ? all : [];
}

function trace() {
  const { picture: p, ports: { sources }, isHeld } = view, far = lab ? p.tick - lab.gas.tick : -1;
  const isSized = lab?.gas.width === p.width && lab.gas.height === p.height;
  const isFollowed = (p.playing || isHeld) && sources.length > 0 && p.width * p.height <= CELLS;
  const isNear = isFollowed && isSized && far >= 0 && far * p.width * p.height <= WORK;
  view.tracers = isNear ? moveAll(p) : [];
  const isLost = view.tracers.length === 0;
  if (isFollowed && p.playing) view.tracers.push(...another());
  if (!isFollowed) lab = null;
  else if (!isNear || p.walls || p.ports || isLost) lab = new Lab(fromSnapshot(snapshotOf(view)));
}

state.on(["picture"], () => { if (state.picture) trace(); });
