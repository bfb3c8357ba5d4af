// Following a particle.
import { TEXTS, told } from "./texts.js";
import { state } from "./state.js";
import { toBytes } from "./gas.js";
import { Lab, fromSnapshot } from "./engine.js";
import { view } from "./view.js";
import { notice } from "./notices.js";
import { snapshotOf } from "./files.js";

const T = TEXTS.following;

const FARTHEST = 256;           // steps between two pictures over which a particle is followed
const TRAIL = 500;         // cells

let followed = null;       // a snapshot of the gas in which a trail ends
let isNew = false;         // another gas comes: its lesson may have a particle that is followed

/** Marks a particle's cells up to the present one, which stays in sight. */
function mark(trail) {
  view.trail = trail.slice(-TRAIL);
  followed = trail.length ? snapshotOf(view) : null;
  if (followed) view.keepInSight(trail.at(-1));
}

/** Follows the particle of a cell, or none if the cell is empty. */
export function followAt([x, y]) {
  mark(view.has(x, y) ? [[x, y]] : []);
  view.redraw();
  if (!followed)
    notice({ title: T.none, text: told(T.empty, { x, y }), rect: [x, y, 1, 1] });
}

/** The cell after a step, or before one. Of two that meet head on each turns to its right. */
export function nextCell(gas, [x, y], isBack = false) {
  const { width, height } = gas, t = isBack ? gas.tick - 1 : gas.tick, [u, v] = [(x + t) & 1, (y + t) & 1];
  const cell = (i, j) => [(x - u + i + width) % width, (y - v + j + height) % height];
  const fate = view.fate(...cell(0, 0), gas);
  if (fate === "bounces") return [x, y];
  if (fate === "passes") return cell(1 - u, 1 - v);
  return (u === v) !== isBack ? cell(u, 1 - v) : cell(1 - u, v);
}

/** The cells of the lesson's particle from tick 0 on, or none if it has no such particle. */
function wayOfLesson() {
  const { follow } = state.lesson, { hasPorts, picture: { tick } } = view;
  if (!follow || hasPorts || Math.abs(tick) > FARTHEST) return [];
  const lab = new Lab(fromSnapshot(snapshotOf(view))), { gas } = lab;
  for (let n = tick; n > 0; n--) lab.back();
  for (let n = tick; n < 0; n++) lab.forward();
  if (!gas.has(...follow)) return [];
  const way = [follow], isBack = tick < 0;
  for (let n = Math.abs(tick); n > 0; n--) {
    way.push(nextCell(gas, way.at(-1), isBack));
    if (isBack) lab.back(); else lab.forward();
  }
  return way;
}

function lose(text) {
  mark(wayOfLesson());
  if (!followed) notice({ title: T.gone, text });
}

function followOn() {
  const lab = new Lab(fromSnapshot(followed)), { gas } = lab, { picture } = view, trail = [...view.trail];
  const n = picture.tick - gas.tick, isBack = n < 0;
  if (gas.width !== picture.width || gas.height !== picture.height) { mark([]); return; }
  if (Math.abs(n) > FARTHEST) { lose(told(T.far, { steps: Math.abs(n) })); return; }
  while (gas.tick !== picture.tick) {
    trail.push(nextCell(gas, trail.at(-1), isBack));
    if (isBack) lab.back(); else lab.forward();
    if (!gas.has(...trail.at(-1))) { lose(T.drained); return; }
  }
  const isSame = n === 0 || toBytes(gas.particles).every((byte, k) => byte === picture.particles[k]);
  if (isSame && view.has(...trail.at(-1))) mark(trail);
  else lose(T.changed);
}

state.on(["picture"], () => {
  if (!state.picture) {
    mark([]);
    isNew = true;
  } else if (followed) followOn();
  else if (isNew && state.lesson.follow) {
    mark(wayOfLesson());
    isNew = !followed;
  }
});
