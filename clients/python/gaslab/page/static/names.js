// Names of cells: inputs and outputs of gates. They are this page's own: no script or other seat has them.
import { state } from "./state.js";
import { view } from "./view.js";
import { stored } from "./files.js";
import { cleaned } from "./pattern.js";

const KEPT = "gaslab-names";
const before = new WeakMap();          // of each edit that came with names: the names before it
let kept = JSON.parse(stored("sessionStorage", KEPT) ?? "null"), lesson = null, isNew = true;
stored("sessionStorage", KEPT, "null");

/** A name that no other cell has: with a number behind it if it must be. */
export function unique(name, names = state.names) {
  const isTaken = (text) => names.some((one) => one.name === text);
  for (let n = 1; ; n++) {
    const text = n === 1 ? name : `${cleaned(name).slice(0, 20)} ${n}`;
    if (!isTaken(text)) return text;
  }
}

export const inputs = () => state.names.filter(({ kind }) => kind === "input");
export const outputs = () => state.names.filter(({ kind }) => kind === "output");

const isIn = ([x, y, w, h]) => ({ cell: [i, j] }) => i >= x && i < x + w && j >= y && j < y + h;
const isComing = ({ tick }) => tick >= view.picture.tick;

/** The names in a rectangle, as a pattern has them: `after` so many steps. Past ones are no part of it. */
export function namesIn(rect) {
  return state.names.filter((one) => isIn(rect)(one) && isComing(one)).map(({ kind, name, cell, tick }) =>
    ({ kind, name, x: cell[0] - rect[0], y: cell[1] - rect[1], after: tick - view.picture.tick }));
}

/** Moves names by an edit: those in a rectangle go, and those of a pattern at a corner come. */
export function moveNames(edit, from, pattern, [x, y] = []) {
  const old = state.names, tick = view.picture.tick;
  const names = from ? old.filter((one) => !(isIn(from)(one) && isComing(one))) : [...old];
  for (const one of pattern?.names ?? [])
    names.push({ kind: one.kind, name: unique(one.name, names), cell: [x + one.x, y + one.y],
      tick: tick + one.after });
  if (edit) before.set(edit, old);
  state.change({ names });
}

state.on(["undone"], () => {
  if (before.has(state.undone)) state.change({ names: before.get(state.undone) });
});
state.on(["names"], () => view.redraw());
state.on(["picture"], () => {
  // a new journal for the same gas opens it again, and its names stay
  if (!state.picture) isNew = true;
  else if (isNew) {
    if (kept || state.lesson !== lesson || state.loading)
      state.change({ names: kept ?? state.lesson.names ?? [] });
    lesson = state.lesson;
    kept = null;
    isNew = false;
  }
});
addEventListener("pagehide", () => {
  if (state.picture && state.worked) stored("sessionStorage", KEPT, JSON.stringify(state.names));
});
