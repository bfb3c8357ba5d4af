// Gestures on the gas, by mouse, pen or fingers.
import { FATES, KINDS } from "./facts.js";
import { TEXTS, told } from "./texts.js";
import { words } from "./elements.js";
import { state } from "./state.js";
import { view } from "./view.js";
import { hideNotice } from "./notices.js";
import { act, nameOf, own, preview } from "./drawing.js";
import { showWords } from "./toolbar.js";
import { leaveCursor } from "./cursor.js";

const T = TEXTS.gestures;

const FAR = 8;             // pixels that a finger moves before it scrolls
const pointers = new Map();
const { canvas } = view;
let gesture = null;        // { kind: "draw", "wait", "move" or "over", .. }

const cellOf = (e) => view.cellAt(e.offsetX, e.offsetY);

canvas.onpointerdown = (e) => {
  if (!view.picture) return;
  canvas.setPointerCapture(e.pointerId);
  pointers.set(e.pointerId, e);
  hideNotice();
  leaveCursor();
  const cell = cellOf(e), before = spread(), isLone = pointers.size === 1;
  const canDraw = state.tool !== "look" && !e.altKey && view.holds(cell) && e.button === 0;
  if (isLone && e.button > 1) return;
  if (isLone && canDraw) draw(cell);
  else if (isLone && e.pointerType === "touch") gesture = { kind: "wait", cell, before };
  else {
    gesture = { kind: "move", before };
    leave();
    e.preventDefault();
  }
};

canvas.onpointermove = (e) => {
  if (!view.picture) return;
  if (pointers.has(e.pointerId)) pointers.set(e.pointerId, e);
  if (!gesture) { if (!own[state.tool]?.hover(cellOf(e))) describe(cellOf(e)); }
  else if (gesture.kind === "draw") draw(...gesture.cells, cellOf(e));
  else if (gesture.kind !== "over") move(e);
};

canvas.onpointerup = canvas.onpointercancel = (e) => {
  const was = gesture;
  pointers.delete(e.pointerId);
  gesture = pointers.size > 0 ? { kind: "over" } : null;           // a finger that stays draws nothing
  if (was?.kind === "wait") describe(was.cell);
  else if (was?.kind === "draw" && e.type === "pointerup") act(was.cells);
  else leave();
};

// a finger leaves when it is lifted, and what was said stays
canvas.onpointerleave = ({ pointerType }) => { if (!gesture && pointerType !== "touch") showWords(); };

canvas.addEventListener("wheel", (e) => {
  if (!view.picture) return;
  e.preventDefault();
  view.zoom(Math.exp(-e.deltaY * (e.deltaMode ? .05 : .0016)), e.offsetX, e.offsetY);
}, { passive: false });

function draw(...cells) {
  gesture = { kind: "draw", cells };
  preview(cells);
}

/** Ends a gesture that does nothing. */
function leave() {
  own[state.tool]?.leave();
  view.select();
}

/** The middle of the pointers, and how far they are apart. */
function spread() {
  const all = [...pointers.values()], a = all[0], b = all.at(-1);
  return { x: (a.x + b.x) / 2, y: (a.y + b.y) / 2, far: Math.hypot(a.x - b.x, a.y - b.y) };
}

/** Moves the gas, and zooms it by two fingers. One on a gas that is seen whole scrolls the page. */
function move({ pointerType }) {
  const now = spread(), { kind, before } = gesture, dx = now.x - before.x, dy = now.y - before.y;
  if (kind === "wait" && Math.hypot(dx, dy) <= FAR) return;
  const { left, top } = canvas.getBoundingClientRect();
  if (pointers.size > 1) view.zoom(now.far / before.far, now.x - left, now.y - top);
  if (pointerType === "touch" && view.fitted) scrollBy(0, -dy);
  else view.pan(dx, dy);
  gesture = { kind: "move", before: now };
}

/** Says what is in a cell, and what its block does next. */
function describe([x, y]) {
  if (!view.holds([x, y])) { showWords(); return; }
  const { width, height } = view.picture, t = view.parity, way = nameOf(view.way(x, y));
  const kind = TEXTS.kinds[KINDS[view.ground[y * width + x]]];
  const bx = (x - ((x + t) & 1) + width) % width, by = (y - ((y + t) & 1) + height) % height;
  const held = view.has(x, y) ? told(T.particle, { way }) : kind ? ""
    : state.tool === "put" ? told(T.here, { way }) : T.empty;
  const what = [kind, held].filter(Boolean).join(", "), fate = FATES[view.fate(bx, by)];
  showWords(...words(told(T.cell, { x, y, what, bx, by, fate }), "b"));
}
