// The tool "Select": a rectangle of the gas, and a pattern that is held over the gas until it is put.
import { ALWAYS, CURSOR } from "./facts.js";
import { TEXTS, told } from "./texts.js";
import { isRefusal, say as shown } from "./wording.js";
import { button, words } from "./elements.js";
import { state } from "./state.js";
import { rectangle } from "./shapes.js";
import { view } from "./view.js";
import { hideNotice, notice, speak } from "./notices.js";
import { pause, send } from "./session.js";
import { edits } from "./edits.js";
import { own } from "./drawing.js";
import { showWords } from "./toolbar.js";
import { openDialog } from "./dialog.js";
import { MOST_CELLS, commands, mirrored, nearest, parityOf, patternOf, turned } from "./pattern.js";
import { moveNames, namesIn } from "./names.js";
import { nameCells } from "./naming.js";

const T = TEXTS.selecting;

let copied = null;         // a pattern

const middle = ({ w, h }) => [w >> 1, h >> 1];
const isIn = ([x, y, w, h]) => (i, j) => i >= x && i < x + w && j >= y && j < y + h;
const stop = async () => { if (state.rights !== "watch") await pause(); };

/** The pattern of a rectangle as it is now, with the names in it. */
export const taken = (rect) => ({ ...patternOf(view, rect), names: namesIn(rect) });

function say(text) {
  showWords(...words(text, "b"));
  speak(text.replaceAll("`", ""));
}

function refuse(title, text, rect = state.picked) { notice({ title, text, rect }); }

// ---- what is selected
function select(rect) {
  const [x, y, w, h] = rect, isFew = w * h <= MOST_CELLS;
  state.change({ picked: isFew ? rect : null });
  view.select();
  if (isFew) say(told(T.selected, { w, h, x, y }));
  else refuse(T.notSelected, told(T.most, { cells: shown(MOST_CELLS) }), rect);
}

/** Lines that empty a rectangle of what its pattern has. */
function cleared(rect, { put, wall, block }) {
  return [put.length && `erase ${rect.join(" ")}`, wall.length + block.length && `unwall ${rect.join(" ")}`]
    .filter(Boolean);
}

/** Puts a pattern at a corner, and clears where it comes from: one edit. */
async function put(pattern, at, from = null) {
  const isOwn = from ? isIn(from) : () => false;
  const lines = [...from ? cleared(from, pattern) : [],
    ...commands(pattern, at, view.picture.width, (x, y) => !isOwn(x, y) && view.has(x, y))];
  const rect = [...at, pattern.w, pattern.h], replies = lines.length ? await send(lines, { rect }) : [];
  if (replies.some(isRefusal)) return;
  moveNames(lines.length && edits.list.at(-1), from, pattern, at);
  state.change({ picked: rect });
  say(told(T.put, { at: at.join(" ") }));
}

function misfit(pattern) {
  const { tick, width, height } = view.picture;
  refuse(TEXTS.drawing.notPut, told(T.misfit, { w: pattern.w, h: pattern.h, width, height, tick }));
}

// ---- what is held: { pattern, at: its corner, grip: where in it the pointer is, from: where it was lifted,
// hows: its turns and mirrors since }
/** Holds a pattern over the gas until it is put. */
export async function hold(pattern) {
  state.change({ tool: "select" });
  await stop();
  const { x0, y0, x1, y1 } = view.visible();
  state.change({ held: { pattern, at: null, grip: middle(pattern), from: null, hows: [] },
    picked: null });
  view.canvas.focus();
  move([(x0 + x1) >> 1, (y0 + y1) >> 1]);
}

const wanted = (cell, { grip }) => cell.map((v, k) => v - grip[k]);
const kind = (odd) => odd ? T.odd : T.even;

/** Moves what is held to the place nearest to a cell at which it will do what it did. */
function move(cell) {
  const { held, held: { pattern, from } } = state, at = nearest(pattern, wanted(cell, held), view.picture);
  const [a, b] = parityOf(pattern, view.picture).map(kind);
  if (held.at && at && held.at.join() === at.join()) return;
  state.change({ held: { ...held, at } });
  if (!at) { misfit(pattern); return; }
  say(told(T.corner, { at: at.join(" "), tick: view.picture.tick, a, b })
    + (from ? "" : ` ${CURSOR.put}`));
}

async function drop(cell) {
  const { held } = state;
  await stop();
  // the gas may have gone on since it was lifted
  const pattern = held.from ? held.hows.reduce((one, how) => how(one), taken(held.from)) : held.pattern;
  const at = nearest(pattern, wanted(cell, held), view.picture), [x, y] = held.from ?? [];
  if (!at) { misfit(pattern); return; }
  state.change({ held: null });
  if (x !== at[0] || y !== at[1] || held.hows.length) await put(pattern, at, held.from);
}

function letGo() {
  if (!state.held) return false;
  state.change({ held: null });
  showWords();
  return true;
}

// ---- what the buttons and keys do
function needsRect() {
  if (!state.picked) refuse(T.noneSelected, T.pull);
  return Boolean(state.picked);
}

function copy() {
  if (!needsRect()) return;
  copied = taken(state.picked);
  say(T.copied);
}

async function cut() {
  if (!needsRect()) return;
  await stop();
  copied = taken(state.picked);
  const rect = state.picked, lines = cleared(rect, copied);
  const replies = lines.length ? await send(lines, { rect }) : [];
  if (replies.some(isRefusal)) return;
  moveNames(lines.length && edits.list.at(-1), rect);
  say(T.cutIs);
}

function paste() {
  if (copied) hold(copied);
  else refuse(T.nothing, T.first);
}

/** Turns or mirrors what is held, or else what is selected, about its middle. */
async function change(how) {
  const { held, picked } = state;
  if (!held && !needsRect()) return;
  const [x, y] = held ? held.at ?? [0, 0] : picked;
  if (held) {
    const [i, j] = middle(held.pattern), pattern = how(held.pattern);
    state.change({ held: { ...held, pattern, grip: middle(pattern), at: null, hows: [...held.hows, how] } });
    move([x + i, y + j]);
    return;
  }
  await stop();
  const old = taken(picked), pattern = how(old), [i, j] = middle(old), [a, b] = middle(pattern);
  const at = nearest(pattern, [x + i - a, y + j - b], view.picture);
  if (at) await put(pattern, at, picked);
  else misfit(pattern);
}

const DOES = { copy, cut, paste, turn: () => change(turned), mirror: () => change(mirrored) };
const buttons = Object.entries(DOES).map(([id, act]) =>
  Object.assign(button(T.names[id], act), { title: `${T.names[id]} (${ALWAYS[id].shown})` }));

function deselect() {
  state.change({ picked: null });
  hideNotice();
}

/** What a key does, or null. A text that is selected on the page is copied by the browser. */
function keyOf({ key, ctrlKey, metaKey, altKey }) {
  const isHeld = ctrlKey || metaKey, name = key.toLowerCase();
  const id = Object.keys(DOES).find((one) => ALWAYS[one].key === name);
  const isOurs = isHeld ? getSelection().isCollapsed : Boolean(state.held || state.picked);
  if (altKey) return null;
  if (id && isOurs && isHeld === ALWAYS[id].shown.includes(" ")) return DOES[id];
  if (isHeld || key !== ALWAYS.leave.key) return null;
  if (state.held) return letGo;
  return state.picked && !view.cursor ? deselect : null;
}

own.select = {
  options: [...buttons, button(T.name, () => openDialog(nameCells))],
  keyOf,
  isOnce: () => Boolean(state.held),
  hover(cell) {
    if (state.held) move(cell);
    return Boolean(state.held);
  },
  leave() { if (state.held?.from) letGo(); },
  preview(cells) {
    const { held, picked } = state, last = cells.at(-1);
    if (held) { move(last); return; }
    if (picked && cells.length > 1 && isIn(picked)(...cells[0])) {
      const pattern = taken(picked), grip = cells[0].map((v, k) => v - picked[k]);
      state.change({ held: { pattern, at: null, grip, from: picked, hows: [] } });
      move(last);
      return;
    }
    const rect = rectangle(cells[0], last, view.picture);
    view.select({ rects: [rect], colour: "transparent", line: `${rect[2]} × ${rect[3]}` });
  },
  act(cells) {
    if (state.held) return drop(cells.at(-1));
    select(rectangle(cells[0], cells.at(-1), view.picture));
    return stop();
  },
};

state.on(["picked", "held"], () => view.redraw());
state.on(["tool"], () => { if (state.tool !== "select") state.change({ picked: null, held: null }); });
state.on(["picture"], () => {
  if (!state.picture) state.change({ picked: null, held: null });
  else if (state.held?.at) move(state.held.at.map((v, k) => v + state.held.grip[k]));
});
