// Drawing by keys: a cell cursor.
import { ALWAYS, CURSOR, MOVES, toolOf } from "./facts.js";
import { told } from "./texts.js";
import { words } from "./elements.js";
import { state } from "./state.js";
import { clamp } from "./shapes.js";
import { view } from "./view.js";
import { speak } from "./notices.js";
import { act, own, preview } from "./drawing.js";
import { lastCell, showWords } from "./toolbar.js";

let corner = null;         // the first one, once the cell cursor has set it

export function leaveCursor() {
  if (!view.cursor) return;
  view.cursor = corner = null;
  view.select();
  showWords();
}

/** Takes a key on the gas. Returns whether it was one of the cursor's. */
export function cursorKey({ key, shiftKey }) {
  const isEnter = key === ALWAYS.draw.key, { cursor } = view, isOnce = own[state.tool]?.isOnce();
  const first = isOnce ? cursor : corner;
  if (cursor && key === ALWAYS.leave.key) { leaveCursor(); return true; }
  if (!(cursor ? isEnter || MOVES[key] : isEnter && toolOf(state.tool).colour)) return false;
  const { x0, y0, x1, y1 } = view.visible(), last = lastCell(), by = shiftKey ? 8 : 1;
  if (!cursor) view.cursor = [(x0 + x1) >> 1, (y0 + y1) >> 1];
  else if (isEnter) {
    corner = first ? null : cursor;
    if (first) act([first, cursor]);
  } else {
    view.cursor = cursor.map((v, k) => clamp(v + MOVES[key][k] * by, 0, last[k]));
    view.follow(view.cursor);
  }
  if (corner || own[state.tool]?.isOnce()) preview([corner ?? view.cursor, view.cursor]);
  else view.redraw();
  // such a tool says itself what it did, and where it is
  if (own[state.tool] && (own[state.tool].isOnce() || isEnter && first)) return true;
  const place = told(CURSOR.cell, { cell: view.cursor.join(" ") });
  const text = `${place} ${corner ? CURSOR.second : CURSOR.first}`;
  showWords(...words(text, "b"));
  speak(text.replaceAll("`", ""));
  return true;
}
