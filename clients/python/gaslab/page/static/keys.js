// Single keys, of which most press a button.
import { ALWAYS, CURSOR, KEYS, MOVES, TOOLS } from "./facts.js";
import { at } from "./elements.js";
import { state } from "./state.js";
import { view } from "./view.js";
import { hideNotice } from "./notices.js";
import { isTooSoon, setSpeed } from "./time.js";
import { own, undo } from "./drawing.js";
import { cursorKey, leaveCursor } from "./cursor.js";

const DOES = { slower: () => setSpeed(state.speed - 1), faster: () => setSpeed(state.speed + 1),
  entry: () => at("entry").focus() };

function doesOf({ key, target, shiftKey }) {
  const name = key.length === 1 ? key.toLowerCase() : key;
  const known = KEYS.find((it) => it.key === name || it.also === name), button = at(known?.button);
  const tool = TOOLS.find((it) => it.key.toLowerCase() === name);
  if (known?.slides && target.matches("input[type=range]")) return null;
  if (known?.presses && target.matches("button, summary") && target !== button) return null;
  if (button) return () => button.dispatchEvent(new MouseEvent("click", { shiftKey }));
  return known ? DOES[known.does] : tool && (() => state.change({ tool: tool.id }));
}

document.addEventListener("keydown", (e) => {
  const isTyping = e.target.matches("input:not([type=range]):not([type=checkbox]), select, textarea");
  if (isTyping || at("popover").open) return;
  const isHeld = e.ctrlKey || e.metaKey, isOnGas = e.target === view.canvas;
  const tool = own[state.tool];
  let does = null;
  if (isHeld && e.key.toLowerCase() === ALWAYS.undo.key) does = undo;
  else if (view.picture && tool?.keyOf(e)) does = tool.keyOf(e);
  else if (isHeld || e.altKey || !view.picture) return;
  else if (isOnGas && cursorKey(e)) does = () => {};
  else if (e.key === ALWAYS.leave.key) hideNotice();
  else if (state.keysOn || isOnGas) does = doesOf(e);
  if (!does) return;
  e.preventDefault();
  if (!(e.repeat && MOVES[e.key] && isTooSoon())) does();
});

for (const { button, shown, words: [first, ...rest] } of KEYS)
  if (button) at(button).title = `${first.toUpperCase()}${rest.join("")} (${shown})`;
at("how").textContent = CURSOR.how;
state.on(["tool"], leaveCursor);
