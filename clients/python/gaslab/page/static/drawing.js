// What one does with a shape on the gas: draw, lay a random gas, shoot a particle, and undo.
import { CHOICES, toolOf } from "./facts.js";
import { TEXTS, told } from "./texts.js";
import { isRefusal, plainWords } from "./wording.js";
import { state } from "./state.js";
import { ellipse, rectangle, stroke } from "./shapes.js";
import { view } from "./view.js";
import { plots } from "./plots.js";
import { notice } from "./notices.js";
import { edits } from "./edits.js";
import { pause, send } from "./session.js";
import { followAt } from "./following.js";

const T = TEXTS.drawing;

export const PERIODS = [1, 65535];  // of a source, in ticks

/** What is chosen beside a tool: `snap` in cells, `period` in ticks or null, the rest in percents. */
export const options = { shape: "rectangle", snap: 1, way: "1 1", period: 1, density: 50, right: 0, down: 0 };

export const hasShapes = (tool) => ["put", "erase", "wall", "block", "unwall"].includes(tool.id);
/** Tools with gestures of their own, by their id. */
export const own = {};

const lineOf = (tool, rect) =>
  tool.line.replace("RECT", rect.join(" ")).replace("PERIOD", options.period ?? "?");

function rectsOf(cells) {
  const tool = toolOf(state.tool);
  if (tool.cell) return [[...cells[0], 1, 1]];
  const rect = rectangle(cells[0], cells.at(-1), view.picture, options.snap);
  if (!hasShapes(tool) || options.shape === "rectangle") return [rect];
  return options.shape === "circle" ? ellipse(rect) : stroke(cells, view.picture, options.snap);
}

export function preview(cells) {
  if (own[state.tool]) { own[state.tool].preview(cells); return; }
  const tool = toolOf(state.tool), rects = rectsOf(cells), [, y, , h] = rects[0];
  const line = !tool.line ? told(T.rows, { first: y, last: y + h - 1 }) : rects.length > 1
    ? told(T.rectangles, { name: tool.id, count: rects.length }) : lineOf(tool, rects[0]);
  view.select({ rects, colour: tool.colour, reach: tool.solid, line });
}

/** Does what the tool does with a gesture through cells. */
export async function act(cells) {
  if (own[state.tool]) { await own[state.tool].act(cells); return; }
  const tool = toolOf(state.tool), { lesson } = state, rects = rectsOf(cells), [rect] = rects;
  if (tool.cell) view.selection = null;
  if (tool.id === "follow") { followAt(cells[0]); return; }
  const first = lesson.first && !state.tried && tool.solid ? lesson.first : [];
  if (tool.id === "shoot") { await shoot(cells, options.way); return; }
  if (tool.id === "source" && options.period === null) {
    notice({ title: T.notDrawn, text: plainWords("ERR 7 period"), rect });
    view.select({ ...view.selection, bad: true });
    return;
  }
  if (tool.id === "random") await pause();
  const lines = tool.line ? [...first, ...rects.map((one) => lineOf(tool, one))]
    : randomGas(view, rect, options);
  if (tool.id === "probe") lines.push(`.watch ${rect.join(" ")}`);
  const replies = await send(lines, { rect });
  if (tool.id === "probe" && !plots.shown.includes("probe")) plots.choose([...plots.shown, "probe"]);
  view.select(view.selection && replies.some(isRefusal) ? { ...view.selection, bad: true } : null);
}

export async function undo() {
  const { lines, note, why } = edits.plan();
  if (why) { notice({ title: T.notUndone, text: why }); return; }
  const undone = edits.list.pop();
  edits.changed();
  edits.isOff = true;
  const replies = lines.length ? await send(lines) : [];
  edits.isOff = false;
  if (!replies.some(isRefusal)) state.change({ undone });
  if (note && !replies.some(isRefusal)) notice({ title: T.undone, text: note });
}

export const nameOf = (way) => CHOICES.way[1].find(([id]) => id === way.join(" "))[2];

/** Puts a particle of the velocity that was pulled, or else chosen, into a cell, or says why it can't. */
async function shoot(cells, chosen) {
  const [x, y] = cells[0], [dx, dy] = [cells.at(-1)[0] - x, cells.at(-1)[1] - y], rect = [x, y, 1, 1];
  const way = dx && dy ? [Math.sign(dx), Math.sign(dy)] : chosen.split(" ").map(Number);
  const { tick } = view.picture, [vx, vy] = view.way(x, y);
  const refused = (text, does) => notice({ title: T.notPut, text, does, rect });
  if (view.isSolidAt(x, y)) refused(told(T.solid, { x, y }));
  else if (way[0] !== vx || way[1] !== vy) {
    const [a, b] = [way[0] === vx ? x : x ^ 1, way[1] === vy ? y : y ^ 1];
    refused(told(T.otherWay, { tick, x, y, a, b, has: nameOf([vx, vy]), asked: nameOf(way) }),
      [[told(T.putIn, { a, b }), () => send([`put ${a} ${b} 1 1`], { rect })]]);
  } else if (view.has(x, y)) refused(told(T.already, { x, y, way: nameOf(way) }));
  else await send([`put ${x} ${y} 1 1`], { rect });
}

/** `row` lines that lay a random gas into a rectangle. Density and drifts are percents. */
export function randomGas(view, [x, y, w, h], { density, right, down }) {
  const isFull = (i, j) => {
    if (i < x || i >= x + w) return view.has(i, j);
    const [vx, vy] = view.way(i, j), chance = density / 100 * (1 + right / 100 * vx) * (1 + down / 100 * vy);
    return !view.isSolidAt(i, j) && Math.random() < chance;
  };
  return Array.from({ length: h }, (_, k) => {
    const bits = Array.from({ length: view.picture.width }, (_cell, i) => Number(isFull(i, y + k))).join("");
    return `row ${y + k} ${bits.replace(/.{4}/g, (four) => parseInt(four, 2).toString(16))}`;
  });
}
