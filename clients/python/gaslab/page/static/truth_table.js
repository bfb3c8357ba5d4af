// Truth tables of gates, in the dialog: over named inputs and outputs, and over probes.
import { GIVES } from "./facts.js";
import { TEXTS, told } from "./texts.js";
import { isRefusal } from "./wording.js";
import { button, h } from "./elements.js";
import { state } from "./state.js";
import { LONGEST } from "./engine.js";
import { view } from "./view.js";
import { pause, send } from "./session.js";
import { fields, text } from "./dialog.js";
import { checked, numberField } from "./checks.js";
import { inputs, outputs } from "./names.js";
import { tableOf, way } from "./truth.js";

const T = TEXTS.truth_table;

const INPUTS = 5;          // the most
const CELL = /^(?:(.+?) +)?(\d+) +(\d+)(?: *@ *(-?\d+))?$/;       // a name or none, x, y, and a tick or none

/** The cells that are full, if they are few enough for inputs. */
function likelyInputs() {
  const { width, height } = view.picture, cells = [];
  if (view.picture.tally[0] > INPUTS) return [];
  for (let y = 0; y < height; y++) for (let x = 0; x < width; x++)
    if (view.has(x, y)) cells.push({ name: "", cell: [x, y] });
  return cells;
}

/** Goes to a tick, and waits for its picture. */
async function goTo(tick) {
  const lines = way(state.picture.tick, tick), bad = (await send(lines, { isQuiet: true })).find(isRefusal);
  if (bad) throw new Error(told(T.bad, { reply: bad }));
  while (state.picture.tick !== tick)
    await new Promise((done) => state.addEventListener("changed", done, { once: true }));
}

/** The rows of the table of a gas that is at its tick, and is so again then. */
async function counted(cells, start, asked) {
  const { lines, rows } = tableOf(cells, start, asked, cells.map((cell) => view.has(...cell)));
  const replies = await send(lines, { isQuiet: true }), bad = replies.find(isRefusal);
  if (bad) throw new Error(told(T.bad, { reply: bad }));
  return rows(replies);
}

/** The rows of a table. In the end the gas is as before, at its tick. */
async function truthTable(cells, start, asked) {
  if (view.hasPorts) throw new Error(T.ports);
  await pause();
  const { tick } = state.picture;
  state.change({ loading: true });
  try {
    await goTo(start);
    const rows = await counted(cells, start, asked);
    await goTo(tick);
    return rows;
  } finally {
    state.change({ loading: false });
  }
}

/** The cells of a text: { name, cell, tick }. A cell without a tick gets the one that is given. */
function cellsOf(text, tick, fault) {
  return text.split(",").map((one) => one.trim()).filter(Boolean).map((one) => {
    const [, name = one, x, y, at = tick] = CELL.exec(one) ?? [], cell = [Number(x), Number(y)];
    if (x === undefined || !view.holds(cell)) throw new Error(fault);
    return { name: name === one ? cell.join(" ") : name, cell, tick: Number(at) };
  });
}

const textOf = ({ name, cell, tick }, isTimed) =>
  `${name} ${cell.join(" ")}${isTimed ? ` @ ${tick}` : ""}`.trim();

/** The inputs of a text. */
function inputsOf(text, start) {
  const rule = told(T.rule, { most: INPUTS }), cells = cellsOf(text, start, rule);
  if (cells.length < 1 || cells.length > INPUTS) throw new Error(rule);
  return cells;
}

/** What is wrong in a field, or nothing. */
function faultOf(read) {
  try { read(); } catch ({ message }) { return message; }
  return "";
}

export function table() {
  const known = inputs(), results = outputs(), now = state.picture.tick;
  const start = known[0]?.tick ?? now, last = Math.max(...results.map(({ tick }) => tick), start);
  const field = (name, all, isTimed) => text({ size: 24, "aria-label": name,
    value: all.map((one) => textOf(one, isTimed)).join(", ") });
  const from = field(T.inputs, known.length ? known : likelyInputs()), to = field(T.outputs, results, true);
  const at = h("input", { type: "number", value: String(start), "aria-label": T.from });
  let ticks = last - start || 11;
  const steps = numberField(T.steps, ticks, [1, LONGEST], (n) => { ticks = n; });
  const result = h("div.result", { role: "status" });
  const fill = async (e) => {
    e.preventDefault();
    result.replaceChildren(await filled(from.value, at.valueAsNumber, to.value, ticks)
      .catch((fault) => fault.message));
  };
  return [h("h2", T.title), h("p", GIVES.table[1]),
    fields(fill, h("label", T.inputs, " ", checked(from, T.cells, () => faultOf(() => inputsOf(from.value)))),
      h("label", T.at, " ", checked(at, "", () => Number.isInteger(at.valueAsNumber) ? "" : T.anyTick)),
      h("label", T.outputs, " ", checked(to, T.timed, () => faultOf(() => cellsOf(to.value, 0, T.ends)))),
      h("label", T.steps, " ", steps), button(T.fill)), result];
}

/** A truth table as an element. Throws an Error in plain words. */
async function filled(from, start, to, steps) {
  const cells = inputsOf(from, start);
  const ends = cellsOf(to, start + steps, T.ends);
  const asked = [...ends.map(({ cell, tick }) => ({ rect: [...cell, 1, 1], tick })),
    ...state.picture.probes.map(({ rect }) => ({ rect, tick: start + steps }))];
  if (asked.length === 0) throw new Error(T.none);
  if (asked.some(({ tick }) => !(tick >= start && tick <= start + LONGEST)))
    throw new Error(told(T.later, { first: start, last: start + LONGEST }));
  const rows = await truthTable(cells.map(({ cell }) => cell), start, asked);
  const heads = [...cells, ...ends].map(({ name }) => name)
    .concat(state.picture.probes.map(({ key }) => told(TEXTS.readings.probe, { key })));
  const look = (tag, k) => `${tag}${k === cells.length ? ".first" : ""}`;
  const head = h("tr", heads.map((name, k) => h(look("th", k), { scope: "col" }, name)));
  return h("table.truth", h("thead", head),
    h("tbody", rows.map((row) => h("tr", row.map((n, k) => h(look("td", k), String(n)))))));
}
