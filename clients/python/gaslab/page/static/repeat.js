// Repeated runs beside the gas: asks for them, and shows the means that a worker of their own computes.
import { REPEAT } from "./facts.js";
import { TEXTS, told } from "./texts.js";
import { plural, say } from "./wording.js";
import { at, button, fill, h } from "./elements.js";
import { ranged } from "./checks.js";
import { state } from "./state.js";
import { view } from "./view.js";
import { download, snapshotOf } from "./files.js";
import { meanOf } from "./statistics.js";
import { Figure, dotsWithErrors } from "./figures.js";
import { hasEngine, newWorker } from "./workers.js";

const T = TEXTS.repeat;

const FEWEST = 2;          // gases of which there is a standard error
const PARTS = ["count", "px", "py"];

/** The runs of some gases: what was asked, and of each gas its rows so far. */
class Runs {
  rows = [];

  constructor(asked, probes) {
    Object.assign(this, asked, { probes: probes.map(({ rect }) => rect) });
    this.names = [...PARTS, "drag",
      ...probes.flatMap(({ key }) => PARTS.map((part) => `probe_${key}_${part}`))];
    this.ticks = Array.from({ length: this.times }, (_, n) => (n + 1) * this.steps);
  }

  /** Of each reading the [mean, standard error] of a column. */
  means(name) {
    const column = this.names.indexOf(name);
    return this.ticks.map((_, n) => meanOf(this.rows.map((rows) => rows[n][column])));
  }

  meansTable() {
    const columns = this.names.map((name) => this.means(name));
    return csv(["tick", "gases", ...this.names.flatMap((name) => [name, `${name}_error`])],
      this.ticks.map((tick, n) => [tick, this.rows.length, ...columns.flatMap((column) => column[n])]));
  }

  allTable() {
    return csv(["seed", "tick", ...this.names],
      this.rows.flatMap((rows, k) => rows.map((row, n) => [k + 1, this.ticks[n], ...row])));
  }
}

const csv = (head, rows) => [head, ...rows].map((row) => `${row.join()}\n`).join("");

let runs = null, worker = null;

const inputs = Object.fromEntries(REPEAT.map(([id, value, min, max]) =>
  [id, h("input", { type: "number", name: id, value, min, max, step: 1, required: true })]));
const begin = button(T.begin), stop = h("button.plain", { type: "button", hidden: true,
  onclick: () => end(T.stopped) }, T.stop);
const bar = h("progress", { value: 0, "aria-label": T.progress, hidden: true });
const status = h("p.told", { role: "status" });
const chosen = h("select", { "aria-label": T.quantity, onchange: show });
const figure = new Figure(T.units.drag[0]);
const numbers = h("table");
const result = h("div.result", { hidden: true }, chosen, figure.element,
  h("details", h("summary", T.numbers), numbers), h("p.does",
    button(T.means, () => download("means.csv", runs.meansTable(), "text/csv")), " ",
    button(T.all, () => download("gases.csv", runs.allTable(), "text/csv"))));
const ask = h("form", { onsubmit: (e) => { e.preventDefault(); run(); } },
  REPEAT.map(([id]) => h("label", h("span", T.fields[id]), ranged(inputs[id]))), begin, stop);

/** Why there is no such random gas, or nothing. Drifts are mean velocities, in columns and rows a tick. */
function whyNone({ density, right, down }) {
  if (!(Math.max(Math.abs(right), Math.abs(down)) <= 1)) return T.drift;
  return density >= 0 && density * (1 + Math.abs(right)) * (1 + Math.abs(down)) <= 1 ? ""
    : T.full;
}

function run() {
  const asked = Object.fromEntries(REPEAT.map(([id]) => [id, inputs[id].valueAsNumber]));
  const { density, right, down, gases, steps, times } = asked;
  const look = { density: density / 100, right: right / 100, down: down / 100 }, why = whyNone(look);
  status.textContent = why;
  if (why || !state.picture || worker) return;
  runs = new Runs({ gases, steps, times, look }, state.picture.probes);
  result.hidden = true;
  showRunning(true);
  worker = newWorker();
  worker.onmessage = ({ data }) => take(data);
  worker.onerror = ({ message }) => end(T.fault, message);
  const { probes } = runs;
  // a port comes with each page: these runs have none
  worker.postMessage({ snapshot: snapshotOf(view), gases, steps, times, look, probes });
}

function take({ done, rows }) {
  bar.value = done / runs.gases;
  if (!rows) return;
  runs.rows.push(rows);
  if (runs.rows.length >= FEWEST) show();
  if (runs.rows.length === runs.gases) end(T.done);
}

/** Ends the worker. What it has computed stays. */
function end(text, message) {
  worker.terminate();
  worker = null;
  showRunning(false);
  status.textContent = told(text, { message, runs: plural(runs.rows.length, "run") });
}

function showRunning(isRunning) {
  if (!isRunning && document.activeElement === stop) begin.focus();
  begin.hidden = isRunning;
  stop.hidden = bar.hidden = !isRunning;
  bar.value = 0;
}

const nameOf = (name) => T.units[name]?.[0] ?? name.replace(/probe_(\d+)_(\w+)/,
  (_, key, part) => told(T.ofProbe[part], { key }));
const unitOf = (name) => told(T.units[name.replace(/.*_/, "")][1], { steps: say(runs.steps) });

function show() {
  if (chosen.dataset.names !== runs.names.join()) {
    chosen.dataset.names = runs.names.join();
    fill(chosen, ["drag", ...runs.names.filter((name) => name !== "drag")].map((name) =>
      h("option", { value: name }, nameOf(name))));
  }
  const values = runs.means(chosen.value);
  const errors = new Map(runs.ticks.map((tick, n) => [tick, values[n][1]]));
  const rows = runs.ticks.map((tick, n) => [tick, values[n][0]]), last = values.at(-1).map(say).join(" ± ");
  const low = Math.min(...values.map(([mean, error]) => mean - error));
  const high = Math.max(...values.map(([mean, error]) => mean + error)), edge = (high - low) * .08 || 1;
  result.hidden = false;
  figure.rename(nameOf(chosen.value));
  figure.show({ rows, labels: [nameOf(chosen.value)], value: last, axis: T.tick,
    unit: told(T.unit, { unit: unitOf(chosen.value), runs: plural(runs.rows.length, "run") }),
    said: told(T.said, { last, tick: say(runs.ticks.at(-1)) }), valueRange: [low - edge, high + edge],
    plotters: [dotsWithErrors((tick) => errors.get(tick))] });
  fill(numbers, h("thead", h("tr", [T.tick, T.mean, "±"].map((name) => h("th", { scope: "col" }, name)))),
    h("tbody", rows.map(([tick, mean]) => h("tr", h("th", { scope: "row" }, say(tick)),
      h("td", say(mean)), h("td", say(errors.get(tick)))))));
}

// where a program computes the gas, there is no worker with an engine
at("readings").append(h("details.measure", { id: "repeat" }, h("summary", T.name), hasEngine
  ? [h("p", T.about), ask, bar, status, result] : h("p", T.none)));

state.on(["lesson", "values"], () => {
  for (const id of ["density", "right", "down"]) if (id in state.values) {
    inputs[id].value = state.values[id];
    inputs[id].dispatchEvent(new Event("input"));
  }
});
