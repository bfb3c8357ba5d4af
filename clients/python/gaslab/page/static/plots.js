// The plots: values of each picture by tick, kept in runs, and drawn by dygraphs.
import { COLOURS, CURVES, PLOTS, toolOf } from "./facts.js";
import { TEXTS, told } from "./texts.js";
import { say } from "./wording.js";
import { SANS, at, fill, h, setText } from "./elements.js";
import { LEDGER } from "./frame.js";
import { countSquares } from "./cells.js";
import { pictureOf } from "./plot_picture.js";
import { parts } from "./painter.js";

const T = TEXTS.plots;

const WINDOW = 20;         // ticks over which a rate is a mean
const POINTS = 1500;       // points of a plot before every second one is dropped
const RECORDS = 20000;     // readings that are kept for a table
const KEPT = 3;            // runs: the present one, and paler the two before it
const NOTES = 12;
const LOOK = { connectSeparatedPoints: true, includeZero: true, gridLineColor: COLOURS.line, axisLineWidth: 1,
  axisLineColor: COLOURS.edge, rightGap: 8, highlightCircleSize: 4, interactionModel: {} };

/** Mean of −ρ ln ρ − (1−ρ) ln(1−ρ) over squares of 8 by 8 cells. */
function entropy(picture) {
  const counts = countSquares(picture, 8), part = (share) => share > 0 ? share * Math.log(share) : 0;
  return counts.reduce((sum, n) => sum - part(n / 64) - part(1 - n / 64), 0) / counts.length;
}

const halved = (list) => list.filter((_, k) => k % 2 === 0 || k === list.length - 1);
const paler = (hex) => `rgb(${parts(hex).map((v) => Math.round(255 - (255 - v) * .4)).join()})`;

const columns = new Map();             // of the name of each: { probe, run, isBack }

/** The values of a plot in a record, under `key`, with its tick and the names of their columns. */
function valuesOf(id, key, { run, isBack, tick, probes, [key]: value }) {
  const own = told(isBack ? T.runBack : T.run, { run });
  const named = (name, probe) => { columns.set(name, { probe, run, isBack }); return name; };
  if (id !== "probe") return value === null ? [] : [{ tick, name: named(own), value }];
  return probes.map(({ key: probe, rect: [, , w, h], sums: [count] }) => ({ tick, value: count / (w * h),
    name: named(`${told(TEXTS.readings.probe, { key: probe })}, ${own}`, probe) }));
}

class Plots {
  shown = [];
  graphs = {};
  isSingle = false;        // the drag of each picture alone is shown, and not the mean of several ticks
  #timer = null;

  constructor() {
    const ids = Object.keys(PLOTS);
    const toggle = (id) => this.choose(ids.filter((one) => this.shown.includes(one) !== (one === id)));
    this.clear();
    document.querySelector("#plots .chips").append(...Object.entries(PLOTS).map(([id, { name, unit }]) =>
      h("button", { "data-plot": id, title: unit, onclick: () => toggle(id) }, name)));
  }

  clear() {
    Object.assign(this, { recent: [], records: [], notes: [], last: null, run: 1, isBack: false });
    this.listNotes();
    this.redraw(true);
  }

  newLedger() { Object.assign(this, { recent: [], last: null }); }

  choose(ids) {
    this.shown = Object.keys(PLOTS).filter((id) => ids.includes(id));
    for (const chip of document.querySelectorAll("#plots .chips button"))
      chip.ariaPressed = ids.includes(chip.dataset.plot);
    for (const graph of Object.values(this.graphs)) graph.destroy();
    this.graphs = {};
    fill(at("plot-list"), this.shown.map((id) => h("figure", { "aria-label": PLOTS[id].name },
      h("figcaption", h("b", PLOTS[id].name), h("span.unit", this.unitOf(id), PLOTS[id].single
        && h("button.plain", { ariaPressed: this.isSingle, onclick: () => this.showSingle(!this.isSingle) },
          T.single)), h("span.number")),
      h("div.plot", { id: `plot-${id}`, role: "img", "data-tick": TEXTS.index.smallTick }))));
    this.redraw(true);
  }

  showSingle(isSingle) {
    this.isSingle = isSingle;
    this.choose(this.shown);
  }

  isSingleOf(id) { return this.isSingle && "single" in PLOTS[id]; }
  unitOf(id) { return this.isSingleOf(id) ? PLOTS[id].single : PLOTS[id].unit; }
  valuesOf(id, record) { return valuesOf(id, this.isSingleOf(id) ? "single" : id, record); }

  /** Takes the values of a picture. A change of way begins a new run, whose values stay apart. */
  add(p) {
    const { last } = this, { tick, ledger } = p;
    if (last?.tick !== tick) {
      const isBack = Boolean(last && tick < last.tick);
      if (isBack !== this.isBack) {
        Object.assign(this, { run: this.run + 1, isBack, recent: this.recent.slice(-1) });
        if (last) this.putValues(last);
      }
      this.recent.push({ tick, sum: ledger[7] });
      this.recent.splice(0, this.recent.findLastIndex((r) => Math.abs(tick - r.tick) >= 2 * WINDOW));
    }
    this.last = p;
    this.putValues(p);
  }

  /** The drag up to a tick, or null: a mean over a multiple of four ticks, the stream's period. */
  drag({ tick, ledger }) {
    const far = this.recent.filter((r) => Math.abs(tick - r.tick) >= WINDOW);
    const first = far.findLast((r) => (tick - r.tick) % 4 === 0) ?? far.at(-1) ?? this.recent[0];
    const span = tick - first.tick;
    return Math.abs(span) >= 4 ? (ledger[7] - first.sum) / span : null;
  }

  /** The drag since the picture before, or null. */
  single({ tick, ledger }) {
    const before = this.recent.findLast((r) => r.tick !== tick);
    return before ? (ledger[7] - before.sum) / (tick - before.tick) : null;
  }

  putValues(p) {
    const { tick, tally, ledger, probes } = p, { run, isBack } = this;
    this.records.push({ run, isBack, tick, tally, ledger, probes, drag: this.drag(p),
      single: this.single(p), flux: tally[1] / p.width,
      count: tally[0], entropy: this.shown.includes("entropy") ? entropy(p) : null });
    if (this.records.length > RECORDS) this.records = halved(this.records);
    this.redraw();
  }

  /** The values of the last runs, a column each: its name, and rows of a tick with its values. */
  curves(id) {
    let kept = this.records.filter(({ run }) => run > this.run - KEPT);
    while (kept.length > POINTS) kept = halved(kept);
    const all = kept.flatMap((record) => this.valuesOf(id, record));
    const names = [...new Set(all.map(({ name }) => name))];
    const rows = [...Map.groupBy(all, ({ tick }) => tick)].map(([tick, values]) =>
      [tick, ...names.map((name) => values.findLast((one) => one.name === name)?.value ?? null)]);
    return { names, rows: rows.sort(([a], [b]) => a - b) };
  }

  /** The readings of all pictures as a table of comma-separated values, oldest first. */
  table() {
    const all = this.records.flatMap(({ probes }) => probes.map(({ key }) => key));
    const keys = [...new Set(all)].sort((a, b) => a - b);
    const head = ["run", "tick", "count", "px", "py", ...LEDGER, "drag", "entropy",
      ...keys.flatMap((key) => ["count", "px", "py"].map((name) => `probe_${key}_${name}`))];
    const rows = this.records.map(({ run, tick, tally, ledger, drag, entropy: e, probes }) => {
      const sums = keys.flatMap((key) => probes.find((one) => one.key === key)?.sums ?? ["", "", ""]);
      return [run, tick, ...tally, ...ledger, drag ?? "", e ?? "", ...sums];
    });
    return [head, ...rows].map((row) => row.join(",")).join("\n") + "\n";
  }

  note(tick, text) {
    const last = this.notes.at(-1);
    if (last?.tick === tick) last.lines.push(text);
    else this.notes = [...this.notes, { tick, lines: [text] }].slice(-NOTES);
    this.listNotes();
  }

  /** The edits whose numbers are in the plots. */
  listNotes() {
    fill(at("notes"), this.notes.map(({ tick, lines }) => h("li", `${told(T.tick, { tick: say(tick) })}: `,
      h("code", lines[0].slice(0, 40)),
      lines.length > 1 && ` ${told(T.more, { count: lines.length - 1 })}`)));
  }

  /** Draws the plots now, or soon: pictures come faster than curves need to be drawn. */
  redraw(now = false) {
    if (now) for (const id of this.shown) this.drawOne(id);
    else this.#timer ??= setTimeout(() => { this.#timer = null; this.redraw(true); }, 100);
  }

  drawOne(id) {
    const box = at(`plot-${id}`), curves = this.curves(id), hasCurve = curves.rows.length > 1;
    setText(box.parentElement.querySelector(".number"), this.value(id));
    box.ariaLabel = `${PLOTS[id].name}, ${this.unitOf(id)}: ${this.value(id) || T.noValue}`;
    box.classList.toggle("empty", !hasCurve);
    if (hasCurve) this.drawCurve(id, box, curves);
    else {
      this.graphs[id]?.destroy();
      delete this.graphs[id];
      const isAsked = id === "probe" && !this.last?.probes.length, { name, key } = toolOf("probe");
      setText(box, isAsked ? told(T.choose, { name, key }) : T.begins);
    }
  }

  /** The present value, if the plot has one: of several probes none is the value. */
  value(id) {
    const record = this.records.findLast((one) => one.run === this.run && this.valuesOf(id, one).length);
    const values = record && this.last ? this.valuesOf(id, record) : [];
    return values.length === 1 ? say(values[0].value) : "";
  }

  drawCurve(id, box, { rows, names }) {
    const { most } = PLOTS[id], valueRange = most ? [0, most * 1.06] : null;
    const dateWindow = [rows[0][0], Math.max(rows.at(-1)[0], rows[0][0] + 12)];
    const isWide = rows.some(([, ...row]) => Math.max(...row) >= 1e5);
    const font = parseFloat(getComputedStyle(document.documentElement).fontSize) * .8;
    // dygraphs keeps a legend and its axes' widths: with others it is made anew
    const kept = `${names.join()} ${isWide} ${this.run} ${font}`, axisLabelFormatter = say;
    if (this.graphs[id]?.kept === kept) {
      this.graphs[id].updateOptions({ file: rows, valueRange, dateWindow });
      return;
    }
    this.graphs[id]?.destroy();
    box.textContent = "";
    const x = { axisLabelWidth: 3.8 * font, pixelsPerLabel: 4.3 * font, axisLabelFormatter,
      valueFormatter: (tick) => told(T.tick, { tick: say(tick) }), ticker: Dygraph.numericLinearTicks };
    const y = { axisLabelWidth: (isWide ? 4.8 : 3.3) * font, pixelsPerLabel: 2.8 * font, axisLabelFormatter };
    this.graphs[id] = new Dygraph(box, rows, { ...LOOK, valueRange, dateWindow,
      labels: [TEXTS.index.smallTick, ...names],
      series: Object.fromEntries(names.map((name) => [name, this.look(name)])), axes: { x, y },
      legend: names.length > 1 ? "always" : "onmouseover", axisLabelFontSize: font,
      underlayCallback: (c, area, graph) => this.drawNotes(c, area, graph, font) });
    this.graphs[id].kept = kept;
    Object.assign(box.style, { width: "", height: "" });      // dygraphs gives a size to what isn't seen yet
  }

  /** How a column is drawn: runs back are dashed, runs before the present one paler. */
  look(name) {
    const { probe, run, isBack } = columns.get(name), isOld = run < this.run;
    const colour = probe ? CURVES[(probe - 1) % CURVES.length] : isBack ? COLOURS.mark : CURVES[0];
    return { color: isOld ? paler(colour) : colour, strokeWidth: isOld ? 1.5 : 2.25,
      strokePattern: isBack ? [6, 3] : null };
  }

  /** A line and a number for each edit; the list below the plots has their lines. */
  drawNotes(c, area, graph, font) {
    c.save();
    Object.assign(c, { font: `600 ${font}px ${SANS}`, textBaseline: "top", textAlign: "center",
      strokeStyle: COLOURS.mark, fillStyle: COLOURS.markInk });
    c.setLineDash([3, 3]);
    let free = -Infinity;
    this.notes.forEach(({ tick }, k) => {
      const x = graph.toDomXCoord(tick), w = c.measureText(k + 1).width + 4;
      if (x < area.x || x > area.x + area.w) return;
      c.stroke(new Path2D(`M${x} ${area.y}v${area.h}`));
      if (x - w / 2 < free) return;
      free = x + w / 2 + 2;
      c.clearRect(x - w / 2, area.y, w, font + 3);
      c.fillText(k + 1, x, area.y + 2);
    });
    c.restore();
  }

  picture(id) { return pictureOf(at(`plot-${id}`), `${PLOTS[id].name}: ${this.unitOf(id)}`); }

  resize() { for (const graph of Object.values(this.graphs)) graph.resize(); }
}

export const plots = new Plots();
