// Of a probe beside the gas: a profile along its columns or rows, and a histogram of its counts.
import { CHOICES } from "./facts.js";
import { TEXTS, told } from "./texts.js";
import { plural, say } from "./wording.js";
import { at, button, choices, fill, h } from "./elements.js";
import { state } from "./state.js";
import { view } from "./view.js";
import { download } from "./files.js";
import { profileOf } from "./fields.js";
import { binned } from "./statistics.js";
import { Figure, columns, dots } from "./figures.js";

const T = TEXTS.probe_fields;

const PAUSE = 120;         // milliseconds between two drawings
const PARTS = ["density", "px", "py"];

/** What a rectangle has shown since it was chosen: sums along both ways, and how often each count came. */
class Seen {
  pictures = 0;
  times = new Map();       // how often each count came
  most = 0;                // the greatest count
  ways = { column: { sums: [] }, row: { sums: [] } };

  constructor({ key, rect }) { Object.assign(this, { key, rect }); }

  /** Takes a picture in. One of the same tick is shown, and doesn't count again. */
  take(picture, count) {
    const isOther = picture.tick !== this.tick;
    for (const [name, way] of Object.entries(this.ways)) {
      way.now = profileOf(picture, this.rect, name === "column");
      if (isOther) way.sums = way.now.map((values, k) => values.map((v, n) => v + (way.sums[k]?.[n] ?? 0)));
    }
    if (!isOther) return;
    this.times.set(count, (this.times.get(count) ?? 0) + 1);
    this.most = Math.max(this.most, count);
    this.pictures += 1;
    this.tick = picture.tick;
  }

  /** Of each column or row [place, now, mean], both as density, px and py a cell. */
  rows(name) {
    const { rect: [x, y, w, h], pictures, ways: { [name]: { now, sums } } } = this;
    const [from, cells] = name === "column" ? [x, h] : [y, w];
    return now.map((values, k) => [from + k, values.map((v) => v / cells),
      sums[k].map((v) => v / cells / pictures)]);
  }
}

let seen = null, name = "column", isDue = false;
const profile = new Figure(T.profile), histogram = new Figure(T.histogram);
const which = h("select", { "aria-label": T.which, onchange: () => begin(Number(which.value)) });
const part = h("select", { "aria-label": T.quantity, onchange: draw },
  T.parts.map(([text], k) => h("option", { value: String(k) }, text)));
const ways = choices(...CHOICES.along, name, (way) => {
  name = way;
  draw();
});
const box = h("details.measure", { id: "probe-fields", ontoggle: () => { if (box.open) begin(); } },
  h("summary", T.name), h("p", T.about),
  h("div.options", which, ways, part, button(T.again, () => begin())), profile.element, histogram.element,
  h("p.does", button(T.save, () => download("profile.csv", profileTable(), "text/csv")), " ",
    button(T.saveCounts, () => download("histogram.csv", countsTable(), "text/csv"))));

/** Begins anew with a probe: that of a key, or the present one, or else the newest. */
function begin(key = seen?.key) {
  const probes = state.picture?.probes ?? [], probe = probes.find((one) => one.key === key) ?? probes.at(-1);
  seen = probe ? new Seen(probe) : null;
  if (state.picture) take(state.picture);
}

function take(picture) {
  const { probes } = picture, probe = probes.find(({ key }) => key === seen?.key);
  if (probe) seen.take(picture, probe.sums[0]);
  else if (seen || probes.length) {
    seen = null;
    if (probes.length) { begin(); return; }
  }
  if (!isDue) setTimeout(draw, PAUSE);
  isDue = true;
}

function showProbes() {
  const keys = (state.picture?.probes ?? []).map(({ key }) => key);
  if (which.dataset.keys !== keys.join()) fill(which, keys.map((key) =>
    h("option", { value: String(key) }, told(T.probe, { key }))));
  which.dataset.keys = keys.join();
  which.hidden = keys.length < 2;
  which.value = String(seen?.key);
}

function draw() {
  isDue = false;
  showProbes();
  if (seen) {
    drawProfile();
    drawHistogram();
  } else for (const figure of [profile, histogram]) figure.say(T.none);
}

function drawProfile() {
  const n = Number(part.value), [text, unit] = T.parts[n], all = seen.rows(name), way = T.axes[name];
  const rows = all.map(([place, now, mean]) => [place, now[n], mean[n]]);
  const mean = rows.reduce((sum, row) => sum + row[2], 0) / rows.length;
  const most = rows.reduce((best, row) => row[2] > best[2] ? row : best), { pictures } = seen;
  profile.show({ rows, labels: [T.now, T.mean], value: say(mean), axis: way,
    unit: told(T.unit, { part: text, unit, pictures: plural(pictures, "picture") }),
    said: told(T.said, { mean: say(mean), most: say(most[2]), way, place: most[0] }) });
}

/** How many cells of a rectangle are not solid. */
function freeCells([x, y, w, h]) {
  let n = 0;
  for (let j = y; j < y + h; j++) for (let i = x; i < x + w; i++) n += view.isSolidAt(i, j) ? 0 : 1;
  return n;
}

/** The counts so far, and what the binomial distribution has of the same mean. */
function binsOf({ rect, times, most, ground }) {
  if (ground !== view.ground) Object.assign(seen, { ground: view.ground, free: freeCells(rect) });
  const n = Math.max(1, seen.free, most);  // a particle may have been put into a wall
  return { n, ...binned(times, n) };
}

function drawHistogram() {
  const { n, mean, p, bins } = binsOf(seen), { pictures } = seen;
  histogram.show({ rows: bins, labels: [T.bars, T.dots], plotters: [columns, dots], axis: T.count,
    value: say(mean), unit: told(T.shares, { p: say(p), n: plural(n, "cell") }),
    said: told(T.counted, { mean: say(mean), pictures: plural(pictures, "picture") }) });
}

const csv = (head, rows) => [head, ...rows].map((row) => `${row.flat().join()}\n`).join("");
const profileTable = () =>
  csv([name, PARTS, PARTS.map((one) => `mean_${one}`)], seen ? seen.rows(name) : []);
const countsTable = () => csv(["count", "share", "binomial"], seen ? binsOf(seen).bins : []);

at("readings").append(box);
state.on(["picture"], () => {
  if (!state.picture) seen = null;         // another gas comes, whose probes have the same keys
  else if (box.open) take(state.picture);
});
