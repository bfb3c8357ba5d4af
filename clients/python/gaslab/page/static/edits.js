// Edits that can be undone: one list of all, newest last. What can't be undone stays in it and says why.
import { TEXTS, told } from "./texts.js";
import { state } from "./state.js";
import { around, cover } from "./shapes.js";
import { hexOf } from "./gas.js";
import { Lab, PORTS, SOLIDS, fromSnapshot } from "./engine.js";
import { view } from "./view.js";
import { snapshotOf } from "./files.js";

const T = TEXTS.edits;

const MOST = 100;
const textOf = (word) => (rect) => `${word} ${rect.join(" ")}`;

class Edits {
  list = [];
  open = null;             // the edit whose lines still come
  made = null;             // the gas after the last line but the late ones, made when it is first needed
  late = [];               // lines that this gas hasn't got
  isMoving = false;        // steps come between the lines
  depth = 0;               // of sends: lines that are sent together are one edit
  isOff = false;           // what comes is no edit
  changed = () => {};      // called when the list changes

  clear() {
    Object.assign(this, { list: [], open: null, made: null, late: [] });
    this.changed();
  }

  picture({ playing }) { Object.assign(this, { isMoving: playing, made: null, late: [] }); }

  get gas() {
    const lab = this.made ??= new Lab(fromSnapshot(snapshotOf(view)));
    for (const line of this.late) lab.line(0, line);
    this.late = [];
    return lab.gas;
  }

  /** Keeps of the planes before the edit only the rows that it can have changed. */
  close() {
    const { open } = this;
    this.open = null;
    if (!open?.rect) return;
    const { gas: { words, particles } } = this, [, y, , h] = open.rect;
    const cut = (set) => set.slice(y * words, (y + h) * words);
    for (const [name, it] of Object.entries(open.before)) if (name !== "ports") open.before[name] = cut(it);
    open.after = cut(particles);
  }

  /** An entry of the journal. `by` is the seat if it is another one, and else null. */
  entry(line, by) {
    const [word, ...words] = line.split(" "), isEdit = !(this.isOff || state.loading);
    if (!view.picture) return;
    if (word === "step" || word === "back") {
      this.isMoving = true;
      if (this.open) this.open.hasMoved = true;
      return;
    }
    if (isEdit) this.note(word, words.map(Number), line, by);
    this.late.push(line);
    if (this.depth === 0 || by !== null) this.close();
    if (isEdit) this.changed();
  }

  note(word, numbers, line, by) {
    const { gas } = this, { drains, sources, tick, width } = gas;
    if (!this.open) {
      this.open = { lines: [], by, rect: null, tick, hasMoved: this.isMoving, before: {} };
      this.list = [...this.list, this.open].slice(-MOST);
    }
    const { open, open: { before } } = this;
    open.lines.push(line);
    if (Object.hasOwn(PORTS, word)) {
      before.ports ??= { drains, sources };
      return;
    }
    for (const name of Object.hasOwn(SOLIDS, word) ? ["walls", "obstacles"] : ["particles"])
      before[name] ??= gas[name].slice();
    open.rect = around(word === "row" ? [0, numbers[0], width, 1] : numbers, open.rect);
  }

  label() {
    const lines = this.list.at(-1)?.lines ?? [""], n = lines.length;
    return n > 1 ? told(T.more, { line: lines.at(-1).slice(0, 30), count: n - 1 }) : lines[0].slice(0, 40);
  }

  /** What undoes the last edit: { lines }, with a note if the particles stay, or { why } if it can't. */
  plan() {
    const last = this.list.at(-1);
    if (!last) return { why: T.nothing };
    if (last.by !== null)
      return { why: told(T.other, { seat: last.by, what: this.label() }) };
    const { gas } = this, { before, rect } = last;
    const lines = [...before.ports ? this.portLines(last) : [], ...before.walls ? this.solidLines(last) : []];
    if (!before.particles) return { lines };
    const isSame = !last.hasMoved && !this.isMoving && gas.tick === last.tick
      && last.after.every((v, k) => v === gas.particles[rect[1] * gas.words + k]);
    if (isSame) return { lines: [...lines, ...this.cellLines(last)] };
    if (lines.length) return { lines, note: T.stay };
    return { why: told(T.moved, { what: this.label() }) };
  }

  portLines({ before: { ports } }) {
    return [...this.gas.hasPorts ? ["unport"] : [], ...ports.drains.map(textOf("drain")),
      ...ports.sources.map(textOf("source"))];
  }

  /** Tests of whether a cell of a plane is full now, and was before an edit. */
  tests(name, { rect, before }) {
    const { gas } = this;
    return [(x, y) => gas.has(x, y, gas[name]), (x, y) => gas.has(x, y - rect[1], before[name])];
  }

  solidLines(edit) {
    const { rect } = edit, lines = (word, test) => cover(rect, test).map(textOf(word));
    const [hasWall, hadWall] = this.tests("walls", edit);
    const [hasBlock, hadBlock] = this.tests("obstacles", edit);
    const isGone = (x, y) => hasWall(x, y) && !hadWall(x, y) || hasBlock(x, y) && !hadBlock(x, y);
    const isLost = (has, had) => (x, y) => had(x, y) && (!has(x, y) || isGone(x, y));
    return [...lines("unwall", isGone), ...lines("wall", isLost(hasWall, hadWall)),
      ...lines("block", isLost(hasBlock, hadBlock))];
  }

  /** Rectangles, or whole rows where these are fewer. */
  cellLines(edit) {
    const { rect, before: { particles } } = edit, { words } = this.gas;
    const [has, had] = this.tests("particles", edit);
    const least = [...cover(rect, (x, y) => has(x, y) && !had(x, y)).map(textOf("erase")),
      ...cover(rect, (x, y) => had(x, y) && !has(x, y)).map(textOf("put"))];
    if (least.length <= rect[3]) return least;
    return Array.from({ length: rect[3] }, (_, k) =>
      `row ${rect[1] + k} ${hexOf(particles.subarray(k * words, (k + 1) * words))}`);
  }
}

export const edits = new Edits();
