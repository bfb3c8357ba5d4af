// Lessons, scenes and a person's own files, in the dialog.
import { EMPTY, SIDES } from "./facts.js";
import { TEXTS, told } from "./texts.js";
import { button, h } from "./elements.js";
import { LESSONS, SCENES } from "./lessons.js";
import { state } from "./state.js";
import { isWithin } from "./frame.js";
import { view } from "./view.js";
import { notice } from "./notices.js";
import { lessonOf, pickFile } from "./files.js";
import { send } from "./session.js";
import { showTab } from "./tabs.js";
import { form } from "./dialog.js";
import { numberField } from "./checks.js";
import { load, openBytes } from "./opening.js";

const T = TEXTS.shelves;

const MOST = 4096;         // cells of a side

function shelf(name, lessons, hasNumbers) {
  const item = (lesson) => h("li", h("button", { "aria-current": lesson === state.lesson,
    autofocus: lesson === state.lesson, onclick: () => { load(lesson); showTab("lesson"); } },
  hasNumbers && h("span.n", lesson.id), h("span", h("b", lesson.name), h("small", lesson.about))));
  return form(null, h("h3", name), h("ul", lessons.map(item)));
}

/** The lines of a script up to its first step, moved by an offset: { lines }, or { fault } in plain words. */
export function placed(bytes, [dx, dy], picture) {
  const read = lessonOf(bytes), { tick } = picture, lines = [];
  if (!read.lines) return { fault: read.fault ?? T.noScript };
  if ((dx + tick) & 1 || (dy + tick) & 1)
    return { fault: told(T.parity, { tick, parity: tick & 1 ? TEXTS.selecting.odd : TEXTS.selecting.even }) };
  for (const line of read.lines) {
    const [word, ...words] = line.split(/ +/), n = words.map(Number), area = n.length > 3 && word !== "probe";
    if (word === "step" || word === "back") break;
    const rects = word === "row" ? runs(words[1]).map(([x, w]) => [x, n[0], w, 1]) : area ? [n] : [];
    const moved = rects.map(([x, y, ...rest]) => [x + dx, y + dy, ...rest]);
    if (!moved.every((rect) => isWithin(rect, picture)))
      return { fault: told(T.outside, { line: line.slice(0, 40) }) };
    lines.push(...moved.map((rect) => `${word === "row" ? "put" : word} ${rect.join(" ")}`));
  }
  return { lines };
}

/** The runs of full cells in a row's digits: [column, length]. */
function runs(digits) {
  const bits = [...digits].map((digit) => parseInt(digit, 16).toString(2).padStart(4, "0")).join("");
  return [...bits.matchAll(/1+/g)].map(({ index, 0: run }) => [index, run.length]);
}

function placeScript(by) {
  pickFile(({ name, bytes }) => {
    const { lines, fault } = placed(bytes, by, view.picture);
    if (fault) notice({ title: told(T.notPlaced, { name }), text: fault });
    else send(lines);
  }, ".txt");
}

function own() {
  const sides = [T.width, T.height].map((name) =>
    h("select", { "aria-label": name }, SIDES.map((cells) => h("option", String(cells)))));
  const { width = MOST, height = MOST } = state.picture ?? {}, by = [0, 0];
  const ways = [[T.columns, width - 1], [T.rows, height - 1]].map(([name, most], k) =>
    numberField(name, 0, [-most, most], (n) => { by[k] = n; }));
  return h("div.own", h("h3", TEXTS.lessons.own),
    form(() => load(EMPTY, sides.map(({ value }) => Number(value))), `${T.empty} `, sides[0],
      ` ${T.by} `, sides[1], button(T.open)),
    form(() => pickFile(({ name, bytes }) => openBytes(name, bytes)), button(T.openFile)),
    form(() => placeScript(by), h("span", T.place), h("label", `${T.right} `, ways[0]),
      h("label", `${T.down} `, ways[1]), button(T.choose)));
}

export const lessons = () => [h("h2.unseen", T.title), h("div.shelves",
  shelf(T.lessons, LESSONS, true), h("div", shelf(T.scenes, SCENES), own()))];
