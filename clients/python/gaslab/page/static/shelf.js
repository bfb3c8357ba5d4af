// The shelf: gates, and a person's own patterns, which the browser keeps and a file takes home.
import GATES from "./gates.json";
import { COLOURS } from "./facts.js";
import { TEXTS, told } from "./texts.js";
import { plural } from "./wording.js";
import { button, h } from "./elements.js";
import { state } from "./state.js";
import { notice } from "./notices.js";
import { download, pickFile, stored } from "./files.js";
import { fields, form, openDialog, text } from "./dialog.js";
import { cleaned, fileOf, patternsIn } from "./pattern.js";
import { unique } from "./names.js";
import { hold, taken } from "./selecting.js";
import { own } from "./drawing.js";

const T = TEXTS.shelf;

const KEPT = "gaslab-shelf", MOST = 100, MOST_DRAWN = 400;
const PARTS = [["put", COLOURS.particle], ["wall", COLOURS.wall], ["block", COLOURS.obstacle]];
/** The gates with their texts. */
const gates = GATES.map((gate) => {
  const { name, about, names } = TEXTS.gates[gate.id];
  return { ...gate, name, about, names: gate.names.map((one, k) => ({ ...one, name: names[k] })) };
});
let patterns = patternsIn(stored("localStorage", KEPT) ?? "") ?? [];
let isNamed = true;        // names come with what is taken

/** Changes a person's own patterns. Says so if the browser keeps nothing. */
function keep(all) {
  patterns = all.slice(0, MOST);
  const kept = fileOf(patterns);
  if (stored("localStorage", KEPT, kept) !== kept)
    notice({ title: T.unkept,
      text: T.stores });
}

const again = () => openDialog(shelf);

/** A small picture of a pattern. */
function sketch({ w, h: height, ...parts }) {
  const rim = String(Math.max(w, height) / 24);        // so that a lone cell of a wide pattern is seen
  const all = PARTS.flatMap(([kind, fill]) => parts[kind].slice(0, MOST_DRAWN).map(([x, y, i, j]) =>
    h("rect", { x: String(x), y: String(y), width: String(i), height: String(j), fill,
      stroke: fill, "stroke-width": rim })));
  return h("svg", { viewBox: `-1 -1 ${w + 2} ${height + 2}`, "aria-hidden": "true" }, all);
}

function item(pattern, isOwn = false) {
  const names = (kind) => pattern.names.filter((one) => one.kind === kind).map(({ name }) => name).join(", ");
  const take = () => hold({ ...pattern, names: isNamed ? pattern.names : [] });
  const known = [[T.in, names("input")], [T.out, names("output")]].filter(([, all]) => all);
  const about = [pattern.about, ...known.map(([way, all]) => told(way, { names: all })),
    told(T.size, { w: pattern.w, h: pattern.h })].join(" ").trim();
  return h("li", sketch(pattern), h("div", h("b", pattern.name), h("small", about)),
    form(take, Object.assign(button(T.take), { ariaLabel: told(T.takeIt, { name: pattern.name }) })),
    isOwn && h("button.close", { "aria-label": told(T.remove, { name: pattern.name }), onclick: () => {
      keep(patterns.filter((one) => one !== pattern));
      again();
    } }, "×"));
}

function open({ name, bytes }) {
  const found = patternsIn(new TextDecoder().decode(bytes));
  if (!found) { notice({ title: told(TEXTS.opening.notOpened, { name }), text: T.wrong }); return; }
  const all = [...patterns];
  for (const one of found) all.push({ ...one, name: unique(one.name, all) });
  keep(all);
  again();
}

/** The shelf, from which a pattern is held over the gas. */
export function shelf() {
  const name = text({ size: 16, maxLength: 24, value: unique(T.first, patterns),
    "aria-label": TEXTS.naming.name });
  const add = () => {
    const called = cleaned(name.value) || T.first;
    keep([...patterns, { ...taken(state.picked), about: "", name: unique(called, patterns) }]);
    again();
  };
  const named = h("input", { type: "checkbox", checked: isNamed,
    onchange: () => { isNamed = named.checked; } });
  const save = () => download("patterns.json", fileOf(patterns), "application/json");
  return [h("h2", T.title),
    h("label.switch", named, ` ${T.withNames}`),
    h("h3", T.gates), h("ul.patterns", gates.map((one) => item(one))),
    h("h3", told(T.own, { patterns: plural(patterns.length, "pattern") })),
    h("ul.patterns", patterns.map((one) => item(one, true))),
    state.picked ? fields((e) => { e.preventDefault(); add(); }, h("label", TEXTS.naming.name, " ", name),
      button(T.keep)) : h("p", T.select),
    fields((e) => e.preventDefault(), patterns.length > 0 && button(T.save, save),
      button(T.open, () => pickFile(open, ".json")))];
}

own.select.options.push(button(T.title, again));
