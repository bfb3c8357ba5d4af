// The dialog that names inputs and outputs of what is on the lattice.
import { TEXTS, told } from "./texts.js";
import { button, choices, h, words } from "./elements.js";
import { state } from "./state.js";
import { view } from "./view.js";
import { notice } from "./notices.js";
import { fields, openDialog, text } from "./dialog.js";
import { numberField } from "./checks.js";
import { cleaned } from "./pattern.js";
import { inputs, unique } from "./names.js";
import { table } from "./truth_table.js";

const T = TEXTS.naming;

const { letters: LETTERS, results: RESULTS } = T;

/** The first of some names that no cell has. */
const free = (all) => all.find((name) => unique(name) === name) ?? unique(all[0]);

function list() {
  const item = (one) => h("li", h("span", ...words(told(T.item, { name: one.name, kind: T[one.kind],
    cell: one.cell.join(" "), tick: one.tick }), "b")),
  h("button.close", { "aria-label": told(T.remove, { name: one.name }), onclick: () => {
    state.change({ names: state.names.filter((other) => other !== one) });
    openDialog(nameCells);
  } }, "×"));
  return h("ul.names", state.names.map(item));
}

/** Names the selected cell at the present tick. */
export function nameCells() {
  const { picture: { tick, width, height }, picked, names } = state, [x, y] = picked ?? [0, 0];
  const cell = [x, y], column = numberField(T.column, x, [0, width - 1], (n) => { cell[0] = n; });
  const row = numberField(T.row, y, [0, height - 1], (n) => { cell[1] = n; });
  let kind = inputs().some((one) => one.tick < tick) ? "output" : "input";
  const suggest = () => free(kind === "input" ? LETTERS : RESULTS);
  const name = text({ size: 14, maxLength: 24, value: suggest(), "aria-label": T.name });
  const set = (value) => { kind = value; name.value = suggest(); };
  const add = () => {
    const called = cleaned(name.value);
    if (!called || !view.holds(cell)) notice({ title: T.notNamed, text: T.needs });
    else state.change({ names: [...names, { kind, name: unique(called), cell, tick }] });
  };
  return [h("h2", T.title),
    h("p", told(T.about, { tick })),
    h("p", choices(T.kind, [["input", T.input], ["output", T.output]], kind, set)),
    fields(add, h("label", T.cell, " ", column, " ", row), h("label", T.name, " ", name),
      RESULTS.map((result) => Object.assign(button(result, () => { name.value = unique(result); }),
        { type: "button" })), button(T.add)),
    names.length > 0 && h("h3", T.named), names.length > 0 && list(),
    names.length > 0 && button(TEXTS.truth_table.title, () => openDialog(table))].filter(Boolean);
}
