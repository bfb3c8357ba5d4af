// What the page and its server both know, and the page's own facts with their texts.
import facts from "./facts.json";
import { TEXTS } from "./texts.js";

export const { colours: COLOURS, darkMat: DARK_MAT, curves: CURVES, ramp: RAMP, zoom: ZOOM, moves: MOVES,
  icons: ICONS, ways: WAYS, kinds: KINDS, speeds: SPEEDS, sides: SIDES, repeat: REPEAT,
  arrows: ARROWS } = facts;
export const { saved: SAVED, gives: GIVES, fingers: FINGERS, cursor: CURSOR, truth: TRUTH, fates: FATES,
  refusals: REFUSALS } = TEXTS;

/** Each value of an object, changed by its key. */
function changed(all, change) {
  return Object.fromEntries(Object.entries(all).map(([id, one]) => [id, change(one, id)]));
}

export const TOOLS = facts.tools.map((tool) => ({ ...tool, ...TEXTS.tools[tool.id] }));
export const KEYS = facts.keys.map((key) => ({ ...key, words: TEXTS.keys[key.button ?? key.does] }));
export const ALWAYS = changed(facts.always, (key, id) => ({ ...key, words: TEXTS.always[id] }));
export const PLOTS = changed(facts.plots, (plot, id) => ({ ...plot, ...TEXTS.curves[id] }));
export const EMPTY = { ...facts.empty, ...TEXTS.empty };
export const SHARES = facts.shares.map(([id, least]) => [id, least, TEXTS.shares[id]]);
export const CHOICES = changed(facts.choices, (values, id) => {
  const { name, all } = TEXTS.choices[id];
  return [name, values.map(([value, sign], k) => [value, sign ?? all[k], all[k]])];
});
/** The commands: how each is written, and what it does. The client's own words are English. */
export const COMMANDS = changed(facts.commands,
  ([shape, what], word) => [shape, TEXTS.commands?.[word] ?? what]);
export const ROWS = Object.fromEntries(Object.entries(facts.ledgerRows)
  .map(([id, row]) => [TEXTS.ledgerRows[id], row]));
export const toolOf = (id) => TOOLS.find((tool) => tool.id === id);
