// The sliders of a lesson: it begins anew with their values.
import { TEXTS } from "./texts.js";
import { plural } from "./wording.js";
import { h, setText } from "./elements.js";
import { state } from "./state.js";
import { play } from "./session.js";
import { slide } from "./opening.js";

const T = TEXTS.sliders;

const SOON = 1000;         // milliseconds
let wanted = null, isSliding = false;      // values that came while others were begun with

/** Begins with values. What played plays on. */
async function begin(values) {
  wanted = values;
  if (isSliding) return;
  isSliding = true;
  const { playing } = state;
  while (wanted) {
    const now = wanted;
    wanted = null;
    await slide(now);
    if (playing && !wanted) await playOn();
  }
  isSliding = false;
  show();
}

/** Plays, and waits until that is seen: else the next values would find a gas that doesn't play. */
async function playOn() {
  const end = performance.now() + SOON;
  await play();
  while (!state.playing && performance.now() < end) await new Promise(requestAnimationFrame);
}

let shown = [];            // of the lesson that is shown: [slider, input, its text]

/** A value with its unit: cells and ticks are counted. */
const textOf = ({ values, names, unit }, place) => names?.[place]
  ?? (/^\w/.test(unit) ? plural(values[place], unit) : `${values[place]} ${unit}`.trim());

function say([slider, input, text]) {
  const said = textOf(slider, input.valueAsNumber);
  setText(text, said);
  input.ariaValueText = said;
}

/** Shows the values with which the gas began. */
function show() {
  for (const one of shown) {
    const [{ id, values, value }, input] = one;
    input.value = values.indexOf(state.values[id] ?? value);
    say(one);
  }
}

/** The sliders as elements. */
export function slidersOf({ sliders = [] }) {
  shown = sliders.map((slider) => [slider, h("input", { type: "range", min: "0", step: "1",
    max: String(slider.values.length - 1) }), h("span.value")]);
  for (const one of shown) {
    const [, input] = one;
    input.oninput = () => say(one);
    input.onchange = () => begin(Object.fromEntries(shown.map(([{ id, values }, { valueAsNumber }]) =>
      [id, values[valueAsNumber]])));
  }
  show();
  return sliders.length > 0 && h("section.sliders", h("h3", T.title),
    shown.map(([{ name }, input, text]) => h("label", h("span", name), text, input)));
}

state.on(["values"], () => { if (!isSliding) show(); });
