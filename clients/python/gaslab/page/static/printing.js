// On paper the gas is drawn anew, in the light theme and on a sheet of its own.
import { TEXTS } from "./texts.js";
import { at, h } from "./elements.js";
import { state } from "./state.js";
import { clamp } from "./shapes.js";
import { view } from "./view.js";

const T = TEXTS.printing;

const HEIGHT = 520;        // pixels, as the style has it
let before = null;         // what is shown on the screen: { canvas, context, isDark }

// the style shows these on a worksheet
for (const [name, text] of [["name", T.name], ["think", T.think], ["saw", T.saw]])
  document.documentElement.style.setProperty(`--${name}`, JSON.stringify(text));

function show({ canvas, context, isDark }) {
  Object.assign(view, { canvas, context });
  state.change({ isDark });
  if (view.fitted) view.fit(view.fitted === true ? null : view.fitted);
}

addEventListener("beforeprint", () => {
  if (before || !view.picture) return;
  const { fitted, size: [width, height] } = view, canvas = h("canvas.paper");
  const [across, down] = Array.isArray(fitted) ? fitted.slice(2)
    : fitted ? [view.picture.width, view.picture.height] : [width, height];
  canvas.style.width = `${clamp(Math.round(HEIGHT * across / down), HEIGHT / 2, 2 * HEIGHT)}px`;
  at("mat").append(canvas);
  before = { canvas: view.canvas, context: view.context, isDark: state.isDark };
  show({ canvas, context: canvas.getContext("2d"), isDark: false });
  view.draw();                           // the next frame would come after the paper
});
addEventListener("afterprint", () => {
  if (!before) return;
  view.canvas.remove();
  show(before);
  before = null;
});
