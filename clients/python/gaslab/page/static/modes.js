// What is shown: particles, velocities or density, zoom, and the key of colours.
import { COLOURS, WAYS, ZOOM } from "./facts.js";
import { TEXTS, told } from "./texts.js";
import { at, choose, fill, h, rove, setText } from "./elements.js";
import { state } from "./state.js";
import { view } from "./view.js";
import { plots } from "./plots.js";

const T = TEXTS.modes;

const modes = [...at("modes").children];

function showMode() {
  choose(modes, ({ id }) => id === state.mode, "aria-checked");
  at("density-box").hidden = state.mode !== "density";
  view.redraw();
}

/** How many pictures are drawn as one, in words. */
function meanOf(mode) {
  const n = mode === "density" ? view.past.length : view.isCalm ? view.blended.length : 1;
  return n > 1 ? told(T.mean, { n }) : "";
}

/** What the colours mean. It says nothing that isn't drawn. */
function showKey() {
  const { mode } = state, { hasMarks } = view, hasArrows = hasMarks && view.scale >= ZOOM.arrows;
  const [low, high] = view.shades.map((share) => `${Math.round(share * 100)} %`);
  const entry = (look, text) => h("span", h("i", { style: look }), text);
  const mean = meanOf(mode), hasTracers = view.tracers.length > 0;
  setText(at("blend"), mean);                          // it stands in the gas where the key has no room
  const name = [mode, hasMarks, hasArrows, low, high, mean, hasTracers, state.arrows].join();
  if (at("key").dataset.name === name) return;
  const marks = [h("span", h("i.ring"), T.collides), h("span", h("i.ring.dashed"), T.bounces)];
  const colours = mode === "density" ? [h("span", low), h("span.ramp"), h("span", high)]
    : mode === "velocity" && !hasArrows
      ? [WAYS.map(([arrow, colour]) => entry(`background:${COLOURS[colour]}`, arrow)), hasMarks && marks]
      : [hasMarks ? marks : entry("background:var(--hit);outline:var(--strong)", T.onWall)];
  at("key").dataset.name = name;
  fill(at("key"), ...colours.flat(), mean && h("span.mean", mean),
    hasTracers && h("span", h("i.tracer"), T.followed), state.arrows > 0 && h("span", TEXTS.arrows.key));
}

for (const button of modes) button.onclick = () => state.change({ mode: button.id });
rove(at("modes"), modes, true);
for (const id of ["square", "range", "mean"]) at(id).onchange = () => state.change({
  square: Number(at("square").value), range: at("range").value, isMean: at("mean").checked });
at("zoom-in").onclick = () => view.zoom(1.5);
at("zoom-out").onclick = () => view.zoom(1 / 1.5);
at("zoom-fit").onclick = () => view.fit();
state.on(["mode"], showMode);
state.on(["lesson"], () => {
  const { range = "full", mean = false } = state.lesson;
  state.change({ range, isMean: mean });
});
state.on(["square", "range", "isMean"], () => {
  at("square").value = state.square;
  at("range").value = state.range;
  at("mean").checked = state.isMean;
  view.redraw();
});
view.onDraw = showKey;
new ResizeObserver(() => {
  if (view.picture && view.fitted) view.fit(view.fitted === true ? null : view.fitted);
  view.redraw();
  plots.resize();
}).observe(at("mat"));
