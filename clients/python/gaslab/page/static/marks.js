// Marks above the gas: the selected rectangle, the pattern that is held, and named cells.
import { COLOURS } from "./facts.js";
import { TEXTS, told } from "./texts.js";
import { state } from "./state.js";
import { clamp } from "./shapes.js";
import { view } from "./view.js";

const PARTS = [["put", COLOURS.particle], ["wall", COLOURS.wall], ["block", COLOURS.obstacle]];

const NEAR = 4.5;          // pixels a cell from which there is room for a name's tick

/** A name above an input or below an output. It is dashed, with its tick, while the gas is at another one. */
function drawName({ kind, name, cell, tick }) {
  const isInput = kind === "input", colour = isInput ? COLOURS.sourceEdge : COLOURS.drainEdge;
  const isNow = tick === view.picture.tick, [x, y, w, h] = view.box([...cell, 1, 1]), [cw] = view.size;
  const when = isNow || view.scale < NEAR ? "" : told(TEXTS.plots.tick, { tick });
  const text = isInput ? `${when} → ${name}` : `${name} → ${when}`;
  view.outline([...cell, 1, 1], colour, "", isNow ? [] : [3, 2]);
  view.tag(text.trim(), colour, (wide) =>
    [clamp(x + w / 2 - wide / 2, 2, Math.max(2, cw - wide - 2)), isInput ? y - 19 : y + h + 3]);
}

function drawHeld({ pattern, at: [x, y] }) {
  const { context: c } = view, box = view.box([x, y, pattern.w, pattern.h]);
  c.globalAlpha = .75;
  for (const [kind, colour] of PARTS) for (const [i, j, w, h] of pattern[kind])
    view.fill(colour, view.box([x + i, y + j, w, h]));
  c.globalAlpha = 1;
  view.frame(box, [COLOURS.white, 4], [COLOURS.ink, 2]);
}

view.layers.push(() => {
  if (state.picked) view.outline(state.picked, COLOURS.ink, "", [6, 4]);
  state.names.forEach(drawName);
  if (state.held?.at) drawHeld(state.held);
});
