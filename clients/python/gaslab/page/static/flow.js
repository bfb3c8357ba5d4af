// Arrows of the mean velocity in squares of cells.
import { COLOURS } from "./facts.js";
import { state } from "./state.js";
import { flowOf } from "./fields.js";

const LEAST = 8;           // pixels of a square's side: below it arrows can't be told apart
const HEAD = 5;            // pixels

/** Draws an arrow for each square that is seen and has particles. One column a tick is a square's side. */
export function drawFlow(view) {
  const { picture, isCalm, recent } = view, q = state.arrows, side = q * view.scale, path = new Path2D();
  if (!q || side < LEAST) return;
  const { across, counts, px, py } = flowOf(isCalm ? view.blended : recent.slice(-1), picture, q);
  const { x0, y0, x1, y1 } = view.visible();
  for (let j = Math.floor(y0 / q); j * q < y1; j++) for (let i = Math.floor(x0 / q); i * q < x1; i++) {
    const at = j * across + i;
    if (counts[at] === 0) continue;
    const [x, y] = view.box([(i + .5) * q, (j + .5) * q, 0, 0]);
    const [dx, dy] = [px[at], py[at]].map((sum) => sum / counts[at] * side);
    addArrow(path, x, y, dx, dy);
  }
  view.context.save();
  Object.assign(view.context, { lineCap: "round", lineJoin: "round" });
  view.stroke(path, [COLOURS.white, 4], [COLOURS.ink, 1.75]);
  view.context.restore();
}

/** An arrow whose middle is at a place; a dot if it has no length. */
function addArrow(path, x, y, dx, dy) {
  const far = Math.hypot(dx, dy), [ex, ey] = [x + dx / 2, y + dy / 2];
  path.moveTo(x - dx / 2, y - dy / 2);
  path.lineTo(ex, ey);
  if (far < 2) return;
  const head = Math.min(HEAD, far / 2), [ux, uy] = [dx / far * head, dy / far * head];
  path.moveTo(ex - ux - uy * .7, ey - uy + ux * .7);
  path.lineTo(ex, ey);
  path.lineTo(ex - ux + uy * .7, ey - uy - ux * .7);
}
