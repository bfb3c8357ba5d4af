// Sets of cells as rectangles.

export const clamp = (value, least, most) => Math.max(least, Math.min(value, most));

/** Writes a value into a rectangle of a plane of cells. */
export function paint(plane, width, [x, y, w, h], value) {
  for (let row = y; row < y + h; row++) plane.fill(value, row * width + x, row * width + x + w);
}

/** The rectangle between two cells, snapped outward to squares of `snap` cells, within the lattice. */
export function rectangle([ax, ay], [bx, by], { width, height }, snap = 1) {
  const span = (ends, side) => {
    const [low, high] = ends.map((v) => Math.floor(clamp(v, 0, side - 1) / snap)).sort((a, b) => a - b);
    return [low * snap, (high - low + 1) * snap];
  };
  const [x, w] = span([ax, bx], width), [y, h] = span([ay, by], height);
  return [x, y, w, h];
}

/** The rectangles of an ellipse that fills a rectangle. A cell is in it if its middle is. */
export function ellipse(rect) {
  const [x, y, w, h] = rect, part = (v, from, side) => ((v + .5 - from) / side * 2 - 1) ** 2;
  return cover(rect, (i, j) => part(i, x, w) + part(j, y, h) <= 1);
}

/** The rectangle around two, or the first if there is no other. */
export function around([x, y, w, h], other) {
  const [a, b, c, d] = other ?? [x, y, w, h], left = Math.min(x, a), top = Math.min(y, b);
  return [left, top, Math.max(x + w, a + c) - left, Math.max(y + h, b + d) - top];
}

/** The rectangles of a stroke through cells, with a pen of `snap` by `snap` cells. */
export function stroke(cells, size, snap) {
  const squares = cells.flatMap(([x, y], k) => {
    const [a, b] = cells[Math.max(0, k - 1)], n = Math.max(Math.abs(x - a), Math.abs(y - b), 1);
    const way = (from, to, s) => Math.round(from + (to - from) * s / n);
    return Array.from({ length: n + 1 }, (_, s) => [way(a, x, s), way(b, y, s)]);
  }).map((cell) => rectangle(cell, cell, size, snap));
  const [x, y, w, h] = squares.reduce((all, square) => around(square, all)), held = new Uint8Array(w * h);
  for (const [i, j, a, b] of squares) paint(held, w, [i - x, j - y, a, b], 1);
  return cover([x, y, w, h], (i, j) => held[(j - y) * w + i - x]);
}

/** Few rectangles that cover the cells which pass a test, and no other. They may overlap. */
export function cover([x, y, w, h], test) {
  const held = new Uint8Array(w * h).map((_, k) => test(x + k % w, y + Math.floor(k / w)));
  const left = held.slice(), out = [];
  for (let k = left.indexOf(1); k >= 0; k = left.indexOf(1, k)) {
    const rect = largest(held, w, h, k % w, Math.floor(k / w)), [i, j, a, b] = rect;
    paint(left, w, rect, 0);
    out.push([x + i, y + j, a, b]);
  }
  return out;
}

function largest(held, w, h, i, j) {
  let from = 0, to = w, best = [i, j, 1, 1];
  for (let row = j; row < h && held[row * w + i]; row++) {
    let a = i, b = i;
    while (a > from && held[row * w + a - 1]) a--;
    while (b + 1 < to && held[row * w + b + 1]) b++;
    from = a;
    to = b + 1;
    if ((to - from) * (row - j + 1) > best[2] * best[3]) best = [from, j, to - from, row - j + 1];
  }
  return best;
}
