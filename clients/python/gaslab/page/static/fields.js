// Fields of a gas: count and momentum in squares, and along the columns or rows of a rectangle.

const POP = [0, 1, 1, 2, 1, 2, 2, 3, 1, 2, 2, 3, 2, 3, 3, 4];          // particles in four cells
const NET = POP.map((_, four) => POP[four & 10] - POP[four & 5]);      // of them in even columns, less others

/** Count and momentum in each square of q by q cells, row by row: sums over pictures of one gas. */
export function flowOf(pictures, { width, height }, q) {
  const across = width / q, sums = () => new Int32Array(across * height / q);
  const counts = sums(), px = sums(), py = sums(), fours = width / 4;
  for (const { tick, particles } of pictures) for (let y = 0; y < height; y++) {
    const right = tick & 1 ? -1 : 1, down = (y + tick) & 1 ? -1 : 1, first = Math.floor(y / q) * across;
    for (let k = 0; k < fours; k++) {
      const byte = particles[(y * fours + k) >> 1], four = k & 1 ? byte & 15 : byte >> 4;
      if (four === 0) continue;
      const at = first + Math.floor(4 * k / q);
      counts[at] += POP[four];
      px[at] += right * NET[four];
      py[at] += down * POP[four];
    }
  }
  return { across, counts, px, py };
}

/** [count, px, py] of each column of a rectangle, or of each row. */
export function profileOf({ width, tick, particles }, [x, y, w, h], isOfColumns) {
  const sums = Array.from({ length: isOfColumns ? w : h }, () => [0, 0, 0]);
  for (let j = y; j < y + h; j++) for (let i = x, cell = j * width + x; i < x + w; i++, cell++) {
    if (!(particles[cell >> 3] >> (7 - (cell & 7)) & 1)) continue;
    const sum = sums[isOfColumns ? i - x : j - y];
    sum[0] += 1;
    sum[1] += (i + tick) & 1 ? -1 : 1;
    sum[2] += (j + tick) & 1 ? -1 : 1;
  }
  return sums;
}
