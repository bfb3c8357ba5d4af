// Patterns of random gases. Standard input is { engine, cases } as JSON: the bundle of pattern.js, and gases as { tick, rect,
// particles, walls, obstacles, later, wanted }, with lists of cells of 64 by 64. Standard output has of each gas how the pattern of
// its rectangle is put, as it is, turned and mirrored, at the tick `later` near a wanted corner: [corner, lines].
import { readFileSync } from "node:fs";

const { engine, cases } = JSON.parse(readFileSync(0, "utf8"));
const { patternOf, turned, mirrored, nearest, commands } = new Function(`${engine}return module_pattern;`)();

function bytesOf(cells) {
  const bytes = new Uint8Array(512);
  for (const [x, y] of cells) bytes[y * 8 + (x >> 3)] |= 128 >> (x & 7);
  return bytes;
}

process.stdout.write(JSON.stringify(cases.map(({ tick, rect, later, wanted, ...gas }) => {
  const [particles, walls, obstacles] = [gas.particles, gas.walls, gas.obstacles].map(bytesOf);
  const picture = { width: 64, height: 64, tick, particles }, pattern = patternOf({ picture, walls, obstacles }, rect);
  return [pattern, turned(pattern), mirrored(pattern)].map((one) => {
    const corner = nearest(one, wanted, { width: 64, height: 64, tick: later });
    return [corner, commands(one, corner, 64, () => false)];
  });
})));
