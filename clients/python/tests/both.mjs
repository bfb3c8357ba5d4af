// What the page does as the client does. Standard input is { engine, cases } as JSON: the bundle of both.js that the test makes, and
// cases as { cover: [width, height, cells] }, or { size, lines, cells, asked }. Standard output has of each its rectangles, or the
// rows of its truth table.
import { readFileSync } from "node:fs";

const { engine, cases } = JSON.parse(readFileSync(0, "utf8"));
const { cover, tableOf, Gas, Lab } = new Function(`${engine}
  return { ...module_gas, ...module_engine, ...module_shapes, ...module_truth };`)();

function table({ size, lines, cells, asked }) {
  const lab = new Lab(new Gas(...size)), say = (line) => lab.line(0, line);
  lines.forEach(say);
  const made = tableOf(cells, 0, asked, cells.map(() => false));
  return made.rows(made.lines.map(say));
}

process.stdout.write(JSON.stringify(cases.map((one) => {
  if (!one.cover) return table(one);
  const [width, height, cells] = one.cover, full = new Set(cells.map(([x, y]) => y * width + x));
  return cover([0, 0, width, height], (x, y) => Number(full.has(y * width + x)));
})));
