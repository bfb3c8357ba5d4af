// Computes fields and statistics by the page's own functions. Standard input is { engine, cases } as JSON: the bundles of two
// modules, and { gases, binomials, counts, samples }. A gas is [width, height, tick, rows as digits, q, rectangle]. Standard output
// has { flows, columns, rows, binomials, bins, means } of them.
import { readFileSync } from "node:fs";

const { engine, cases } = JSON.parse(readFileSync(0, "utf8"));
const { flowOf, profileOf, binomial, binned, meanOf } = new Function(`${engine}return { ...module_fields, ...module_statistics };`)();

const found = { flows: [], columns: [], rows: [] };
for (const [width, height, tick, digits, q, rect] of cases.gases) {
  const picture = { width, height, tick, particles: Uint8Array.from(Buffer.from(digits.join(""), "hex")) };
  const { counts, px, py } = flowOf([picture], picture, q);
  found.flows.push([counts, px, py].map((sums) => Array.from(sums)));
  found.columns.push(profileOf(picture, rect, true));
  found.rows.push(profileOf(picture, rect, false));
}
found.binomials = cases.binomials.map((it) => binomial(...it));
found.bins = cases.counts.map(([times, n]) => binned(new Map(times), n).bins);
found.means = cases.samples.map(meanOf);
process.stdout.write(JSON.stringify(found));
