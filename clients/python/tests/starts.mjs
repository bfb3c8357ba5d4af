// The starts of lessons with values of their sliders. Standard input is { engine, cases } as JSON: the bundle of parameters.js, and
// pairs of a lesson and values. Standard output has of each [its own values, the lines of the start].
import { readFileSync } from "node:fs";

const { engine, cases } = JSON.parse(readFileSync(0, "utf8"));
const { startOf, ownValues } = new Function(`${engine}return module_parameters;`)();
const all = cases.map(([lesson, values]) => [ownValues(lesson), startOf(lesson, { ...ownValues(lesson), ...values })]);
process.stdout.write(JSON.stringify(all));
