// Makes random gases and repeated runs with the page's engine. Standard input is { engine, cases } as JSON: the bundle of worker.js,
// and { gases, runs }: [width, height, look] of each gas, and [width, height, lines, what is asked, seeds] of each run. Standard
// output has { rows, runs }: of each gas its `row` lines, and of each run what each seed's gas gives.
import { readFileSync } from "node:fs";

const { engine, cases } = JSON.parse(readFileSync(0, "utf8"));
const { Gas, Lab, snapshot, fromSnapshot, randomRows, repeat } = new Function(
  `${engine}return { ...module_gas, ...module_engine, ...module_random, ...module_repeats };`)();

const rows = cases.gases.map(([width, height, look]) => randomRows(width, height, look));
const runs = cases.runs.map(([width, height, lines, asked, gases]) => {
  const lab = new Lab(new Gas(width, height)), found = [];
  for (const line of lines) {
    const reply = lab.line(0, line);
    if (!reply.startsWith("OK")) throw new Error(`${line}: ${reply}`);
  }
  repeat({ snapshot: snapshot(lab.gas), gases, ...asked }, (told) => { if (told.rows) found.push(told.rows); });
  return found;
});
process.stdout.write(JSON.stringify({ rows, runs }));
