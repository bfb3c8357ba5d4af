// Runs scripts on the page's engine. Standard input is { engine, cases } as JSON: the bundle of engine.js, and a list of
// [width, height, sessions, from]. A session is a list of lines, and `from` is the case whose snapshot this one starts from, or
// -1. Standard output has the replies of each.
import { readFileSync } from "node:fs";

const { engine, cases } = JSON.parse(readFileSync(0, "utf8"));
const { Gas, Lab, snapshot, fromSnapshot } = new Function(`${engine}return { ...module_gas, ...module_engine };`)();

const labs = [];
const replies = cases.map(([width, height, sessions, from]) => {
  const lab = new Lab(from < 0 ? new Gas(width, height) : fromSnapshot(snapshot(labs[from].gas)));
  labs.push(lab);
  return sessions.flatMap((lines, seat) => lines.map((line) => lab.line(seat, line)));
});
process.stdout.write(JSON.stringify(replies));
