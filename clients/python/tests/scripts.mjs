// Scripts as the page reads them. Standard input is { engine, cases } as JSON: the bundle of script.js, and texts. Standard output has
// of each { size, commands, count, lattice }, or { fault }, the line in which it is.
import { readFileSync } from "node:fs";

const { engine, cases } = JSON.parse(readFileSync(0, "utf8"));
const { commandsOf, countOf, latticeOf, parseScript } = new Function(`${engine}return module_script;`)();
process.stdout.write(JSON.stringify(cases.map((text) => {
  try {
    const { size, parts } = parseScript(text);
    return { size, commands: commandsOf(parts), count: countOf(parts), lattice: size ?? latticeOf(parts) };
  } catch (fault) {
    if (!fault.cause) throw fault;
    return { fault: fault.cause };
  }
})));
