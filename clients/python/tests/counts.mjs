// How many commands scripts have. Standard input is { engine, cases } as JSON: the bundle of script.js, and texts.
import { readFileSync } from "node:fs";

const { engine, cases } = JSON.parse(readFileSync(0, "utf8"));
const { countOf, parseScript } = new Function(`${engine}return module_script;`)();
process.stdout.write(JSON.stringify(cases.map((text) => countOf(parseScript(text).parts))));
