// Calls functions of the page's modules. Standard input is { engine, cases } as JSON: the bundle of a module, and a list of
// [module, function, arguments], where { "$bytes": [..] } stands for bytes. Standard output is the list of what they return; of a
// file, its bytes in base64.
import { readFileSync } from "node:fs";

const revived = (_, value) => value?.$bytes ? Uint8Array.from(value.$bytes) : value;
const { engine, cases } = JSON.parse(readFileSync(0, "utf8"), revived);
const modules = [...new Set(cases.map(([name]) => name))].map((name) => `${name}: module_${name}`);
const all = new Function(`${engine}return { ${modules.join(", ")} };`)();
const bytes = async (file) => Buffer.from(await file.arrayBuffer()).toString("base64");

const found = [];
for (const [name, call, given] of cases) {
  const made = all[name][call](...given);
  found.push(made instanceof Blob ? await bytes(made) : made);
}
process.stdout.write(JSON.stringify(found));
