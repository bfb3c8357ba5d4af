// The strings of scripts. Standard input is [name, text] of each script as JSON; standard output has of each string
// [name, line, text], with ${} in place of what a template takes in. Debian's node comes with acorn.
import { readFileSync } from "node:fs";
import { createRequire } from "node:module";

const { parse } = createRequire(import.meta.url)("/usr/share/nodejs/acorn");
const found = [];

function look(node, name, text) {
  if (Array.isArray(node)) for (const one of node) look(one, name, text);
  if (!node?.type || node.type === "ImportDeclaration") return;
  const line = text.slice(0, node.start).split("\n").length;
  if (node.type === "Literal" && typeof node.value === "string") found.push([name, line, node.value]);
  if (node.type === "TemplateLiteral")
    found.push([name, line, node.quasis.map(({ value }) => value.cooked).join("${}")]);
  for (const part of Object.values(node)) if (part && typeof part === "object") look(part, name, text);
}

for (const [name, text] of JSON.parse(readFileSync(0, "utf8")))
  look(parse(text, { ecmaVersion: "latest", sourceType: "module" }).body, name, text);
process.stdout.write(JSON.stringify(found));
