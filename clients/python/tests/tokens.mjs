// What a browser reads of scripts. Standard input is a list of scripts as JSON; standard output has of each the tokens:
// [kind, value, whether a line ends before it]. Debian's node comes with acorn.
import { readFileSync } from "node:fs";
import { createRequire } from "node:module";

const { tokenizer } = createRequire(import.meta.url)("/usr/share/nodejs/acorn");

function tokens(text) {
  let line = Infinity;      // before the first there is no other
  return Array.from(tokenizer(text, { ecmaVersion: "latest", sourceType: "module", locations: true }),
    ({ type, value, loc }) => {
      const isFirst = loc.start.line > line;
      line = loc.end.line;
      return [type.label, value instanceof Object ? String(value.pattern) : String(value), isFirst];
    });
}

process.stdout.write(JSON.stringify(JSON.parse(readFileSync(0, "utf8")).map(tokens)));
