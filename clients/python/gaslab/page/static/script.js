// Scripts as people write them: commands, comments, `repeat`, and a size. The client reads the same.
import { isSide } from "./frame.js";
import { COUNTS } from "./engine.js";

const DEEPEST = 20;

/** A text is no script: a `size` or a `repeat` in this line is wrong. */
function fail(what, line) { throw new Error(what, { cause: line }); }

/** Commands and braces, each with the number of its line. */
const tokensOf = (text) => text.split("\n").flatMap((line, k) =>
  line.split("#", 1)[0].replace(/[{}]/g, ";$&;").split(";")
    .map((part) => [k + 1, part.split(/[ \t\r\v\f]+/).filter(Boolean).join(" ")])).filter(([, part]) => part);

/** { size, parts }: a part is [line, command], or [line, count, parts] that are repeated. It can `fail`. */
export function parseScript(text) {
  const tokens = tokensOf(text).reverse(), [line, head] = tokens.at(-1) ?? [0, ""];
  const sides = /^size( |$)/.test(head) ? tokens.pop()[1].split(" ").slice(1) : null;
  const size = sides?.map(Number);
  if (sides && !(size.length === 2 && size.every((n, k) => isSide(n) && sides[k] === `${n}`)))
    fail("size", line);
  const parts = partsOf(tokens, 0);
  if (tokens.length) fail("repeat", tokens.at(-1)[0]);
  return { size: size ?? null, parts };
}

function partsOf(tokens, depth) {
  const parts = [];
  while (tokens.length && tokens.at(-1)[1] !== "}") {
    const [line, command] = tokens.pop(), [word, ...rest] = command.split(" "), isRepeat = word === "repeat";
    if (word === "size") fail(word, line);
    if (command === "{" || depth > DEEPEST
      || isRepeat && !(/^[0-9]{1,10}$/.test(rest.join(" ")) && tokens.pop()?.[1] === "{"))
      fail("repeat", line);
    const part = isRepeat ? [line, Number(rest[0]), partsOf(tokens, depth + 1)] : [line, command];
    if (isRepeat && !tokens.pop()) fail("repeat", line);
    if (countOf([part])) parts.push(part);
  }
  return parts;
}

/** How many commands parts have. */
export const countOf = (parts) =>
  parts.reduce((sum, [, what, inner]) => sum + (inner ? what * countOf(inner) : 1), 0);

/** The commands of parts with their lines, each `repeat` carried out. */
export const commandsOf = (parts) => parts.flatMap((part) => part[2]
  ? Array.from({ length: part[1] }, () => commandsOf(part[2])).flat() : [part]);

/** The smallest lattice that all parts fit on: a saved script's first line probes the whole one. */
export function latticeOf(parts) {
  const fits = parts.map(([, what, inner]) => {
    if (inner) return latticeOf(inner);
    const [word, ...rest] = what.split(" ");
    const [x, y, w, h] = rest.map((n) => /^[0-9]{1,10}$/.test(n) ? Number(n) : NaN);
    if (word === "row" || word === "read") return [4 * rest[1]?.length, x + 1];
    return COUNTS[word] > 3 && x + y + w + h >= 0 ? [x + w, y + h] : [];
  });
  return [0, 1].map((k) => fits.reduce((most, fit) => Math.max(most, fit[k] || 0), 64))
    .map((side) => Math.min(4096, Math.ceil(side / 64) * 64));
}
