// Links: what stands in an address behind its #, a lesson's name or a small gas as its packed script.
import { TEXTS, told } from "./texts.js";
import { plural, say } from "./wording.js";
import { find } from "./lessons.js";
import { state } from "./state.js";
import { Gas } from "./gas.js";
import { Lab, fromSnapshot } from "./engine.js";
import { lessonOf } from "./files.js";
import { ownValues, startOf } from "./parameters.js";

const T = TEXTS.links;

export const MOST_SIGNS = 8192;    // behind the #
const LARGEST = 1 << 23;   // bytes of what is unpacked: a snapshot of the largest lattice and some more
const PATIENCE = 250;      // milliseconds in which the particles of a script are counted

async function through(stream, bytes, most = Infinity) {
  const parts = [], reader = new Blob([bytes]).stream().pipeThrough(stream).getReader();
  let size = 0;
  for (let next = await reader.read(); !next.done; next = await reader.read()) {
    size += next.value.length;
    if (size > most) throw new RangeError(T.damaged);
    parts.push(next.value);
  }
  return new Uint8Array(await new Blob(parts).arrayBuffer());
}

/** Bytes as signs of an address: gzip, which has a check sum, and base 64. */
async function packed(bytes) {
  const zipped = await through(new globalThis.CompressionStream("gzip"), bytes);
  const signs = btoa(Array.from(zipped, (v) => String.fromCharCode(v)).join(""));
  return signs.replaceAll("+", "-").replaceAll("/", "_").replace(/=+$/, "");
}

function unpacked(text) {
  const signs = atob(text.replaceAll("-", "+").replaceAll("_", "/"));
  const zipped = Uint8Array.from(signs, (c) => c.charCodeAt(0));
  return through(new globalThis.DecompressionStream("gzip"), zipped, LARGEST);
}

/** What follows the # in the link of a gas, by the files of its script. */
export async function fragmentOf([script, start]) {
  const from = start ? `&start=${await packed(start.contents)}` : "";
  return `script=${await packed(script.contents)}${from}`;
}

/** Whether a script is that of a lesson's start: beside its setup it has only readings. */
export function isStartOf(lesson, [script, start]) {
  const lines = new TextDecoder().decode(script.contents), setup = startOf(lesson, ownValues(lesson));
  return !start
    && lines === [`probe 0 0 ${lesson.size.join(" ")}`, ...setup, "tally", "ledger", ""].join("\n");
}

export const addressOf = (fragment) => `${location.href.replace(/[?#].*/, "")}#${fragment}`;

/** The link in an address: { lesson } or { script, start, read }, or { fault } in plain words, or null. */
export async function linkIn({ hash, search }) {
  const asked = new URLSearchParams(hash.slice(1)), id = asked.get("lesson");
  if (id !== null || !asked.has("script")) {
    const name = id ?? new URLSearchParams(search).get("lesson"), lesson = find(name);
    return name === null ? null : lesson ? { lesson }
      : { fault: told(T.unknown, { name: name.slice(0, 40) }) };
  }
  try {
    const script = await unpacked(asked.get("script")), isFrom = asked.has("start");
    const start = isFrom ? await unpacked(asked.get("start")) : null, read = lessonOf(script);
    const isWrong = read.snapshot || isFrom && !lessonOf(start).snapshot;
    return read.fault || isWrong ? { fault: read.fault ?? T.damaged } : { script, start, read };
  } catch (fault) {
    console.info(fault);                             // bytes that are no base 64 or no gzip, or too many
    return { fault: T.damaged };
  }
}

/** What a link holds, in words, and whether that takes long to compute. */
export function contentsOf({ lesson, read, start }) {
  const { size, lines } = lesson ? { ...lesson, lines: startOf(lesson, ownValues(lesson)) } : read;
  const lab = new Lab(start ? fromSnapshot(start) : new Gas(...size), state.cap), { gas } = lab;
  let { tick } = gas;
  for (const line of lines) {
    const [word, n] = line.split(" ");
    tick += { step: 1, back: -1 }[word] * n || 0;
  }
  const isLong = !replay(lab, lines);
  const count = isLong ? T.uncounted : plural(gas.sums()[0], "particle");
  return { isLong, text: told(T.has, { width: say(gas.width), height: say(gas.height),
    lines: plural(lines.length, "line"), tick: say(tick), count }) };
}

/** Does lines, step by step. Returns whether there was time for all. */
function replay(lab, lines) {
  const end = performance.now() + PATIENCE;
  for (const line of lines) {
    const [word, n] = line.split(" "), move = { step: "forward", back: "back" }[word];
    if (!move) lab.line(0, line);
    for (let k = move ? Number(n) : 0; k > 0 && performance.now() <= end; k--) lab[move]();
    if (performance.now() > end) return false;
  }
  return true;
}
