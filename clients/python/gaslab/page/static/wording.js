// Numbers and refusals in plain words.
import { COMMANDS, REFUSALS } from "./facts.js";
import { TEXTS, told } from "./texts.js";

const numbers = new Intl.NumberFormat(TEXTS.language, { maximumFractionDigits: 3 });
export const say = (n) => numbers.format(Object.is(n, -0) ? 0 : n).replace("-", "−");
const plurals = new Intl.PluralRules(TEXTS.language);
/** A number of things of a kind, which has its forms among the texts. */
export const plural = (n, kind) => told(TEXTS.plurals[kind][plurals.select(n)], { n: say(n) });

export const isRefusal = (reply) => /^(NO|ERR|GONE)/.test(reply);

/** A refusal in plain words: what is wrong, and what to do. `picture` is that of the gas, if there is one. */
export function plainWords(reply, line = "", picture = null) {
  const [, what = "gone", ...why] = reply.split(" "), word = line.trim().split(/ +/)[0];
  const { width, height } = picture ?? { width: 64, height: 64 };
  const isRow = what === "5" && ["row", "read"].includes(word);
  const text = REFUSALS[isRow ? "5 row" : what] ?? REFUSALS[""];
  const named = { word: word.slice(0, 24), shape: COMMANDS[word]?.[0] ?? "help", width: say(width),
    height: say(height), last: height - 1, digits: width / 4, why: why.join(" ") };
  return text.replace(/\{(\w+)\}/g, (_, name) => named[name]);
}
