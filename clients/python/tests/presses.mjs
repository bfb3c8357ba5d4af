// Presses the buttons of lessons in every order, and once while the run of another is under way. Standard input is { engine, cases }
// as JSON: the bundle of engine.js, and lessons with their setup, size, tries and asks. Standard output has of each lesson the
// states that were reached: [buttons that changed the gas, tick, replies to the asks].
import { readFileSync } from "node:fs";

const MOST = 5; // buttons, one after the other
const { engine, cases } = JSON.parse(readFileSync(0, "utf8"));
const { Gas, Lab, snapshot, fromSnapshot, linesOf } = new Function(`${engine}return { ...module_gas, ...module_engine };`)();

function begun({ size, setup }) {
  const lab = new Lab(new Gas(...size));
  for (const line of setup) lab.line(0, line);
  return lab;
}

/** Does what a button sends, as the page does. A run is cut at half of its way if `isCut`. */
function pressed(lesson, k, { bytes, changes }, isCut) {
  let lab = new Lab(fromSnapshot(bytes)), all = new Set(changes), lines = linesOf(lesson.tries[k], lab.gas);
  if (!lines) {
    lab = begun(lesson);
    all = new Set();
    lines = linesOf(lesson.tries[k], lab.gas);
  }
  for (const line of lines) {
    const [word, to] = line.split(" "), { gas } = lab;
    if (word === ".goto") {
      const far = isCut ? Math.trunc((to - gas.tick) / 2) : to - gas.tick;
      if (far !== 0) lab.line(0, `${far < 0 ? "back" : "step"} ${Math.abs(far)}`);
    } else {
      const reply = lab.line(0, line);
      if (!reply.startsWith("OK")) throw new Error(`${line}: ${reply}`);
      if (word !== "step" && word !== "back") all.add(k);
    }
  }
  return { bytes: snapshot(lab.gas), changes: [...all].sort() };
}

const states = cases.map((lesson) => {
  const first = { bytes: snapshot(begun(lesson).gas), changes: [], isCut: false };
  const found = new Map(), keyOf = ({ bytes, changes, isCut }) => [Buffer.from(bytes).toString("latin1"), changes, isCut].join();
  let newest = [first];
  for (let n = 0; n <= MOST && newest.length; n++) {
    for (const state of newest) found.set(keyOf(state), state);
    newest = newest.flatMap((state) => lesson.tries.flatMap((_, k) => [
      { ...pressed(lesson, k, state, false), isCut: state.isCut },
      ...state.isCut ? [] : [{ ...pressed(lesson, k, state, true), isCut: true }]]));
    newest = [...new Map(newest.map((state) => [keyOf(state), state])).values()].filter((state) => !found.has(keyOf(state)));
  }
  return [...found.values()].map(({ bytes, changes }) => {
    const lab = new Lab(fromSnapshot(bytes));
    return [changes, lab.gas.tick, lesson.asks.map((line) => lab.line(0, line))];
  });
});
process.stdout.write(JSON.stringify(states));
