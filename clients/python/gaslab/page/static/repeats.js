// The same run over several random gases: what a worker of its own computes, gas after gas.
import { Gas } from "./gas.js";
import { Lab, fromSnapshot } from "./engine.js";
import { randomRows } from "./random.js";

const PERIOD = 100;        // milliseconds between two words on how far it is
const TAKEN = 7;           // the place of what obstacles took of px in a ledger

/** A random gas among the walls, obstacles and ports of another one. Its solid cells are empty. */
export function begun({ width, height, walls, obstacles, drains, sources, solids }, look, seed) {
  const lab = new Lab(new Gas(width, height));
  for (const line of randomRows(width, height, { ...look, seed })) lab.line(0, line);
  lab.change(0, height, (particles) =>
    particles.forEach((word, k) => { particles[k] = word & ~(walls[k] | obstacles[k]); }));
  Object.assign(lab.gas, { walls, obstacles, drains, sources, solids });
  return lab;
}

/** The run of one gas: after each `steps` more steps [count, px, py, drag], and the sums of each probe. */
export function* runOf(bare, { look, steps, times, probes }, seed) {
  const lab = begun(bare, look, seed), { gas } = lab;
  let before = lab.ledger()[TAKEN];
  for (let n = 0; n < times; n++) {
    for (let k = 0; k < steps; k++) lab.forward();
    const taken = lab.ledger()[TAKEN];
    yield [...gas.sums(), (taken - before) / steps, ...probes.flatMap((rect) => gas.sums(rect))];
    before = taken;
  }
}

/** Runs gases of the seeds 1, 2 and so on. Tells { done } now and then, and of each gas its { rows }. */
export function repeat({ snapshot, gases, ...run }, tell) {
  const bare = fromSnapshot(snapshot);
  let told = performance.now();
  for (let seed = 1; seed <= gases; seed++) {
    const rows = [];
    for (const row of runOf(bare, run, seed)) {
      rows.push(row);
      if (performance.now() < told + PERIOD) continue;
      told = performance.now();
      tell({ done: seed - 1 + rows.length / run.times });
    }
    tell({ done: seed, rows });
  }
}
