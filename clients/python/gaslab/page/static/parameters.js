// The start of a lesson with values of its sliders, as lines that the journal has.
import { randomRows } from "./random.js";

/** The value of a sum such as 32-height/2, of numbers and sliders. */
function valueOf(sum, values) {
  return [...sum.matchAll(/([+-]?)(\w+)(?:\/(\d+))?/g)].reduce((total, [, sign, term, parts = 1]) =>
    total + (sign === "-" ? -1 : 1) * (values[term] ?? Number(term)) / parts, 0);
}

/** The values with which a lesson opens. */
export const ownValues = ({ sliders = [] }) =>
  Object.fromEntries(sliders.map(({ id, value }) => [id, value]));

/** The rows of a random gas. With a wavelength, its cells are fuller at the crests of a wave. */
function rowsOf([width, height], { density, right = 0, seed, length, high, diagonal }) {
  const wave = (x, y) => 1 + high / 100 * Math.cos(2 * Math.PI * (x + diagonal * y) / length);
  const look = { density: density / 100, right: right / 100, seed };
  return randomRows(width, height, look, length ? wave : null);
}

/** The lines of a lesson's start. Those whose rectangle is empty are left out. */
export function startOf({ size, setup, isRandom, varied = {}, added = [] }, values) {
  const lines = [...setup.map((line) => varied[line] ?? line), ...added].map((line) =>
    line.replace(/\{([^}]+)\}/g, (_, sum) => valueOf(sum, values)));
  const isEmpty = (line) => line.split(" ").slice(3, 5).includes("0");
  return [...isRandom ? rowsOf(size, values) : [], ...lines.filter((line) => !isEmpty(line))];
}
