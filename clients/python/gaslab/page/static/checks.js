// Fields that are checked as one types. Each shows what it needs, and says so while it has something else.
import { TEXTS, told } from "./texts.js";
import { say } from "./wording.js";
import { h } from "./elements.js";

const T = TEXTS.checks;

let count = 0;             // of fields, for their hints' ids

/** A field with a hint beside it. `fault` tells what is needed, or nothing; `take` hears of each change. */
export function checked(input, hint, fault, take = () => {}) {
  const said = h("small.range", { id: `range-${count += 1}`, "aria-live": "polite" });
  input.setAttribute("aria-describedby", said.id);
  input.setCustomValidity(fault());        // a field that is still empty holds a form back, and isn't marked
  input.addEventListener("input", () => {
    const needed = fault();
    input.setAttribute("aria-invalid", Boolean(needed));
    input.setCustomValidity(needed);
    said.textContent = needed || hint;
    take();
  });
  said.textContent = hint;
  return [input, said];
}

/** An input for a whole number, with its range beside it. `take` gets the number, or null if it is none. */
export function ranged(input, take) {
  const [min, max] = [input.min, input.max].map(Number);
  const range = told(T.range, { min: say(min), max: say(max) });
  const isRight = () => Number.isInteger(input.valueAsNumber) && input.valueAsNumber >= min
    && input.valueAsNumber <= max;
  return checked(input, range, () => isRight() ? "" : told(T.needed, { range }),
    () => take?.(isRight() ? input.valueAsNumber : null));
}

/** A field for a whole number, before its unit. */
export function numberField(name, value, [min, max], take, unit = "") {
  const input = h("input", { type: "number", min: String(min), max: String(max), value, "aria-label": name });
  const [field, said] = ranged(input, take);
  return h("span.field", field, unit, said);
}
