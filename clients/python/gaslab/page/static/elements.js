// Elements of the page: found by id, or made from text without markup; and buttons that belong together.
import { MOVES } from "./facts.js";

export const at = (id) => document.getElementById(id);
const SVG = ["svg", "path", "rect", "circle"];
export const SANS = getComputedStyle(document.body).fontFamily;

/** An element. `tag` may have classes: "p.task". Objects are attributes and properties, all else children. */
export function h(tag, ...parts) {
  const [name, ...classes] = tag.split("."), space = SVG.includes(name) ? "2000/svg" : "1999/xhtml";
  const element = document.createElementNS(`http://www.w3.org/${space}`, name);
  if (classes.length) element.className = classes.join(" ");
  for (const part of parts.flat().filter(Boolean)) {
    if (part.constructor !== Object) element.append(part);
    else for (const [key, value] of Object.entries(part)) {
      if (typeof value === "string" || key.includes("-")) element.setAttribute(key, value);
      else element[key] = value;
    }
  }
  return element;
}

/** Replaces the children of an element. Empty ones are left out. */
export function fill(element, ...children) { element.replaceChildren(...children.flat().filter(Boolean)); }

export const button = (text, act) => h("button.plain", { onclick: act }, text);

/** An icon from its shapes: [tag, attributes] each. */
export const icon = (shapes) => h("svg", { viewBox: "0 0 20 20", "aria-hidden": "true" },
  shapes.map(([tag, look]) => h(tag, look)));

/** Text in which what is between backticks is code, or another element, as children of `h`. */
export function words(text, tag = "code") {
  return text.split("`").map((part, k) => k % 2 ? h(tag, part) : part);
}

/** Writes text that has changed: an element that stays the same costs no layout. */
export function setText(element, text) { if (element.textContent !== text) element.textContent = text; }

/** Marks one of some buttons by an attribute. Tab then stops at that one alone. */
export function choose(buttons, isChosen, attribute) {
  for (const button of buttons) {
    button.setAttribute(attribute, isChosen(button));
    button.tabIndex = isChosen(button) ? 0 : -1;
  }
}

/** Lets arrow keys move the focus among buttons, and press the one that they reach if `presses`. */
export function rove(box, buttons, presses = false) {
  box.onkeydown = (e) => {
    const [dx, dy] = MOVES[e.key] ?? [0, 0], place = buttons.indexOf(document.activeElement);
    if (place < 0 || !(dx || dy)) return;
    e.preventDefault();
    e.stopPropagation();
    const next = buttons[(place + dx + dy + buttons.length) % buttons.length];
    next.focus();
    if (presses) next.click();
  };
}

/** Buttons of which one is pressed: [value, text, name] each. */
export function choices(name, all, chosen, act) {
  const buttons = all.map(([value, text, label = text]) => h("button", { title: label, "aria-label": label,
    ariaPressed: value === chosen, onclick: ({ target }) => {
      for (const one of buttons) one.ariaPressed = one === target;
      act(value);
    } }, text));
  return h("span.segments", { role: "group", "aria-label": name }, buttons);
}
