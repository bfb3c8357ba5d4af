// What the dialog gives: a thing to take home, or a link to copy.
import { TEXTS } from "./texts.js";
import { button, h } from "./elements.js";

const T = TEXTS.about;

/** A thing to take home: its name, what it is, and what its button does. */
export function give(name, text, act, label = T.save, more = null) {
  const does = button(label, () => act(does));
  return h("div.give", h("b", name), h("p", text), does, more);
}

/** A link with a button that copies it. */
export function giveLink(name, text, href) {
  const input = h("input.link", { readOnly: true, value: href, "aria-label": name });
  const copy = (does) => {                             // a shared page has no navigator.clipboard: it is HTTP
    input.select();
    does.textContent = document.execCommand("copy") ? T.copied : T.byHand;
  };
  return give(name, text, copy, T.copy, input);
}
