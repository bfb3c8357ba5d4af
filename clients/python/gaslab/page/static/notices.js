// What is said to a person: a box beside a gesture, a banner, and words for a screen reader.
import { TEXTS } from "./texts.js";
import { at, button, fill, h } from "./elements.js";
import { view } from "./view.js";

const T = TEXTS.notices;

/** Shows a box beside a rectangle of the gas, or above Play. `does` are its buttons, [name, action] each. */
export function notice({ title, text, code = "", does = [], rect = null }) {
  fill(at("callout"), h("b", title), h("span.words", text), code && h("code", code),
    h("div.does", does.map((one) => button(...one))),
    h("button.close", { "aria-label": T.close, onclick: hideNotice }, "×"));
  at("callout").hidden = false;
  place(at("callout"), rect);
}

/** Places the box to the right of a rectangle, or to its left, below or above it. */
function place(box, rect) {
  box.style.left = box.style.top = "0";
  const { clientWidth: mw, clientHeight: mh } = at("mat"), { offsetWidth: bw, offsetHeight: bh } = box;
  const [x, y, w, h] = rect ? view.box(rect) : [8, mh, mw, 0], beside = y + h / 2 - bh / 2;
  const inside = (v, most) => `${Math.max(8, Math.min(v, most - 8))}px`;
  let [left, top] = [x, y + h + 12 + bh < mh ? y + h + 12 : y - bh - 12];
  if (x + w + 12 + bw <= mw) [left, top] = [x + w + 12, beside];
  else if (x - bw - 12 >= 0) [left, top] = [x - bw - 12, beside];
  box.style.left = inside(left, mw - bw);
  box.style.top = inside(top, mh - bh);
}

export function hideNotice() {
  at("callout").hidden = true;
  if (view.selection?.bad) view.select();
}

export function banner(text, does = [], isBad = false) {
  at("banner").className = isBad ? "bad" : "";
  fill(at("banner"), h("span", text), does.map((one) => button(...one)));
  at("banner").hidden = false;
}

export function hideBanner() { at("banner").hidden = true; }

/** Says something to a screen reader when it has time. */
export function speak(text) { at("spoken").textContent = text; }
