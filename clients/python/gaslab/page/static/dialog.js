// The dialog, and what its forms are made of.
import { at, h } from "./elements.js";

const box = at("popover");

/** Opens the dialog with what `fill` returns, of which the first heading is its name. */
export function openDialog(fill) {
  box.replaceChildren(...fill());
  box.querySelector("h2").id = "popover-name";
  if (!box.open) box.showModal();
}

export const form = (onsubmit, ...children) => h("form", { method: "dialog", onsubmit }, ...children);
/** A form whose fields lie side by side. */
export const fields = (onsubmit, ...children) =>
  h("form.fields", { method: "dialog", onsubmit }, ...children);
export const text = (more) => h("input", { type: "text", ...more });
