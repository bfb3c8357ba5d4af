// The texts of the page, in one language: another one is a file of the same form.
import texts from "./texts_en.json";

export const TEXTS = texts;

/** A text with values in place of its {names}. */
export const told = (text, values) => text.replace(/\{(\w+)\}/g, (_, name) => values[name]);
