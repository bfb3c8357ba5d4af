// The links that Share copies: to a lesson, and to a small gas.
import { EMPTY } from "./facts.js";
import { TEXTS, told } from "./texts.js";
import { say } from "./wording.js";
import { h } from "./elements.js";
import { LESSONS, find } from "./lessons.js";
import { state } from "./state.js";
import { giveLink } from "./gives.js";
import { MOST_SIGNS, addressOf, fragmentOf, isStartOf } from "./links.js";

const T = TEXTS.link_rows;

const row = (name, text) => h("div.give", h("b", name), h("p", text));
const here = (text) => location.protocol === "file:" ? `${text} ${T.here}` : text;

function toLesson(lesson) {
  const { id, name } = lesson, link = LESSONS.includes(lesson) ? told(T.lesson, { id }) : T.scene;
  return giveLink(link, here(told(T.start, { name })), addressOf(`lesson=${id}`));
}

async function toGas(files) {
  const fragment = await fragmentOf(files), { length } = fragment, signs = say(length);
  return length > MOST_SIGNS ? row(T.gas, told(T.long, { signs, most: say(MOST_SIGNS) }))
    : giveLink(T.gas, here(told(T.script, { signs })), addressOf(fragment));
}

/** The rows of the dialog. That of the gas comes when its script is packed. */
export function linkRows() {
  if (state.program !== "page") return row(T.either, T.served);
  const { lesson } = state, isKnown = find(lesson.id) === lesson && lesson !== EMPTY;
  const rows = h("div.gives", isKnown && toLesson(lesson));
  state.link.fetch(".script").then(async (files) => {
    const isStart = isKnown && files.length && isStartOf(lesson, files);
    if (files.length && !isStart) rows.append(await toGas(files));
  });
  return rows;
}
