// The lesson beside the gas: its text, question and buttons.
import { TEXTS, told } from "./texts.js";
import { at, fill, h, words } from "./elements.js";
import { kindOf } from "./lessons.js";
import { state } from "./state.js";
import { linesOf } from "./engine.js";
import { view } from "./view.js";
import { edits } from "./edits.js";
import { send } from "./session.js";
import { load } from "./opening.js";
import { slidersOf } from "./sliders.js";

const T = TEXTS.lesson;

const LONG = 22;           // characters of a line that a button shows whole
const shown = (line) => line.length > LONG ? `${line.split(" ").slice(0, 2).join(" ")} …`
  : line.replace(/^\.goto (\d+).*/, (_, tick) => told(T.runTo, { tick }));

function showLesson() {
  const { lesson } = state, kind = kindOf(lesson), { name, text, task, expect, tries } = lesson;
  document.body.dataset.lesson = kind === TEXTS.lessons.own ? "own" : "told";
  at("lesson-kind").textContent = kind;
  at("lesson-name").textContent = name;
  at("task").textContent = task ?? "";
  fill(at("lesson"), h("p.kicker", kind), h("h2", name),
    !lesson.own && h("button.plain.again", { onclick: () => load(lesson) }, T.again),
    text.map((one) => h("p", words(one))), task && h("p.task", task), expect && question(expect),
    tries?.length && [h("h3", T.tries), h("ul.tries", tries.map(tryButton))],
    slidersOf(lesson));
  at("lesson").scrollTop = 0;
}

let pressed = Promise.resolve();       // buttons act one after the other
const press = (one) => { pressed = pressed.then(() => doTry(one)); };
const tryButton = (one) => h("li", h("button", { onclick: () => press(one) }, h("span", one.say),
  h("code", one.lines.map(shown).join(" · "))));

/** Does what a lesson's button does. If no way leads to its tick, the lesson starts again first. */
async function doTry(one) {
  const isTimed = "at" in one || one.lines.some((line) => /^(\.goto|step|back)/.test(line));
  const [, tally = ""] = isTimed ? await state.link.send([".pause", "tally"]) : [];
  let lines = linesOf(one, { tick: Number(tally.split(" ")[1]), hasPorts: edits.gas.hasPorts });
  if (!lines && await load(state.lesson, state.lesson.size, state.values)) lines = linesOf(one, { tick: 0 });
  if (lines) await send(lines, { isTime: lines.some((line) => line.startsWith("back")) });
  if (lines && one.view) view.fit(one.view);
}

/** A question with choices. The answer comes after a choice, and takes the focus. */
function question({ ask, choices, right, answer }) {
  const buttons = choices.map((text, k) => h("button.choice", { onclick: () => choose(k) }, text));
  const all = h("fieldset", h("legend", ask), buttons);
  const said = h("p.answer", { tabIndex: -1, hidden: true }, answer);
  const choose = (mine) => {
    all.disabled = true;
    buttons[right].classList.add("right");
    buttons[mine].classList.add("mine");
    buttons[mine].append(h("em", mine === right ? T.right : T.guess));
    said.hidden = false;
    said.focus();
  };
  return h("section.expect", h("h3", T.expect), all, said);
}

state.on(["lesson"], showLesson);
