// The toolbar, and the line of words below the gas.
import { ALWAYS, CHOICES, FINGERS, ICONS, SHARES, TOOLS, toolOf } from "./facts.js";
import { TEXTS, told } from "./texts.js";
import { at, button, choices, choose, fill, h, icon, rove } from "./elements.js";
import { state } from "./state.js";
import { view } from "./view.js";
import { edits } from "./edits.js";
import { PERIODS, act, hasShapes, options, own, undo } from "./drawing.js";
import { numberField } from "./checks.js";

const T = TEXTS.toolbar;

const undoButton = h("button.parted", { onclick: undo }, icon(ICONS.undo), h("span", T.undo));
const buttons = [...TOOLS.map(({ id, name, hint, key, gap, icon: shapes }) =>
  h(gap ? "button.parted" : "button",
    { "data-tool": id, title: `${hint} (${key})`, onclick: () => state.change({ tool: id }) },
    icon(shapes), h("span", name))), undoButton];

const hasFingers = matchMedia("(pointer: coarse)");

/** What the chosen tool does. Where there are fingers and no wheel, it says what fingers do. */
function hintOf({ name, hint, fingers = `${hint} ${FINGERS.draw}` }) {
  return [h("b", `${name}.`), ` ${hasFingers.matches ? fingers : hint}`];
}

/** Says something below the gas, or what is to be done there. */
export function showWords(...children) {
  const { task } = state.tried ? {} : state.lesson, isTask = Boolean(task && !children.length);
  const fingers = hasFingers.matches ? ` ${state.tool === "look" ? FINGERS.choose : FINGERS.draw}` : "";
  at("said").classList.toggle("task", isTask);
  fill(at("said"), ...isTask ? [task, fingers] : children.length ? children : hintOf(toolOf(state.tool)));
}

function share([name, min, text]) {
  const shown = h("span.value", `${options[name]}%`);
  const oninput = ({ target }) => {
    options[name] = target.valueAsNumber;
    shown.textContent = `${target.value}%`;
  };
  return h("label", text,
    h("input", { type: "range", min, max: "100", step: "5", value: options[name], oninput }), shown);
}

export const lastCell = () => [view.picture.width - 1, view.picture.height - 1];

function showOptions() {
  const tool = toolOf(state.tool), set = (name) => (value) => { options[name] = value; };
  const choice = (name) => choices(...CHOICES[name], options[name], set(name));
  fill(at("options"), hasShapes(tool) && choice("shape"), tool.line && !tool.cell && choice("snap"),
    tool.id === "source" && h("label", `${T.every} `,
      numberField(T.period, options.period ?? "", PERIODS, set("period"), ` ${T.ticks}`)),
    tool.id === "shoot" && choice("way"),
    tool.id === "random" && [...SHARES.map(share), button(T.fillAll, () => act([[0, 0], lastCell()]))],
    ...own[tool.id]?.options ?? []);
  at("options").hidden = !at("options").childElementCount;
}

function showTool() {
  document.body.dataset.tool = state.tool;
  choose(buttons, ({ dataset }) => dataset.tool === state.tool, "aria-pressed");
  undoButton.ariaPressed = null;
  showOptions();
  showHint();
}

function showHint() {
  view.redraw();
  showWords();
}

edits.changed = () => {
  undoButton.ariaDisabled = edits.list.length === 0;
  undoButton.title = `${told(T.undoIt, { what: edits.label() || T.last })} (${ALWAYS.undo.shown})`;
};

at("tools").append(...buttons);
rove(at("tools"), buttons);
state.on(["tool"], showTool);
state.on(["lesson", "tried"], showHint);
