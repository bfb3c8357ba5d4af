// The page: its header, and what begins it.
import { TRUTH } from "./facts.js";
import { TEXTS, told } from "./texts.js";
import { plural } from "./wording.js";
import { at, fill } from "./elements.js";
import { ALL, find } from "./lessons.js";
import { state } from "./state.js";
import { view } from "./view.js";
import { plots } from "./plots.js";
import { banner } from "./notices.js";
import { stored } from "./files.js";
import { edits } from "./edits.js";
import { connect, join, send } from "./session.js";
import { showTab } from "./tabs.js";
import { openDialog } from "./dialog.js";
import { load, openBytes } from "./opening.js";
import { lessons, placed } from "./shelves.js";
import { help, saveScript, seats, share, truth } from "./about.js";
import { table } from "./truth_table.js";
import "./modes.js";
import "./arrows.js";
import "./tracers.js";
import "./marks.js";
import "./shelf.js";
import "./readings.js";
import "./command_line.js";
import "./gestures.js";
import "./keys.js";
import "./lesson.js";
import "./probe_fields.js";
import "./repeat.js";
import "./printing.js";
import "./unsaved.js";
import "./beginning.js";
import "./journal.js";

const T = TEXTS.page;

for (const [id, fill] of Object.entries({ truth, seats, "lessons-open": lessons, "share-open": share,
  "help-open": help, "table-open": table }))
  at(id).onclick = () => { if (state.picture || id !== "share-open") openDialog(fill); };
at("script").onclick = saveScript;

function showHeader() {
  const { program, rights, seat, people, status } = state, others = people.size - 1;
  at("truth").dataset.program = program;
  at("truth").lastElementChild.textContent = (TRUTH[program] ?? TRUTH.none)[0];
  at("seats").hidden = program === "page";
  at("script").hidden = program !== "page";
  fill(at("seats"), seat === null ? T.noSeat : [told(T.seat, { seat }),
    rights === "watch" && `, ${T.watching}`, others > 0 && ` · ${plural(others, "other")}`]);
  document.body.dataset.status = status;
}

function setLarge(isLarge) {
  at("larger").ariaPressed = isLarge;
  stored("localStorage", "gaslab-large", isLarge);
  plots.redraw(true);
}

const dark = matchMedia("(prefers-color-scheme: dark)");

/** Shows the theme that a person chose, or else the one that the system asks for. */
function showTheme() {
  const theme = stored("localStorage", "gaslab-theme") ?? (dark.matches ? "dark" : "light");
  document.documentElement.dataset.theme = theme;
  at("theme").ariaPressed = theme === "dark";
  state.change({ isDark: theme === "dark" });
}

at("theme").onclick = () => {
  stored("localStorage", "gaslab-theme", state.isDark ? "light" : "dark");
  showTheme();
};
dark.onchange = showTheme;
showTheme();
at("larger").onclick = () => setLarge(at("larger").ariaPressed !== "true");
state.on(["program", "people", "rights", "seat", "status"], showHeader);
setLarge(stored("localStorage", "gaslab-large") === "true");
const { tool, mode, speed, status } = state;         // these are shown once before anything changes
state.change({ tool, mode, speed, status, keysOn: stored("localStorage", "gaslab-keys") !== "false" });
showTab("readings");
join();

/** For tests alone. */
globalThis.laboratory = { lab: state, view, plots, edits, send, load, join, connect, find, openBytes, placed,
  chooseTool: (tool) => state.change({ tool }), all: () => ALL.slice(0, -1).map(({ id }) => id) };

const fault = (what) => banner(told(T.fault, { what }), [], true);
addEventListener("error", ({ message }) => fault(message));
addEventListener("unhandledrejection", ({ reason }) => fault(reason));
