// The command line, with history and completion.
import { ALWAYS, COMMANDS, ICONS, MOVES } from "./facts.js";
import { TEXTS } from "./texts.js";
import { isRefusal } from "./wording.js";
import { at, icon } from "./elements.js";
import { addRow, exchange, note } from "./log.js";
import { send } from "./session.js";

const T = TEXTS.command_line;

const history = [], entry = at("entry"), log = at("log");
let place = 0;

function toggleLog(isOpen = log.hidden) {
  log.hidden = !isOpen;
  at("log-open").ariaExpanded = isOpen;
  log.scrollTop = 1e9;
  if (isOpen) entry.focus();
}

function recall(by) {
  place = Math.max(0, Math.min(history.length, place + by));
  entry.value = history[place] ?? "";
}

/** Completes the first word, or lists what it can be. */
function complete(e) {
  const found = [...Object.keys(COMMANDS), "help"].filter((word) => word.startsWith(entry.value));
  if (found.length === 0) return;
  e.preventDefault();
  if (found.length === 1) { entry.value = `${found[0]} `; return; }
  toggleLog(true);
  note(found.join("  "));
}

async function enter(line) {
  entry.value = "";
  if (!line) return "";
  history.push(line);
  place = history.length;
  if (/^help( |$)/.test(line)) { help(line.slice(5).trim()); return ""; }
  if (/^[.#]/.test(line)) { exchange(TEXTS.log.you, line, "ERR 2 word"); return "ERR 2 word"; }
  const [reply] = await send([line], { isQuiet: true });
  if (isRefusal(reply)) toggleLog(true);
  return reply;
}

/** Several lines at once are sent one after the other, up to the first refusal. */
async function paste(e) {
  const lines = e.clipboardData.getData("text").split("\n").map((line) => line.trim())
    .filter((line) => line && !line.startsWith("#"));
  if (lines.length < 2) return;
  e.preventDefault();
  for (const line of lines) if (isRefusal(await enter(line))) return;
}

function help(word) {
  toggleLog(true);
  const isKnown = Object.hasOwn(COMMANDS, word), some = isKnown ? [COMMANDS[word]] : Object.values(COMMANDS);
  for (const [shape, text] of some) addRow("help", ["", "who"], [shape, "sent"], [text, "words"]);
  if (!isKnown)
    note(T.how);
}

at("log-open").append(icon(ICONS.console));
at("log-open").onclick = () => toggleLog();
at("form").onsubmit = (e) => { e.preventDefault(); enter(entry.value.trim()); };
entry.onpaste = paste;
entry.onkeydown = (e) => {
  const by = MOVES[e.key]?.[1];
  if (by) { e.preventDefault(); recall(by); }
  else if (e.key === ALWAYS.complete.key && entry.value && !entry.value.includes(" ")) complete(e);
  else if (e.key === ALWAYS.leave.key) { entry.value = ""; at("gas").focus(); }
};
