// The log of commands and replies.
import { TEXTS, told } from "./texts.js";
import { isRefusal, plainWords, say } from "./wording.js";
import { at, fill, h } from "./elements.js";
import { state } from "./state.js";

const T = TEXTS.log;

const KEPT = 400, LONGEST = 60;
const FEW = 6;             // refusals that are shown of lines that were sent together
const short = (text, most) => text.length > most ? `${text.slice(0, most - 3)}…` : text;
let rows = null;           // rows of one seat that came one after the other: { who, count, cell }

export function addRow(kind, ...cells) {
  const log = at("log"), stays = log.scrollHeight - log.scrollTop - log.clientHeight < 40;
  const row = h(`div.${kind}`, cells.map(([text, name]) => h(`span.${name}`, text)));
  rows = null;
  log.append(row);
  while (log.childElementCount > KEPT) log.firstChild.remove();
  if (stays) log.scrollTop = 1e9;
  return row;
}

export function note(text) { addRow("note", ["", "who"], [text, "words"]); }

export function exchange(who, line, reply) {
  const isBad = isRefusal(reply);
  addRow(isBad ? "refused" : "", [who, "who"], [short(line, LONGEST), "sent"], [reply, isBad ? "err" : "ok"],
    ...isBad ? [[plainWords(reply, line, state.picture), "words"]] : []);
  last(who === T.you ? T.sent : who, short(line, LONGEST), reply);
}

/** Shows what another seat did. Rows that follow one another are one line. */
export function entryOf(who, line, reply) {
  if (line.startsWith("row ") && rows?.who === who) {
    rows.count += 1;
    rows.cell.textContent = told(T.rows, { count: rows.count });
    return;
  }
  exchange(who, line, reply);
  if (line.startsWith("row ")) rows = { who, count: 1, cell: at("log").lastChild.children[1] };
}

function last(who, line, reply) {
  const kind = isRefusal(reply) ? "err" : "ok";
  fill(at("last"), h("span.label", who), h("span.sent", line), h(`span.${kind}`, short(reply, 46)));
}

/** Shows lines that were sent together: of many the first two and the last. */
export function exchanges(lines, replies) {
  const isLong = lines.length > 6;
  let refused = 0;
  lines.forEach((line, k) => {
    const isBad = isRefusal(replies[k]);
    if (isLong && k === 2) note(told(T.more, { count: lines.length - 3 }));
    refused += isBad;
    if (isBad ? refused <= FEW : !(isLong && k > 1 && k < lines.length - 1) && !line.startsWith("."))
      exchange(T.you, line, replies[k]);
  });
  if (refused > FEW) note(told(T.refused, { count: say(refused - FEW) }));
  if (isLong && refused === 0)
    last(T.sent, told(T.lines, { count: lines.length }),
      replies.findLast((reply) => reply.startsWith("OK")) ?? "");
}
