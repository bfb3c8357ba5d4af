// Readings beside the gas: tick, tally, the ledger as a sum, and the probes.
import { ROWS } from "./facts.js";
import { TEXTS, told } from "./texts.js";
import { say } from "./wording.js";
import { at, fill, h, setText } from "./elements.js";
import { state } from "./state.js";
import { plots } from "./plots.js";
import { send } from "./session.js";

const T = TEXTS.readings;

const GATE = 64;           // particles up to which a gas may be a gate

for (const name of [...Object.keys(ROWS), T.balance])
  at("ledger").append(h(name in ROWS ? "tr" : "tr.sum", h("th", { scope: "row" }, name),
    h("td"), h("td"), h("td")));

/** Shows the numbers of `ledger`. The sign in a row's name says how it counts for the balance. */
function showLedger({ ledger, tally, mixed }) {
  const { rows } = at("ledger"), sums = [0, 0, 0];
  Object.values(ROWS).forEach(([sign, ...fields], k) => fields.forEach((field, column) => {
    setText(rows[k].cells[column + 1], field === null ? "" : say(ledger[field]));
    sums[column] += field === null ? 0 : sign * ledger[field];
  }));
  sums.forEach((n, k) => setText(rows[rows.length - 1].cells[k + 1], say(n)));
  at("ledger").className = Math.max(...ledger.map((n) => say(n).length)) > 9 ? "long" : "";
  const isEven = sums.every((n, k) => n === tally[k]);
  at("balance").className = isEven ? "even" : "odd";
  setText(at("balance"), isEven ? T.even
    : mixed ? T.mixed
      : told(T.odd, { tally: tally.map(say).join(", ") }));
}

/** The probes with what is in them, each with a button that closes it. */
function showProbes({ probes, tally }) {
  const list = at("probes"), keys = probes.map(({ key }) => key).join();
  if (list.dataset.keys !== keys) {
    list.dataset.keys = keys;
    fill(list, probes.map(({ key, rect }) => h("li", h("b", told(T.probe, { key }), " "),
      h("code", rect.join(" ")), h("span.sums"), h("button.close", { "aria-label": told(T.close, { key }),
        title: T.closeThis, onclick: () => send([`.unwatch ${key}`]) }, "×"))));
  }
  probes.forEach(({ sums: [count, px, py] }, k) => setText(list.children[k].querySelector(".sums"),
    told(T.sums, { count: say(count), px: say(px), py: say(py) })));
  at("probe-box").hidden = probes.length + state.names.length === 0;
  at("table-open").hidden = tally[0] > GATE;
}

state.on(["shown"], () => {
  const { shown, shown: { tick, tally } } = state;
  ["tick", "count", "px", "py"].forEach((id, k) => setText(at(id), say([tick, ...tally][k])));
  showLedger(shown);
  showProbes(shown);
  // on a phone the plots are below: tick and first plot's value are on the canvas
  const [name, , value] = document.querySelector("#plot-list figcaption")?.children ?? [];
  const more = value?.textContent ? ` · ${name.textContent.toLowerCase()} ${value.textContent}` : "";
  setText(at("mini"), `${told(TEXTS.plots.tick, { tick: say(tick) })}${more}`);
});
state.on(["names"], () => { if (state.shown) showProbes(state.shown); });
state.on(["lesson"], () => plots.choose(state.lesson.plots));
