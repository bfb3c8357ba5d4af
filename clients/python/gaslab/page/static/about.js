// What runs, who is there, keys, and what is shared, in the dialog.
import { ALWAYS, GIVES, KEYS, PLOTS, SAVED, TOOLS, TRUTH } from "./facts.js";
import { TEXTS, told } from "./texts.js";
import { say } from "./wording.js";
import { button, h } from "./elements.js";
import { state } from "./state.js";
import { replays } from "./engine.js";
import { view } from "./view.js";
import { plots } from "./plots.js";
import { download, saveFile, savePicture, snapshotOf, stored } from "./files.js";
import { send } from "./session.js";
import { saveFilm } from "./film.js";
import { form, openDialog, text } from "./dialog.js";
import { give, giveLink } from "./gives.js";
import { linkRows } from "./link_rows.js";

const T = TEXTS.about;

export function truth() {
  const [, title, texts] = TRUTH[state.program] ?? TRUTH.none;
  return [h("h2", title), ...texts.map((text) => h("p", text)),
    button(T.saveScript, saveScript)];
}

/** Saves the script, and says what replays it. */
export async function saveScript() {
  const files = await saveFile(".script"), [title, ...texts] = SAVED;
  if (files.length) openDialog(() => [h("h2", title), ...replays(files).flatMap((line, k) =>
    [h("p", texts[k]), h("p", h("code.replay", line))]), h("p", texts[2])]);
}

export function seats() {
  const name = text({ maxLength: 24, size: 14 });
  const person = ([seat, called]) => h("li", h("b", told(TEXTS.page.seat, { seat })),
    [called, seat === state.seat ? T.you : ""].filter(Boolean).join(", "));
  return [h("h2", T.people), h("ul.people", [...state.people].map(person)),
    form(() => send([`.name ${name.value}`]), h("label", `${T.yourName} `, name), " ", button(T.save))];
}

export function help() {
  const single = h("input", { type: "checkbox", checked: state.keysOn, onchange: () => {
    state.change({ keysOn: single.checked });
    stored("localStorage", "gaslab-keys", single.checked);
  } });
  const all = [...Object.values(ALWAYS), ...KEYS,
    ...TOOLS.map(({ key, name }) => ({ shown: key, words: name.toLowerCase() }))];
  return [h("h2", T.keys), h("label.switch", single,
    ` ${T.single}`),
  h("div.keys", all.flatMap(({ shown, words }) => [
    h("span", shown.split(" ").flatMap((key) => [h("kbd", key), " "])), h("span", words)])),
  h("p.licence", T.licence)];
}

export function share() {
  const { picture: { journal }, cap } = state, size = say(snapshotOf(view).length);
  const named = (id, act, more = "") => give(GIVES[id][0], `${GIVES[id][1]} ${more}`, act);
  return [h("h2", T.share), linkRows(),
    named("script", saveScript, told(T.entries, { journal: say(journal), cap: say(cap) })),
    named("snapshot", () => saveFile(".snapshot"), told(T.bytes, { size })),
    named("readings", () => download("readings.csv", plots.table(), "text/csv")),
    ...plots.shown.filter((id) => plots.graphs[id]).map((id) =>
      give(told(T.plot, { name: PLOTS[id].name }), T.plotIs, () => savePicture(plots.picture(id), id))),
    named("picture", () => savePicture()),
    give(...GIVES.paper, () => print(), T.print),
    named("film", saveFilm),
    ...Object.entries(state.links).map(([what, token]) =>
      giveLink(...GIVES[what], new URL(`/${token}/`, location.href).href)),
    ...state.program === "page" ? []
      : [named("page", () => h("a", { href: "gas.html", download: "gas.html" }).click())]];
}
