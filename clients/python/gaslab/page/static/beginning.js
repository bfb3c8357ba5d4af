// What a new page opens: a link, what was kept over a reload, its own script, or lesson 4.
import { EMPTY } from "./facts.js";
import { TEXTS, told } from "./texts.js";
import { at, button, h } from "./elements.js";
import { LESSONS, find } from "./lessons.js";
import { state } from "./state.js";
import { view } from "./view.js";
import { banner, hideBanner } from "./notices.js";
import { note } from "./log.js";
import { bytesOf, keepForReload, takeKept } from "./files.js";
import { openDialog } from "./dialog.js";
import { load, openBytes } from "./opening.js";
import { contentsOf, linkIn } from "./links.js";

const T = TEXTS.beginning;

const LINKED = { ...EMPTY, id: "linked", name: T.linked, own: true, text: [] };
let linked = null;         // the lesson that the address names
let hasBegun = false;      // a page that connects again opens nothing

/** Whether this page is a reload, or one that somebody went back to. */
const isAgain = () => performance.getEntriesByType("navigation")[0]?.type !== "navigate";

async function follow(link, text) {
  note(told(T.has, { text }));
  if (link.lesson) await load(link.lesson);
  else await openBytes(LINKED.name, link.script, { ...LINKED, text: [told(T.from, { text })] }, link.start);
  linked = state.lesson;
}

/** Opens a link at once, or asks if something would be lost or the gas of others would go. */
async function openLink(link, isNew = false) {
  if (link.fault) {
    if (isNew) await load(find("4"));
    banner(link.fault, [[T.fine, hideBanner]], true);
    return;
  }
  const { text, isLong } = contentsOf(link), isTheirs = state.program !== "page" && !isNew;
  if (!(isLong || state.unsaved || isTheirs)) { await follow(link, text); return; }
  if (isNew) await load(find("4"));
  const close = () => at("popover").close();
  const { lesson } = link, kind = LESSONS.includes(lesson) ? T.lesson : T.scene;
  const what = lesson ? told(kind, { id: lesson.id, name: lesson.name, text }) : text;
  openDialog(() => [h("h2", T.ask), h("p", told(T.what, { what })),
    state.unsaved && h("p", told(T.unsaved, { name: state.lesson.name })), isTheirs && h("p", T.theirs),
    h("p.does", button(T.open, () => { close(); follow(link, text); }), " ",
      button(T.keep, close))].filter(Boolean));
}

/** Opens what was kept. It is in no file, if it wasn't before. */
async function openKept({ name, gas, lesson, values, unsaved }) {
  await openBytes(name, bytesOf(gas), find(lesson) ?? null);
  state.change({ values, unsaved });
}

/** A link that somebody opens comes before what was kept. That comes back with a reload of its own page. */
async function begin() {
  const kept = takeKept(), link = await linkIn(location), opened = at("opened");
  const later = () => banner(T.had,
    [[T.openKept, () => { hideBanner(); openKept(kept); }], [T.leave, hideBanner]]);
  if (kept && (!link || link.fault || isAgain() && kept.href === location.href)) {
    await openKept(kept);
    banner(link?.fault ?? T.kept, [[T.fine, hideBanner]], Boolean(link?.fault));
  } else if (link) {
    await openLink(link, true);
    if (kept) later();
  } else if (opened) {
    const { name, contents } = JSON.parse(opened.textContent);
    await openBytes(name, bytesOf(contents));
  } else await load(find("4"));
}

/** Somebody else's gas is there. It stays, unless a link is opened for another. */
async function beginAmongOthers() {
  const link = state.rights === "watch" || isAgain() ? null : await linkIn(location);
  if (link) openLink(link);
}

state.on(["isNew"], async () => {
  const isFirst = !hasBegun;
  hasBegun = true;
  state.change({ loading: state.isNew });              // the gas that comes now is nobody's
  if (state.isNew) await begin();
  else if (isFirst) await beginAmongOthers();
  state.change({ loading: false });
});
addEventListener("pagehide", () => { if (state.picture && state.worked) keepForReload(view, state); });
addEventListener("hashchange", async () => {
  const link = await linkIn({ hash: location.hash, search: "" });    // #gas is no link to a gas
  if (link) openLink(link);
});
// the address names no gas any more when another one was opened
state.on(["lesson"], () => {
  if (!linked || state.lesson === linked) return;
  linked = null;
  history.replaceState(null, "", location.href.replace(/#.*/, ""));
});
