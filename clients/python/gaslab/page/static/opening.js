// What opens a gas: lessons, files and what was kept over a reload.
import { EMPTY } from "./facts.js";
import { TEXTS, told } from "./texts.js";
import { isRefusal, plainWords, say } from "./wording.js";
import { find, titleOf } from "./lessons.js";
import { readSnapshot } from "./frame.js";
import { state } from "./state.js";
import { view } from "./view.js";
import { banner, hideBanner, notice, speak } from "./notices.js";
import { note } from "./log.js";
import { lessonOf, pickFile } from "./files.js";
import { play, send } from "./session.js";
import { sendAll } from "./sending.js";
import { ownValues, startOf } from "./parameters.js";

const T = TEXTS.opening;

const watches = (rects = []) => rects.map((rect) => `.watch ${rect.join(" ")}`);

const sidesOf = ({ width, height }) => [width, height];

/** Sends lines or a snapshot in place of the gas. Resolves to the first refusal, [line, reply], or null. */
async function replace(lesson, values, size, lines, snapshot) {
  const title = titleOf(lesson, values).replace(/[\r\n]/g, " ");
  const [first] = snapshot ? [await state.link.upload(snapshot)]
    : await send([`.open ${size.join(" ")} ${title}`], { isQuiet: true });
  const sides = snapshot ? sidesOf(readSnapshot(snapshot)) : size;
  const others = !isRefusal(first) && lines.length ? await sendAll(lines, sides, lesson) : [];
  const replies = [first, ...others], bad = replies.findIndex(isRefusal);
  if (bad > 0) await state.link.send([".bring"]);      // the lines after it were done too
  return bad < 0 ? null : [bad - 1, replies[bad]];
}

/** Opens a lesson or a file in place of the gas, and shows it as the lesson asks. */
async function open(lesson, size, lines, { snapshot = null, values = {} } = {}) {
  const { values: before, tried, worked, unsaved } = state;
  const old = { lesson: state.lesson, values: before, tried, worked, unsaved };
  const tool = matchMedia("(pointer: coarse)").matches ? "look" : lesson.tool;      // a finger scrolls first
  state.change({ lesson, values, loading: true, tried: false, tool });
  state.change({ mode: lesson.mode, speed: lesson.speed });
  view.fitted = lesson.view || true;
  const bad = await replace(lesson, values, size, lines, snapshot);
  state.change({ loading: false, worked: false, unsaved: false, ...bad && old });
  if (!bad) offerOld(old);
  return bad;
}

const refused = ({ name }, [, reply]) =>
  notice({ title: told(T.notOpened, { name }), text: plainWords(reply) });

/** Begins the lesson anew with values of its sliders, and shows it as before. */
export async function slide(values) {
  while (!state.picture) await new Promise((done) => state.addEventListener("changed", done, { once: true }));
  const { lesson, tried, worked, unsaved, picture, values: before } = state;
  const lines = [...startOf(lesson, values), ...watches(picture.probes.map(({ rect }) => rect))];
  state.change({ loading: true, tried: false });
  const bad = await replace(lesson, values, lesson.size, lines);
  state.change({ loading: false, ...bad ? { tried } : { values, worked: false, unsaved: false } });
  if (bad) { refused(lesson, bad); return; }
  offerOld({ lesson, values: before, tried, worked: worked && tried, unsaved });       // steps are made again
}

export async function load(lesson, size = lesson.size, values = ownValues(lesson)) {
  note(told(T.opening, { name: lesson.name, width: size[0], height: size[1] }));
  const bad = await open(lesson, size, [...startOf(lesson, values), ...watches(lesson.probes)], { values });
  if (bad) { refused(lesson, bad); return false; }
  state.change({ speed: lesson.speed });               // pictures of the gas before may have come meanwhile
  if (lesson.play && !matchMedia("(prefers-reduced-motion: reduce)").matches) await play();
  return true;
}

/** Opens a script or a snapshot. A script that began from a snapshot asks for that first. */
export async function openBytes(name, bytes, lesson = null, snapshot = null, wasEmpty = false) {
  const read = lessonOf(bytes), found = snapshot && lessonOf(snapshot);
  const isFirst = state.loading;                       // a new page opens it, and needs a gas at least
  const refused = async (text, does) => {
    if (isFirst) await load(find("4"));
    notice({ title: told(T.notOpened, { name }), text, does });
  };
  if (read.fault) return refused(read.fault);
  if (read.changes > state.cap)
    return refused(told(T.large, { changes: say(read.changes), cap: say(state.cap) }));
  if (read.isAfterSnapshot && !snapshot && !wasEmpty)
    return refused(T.began,
      [[T.snapshot, () => pickFile((file) => openBytes(name, bytes, lesson, file.bytes))],
        [T.empty, () => openBytes(name, bytes, lesson, null, true)]]);
  if (found && !found.snapshot) return refused(found.fault ?? T.noSnapshot);
  const own = lesson ?? { ...EMPTY, id: "own", name, own: true, text: [] }, start = read.snapshot ?? snapshot;
  const lines = [...read.lines ?? [], ...watches(own.probes)];
  const bad = await open(own, read.size, lines, { snapshot: start });
  if (bad) {
    const [k, reply] = bad, line = read.lines?.[k];
    const place = k < 0 ? ""
      : `${told(T.line, { line: read.numbers[k], count: read.count, text: line.slice(0, 40) })} `;
    return refused(`${place}${plainWords(reply, line)} ${T.nothing}`);
  }
  const [tally] = await state.link.send(["tally"]), tick = tally.split(" ")[1];
  const text = [told(T.fromFile, { tick })];
  state.change({ lesson: lesson ?? { ...own, text }, worked: true, tried: true });
  speak(told(T.opened, { name, tick }));
  note(told(T.noted, { name, tick }));
}

/** After work was done on the gas before, it can be brought back. */
function offerOld(old) {
  if (!old.worked) { hideBanner(); return; }
  const bring = async () => {
    state.change({ loading: true });
    const [reply] = await send([".bring"]);
    const isBack = reply === "DONE";
    state.change({ loading: false, ...isBack && old });
    if (isBack) hideBanner();
  };
  banner(told(T.before, { name: old.lesson.name }),
    [[T.bring, bring]]);
}
