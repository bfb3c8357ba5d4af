// Time: play, steps, speed and the tick slider, and why one of them can't be had.
import { ICONS, SPEEDS } from "./facts.js";
import { TEXTS, told } from "./texts.js";
import { plural, say } from "./wording.js";
import { at, fill, h, icon, setText } from "./elements.js";
import { state } from "./state.js";
import { clamp } from "./shapes.js";
import { view } from "./view.js";
import { speak } from "./notices.js";
import { pause, play, refuseBack, send } from "./session.js";

const T = TEXTS.time;

const LOUD = 6000, HELD = 340, SPOKEN = 10000;      // milliseconds
const NEARLY = .9;         // of a journal
const slider = at("tick-slider");
let steppedAt = 0, isPulled = false;

async function step(n, isBack = false) {
  steppedAt = performance.now();
  if (isBack && view.hasPorts) { refuseBack(); return; }
  await pause();
  await send([`${isBack ? "back" : "step"} ${n}`], { isTime: true });
}

/** A held key must not flash. */
export const isTooSoon = () => performance.now() - steppedAt < HELD;

function goTo(tick) {
  if (!state.picture) return;
  const far = Math.abs(tick - state.picture.tick), steps = clamp(Math.ceil(far / 60), 1, 4096);
  send([`.goto ${tick} ${steps} 60`], { isTime: true });
}

export function setSpeed(speed) {
  state.change({ speed: clamp(speed, 0, SPEEDS.length - 1) });
  if (state.playing) play();
}

function showSpeed() {
  const [steps, rate] = SPEEDS[state.speed], text = told(T.speed, { steps: plural(steps * rate, "step") });
  at("speed").value = state.speed;
  at("speed").ariaValueText = text;
  setText(at("speed-text"), text);
}

function showTime() {
  const { picture: p, least, furthest } = state, ports = view.hasPorts;
  const word = state.playing ? T.pause : T.play, isOff = state.rights === "watch" || state.status !== "open";
  if (at("play").textContent !== word)
    at("play").replaceChildren(icon(ICONS[state.playing ? "pause" : "play"]), word);
  for (const id of ["play", "step"]) at(id).ariaDisabled = isOff;
  for (const id of ["back", "rewind"]) at(id).ariaDisabled = isOff || ports;
  slider.disabled = isOff;
  at("ticks").hidden = ports;
  if (p && !isPulled) {
    Object.assign(slider, { min: Math.min(least, 0), max: Math.max(furthest, 1), value: p.tick });
    setText(at("tick-text"), say(furthest));
  }
  showReason();
}

const isLoud = () => performance.now() < state.refusedAt + LOUD;

function noWayBack() {
  const { drains, sources } = view.ports, kinds = [[sources.length, "source"], [drains.length, "drain"]];
  return told(T.noWay, { ports: kinds.filter(([n]) => n).map(([n, one]) => plural(n, one)).join(", ") });
}

/** Why time can't be had, or what is to be known of it. */
function reason() {
  const { picture: p, cap, pace, acted } = state;
  if (state.status !== "open" || !p) return "";
  if (view.hasPorts && isLoud()) return noWayBack();
  if (p.journal > NEARLY * cap)
    return told(p.journal < cap ? T.nearly : T.full, { journal: say(p.journal), cap: say(cap) });
  if (p.playing && pace?.made > 3 && pace.drawn < pace.made * .75)
    return told(T.skipping, { drawn: Math.round(pace.drawn), made: Math.round(pace.made) });
  if (p.playing && pace?.asked > 10 && pace.steps < pace.asked * .75)
    return told(T.slow, { asked: say(pace.asked), made: say(Math.round(pace.steps)) });
  if (view.hasPorts) return noWayBack();
  return p.tick < acted ? told(T.acted, { tick: say(acted) }) : "";
}

function showReason() {
  const text = reason(), box = at("reason");
  box.hidden = !text;
  box.classList.toggle("loud", isLoud());
  if (box.dataset.text === text) return;
  box.dataset.text = text;
  fill(box, h("span", { role: "status" }, text), view.hasPorts && text === noWayBack()
    && h("button", { onclick: () => send(["unport"]) }, `${T.remove} `, h("code", "unport")));
}

for (const id of ["step", "back", "rewind"]) at(id).append(icon(ICONS[id]));
at("play").onclick = () => { if (state.playing) pause(); else play(); };
at("step").onclick = ({ shiftKey }) => step(shiftKey ? 10 : 1);
at("back").onclick = ({ shiftKey }) => step(shiftKey ? 10 : 1, true);
at("rewind").onclick = () => goTo(0);
at("speed").max = SPEEDS.length - 1;
at("speed").oninput = () => setSpeed(at("speed").valueAsNumber);
slider.oninput = () => {
  isPulled = true;
  pause();
  setText(at("tick-text"), told(T.to, { tick: say(slider.valueAsNumber) }));
};
slider.onchange = async () => {
  const aim = slider.valueAsNumber;
  await pause();
  isPulled = false;
  goTo(aim);
};
state.on(["speed"], showSpeed);
state.on(["shown", "status", "rights", "pace", "refusedAt"], showTime);
state.on(["refusedAt"], () => { setTimeout(showTime, LOUD); speak(noWayBack()); });
setInterval(() => { if (state.playing) speak(told(T.tick, { tick: state.picture.tick })); }, SPOKEN);
