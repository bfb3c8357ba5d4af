// The page's seat at a server.
import { EMPTY, SPEEDS } from "./facts.js";
import { TEXTS, told } from "./texts.js";
import { isRefusal, plainWords } from "./wording.js";
import { otherLesson } from "./lessons.js";
import { state } from "./state.js";
import { decode, joined } from "./frame.js";
import { squareOf } from "./cells.js";
import { view } from "./view.js";
import { plots } from "./plots.js";
import { banner, hideBanner, hideNotice, notice, speak } from "./notices.js";
import { entryOf, exchanges, note } from "./log.js";
import { saveFile, savePicture } from "./files.js";
import { edits } from "./edits.js";
import { hasEngine, newWorker } from "./workers.js";

const T = TEXTS.session;
// ---- messages over a WebSocket or to a worker: lines get numbers, and replies are paired with them
const EVENTS = ["hello", "links", "open", "seat", "entry", "pause"];
let worker = null;

/** Takes a seat, by a WebSocket, or by a port to the worker that has the parts of one which the page uses. */
export function connect() {
  const { port1, port2 } = new MessageChannel();
  if (!hasEngine) return new WebSocket(new URL("socket", location.href));
  const close = () => {
    if (!port1.onmessage) return;
    port1.send(null);
    port1.onmessage = null;
    port1.onclose?.();
  };
  worker ??= newWorker();
  worker.addEventListener("error", close, { once: true });
  worker.postMessage(null, [port2]);
  return Object.assign(port1, { send: port1.postMessage, close });
}

class Link {
  next = 1;
  waiting = new Map();     // of each number its reply as a promise, and its files
  undrawn = 0;

  /** `on` has a function for each event, which gets its words, and `picture` and `gone`. */
  constructor(socket, on) {
    Object.assign(this, { socket, on });
    socket.binaryType = "arraybuffer";
    socket.onmessage = ({ data }) => {
      try {
        if (typeof data === "string") data.split("\n").forEach((line) => this.take(line));
        else this.takeParts(data instanceof ArrayBuffer ? decode(data) : data);
      } catch (fault) {
        // the server sends what the protocol forbids
        console.warn(fault);
        socket.onclose = null;
        socket.close();
        this.end(true);
      }
    };
    socket.onclose = () => this.end();
  }

  /** Answers all that waits: nothing comes any more. */
  end(isStrange = false) {
    for (const { resolve } of this.waiting.values()) resolve("GONE");
    this.waiting.clear();
    this.on.gone(isStrange);
  }

  /** Sends lines in one message, or a snapshot as line 0. */
  ask(lines, snapshot = null) {
    const asked = lines.map((line) =>
      ({ line, number: snapshot ? 0 : this.next++, files: [], ...Promise.withResolvers() }));
    if (state.status !== "open") asked.forEach(({ resolve }) => resolve("GONE"));
    else {
      for (const one of asked) this.waiting.set(one.number, one);
      this.socket.send(snapshot ?? asked.map(({ number, line }) => `${number} ${line}`).join("\n"));
    }
    return asked;
  }

  /** Sends lines. Resolves to their replies, in order. */
  send(lines) { return Promise.all(this.ask(lines).map(({ promise }) => promise)); }

  /** Sends a snapshot to begin from. Resolves to the reply. */
  upload(bytes) { return this.ask([""], bytes)[0].promise; }

  /** Asks for files: `.script` or `.snapshot`. Resolves to them, or to none if they are refused. */
  async fetch(word) {
    const [{ promise, files }] = this.ask([word]);
    return await promise === "DONE" ? joined(files) : [];
  }

  /** Says that the newest picture is drawn, and with it those that it has replaced. */
  drawn() {
    const lines = Array(this.undrawn).fill("0 .drawn");
    this.undrawn = 0;
    if (state.status === "open") this.socket.send(lines.join("\n"));
  }

  take(line) {
    const [head, ...words] = line.split(" "), number = Number(head);
    if (head !== "*") {
      this.waiting.get(number)?.resolve(words.join(" "));
      this.waiting.delete(number);
    } else if (EVENTS.includes(words[0])) this.on[words[0]](words.slice(1));
  }

  takeParts({ line, ...parts }) {
    if (line !== undefined) this.waiting.get(line)?.files.push(parts);
    else {
      this.undrawn += 1;
      this.on.picture({ ...parts, ...state.film });
    }
  }
}

// ---- the page's seat at a server: joins, sends lines, takes events and pictures in
let isJoining = false, keepsPlots = false;
const seen = { since: performance.now(), drawn: 0, made: 0, number: 0, tick: 0 };

const events = {
  hello([number, rights, program, cap, age]) {
    isJoining = true;
    const seat = Number(number), people = new Map([[seat, ""]]);
    state.change({ status: "open", seat, rights, program, cap: Number(cap), isNew: age === "new", people });
    if (rights === "watch") banner(T.watching);
  },
  links([draw, watch]) { state.links = { draw, watch }; },
  open([,,, ...name]) {
    edits.clear();
    view.select();
    hideNotice();
    if (keepsPlots) plots.newLedger();
    else plots.clear();
    state.change({ least: 0, furthest: 0, acted: -Infinity, picture: null });
    const isOwn = state.loading || keepsPlots || isJoining && state.lesson !== EMPTY;
    if (!isOwn) state.change(otherLesson(name.join(" "), isJoining));
    isJoining = false;
  },
  seat([number, what, ...name]) {
    const seat = Number(number), { people } = state;
    if (what === "left") people.delete(seat);
    else people.set(seat, name.join(" ") || people.get(seat) || "");
    if (what !== "name" && seat !== state.seat) note(told(T[what], { seat }));
    state.change({ people });
  },
  entry([k, number, ...words]) {
    const seat = Number(number), line = words.join(" "), isOther = seat !== state.seat;
    edits.entry(line, isOther ? seat : null);
    if (isOther) entryOf(state.people.get(seat) || told(T.seat, { seat }), line, `OK ${k}`);
    if (state.loading) return;
    state.change({ worked: true });
    if (!state.picture || /^(step|back)/.test(line)) return;
    state.change({ tried: true, made: line });
    if (state.picture.tick !== 0) plots.note(state.picture.tick, line);
  },
  pause([, ...words]) {
    const why = words.join(" ");
    if (why.startsWith("ERR")) refuse(why, "step 1", { isTime: true, wasPlaying: true });
  },
  /** Takes a picture in. It is drawn with the next frame. Another seat may have begun or ended play. */
  picture(p) {
    const isResized = view.setPicture(p), { hasPorts } = view;
    const speed = SPEEDS.findIndex(([steps, rate]) => p.playing && steps === p.steps && rate === p.rate);
    seen.made += seen.number && p.playing ? Math.max(1, p.number - seen.number) : 1;
    seen.number = p.number;
    edits.picture(p);
    if (isResized) state.change({ square: squareOf(p) });
    if (state.playing && !p.playing) speak(told(T.paused, { tick: p.tick }));
    if (speed >= 0 && speed !== state.speed) state.change({ speed });
    state.change({ picture: p, acted: hasPorts ? p.tick : state.acted, least: Math.min(state.least, p.tick),
      furthest: hasPorts ? 0 : Math.max(state.furthest, p.tick) });
    plots.add(p);
    const isWhole = view.fitted === true || isResized && !state.lesson.view;
    if (isResized || view.fitted) view.fit(isWhole ? null : view.fitted || state.lesson.view);
    view.redraw();
  },
  gone(isStrange) {
    state.change({ status: "gone" });
    banner(isStrange ? T.strange : T.ended,
      [[T.again, join], [T.savePicture, () => savePicture()]], true);
  },
};

/** Takes a seat. A gas that is there stays as it is: only a new one gets a lesson. */
export function join() {
  hideBanner();
  state.change({ link: new Link(connect(), events), links: {} });
}

view.onFrame = () => {
  const { picture, shown } = state;
  view.draw();
  if (state.link.undrawn > 0) state.link.drawn();
  if (!picture || picture === shown) return;
  seen.drawn += 1;
  state.change({ shown: picture });
  measure(picture);
};

function measure({ tick, steps, rate }) {
  const now = performance.now(), seconds = (now - seen.since) / 1000;
  if (seconds < 1) return;
  state.change({ pace: { drawn: seen.drawn / seconds, made: seen.made / seconds,
    steps: Math.abs(tick - seen.tick) / seconds, asked: steps * rate } });
  Object.assign(seen, { since: now, drawn: 0, made: 0, tick });
}

/** Sends a person's lines. A refusal is shown at `rect`, as one of time, or by the caller if `isQuiet`. */
export async function send(lines, where = {}) {
  hideNotice();
  edits.depth += 1;
  const replies = await state.link.send(lines);
  edits.depth -= 1;
  if (edits.depth === 0) edits.close();
  exchanges(lines, replies);
  const bad = replies.findIndex(isRefusal);
  if (bad >= 0 && !where.isQuiet) refuse(replies[bad], lines[bad], { ...where, lines });
  return replies;
}

export function refuseBack() { state.change({ refusedAt: performance.now() }); }

function refuse(reply, line, where) {
  if (where.isTime && reply.startsWith("ERR 11")) { refuseBack(); return; }
  const does = { "ERR 10": [[T.unport, () => send(["unport"])]],
    "ERR 13": [[T.goOn, () => goOn(where)]] }[reply.slice(0, 6)];
  const shown = line.length > 34 ? `${line.slice(0, 34)}…` : line;
  notice({ title: T.notDone, text: plainWords(reply, line, state.picture), does, rect: where.rect,
    code: line && `${shown}  →  ${reply}` });
}

/** Goes on with a new journal after the full one was saved. What was refused is sent again. */
export async function goOn({ lines = [], wasPlaying = false }) {
  for (const word of [".script", ".snapshot"]) await saveFile(word);
  keepsPlots = true;
  const [reply] = await send([".fresh"]);
  keepsPlots = false;
  if (!isRefusal(reply)) await send([...lines, ...wasPlaying ? [playLine()] : []]);
}

/** Pauses, and waits for the picture that stays. */
export async function pause() {
  const [reply] = state.playing ? await send([".pause"]) : [];
  while (reply === "DONE" && state.playing)
    await new Promise((done) => state.addEventListener("changed", done, { once: true }));
}

const playLine = () => `.play ${SPEEDS[state.speed].join(" ")}`;
export const play = () => send([playLine()]);
