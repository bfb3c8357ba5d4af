// The server of a page without a network, in a worker: seats, play and pictures over the engine.
import { NOBODY, PROBES, UNDRAWN, isSide } from "./frame.js";
import { Gas, toBytes } from "./gas.js";
import { LONGEST, Lab, fromSnapshot, snapshot } from "./engine.js";
import { repeat } from "./repeats.js";

const CAP = 65536, IDLE = { seat: NOBODY, steps: 0, rate: 0 };
const pages = new Map();   // of each seat
let seats = 0;             // how many came
let number = 0;            // of the last picture
let play = null;           // { seat, steps, rate, to }
let due = 0, timer = null;
let isDirty = false, isNew = true;
let now = gasOf(new Gas(64, 64));
let old = null;            // the gas before this one
let entries = [];          // events that wait for what is sent next, so that many are one message

/** A gas with its probes, the snapshot that it began from, and what the pages call it. */
function gasOf(gas, more = {}) {
  return { lab: new Lab(gas, CAP), name: "", start: null, probes: [], keys: 0, ...more };
}

/** Tells all pages the entries that wait, and then an event. */
function tell(...events) {
  const lines = [...entries, ...events];
  entries = [];
  if (lines.length) for (const page of pages.values()) page.send(lines.join("\n"));
}

/** Adds a page. `send` takes a line, a picture or a file. */
function join(send) {
  const page = { seat: seats++, send, undrawn: 0, newest: 0, solids: null, name: "" };
  send(`* hello ${page.seat} all page ${CAP} ${isNew ? "new" : "kept"}`);
  send(opened());
  for (const other of pages.values()) {
    send(`* seat ${other.seat} came ${other.name}`.trim());
    other.send(`* seat ${page.seat} came`);
  }
  pages.set(page.seat, page);
  show();
  return page;
}

function leave({ seat }) {
  pages.delete(seat);
  if (play?.seat === seat) pause("left");
  tell(`* seat ${seat} left`);
}

/** Does what a page's message asks: lines with their numbers, or a snapshot to begin from. */
function said(page, message) {
  const replies = typeof message === "string" ? message.split("\n").map((line) => numbered(page, line))
    : [`0 ${upload(page, message) ?? "DONE"}`];
  const told = replies.filter(Boolean).join("\n");
  tell();
  if (told) page.send(told);
  if (isDirty) show();
}

/** The reply to a line with its number, and with that number; or nothing. */
function numbered(page, text) {
  const [line, ...words] = text.split(" "), [word, ...rest] = words;
  const reply = !word?.startsWith(".") ? command(page, words.join(" "))
    : Object.hasOwn(WORDS, word) ? WORDS[word](page, rest, Number(line)) ?? "DONE" : "NO word";
  return reply && `${line} ${reply}`;
}

function command({ seat }, line) {
  const { lab } = now, reply = lab.line(seat, line);
  if (reply.startsWith("SAVED")) return "ERR 15 save";         // no file is here: Share has a snapshot
  if (!reply.startsWith("OK ")) return reply;
  isNew = false;
  isDirty = true;
  entries.push(`* entry ${lab.journal.length - 1} ${seat} ${lab.journal.at(-1).text}`);
  return reply;
}

function give({ send }, line, files) {
  for (const [name, contents] of Object.entries(files)) if (contents) send({ line, name, contents });
}

function playOn({ seat }, to, steps, rate) {
  const { gas } = now.lab;
  if (!(steps >= 1 && steps <= LONGEST && rate >= 1 && rate <= 60)) return "NO speed";
  if (to < gas.tick && gas.hasPorts) return "ERR 11 ports";
  play = { seat, steps, rate, to };
  tell(`* play ${seat} ${steps} ${rate}`);
  due = performance.now();
  clock();
}

function pause(why, seat = NOBODY) {
  if (!play) return;
  play = null;
  isDirty = true;
  clearTimeout(timer);
  tell(`* pause ${seat} ${why}`);
}

function watch(probes, reply) {
  now.probes = probes;
  isDirty = true;
  return reply;
}

function upload(page, bytes) {
  const gas = fromSnapshot(bytes);
  return gas ? take(page, gasOf(gas, { start: snapshot(gas) })) : "NO snapshot";
}

/** Shows another gas, and keeps the one before for `.bring`. Only the first seat may do so. */
function take({ seat }, other) {
  if (seat !== Math.min(...pages.keys())) return "NO first";
  if (!other) return "NO old";
  pause("opened");
  old = isNew ? null : now;
  now = other;
  isNew = false;
  isDirty = true;
  tell(opened());
}

function opened() {
  const { lab: { gas: { width, height }, journal }, name } = now;
  return `* open ${width} ${height} ${journal.length} ${name}`.trim();
}

/** The journal as lines that a laboratory takes: MESSAGES.md. Steps that follow one another are joined. */
function script() {
  const { lab: { gas, journal }, start } = now;
  const lines = [start ? "ledger" : `probe 0 0 ${gas.width} ${gas.height}`];
  for (const { text } of journal) {
    const [[word, n], [before, m]] = [text, lines.at(-1)].map((line) => line.split(" "));
    const sum = Number(n) + Number(m), isTime = word === "step" || word === "back";
    if (isTime && word === before && sum <= LONGEST) lines[lines.length - 1] = `${word} ${sum}`;
    else lines.push(text);
  }
  return new TextEncoder().encode([...lines, "tally", "ledger", ""].join("\n"));
}

function clock() {
  clearTimeout(timer);
  if (play) timer = setTimeout(beat, due - performance.now());
}

/** Makes the steps of the next picture. What is late is not made up for, but for one picture. */
function beat() {
  const { seat, steps, rate, to } = play, { lab } = now, far = to - lab.gas.tick, gap = 1000 / rate;
  const n = Math.min(steps, Math.abs(far));
  const reply = n > 0 ? lab.line(seat, `${far < 0 ? "back" : "step"} ${n}`) : "";
  if (reply.startsWith("ERR")) pause(reply);
  else if (n === Math.abs(far)) pause("there");
  show();
  due = Math.max(due + gap, performance.now() - gap);
  clock();
}

/** A new picture is there: each page gets it when it has drawn the ones before. */
function show() {
  isDirty = false;
  number += 1;
  for (const page of pages.values()) serve(page);
}

function serve(page) {
  if (page.newest === number || page.undrawn >= UNDRAWN) return;
  tell();
  const { lab, lab: { gas }, probes } = now, { seat, steps, rate } = play ?? IDLE;
  const { width, height, tick, drains, sources } = gas, solids = page.solids !== gas.solids
    && { walls: toBytes(gas.walls), obstacles: toBytes(gas.obstacles), ports: { drains, sources } };
  Object.assign(page, { newest: number, solids: gas.solids, undrawn: page.undrawn + 1 });
  page.send({ player: seat, width, height, tick, number, journal: lab.journal.length, steps, rate,
    playing: play !== null, tally: gas.sums(), ledger: lab.ledger(),
    probes: probes.map((probe) => ({ ...probe, sums: gas.sums(probe.rect) })),
    particles: toBytes(gas.particles), ...solids });
}

/** What each word of the page does, and its reply if that isn't DONE: MESSAGES.md. */
const WORDS = {
  ".drawn"(page) {
    page.undrawn = Math.max(0, page.undrawn - 1);
    serve(page);
    return "";
  },
  ".name"(page, words) {
    page.name = words.join(" ").slice(0, 24);
    tell(`* seat ${page.seat} name ${page.name}`);
  },
  ".script": (page, words, line) => give(page, line, { "gas.txt": script(), "start.gas": now.start }),
  ".snapshot": (page, words, line) => give(page, line, { "day.gas": snapshot(now.lab.gas) }),
  ".play": (page, words) => playOn(page, Infinity, ...words.map(Number)),
  ".goto": (page, words) => playOn(page, ...words.map(Number)),
  ".pause": (page) => pause("asked", page.seat),
  ".watch"({ seat }, words) {
    if (now.probes.length >= PROBES) return "NO probes";
    const reply = now.lab.line(seat, ["probe", ...words].join(" ")), key = now.keys + 1;
    if (reply.startsWith("ERR")) return reply;
    now.keys = key;
    return watch([...now.probes, { key, rect: words.map(Number) }], `WATCH ${key}`);
  },
  ".unwatch": (page, [key]) => watch(now.probes.filter((probe) => probe.key !== Number(key))),
  ".open"(page, [width, height, ...name]) {
    const sides = [width, height].map(Number);
    return sides.every(isSide) ? take(page, gasOf(new Gas(...sides), { name: name.join(" ") })) : "NO size";
  },
  ".fresh"(page) {
    const start = snapshot(now.lab.gas);
    return take(page, { ...now, lab: new Lab(fromSnapshot(start), CAP), start });
  },
  ".bring": (page) => take(page, old),
};

// each port that comes in is one page's connection; null on it ends it. Runs to repeat come without a port
globalThis.onmessage = ({ data: runs, ports: [port] }) => {
  if (!port) {
    repeat(runs, (message) => globalThis.postMessage(message));
    return;
  }
  const page = join((message) => port.postMessage(message));
  port.onmessage = ({ data }) => {
    if (data === null) leave(page);
    else said(page, data);
  };
};
