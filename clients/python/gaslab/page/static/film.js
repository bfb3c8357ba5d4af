// A film of the gas. It steps the gas a picture at a time, so a slow machine takes longer and misses none.
import { TEXTS, told } from "./texts.js";
import { isRefusal, plainWords } from "./wording.js";
import { at, h } from "./elements.js";
import { state } from "./state.js";
import { view } from "./view.js";
import { notice } from "./notices.js";
import { download } from "./files.js";
import { pause } from "./session.js";
import { webm } from "./webm.js";

const T = TEXTS.film;

const FILM = 60;           // pictures
const KEY = 30;            // pictures from one that needs no other to the next
const BITS = 1e7;          // a second
const WAITING = 3;         // pictures that the encoder may have before the next one is made
const PATIENCE = 1000;     // milliseconds that a recorder gets for a picture
const { VideoEncoder, VideoFrame } = globalThis;

/** Encodes pictures of a canvas, each at its own time of the film, however long it took to make it. */
class Encoder {
  pictures = [];
  fault = null;

  constructor(canvas, config) {
    Object.assign(this, { canvas, config, count: 0 });
    this.encoder = new VideoEncoder({ output: (chunk) => {
      const bytes = new Uint8Array(chunk.byteLength);
      chunk.copyTo(bytes);
      this.pictures.push({ bytes, isKey: chunk.type === "key" });
    }, error: (fault) => { this.fault = fault; } });
    this.encoder.configure(config);
  }

  async add() {
    const { encoder, canvas, config: { framerate }, count } = this;
    while (encoder.encodeQueueSize > WAITING && !this.fault)
      await new Promise((done) => encoder.addEventListener("dequeue", done, { once: true }));
    if (this.fault) throw this.fault;
    const frame = new VideoFrame(canvas, { timestamp: count * 1e6 / framerate, duration: 1e6 / framerate });
    encoder.encode(frame, { keyFrame: count % KEY === 0 });
    frame.close();
    this.count += 1;
  }

  async end() {
    await this.encoder.flush();
    this.encoder.close();
    const { config: { width, height, framerate: rate } } = this;
    return webm(this.pictures, { width, height, rate });
  }
}

/** Records a canvas where a browser has no encoder for pages. Each picture is waited for. */
class Recorder {
  parts = [];

  constructor(canvas, rate) {
    this.gap = 1000 / rate;
    this.stream = canvas.captureStream(0);
    this.recorder = new MediaRecorder(this.stream, { videoBitsPerSecond: BITS });
    this.recorder.ondataavailable = ({ data }) => this.parts.push(data);
    this.recorder.start();
  }

  async add() {
    const began = performance.now(), { size } = new Blob(this.parts);
    this.stream.getVideoTracks()[0].requestFrame();
    for (let isIn = false; !isIn && performance.now() < began + PATIENCE;) {
      await new Promise((done) => setTimeout(done, this.gap));
      this.recorder.requestData();
      isIn = new Blob(this.parts).size > size;
    }
  }

  async end() {
    await new Promise((done) => {
      this.recorder.onstop = done;
      this.recorder.stop();
    });
    return new Blob(this.parts, { type: this.parts[0].type });
  }
}

/** Makes the next picture, or waits for one that others make. Resolves to "", or why there is none. */
async function next({ steps, isMine }) {
  const { shown } = state, [reply] = isMine ? await state.link.send([`step ${steps}`]) : [""];
  if (isRefusal(reply)) return reply;
  const entry = isMine ? Number(reply.split(" ")[1]) : -1;
  const isShown = () => isMine ? state.shown.journal > entry : state.shown !== shown;
  while (!isShown() && state.status === "open" && (isMine || state.playing))
    await new Promise((done) => state.addEventListener("changed", done, { once: true }));
  return isShown() ? "" : "none";
}

/** Films until there are enough pictures, or something ends it. Resolves to [how many, why it ended]. */
async function shoot(film, canvas, play, tell) {
  const { lesson } = state, c = canvas.getContext("2d"), ended = new AbortController();
  let isStopped = false;
  const stop = () => { isStopped = true; };
  for (const kind of ["click", "input"])
    at("time").addEventListener(kind, stop, { capture: true, signal: ended.signal });
  for (let count = 0; count < FILM; count++) {
    tell(count);
    const isOther = state.lesson !== lesson || state.loading;
    const why = isOther ? "other" : isStopped ? "stopped" : await next(play);
    if (why) { ended.abort(); return [count, why]; }
    c.drawImage(view.canvas, 0, 0, canvas.width, canvas.height);
    await film.add();
  }
  ended.abort();
  return [FILM, ""];
}

async function filmOf(canvas, rate) {
  const { width, height } = canvas;
  const config = { codec: "vp8", width, height, bitrate: BITS, framerate: rate, latencyMode: "quality" };
  const canEncode = VideoEncoder && (await VideoEncoder.isConfigSupported(config)).supported;
  return canEncode ? new Encoder(canvas, config) : new Recorder(canvas, rate);
}

/** Saves the next pictures of a gas that plays, and counts them on a button. A pause ends the film. */
export async function saveFilm(button) {
  button.textContent = state.film ? T.made : T.pressPlay;
  if (state.film || !state.playing) return;
  const { steps, rate } = state.picture, isMine = state.rights !== "watch", { canvas: seen } = view;
  const canvas = h("canvas", { width: seen.width & ~1, height: seen.height & ~1 });
  const film = await filmOf(canvas, rate);
  if (isMine) await pause();
  if (isMine) state.change({ film: { playing: true, steps, rate } });
  const [count, why] = await shoot(film, canvas, { steps, isMine },
    (n) => { button.textContent = told(T.count, { n, all: FILM }); });
  state.change({ film: null });
  if (isMine && why !== "other")
    await state.link.send([`.play ${steps} ${rate}`, ...why ? [".pause"] : []]);
  if (isRefusal(why)) notice({ title: told(T.short, { count }), text: plainWords(why) });
  const blob = await film.end();
  if (count) download(`film.${blob.type.includes("mp4") ? "mp4" : "webm"}`, blob, blob.type);
  button.textContent = TEXTS.about.save;
}
