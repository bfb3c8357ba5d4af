// Sends the lines of a gas that is opened, in parts. If that takes long, it shows a bar and can be stopped.
import { TEXTS, told } from "./texts.js";
import { isRefusal, plural } from "./wording.js";
import { at, button, h } from "./elements.js";
import { state } from "./state.js";
import { exchanges } from "./log.js";
import { openDialog } from "./dialog.js";

const T = TEXTS.sending;

const PART = 500;          // lines at first
const WORK = 1 << 28;      // cells, times steps, of a part of several lines
const QUICK = 50, SLOW = 200;      // milliseconds after which the next part is larger or smaller
const PART_OF_SERVER = 60000;      // it makes slices itself, and lets no other change come between
const SHOWN = 100;         // milliseconds between two states of the bar
const PATIENCE = 400;      // milliseconds without a bar

/** The next lines: so many at most, and no more steps than a part may have. */
function partOf(lines, from, most, [width, height]) {
  let work = 0, to = from;
  while (to < lines.length && to < from + most && work < WORK) {
    const [word, n] = lines[to].split(" ", 2);
    if (word === "step" || word === "back") work += n * width * height || 0;
    to += 1;
  }
  return lines.slice(from, to);
}

/** Sends lines, up to the first part with a refusal. Resolves to the replies, and one more if stopped. */
export async function sendAll(lines, size, lesson) {
  const isOwn = state.program === "page", replies = [], bar = new Bar(lines.length, lesson);
  let most = isOwn ? PART : PART_OF_SERVER;
  while (replies.length < lines.length && !bar.isStopped) {
    const part = isOwn ? partOf(lines, replies.length, most, size)
      : lines.slice(replies.length, replies.length + most);
    const began = performance.now();
    bar.sent += part.length;
    const some = await state.link.send(part), took = performance.now() - began;
    replies.push(...some);
    if (some.some(isRefusal)) break;
    if (isOwn && took < QUICK) most *= 2;
    if (isOwn && took > SLOW) most = Math.ceil(most / 2);
  }
  bar.close();
  exchanges(lines.slice(0, replies.length), replies);
  return bar.isStopped && replies.length < lines.length ? [...replies, "NO stopped"] : replies;
}

/** A dialog that comes if a file or a link takes long. Its bar follows the replies; closing it stops. */
class Bar {
  isStopped = false;
  sent = 0;
  #timer = null;
  #stop = () => { this.isStopped = true; };

  constructor(count, { name, own }) {
    Object.assign(this, { count, name, dialog: at("popover") });
    if (own) this.wait();
  }

  /** Opens it later, and not in place of another dialog. */
  wait() {
    this.#timer = setTimeout(() => { if (this.dialog.open) this.wait(); else this.open(); }, PATIENCE);
  }

  open() {
    const { count, name, dialog } = this;
    const bar = h("progress", { max: count, value: 0, "aria-label": T.done });
    const show = () => { bar.value = Math.max(0, this.sent - state.link.waiting.size); };
    openDialog(() => [h("h2", told(T.opening, { name })),
      h("p", told(T.lines, { lines: plural(count, "line") })), bar, button(T.stop, () => dialog.close())]);
    dialog.addEventListener("close", this.#stop, { once: true });
    this.#timer = setInterval(show, SHOWN);
    this.isOpen = true;
  }

  close() {
    clearTimeout(this.#timer);                         // or the interval
    this.dialog.removeEventListener("close", this.#stop);
    if (this.isOpen) this.dialog.close();
  }
}
