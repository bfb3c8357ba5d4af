// A plot as a picture that is taken home: its curves, its axes and what it shows.
import { COLOURS } from "./facts.js";
import { SANS, h } from "./elements.js";

export function pictureOf(box, title) {
  const from = box.getBoundingClientRect(), ratio = 2;
  const canvas = h("canvas", { width: from.width * ratio, height: (from.height + 26) * ratio });
  const c = canvas.getContext("2d");
  c.fillStyle = COLOURS.white;
  c.fillRect(0, 0, canvas.width, canvas.height);
  c.setTransform(ratio, 0, 0, ratio, -from.left * ratio, (26 - from.top) * ratio);
  Object.assign(c, { fillStyle: COLOURS.ink, font: `600 14px ${SANS}`, textBaseline: "middle" });
  c.fillText(title, from.left + 4, from.top - 13);
  for (const part of box.querySelectorAll("canvas, .dygraph-axis-label")) {
    const { left, top, width, height } = part.getBoundingClientRect();
    const { font, textAlign } = getComputedStyle(part), share = { right: 1, center: .5 }[textAlign] ?? 0;
    Object.assign(c, { font, textAlign });
    if (part instanceof HTMLCanvasElement) c.drawImage(part, left, top, width, height);
    else c.fillText(part.textContent, left + share * width, top + height / 2);
  }
  return canvas;
}
