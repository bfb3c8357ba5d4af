// Small figures beside the gas: a name, a value, and a plot by dygraphs.
import { COLOURS, CURVES } from "./facts.js";
import { say } from "./wording.js";
import { h, setText } from "./elements.js";

const LOOK = { gridLineColor: COLOURS.line, axisLineWidth: 1, axisLineColor: COLOURS.edge, rightGap: 8,
  highlightCircleSize: 4, interactionModel: {}, colors: CURVES, strokeWidth: 2.25 };

/** Bars to the left and right of the points, from 0 on. */
export function columns({ drawingContext: c, points, dygraph, color }) {
  const [zero, [a, b]] = [dygraph.toDomYCoord(0), points];
  const wide = b ? Math.max(1, (b.canvasx - a.canvasx) * .8) : 12;
  Object.assign(c, { fillStyle: color, globalAlpha: .55 });
  for (const { canvasx, canvasy } of points) c.fillRect(canvasx - wide / 2, canvasy, wide, zero - canvasy);
  c.globalAlpha = 1;
}

/** Points without a line. */
export function dots({ drawingContext: c, points, color }) {
  c.fillStyle = color;
  for (const { canvasx, canvasy } of points) {
    c.beginPath();
    c.arc(canvasx, canvasy, 3, 0, 2 * Math.PI);
    c.fill();
  }
}

/** Points with a bar of an error up and down. `errorOf` tells it for a place on the axis below. */
export const dotsWithErrors = (errorOf) => (e) => {
  const { drawingContext: c, points, dygraph, color } = e;
  Object.assign(c, { strokeStyle: color, lineWidth: 1.5 });
  for (const { canvasx: x, xval, yval } of points) {
    const [low, high] = [-1, 1].map((sign) => dygraph.toDomYCoord(yval + sign * errorOf(xval)));
    c.stroke(new Path2D(`M${x} ${low}V${high}M${x - 3} ${low}h6M${x - 3} ${high}h6`));
  }
  dots(e);
};

export class Figure {
  graph = null;
  kept = "";               // what the plot was made for: with other columns it is made anew
  plotters = [];           // of each column that is no line
  asked = null;            // what is shown as soon as the plot is seen

  constructor(name) {
    this.title = h("b");
    this.number = h("span.number");
    this.unit = h("span.unit");
    this.box = h("div.plot", { role: "img" });
    this.element = h("figure", h("figcaption", this.title, this.unit, this.number), this.box);
    this.rename(name);
    new ResizeObserver(() => this.seen()).observe(this.box);
  }

  rename(name) {
    this.name = name;
    this.element.ariaLabel = name;
    setText(this.title, name);
  }

  get isSeen() { return this.box.offsetWidth > 0; }

  /** The plot may have got another size, or be seen only now. */
  seen() {
    if (!this.isSeen) return;
    if (this.graph) this.graph.resize();
    else if (this.asked) this.show(this.asked);
  }

  /** Says something in place of a plot. */
  say(text) {
    this.graph?.destroy();
    Object.assign(this, { graph: null, asked: null });
    setText(this.unit, "");
    this.box.classList.add("empty");
    this.box.ariaLabel = `${this.name}: ${text}`;
    setText(this.number, "");
    setText(this.box, text);
  }

  /** Draws rows of numbers: the first is that of the axis below, and each other one belongs to a label. */
  show(asked) {
    const { rows, labels, unit, value, said, valueRange = null, plotters = [], axis } = asked;
    this.asked = asked;
    this.box.dataset.axis = axis;
    setText(this.unit, unit);
    setText(this.number, value);
    this.box.ariaLabel = `${this.name}, ${unit}: ${said}`;
    if (!this.isSeen) return;
    const font = parseFloat(getComputedStyle(document.documentElement).fontSize) * .8;
    const kept = `${labels.join()} ${font}`, [first, last] = [rows[0][0], rows.at(-1)[0]];
    this.plotters = plotters;
    const edge = Math.max(.5, (last - first) * .03);
    const changing = { file: rows, valueRange, dateWindow: [first - edge, last + edge] };
    if (this.graph && this.kept === kept) {
      this.graph.updateOptions(changing);
      return;
    }
    this.graph?.destroy();
    this.box.classList.remove("empty");
    this.box.textContent = "";
    this.kept = kept;
    const axisLabelFormatter = say, ticker = Dygraph.numericLinearTicks;
    const series = labels.map((label, k) =>
      [label, plotters[k] ? { plotter: (e) => this.plotters[k](e) } : {}]);
    this.graph = new Dygraph(this.box, rows, { ...LOOK, ...changing, labels: [axis, ...labels],
      includeZero: true, axisLabelFontSize: font, series: Object.fromEntries(series),
      legend: labels.length > 1 ? "always" : "onmouseover",
      axes: { x: { axisLabelWidth: 3.8 * font, pixelsPerLabel: 4.3 * font, axisLabelFormatter, ticker,
        valueFormatter: (x) => `${this.box.dataset.axis} ${say(x)}` },
      y: { axisLabelWidth: 4.2 * font, pixelsPerLabel: 2.8 * font, axisLabelFormatter } } });
  }
}
