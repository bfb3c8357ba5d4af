// Truth tables as lines that are sent, and as rows that their replies make.
import { linesOf } from "./engine.js";

/** Lines that lead from a tick to another. */
export const way = (from, to) => linesOf({ at: to, lines: [] }, { tick: from, hasPorts: false });

/** What is in rectangles at later ticks, for each choice of full cells. `has`: those that are full now. */
export function tableOf(cells, start, asked, has) {
  const put = (isFull) => cells.map(([x, y], k) => `${isFull[k] ? "put" : "erase"} ${x} ${y} 1 1`);
  const cases = Array.from({ length: 1 << cells.length },
    (_, n) => cells.map((_cell, k) => n >> (cells.length - 1 - k) & 1));
  const order = [...asked.keys()].sort((a, b) => asked[a].tick - asked[b].tick);
  const run = order.flatMap((k, n) => [...way(n ? asked[order[n - 1]].tick : start, asked[k].tick),
    `probe ${asked[k].rect.join(" ")}`]);
  const home = way(asked[order.at(-1)]?.tick ?? start, start);
  const rows = (replies) => {
    const counts = replies.filter((reply) => reply.startsWith("PROBE"))
      .map((reply) => Number(reply.split(" ")[1]));
    return cases.map((isFull, n) => [...isFull,
      ...asked.map((_, k) => counts[n * asked.length + order.indexOf(k)])]);
  };
  return { lines: [...cases.flatMap((isFull) => [...put(isFull), ...run, ...home]), ...put(has)], rows };
}
