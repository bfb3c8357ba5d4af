// What would be lost if the page were closed: changes of one's own that no file has. The browser then asks.
import { state } from "./state.js";

/** What a lesson's buttons send is made again by pressing them. */
const isOfLesson = (line, { setup, first = [], tries = [] }) =>
  [setup, first, ...tries.map(({ lines }) => lines)].some((lines) => lines.includes(line));

state.on(["made"], () => {
  if (!isOfLesson(state.made, state.lesson)) state.change({ unsaved: true });
});
addEventListener("beforeunload", (e) => {
  if (state.unsaved && state.program === "page") e.preventDefault();         // a server keeps its gas
});
