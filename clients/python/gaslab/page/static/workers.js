// Workers with the page's engine, of the page that needs no server.
import { at } from "./elements.js";

let url = null;

export const hasEngine = Boolean(at("worker"));

/** A worker from texts that the page has, the first of which it runs itself. A folder gives it no module. */
export function newWorker() {
  url ??= URL.createObjectURL(new Blob(["engine", "worker"].map((id) => at(id).textContent),
    { type: "text/javascript" }));
  return new Worker(url);
}
