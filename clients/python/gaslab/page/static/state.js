// What the page knows of the gas and of itself. Views read it; each change is an event with what changed.
import { EMPTY } from "./facts.js";

class State extends EventTarget {
  status = "connecting";       // connecting, open or gone
  seat = null;                 // this page's number, after hello
  rights = "all";              // all or watch
  program = "none";            // none, page, proved, named or server
  cap = 0;                     // entries that a journal holds
  people = new Map();          // seat to name
  link = null;
  links = {};                  // what follows the address in a link, for pages that draw
  film = null;                 // what pictures get while a film is made: { playing, steps, rate }
  isNew = false;               // the server's gas waits for a lesson
  picture = null;              // the last one that came
  shown = null;                // the last one that was drawn
  speed = 4;                   // a place in SPEEDS: steps a picture, and pictures a second
  tool = "put";
  mode = "particles";          // particles, velocity or density
  square = 4;                  // of the density: cells of a square's side
  range = "full";              // the densities of the first and the last shade: full, middle or own
  isMean = false;              // the density is the mean of the last pictures
  arrows = 0;                  // cells of a side of the squares that have an arrow of velocity, or 0
  lesson = EMPTY;
  values = {};                 // of the lesson's sliders, by their ids
  loading = false;             // a lesson or a file is being opened
  tried = false;               // something was drawn since the lesson began
  worked = false;              // something would be lost
  made = "";                   // the last line that changed the gas
  unsaved = false;             // something was made that no file has
  least = 0;                   // the least and the greatest tick since the gas was opened
  furthest = 0;
  acted = -Infinity;           // the last tick at which there were ports
  pace = null;                 // a second's pictures and steps: { drawn, made, steps, asked }
  refusedAt = -Infinity;       // when a way back was asked for that is none
  keysOn = true;               // single keys act
  picked = null;               // the selected rectangle
  held = null;                 // the pattern over the gas: { pattern, at, grip, from, hows }
  names = [];                  // of cells: { kind: "input" or "output", name, cell, tick }
  undone = null;               // the edit that was undone last
  isDark = false;              // the dark theme is shown

  constructor() { super(); Object.seal(this); }

  get playing() { return this.status === "open" && this.picture?.playing === true; }

  change(fields) {
    Object.assign(this, fields);
    this.dispatchEvent(new CustomEvent("changed", { detail: fields }));
  }

  /** Calls `show` after each change of one of these fields. */
  on(names, show) {
    this.addEventListener("changed", ({ detail }) => { if (names.some((name) => name in detail)) show(); });
  }
}

export const state = new State();
