// Which arrows of velocity are drawn.
import { ARROWS } from "./facts.js";
import { TEXTS, told } from "./texts.js";
import { at, h } from "./elements.js";
import { state } from "./state.js";
import { view } from "./view.js";

const T = TEXTS.arrows;

const select = h("select", { id: "arrows", "aria-label": T.name, title: T.name,
  onchange: () => state.change({ arrows: Number(select.value) }) },
[h("option", { value: "0" }, T.none),
  ...ARROWS.map((q) => h("option", { value: String(q) }, `→ ${q} × ${q}`))]);

at("density-box").before(h("span.group", select));
state.on(["lesson"], () => state.change({ arrows: state.lesson.arrows ?? 0 }));
state.on(["arrows"], () => {
  const { arrows: q } = state;
  select.value = q;
  at("gas").ariaLabel = q ? told(T.label, { q }) : TEXTS.index.theGas;
  view.redraw();
});
