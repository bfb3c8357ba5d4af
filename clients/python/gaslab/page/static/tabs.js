// Readings and lesson beside the gas, one at a time in a narrow window.
import { choose, rove } from "./elements.js";
import { plots } from "./plots.js";

const tabs = [...document.querySelectorAll(".tabs button")];

export function showTab(name) {
  document.body.dataset.tab = name;
  choose(tabs, (tab) => tab.dataset.tab === name, "aria-selected");
  plots.resize();
}

for (const tab of tabs) tab.onclick = () => showTab(tab.dataset.tab);
rove(document.querySelector(".tabs"), tabs, true);
