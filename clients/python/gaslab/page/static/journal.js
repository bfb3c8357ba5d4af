// Tells once when a tenth of the journal is left, and what to do.
import { TEXTS, told } from "./texts.js";
import { say } from "./wording.js";
import { state } from "./state.js";
import { banner, hideBanner } from "./notices.js";
import { goOn } from "./session.js";

const T = TEXTS.journal;

const NEARLY = .9;         // of a journal
let isTold = false;

async function saveAndGoOn() {
  hideBanner();
  await goOn({ wasPlaying: state.playing });
}

state.on(["shown"], () => {
  const { shown, cap, rights, program } = state, made = shown?.journal ?? 0;
  const isNear = made >= NEARLY * cap && rights !== "watch";
  if (isNear === isTold) return;
  isTold = isNear;
  if (!isNear || made >= cap) return;
  const text = told(T.left, { made: say(made), cap: say(cap) }), later = [T.later, hideBanner];
  if (program === "server") banner(`${text} ${T.server}`, [later]);
  else banner(`${text} ${T.save}`, [[T.goOn, saveAndGoOn], later]);
});
