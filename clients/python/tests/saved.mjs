// Runs sessions on the page's own server, worker.js, by a clock of its own. Standard input is { engine, cases } as JSON: the bundle
// of worker.js, and sessions. A session is a list of parts: a list of lines is one message, a number lets so many pictures of play
// come, and "reopen" opens what .snapshot saved. Standard output has of each session what it saves in the end: the files of
// .script as { name: text in base 64 }, the commands that replay them, and what the page shows: [tally, ledger].
import { readFileSync } from "node:fs";

const { engine, cases } = JSON.parse(readFileSync(0, "utf8"));
let due = null;
const clock = [(act) => { due = act; return 1; }, () => { due = null; }, { now: () => 0 }];
const { replays } = new Function("setTimeout", "clearTimeout", "performance", `${engine}return { ...module_gas, ...module_engine };`)(...clock);

function session(parts) {
  const told = [], port = { postMessage: (message) => told.push(message) };
  globalThis.onmessage({ ports: [port] });
  const say = (data) => port.onmessage({ data });
  const files = (word) => {
    told.length = 0;
    say(`1 ${word}`);
    return told.filter(({ contents }) => contents);
  };
  for (const part of parts) {
    if (part === "reopen") say(files(".snapshot")[0].contents);
    else if (typeof part !== "number") say(part.map((line, k) => `${k + 1} ${line}`).join("\n"));
    else for (let n = 0; n < part && due; n++) due();
    say("0 .drawn");
  }
  say("1 .pause");
  const saved = files(".script");
  told.length = 0;
  say("1 tally\n2 ledger");
  const shown = told.find((it) => typeof it === "string").split("\n").map((line) => line.slice(2));
  port.onmessage({ data: null });
  const coded = saved.map(({ name, contents }) => [name, Buffer.from(contents).toString("base64")]);
  return { files: Object.fromEntries(coded), commands: replays(saved), shown };
}

process.stdout.write(JSON.stringify(cases.map(session)));
