// The lessons and scenes, as tools/page_lessons makes them. `first` is sent before the first drawing.
import data from "./lessons.json";
import { EMPTY } from "./facts.js";
import { TEXTS, told } from "./texts.js";

const T = TEXTS.lessons;

// one_file.py shortens rows of one digit
const row = (line) => line.replace(/(.)\*(\d+)$/, (_, digit, count) => digit.repeat(count));
const whole = (lesson) => ({ ...lesson, setup: lesson.setup.map(row) });

export const LESSONS = data.lessons.map(whole);
export const SCENES = data.scenes.map(whole);
export const ALL = [...LESSONS, ...SCENES, EMPTY];
export const find = (id) => ALL.find((lesson) => lesson.id === id);

const AFTER = " · ";       // between a lesson's name and what its sliders have, where that isn't their own

/** What pages call a lesson's gas that began with values of its sliders. */
export function titleOf({ name, sliders = [] }, values) {
  const other = sliders.filter(({ id, value }) => (values[id] ?? value) !== value);
  return [name, ...other.map(({ id }) => `${id} ${values[id]}`)].join(AFTER);
}

/** What is beside a gas of another seat, opened before this page came or after: { lesson, values }. */
export function otherLesson(title, isJoining) {
  const [name, ...rest] = title.split(AFTER), found = ALL.find((lesson) => lesson.name === name);
  const text = isJoining ? T.joined : T.opened;
  const values = rest.map((one) => one.split(" ")).map(([id, value]) => [id, Number(value)]);
  const lesson = found ?? { ...EMPTY, id: "shared", name: title || T.shared, own: true, text: [text] };
  return { lesson, values: Object.fromEntries(values) };
}

export const kindOf = (lesson) => LESSONS.includes(lesson) ? told(T.lesson, { id: lesson.id })
  : lesson === EMPTY || lesson.own ? T.own : T.scene;
