// Conflicts: base, parent and mine side by side, and a choice for each field that both have changed differently.
// Choices are kept on the server until the merge is sent.
import { $, button, fill, make, own, sample, say, trying } from "./dom.js";
import { mark, zoomToMarks } from "./chart.js";
import { showHead } from "./desk.js";
import { ask, send } from "./server.js";
import { desk } from "./shared.js";
import { SIDES } from "./styles.js";
import { about } from "./feature.js";

const REST = "rest"; // the choice for all clashes of features that were not read yet

// What takes a choice, each with its mark: of another value it has another mark.
function toChoose({ conflicts, conflicts_in_all: count, mark: all }) {
  const read = conflicts.flatMap((it) => it.clashes.map((clash) => [clash.key, clash.mark]));
  return new Map([...read, ...(count > conflicts.length ? [[REST, all]] : [])]);
}

export const openChoices = () => [...toChoose(desk.design).keys()].filter((key) => !desk.choices.has(key)).length;

// Choices stay for what is as it was.
export function keepChoices(old, design) {
  const [known, now] = [old || design, design].map(toChoose);
  for (const key of [...desk.choices.keys()]) if (known.get(key) !== now.get(key)) desk.choices.delete(key);
  desk.made = desk.made.filter((it) => [...it.keys()].every((key) => now.has(key)));
}

// The choices that this person made before, perhaps in another tab.
export async function readChoices() {
  const told = await ask("choices", { at: desk.at });
  const made = [...toChoose(desk.design).keys()].filter((key) => Object.hasOwn(told, key) && !desk.choices.has(key));
  for (const key of made) desk.choices.set(key, told[key]);
}

export function fillConflicts() {
  const { conflicts, conflicts_in_all: count, joined, name, parent } = desk.design;
  const features = `${joined} ${joined === 1 ? "feature" : "features"}`;
  const told = joined ? make("p", { id: "joined" },
    `${name} and ${parent} have changed different fields of ${features}, which a merge joins.`) : null;
  if (!count) return fill($("view"), make("p", { id: "open" }, "There is no conflict."), told);
  const keys = [...toChoose(desk.design).keys()];
  const all = (side, text) => button(`all-${side}`, text, () => choose(keys, side));
  const undo = button("undo", "Undo the last choice", takeBack, { disabled: !desk.made.length });
  const text = `${name} and ${parent} have both changed these. ${openChoices()} of ${keys.length} have no choice yet.`;
  const steps = make("div", { class: "buttons" }, button("previous-conflict", "Previous", () => step(-1)),
    button("next-conflict", "Next", () => step(1)));
  const buttons = make("div", { class: "buttons" }, all("mine", `All as in ${name}`),
    all("theirs", `All as in ${parent}`), undo);
  return fill($("view"), make("p", { id: "open" }, text), told, buttons, steps, ...conflicts.map(conflict),
    ...rest(count - conflicts.length));
}

function rest(left) {
  if (!left) return [];
  const radios = ["mine", "theirs"].map((side) => radio(REST, side, sideText(side), `the others: ${sideText(side)}`));
  return [box(REST, [REST], `${left} more conflicts, which are not shown`, ...radios),
    button("more-conflicts", `Show ${Math.min(left, 100)} more`, () => trying(readMore))];
}

async function readMore() {
  const design = desk.design;
  const more = await ask("conflicts", { at: desk.at, first: design.conflicts.length });
  if (desk.design !== design) return;
  design.conflicts.push(...more);
  await readChoices();
  fillConflicts();
}

// --- one of them ------------------------------------------------------------------------------------------

const sideText = (side) => ({ mine: "mine", theirs: "the parent's", both: "both, mine with a new number" })[side];

function radio(key, side, text, label) {
  const checked = desk.choices.get(key) === side;
  const given = { type: "radio", id: `${side}-${key}`, name: key, value: side, checked, "aria-label": label,
    onchange: () => choose([key], side) };
  return make("label", {}, make("input", given), ` ${text}`);
}

// A frame around what takes these choices.
function box(id, keys, title, ...shown) {
  const settled = keys.every((key) => desk.choices.has(key)) ? "settled" : "";
  const looked = desk.looked === id ? " looked" : "";
  return make("fieldset", { class: `${settled}${looked}`, id: `conflict-${id}` }, make("legend", {}, title), ...shown);
}

function conflict(it) {
  const keys = it.clashes.map((clash) => clash.key);
  const [first] = it.clashes;
  const shown = first.field ? byField(it, keys) : asWhole(it, first);
  const label = `Show ${it.layer} ${it.number} on the map`;
  const look = button(`look-${it.key}`, "On the map", () => lookAt(it), { "aria-label": label });
  return box(it.key, keys, `${it.layer} ${it.number}: ${it.what}`, ...shown, look);
}

function table(lines) {
  const { name, parent } = desk.design;
  const heads = { base: "Base", parent: `Parent (${parent})`, mine: `Mine (${name})` };
  const cell = ([side, text]) => make("th", { scope: "col" }, sample(SIDES[side]), text);
  const head = make("tr", {}, make("td"), ...Object.entries(heads).map(cell));
  return make("table", {}, make("thead", {}, head), make("tbody", {}, ...lines));
}

const line = (title, ...cells) => make("tr", {}, make("th", { scope: "row" }, title), ...cells);

// Each field with the values of both sides to choose from, one click for all of them, and folded what needs no choice.
function byField(it, keys) {
  const { name, parent } = desk.design;
  const rows = it.clashes.map((clash) => {
    const text = (side) => (clash.is_course ? about(it.sides[side]) : clash.texts[side] ?? "–");
    const title = clash.is_course ? "course" : clash.field;
    const cell = (side, of, whose) => make("td", { class: desk.choices.get(clash.key) === side ? "chosen" : "differs" },
      radio(clash.key, side, text(of), `${title} as in ${whose}: ${text(of)}`));
    return line(title, make("td", {}, text("base")), cell("theirs", "parent", parent), cell("mine", "mine", name));
  });
  const both = (side, text) => button(`${side}-${it.key}`, text, () => choose(keys, side));
  const buttons = [both("theirs", `All as in ${parent}`), both("mine", `All as in ${name}`)];
  const all = keys.length > 1 ? make("div", { class: "buttons" }, ...buttons) : null;
  const fields = new Set(it.clashes.map((clash) => clash.field));
  const hasCourse = it.clashes.some((clash) => clash.is_course);
  const others = values(it).filter(([title, isCourse]) => (isCourse ? !hasCourse : !fields.has(title)));
  return [table(rows), all, folded(others)];
}

// A feature that one side removed, or both added: all that differs, and one choice.
function asWhole(it, { key, sides }) {
  const all = values(it).filter(([, isCourse]) => it.what !== "course" || isCourse);
  const differs = all.filter(([, , texts]) => new Set(texts).size > 1);
  const same = all.filter(([, , texts]) => new Set(texts).size === 1);
  const radios = sides.map((side) => radio(key, side, sideText(side), `${it.layer} ${it.number}: ${sideText(side)}`));
  return [table((differs.length ? differs : same).map(plain)), differs.length ? folded(same) : null, ...radios];
}

const plain = ([title, , texts]) =>
  line(title, ...texts.map((text) => make("td", { class: text !== texts[0] ? "differs" : "" }, text)));

function folded(rows) {
  if (!rows.length) return null;
  const text = `${rows.length} ${rows.length === 1 ? "needs" : "need"} no choice`;
  return make("details", {}, make("summary", {}, text), table(rows.map(plain)));
}

// The fields and the course of a feature, each with what the three sides have.
function values({ sides }) {
  const all = ["base", "parent", "mine"].map((side) => sides[side]);
  const names = [...new Set(all.flatMap((side) => Object.keys(side?.attributes || {})))];
  const of = (value) => all.map((side) => (side ? value(side) ?? "–" : "removed"));
  const courses = all.some((side) => side?.course || side?.bad.length) ? [["course", true, of(about)]] : [];
  return [...names.map((name) => [name, false, of((side) => own(side, name))]), ...courses];
}

// --- on the map -------------------------------------------------------------------------------------------

function lookAt({ key, sides }) {
  desk.looked = key;
  const base = JSON.stringify(sides.base?.course);
  const isOwn = base !== JSON.stringify(sides.parent?.course) && base !== JSON.stringify(sides.mine?.course);
  mark([[sides.parent?.course, SIDES.parent], [sides.mine?.course, SIDES.mine],
    [isOwn && sides.base?.course, SIDES.base]]);
  zoomToMarks();
}

// Shows the next conflict or the one before on the map, and goes there.
function step(by) {
  const { conflicts } = desk.design;
  const at = conflicts.findIndex((it) => it.key === desk.looked);
  const it = conflicts[at < 0 ? (by > 0 ? 0 : conflicts.length - 1) : (at + by + conflicts.length) % conflicts.length];
  lookAt(it);
  fillConflicts();
  $(`conflict-${it.key}`)?.scrollIntoView({ block: "nearest" });
  say(`${it.layer} ${it.number}: ${it.what}`);
}

// --- choices ----------------------------------------------------------------------------------------------

// A choice is kept on the server; what it was before is kept here.
function choose(keys, side) {
  desk.made.push(new Map(keys.map((key) => [key, desk.choices.get(key)])));
  for (const key of keys) desk.choices.set(key, side);
  fillConflicts();
  keep(keys);
}

function keep(keys) {
  const marks = toChoose(desk.design);
  const made = (key) => (desk.choices.has(key) ? { side: desk.choices.get(key), mark: marks.get(key) } : null);
  const its = keys.map((key) => [key, made(key)]);
  trying(() => send({ do: "choose", choices: Object.fromEntries(its) }));
}

function takeBack() {
  const made = desk.made.pop() || [];
  for (const [key, side] of made) {
    if (side) desk.choices.set(key, side);
    else desk.choices.delete(key);
  }
  fillConflicts();
  keep([...made].map(([key]) => key));
  say("The last choice is taken back.");
}

// Whether all is chosen, and how it is sent.
export async function settled() {
  if (!openChoices()) return Object.fromEntries(desk.choices);
  desk.view = "conflicts";
  showHead();
  fillConflicts();
  say(`${openChoices()} conflicts have no choice yet.`, true);
  return null;
}
