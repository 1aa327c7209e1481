// An edit that came too late: field by field what was seen, what others have made of it, and what was to be, to choose
// from. The map has the courses of all three.
import { $, button, fill, make, own, sample, trying } from "./dom.js";
import { mark } from "./chart.js";
import { about, change, isSame, isShown, leave, name, once, show } from "./feature.js";
import { desk } from "./shared.js";
import { SIDES } from "./styles.js";

const HEADS = { base: "As you saw it", parent: "Theirs, now", mine: "Yours" };
const COURSE = " course"; // No field has this name.

// `it` is what was to be made of the feature, and `now` what others have made of it, if they have not deleted it.
export function showLate(feature, it, now) {
  const mine = { ...feature.now, attributes: { ...feature.now.attributes, ...it.values } };
  if (it.course) mine.course = it.course;
  const shown = !now ? whatIsGone(feature, it, mine) : it.remove ? whatIsNotDeleted(feature, now)
    : whatBothMade(feature, it, now, mine);
  const drop = button("late-drop", "Leave it as theirs", () => trying(() => leaveLate(feature, now)));
  const form = make("form", { onsubmit: once((form) => saveLate(form, feature, shown.work)) },
    make("h3", {}, `Somebody was faster: ${name(feature)}`), shown.told,
    make("p", { class: "buttons" }, shown.save && button("late-save", shown.save), drop));
  const late = $("late") || $("view").appendChild(make("div", { id: "late" }));
  fill(late, form);
  late.querySelector("input:checked, button")?.focus();
  desk.late = true;
  if (!isShown(feature)) return;
  mark([[feature.now.course, SIDES.base], [now?.course, SIDES.parent], [it.remove ? null : mine.course, SIDES.mine]]);
}

// What was drawn or filled in for a feature that others have deleted can be drawn anew.
function whatIsGone(feature, it, mine) {
  const text = it.remove ? "Somebody has deleted it already." : "Somebody has deleted it. Your edit is not made.";
  const work = () => [{ ...feature, number: null }, { values: mine.attributes, course: mine.course },
    `Drew a new feature of ${feature.layer}.`];
  const canBeDrawn = !it.remove && mine.course && (it.course || mine.is_whole);
  return { told: make("p", {}, text), save: canBeDrawn && "Draw yours as a new feature", work };
}

function whatIsNotDeleted(feature, now) {
  const rows = differences(feature.now, now, feature.now).map(([title, saw, theirs]) => (
    make("tr", {}, make("th", { scope: "row" }, title), make("td", {}, saw), make("td", {}, theirs))));
  const work = () => [{ ...feature, now }, { remove: true }, `Deleted ${name(feature)}.`];
  return { told: lateTable(["base", "parent"], rows), save: "Delete it all the same", work };
}

function whatBothMade(feature, it, now, mine) {
  const rows = differences(feature.now, now, mine);
  const canMove = mine.course && (it.course || mine.is_whole); // Else its heights would be lost.
  const work = (chosen) => {
    const titles = rows.map(([title]) => title).filter((title) => chosen.get(title) === "mine");
    const values = titles.filter((title) => title !== COURSE).map((title) => [title, own(mine, title) ?? null]);
    const course = titles.includes(COURSE) ? { course: mine.course } : {};
    return [{ ...feature, now }, { values: Object.fromEntries(values), ...course }, `Changed ${name(feature)}.`];
  };
  const shown = rows.map((row) => lateRow(row[0] !== COURSE || canMove, ...row));
  return { told: lateTable(["base", "parent", "mine"], shown), save: "Save what is chosen", work };
}

// A table whose columns are as the map draws their courses.
function lateTable(sides, rows) {
  const heads = sides.map((side) => make("th", { scope: "col" }, sample(SIDES[side]), HEADS[side]));
  return make("table", {}, make("thead", {}, make("tr", {}, make("td"), ...heads)), make("tbody", {}, ...rows));
}

// What somebody has changed, the course last: of each what it was, theirs and mine, and who has changed it.
function differences(saw, theirs, mine) {
  const titles = [...new Set([saw, theirs, mine].flatMap(({ attributes }) => Object.keys(attributes)))];
  const rows = titles.map((title) => {
    const [was, ...made] = [saw, theirs, mine].map((side) => own(side, title));
    return [title, was ?? "–", ...made.map((it) => it ?? "–"), ...made.map((it) => it !== was)];
  });
  const [isTheirs, isMine] = [theirs, mine].map(({ course }) => !isSame(course, saw.course));
  const told = (side, isMoved) => (isMoved ? `${about(side)}, moved` : about(side));
  rows.push([COURSE, about(saw), told(theirs, isTheirs), told(mine, isMine), isTheirs, isMine]);
  return rows.filter((row) => row[4] || row[5]);
}

// A row with a choice. What both have changed has to be chosen; else the changed side is.
function lateRow(canBeMine, title, saw, theirs, mine, isTheirs, isMine) {
  const radio = (side, text, checked, disabled) => make("td", { class: checked ? "" : "differs" }, make("label", {},
    make("input", { type: "radio", name: title, value: side, required: true, checked, disabled }), ` ${text}`));
  return make("tr", {}, make("th", { scope: "row" }, title.trim()), make("td", {}, saw),
    radio("theirs", theirs, isTheirs && !isMine), radio("mine", mine, isMine && !isTheirs, !canBeMine));
}

// Sends what was chosen. That may come too late, too.
async function saveLate(form, feature, work) {
  const [changed, it, done] = work(new FormData(form));
  if (isShown(feature)) desk.feature = changed;
  if (await change(changed, it, done)) form.remove();
}

function leaveLate(feature, now) {
  Object.assign(desk, { late: false, edits: false });
  return now ? show(feature, false) : leave();
}
