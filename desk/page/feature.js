// A feature in the panel: before and now, its form, and who changed it.
import { $, button, fill, make, own, question, say, trying } from "./dom.js";
import { mark, unmark } from "./chart.js";
import { carryOut, link, showOther, showView } from "./desk.js";
import { showLate } from "./late.js";
import { ask } from "./server.js";
import { desk, WORDS } from "./shared.js";
import { SIDES, STATES } from "./styles.js";

const HALO = { color: "#F0E442", weight: 16, opacity: 0.8 };
const INPUTS = { Integer: { inputmode: "numeric", pattern: "-?[0-9]+" },
  Integer64: { inputmode: "numeric", pattern: "-?[0-9]+" },
  Real: { inputmode: "decimal" }, Date: { type: "date" }, Time: { placeholder: "HH:MM:SS" },
  DateTime: { placeholder: "YYYY-MM-DDTHH:MM:SS" } };

export const name = ({ layer, number }) => (number ? `${layer} ${number}` : `a new feature of ${layer}`);
export const isSame = (one, other) => JSON.stringify(one) === JSON.stringify(other);
export const isShown = ({ table, number }) => (
  desk.view === "feature" && desk.feature.table === table && desk.feature.number === number);
const seen = ({ now }) => ({ attributes: now.attributes, course: now.course });

const read = ({ table, number }, other) => ask("feature", { at: desk.at, table, number, ...(other ? { other } : {}) });

// Shows a feature, unless another one was asked for before it has come.
export async function show(feature, isToMove, other) {
  const asked = desk.asked = {};
  const found = await read(feature, other);
  if (desk.asked !== asked) return;
  desk.feature = found;
  await showRead(isToMove);
}

async function showRead(isToMove) {
  Object.assign(desk, { view: "feature", edits: false, late: false });
  markFeature(isToMove);
  await showView();
}

// Shows the feature once more, after something was undone or others have changed something, or the changes if it is
// gone. What a person has asked for meanwhile stays, and so does an edit that came too late.
export async function showAgain() {
  const { feature, asked } = desk;
  const stays = () => desk.feature !== feature || desk.asked !== asked || desk.edits || desk.late || !isShown(feature);
  if (!feature?.number || stays()) return;
  const now = await read(feature, feature.other).catch(() => null);
  if (stays() || isSame(now, feature)) return;
  if (!now) return showOther("changes");
  desk.feature = now;
  return showRead(false);
}

function markFeature(isToMove) {
  const { before, now, status, bounds } = desk.feature;
  const old = status === "same" ? null : before?.course;
  mark([[now?.course || before?.course, HALO], [old, SIDES.base], [now?.course, STATES[status]]], isToMove && bounds);
}

// Several features lie where somebody clicked: a list to choose from.
export async function showHere(list) {
  desk.here = list;
  await showOther("here");
}

export const fillHere = () => fill($("view"), make("h3", {}, "What lies here"),
  make("ul", { class: "rows" }, ...desk.here.map((it, at) =>
  make("li", {}, make("button", { id: `here-${at}`, class: it.status, onclick: () => trying(() => show(it, false)) },
    `${it.layer} ${it.number}${it.label ? ` (${it.label})` : ""}: ${WORDS[it.status]}`)))));

// --- the table and the form -----------------------------------------------------------------------------

export async function fillFeature() {
  const feature = desk.feature;
  const { before, now, status, number, fields, other } = feature;
  const values = desk.edits ? await ask("values", { at: desk.at, table: feature.table }) : {};
  if (desk.feature !== feature || desk.view !== "feature") return;
  const names = new Set([...fields.map((it) => it.name), ...Object.keys(before?.attributes || {}),
    ...Object.keys(now?.attributes || {})]);
  const line = (title, old, its, cell) => make("tr", {}, make("th", { scope: "row" }, title),
    make("td", {}, old ?? "–"),
    make("td", { class: old !== its ? "differs" : "" }, cell ?? its ?? "–"));
  const lines = [...names].map((title) => {
    const [old, its] = [before, now].map((side) => own(side, title));
    return line(title, old, its, desk.edits ? input(title, its, fields, values) : null);
  });
  const head = make("tr", {},
    ...["", other || "Before", other ? desk.at : "Now"].map((it) => make("th", { scope: "col" }, it)));
  const body = make("tbody", {}, ...lines, line("course", about(before), about(now)));
  const form = make("form", { onsubmit: once(save) },
    make("h3", {}, number ? `${name(feature)}: ${WORDS[status]}` : name(feature)),
    make("table", {}, make("thead", {}, head), body),
    make("p", { class: "buttons" }, ...buttons(now && fields.length)));
  fill($("view"), form, make("div", { id: "late" }), make("div", { id: "history" }));
}

function input(title, its, fields, values) {
  const type = fields.find((it) => it.name === title)?.type;
  const known = own({ attributes: values }, title) || [];
  const list = known.length && type !== "Date"
    ? make("datalist", { id: `list-${title}` }, ...known.map((value) => make("option", { value }))) : null;
  const given = { name: title, value: its ?? "", "aria-label": title, list: list?.id, autocomplete: "off",
    ...INPUTS[type] };
  return make("span", {}, make("input", given), list);
}

function buttons(isToEdit) {
  const { number, status, other, now } = desk.feature;
  const edit = (edits) => async () => {
    desk.edits = edits;
    await fillFeature();
    $("view").querySelector(edits ? "input" : "button").focus();
  };
  if (desk.edits && !number) {
    return [button("save", "Keep it"), button("stop", "Don't keep it", () => { unmark(); showOther("changes"); })];
  }
  if (desk.edits) return [button("save", "Save…"), button("stop", "Don't save", edit(false))];
  const who = button("who", "Who changed this, when", () => trying(showHistory));
  const undo = status !== "same" && !other && button("take-back", "Undo its change…", takeBack);
  const remove = now && !other && button("delete", "Delete…", removed);
  return [isToEdit && !other && button("edit", "Edit", edit(true)), remove, undo, who].filter(Boolean);
}

// A course in words: for instance `line, 9 points`.
export function about(side) {
  if (!side?.course) return side?.bad.length ? `bad: ${side.bad.join("; ")}` : "–";
  const kind = side.course.type.replace("String", "").toLowerCase();
  return `${kind}, ${(side.course.coordinates || []).flat(Infinity).length / 2} points`;
}

async function showHistory() {
  const { table, number } = desk.feature;
  const told = await ask("history", { table, number });
  const lines = told.map((it) => make("li", {},
    `${it.time.slice(0, 16).replace("T", " ")} UTC, ${it.planner}: ${it.text}: ${it.changes.join("; ")}`));
  const list = lines.length ? make("ul", {}, ...lines) : make("p", {}, "Nobody since the service began its journal.");
  fill($("history"), make("h3", {}, "Who changed it"), list);
}

// --- edits ------------------------------------------------------------------------------------------------

// Sends a form, and not once more before that has come to an end.
export const once = (work) => async (event) => {
  const form = event.target;
  event.preventDefault();
  if (form.isSent) return;
  form.isSent = true;
  await work(form).finally(() => { form.isSent = false; });
};

// A course that was drawn, for which the form is shown.
export async function drawn(layer, course) {
  const { table, fields, name: its } = layer;
  const now = { attributes: {}, course, bad: [], is_whole: true };
  desk.feature = { table, number: null, layer: its, status: "added", before: null, now, fields, bounds: null };
  Object.assign(desk, { view: "feature", edits: true, late: false, asked: {} });
  markFeature(false);
  await showView();
  $("view").querySelector("input, #save")?.focus();
}

export const moved = (feature, course) => change(feature, { course }, `Moved ${name(feature)}.`);

async function removed() {
  const feature = desk.feature;
  if (!await question(`Delete ${name(feature)} from ${desk.at}?`, "Delete")) return;
  await change(feature, { remove: true }, `Deleted ${name(feature)}.`);
}

async function takeBack() {
  const feature = desk.feature;
  const { table, number } = feature;
  const asked = `Undo what ${desk.at} has changed of ${name(feature)}? It is then as in the base.`;
  if (!await question(asked, "Undo")) return;
  await carryOut({ do: "take-back", table, number }, `${name(feature)} is as in the base.`);
}

async function save(form) {
  const feature = desk.feature;
  const { now, number } = feature;
  const values = Object.fromEntries(
    [...new FormData(form)].filter(([title, text]) => text !== (own(now, title) ?? "")));
  const what = Object.entries(values).map(([title, text]) => `${title} = ${text || "nothing"}`).join(", ");
  if (!number) return change(feature, { values, course: now.course }, `Drew a new feature of ${feature.layer}.`);
  if (!what) return say("Nothing has changed.");
  if (!await question(`Change ${name(feature)} in ${desk.at}: ${what}?`, "Change it")) return null;
  return change(feature, { values }, `Changed ${name(feature)}.`);
}

// Sends a change of a feature. If somebody was faster, both are shown. False if it could not be sent.
export async function change(feature, it, done) {
  const { table, number } = feature;
  const before = number ? { before: seen(feature) } : {};
  const { asked } = desk;
  let isLate = false;
  const told = await carryOut({ do: "change", features: [{ table, number, ...before, ...it }] }, done, (now) => {
    isLate = true;
    showLate(feature, it, now[`${table}:${number}`]);
  });
  if (told) desk.late = false;
  if (!told || !isShown(feature) || desk.asked !== asked) return Boolean(told) || isLate;
  await trying(() => (number && !it.remove ? show(feature, false) : leave()));
  return true;
}

export function leave() {
  unmark();
  return showOther("changes");
}

export const linkOf = () => link(desk.feature?.number && desk.view === "feature" ? desk.feature : null);
