// The designs: the tree of them, what is said of each, what is done with one, and how two differ.
import { $, button, fill, make, options, question, say, trying } from "./dom.js";
import { mark, zoomToMarks } from "./chart.js";
import { settled } from "./conflicts.js";
import { carryOut, open, showOther } from "./desk.js";
import { ask } from "./server.js";
import { desk, MOST_ROWS, WORDS } from "./shared.js";
import { SIDES, STATES } from "./styles.js";
import { show } from "./feature.js";

const STATUSES = ["", "planned", "in work", "for approval", "approved", "built", "given up"];

export function showTree() {
  $("file").textContent = desk.state.file.split("/").pop().replace(/\.sock$/, "");
  $("planner").textContent = `as ${desk.state.planner}`;
  document.title = `${$("file").textContent}: ${desk.at}`;
  fill($("tree"), ...desk.state.tree.map((it) => {
    const go = () => trying(() => open(it.name));
    const isChosen = it.name === desk.at ? "true" : null;
    const name = make("button", { id: `design-${it.name}`, onclick: go, "aria-current": isChosen }, it.name);
    const checks = it.checkpoints.map((check) => make("span", { class: "checkpoint", title: "a checkpoint" },
      `• ${check}`));
    const { title, owner, status } = it.about;
    const said = [title, [owner, status].filter(Boolean).join(", ")].filter(Boolean)
      .map((text) => make("span", { class: "about" }, text));
    const head = make("th", { scope: "row", class: `deep-${Math.min(it.depth, 4)}` }, name, ...said, ...checks);
    return make("tr", {}, head, make("td", {}, `${it.changed ?? "–"}`), make("td", {}, `${it.conflicts ?? "–"}`));
  }));
}

const rowOf = (name) => desk.state.tree.find((it) => it.name === name);

export function showActions() {
  const { name, parent } = desk.design;
  const { title } = rowOf(name)?.about || {};
  const what = parent ? `${name}, a design under ${parent}` : `${name}, what all designs begin with`;
  $("chosen").textContent = title ? `${what}: ${title}` : what;
  const { checkpoints } = rowOf(name) || { checkpoints: [] };
  const act = (text, work) => make("button", { id: `do-${text.split(" ")[0].toLowerCase()}`, onclick: work },
    `${text}…`);
  fill($("actions"), ...[
    parent && act("Merge", merge),
    parent && act("Post", post),
    act("Checkpoint", () => named("checkpoint", `A checkpoint of ${name} as it is now.`)),
    checkpoints.length && act("Back", () => back(checkpoints)),
    act("New design", () => named("new", `A new design under ${name}, which begins with what ${name} shows.`)),
    parent && act("Drop", drop),
  ].filter(Boolean));
}

// --- what is said of a design -----------------------------------------------------------------------------

export function fillAbout() {
  const its = rowOf(desk.at)?.about || {};
  const line = (name, text, node) => make("p", {}, make("label", {}, text,
    node || make("input", { name, id: `about-${name}`, value: its[name] || "", maxlength: 200 })));
  const status = make("select", { name: "status", id: "about-status" });
  options(status, [...new Set([...STATUSES, its.status || ""])].map((it) => [it, it || "not said"]), its.status || "");
  const note = make("textarea", { name: "note", id: "about-note", rows: 4, maxlength: 500 });
  note.value = its.note || "";
  const save = async (event) => {
    event.preventDefault();
    await carryOut({ do: "describe", ...Object.fromEntries(new FormData(event.target)) },
      `Kept what is said of ${desk.at}.`);
  };
  fill($("view"), make("form", { class: "about", onsubmit: save }, make("h3", {}, `About ${desk.at}`),
    line("title", "Title"), line("owner", "Owner"), line("status", "Status", status), line("note", "Note", note),
    make("p", { class: "buttons" }, button("about-save", "Keep it"))));
}

// --- how two designs differ -------------------------------------------------------------------------------

export function fillCompared() {
  const others = desk.state.tree.map((it) => it.name).filter((it) => it !== desk.at);
  const select = make("select", { id: "other" });
  options(select, others.map((it) => [it, it]), desk.compared?.other);
  const list = make("div", { id: "differences" });
  const go = async (event) => {
    event.preventDefault();
    const other = select.value;
    fill(list, make("p", {}, "Reading…"));
    const told = await ask("compared", { at: other, other: desk.at });
    desk.compared = { other, told };
    showDifferences(list, other, told);
  };
  fill($("view"), make("form", { onsubmit: (event) => trying(() => go(event)) },
    make("h3", {}, `How ${desk.at} differs from another design`),
    make("p", {}, make("label", {}, "The other one ", select), " ", button("compare", "Compare"))), list);
}

function showDifferences(list, other, told) {
  const counts = Object.entries(Object.groupBy(told, (it) => it.status))
    .map(([status, its]) => `${its.length} ${WORDS[status]}`);
  mark(told.flatMap((it) => [[it.before, SIDES.base], [it.now, STATES[it.status]]]));
  if (told.some((it) => it.before || it.now)) zoomToMarks();
  const text = told.length ? `From ${other} to ${desk.at}: ${counts.join(", ")}.`
    : `${desk.at} and ${other} are the same.`;
  fill(list, make("p", { id: "differences-told" }, text), rows(told, "", (it) => show(it, true, other)));
}

// A list of features with what of each has changed.
export function rows(list, none, work) {
  if (!list.length) return none && make("p", {}, none);
  const shown = list.slice(0, MOST_ROWS).map((it) => {
    const text = `${it.layer} ${it.number}: ${WORDS[it.status]} (${it.what.join(", ")})`;
    return make("li", {}, make("button", { class: it.status, onclick: () => trying(() => work(it)) }, text));
  });
  const more = list.length > MOST_ROWS ? make("p", {}, `And ${list.length - MOST_ROWS} more.`) : "";
  return make("div", {}, make("ul", { class: "rows" }, ...shown), more);
}

// --- a question, and a batch ------------------------------------------------------------------------------

async function merge() {
  const { name, parent, conflicts_in_all: count } = desk.design;
  const choices = await settled();
  if (!choices) return;
  const how = count ? " Its conflicts are settled as you chose." : "";
  if (!await question(`Merge what ${parent} has changed into ${name}?${how}`, "Merge")) return;
  const told = await carryOut({ do: "merge", choices }, `Merged ${parent} into ${name}.`);
  if (told) Object.assign(desk, { choices: new Map(), made: [] });
}

async function post() {
  const { name, parent } = desk.design;
  if (!await question(`Post ${name}? ${parent} then shows what ${name} shows.`, "Post")) return;
  await carryOut({ do: "post" }, `Posted ${name} into ${parent}.`);
}

async function drop() {
  const { name } = desk.design;
  if (!await question(`Drop ${name}? All that only ${name} has is gone.`, "Drop")) return;
  await carryOut({ do: "drop" }, `Dropped ${name}.`);
}

async function named(what, text) {
  const name = await question(text, "Make it", "Its name");
  if (!name) return;
  const told = await carryOut({ do: what, name }, `Made the ${what === "new" ? "design" : "checkpoint"} ${name}.`);
  if (told && what === "new") await trying(() => open(name));
}

async function back(checkpoints) {
  const names = checkpoints.join(", ");
  const text = `Back to which checkpoint of ${desk.at} (${names})? What was changed since then is gone.`;
  const name = await question(text, "Back", "Checkpoint");
  if (name) await carryOut({ do: "back", name }, `${desk.at} is as at the checkpoint ${name}.`);
}
