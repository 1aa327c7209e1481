// The desk in the browser: it asks the server for what it shows, and sends each change as a batch. The server looks
// whether what was seen still holds. Modules have the map, drawing, styles, features, finding, conflicts, designs and
// printing.
import { $, answered, button, fill, make, sample, say, trying } from "./dom.js";
import { showMap, unmark } from "./chart.js";
import { fillConflicts, keepChoices, readChoices } from "./conflicts.js";
import { fillAbout, fillCompared, rows, showActions, showTree } from "./designs.js";
import * as drawing from "./drawing.js";
import { fillFeature, fillHere, show, showAgain } from "./feature.js";
import * as find from "./find.js";
import { showOffice } from "./office.js";
import { fillPrint, listen as listenToPrint } from "./printing.js";
import { ask, begin, send } from "./server.js";
import { desk, WORDS } from "./shared.js";
import { fillStyle, STATES } from "./styles.js";

const POLL = 1500;

// --- the state, and what comes from others --------------------------------------------------------

// Nothing is shown anew under a question: what was seen with it is what counts.
const isBusy = () => desk.isSending || $("question").open;

async function poll() {
  let pause = POLL;
  if (!document.hidden && !isBusy()) {
    // The answer comes with the next batch.
    const known = desk.state ? { after: desk.state.batch, office: desk.office?.version ?? 0 } : {};
    const state = await trying(() => ask("state", known));
    if (state && !isBusy()) await trying(() => take(state));
    if (state) pause = 100;
  }
  setTimeout(poll, pause);
}

// Takes a state, and says what others have done.
async function take(state, own) {
  const before = desk.state;
  if (before?.epoch === state.epoch && state.batch < before.batch) return; // An answer that was overtaken.
  desk.state = state;
  const news = state.news.filter((it) => before && it.batch > before.batch && it.batch !== own);
  if (news.length) {
    $("news").textContent = news.map((it) => `${it.time.slice(11, 16)} ${it.planner}: ${it.text}`).join("; ");
  }
  const row = state.tree.find((it) => it.name === desk.at) || state.tree[0];
  if (before?.batch !== state.batch) showTree();
  showOffice(state.office);
  const isKnown = before?.epoch === state.epoch && desk.design?.name === row.name && desk.design.stamp === row.stamp;
  if (!isKnown) await open(row.name);
  else if (before?.batch !== state.batch) showHead();
}

// Shows a design. Until it has come nothing can be done with it.
export async function open(name) {
  const isOther = desk.at !== name;
  desk.at = name;
  if (isOther) forget();
  const design = await ask("design", { at: name });
  await answered();
  if (desk.at !== name) return;
  $("panel").inert = false;
  keepChoices(desk.design, design);
  desk.design = design;
  if (design.conflicts.length) await readChoices();
  showTree();
  find.showFields();
  showMap();
  if (desk.view !== "feature") await showView(true);
  else await showAgain();
  showHead();
}

function forget() {
  Object.assign(desk,
    { feature: null, edits: false, late: false, asked: {}, view: "changes", choices: new Map(), made: [], design: null,
      compared: null });
  drawing.tool.stop();
  unmark();
  $("panel").inert = true;
  fill($("view"), make("p", {}, `Reading ${desk.at}…`));
}

// Sends a batch, and shows what came of it. An edit that came too late is given what the features are now.
export async function carryOut(it, done, late) {
  desk.isSending = true;
  let now = null;
  const told = await trying(() => send(it).catch((fault) => {
    now = fault.now;
    throw fault;
  }));
  const state = told && (await trying(() => ask("state", {})));
  if (state) await trying(() => take(state, told.batch));
  if (told) say([done, ...told.said].join(" "));
  desk.isSending = false;
  if (now && late) await late(now);
  return told;
}

// --- what is shown of the design ------------------------------------------------------------------

// The views of the panel: what their buttons say, and what fills them.
const VIEWS = {
  changes: { text: ({ changes }) => `Changes (${changes.length})`, fill: fillChanges },
  parent: { text: ({ parent }) => parent && `Changes of ${parent}`, fill: fillParent },
  conflicts: { text: ({ parent, conflicts_in_all: count }) => parent && `Conflicts (${count})`, fill: fillConflicts },
  compared: { text: () => desk.state?.tree.length > 1 && "Compare", fill: fillCompared, stays: true },
  about: { text: () => "About", fill: fillAbout, stays: true },
  print: { text: () => "Print", fill: fillPrint, stays: true },
  found: { text: () => desk.found && `Found (${desk.found.found.length})`, fill: find.fillFound },
  here: { text: () => null, fill: fillHere },
  style: { text: () => null, fill: fillStyle, stays: true },
  feature: { text: () => desk.feature && `${desk.feature.layer} ${desk.feature.number || "(new)"}`, fill: fillFeature },
};

export function showHead() {
  if (!desk.design) return;
  showActions();
  drawing.showTools();
  const press = (view) => () => trying(() => (
    view === "feature" && desk.feature.number ? show(desk.feature, false) : showOther(view)));
  fill($("views"),
    ...Object.entries(VIEWS).map(([view, { text }]) => [view, text(desk.design)]).filter(([, text]) => text)
    .map(([view, text]) => button(`view-${view}`, text, press(view), { "aria-pressed": `${desk.view === view}` })));
  const feature = desk.view === "feature" && desk.feature?.number ? desk.feature : null;
  history.replaceState(null, "", `${location.pathname}${link(feature)}`);
}

// What stands behind the # for what is shown.
export const link = (feature) =>
  `#${new URLSearchParams({ design: desk.at, ...(feature ? { feature: `${feature.table}:${feature.number}` } : {}) })}`;

export function showOther(view) {
  Object.assign(desk, { view, edits: view === "feature" && desk.edits, late: false, asked: {} });
  return showView();
}

// A form that is open stays as it is if the design comes anew.
export async function showView(isAnew = false) {
  showHead();
  if (!(isAnew && VIEWS[desk.view].stays && $("view").querySelector("form"))) await VIEWS[desk.view].fill();
}

function fillChanges() {
  fill($("view"), rows(desk.design.changes, `${desk.at} has changed nothing since its base.`, (it) => show(it, true)));
}

async function fillParent() {
  const { at, view } = desk;
  fill($("view"), make("p", {}, "Reading…"));
  const told = await ask("parent", { at });
  const none = "The parent has changed nothing since the last merge.";
  if (desk.view === view && desk.at === at) fill($("view"), rows(told, none, (it) => show(it, true)));
}

// --- the beginning ----------------------------------------------------------------------------------

async function start() {
  const given = await begin();
  fill($("legend"), ...Object.entries(STATES).map(([status, style]) => make("li", {}, sample(style), WORDS[status])));
  find.listen();
  listenToPrint();
  if (given.get("design")) desk.at = given.get("design");
  await poll();
  if (!desk.design) return;
  drawing.listen();
  const [table, number] = (given.get("feature") || "").split(":");
  if (number) await trying(() => show({ table, number }, true));
}

start();
