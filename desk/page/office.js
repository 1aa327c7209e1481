// The field office, if the store is a clone: what its designs have ahead of HEAD and behind it, pull and push, and what
// came of them.
import { $, button, fill, make, question, trying } from "./dom.js";
import { open, showOther } from "./desk.js";
import { carry } from "./server.js";
import { desk } from "./shared.js";

const RUNS = { look: "Asking HEAD…", pull: "Pulling from HEAD…", push: "Pushing to HEAD…" };

// Shows what the server tells, unless something newer is shown already.
export function showOffice(office) {
  if (office && desk.office && office.version < desk.office.version) return;
  desk.office = office;
  $("office").hidden = !office;
  if (!office) return;
  fill($("office-title"), `Field office ${office.name}`, make("small", {}, `of ${office.head}`));
  fill($("office-actions"), press("look", "Look at HEAD"), press("pull", "Pull"));
  showSaid(office.running ? [RUNS[office.running]] : office.said, !office.running && office.is_fault);
  fill($("office-settle"), ...office.beside.map(toSettle));
  fill($("office-designs"), ...office.designs.map(row));
}

// A reader speaks what is new here, so the same is not said again.
function showSaid(said, isFault) {
  const node = $("office-said");
  node.classList.toggle("fault", isFault);
  const known = [...node.children].map((it) => it.textContent);
  if (known.join("\n") !== said.join("\n")) fill(node, ...said.map((it) => make("p", {}, it)));
}

// While something runs the buttons stay where they are, with the focus, and do nothing.
function press(what, text, designs = [], label = null) {
  const id = ["office", what, ...designs].join("-");
  const isBusy = desk.office.running ? "true" : null;
  return button(id, text, () => trying(() => begin(what, designs)), { "aria-label": label, "aria-disabled": isBusy });
}

async function begin(what, designs) {
  if (desk.office.running) return;
  if (what === "push" && !await question(`Push ${designs[0]}? HEAD then has what ${designs[0]} has.`, "Push")) return;
  if (desk.office.running) return;
  showOffice({ ...desk.office, running: what });
  try {
    showOffice(await carry({ do: what, designs }));
  } catch (fault) {
    showOffice({ ...desk.office, running: null });
    throw fault;
  }
}

// A design that has what did not fit. Its conflicts are settled on the page of conflicts.
function toSettle(name) {
  const found = desk.state.tree.find((it) => it.name === name);
  const go = async () => {
    await open(name);
    await showOther("conflicts");
  };
  return found && button(`office-settle-${name}`, `${found.conflicts ? "Settle" : "Show"} ${name}`, () => trying(go));
}

const TOLD = ["new here", "only at HEAD", "dropped at HEAD"]; // The numbers tell all other states.

function row(it) {
  const notes = [
    TOLD.includes(it.state) && it.state,
    it.conflicts && `${it.conflicts} in conflict`,
    it.merged_here && "merged here",
    it.push_is_under_way && "a push of it was interrupted",
  ].filter(Boolean).join(", ");
  const name = make("th", { scope: "row" }, it.design, notes && make("span", { class: "about" }, notes));
  const act = it.state === "only at HEAD" ? press("pull", "Pull", [it.design], `Pull ${it.design}`)
    : press("push", "Push", [it.design], `Push ${it.design}`);
  const count = (number) => make("td", {}, `${number ?? "–"}`);
  return make("tr", {}, name, count(it.ahead), count(it.behind), make("td", {}, act));
}
