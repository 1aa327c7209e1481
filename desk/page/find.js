// Finding a feature: by its number, or by what any of its fields says, with a list of what was found.
import { $, fill, make, options, trying } from "./dom.js";
import { showOther } from "./desk.js";
import { ask } from "./server.js";
import { desk } from "./shared.js";
import { show } from "./feature.js";
import { whole } from "./chart.js";

// The layers and fields of the design that is shown.
export function showFields() {
  const { layers } = desk.design;
  options($("find-layer"), layers.map((it) => [it.table, it.name]), $("find-layer").value);
  const fields = [...new Set(layers.flatMap((it) => it.fields.map((field) => field.name)))];
  options($("find-field"), [["", "any field"], ...fields.map((it) => [it, it])], $("find-field").value);
}

async function find() {
  const [text, field] = [$("find-text").value.trim(), $("find-field").value];
  desk.found = await ask("find", { at: desk.at, text, ...(field ? { field } : {}) });
  desk.found.text = text;
  const { found } = desk.found;
  if (found.length === 1) return show(found[0], true);
  await showOther("found");
  return $("found-0")?.focus();
}

export function fillFound() {
  const { found, is_more: isMore, text } = desk.found;
  const rows = found.map((it, at) => make("li", {},
    make("button", { id: `found-${at}`, onclick: () => trying(() => show(it, true)) }, `${it.layer} ${it.number}`,
      make("small", {}, Object.entries(it.texts).map(([name, its]) => `${name} ${its}`).join(", ")))));
  const count = isMore ? `More than ${found.length} features have “${text}”. These are some of them.`
    : `${found.length} features have “${text}”.`;
  fill($("view"), make("p", { id: "found" }, count), make("ul", { class: "rows" }, ...rows));
}

export function listen() {
  $("find").onsubmit = (event) => {
    event.preventDefault();
    trying(() => show({ table: $("find-layer").value, number: $("find-number").value }, true));
  };
  $("search").onsubmit = (event) => {
    event.preventDefault();
    trying(find);
  };
  $("whole").onclick = () => whole(desk.design.bounds);
}
