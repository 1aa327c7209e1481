// One's own edits, step by step: undone, and done again.
import { carryOut } from "./desk.js";
import { desk } from "./shared.js";
import { show, showAgain } from "./feature.js";

export async function undo() {
  const text = desk.state.steps.undo[desk.at];
  if (await carryOut({ do: "undo" }, `Undone: ${text}.`)) await showAgain();
}

export async function redo() {
  const text = desk.state.steps.redo[desk.at];
  if (await carryOut({ do: "redo" }, `Done again: ${text}.`)) await showAgain();
}

export async function split(feature, point) {
  const { table, number, now, layer } = feature;
  const before = { attributes: now.attributes, course: now.course };
  if (await carryOut({ do: "split", table, number, before, point }, `Split ${layer} ${number}.`)) {
    await show(feature, false);
  }
}
