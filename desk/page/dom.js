// Parts of the page: making nodes, saying what happened, asking.

export const $ = (id) => document.getElementById(id);

export function make(tag, attributes = {}, ...children) {
  const node = document.createElement(tag);
  for (const [name, value] of Object.entries(attributes)) {
    if (name.startsWith("on")) node.addEventListener(name.slice(2), value);
    else if (value === true) node.setAttribute(name, "");
    else if (value !== false && value != null) node.setAttribute(name, value);
  }
  node.append(...children.filter((it) => it != null && it !== false));
  return node;
}

// Puts other children into a node. What had the focus has it again, by its id.
export function fill(node, ...children) {
  const focused = document.activeElement?.id;
  node.replaceChildren(...children.filter((it) => it != null && it !== false));
  if (focused && document.activeElement?.id !== focused) $(focused)?.focus();
}

export function say(text, isFault = false) {
  $("said").textContent = text;
  $("said").classList.toggle("fault", isFault);
}

// Runs what may fail, and says so.
export async function trying(work) {
  try {
    return await work();
  } catch (fault) {
    const text = fault instanceof TypeError ? `The desk does not answer. (${fault.message})` : fault.message;
    if (fault.name !== "AbortError") say(text, true);
  }
}

export function question(text, yes, field) {
  $("question-text").textContent = text;
  $("question-yes").textContent = yes;
  $("question-field").hidden = !field;
  Object.assign($("question-input"),
    { value: "", required: !!field, pattern: field ? "[A-Za-z0-9_.\\-]{1,32}" : ".*" });
  $("question-input").title = field ? "1 to 32 letters, digits, _, - and ." : "";
  $("question-label").textContent = field || "";
  $("question").returnValue = "no";
  $("question").showModal();
  return new Promise((done) => {
    $("question").onclose = () => done($("question").returnValue === "yes" ? $("question-input").value || true : null);
  });
}

// Waits until no question is open: what was seen with it is what counts.
export const answered = () => new Promise((done) => {
  if ($("question").open) $("question").addEventListener("close", done, { once: true });
  else done();
});

export const button = (id, text, onclick, more = {}) =>
  make("button", { id, type: onclick ? "button" : "submit", onclick, ...more }, text);

export function options(select, pairs, chosen) {
  fill(select, ...pairs.map(([value, text]) => make("option", { value, selected: `${value}` === `${chosen}` }, text)));
}

// A field's value of its own: a field may be named as what every object has.
export const own = (side, name) => (side && Object.hasOwn(side.attributes, name) ? side.attributes[name] : undefined);

const SVG = "http://www.w3.org/2000/svg";

export function svg(tag, attributes, ...children) {
  const node = document.createElementNS(SVG, tag);
  for (const [name, value] of Object.entries(attributes)) node.setAttribute(name, value);
  node.append(...children);
  return node;
}

// A line as the map draws it, for the legend.
export function sample(style) {
  const given = { x1: 2, x2: 42, y1: 6, y2: 6, stroke: style.color, "stroke-width": style.weight,
    "stroke-linecap": "round" };
  const line = svg("line", { ...given, "stroke-dasharray": style.dashArray || "" });
  return svg("svg", { "aria-hidden": "true", viewBox: "0 0 44 12" }, line);
}
