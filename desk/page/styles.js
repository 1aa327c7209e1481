// How features are drawn: by whether they are changed, or else by the style of their layer. The list of layers, and the
// form of a style.
import { $, button, fill, make, options, own, sample, svg, trying } from "./dom.js";
import { backgroundItem } from "./background.js";
import { carryOut, showOther } from "./desk.js";
import { ask } from "./server.js";
import { desk } from "./shared.js";
import { showWindow } from "./chart.js";

// Colours of Okabe and Ito, and a width and a pattern for those who see none.
export const STATES = {
  added: { color: "#009E73", weight: 5, opacity: 1 },
  changed: { color: "#0072B2", weight: 4, opacity: 1, dashArray: "12 7" },
  removed: { color: "#000000", weight: 4, opacity: 1, dashArray: "1 8" },
  conflict: { color: "#D55E00", weight: 7, opacity: 1, dashArray: "18 8 3 8" },
  same: { color: "#7A828A", weight: 1.5, opacity: 1 },
};
export const SIDES = {
  base: { color: "#000000", weight: 2, opacity: 1, dashArray: "2 5" },
  parent: { color: "#56B4E9", weight: 9, opacity: 1 },
  mine: { color: "#D55E00", weight: 4, opacity: 1 },
};
const DASHES = { solid: null, dashed: "8 5", dotted: "1 5" };
const SYMBOLS = {
  circle: (size) => svg("circle", { cx: 0, cy: 0, r: size }),
  square: (size) => svg("rect", { x: -size, y: -size, width: 2 * size, height: 2 * size }),
  triangle: (size) => svg("path", { d: `M0 ${-size} L${size} ${size} L${-size} ${size} Z` }),
  diamond: (size) => svg("path", { d: `M0 ${-size} L${size} 0 L0 ${size} L${-size} 0 Z` }),
};
const PALETTE = ["#0072B2", "#E69F00", "#009E73", "#CC79A7", "#56B4E9", "#D55E00", "#F0E442", "#000000"];

const off = new Set(JSON.parse(sessionStorage.getItem("off") || "[]"));
export const layersOff = () => [...off];

const layerOf = (table) => desk.design?.layers.find((it) => it.table === table);

// What a layer's style says of a feature, by the value of a field where it does.
function lookOf({ table, by }) {
  const style = layerOf(table)?.style;
  if (!style) return null;
  const its = by != null && Object.hasOwn(style.values, by) ? style.values[by] : {};
  return { ...style, ...its };
}

export function styleOf(properties) {
  const look = properties.status === "same" && lookOf(properties);
  const className = `is-${properties.status}`;
  if (!look) return { ...STATES[properties.status], className };
  return { color: look.colour, weight: look.width, opacity: 1, dashArray: DASHES[look.pattern], className };
}

// A place, drawn by the symbol of its layer.
export function pointOf(properties, at) {
  const look = lookOf(properties) || { symbol: "circle", width: 2 };
  const size = Math.max(look.width * 1.5, 2) + (properties.status === "same" ? 1.5 : 4);
  if (look.symbol === "circle") return L.circleMarker(at, { radius: size, fillOpacity: 0.6 });
  const { color } = styleOf(properties);
  const shape = SYMBOLS[look.symbol](size);
  for (const [name, value] of Object.entries({ fill: color, stroke: "#fff", "stroke-width": 1 })) {
    shape.setAttribute(name, value);
  }
  const side = 2 * size + 2;
  const box = svg("svg", { viewBox: `${-size - 1} ${-size - 1} ${side} ${side}`, width: side, height: side }, shape);
  const icon = L.divIcon({ html: box, className: `symbol is-${properties.status}`, iconSize: [side, side] });
  return L.marker(at, { icon, keyboard: false });
}

// A layer as the map draws it, for lists and the legend: its symbol if it has points, else a line.
export function sampleOf({ geometry, style }, look = {}) {
  const its = { ...style, ...look };
  if (!/Point/.test(geometry)) return sample({ color: its.colour, weight: its.width, dashArray: DASHES[its.pattern] });
  const shape = SYMBOLS[its.symbol](5);
  for (const [name, value] of Object.entries({ fill: its.colour, transform: "translate(22 6)" })) {
    shape.setAttribute(name, value);
  }
  return svg("svg", { "aria-hidden": "true", viewBox: "0 0 44 12" }, shape);
}

// --- the list of layers ---------------------------------------------------------------------------

// Shows the layers with what of each is drawn.
export function showLayers(drawn = []) {
  const counts = new Map(drawn.map((it) => [it.table, it]));
  fill($("layers"), ...desk.design.layers.map((layer) => {
    const { table, name } = layer;
    const toggle = () => {
      if (!off.delete(table)) off.add(table);
      sessionStorage.setItem("off", JSON.stringify([...off]));
      trying(showWindow);
    };
    const box = make("input", { type: "checkbox", id: `layer-${table}`, checked: !off.has(table), onchange: toggle });
    const change = button(`style-${table}`, "Style", () => trying(() => showStyle(layer)),
      { "aria-label": `Style of ${name}` });
    const count = counts.get(table);
    return make("li", {}, make("label", {}, box, " ", sampleOf(layer), name), change,
      make("small", {}, about(layer, count)));
  }), backgroundItem());
}

function about(layer, count) {
  if (!layer.is_on_map) return "not on the map, for another coordinate system";
  if (off.has(layer.table)) return "off";
  if (!count) return "";
  const { found, drawn, is_about: isAbout } = count;
  if (!found) return "none here";
  return found > drawn ? `${drawn} of ${isAbout ? "about " : ""}${found} here are drawn, the others as density`
    : `all ${found} here are drawn`;
}

// --- the form of a style ----------------------------------------------------------------------------

export async function showStyle(layer) {
  desk.styled = layer;
  await showOther("style");
}

export async function fillStyle() {
  const layer = desk.design.layers.find((it) => it.table === desk.styled.table);
  if (!layer) return showOther("changes");
  const known = await ask("values", { at: desk.at, table: layer.table });
  const style = structuredClone(layer.style);
  const draw = () => fill($("view"), styleForm(layer, style, known, draw));
  draw();
}

function styleForm(layer, style, known, draw) {
  const fields = [["", "no field"], ...layer.fields.map(({ name }) => [name, name])];
  const choose = (name, text, values) => {
    const select = make("select",
      { id: `style-${name}`, onchange: (event) => { style[name] = event.target.value || null; draw(); } });
    options(select, values, style[name] ?? "");
    return make("p", {}, make("label", {}, `${text} `, select));
  };
  const save = async (event) => {
    event.preventDefault();
    await carryOut({ do: "style", table: layer.table, style }, `Kept the style of ${layer.name} in ${desk.at}.`);
  };
  const byField = style.by ? valuesForm(style, own({ attributes: known }, style.by) || [], draw) : null;
  return make("form", { onsubmit: save }, make("h3", {}, `Style of ${layer.name}`),
    lookForm("style", style, `${layer.name}, `),
    choose("label", "Labels show", fields), choose("by", "Drawn by the value of", fields), byField,
    make("p", { class: "buttons" }, button("keep-style", "Keep it in this design"),
      button("no-style", "Don't keep it", () => showOther("changes"))));
}

function valuesForm(style, values, draw) {
  const add = () => {
    for (const [at, value] of values.slice(0, PALETTE.length).entries()) {
      if (!Object.hasOwn(style.values, value)) {
        style.values[value] = { colour: PALETTE[at], width: Math.max(style.width, 2.5), pattern: "solid" };
      }
    }
    draw();
  };
  const lines = Object.entries(style.values).map(([value, look], at) =>
    make("fieldset", { class: "look" }, make("legend", {}, value), lookForm(`value-${at}`, look, `${value}, `)));
  return make("div", {}, button("style-values", `A style for each of its values`, add), ...lines);
}

// The colour, width, pattern and symbol of something.
function lookForm(id, look, of) {
  const colour = make("input", { type: "color", id: `${id}-colour`, value: look.colour || "#7A828A",
    "aria-label": `${of}colour`,
    oninput: (event) => { look.colour = event.target.value; } });
  const width = make("input", { type: "number", id: `${id}-width`, min: 0.5, max: 12, step: 0.5,
    value: look.width || 1.5,
    "aria-label": `${of}width`, oninput: (event) => { look.width = Number(event.target.value); } });
  const select = (name, values) => {
    const node = make("select",
      { id: `${id}-${name}`, "aria-label": `${of}${name}`, onchange: (event) => { look[name] = event.target.value; } });
    options(node, values.map((it) => [it, it]), look[name] || values[0]);
    return node;
  };
  return make("p", { class: "look" }, colour, width, select("pattern", Object.keys(DASHES)),
    select("symbol", Object.keys(SYMBOLS)));
}
