// Drawing: a new course point by point, moved and removed bends of one, a line that is split. With the mouse, or by
// keyboard: then the cross in the middle of the map is the pen, arrows move the map below it, Enter sets a point.
import { $, button, fill, make, options, say, trying } from "./dom.js";
import { map } from "./chart.js";
import { desk } from "./shared.js";
import { learn, snapped } from "./snapping.js";
import { drawn, moved } from "./feature.js";
import { redo, split, undo } from "./steps.js";

const PEN = { color: "#CC79A7", weight: 4, opacity: 1, interactive: false };
const SNAPS = ["a chamber or point", "an end", "a bend", "a line"];
const HELP = "Click, or Enter at the cross, sets a point; Backspace takes one back; "
  + "a double click or F ends; Escape cancels.";
const NUDGE = { ArrowLeft: [-1, 0], ArrowRight: [1, 0], ArrowUp: [0, -1], ArrowDown: [0, 1] };
let mode = null; // what the tool does: draw, split or move
let layer, points, course, reshaped, sketch, handles;

const kindOf = ({ geometry }) => (
  /Point/.test(geometry) ? "Point" : /Polygon|Surface/.test(geometry) ? "Polygon" : "LineString");

export const tool = {
  isOn: () => mode !== null,
  learn,
  click: (latlng) => (mode === "split" ? splitAt(latlng) : mode === "draw" && add(latlng)),
  move: (latlng) => mode && showSnap(latlng),
  finish: () => mode === "draw" && points.length > 1 && trying(finish),
  stop,
};

// --- the tools' buttons ---------------------------------------------------------------------------------

export function showTools() {
  const isBusy = mode !== null;
  const shape = desk.view === "feature" && desk.feature?.now?.course;
  const isWhole = shape && desk.feature.now.is_whole && desk.feature.number;
  const layers = desk.design.layers.filter((it) => it.is_on_map);
  const select = make("select", { id: "draw-layer", "aria-label": "Layer to draw in", disabled: isBusy });
  options(select, layers.map((it) => [it.table, it.name]), $("draw-layer")?.value);
  const steps = (what) => desk.state?.steps[what][desk.at];
  fill($("tools"), ...(isBusy ? busyTools() : [
    layers.length && button("draw", "Draw", () => draw(Number(select.value)),
      { title: "Draw a new feature in this layer" }),
    layers.length && select,
    button("reshape", "Move bends", () => reshape(),
      { disabled: !isWhole, title: "Move the bends of the feature that is shown" }),
    button("split", "Split", () => begin("split"),
      { disabled: !isWhole || shape.type !== "LineString", title: "Split the line that is shown" }),
    button("undo-step", "Undo", () => trying(undo),
      { disabled: !steps("undo"), title: steps("undo") ? `Undo: ${steps("undo")}` : "Nothing to undo" }),
    button("redo-step", "Redo", () => trying(redo),
      { disabled: !steps("redo"), title: steps("redo") ? `Do again: ${steps("redo")}` : "Nothing to do again" }),
  ]));
}

function busyTools() {
  const end = mode === "move" ? button("keep-course", "Keep the course", () => trying(keep))
    : mode === "draw" && button("end-drawing", "End here", () => trying(finish), { disabled: points.length < least() });
  const what = { draw: `Drawing in ${layer?.name}.`, split: "Split: where?",
    move: "Drag the bends, or Tab to one and press arrows; Delete removes it." };
  return [make("span", {}, what[mode]), end,
    button("stop-drawing", "Cancel", () => { stop(); say("Nothing is drawn."); })];
}

function begin(what) {
  mode = what;
  points = [];
  sketch ||= L.layerGroup();
  sketch.addTo(map).clearLayers();
  $("cross").hidden = what === "move";
  $("map").classList.add("drawing");
  if (what !== "move") say(HELP);
  showTools();
  if (what !== "move") $("map").focus();
}

function stop() {
  mode = null;
  sketch?.clearLayers();
  sketch?.remove();
  handles?.remove();
  $("cross").hidden = true;
  $("map").classList.remove("drawing");
  if (desk.design) showTools();
}

// --- a new course -----------------------------------------------------------------------------------------

function draw(table) {
  layer = desk.design.layers.find((it) => it.table === table);
  begin("draw");
}

const least = () => ({ Point: 1, LineString: 2, Polygon: 3 })[kindOf(layer)];

function add(latlng) {
  const { lng, lat } = snapped(latlng) || latlng;
  const last = points[points.length - 1];
  if (last && last[0] === lng && last[1] === lat) return null;
  points.push([lng, lat]);
  if (kindOf(layer) === "Point") return trying(finish);
  showSketch();
  return showTools();
}

function showSketch(at) {
  sketch.clearLayers();
  const latlngs = [...points.map(([lng, lat]) => [lat, lng]), ...(at ? [at] : [])];
  if (latlngs.length > 1) sketch.addLayer(L.polyline(latlngs, PEN));
  for (const it of latlngs) sketch.addLayer(L.circleMarker(it, { ...PEN, radius: 4 }));
}

function showSnap(latlng) {
  if (mode === "move") return;
  const found = snapped(latlng);
  showSketch(mode === "draw" && points.length ? found || latlng : null);
  if (found) sketch.addLayer(L.circleMarker(found, { ...PEN, radius: 9, fill: false, className: "snap" }));
  $("snapped").textContent = found ? `snaps to ${SNAPS[found.rank]}` : "";
}

async function finish() {
  if (points.length < least()) return say(`It needs ${least()} points.`, true);
  const kind = kindOf(layer);
  const coordinates = kind === "Point" ? points[0] : kind === "Polygon" ? [[...points, points[0]]] : points;
  stop();
  return drawn(layer, { type: kind, coordinates });
}

function splitAt({ lng, lat }) {
  stop();
  return trying(() => split(desk.feature, [lng, lat]));
}

// --- the bends of a course ------------------------------------------------------------------------------------

// The lists of points that a course has, whatever its type.
const listsOf = ({ type, coordinates }) => ({
  Point: () => [[coordinates]], MultiPoint: () => [coordinates], LineString: () => [coordinates],
  MultiLineString: () => coordinates, Polygon: () => coordinates, MultiPolygon: () => coordinates.flat(),
})[type]();

// Moves the bends of the feature as it is shown now, whatever others make of it meanwhile.
function reshape(feature = desk.feature, shape = structuredClone(feature.now.course)) {
  [reshaped, course] = [feature, shape];
  begin("move");
  showHandles();
  handles.getLayers()[0]?.getElement()?.focus();
}

function showHandles(focused) {
  handles?.remove();
  handles = L.layerGroup().addTo(map);
  const isRing = /Polygon/.test(course.type);
  listsOf(course).forEach((list, at) => {
    list.slice(0, isRing ? -1 : undefined).forEach((place, n) => handle(list, n, `${at}-${n}`, isRing));
    if (/Point/.test(course.type)) return;
    for (let n = 1; n < list.length; n += 1) middle(list, n);
  });
  showSketchOf(course);
  if (focused) $(`bend-${focused}`)?.focus();
}

function showSketchOf(shape) {
  sketch.clearLayers();
  sketch.addLayer(L.geoJSON(shape,
    { style: PEN, interactive: false, pointToLayer: (_, at) => L.circleMarker(at, { ...PEN, radius: 6 }) }));
}

const KEY = () => `${reshaped.table}:${reshaped.number}`;

function handle(list, n, id, isRing) {
  const [lng, lat] = list[n];
  const icon = L.divIcon({ className: "bend", iconSize: [14, 14] });
  const marker = L.marker([lat, lng], { icon, draggable: true, autoPan: true }).addTo(handles);
  const set = (latlng, isToSnap) => {
    const to = (isToSnap && snapped(latlng, KEY())) || latlng;
    list[n] = [to.lng, to.lat];
    if (isRing && n === 0) list[list.length - 1] = list[0];
    marker.setLatLng(to);
    showSketchOf(course);
  };
  marker.on("drag", () => set(marker.getLatLng(), true)).on("dragend", () => showHandles());
  const node = marker.getElement();
  Object.assign(node, { id: `bend-${id}`, tabIndex: 0 });
  node.setAttribute("role", "button");
  node.setAttribute("aria-label", `Bend ${n + 1}: arrows move it, Delete removes it`);
  node.onkeydown = (event) => {
    const by = NUDGE[event.key];
    if (by) {
      const step = event.shiftKey ? 1 : 10;
      set(map.layerPointToLatLng(map.latLngToLayerPoint(marker.getLatLng()).add([by[0] * step, by[1] * step])), false);
    } else if (event.key === "Delete" && list.length > (isRing ? 4 : 2)) {
      list.splice(n, 1);
      if (isRing && n === 0) list[list.length - 1] = list[0];
      showHandles(`${id.split("-")[0]}-${Math.max(n - 1, 0)}`);
    } else if (event.key === "Enter") trying(keep);
    else return;
    event.preventDefault();
    event.stopPropagation();
  };
}

// A handle between two bends, which becomes a bend once it is dragged.
function middle(list, n) {
  const [a, b] = [list[n - 1], list[n]];
  const icon = L.divIcon({ className: "bend middle", iconSize: [10, 10] });
  const marker = L.marker([(a[1] + b[1]) / 2, (a[0] + b[0]) / 2], { icon, draggable: true, keyboard: false })
    .addTo(handles);
  marker.on("dragend", () => {
    const { lng, lat } = snapped(marker.getLatLng(), KEY()) || marker.getLatLng();
    list.splice(n, 0, [lng, lat]);
    showHandles();
  });
}

// What could not be sent is not lost.
async function keep() {
  const [feature, shape] = [reshaped, course];
  stop();
  if (!await moved(feature, shape) && !mode) reshape(feature, shape);
}

// --- the keyboard ---------------------------------------------------------------------------------------------

export function listen() {
  $("map").addEventListener("keydown", (event) => {
    if (mode !== "draw" && mode !== "split") return;
    const by = NUDGE[event.key];
    if (by && event.shiftKey) map.panBy([by[0] * 4, by[1] * 4], { animate: false });
    else if (event.key === "Enter") tool.click(map.getCenter());
    else if (event.key === "Backspace" && points.pop()) showSketch();
    else if (event.key.toLowerCase() === "f") trying(finish);
    else return;
    showTools();
    event.preventDefault();
    event.stopPropagation();
  }, true);
  document.addEventListener("keydown", (event) => {
    if (event.key === "Escape" && mode) {
      stop();
      say("Nothing is drawn.");
    }
    const isText = /^(INPUT|SELECT|TEXTAREA)$/.test(document.activeElement?.tagName) || $("question").open;
    if (isText || mode || !(event.ctrlKey || event.metaKey)) return;
    const key = event.key.toLowerCase();
    if (key !== "z" && key !== "y") return;
    event.preventDefault();
    trying(key === "y" || event.shiftKey ? redo : undo);
  });
  map.on("move", () => mode === "draw" && document.activeElement === $("map") && showSnap(map.getCenter()));
}
