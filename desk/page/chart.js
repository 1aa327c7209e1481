// The map: what its window shows, what is marked on it, its scale, and the place of the pointer.
import { $, make, fill, say, trying } from "./dom.js";
import { showBackground } from "./background.js";
import { ask } from "./server.js";
import { desk } from "./shared.js";
import { layersOff, pointOf, showLayers, STATES, styleOf } from "./styles.js";
import { tool } from "./drawing.js";
import { show, showHere } from "./feature.js";

const PIXEL = 0.0254 / 96; // metres of the screen
const NEAREST = 200; // the map is never shown nearer than 1 to this
const MOST_LABELS = 400;
const MANY = 1000; // features from which on those that are as in the base are drawn on a canvas, which is quicker

export let map;
let features, density, chosen, request, canvas;

export function makeMap({ bounds, aspect, metres }) {
  const crs = L.extend({}, L.CRS.Simple, { transformation: new L.Transformation(aspect, 0, -1, 0) });
  const renderer = L.svg({ padding: 0.3 });
  const maxZoom = Math.log2(metres / (NEAREST * PIXEL));
  const moves = { zoomSnap: 0.25, attributionControl: false, doubleClickZoom: false };
  map = L.map("map", { crs, minZoom: -20, maxZoom, renderer, ...moves });
  map.createPane("density").style.zIndex = 380;
  map.createPane("many").style.zIndex = 390;
  canvas = L.canvas({ pane: "many", padding: 0.3 });
  density = L.layerGroup().addTo(map);
  chosen = L.featureGroup().addTo(map);
  whole(bounds);
  map.on("moveend", () => trying(showWindow));
  map.on("moveend", () => trying(showBackground));
  map.on("moveend zoomend", showScale);
  map.on("mousemove", ({ latlng }) => showPlace(latlng));
  map.on("click", (event) => trying(() => (tool.isOn() ? tool.click(event.latlng) : clicked(event))));
  map.on("dblclick", () => tool.finish());
  map.on("mousemove", ({ latlng }) => tool.move(latlng));
  new ResizeObserver(() => map.invalidateSize()).observe($("map"));
  showScale();
}

export const corners = ([west, south, east, north]) => [[south, west], [north, east]];
export const whole = (bounds) => map.fitBounds(corners(bounds || [0, 0, 1, 1]), { animate: false, padding: [20, 20] });
export const zoomTo = (bounds) => bounds && map.fitBounds(L.latLngBounds(corners(bounds)).pad(0.4), { animate: false });

export function showMap() {
  if (!map) {
    makeMap(desk.design);
    trying(showBackground);
  }
  return trying(showWindow);
}

// Asks for what the window has, and draws it.
export async function showWindow() {
  const it = map.getBounds().pad(0.2);
  request?.abort();
  request = new AbortController();
  const box = [it.getWest(), it.getSouth(), it.getEast(), it.getNorth()].join(",");
  const told = await ask("window", { at: desk.at, box, off: layersOff().join(",") }, { signal: request.signal });
  const order = Object.keys(STATES);
  told.features.sort((a, b) => order.indexOf(b.properties.status) - order.indexOf(a.properties.status));
  const hasLabels = told.features.length <= MOST_LABELS;
  const isMany = told.features.length > MANY;
  const onCanvas = ({ status }) => (isMany && status === "same" ? { renderer: canvas, pane: "many" } : {});
  const drawn = L.geoJSON(told, {
    style: ({ properties }) => ({ ...styleOf(properties), ...onCanvas(properties) }),
    pointToLayer: (feature, at) => pointOf(feature.properties, at),
    onEachFeature: ({ properties: { label }, geometry }, layer) => {
      const place = geometry?.type === "Point" ? { direction: "right", offset: [6, 0] } : { direction: "center" };
      if (hasLabels && label) layer.bindTooltip(label, { permanent: true, className: "label", ...place });
    },
  });
  features?.remove();
  features = drawn.addTo(map);
  chosen.eachLayer((layer) => layer.bringToFront?.());
  tool.learn(told.features);
  showDensity(told.density);
  showLayers(told.layers);
  tell(told);
}

function tell({ features: { length }, found, is_about: isAbout }) {
  const hidden = (desk.design?.layers || []).filter((layer) => !layer.is_on_map).map((layer) => layer.name);
  const capped = found > length
    ? `${length} of ${isAbout ? "about " : ""}${found} features are drawn: zoom in for the others. ` : "";
  $("note").textContent = capped + (hidden.length
    ? `Not on the map, for another coordinate system: ${hidden.join(", ")}.` : "");
}

// Where features lie that are too many to be drawn: darker where there are more.
function showDensity(cells) {
  density.clearLayers();
  for (const its of Object.values(cells)) {
    const most = Math.max(...its.map((it) => it[4]), 1);
    for (const [west, south, east, north, count] of its) {
      const fillOpacity = 0.08 + 0.32 * Math.sqrt(count / most);
      const how = { stroke: false, fillColor: "#7A828A", fillOpacity, interactive: false, className: "density" };
      density.addLayer(L.rectangle([[south, west], [north, east]], { ...how, pane: "density" }));
    }
  }
}

// --- scale and place ----------------------------------------------------------------------------

export const scale = () => desk.design.metres / (2 ** map.getZoom() * PIXEL);
export const zoomOf = (number) => Math.log2(desk.design.metres / (number * PIXEL));

export function showScale() {
  if (!desk.design) return; // Another one is read just now.
  const number = scale();
  const metres = [1, 2, 5].flatMap((it) => [...Array(9).keys()].map((n) => it * 10 ** (n - 1))).sort((a, b) => a - b);
  const length = metres.filter((it) => it / (number * PIXEL) <= 140).pop() || metres[0];
  const text = length < 1000 ? `${length} m` : `${length / 1000} km`;
  const bar = make("span", { class: "bar" }, text);
  bar.style.width = `${length / (number * PIXEL)}px`;
  fill($("scale"), bar, make("span", {}, `1 : ${Number(number.toPrecision(3)).toLocaleString("en")}`));
}

function showPlace({ lng, lat }) {
  const digits = Math.min(Math.max(Math.ceil(map.getZoom()), 0), 6);
  $("place").textContent = `${lng.toFixed(digits)}, ${lat.toFixed(digits)}`;
}

// --- what is clicked and marked -----------------------------------------------------------------------

// A finger or a mouse need not hit a thin line. Where several features lie, a list of them is shown.
function clicked({ layerPoint: at, sourceTarget }) {
  const found = [];
  features?.eachLayer((layer) => {
    const near = layer.closestLayerPoint?.(at);
    const place = layer.getLatLng && map.latLngToLayerPoint(layer.getLatLng());
    const isHit = layer === sourceTarget ? 0 : Infinity;
    const distance = near ? near.distance : place ? Math.max(place.distanceTo(at) - 6, 0) : isHit;
    if (distance < 12) found.push({ distance, properties: layer.feature.properties });
  });
  found.sort((a, b) => a.distance - b.distance);
  const close = found.filter((it) => it.distance <= found[0].distance + 2).map((it) => it.properties);
  if (close.length === 1) return show(close[0], false);
  return close.length ? showHere(close) : null;
}

const point = (style) => (_, at) => L.circleMarker(at, { radius: style.weight + 2, fillOpacity: 0.6 });

// Draws courses above the map, each in its style.
export function mark(courses, bounds) {
  chosen.clearLayers();
  for (const [course, style] of courses) {
    if (course) chosen.addLayer(L.geoJSON(course, { style, interactive: false, pointToLayer: point(style) }));
  }
  zoomTo(bounds);
}

export const unmark = () => chosen?.clearLayers();

export function zoomToMarks() {
  if (chosen.getLayers().length) map.fitBounds(chosen.getBounds().pad(0.4), { animate: false });
  else say("None of it can be drawn.", true);
}
