// Where a drawn point goes: to a chamber, an end, a bend or a line that is near.
import { map } from "./chart.js";

const NEAR = 14; // pixels
let places = []; // [lng, lat, rank, number of the feature]: lower ranks go first
let lines = []; // [points, number]

// Learns what the window shows.
export function learn(shown) {
  places = [];
  lines = [];
  for (const { geometry, properties } of shown) {
    if (geometry && properties.status !== "removed") note(geometry, `${properties.table}:${properties.number}`);
  }
}

function note({ type, coordinates, geometries }, key) {
  if (type === "GeometryCollection") geometries.forEach((it) => note(it, key));
  else if (type === "Point") places.push([...coordinates, 0, key]);
  else if (type === "LineString") noteLine(coordinates, key);
  else if (type === "MultiPoint") coordinates.forEach((it) => places.push([...it, 0, key]));
  else if (type === "MultiPolygon") coordinates.flat().forEach((it) => noteLine(it, key));
  else coordinates.forEach((it) => noteLine(it, key));
}

function noteLine(points, key) {
  const last = points.length - 1;
  points.forEach((it, at) => places.push([...it, at === 0 || at === last ? 1 : 2, key]));
  lines.push([points, key]);
}

// The place where a point goes, or null if nothing is near. A feature does not snap to itself.
export function snapped(latlng, own) {
  const at = map.latLngToLayerPoint(latlng);
  const box = L.latLngBounds(map.layerPointToLatLng(at.subtract([NEAR, NEAR])),
    map.layerPointToLatLng(at.add([NEAR, NEAR])));
  const found = [null, null, null];
  for (const [lng, lat, rank, key] of places) {
    if (key === own || lng < box.getWest() || lng > box.getEast() || lat < box.getSouth()
      || lat > box.getNorth()) continue;
    const distance = at.distanceTo(map.latLngToLayerPoint([lat, lng]));
    if (distance <= NEAR && (!found[rank] || distance < found[rank].distance)) {
      found[rank] = { distance, lng, lat, rank };
    }
  }
  return found[0] || found[1] || found[2] || onLine(at, box, own);
}

function onLine(at, box, own) {
  let found = null;
  for (const [points, key] of lines) {
    if (key === own) continue;
    for (let i = 1; i < points.length; i += 1) {
      const [a, b] = [points[i - 1], points[i]];
      if (Math.max(a[0], b[0]) < box.getWest() || Math.min(a[0], b[0]) > box.getEast()) continue;
      if (Math.max(a[1], b[1]) < box.getSouth() || Math.min(a[1], b[1]) > box.getNorth()) continue;
      const [p, q] = [a, b].map(([lng, lat]) => map.latLngToLayerPoint([lat, lng]));
      const distance = L.LineUtil.pointToSegmentDistance(at, p, q);
      if (distance > NEAR / 2 || (found && distance >= found.distance)) continue;
      const part = p.distanceTo(q) ? L.LineUtil.closestPointOnSegment(at, p, q).distanceTo(p) / p.distanceTo(q) : 0;
      found = { distance, lng: a[0] + part * (b[0] - a[0]), lat: a[1] + part * (b[1] - a[1]), rank: 3 };
    }
  }
  return found;
}
