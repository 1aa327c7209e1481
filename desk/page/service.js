// How the service is: its figures by the names that `altserve status` has, now and over the last minutes.
import { $, fill, make, say, svg, trying } from "./dom.js";
import { ask, begin } from "./server.js";

const POLL = 2000;
const SECONDS = 300; // that are drawn
const WIDTH = 160;
const HEIGHT = 28;
// What somebody has to look at, and when. A figure that is not known yet is no reason.
const TO_LOOK_AT = [
  [(its) => its.spare_blocks < its.blocks / 10, "Less than a tenth of the blocks is spare. Let the store grow."],
  [(its) => its.seconds_left < 86400, "At this rate the spare blocks last less than a day."],
  [(its) => its.disk_seconds_left < 86400, "At this rate the disk is full in less than a day."],
  [(its) => its.commit_seconds_slowest > 1, "A commit took more than a second."],
];

const looks = []; // What came of the service that runs now, the last look at the end.
let standsStill = false;
let wasAway = false;

// --- numbers as people read them ------------------------------------------------------------------

const plain = (value) =>
  value.toLocaleString("en", value < 1000 ? { maximumSignificantDigits: 3 } : { maximumFractionDigits: 0 });

// A value in the largest unit of which there is one at least.
function inUnits(value, units) {
  const [size, unit] = units.find(([it]) => value >= it) || units.at(-1);
  return `${plain(value / size)} ${unit}`;
}

const BYTES = [[2 ** 30, "GiB"], [2 ** 20, "MiB"], [2 ** 10, "KiB"], [1, "bytes"]];
const TIMES = [[86400, "d"], [3600, "h"], [60, "min"], [1, "s"], [0.001, "ms"]];

// The units follow from the name, as the names of Prometheus have them.
const isTime = (name) => name.includes("seconds");

function written(name, value) {
  if (name.endsWith("_bytes")) return inUnits(value, BYTES);
  return isTime(name) ? inUnits(value, TIMES) : plain(value);
}

// What a counter rises by in a second. If it counts seconds, that is a share.
const rate = (name, value) => (isTime(name) ? `${plain(100 * value)} %` : plain(value));

// --- what is drawn --------------------------------------------------------------------------------

const valueOf = (look, name) => look.figures.find((it) => it.name === name)?.value;

// The places of a figure's line: when, and its value, or of a counter how it rose.
function places({ name, kind }) {
  const known = looks.map((look) => [look.up, valueOf(look, name)]).filter(([, value]) => value !== undefined);
  if (kind !== "counter") return known;
  return known.slice(1).map(([up, value], at) => [up, (value - known[at][1]) / (up - known[at][0])]);
}

// A line of the last minutes, with its least and largest value in words.
function drawn(figure, known) {
  const values = known.map(([, value]) => value);
  const [least, most] = [Math.min(...values), Math.max(...values)];
  const up = known.at(-1)[0];
  const x = (when) => WIDTH * (1 - (up - when) / SECONDS);
  const y = (value) => (most > least ? 2 + (HEIGHT - 4) * (most - value) / (most - least) : HEIGHT / 2);
  const points = known.map(([when, value]) => `${x(when).toFixed(1)},${y(value).toFixed(1)}`).join(" ");
  const words = figure.kind === "counter" ? rate : written;
  const label = `from ${words(figure.name, least)} to ${words(figure.name, most)}`;
  const its = { viewBox: `0 0 ${WIDTH} ${HEIGHT}`, role: "img", "aria-label": label };
  return svg("svg", its, svg("polyline", { points }));
}

function row(figure) {
  const { name, kind, about, value } = figure;
  const known = places(figure);
  const line = known.length > 1 && drawn(figure, known);
  const rises = kind === "counter" && known.length > 0 && rate(name, known.at(-1)[1]);
  const head = make("th", { scope: "row" }, name, make("span", { class: "about" }, about));
  const now = make("td", { "data-value": value }, written(name, value));
  return make("tr", { id: `figure-${name}` }, head, now, make("td", {}, rises || ""), make("td", {}, line || ""));
}

// A reader speaks what is new here, so the same is not said again.
function showToLookAt(figures) {
  const its = Object.fromEntries(figures.map(({ name, value }) => [name, value]));
  const found = TO_LOOK_AT.filter(([isSo]) => isSo(its)).map(([, text]) => text);
  const said = found.length ? found : ["Nothing."];
  if (said.join("\n") === [...$("look").children].map((it) => it.textContent).join("\n")) return;
  fill($("look"), ...said.map((it) => make("li", { class: found.length ? "fault" : null }, it)));
}

function take({ file, figures }) {
  const up = figures.find((it) => it.name === "up_seconds").value;
  if (looks.length && up <= looks.at(-1).up) looks.length = 0; // Another service, which counts anew.
  looks.push({ up, figures });
  while (up - looks[0].up > SECONDS) looks.shift();
  $("file").textContent = `The service of ${file.split("/").pop().replace(/\.sock$/, "")}`;
  document.title = $("file").textContent;
  showToLookAt(figures);
  fill($("figures"), ...figures.map(row));
}

// --- the beginning --------------------------------------------------------------------------------

async function poll() {
  if (!document.hidden && !standsStill) {
    const told = await trying(() => ask("status", {}));
    if (told && wasAway) say("The service answers again.");
    if (told && !standsStill) take(told);
    wasAway = !told;
  }
  setTimeout(poll, POLL);
}

function halt() {
  standsStill = !standsStill;
  $("halt").setAttribute("aria-pressed", `${standsStill}`);
}

await begin();
$("halt").onclick = halt;
poll();
