// One page to print: the map at a scale, its legend, a scale bar, and a block with title, design, date and planner.
import { $, button, fill, make, options, sample, say, trying } from "./dom.js";
import { map, scale, showWindow, zoomOf } from "./chart.js";
import { desk, WORDS } from "./shared.js";
import { layersOff, sampleOf, STATES } from "./styles.js";

const PAPERS = { "a4-landscape": "A4 landscape", "a4-portrait": "A4 portrait", "a3-landscape": "A3 landscape",
  "a3-portrait": "A3 portrait" };
const SCALES = [200, 250, 500, 1000, 2000, 2500, 5000, 10000, 25000, 50000, 100000];
let before;

export function fillPrint() {
  const its = desk.state.tree.find((it) => it.name === desk.at)?.about || {};
  const paper = make("select", { id: "paper" });
  options(paper, Object.entries(PAPERS), "a4-landscape");
  const size = make("select", { id: "print-scale" });
  options(size, [["", "as it is shown"], ...SCALES.map((it) => [it, `1 : ${it.toLocaleString("en")}`])], "");
  const title = make("input", { id: "print-title", value: its.title || desk.at, maxlength: 100 });
  const field = (text, node) => make("p", {}, make("label", {}, `${text} `, node));
  const go = (event) => {
    event.preventDefault();
    trying(() => layOut(paper.value, Number(size.value) || null, title.value));
  };
  fill($("view"), make("form", { class: "about", onsubmit: go }, make("h3", {}, `Print ${desk.at}`),
    field("Paper", paper), field("Scale", size),
    field("Title", title), make("p", { class: "buttons" }, button("lay-out", "Lay out the page"))));
}

// Lays out the page. The map has its middle and its scale on the paper, too.
async function layOut(paper, number, title) {
  before = { center: map.getCenter(), zoom: map.getZoom() };
  const size = number || scale();
  document.body.classList.add("sheet", paper);
  map.invalidateSize({ animate: false });
  map.options.zoomSnap = 0;
  map.setView(before.center, zoomOf(size), { animate: false });
  await showWindow();
  fillBlock(title, Math.round(scale()));
  $("print-now").focus();
  say("This is the page. Print it, or save it as PDF.");
}

function fillBlock(title, number) {
  const its = desk.state.tree.find((it) => it.name === desk.at)?.about || {};
  const off = new Set(layersOff());
  const drawn = [...document.querySelectorAll("#map [class*=is-]")];
  const shown = new Set(drawn.map((it) => it.getAttribute("class").match(/is-(\w+)/)[1]));
  const states = Object.entries(STATES).filter(([status]) => status !== "same" && shown.has(status))
    .map(([status, style]) => [sample(style), WORDS[status]]);
  const layers = desk.design.layers.filter((it) => it.is_on_map && !off.has(it.table)).flatMap((it) =>
    [[sampleOf(it), it.name],
    ...Object.entries(it.style.values).map(([value, look]) => [sampleOf(it, look), `${it.name}: ${value}`])]);
  const legend = [...layers, ...states].map(([node, text]) => make("li", {}, node, text));
  const lines = { Design: desk.at, Owner: its.owner, Status: its.status, Scale: `1 : ${number.toLocaleString("en")}`,
    Coordinates: desk.design.layers.find((it) => it.is_on_map)?.crs,
    Printed: `${new Date().toISOString().slice(0, 10)}, ${desk.state.planner}` };
  const rows = Object.entries(lines).filter(([, text]) => text)
    .flatMap(([name, text]) => [make("dt", {}, name), make("dd", {}, text)]);
  fill($("block"), make("div", { class: "title" }, make("strong", {}, title), make("span", {}, its.note || "")),
    make("ul", { "aria-label": "Legend" }, ...legend), make("dl", {}, ...rows));
}

function leave() {
  document.body.classList.remove("sheet", ...Object.keys(PAPERS));
  map.options.zoomSnap = 0.25;
  map.invalidateSize({ animate: false });
  map.setView(before.center, before.zoom, { animate: false });
  say("");
}

export function listen() {
  $("print-now").onclick = () => window.print();
  $("print-leave").onclick = leave;
}
