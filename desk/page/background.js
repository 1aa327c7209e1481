// The office's map below the features: one picture for each window. It is grey, so that colours are those of features.
import { $, make, trying } from "./dom.js";
import { map } from "./chart.js";
import { askPicture } from "./server.js";
import { desk } from "./shared.js";

let shown, request;
let isOn = sessionStorage.getItem("background") !== "off";

// Asks for what lies below the window, and shows it in place of the picture before.
export async function showBackground() {
  request?.abort();
  if (!desk.state?.background || !isOn) return hide();
  request = new AbortController();
  const bounds = map.getBounds();
  const { x: width, y: height } = map.getSize();
  const box = [bounds.getWest(), bounds.getSouth(), bounds.getEast(), bounds.getNorth()].join(",");
  const { signal } = request;
  try {
    const words = { at: desk.at, box, width, height };
    const picture = URL.createObjectURL(await askPicture("background", words, { signal }));
    if (signal.aborted) return URL.revokeObjectURL(picture);
    hide();
    if (!map.getPane("background")) map.createPane("background").style.zIndex = 150;
    shown = L.imageOverlay(picture, bounds, { pane: "background", className: "background", alt: "" }).addTo(map);
    tell("");
  } catch (fault) {
    if (fault.name === "AbortError") return null;
    hide();
    tell(fault.message);
  }
  return null;
}

function hide() {
  if (shown) URL.revokeObjectURL(shown._url);
  shown?.remove();
  shown = null;
}

const tell = (text) => { if ($("background-said")) $("background-said").textContent = text; };

// The background in the list of layers.
export function backgroundItem() {
  if (!desk.state?.background) return null;
  const toggle = () => {
    isOn = !isOn;
    sessionStorage.setItem("background", isOn ? "on" : "off");
    tell("");
    trying(showBackground);
  };
  const box = make("input", { type: "checkbox", id: "layer-background", checked: isOn, onchange: toggle });
  const said = make("small", { id: "background-said", role: "status" }, $("background-said")?.textContent || "");
  return make("li", {}, make("label", {}, box, ` Background: ${desk.state.background}`), said);
}
