// The view of a descent: start, flap settings, the altitude over orbits, how it ends.
import { field, fillTable, make, setRefusal, setText, setValue } from "./dom.js";
import { axes, keyEntry, linePath, linearScale, pretty } from "./chart.js";
import { drawn, figure } from "./figure.js";
import { csvHead, csvLine, figureSvg, saveFile } from "./save.js";

const FRAME = { left: 58, top: 46, right: 14, bottom: 44, height: 340 };
const STYLES = ["curve accent solid", "curve accent dashed"];
const ENDINGS = {
  1: "ends without a density: an orbit's loss is no number, negative, or beyond 1,000 km",
  2: "reaches the lower end: the next loss would take it below 200 km",
  3: "all settings are flown",
};
const kilometres = (millimetres) => millimetres / 1e6;

// the altitude in millimetres before the first orbit and after each
function altitudesOf(start, losses) {
  const altitudes = [start];
  for (const loss of losses) altitudes.push(altitudes.at(-1) - loss);
  return altitudes;
}

export function descentView(root, change) {
  const start = field({ id: "start", label: "Start, 200 to 1,000", unit: "km", onchange: (text) => change((state) => (state.start = text)) });
  const settings = field({
    id: "settings", label: "Flap settings, 1 to 4, x orbits", text: true, title: "as 2 x 1500, 4 x 500",
    onchange: (text) => change((state) => (state.settings = text)),
  });
  settings.input.inputMode = "text";
  const found = make("div", { id: "descent-found", class: "found" });
  const where = make("p", { class: "where" });
  const table = make("table", { class: "numbers", id: "descent-table", "aria-label": "Altitude after some of the orbits" });
  let shown = null;
  const picture = figure({
    id: "descent", label: "Altitude over orbits", reader: "Orbit at which the altitude is read off: arrow keys, Page Up and Down, Home, End",
    steps: () => (shown?.x ? shown.longest : 0),
    toStep: (x) => (shown?.x ? Math.max(0, Math.min(shown.longest - 1, Math.round(shown.x.inverse(x)))) : -1),
    read: (step, kept) => {
      if (kept) change((state) => (state.at = step < 0 ? "" : String(step)));
      else showReading(step < 0 ? shown.at : step);
    },
  });

  function showReading(step) {
    if (!shown?.x || step < 0) {
      setText(where, shown?.x ? "Point at the curve, or use the arrow keys on it, to read it off." : "");
      picture.mark(-1, "no orbit is read", "");
      return;
    }
    const { x, y, frame, flights } = shown;
    const words = flights.map(({ name, altitudes }) => name + (step < altitudes.length ? `${pretty(kilometres(altitudes[step]), 9)} km` : "ended before"));
    const text = `After orbit ${step}: ${words.join("; ")}`;
    setText(where, text);
    const flying = flights.filter(({ altitudes }) => step < altitudes.length);
    const dots = flying.map(({ altitudes }) => `<circle class="dot" cx="${x(step)}" cy="${y(kilometres(altitudes[step]))}" r="3.5"/>`);
    picture.mark(step, text, `<path class="cursor" d="M${x(step)} ${frame.y}v${frame.height}"/>${dots.join("")}`);
  }

  function csv() {
    let text = csvHead(shown.results) + csvLine(["case", "orbit", "setting", "loss mm", "altitude after it mm"]);
    for (const { case: name, altitudes, losses } of shown.flights) {
      losses.forEach((loss, k) => (text += csvLine([name, k + 1, shown.settings[k], loss, altitudes[k + 1]])));
    }
    return text;
  }
  const svg = () => figureSvg(picture.drawing.querySelector("svg"));
  const hint = "Each orbit loses the whole part of density × 10¹⁵ × setting in mm, the density in kg/m³ at its altitude; none takes it below 200 km.";
  root.append(
    make(
      "div",
      { class: "bar" },
      start.root,
      settings.root,
      make("span", { class: "fill" }),
      make("button", { type: "button", id: "save-descent-csv", onclick: () => saveFile("potirehu-descent.csv", "text/csv", csv()) }, "Save descent (CSV)"),
      make("button", { type: "button", id: "save-descent-svg", onclick: () => saveFile("potirehu-descent.svg", "image/svg+xml", svg()) }, "Save figure (SVG)"),
    ),
    found,
    where,
    picture.root,
    make("div", { class: "scroll", tabIndex: 0, role: "region", "aria-label": "Table of the descent" }, table),
    make("p", { class: "hint" }, hint),
  );

  return (state, results, width) => {
    const { refusals, flown, settings: list, start: from } = results.descent;
    setValue(start.input, state.start);
    setValue(settings.input, state.settings);
    setRefusal(start.input, start.refusal, refusals.get("start"));
    setRefusal(settings.input, settings.refusal, refusals.get("settings"));
    const both = results.cases.length === 2;
    const flights = flown
      .map((flight, i) => {
        const name = i ? "second" : "first";
        return flight && { ...flight, case: name, name: both ? `${name} ` : "", style: STYLES[i], altitudes: altitudesOf(from, flight.losses) };
      })
      .filter(Boolean);
    const at = state.at === "" ? -1 : Math.max(0, Math.round(Number(state.at)) || 0);
    const frame = { x: FRAME.left, y: FRAME.top, width: width - FRAME.left - FRAME.right, height: FRAME.height };
    shown = { results, flights, settings: list, frame, at, longest: Math.max(0, ...flights.map(({ altitudes }) => altitudes.length)) };
    let body;
    if (flights.length === 0) body = `<text class="title" x="12" y="28">Refused: see the fields marked.</text>`;
    else {
      const low = Math.min(...flights.map(({ altitude }) => altitude));
      shown.x = linearScale(0, Math.max(1, shown.longest - 1), frame.x, frame.x + frame.width);
      shown.y = linearScale(Math.max(195, kilometres(low) - 3), kilometres(from) + 3, frame.y + frame.height, frame.y);
      body = axes({ frame, x: shown.x, y: shown.y, title: "Altitude over orbits", unit: "km", yTitle: "altitude, km" });
      body += `<text class="tick" x="${frame.x + frame.width / 2}" y="${frame.y + frame.height + 36}" text-anchor="middle">orbits</text>`;
      if (both) body += keyEntry(frame.x + 190, frame.y - 10, "first", STYLES[0]) + keyEntry(frame.x + 260, frame.y - 10, "second", STYLES[1]);
      for (const { altitudes, style } of flights) {
        const each = Math.max(1, Math.ceil(altitudes.length / 1500)), count = Math.ceil((altitudes.length - 1) / each) + 1;
        const index = (k) => Math.min(altitudes.length - 1, k * each);
        body += `<path class="${style}" d="${linePath((k) => shown.x(index(k)), (k) => shown.y(kilometres(altitudes[index(k)])), count)}"/>`;
      }
    }
    const ends = flights.map(({ case: name, ending, altitude, losses }) => {
      const words = `${losses.length.toLocaleString("en")} orbits, to ${pretty(kilometres(altitude), 9)} km; ${ENDINGS[ending]}.`;
      return both ? `${name[0].toUpperCase()}${name.slice(1)}: ${words}` : words;
    });
    found.replaceChildren(...ends.map((text) => make("p", {}, text)));
    picture.draw(drawn("descent", Math.round(width), frame.y + frame.height + FRAME.bottom, "Altitude over orbits", body), ends.join(" ") || "Refused.");
    showReading(Math.min(at, shown.longest - 1));
    fillDescentTable(table, flights, list, both);
  };
}

function fillDescentTable(table, flights, settings, both) {
  const longest = Math.max(0, ...flights.map(({ losses }) => losses.length));
  const each = Math.max(1, Math.ceil(longest / 20));
  const orbits = Array.from({ length: Math.ceil(longest / each) }, (_, k) => Math.min(longest, (k + 1) * each));
  const lines = orbits.flatMap((orbit) =>
    flights
      .filter(({ losses }) => orbit <= losses.length)
      .map(({ case: name, losses, altitudes }) =>
        [orbit, ...(both ? [name] : []), settings[orbit - 1], (losses[orbit - 1] / 1000).toFixed(3), kilometres(altitudes[orbit]).toFixed(6)].map(String),
      ),
  );
  const heads = ["Orbit", ...(both ? ["Case"] : []), "Setting", 'Loss <span class="unit">m</span>', 'Altitude after it <span class="unit">km</span>'];
  fillTable(table, longest ? `<tr>${heads.map((head) => `<th scope="col">${head}</th>`).join("")}</tr>` : "", lines);
}
